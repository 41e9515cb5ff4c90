/* An example: a market till. Goods go into a sale and out of it, and every new total is spoken. */
#include <stdint.h>
#include <stdio.h>
#include <string.h>

#include "yokepear.h"

static const char hryvnia[] = {'U', 'A', 'H'};
static const yokepear_uk nominative = {.grammatical_case = YOKEPEAR_NOMINATIVE};

/* The sale that is open, and room for whatever its total may be. */
struct till {
  uint8_t sale[YOKEPEAR_TALLY_SIZE];
  char phrase[YOKEPEAR_UK_CURRENCY_PHRASE];
};

static void show(const struct till *till, const char *what, yokepear_tallied told) {
  if (told.refusal)
    printf("%s: %s\n", what, yokepear_refusal_text(told.refusal));
  else if (told.item)
    printf("%s, item %u: %.*s\n", what, (unsigned)told.item, (int)told.length, till->phrase);
  else
    printf("%s: %.*s\n", what, (int)told.length, till->phrase);
}

/* The item number under which the goods can be taken off again, or 0. */
static uint32_t add(struct till *till, const char *name, const char *price) {
  yokepear_tallied told =
      yokepear_tally_add_in(nominative, till->sale, sizeof till->sale, price, strlen(price),
                            till->phrase, sizeof till->phrase);
  show(till, name, told);
  return told.item;
}

static void take_off(struct till *till, const char *name, uint32_t item) {
  yokepear_tallied told = yokepear_tally_remove_in(nominative, item, till->sale, sizeof till->sale,
                                                   till->phrase, sizeof till->phrase);
  show(till, name, told);
}

int main(void) {
  struct till till;
  yokepear_answer opened =
      yokepear_tally_open(hryvnia, sizeof hryvnia, till.sale, sizeof till.sale);
  if (opened.refusal) {
    printf("%s\n", yokepear_refusal_text(opened.refusal));
    return 1;
  }
  add(&till, "хліб", "32.50");
  uint32_t milk = add(&till, "молоко", "46.99");
  add(&till, "пакет", "0");
  take_off(&till, "без молока", milk);
  take_off(&till, "без молока", milk); /* it is off already */
  add(&till, "яблука", "21,50");       /* a comma is no point */
  add(&till, "яблука", "21.50");
  add(&till, "знижка", "-5");
  add(&till, "автомобіль", "18446744073709551615.99"); /* with the rest it is beyond all money */

  /* A tally is plain bytes: this sale waits while a neighbour is served. */
  struct till waiting = till;
  add(&till, "сірники", "1.02");
  add(&waiting, "олія", "71.11");
  return 0;
}
