/* An example: a price list is spoken, in hryvnias, and each phrase is read back. */
#include <stdio.h>
#include <string.h>

#include "yokepear.h"

#define PHRASE YOKEPEAR_UK_CURRENCY_PHRASE
#define TEXT YOKEPEAR_UK_CURRENCY_TEXT

static const char hryvnia[] = {'U', 'A', 'H'};
static const yokepear_uk nominative = {.grammatical_case = YOKEPEAR_NOMINATIVE};

static yokepear_answer speak(const char *price, char phrase[PHRASE]) {
  return yokepear_uk_to_currency_in(nominative, hryvnia, sizeof hryvnia, price, strlen(price),
                                    phrase, PHRASE);
}

static yokepear_answer listen(const char *phrase, size_t length, char text[TEXT]) {
  return yokepear_uk_from_currency_in(nominative, hryvnia, sizeof hryvnia, phrase, length, text,
                                      TEXT);
}

static const struct {
  const char *name, *price;
} list[] = {
    {"хліб", "32.50"},      {"молоко", "46.99"}, {"яблука, кілограм", "21"}, {"сірники", "1.02"},
    {"велосипед", "12345"}, {"олія", "71.11"},   {"автомобіль", "1000000.01"},
};

/* Speaks a price and reads it back; 1 if it came back as it was. */
static int item(const char *name, const char *price) {
  char phrase[PHRASE], text[TEXT];
  yokepear_answer spoken = speak(price, phrase);
  if (spoken.refusal) {
    printf("%s: %s: %s\n", name, price, yokepear_refusal_text(spoken.refusal));
    return 0;
  }
  yokepear_answer heard = listen(phrase, spoken.length, text);
  if (heard.refusal) {
    printf("%s: read back: %s\n", name, yokepear_refusal_text(heard.refusal));
    return 0;
  }
  printf("%s: %.*s (%.*s)\n", name, (int)spoken.length, phrase, (int)heard.length, text);
  return heard.length == strlen(price) && !memcmp(text, price, heard.length);
}

int main(void) {
  int good = 1;
  for (size_t i = 0; i < sizeof list / sizeof *list; i++) good &= item(list[i].name, list[i].price);
  return good ? 0 : 1;
}
