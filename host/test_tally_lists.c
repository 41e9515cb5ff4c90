/*
 * Lists of calls on tallies, put together at random: whatever was added, removed and refused, the
 * item numbers, totals, phrases and bytes are those of the sheet on which the list is kept. Each
 * call is previewed before it is made.
 */
#include <stdio.h>
#include <stdlib.h>
#include <string.h>

#include "tally.h"
#include "tests.h"

enum { LISTS = 400, CALLS = 250, REFUSALS = YOKEPEAR_NOT_HELD + 1 };

static unsigned long counts[REFUSALS];

static const char *const malformed[] = {
    "",     "-",     "007",  "00",   "5.00", "5.5",  "5.",   ".50",  "0.00", "1,50", "+1",
    " 1",   "1 ",    "1e3",  "-0",   "--1",  "1.505", "-0.00", "01.50", "1.5a", "\xd0\xbe", "1\n",
    "18446744073709551616.", "-18446744073709551616.00",
};
static const char *const negative[] = {
    "-1", "-0.01", "-0.50", "-32.50", "-18446744073709551615.99", "-18446744073709551616",
};
static const char *const too_large[] = {
    "18446744073709551616", "18446744073709551616.01", "99999999999999999999",
    "100000000000000000000000000000000000000000000000000000000000000000000000000000000000000.99",
};
#define ANY_OF(texts) texts[random_below(sizeof texts / sizeof *texts)]

/* The kinds of lists: goods of everyday prices, amounts of all sizes, and the largest. */
enum { EVERYDAY, ALL_SIZES, HUGE, KINDS };

/* An amount as such a list has it, among them what is left to the largest sum, and 0.01 more. */
static hundredths random_value(const struct sheet *sheet, int kind) {
  hundredths left = LARGEST - sum_of_sheet(sheet);
  size_t turn = random_below(20);
  if (turn == 0) return 0;
  if (turn == 1) return random_below(100);
  if (kind == EVERYDAY) return random_below(turn < 10 ? 10000 : 1000000);
  if (turn == 2) return left;
  if (turn == 3) return left < LARGEST ? left + 1 : LARGEST;
  if (turn == 4) return left / 2;
  hundredths wide = (hundredths)100 * random_number() + random_below(100);
  return kind == HUGE ? wide : wide >> random_below(71);
}

/* A text to be added, nine times in ten an amount. The buffer is for a text that is written. */
static void random_text(struct tally_call *call, const struct sheet *sheet, int kind,
                        char text[MONEY_TEXT]) {
  size_t turn = random_below(40);
  if (turn == 0) {
    add_text(call, ANY_OF(malformed));
  } else if (turn == 1) {
    add_text(call, ANY_OF(negative));
  } else if (turn == 2) {
    add_text(call, ANY_OF(too_large));
  } else {
    write_money(random_value(sheet, kind), text);
    /* An amount with a byte exchanged for any other is hardly ever one. */
    if (turn == 3) text[random_below(strlen(text))] = (char)(1 + random_below(255));
    add_text(call, text);
  }
}

/* An item number: most often one that is held, or was given; else 0, the next one, or any. */
static uint32_t random_item(const struct sheet *sheet) {
  size_t turn = random_below(16), amount = sheet->places[random_below(MOST_AMOUNTS)];
  if (turn == 0) return 0;
  if (turn == 1) return sheet->given + 1;
  if (turn == 2) return (uint32_t)random_number();
  if (turn == 3) return LAST_ITEM;
  if (turn > 5 && amount) return sheet->amounts[amount - 1].item;
  return sheet->given ? 1 + (uint32_t)random_below(sheet->given) : 1;
}

/* One call in thirty has a setting outside its range: the next number, the largest, or 256. */
static void random_settings(union settings *settings) {
  static const struct call ukrainian = {0};
  for (int i = 0; i < UK_SETTINGS; i++)
    settings->numbers[i] = (uint32_t)random_below(setting_end(&ukrainian, i));
  if (random_below(30)) return;
  int i = (int)random_below(UK_SETTINGS);
  uint32_t outside[] = {setting_end(&ukrainian, i), UINT32_MAX, 256};
  settings->numbers[i] = outside[random_below(3)];
}

/*
 * The tally with bytes of another owner behind it; one call in forty is given less than a tally, or
 * a first byte that is no currency's number.
 */
static void random_tally(struct tally_call *call, const struct sheet *sheet,
                         uint8_t bytes[LONGEST_TALLY]) {
  memset(bytes, (int)random_below(256), LONGEST_TALLY);
  encode_sheet(sheet, bytes);
  call->tally = bytes;
  call->tally_length = YOKEPEAR_TALLY_SIZE + (random_below(2) ? random_below(100) : 0);
  size_t turn = random_below(80);
  if (turn == 0) call->tally_length = 1 + random_below(YOKEPEAR_TALLY_SIZE - 1);
  if (turn == 1) bytes[0] = (uint8_t)(random_below(2) ? 0 : 1 + code_count + random_below(211));
}

static enum room random_room(void) {
  return random_below(4) ? (random_below(2) ? GENEROUS : EXACT) : (enum room)random_below(ROOMS);
}

/* A call of a list; `adding` in ten add. */
static void random_call(struct sheet *sheet, int kind, size_t adding) {
  char text[MONEY_TEXT];
  uint8_t bytes[LONGEST_TALLY];
  struct tally_call call = {0};
  uint32_t given = sheet->given;
  random_settings(&call.settings);
  random_tally(&call, sheet, bytes);
  if (random_below(10) < adding)
    random_text(&call, sheet, kind, text);
  else
    call.item = random_item(sheet);
  uint32_t refusal = expect_on_sheet(sheet, &call, random_room());
  counts[refusal]++;
  /* Said once more, apart from the sheet: a number that was given never comes again. */
  if (sheet->given != given + (!refusal && call.is_adding))
    tally_differs(&call, "the sheet gives an item number again");
}

/* How many previews have been asked for. */
static unsigned long previews(void) {
  return tally_calls[PREVIEWING_ADD].done.asked + tally_calls[PREVIEWING_REMOVE].done.asked;
}

/* How often each refusal came; all must, and every call was previewed in both forms. */
static void show_lists(unsigned long previewed) {
  printf("%d calls on tallies in %d lists, previewed %lu times, by refusal:", LISTS * CALLS, LISTS,
         previewed);
  for (uint32_t refusal = 0; refusal < REFUSALS; refusal++) {
    printf(" %u: %lu", refusal, counts[refusal]);
    if (counts[refusal] || refusal == YOKEPEAR_NOT_A_SENTENCE) continue;
    printf("\nDIFFERENCE: refusal %u never came\n", refusal);
    exit(1);
  }
  printf("\n");
  if (previewed == 2 * LISTS * CALLS) return;
  printf("DIFFERENCE: not every call was previewed in both forms\n");
  exit(1);
}

void test_tally_lists(void) {
  unsigned long before = previews();
  for (int list = 0; list < LISTS; list++) {
    static struct sheet sheet;
    static const struct sheet empty;
    /* Some lists come to 64 amounts, others often come back to none. */
    size_t adding = 4 + random_below(6);
    sheet = empty;
    sheet.currency = random_below(code_count);
    /* No list is so long that it gives the last item number, so some begin far on. */
    if (!random_below(10)) sheet.given = LAST_ITEM - (uint32_t)random_below(100);
    const char *code = codes[sheet.currency];
    expect_opening((const uint8_t *)code, strlen(code), YOKEPEAR_TALLY_SIZE,
                   (uint8_t)(sheet.currency + 1));
    for (int call = 0; call < CALLS; call++) random_call(&sheet, list % KINDS, adding);
  }
  show_lists(previews() - before);
}
