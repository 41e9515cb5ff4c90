/*
 * Tallies by hand: opening, a sale, previews, refusals in their order, the largest sums, places,
 * numbers.
 */
#include <string.h>

#include "tally.h"
#include "tests.h"

#define LARGEST_TEXT "18446744073709551615.99"

enum { UAH = 39, ILS = 17, SIZE = YOKEPEAR_TALLY_SIZE, ROOM = YOKEPEAR_UK_CURRENCY_PHRASE };

static void must(int is_so, const struct tally_call *call, const char *what) {
  if (!is_so) tally_differs(call, what);
}

/* Adds a text or removes an item in every room; it must be refused by this, 0 if by nothing. */
static void add(struct sheet *sheet, const char *text, uint32_t refusal) {
  struct tally_call call = {0};
  add_text(&call, text);
  must(expect_in_rooms(sheet, &call) == refusal, &call, "another refusal than by hand");
}

static void take(struct sheet *sheet, uint32_t item, uint32_t refusal) {
  struct tally_call call = {.item = item};
  must(expect_in_rooms(sheet, &call) == refusal, &call, "another refusal than by hand");
}

static void test_opening(void) {
  static const char *const unknown[] = {"", "U", "UA", "UAHH", "uah", "EURO", "\xff", "\x01", "40"};
  static const size_t lengths[] = {0, 1, 836, 837, 838, LONGEST_TALLY};
  for (size_t k = 0; k < sizeof lengths / sizeof *lengths; k++) {
    for (size_t i = 0; i < code_count; i++)
      expect_opening((const uint8_t *)codes[i], strlen(codes[i]), lengths[k], (uint8_t)(i + 1));
    for (size_t i = 0; i < sizeof unknown / sizeof *unknown; i++)
      expect_opening((const uint8_t *)unknown[i], strlen(unknown[i]), lengths[k], 0);
    expect_opening(0, 0, lengths[k], 0);
  }
}

/* What is done in a sale, and what is said then; a removed item has no text. */
struct step {
  const char *text;
  uint32_t item;
  const char *phrase;
};
static const struct step sale[] = {
    {"32.50", 1, "тридцять дві гривні пʼятдесят копійок"},
    {"46.99", 2, "сімдесят девʼять гривень сорок девʼять копійок"},
    {"0", 3, "сімдесят девʼять гривень сорок девʼять копійок"},
    {"0.51", 4, "вісімдесят гривень"},
    {0, 2, "тридцять три гривні одна копійка"},
    {"46.98", 5, "сімдесят девʼять гривень девʼяносто девʼять копійок"},
    {0, 1, "сорок сім гривень сорок девʼять копійок"},
    {0, 4, "сорок шість гривень девʼяносто вісім копійок"},
    {0, 5, "нуль гривень"},
    {0, 3, "нуль гривень"},
    {"1.02", 6, "одна гривня дві копійки"},
};

static const yokepear_uk nominative = {.gender = YOKEPEAR_MASCULINE};

static yokepear_tallied make_step(const struct step *step, uint8_t tally[SIZE], char phrase[ROOM]) {
  const char *text = step->text;
  if (!text) return yokepear_tally_remove_in(nominative, step->item, tally, SIZE, phrase, ROOM);
  return yokepear_tally_add_in(nominative, tally, SIZE, text, strlen(text), phrase, ROOM);
}

static yokepear_tallied preview_step(const struct step *step, const uint8_t tally[SIZE],
                                     char phrase[ROOM]) {
  const char *text = step->text;
  if (!text)
    return yokepear_tally_preview_remove_in(nominative, step->item, tally, SIZE, phrase, ROOM);
  return yokepear_tally_preview_add_in(nominative, tally, SIZE, text, strlen(text), phrase, ROOM);
}

static struct tally_call call_of(const struct step *step, int is_preview) {
  struct tally_call call = {.is_preview = is_preview, .tally_length = SIZE, .item = step->item};
  if (step->text) add_text(&call, step->text);
  return call;
}

/* A step that is not refused must answer this, made or previewed. */
static void expect_step(const struct step *step, int is_preview, yokepear_tallied got,
                        const char phrase[ROOM]) {
  struct tally_call call = call_of(step, is_preview);
  must(!got.refusal && got.item == (step->text ? step->item : 0), &call, "the item number");
  must(got.length == strlen(step->phrase) && !memcmp(phrase, step->phrase, got.length), &call,
       step->phrase);
}

static void make(const struct step *step, uint8_t tally[SIZE]) {
  char phrase[ROOM];
  yokepear_tallied got = make_step(step, tally, phrase);
  expect_step(step, 0, got, phrase);
}

static void preview(const struct step *step, const uint8_t tally[SIZE]) {
  char phrase[ROOM];
  yokepear_tallied got = preview_step(step, tally, phrase);
  expect_step(step, 1, got, phrase);
}

/* By the calls alone, from the opened tally on, each step previewed first; phrases are by hand. */
static void test_sale(void) {
  uint8_t tally[SIZE];
  yokepear_tally_open("UAH", 3, tally, SIZE);
  for (size_t i = 0; i < sizeof sale / sizeof *sale; i++) {
    preview(&sale[i], tally);
    make(&sale[i], tally);
  }
}

/* Previewed again and again, both kinds in turn: the tally stays, and no item number is used up. */
static void test_previewed_again(void) {
  static const struct step empty = {0, 1, "нуль гривень"};
  uint8_t tally[SIZE], before[SIZE];
  yokepear_tally_open("UAH", 3, tally, SIZE);
  make(&sale[0], tally);
  memcpy(before, tally, SIZE);
  for (int i = 0; i < 5; i++) {
    preview(&sale[1], tally);
    preview(&empty, tally);
  }
  must(!memcmp(tally, before, SIZE), &(struct tally_call){0}, "previews have changed the tally");
  make(&sale[1], tally);
}

/* A tally that is previewed is an input: it may overlap the text, here in bytes behind it. */
static void test_previewed_text(void) {
  const size_t length = strlen(sale[0].text);
  uint8_t bytes[SIZE + MONEY_TEXT];
  char phrase[ROOM];
  yokepear_tally_open("UAH", 3, bytes, SIZE);
  memcpy(bytes + SIZE, sale[0].text, length);
  yokepear_tallied got = yokepear_tally_preview_add_in(nominative, bytes, sizeof bytes,
                                                       bytes + SIZE, length, phrase, ROOM);
  expect_step(&sale[0], 1, got, phrase);
}

static void expect_preview_refused(uint32_t refusal, const struct sheet *sheet, struct step step) {
  struct tally_call call = call_of(&step, 1);
  uint8_t tally[SIZE];
  char phrase[ROOM];
  encode_sheet(sheet, tally);
  yokepear_tallied got = preview_step(&step, tally, phrase);
  must(got.refusal == refusal && !got.item && !got.length, &call, "another refusal than by hand");
}

static void test_preview_refusals(void) {
  static struct sheet sheet = {.currency = UAH};
  const struct step least = {.text = "0.01"}, second = {.item = 2};
  write_down(&sheet, LARGEST);
  expect_preview_refused(YOKEPEAR_SUM_TOO_LARGE, &sheet, least);
  expect_preview_refused(YOKEPEAR_NOT_HELD, &sheet, second);
  for (int i = 1; i < MOST_AMOUNTS; i++) write_down(&sheet, 0);
  expect_preview_refused(YOKEPEAR_TALLY_FULL, &sheet, least);
  strike_out(&sheet, held_under(&sheet, 1));
  sheet.given = LAST_ITEM;
  expect_preview_refused(YOKEPEAR_TALLY_FULL, &sheet, least);
}

/* The call on no tally at all, and in settings that are outside their range. */
static struct tally_call on_zeros(struct tally_call call) {
  static const uint8_t zeros[YOKEPEAR_TALLY_SIZE];
  call.tally = zeros;
  call.tally_length = sizeof zeros;
  return call;
}
static struct tally_call out_of_range(struct tally_call call) {
  call.settings.numbers[0] = UINT32_MAX;
  return call;
}

static void first_is(uint32_t refusal, struct sheet *sheet, struct tally_call call) {
  must(expect_on_sheet(sheet, &call, NO_ROOM) == refusal, &call, "another refusal comes first");
}

/* Each refusal where the next ones apply as well, and the buffer is too short. */
static void test_order(void) {
  static struct sheet empty = {.currency = UAH}, full, rich;
  struct tally_call bad = {0}, negative = {0}, large = {0}, most = {0}, none = {.item = 2};
  add_text(&bad, "-007");
  add_text(&negative, "-18446744073709551616");
  add_text(&large, "18446744073709551616");
  add_text(&most, LARGEST_TEXT);
  full = rich = empty;
  write_down(&rich, LARGEST);
  for (int i = 0; i < MOST_AMOUNTS; i++) write_down(&full, 1);
  first_is(YOKEPEAR_BAD_SETTING, &full, out_of_range(on_zeros(bad)));
  first_is(YOKEPEAR_BAD_SETTING, &empty, out_of_range(on_zeros(none)));
  first_is(YOKEPEAR_BAD_CODE, &full, on_zeros(bad));
  first_is(YOKEPEAR_BAD_CODE, &empty, on_zeros(none));
  first_is(YOKEPEAR_BAD_TEXT, &full, bad);
  first_is(YOKEPEAR_NEGATIVE, &full, negative);
  first_is(YOKEPEAR_TOO_LARGE, &full, large);
  first_is(YOKEPEAR_TALLY_FULL, &full, most);
  first_is(YOKEPEAR_SUM_TOO_LARGE, &rich, most);
  first_is(YOKEPEAR_NOT_HELD, &rich, none);
  first_is(YOKEPEAR_SHORT_BUFFER, &empty, most);
  none.item = 1;
  first_is(YOKEPEAR_SHORT_BUFFER, &full, none);
}

/* Amounts whose sum is the largest; one hundredth more is refused, in whatever place. */
static const char *const to_largest[][5] = {
    {LARGEST_TEXT},
    {"18446744073709551615", "0.99"},
    {"0.99", "18446744073709551615"},
    {"18446744073709551614.99", "1"},
    {"18446744073709551614.99", "0.50", "0.50"},
    {"0.50", "18446744073709551614.50", "0.99"},
    {"9223372036854775808", "9223372036854775807.99"},
    {"9223372036854775807.99", "9223372036854775807.99", "0.01"},
    {"6148914691236517204.99", "6148914691236517204.99", "6148914691236517204.99", "1.02"},
    {"1.99", "18446744073709551610.01", "0.99", "1.01", "1.99"},
    {"18446744073709551600", "15", "0.33", "0.33", "0.33"},
};

static void test_sums(void) {
  for (size_t i = 0; i < sizeof to_largest / sizeof *to_largest; i++) {
    static const struct sheet opened = {.currency = UAH};
    static struct sheet sheet;
    uint32_t held = 0;
    sheet = opened;
    for (size_t k = 0; k < 5 && to_largest[i][k]; k++, held++) add(&sheet, to_largest[i][k], 0);
    struct tally_call call = {0};
    add_text(&call, to_largest[i][0]);
    must(sum_of_sheet(&sheet) == LARGEST, &call, "the amounts of the test have another sum");
    add(&sheet, "0.01", YOKEPEAR_SUM_TOO_LARGE);
    add(&sheet, "1", YOKEPEAR_SUM_TOO_LARGE);
    add(&sheet, LARGEST_TEXT, YOKEPEAR_SUM_TOO_LARGE);
    add(&sheet, "0", 0);
    take(&sheet, held + 1, 0);
    /* Taken off and put back, the sum is as large as before. */
    take(&sheet, held, 0);
    add(&sheet, to_largest[i][held - 1], 0);
    add(&sheet, "0.01", YOKEPEAR_SUM_TOO_LARGE);
  }
}

/* 63 times 99 hundredths, 62.37 in all, and what is left up to the largest sum. */
static void test_carries(void) {
  static struct sheet sheet = {.currency = UAH};
  for (int i = 0; i < MOST_AMOUNTS - 1; i++) add(&sheet, "0.99", 0);
  add(&sheet, "18446744073709551553.63", YOKEPEAR_SUM_TOO_LARGE);
  add(&sheet, "18446744073709551553.62", 0);
  take(&sheet, 1, 0);
  add(&sheet, "1", YOKEPEAR_SUM_TOO_LARGE);
  add(&sheet, "0.99", 0);
}

/* 64 amounts, those of 0 among them, fill a tally; each place that comes free is filled again. */
static void test_places(void) {
  static struct sheet sheet = {.currency = UAH};
  const uint32_t step = 3;
  for (int i = 0; i < MOST_AMOUNTS; i++) add(&sheet, i % 2 ? "1.01" : "0", 0);
  add(&sheet, "0", YOKEPEAR_TALLY_FULL);
  for (uint32_t item = MOST_AMOUNTS; item > step; item -= step) take(&sheet, item, 0);
  for (uint32_t item = MOST_AMOUNTS; item > step; item -= step) {
    take(&sheet, item, YOKEPEAR_NOT_HELD);
    add(&sheet, "0.05", 0);
  }
  add(&sheet, "0", YOKEPEAR_TALLY_FULL);
  take(&sheet, MOST_AMOUNTS, YOKEPEAR_NOT_HELD);
  take(&sheet, 0, YOKEPEAR_NOT_HELD);
  take(&sheet, sheet.given + 1, YOKEPEAR_NOT_HELD);
  take(&sheet, LAST_ITEM, YOKEPEAR_NOT_HELD);
  while (held_on(&sheet)) {
    size_t place = 0;
    while (!sheet.places[place]) place++;
    take(&sheet, sheet.amounts[sheet.places[place] - 1].item, 0);
  }
  take(&sheet, 1, YOKEPEAR_NOT_HELD);
  take(&sheet, 0, YOKEPEAR_NOT_HELD);
  add(&sheet, "0.05", 0);
}

/* So many calls cannot be made: the tally is one that has given all item numbers but the last. */
static void test_last_item(void) {
  static struct sheet sheet = {.currency = UAH};
  sheet.given = LAST_ITEM - 2;
  write_down(&sheet, 5);
  add(&sheet, LARGEST_TEXT, YOKEPEAR_SUM_TOO_LARGE);
  add(&sheet, "1.50", 0);
  must(sheet.given == LAST_ITEM, &(struct tally_call){0}, "the last item number is not given");
  add(&sheet, "1.50", YOKEPEAR_TALLY_FULL);
  add(&sheet, LARGEST_TEXT, YOKEPEAR_TALLY_FULL);
  take(&sheet, LAST_ITEM, 0);
  add(&sheet, "1.50", YOKEPEAR_TALLY_FULL);
  take(&sheet, LAST_ITEM, YOKEPEAR_NOT_HELD);
  take(&sheet, LAST_ITEM - 1, 0);
  add(&sheet, "0", YOKEPEAR_TALLY_FULL);
}

/* No total is longer than the longest amount, and this one, in two parts, is as long. */
static void test_longest(void) {
  const union settings settings = {.uk = {.grammatical_case = YOKEPEAR_INSTRUMENTAL,
                                          .apostrophe = YOKEPEAR_APOSTROPHE_U2019}};
  static struct sheet sheet = {.currency = ILS};
  uint8_t phrase[YOKEPEAR_UK_CURRENCY_PHRASE];
  struct tally_call call = {.settings = settings};
  add_text(&call, "9989989989989989989.90");
  expect_in_rooms(&sheet, &call);
  add_text(&call, "4999999999999999999.99");
  must(!expect_in_rooms(&sheet, &call), &call, "the longest total is refused");
  size_t length = speak_money(&settings, ILS, sum_of_sheet(&sheet), phrase);
  must(length == YOKEPEAR_UK_CURRENCY_PHRASE, &call, "the longest total has another length");
}

void test_tally(void) {
  start_tallies();
  test_opening();
  test_sale();
  test_previewed_again();
  test_previewed_text();
  test_preview_refusals();
  test_order();
  test_sums();
  test_carries();
  test_places();
  test_last_item();
  test_longest();
  test_tally_lists();
  test_tally_bytes();
  end_tallies();
}
