/* The sizes that the header gives for buffers: each is the length of the longest answer. */
#include <stdio.h>
#include <stdlib.h>
#include <string.h>

#include "expect.h"
#include "longest.h"
#include "tests.h"

enum { SAMPLES = 100 };

/*
 * A spelling call, the sizes of its phrase and of the text read back (0 if nothing reads it), its
 * limit, the limit below zero (null if it refuses negative figures), and which of its settings
 * have an effect: those are 1.
 */
static const struct size {
  const char *call;
  size_t phrase, text;
  const char *limit, *below_zero;
  union settings effect;
} sizes[] = {
    {"uk_to_cardinal", YOKEPEAR_UK_CARDINAL_PHRASE, YOKEPEAR_UK_CARDINAL_TEXT, NINES_66, NINES_66,
     {.uk = {.gender = 1, .grammatical_case = 1, .apostrophe = 1}}},
    {"uk_to_ordinal", YOKEPEAR_UK_ORDINAL_PHRASE, YOKEPEAR_UK_ORDINAL_TEXT, NINES_66, 0,
     {.uk = {.gender = 1, .number = 1, .grammatical_case = 1, .apostrophe = 1,
             .ordinal_style = 1}}},
    {"uk_to_ordinal_num", YOKEPEAR_UK_ORDINAL_NUM_PHRASE, 0,
     "340282366920938463463374607431768211455", 0,
     {.uk = {.gender = 1, .number = 1, .grammatical_case = 1}}},
    {"uk_to_year", YOKEPEAR_UK_YEAR_PHRASE, YOKEPEAR_UK_YEAR_TEXT, "9223372036854775807",
     "9223372036854775808",
     {.uk = {.number = 1, .grammatical_case = 1, .apostrophe = 1, .ordinal_style = 1}}},
    {"uk_to_currency", YOKEPEAR_UK_CURRENCY_PHRASE, YOKEPEAR_UK_CURRENCY_TEXT,
     "18446744073709551615", 0, {.uk = {.grammatical_case = 1, .apostrophe = 1}}},
    {"fr_to_cardinal", YOKEPEAR_FR_CARDINAL_PHRASE, YOKEPEAR_FR_CARDINAL_TEXT, NINES_102, NINES_102,
     {.fr = {.feminine = 1, .reformed = 1, .region = 1}}},
    {"fr_to_ordinal", YOKEPEAR_FR_ORDINAL_PHRASE, YOKEPEAR_FR_ORDINAL_TEXT, NINES_102, 0,
     {.fr = {.reformed = 1, .region = 1}}},
};

/* The longest phrase so far of a call: what was asked, for which figure. */
struct record {
  struct request request;
  struct figure figure;
  size_t length;
};

static void show(const struct request *r, const char *text) {
  show_call(r);
  if (r->code) printf(", code %.*s", (int)r->code_length, (const char *)r->code);
  printf(", %s\n", text);
}

static void differ(const char *what, const struct request *r, const char *text, size_t got,
                   size_t want) {
  printf("DIFFERENCE: ");
  show(r, text);
  printf("  %s: %zu, expected %zu\n", what, got, want);
  exit(1);
}

/* Half of them are 0 or 1, which are spoken in ways of their own. */
static int random_group(int most) {
  if (rand() % 2) return rand() % 2;
  return rand() % (most + 1);
}

/* The same figures at every run: rand is never seeded. */
static struct figure random_figure(const struct figure *limit, int has_hundredths) {
  struct figure f = zero_like(limit);
  int top = limit->orders - 1;
  do {
    for (int order = 0; order < top; order++) f.groups[order] = random_group(GROUPS - 1);
    f.groups[top] = random_group(limit->groups[top]);
  } while (is_beyond(&f, limit));
  if (has_hundredths) f.hundredths = rand() % HUNDREDTHS;
  return f;
}

static void test_sum(const struct lengths *lengths, const struct request *request,
                     const struct figure *f) {
  char text[FIGURE_TEXT];
  uint8_t phrase[LARGE];
  struct request r = *request;
  set_figure(&r, f, text);
  size_t length = answer_of(&r, phrase), sum = sum_of(lengths, f);
  if (length != sum) differ("the phrase is not as long as its groups", &r, text, length, sum);
}

/* Whether the settings differ in no setting that has an effect. */
static int are_alike(const struct size *size, const union settings *a, const union settings *b) {
  for (int i = 0; i < SETTINGS; i++)
    if (a->numbers[i] != b->numbers[i] && size->effect.numbers[i]) return 0;
  return 1;
}

/* Lengths are learnt in the first of the settings alike; in all it would take thrice the time. */
static int is_first_alike(const struct size *size, const union settings *settings) {
  for (int i = 0; i < SETTINGS; i++)
    if (settings->numbers[i] && !size->effect.numbers[i]) return 0;
  return 1;
}

/* The longest figure and many others are as long as their groups, in all settings alike. */
static void test_sums(const struct size *size, const struct lengths *lengths,
                      const struct request *request, const struct figure *longest) {
  struct request r = *request;
  memset(&r.settings, 0, sizeof r.settings);
  do {
    if (!are_alike(size, &r.settings, &request->settings)) continue;
    test_sum(lengths, &r, longest);
    for (int i = 0; i < SAMPLES; i++) {
      struct figure f = random_figure(&lengths->limit, r.call->kind == MONEY);
      test_sum(lengths, &r, &f);
    }
  } while (next_settings(r.call, &r.settings));
}

static void find_longest(const struct size *size, const struct request *r, const char *digits,
                         int negative, struct record *record) {
  static struct lengths lengths;
  struct figure limit = figure_of(digits, negative);
  learn_lengths(&lengths, r, &limit);
  struct figure longest = longest_figure(&lengths);
  test_sums(size, &lengths, r, &longest);
  size_t length = sum_of(&lengths, &longest);
  if (length <= record->length) return;
  record->request = *r;
  record->figure = longest;
  record->length = length;
}

/* In every setting that has an effect, on both sides of zero. */
static void find_in_settings(const struct size *size, struct request r, struct record *record) {
  do {
    if (!is_first_alike(size, &r.settings)) continue;
    find_longest(size, &r, size->limit, 0, record);
    if (size->below_zero) find_longest(size, &r, size->below_zero, 1, record);
  } while (next_settings(r.call, &r.settings));
}

static void find_in_currencies(const struct size *size, struct request r, struct record *record) {
  for (size_t i = 0; i < code_count; i++) {
    set_code(&r, codes[i]);
    find_in_settings(size, r, record);
  }
}

/* Spelled and read back with buffers of the answer's length, of one byte less, and others. */
static void expect_both_ways(const struct request *spelling) {
  uint8_t phrase[LARGE];
  size_t length = answer_of(spelling, phrase);
  expect_answer(spelling, phrase, length);
  struct request reading = *spelling;
  reading.call = reading_call(spelling);
  if (!reading.call) return;
  reading.input = phrase;
  reading.input_length = length;
  expect_answer(&reading, spelling->input, spelling->input_length);
}

static void test_phrase_size(const struct size *size, struct call *call) {
  char text[FIGURE_TEXT];
  struct record record = {0};
  struct request r = {0};
  r.call = call;
  if (call->kind == MONEY)
    find_in_currencies(size, r, &record);
  else
    find_in_settings(size, r, &record);
  r = record.request;
  set_figure(&r, &record.figure, text);
  if (record.length != size->phrase)
    differ("the longest phrase", &r, text, record.length, size->phrase);
  expect_both_ways(&r);
  printf("%zu bytes at most: ", record.length);
  show(&r, text);
}

/*
 * The least figure with a digit more than the limit is refused, so no admitted text is longer. A
 * year is an int64_t, so there is none to be refused.
 */
static void refuse_longer(const struct size *size, struct request r) {
  char text[FIGURE_TEXT + 1];
  if (r.call->kind == YEAR) return;
  int zeros = (int)strlen(size->limit);
  snprintf(text, sizeof text, "%s1%0*d%s", size->below_zero ? "-" : "", zeros, 0,
           r.call->kind == MONEY ? ".01" : "");
  set_text(&r, text);
  expect_refusal(&r, YOKEPEAR_TOO_LARGE);
}

/* The limit has the longest text, negative if it may be, with hundredths if it may have them. */
static void test_text_size(const struct size *size, struct call *call) {
  char text[FIGURE_TEXT];
  struct request r = {0};
  r.call = call;
  struct figure limit = figure_of(size->limit, size->below_zero != 0);
  if (call->kind == MONEY) {
    set_code(&r, codes[0]);
    limit.hundredths = HUNDREDTHS - 1;
  }
  do {
    set_figure(&r, &limit, text);
    if (r.input_length != size->text)
      differ("the longest text", &r, text, r.input_length, size->text);
    expect_both_ways(&r);
    refuse_longer(size, r);
  } while (next_settings(call, &r.settings));
}

void test_sizes(void) {
  for (size_t i = 0; i < sizeof sizes / sizeof *sizes; i++) {
    struct call *call = find_call(sizes[i].call);
    test_phrase_size(&sizes[i], call);
    if (sizes[i].text) test_text_size(&sizes[i], call);
  }
}
