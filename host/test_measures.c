/* Lengths and words: counted by hand, over many figures in every setting, and refused in order. */
#include <string.h>

#include "expect.h"
#include "figure.h"
#include "tests.h"

#define U2019 {.uk = {.apostrophe = YOKEPEAR_APOSTROPHE_U2019}}
#define ASCII {.uk = {.apostrophe = YOKEPEAR_APOSTROPHE_ASCII}}
#define SCHOOL {.uk = {.ordinal_style = YOKEPEAR_ORDINAL_STYLE_SCHOOL}}

/*
 * Words and bytes are counted by hand: a Ukrainian letter has two bytes, and so have é and è; the
 * apostrophe U+02BC has two, U+2019 three, and the ASCII sign one.
 */
static const struct {
  const char *call;
  union settings settings;
  const char *code, *text, *phrase;
  uint32_t words;
  size_t length;
} counted[] = {
    {"uk_to_cardinal", {{0}}, "", "0", "нуль", 1, 8},
    {"uk_to_cardinal", {{0}}, "", "5", "пʼять", 1, 10},
    {"uk_to_cardinal", U2019, "", "5", "п’ять", 1, 11},
    {"uk_to_cardinal", ASCII, "", "5", "п'ять", 1, 9},
    {"uk_to_cardinal", {{0}}, "", "-1", "мінус один", 2, 19},
    {"uk_to_cardinal", U2019, "", "-1", "мінус один", 2, 19},
    {"uk_to_cardinal", {.uk = {.gender = YOKEPEAR_FEMININE}}, "", "42", "сорок дві", 2, 17},
    {"uk_to_ordinal", {{0}}, "", "21000", "двадцятиоднотисячний", 1, 40},
    {"uk_to_ordinal", {.uk = {.number = YOKEPEAR_PLURAL}}, "", "42", "сорок другі", 2, 21},
    {"uk_to_ordinal", U2019, "", "90", "дев’яностий", 1, 23},
    {"uk_to_ordinal", ASCII, "", "9", "дев'ятий", 1, 15},
    {"uk_to_ordinal", {{0}}, "", "200", "сотий", 1, 10},
    {"uk_to_ordinal", SCHOOL, "", "200", "двохсотий", 1, 18},
    {"uk_to_ordinal", SCHOOL, "", "1500", "одна тисяча пʼятисотий", 3, 42},
    {"uk_to_ordinal", SCHOOL, "", "95000", "девʼяностопʼятитисячний", 1, 46},
    {"uk_to_ordinal_num", {{0}}, "", "1", "1-й", 1, 4},
    {"uk_to_ordinal_num", SCHOOL, "", "200", "200-й", 1, 6},
    {"uk_to_ordinal_num", ASCII, "", "59", "59-й", 1, 5},
    {"uk_to_ordinal_num", {.uk = {.grammatical_case = YOKEPEAR_GENITIVE}}, "", "42", "42-го", 1, 7},
    {"uk_to_year", {{0}}, "", "2000", "двохтисячний рік", 2, 31},
    {"uk_to_year", {{0}}, "", "0", "нульовий рік до н.е.", 4, 35},
    {"uk_to_year", {{0}}, "", "-44", "сорок четвертий рік до н.е.", 5, 48},
    {"uk_to_year", SCHOOL, "", "200", "двохсотий рік", 2, 25},
    {"uk_to_year", U2019, "", "2009", "дві тисячі дев’ятий рік", 4, 44},
    {"uk_to_year", ASCII, "", "1995", "одна тисяча дев'ятсот дев'яносто п'ятий рік", 6, 78},
    {"uk_to_currency", {{0}}, "UAH", "0", "нуль гривень", 2, 23},
    {"uk_to_currency", {{0}}, "UAH", "0.11", "одинадцять копійок", 2, 35},
    {"uk_to_currency", {{0}}, "UAH", "1.02", "одна гривня дві копійки", 4, 43},
    {"uk_to_currency", U2019, "UAH", "5.59", "п’ять гривень п’ятдесят дев’ять копійок", 5, 77},
    {"uk_to_currency", ASCII, "UAH", "0.95", "дев'яносто п'ять копійок", 3, 44},
    {"uk_to_currency", {{0}}, "ILS", "1", "один новий шекель", 3, 32},
    {"uk_to_currency", {{0}}, "ILS", "2.02", "два нові шекелі дві агори", 5, 46},
    {"fr_to_cardinal", {.fr = {0}}, "", "0", "zéro", 1, 5},
    {"fr_to_cardinal", {.fr = {0}}, "", "80", "quatre-vingts", 1, 13},
    {"fr_to_cardinal", {.fr = {0}}, "", "200", "deux cents", 2, 10},
    {"fr_to_cardinal", {.fr = {.reformed = 1}}, "", "200", "deux-cents", 1, 10},
    {"fr_to_cardinal", {.fr = {0}}, "", "71", "soixante et onze", 3, 16},
    {"fr_to_cardinal", {.fr = {.reformed = 1}}, "", "71", "soixante-et-onze", 1, 16},
    {"fr_to_cardinal", {.fr = {.feminine = 1}}, "", "-21", "moins vingt et une", 4, 18},
    {"fr_to_cardinal", {.fr = {.region = YOKEPEAR_CH}}, "", "81", "huitante et un", 3, 14},
    {"fr_to_cardinal", {.fr = {0}}, "", "80000", "quatre-vingt mille", 2, 18},
    {"fr_to_ordinal", {.fr = {0}}, "", "1", "premier", 1, 7},
    {"fr_to_ordinal", {.fr = {0}}, "", "200", "deux centsième", 2, 15},
    {"fr_to_ordinal", {.fr = {.reformed = 1}}, "", "200", "deux-centsième", 1, 15},
};

static void test_counted(void) {
  for (size_t i = 0; i < sizeof counted / sizeof *counted; i++) {
    struct request r = {0};
    r.call = find_call(counted[i].call);
    r.settings = counted[i].settings;
    set_code(&r, counted[i].code);
    set_text(&r, counted[i].text);
    expect_answer(&r, (const uint8_t *)counted[i].phrase, strlen(counted[i].phrase));
    expect_measure(&r, (yokepear_measure){0, counted[i].words, counted[i].length});
    expect_measured(&r);
  }
}

/* At how many orders every group can stand: a figure of so many digits is below the limit. */
static int full_orders(const struct call *call) {
  int digits = call->french ? 102 : 66;
  if (call->kind == DIGIT_ORDINAL) digits = 38;
  if (call->kind == MONEY || call->kind == YEAR) digits = 18;
  return digits / DIGITS;
}

/* Money is gone over in every currency, so that of its groups one in so many is taken. */
enum { STRIDE = 37 };

/* A reformed phrase is one word, as its joiners are hyphens. */
static void test_one_word(const struct request *r) {
  if (r->call->french && r->settings.fr.reformed)
    expect_measure(r, (yokepear_measure){0, 1, measure(r).length});
}

/* Figures with one group at all orders from the one to below the other. */
static void test_groups(struct request r, int from, int to, int negative) {
  char text[FIGURE_TEXT];
  int is_money = r.call->kind == MONEY;
  for (int group = 0; group < GROUPS; group += is_money ? STRIDE : 1) {
    struct figure f = {0};
    f.negative = negative;
    f.orders = to;
    for (int order = from; order < to; order++) f.groups[order] = group;
    if (is_money) f.hundredths = group % HUNDREDTHS;
    set_figure(&r, &f, text);
    expect_measured(&r);
    test_one_word(&r);
  }
}

/* A group alone at the lowest order, at the next and at the last; twice; and at all orders. */
static void test_figures(struct request r) {
  int orders = full_orders(r.call);
  int takes_sign = r.call->kind == CARDINAL || r.call->kind == YEAR;
  for (int negative = 0; negative <= takes_sign; negative++) {
    test_groups(r, 0, 1, negative);
    test_groups(r, 1, 2, negative);
    test_groups(r, orders - 1, orders, negative);
    test_groups(r, 0, 2, negative);
    test_groups(r, 0, orders, negative);
  }
}

/* Hundredths alone have no main noun. */
static void test_hundredths(struct request r) {
  char text[FIGURE_TEXT];
  struct figure f = figure_of("0", 0);
  for (f.hundredths = 1; f.hundredths < HUNDREDTHS; f.hundredths++) {
    set_figure(&r, &f, text);
    expect_measured(&r);
  }
}

static void test_currencies(struct request r) {
  for (size_t i = 0; i < code_count; i++) {
    set_code(&r, codes[i]);
    test_figures(r);
    test_hundredths(r);
  }
}

/* Texts with several faults at once, each with fewer; the refusals with a sign and without. */
static const struct {
  const char *text;
  uint32_t signed_kind, unsigned_kind;
} faulty[] = {
    {"-09" NINES_102, YOKEPEAR_BAD_TEXT, YOKEPEAR_BAD_TEXT},
    {"-9" NINES_102, YOKEPEAR_TOO_LARGE, YOKEPEAR_NEGATIVE},
    {"9" NINES_102, YOKEPEAR_TOO_LARGE, YOKEPEAR_TOO_LARGE},
};

/* Each setting in turn is one too large or the largest number. */
static void refuse_settings(struct request r) {
  for (int at = 0; at < setting_count(r.call); at++) {
    union settings good = r.settings;
    r.settings.numbers[at] = setting_end(r.call, at);
    expect_refusal(&r, YOKEPEAR_BAD_SETTING);
    r.settings.numbers[at] = UINT32_MAX;
    expect_refusal(&r, YOKEPEAR_BAD_SETTING);
    r.settings = good;
  }
}

/* All faults at once; then the settings, the code and the text are mended, one after the other. */
static void test_faults(struct request r) {
  for (size_t i = 0; i < sizeof faulty / sizeof *faulty; i++) {
    set_text(&r, faulty[i].text);
    set_code(&r, "UAHH");
    refuse_settings(r);
    if (r.call->kind == YEAR) continue;
    if (r.call->kind == MONEY) expect_refusal(&r, YOKEPEAR_BAD_CODE);
    set_code(&r, "UAH");
    expect_refusal(&r, r.call->kind == CARDINAL ? faulty[i].signed_kind : faulty[i].unsigned_kind);
  }
}

/* Null pointers. */
static void test_nothing(struct request r) {
  r.input = 0;
  r.input_length = 0;
  refuse_settings(r);
  if (r.call->kind == YEAR) return;
  set_code(&r, "UAH");
  expect_refusal(&r, YOKEPEAR_BAD_TEXT);
  r.code = 0;
  r.code_length = 0;
  expect_refusal(&r, r.call->kind == MONEY ? YOKEPEAR_BAD_CODE : YOKEPEAR_BAD_TEXT);
}

void test_measures(void) {
  test_counted();
  for (size_t i = 0; i < call_count; i++) {
    struct request r = {0};
    r.call = &calls[i];
    if (r.call->reading) continue;
    do {
      if (r.call->kind == MONEY)
        test_currencies(r);
      else
        test_figures(r);
      test_faults(r);
      test_nothing(r);
    } while (next_settings(r.call, &r.settings));
  }
}
