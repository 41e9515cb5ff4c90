/*
 * Ordinals and years as taught in school: by name, in every setting, at the limits, and the phrases
 * near them that no number has; what is read is what is spelled, and nothing is read as ported.
 */
#include <stdio.h>
#include <stdlib.h>
#include <string.h>

#include "expect.h"
#include "figure.h"
#include "tests.h"

#define NOMINATIVE {.ordinal_style = YOKEPEAR_ORDINAL_STYLE_SCHOOL}
#define IN(...) {__VA_ARGS__, .ordinal_style = YOKEPEAR_ORDINAL_STYLE_SCHOOL}
#define GENITIVE IN(.grammatical_case = YOKEPEAR_GENITIVE)

/* What is said in school, and as ported where that is another phrase. */
static const struct said {
  const char *call;
  yokepear_uk settings;
  const char *text, *phrase, *ported;
} named[] = {
    {"uk_to_ordinal", NOMINATIVE, "0", "нульовий", 0},
    {"uk_to_ordinal", NOMINATIVE, "3", "третій", 0},
    {"uk_to_ordinal", NOMINATIVE, "42", "сорок другий", 0},
    {"uk_to_ordinal", NOMINATIVE, "90", "девʼяностий", 0},
    {"uk_to_ordinal", NOMINATIVE, "100", "сотий", 0},
    {"uk_to_ordinal", NOMINATIVE, "200", "двохсотий", "сотий"},
    {"uk_to_ordinal", NOMINATIVE, "300", "трьохсотий", "сотий"},
    {"uk_to_ordinal", NOMINATIVE, "400", "чотирьохсотий", "сотий"},
    {"uk_to_ordinal", NOMINATIVE, "500", "пʼятисотий", "сотий"},
    {"uk_to_ordinal", NOMINATIVE, "600", "шестисотий", "сотий"},
    {"uk_to_ordinal", NOMINATIVE, "700", "семисотий", "сотий"},
    {"uk_to_ordinal", NOMINATIVE, "800", "восьмисотий", "сотий"},
    {"uk_to_ordinal", NOMINATIVE, "900", "девʼятисотий", "сотий"},
    {"uk_to_ordinal", IN(.gender = YOKEPEAR_FEMININE), "200", "двохсота", "сота"},
    {"uk_to_ordinal", IN(.number = YOKEPEAR_PLURAL), "200", "двохсоті", "соті"},
    {"uk_to_ordinal", NOMINATIVE, "1100", "одна тисяча сотий", 0},
    {"uk_to_ordinal", NOMINATIVE, "1500", "одна тисяча пʼятисотий", "одна тисяча сотий"},
    {"uk_to_ordinal", GENITIVE, "1500", "одна тисяча пʼятисотого", "одна тисяча сотого"},
    {"uk_to_ordinal", NOMINATIVE, "501", "пʼятсот перший", 0},
    {"uk_to_ordinal", NOMINATIVE, "1000", "тисячний", 0},
    {"uk_to_ordinal", NOMINATIVE, "90000", "девʼяностотисячний", "девʼяностатисячний"},
    {"uk_to_ordinal", NOMINATIVE, "95000", "девʼяностопʼятитисячний", "девʼяностапʼятитисячний"},
    {"uk_to_ordinal", NOMINATIVE, "100000", "стотисячний", "статисячний"},
    {"uk_to_ordinal", GENITIVE, "100000", "стотисячного", "статисячного"},
    {"uk_to_ordinal", NOMINATIVE, "102000", "стодвохтисячний", "стадвохтисячний"},
    {"uk_to_ordinal", NOMINATIVE, "121000000", "стодвадцятиодномільйонний",
     "стадвадцятиодномільйонний"},
    {"uk_to_ordinal", NOMINATIVE, "190000", "стодевʼяностотисячний", "стадевʼяностатисячний"},
    {"uk_to_ordinal", NOMINATIVE, "200000", "двохсоттисячний", 0},
    {"uk_to_ordinal", NOMINATIVE, "299000", "двохсотдевʼяностодевʼятитисячний",
     "двохсотдевʼяностадевʼятитисячний"},
    {"uk_to_ordinal", NOMINATIVE, "40000", "сорокатисячний", 0},
    {"uk_to_ordinal", NOMINATIVE, "1001000", "один мільйон однотисячний", 0},
    {"uk_to_ordinal", NOMINATIVE, "1000000", "мільйонний", 0},
    {"uk_to_year", NOMINATIVE, "200", "двохсотий рік", "сотий рік"},
    {"uk_to_year", GENITIVE, "200", "двохсотого року", "сотого року"},
    {"uk_to_year", GENITIVE, "-200", "двохсотого року до н.е.", "сотого року до н.е."},
    {"uk_to_year", NOMINATIVE, "0", "нульовий рік до н.е.", 0},
    {"uk_to_year", NOMINATIVE, "1", "перший рік", 0},
    {"uk_to_year", NOMINATIVE, "-1", "перший рік до н.е.", 0},
    {"uk_to_year", NOMINATIVE, "1991", "одна тисяча девʼятсот девʼяносто перший рік", 0},
};

/* The largest year but for its last word, and the one after the limits on either side of zero. */
#define YEAR_FRONT                                                                        \
  "девʼять квінтильйонів двісті двадцять три квадрильйони триста сімдесят два трильйони " \
  "тридцять шість мільярдів вісімсот пʼятдесят чотири мільйони сімсот сімдесят пʼять "    \
  "тисяч вісімсот "
#define LAST_YEAR "9223372036854775807"
#define AFTER_LAST_YEAR "9223372036854775808"
#define FIRST_YEAR "-9223372036854775808"
#define AFTER_FIRST_YEAR "9223372036854775809"

/* What no number is spelled as in school, masculine, singular, nominative. */
static const struct {
  const char *call, *phrase;
} nothing[] = {
    {"uk_to_year", "нульовий рік"},
    {"uk_to_year", "рік"},
    {"uk_to_year", " рік"},
    {"uk_to_year", "до н.е."},
    {"uk_to_year", "рік до н.е."},
    {"uk_to_year", "перший"},
    {"uk_to_year", "перший року"},
    {"uk_to_year", "першого рік"},
    {"uk_to_year", "перший рік до"},
    {"uk_to_year", "перший рік н.е."},
    {"uk_to_year", "перший рік до н. е."},
    {"uk_to_year", "перший рік до н.е"},
    {"uk_to_year", "перший рік до н.е. до н.е."},
    {"uk_to_year", "перший рік рік"},
    {"uk_to_year", "мінус перший рік"},
    {"uk_to_year", "перша рік"},
    {"uk_to_year", "сорок рік"},
    {"uk_to_year", YEAR_FRONT "восьмий рік"},
    {"uk_to_year", YEAR_FRONT "девʼятий рік до н.е."},
    {"uk_to_year", "десятиквінтильйонний рік"},
    {"uk_to_year", "секстильйонний рік"},
    {"uk_to_ordinal", "однотисячний"},
    {"uk_to_ordinal", "одномільйонний"},
    {"uk_to_ordinal", "один мільйон тисячний"},
    {"uk_to_ordinal", "одна тисяча тисячний"},
    {"uk_to_ordinal", "одна тисяча"},
    {"uk_to_ordinal", "статисячний"},
    {"uk_to_ordinal", "стадвохтисячний"},
    {"uk_to_ordinal", "девʼяностатисячний"},
    {"uk_to_ordinal", "девʼяностапʼятитисячний"},
    {"uk_to_ordinal", "стодевʼяностатисячний"},
    {"uk_to_ordinal", "стосотий"},
    {"uk_to_ordinal", "односотий"},
    {"uk_to_ordinal", "десятисотий"},
    {"uk_to_ordinal", "двадцятисотий"},
    {"uk_to_ordinal", "двісотий"},
    {"uk_to_ordinal", "пʼятьсотий"},
    {"uk_to_ordinal", "двохсот"},
    {"uk_to_ordinal", "двох сотий"},
    {"uk_to_ordinal", "двісті сотий"},
    {"uk_to_ordinal", "сто двохсотий"},
    {"uk_to_ordinal", "двохсотий двохсотий"},
    {"uk_to_ordinal", "двохсота"},
    {"uk_to_ordinal", "двохсоті"},
    {"uk_to_ordinal", "двохсотого"},
    {"uk_to_ordinal", "двохсотій"},
    {"uk_to_ordinal", "третий"},
    {"uk_to_ordinal", "двохтисячній"},
    {"uk_to_ordinal", "двотисячний"},
    {"uk_to_ordinal", "двохстотисячний"},
    {"uk_to_ordinal", "стостотисячний"},
    {"uk_to_ordinal", "двохсто тисячний"},
    {"uk_to_ordinal", "пʼятистотисячний"},
    {"uk_to_ordinal", "одностотисячний"},
    {"uk_to_ordinal", "двадцятидвадцятитисячний"},
    {"uk_to_ordinal", "пʼятидвадцятитисячний"},
    {"uk_to_ordinal", "десятипʼятитисячний"},
    {"uk_to_ordinal", "двадцятидесятитисячний"},
    {"uk_to_ordinal", "нульовитисячний"},
    {"uk_to_ordinal", "нульовий перший"},
    {"uk_to_ordinal", "сто нульовий"},
    {"uk_to_ordinal", "мінус перший"},
    {"uk_to_ordinal", "двадцять десятий"},
    {"uk_to_ordinal", "двадцять одинадцятий"},
    {"uk_to_ordinal", "перший двадцятий"},
    {"uk_to_ordinal", "двісті"},
    {"uk_to_ordinal", "ий"},
    {"uk_to_ordinal", " двохсотий"},
    {"uk_to_ordinal", "двохсотий "},
    {"uk_to_ordinal", "200-й"},
};

static struct request request_for(const char *call, yokepear_uk settings, const char *text) {
  struct request r = {0};
  r.call = find_call(call);
  r.settings.uk = settings;
  set_text(&r, text);
  return r;
}

/* The request to read a phrase in the settings of one to spell; its style must be the school's. */
static struct request reading_of(const struct request *spelling, const uint8_t *phrase,
                                 size_t length) {
  struct request r = *spelling;
  r.call = reading_call(spelling);
  r.input = phrase;
  r.input_length = length;
  return r;
}

/* Style 0 is for spelling; to the calls that read it is 1, before the phrase and the buffer. */
static void refuse_ported(struct request reading) {
  reading.settings.uk.ordinal_style = YOKEPEAR_ORDINAL_STYLE_PORTED;
  expect_refusal(&reading, YOKEPEAR_BAD_SETTING);
}

/* Spelled, measured and read; a phrase of the ported style that differs is spelled and not read. */
static void test_said(const struct said *said) {
  const uint8_t *phrase = (const uint8_t *)said->phrase;
  struct request r = request_for(said->call, said->settings, said->text);
  expect_answer(&r, phrase, strlen(said->phrase));
  struct request reading = reading_of(&r, phrase, strlen(said->phrase));
  expect_answer(&reading, r.input, r.input_length);
  refuse_ported(reading);
  const char *ported = said->ported ? said->ported : said->phrase;
  r.settings.uk.ordinal_style = YOKEPEAR_ORDINAL_STYLE_PORTED;
  expect_answer(&r, (const uint8_t *)ported, strlen(ported));
}

/* Any other number than the two is 1 to every Ukrainian call; 256 and 65536 end in zero bytes. */
static void refuse_other_styles(struct call *call) {
  static const uint32_t wrong[] = {2, 3, 256, 257, 65536, 65537, UINT32_MAX - 1, UINT32_MAX};
  static const char *const inputs[] = {"200", "007", "двохсотий", "двохсотий рік", ""};
  for (size_t i = 0; i < sizeof wrong / sizeof *wrong; i++)
    for (size_t k = 0; k < sizeof inputs / sizeof *inputs; k++) {
      struct request r = {0};
      r.call = call;
      r.settings.uk.ordinal_style = (yokepear_ordinal_style)wrong[i];
      set_code(&r, "UAH");
      set_text(&r, inputs[k]);
      expect_refusal(&r, YOKEPEAR_BAD_SETTING);
    }
}

static void refuse_nothing(void) {
  static const yokepear_uk nominative = NOMINATIVE;
  for (size_t i = 0; i < sizeof nothing / sizeof *nothing; i++) {
    struct request r = request_for(nothing[i].call, nominative, "");
    const char *phrase = nothing[i].phrase;
    r = reading_of(&r, (const uint8_t *)phrase, strlen(phrase));
    expect_refusal(&r, YOKEPEAR_NOT_A_SENTENCE);
    refuse_ported(r);
  }
}

/* What is spelled is read back; with one buffer, for many requests. */
static void read_back(const struct request *spelling) {
  uint8_t phrase[LARGE], text[LARGE];
  size_t length = answer_of(spelling, phrase);
  struct request reading = reading_of(spelling, phrase, length);
  size_t read = answer_of(&reading, text);
  if (read == spelling->input_length && !memcmp(text, spelling->input, read)) return;
  printf("DIFFERENCE: ");
  show_call(&reading);
  printf(", [%.*s]\n  read as %.*s, expected %.*s\n", (int)length, (const char *)phrase, (int)read,
         (const char *)text, (int)spelling->input_length, (const char *)spelling->input);
  exit(1);
}

/* A group at an order, alone and below another; there is none above the last order. */
static void test_group(struct request r, int orders, int order, int group) {
  char text[FIGURE_TEXT];
  struct figure f = {.orders = orders};
  f.groups[order] = group;
  set_figure(&r, &f, text);
  read_back(&r);
  if (order + 1 == orders) return;
  f.groups[order + 1] = 1;
  set_figure(&r, &f, text);
  read_back(&r);
}

/* Every group at the lowest three orders and at the last. */
static void test_groups(const struct request *r, int orders) {
  for (int group = 1; group < GROUPS; group++) {
    for (int order = 0; order < 3; order++) test_group(*r, orders, order, group);
    test_group(*r, orders, orders - 1, group);
  }
}

/* So many years on both sides of zero, and before either limit. */
enum { YEARS = 1100, YEARS_AT_LIMITS = 200 };

static void test_year(struct request r, int64_t year) {
  char text[FIGURE_TEXT];
  snprintf(text, sizeof text, "%lld", (long long)year);
  set_text(&r, text);
  read_back(&r);
}

static void test_years(const struct request *r) {
  for (int64_t year = -YEARS; year <= YEARS; year++) test_year(*r, year);
  for (int64_t i = 0; i < YEARS_AT_LIMITS; i++) {
    test_year(*r, INT64_MAX - i);
    test_year(*r, INT64_MIN + i);
  }
}

/* What stands behind a year's ordinal: the phrase of a year that has the ordinal's, without it. */
static size_t year_tail(struct request r, const char *year, const char *number, char tail[LARGE]) {
  uint8_t phrase[LARGE], ordinal[LARGE];
  set_text(&r, year);
  size_t length = answer_of(&r, phrase);
  r.call = find_call("uk_to_ordinal");
  r.settings.uk.gender = YOKEPEAR_MASCULINE;
  set_text(&r, number);
  size_t front = answer_of(&r, ordinal);
  memcpy(tail, phrase + front, length - front);
  return length - front;
}

/* An ordinal with such a tail is no year: the number is beyond 64 signed bits, or 0. */
static void refuse_year(struct request r, const char *number, const char *tail, size_t length) {
  uint8_t phrase[LARGE];
  struct request ordinal = r;
  ordinal.call = find_call("uk_to_ordinal");
  ordinal.settings.uk.gender = YOKEPEAR_MASCULINE;
  set_text(&ordinal, number);
  size_t front = answer_of(&ordinal, phrase);
  memcpy(phrase + front, tail, length);
  struct request reading = reading_of(&r, phrase, front + length);
  expect_refusal(&reading, YOKEPEAR_NOT_A_SENTENCE);
}

static void refuse_years(const struct request *r) {
  static const char *const beyond[] = {AFTER_FIRST_YEAR,       "9223372036854776000",
                                       "10000000000000000000", "18446744073709551615",
                                       "18446744073709551616", "18446744073709551617",
                                       "1000000000000000000000", NINES_66};
  char tail[LARGE], early_tail[LARGE];
  size_t length = year_tail(*r, "1", "1", tail), early = year_tail(*r, "-1", "1", early_tail);
  refuse_year(*r, "0", tail, length);
  refuse_year(*r, AFTER_LAST_YEAR, tail, length);
  for (size_t i = 0; i < sizeof beyond / sizeof *beyond; i++) {
    refuse_year(*r, beyond[i], tail, length);
    refuse_year(*r, beyond[i], early_tail, early);
  }
}

/* At the limits, with every buffer: the text of a year's first and last, and of the nines. */
static void test_limits(struct request r) {
  uint8_t phrase[LARGE];
  static const char *const years[] = {LAST_YEAR, FIRST_YEAR};
  for (int i = 0; i < 2; i++) {
    set_text(&r, r.call->kind == YEAR ? years[i] : NINES_66);
    size_t length = answer_of(&r, phrase);
    struct request reading = reading_of(&r, phrase, length);
    expect_answer(&reading, r.input, r.input_length);
    refuse_ported(reading);
  }
}

enum { ORDINAL_ORDERS = 22, YEAR_ORDERS = 6 };

/* In every setting but the style, which is the school's. */
static void test_settings(const char *call) {
  struct request r = request_for(call, (yokepear_uk)NOMINATIVE, "");
  do {
    if (r.settings.uk.ordinal_style != YOKEPEAR_ORDINAL_STYLE_SCHOOL) continue;
    test_groups(&r, r.call->kind == YEAR ? YEAR_ORDERS : ORDINAL_ORDERS);
    test_limits(r);
    if (r.call->kind != YEAR) continue;
    test_years(&r);
    refuse_years(&r);
  } while (next_settings(r.call, &r.settings));
}

void test_ordinals(void) {
  for (size_t i = 0; i < sizeof named / sizeof *named; i++) test_said(&named[i]);
  for (size_t i = 0; i < call_count; i++)
    if (!calls[i].french) refuse_other_styles(&calls[i]);
  refuse_nothing();
  test_settings("uk_to_ordinal");
  test_settings("uk_to_year");
}
