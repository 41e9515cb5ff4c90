/*
 * The three apostrophes: what is said with each, that reading takes the chosen one alone, that an
 * apostrophe outside the range is refused, and that nothing but the sign changes in a phrase.
 */
#include <stdio.h>
#include <stdlib.h>
#include <string.h>

#include "expect.h"
#include "figure.h"
#include "tests.h"

enum { SIGNS = 3, MOST_PLACES = 3 };

#define PORTED YOKEPEAR_ORDINAL_STYLE_PORTED
#define SCHOOL YOKEPEAR_ORDINAL_STYLE_SCHOOL

static const char *const signs[SIGNS] = {
    [YOKEPEAR_APOSTROPHE_U02BC] = "\xca\xbc",
    [YOKEPEAR_APOSTROPHE_U2019] = "\xe2\x80\x99",
    [YOKEPEAR_APOSTROPHE_ASCII] = "'",
};

/* What is said in the nominative; an asterisk stands where the sign does. */
static const struct said {
  const char *call, *code, *text, *phrase;
  yokepear_ordinal_style style;
} all_said[] = {
    {"uk_to_cardinal", "", "5", "п*ять", PORTED},
    {"uk_to_cardinal", "", "59", "п*ятдесят дев*ять", PORTED},
    {"uk_to_cardinal", "", "915", "дев*ятсот п*ятнадцять", PORTED},
    {"uk_to_cardinal", "", "-519", "мінус п*ятсот дев*ятнадцять", PORTED},
    {"uk_to_cardinal", "", "95000", "дев*яносто п*ять тисяч", PORTED},
    {"uk_to_cardinal", "", "42", "сорок два", PORTED},
    {"uk_to_currency", "UAH", "5.59", "п*ять гривень п*ятдесят дев*ять копійок", PORTED},
    {"uk_to_currency", "UAH", "0.15", "п*ятнадцять копійок", PORTED},
    {"uk_to_currency", "UAH", "1.02", "одна гривня дві копійки", PORTED},
    {"uk_to_ordinal", "", "9", "дев*ятий", PORTED},
    {"uk_to_ordinal", "", "15", "п*ятнадцятий", PORTED},
    {"uk_to_ordinal", "", "50", "п*ятдесятий", PORTED},
    {"uk_to_ordinal", "", "90", "дев*яностий", PORTED},
    {"uk_to_ordinal", "", "595000", "п*ятисотдев*яностап*ятитисячний", PORTED},
    {"uk_to_ordinal", "", "21000", "двадцятиоднотисячний", PORTED},
    {"uk_to_ordinal_num", "", "59", "59-й", PORTED},
    {"uk_to_year", "", "1995", "одна тисяча дев*ятсот дев*яносто п*ятий рік", PORTED},
    {"uk_to_year", "", "2009", "дві тисячі дев*ятий рік", PORTED},
    {"uk_to_year", "", "-5", "п*ятий рік до н.е.", PORTED},
    {"uk_to_year", "", "2000", "двохтисячний рік", PORTED},
    {"uk_to_ordinal", "", "9", "дев*ятий", SCHOOL},
    {"uk_to_ordinal", "", "15", "п*ятнадцятий", SCHOOL},
    {"uk_to_ordinal", "", "50", "п*ятдесятий", SCHOOL},
    {"uk_to_ordinal", "", "90", "дев*яностий", SCHOOL},
    {"uk_to_ordinal", "", "500", "п*ятисотий", SCHOOL},
    {"uk_to_ordinal", "", "5900", "п*ять тисяч дев*ятисотий", SCHOOL},
    {"uk_to_ordinal", "", "19000", "дев*ятнадцятитисячний", SCHOOL},
    {"uk_to_ordinal", "", "90000", "дев*яностотисячний", SCHOOL},
    {"uk_to_ordinal", "", "595000", "п*ятисотдев*яностоп*ятитисячний", SCHOOL},
    {"uk_to_ordinal", "", "21000", "двадцятиоднотисячний", SCHOOL},
    {"uk_to_year", "", "1900", "одна тисяча дев*ятисотий рік", SCHOOL},
    {"uk_to_year", "", "-500", "п*ятисотий рік до н.е.", SCHOOL},
    {"uk_to_year", "", "2000", "двохтисячний рік", SCHOOL},
};

/* What is not one of the signs: none, parts of them, two at a time, and others that look alike. */
static const char *const no_signs[] = {
    "",   "\xca", "\xbc", "\xe2", "\xe2\x80", "\x80\x99", "\x99", "''", "\xca\xbc\xca\xbc",
    "\xca\xbc'", "'\xe2\x80\x99", " ", "' ", "-", "`", "\"", "*", "\xc2\xb4", "\xca\xb9",
    "\xca\xbb", "\xe2\x80\x98", "\xe2\x80\xb2", "\xef\xbc\x87",
};

/* The phrase with a sign at each of its places in turn; its length. */
static size_t with_signs(const char *phrase, const char *const *at_places, uint8_t out[LARGE]) {
  size_t length = 0;
  for (; *phrase; phrase++) {
    if (*phrase != '*') {
      out[length++] = (uint8_t)*phrase;
      continue;
    }
    size_t sign = strlen(*at_places);
    memcpy(out + length, *at_places++, sign);
    length += sign;
  }
  return length;
}

/* The phrase with the same sign at all of its places. */
static size_t with_sign(const char *phrase, const char *sign, uint8_t out[LARGE]) {
  const char *const at_places[MOST_PLACES] = {sign, sign, sign};
  return with_signs(phrase, at_places, out);
}

static struct request request_for(const struct said *said, uint32_t apostrophe) {
  struct request r = {0};
  r.call = find_call(said->call);
  r.settings.uk.apostrophe = (yokepear_apostrophe)apostrophe;
  r.settings.uk.ordinal_style = said->style;
  set_code(&r, said->code);
  set_text(&r, said->text);
  return r;
}

/* Makes a request to spell one to read these bytes; 0 if no call reads them in its settings. */
static int to_reading(struct request *r, const uint8_t *phrase, size_t length) {
  r->call = reading_call(r);
  r->input = phrase;
  r->input_length = length;
  return r->call != 0;
}

static void test_said(const struct said *said, uint32_t apostrophe) {
  uint8_t phrase[LARGE];
  struct request r = request_for(said, apostrophe);
  size_t length = with_sign(said->phrase, signs[apostrophe], phrase);
  expect_answer(&r, phrase, length);
  if (to_reading(&r, phrase, length))
    expect_answer(&r, (const uint8_t *)said->text, strlen(said->text));
}

/* The signs at each place in every mixture but the one that has the chosen sign everywhere. */
static void refuse_mixtures(const struct said *said, uint32_t apostrophe) {
  uint8_t phrase[LARGE];
  int places = 0, mixtures = 1;
  for (const char *at = said->phrase; *at; at++) places += *at == '*';
  for (int i = 0; i < places; i++) mixtures *= SIGNS;
  for (int mixture = 0; mixture < mixtures; mixture++) {
    const char *at_places[MOST_PLACES] = {0};
    int is_chosen = 1;
    for (int i = 0, rest = mixture; i < places; i++, rest /= SIGNS) {
      at_places[i] = signs[rest % SIGNS];
      is_chosen &= (uint32_t)(rest % SIGNS) == apostrophe;
    }
    struct request r = request_for(said, apostrophe);
    size_t length = with_signs(said->phrase, at_places, phrase);
    if (!is_chosen && to_reading(&r, phrase, length))
      expect_refusal(&r, YOKEPEAR_NOT_A_SENTENCE);
  }
}

/* Something else at the first place; the signs after it are as chosen. */
static void refuse_no_signs(const struct said *said, uint32_t apostrophe) {
  uint8_t phrase[LARGE];
  const char *chosen = signs[apostrophe];
  for (size_t i = 0; i < sizeof no_signs / sizeof *no_signs; i++) {
    const char *const at_places[MOST_PLACES] = {no_signs[i], chosen, chosen};
    struct request r = request_for(said, apostrophe);
    size_t length = with_signs(said->phrase, at_places, phrase);
    if (to_reading(&r, phrase, length)) expect_refusal(&r, YOKEPEAR_NOT_A_SENTENCE);
  }
}

/* Nothing else is wrong; the low bytes of 256 and 65536 are those of 0. */
static void refuse_numbers(const struct said *said) {
  static const uint32_t wrong[] = {SIGNS, SIGNS + 1, 256, 65536, UINT32_MAX};
  uint8_t phrase[LARGE];
  for (size_t i = 0; i < sizeof wrong / sizeof *wrong; i++) {
    struct request r = request_for(said, wrong[i]);
    expect_refusal(&r, YOKEPEAR_BAD_SETTING);
    for (int sign = 0; sign < SIGNS; sign++) {
      struct request reading = r;
      if (to_reading(&reading, phrase, with_sign(said->phrase, signs[sign], phrase)))
        expect_refusal(&reading, YOKEPEAR_BAD_SETTING);
    }
  }
}

/* A phrase that has the first sign, with another in its place. */
static size_t exchanged(const uint8_t *phrase, size_t length, const char *sign,
                        uint8_t out[LARGE]) {
  const char *first = signs[YOKEPEAR_APOSTROPHE_U02BC];
  size_t written = 0, taken = strlen(first), given = strlen(sign);
  for (size_t i = 0; i < length;) {
    if (length - i >= taken && !memcmp(phrase + i, first, taken)) {
      memcpy(out + written, sign, given);
      written += given;
      i += taken;
    } else {
      out[written++] = phrase[i++];
    }
  }
  return written;
}

/* Said with another sign, the phrase is the same but for it, and the very same if it has none. */
static void test_exchanged(struct request r) {
  uint8_t first[LARGE], want[LARGE], got[LARGE];
  size_t length = answer_of(&r, first);
  for (uint32_t apostrophe = 1; apostrophe < SIGNS; apostrophe++) {
    r.settings.uk.apostrophe = (yokepear_apostrophe)apostrophe;
    size_t wanted = exchanged(first, length, signs[apostrophe], want);
    size_t said = answer_of(&r, got);
    if (said == wanted && !memcmp(got, want, said)) continue;
    printf("DIFFERENCE: ");
    show_call(&r);
    printf(", %.*s\n  said [%.*s], expected [%.*s]\n", (int)r.input_length, (const char *)r.input,
           (int)said, (const char *)got, (int)wanted, (const char *)want);
    exit(1);
  }
}

static void test_figure(struct request r, int thousands, int group) {
  char text[FIGURE_TEXT];
  struct figure f = {.orders = 2, .groups = {group, thousands}};
  if (r.call->kind == MONEY) f.hundredths = group % HUNDREDTHS;
  set_figure(&r, &f, text);
  test_exchanged(r);
}

/* Every group alone at order 0 and at order 1, and one at each, in every setting but the sign. */
static void test_groups(struct request r) {
  set_code(&r, "UAH");
  do {
    if (r.settings.uk.apostrophe) continue;
    for (int group = 0; group < GROUPS; group++) {
      test_figure(r, 0, group);
      test_figure(r, group, 0);
      test_figure(r, group, GROUPS - 1 - group);
    }
  } while (next_settings(r.call, &r.settings));
}

void test_apostrophes(void) {
  for (size_t i = 0; i < sizeof all_said / sizeof *all_said; i++) {
    for (uint32_t apostrophe = 0; apostrophe < SIGNS; apostrophe++) {
      test_said(&all_said[i], apostrophe);
      refuse_mixtures(&all_said[i], apostrophe);
      if (strchr(all_said[i].phrase, '*')) refuse_no_signs(&all_said[i], apostrophe);
    }
    refuse_numbers(&all_said[i]);
  }
  for (size_t i = 0; i < call_count; i++) {
    struct request r = {0};
    r.call = &calls[i];
    if (!r.call->french && !r.call->reading) test_groups(r);
  }
}
