/*
 * Damaged phrases of ordinals and years as taught in school. Whatever was done to one, the answer
 * is 6, or a text that is spelled as those very bytes. Of words that are put together from parts in
 * every way exactly those are read that are spelled.
 */
#include <stdio.h>
#include <stdlib.h>
#include <string.h>

#include "expect.h"
#include "figure.h"
#include "tests.h"

enum { MOST_WORDS = 100, LONGEST_TEXT = 128 };

static const char *const ordinals[] = {
    "0",       "1",        "3",         "13",         "42",           "100",        "200",
    "513",     "900",      "1000",      "1500",       "2023",         "40000",      "95000",
    "100000",  "102000",   "299000",    "1001000",    "15000000",     "121000000",  "1000200000",
    "3003003003", "999999999000", "12000000000000000000000",
};

static const char *const years[] = {
    "0", "1", "-1", "3", "-43", "200", "-200", "1500", "1991", "2000", "100000", "-95000",
    "1000000000000000000", "9223372036854775807", "-9223372036854775808",
};

/* Bytes that are put in another's place: parts of letters and signs, joiners, and others. */
static const uint8_t other_bytes[] = {0x00, ' ', '-', '.', '\'', 'i', 0x80, 0x99, 0xb0, 0xb8,
                                      0xbc, 0xbd, 0xca, 0xd0, 0xd1, 0xe2, 0xff};

struct words {
  int count;
  const uint8_t *at[MOST_WORDS];
  size_t length[MOST_WORDS];
};

static struct request spelling_for(const struct request *reading) {
  struct request r = *reading;
  r.call = find_call(reading->call->kind == YEAR ? "uk_to_year" : "uk_to_ordinal");
  return r;
}

static void stop(const struct request *reading, const char *what) {
  printf("DIFFERENCE: ");
  show_call(reading);
  printf(", [%.*s]\n  %s\n", (int)reading->input_length, (const char *)reading->input, what);
  exit(1);
}

/* Reads any bytes: refused by 6, or the text's phrase is those bytes; whether a text was read. */
static int expect_honest(const struct request *reading) {
  uint8_t text[LARGE], phrase[LARGE];
  char figure[LONGEST_TEXT];
  yokepear_answer got = ask(reading, text, sizeof text);
  if (got.refusal == YOKEPEAR_NOT_A_SENTENCE && !got.length) return 0;
  if (got.refusal || got.length >= sizeof figure) stop(reading, "neither 6 nor a text");
  memcpy(figure, text, got.length);
  figure[got.length] = 0;
  struct request spelling = spelling_for(reading);
  set_text(&spelling, figure);
  size_t length = answer_of(&spelling, phrase);
  if (length != reading->input_length || memcmp(phrase, reading->input, length))
    stop(reading, "what is read is spelled otherwise");
  return 1;
}

static int read_bytes(struct request reading, const uint8_t *bytes, size_t length) {
  reading.input = bytes;
  reading.input_length = length;
  return expect_honest(&reading);
}

/* Each byte exchanged for others, dropped, doubled; and the phrase cut before and behind it. */
static void damage_bytes(const struct request *r) {
  uint8_t bytes[LARGE];
  size_t length = r->input_length;
  for (size_t at = 0; at < length; at++) {
    memcpy(bytes, r->input, length);
    for (size_t i = 0; i < sizeof other_bytes; i++) {
      bytes[at] = other_bytes[i];
      read_bytes(*r, bytes, length);
    }
    memcpy(bytes + at, r->input + at + 1, length - at - 1);
    read_bytes(*r, bytes, length - 1);
    memcpy(bytes + at, r->input + at, 1);
    memcpy(bytes + at + 1, r->input + at, length - at);
    read_bytes(*r, bytes, length + 1);
    read_bytes(*r, r->input, at);
    read_bytes(*r, r->input + at, length - at);
  }
}

static struct words words_of(const struct request *r) {
  struct words words = {0};
  const uint8_t *start = r->input, *end = r->input + r->input_length;
  for (const uint8_t *at = start; at <= end; at++) {
    if (at < end && *at != ' ') continue;
    words.at[words.count] = start;
    words.length[words.count++] = (size_t)(at - start);
    start = at + 1;
  }
  return words;
}

static void read_words(const struct request *r, const struct words *words) {
  uint8_t bytes[2 * LARGE];
  size_t length = 0;
  for (int i = 0; i < words->count; i++) {
    if (i) bytes[length++] = ' ';
    memcpy(bytes + length, words->at[i], words->length[i]);
    length += words->length[i];
  }
  read_bytes(*r, bytes, length);
}

static void swap_words(struct words *words, int a, int b) {
  const uint8_t *at = words->at[a];
  size_t length = words->length[a];
  words->at[a] = words->at[b];
  words->length[a] = words->length[b];
  words->at[b] = at;
  words->length[b] = length;
}

/* A word dropped, doubled, exchanged for one of another phrase, and any two exchanged. */
static void damage_words(const struct request *r, const struct words *others) {
  struct words words = words_of(r);
  for (int at = 0; at < words.count; at++) {
    struct words other = words;
    other.count--;
    for (int i = at; i < other.count; i++) swap_words(&other, i, i + 1);
    read_words(r, &other);
    other = words;
    for (int i = other.count++; i > at; i--) {
      other.at[i] = other.at[i - 1];
      other.length[i] = other.length[i - 1];
    }
    read_words(r, &other);
    for (int i = 0; i < others->count; i++) {
      other = words;
      other.at[at] = others->at[i];
      other.length[at] = others->length[i];
      read_words(r, &other);
    }
    for (int to = 0; to < at; to++) {
      other = words;
      swap_words(&other, at, to);
      read_words(r, &other);
    }
  }
}

/* The phrase with the endings and signs of other settings, and read as the other kind. */
static void other_settings(struct request r) {
  do expect_honest(&r);
  while (next_settings(r.call, &r.settings));
  r.call = find_call(r.call->kind == YEAR ? "uk_from_ordinal" : "uk_from_year");
  r.settings = first_settings(r.call);
  do expect_honest(&r);
  while (next_settings(r.call, &r.settings));
}

/* The phrase of a text as the input of a request to read. */
static void spell(struct request *reading, const char *text, uint8_t phrase[LARGE]) {
  struct request spelling = spelling_for(reading);
  set_text(&spelling, text);
  reading->input_length = answer_of(&spelling, phrase);
  reading->input = phrase;
}

static void damage_texts(const char *call, const char *const *texts, size_t count) {
  uint8_t phrase[LARGE], other[LARGE];
  struct request r = {0};
  r.call = find_call(call);
  r.settings = first_settings(r.call);
  do {
    for (size_t i = 0; i < count; i++) {
      struct request next = r;
      spell(&next, texts[(i + 1) % count], other);
      struct words others = words_of(&next);
      spell(&r, texts[i], phrase);
      if (!expect_honest(&r)) stop(&r, "a phrase that is spelled is not read");
      damage_bytes(&r);
      damage_words(&r, &others);
    }
    for (size_t i = 0; i < count; i++) {
      spell(&r, texts[i], phrase);
      other_settings(r);
    }
  } while (next_settings(r.call, &r.settings));
}

/*
 * The parts of a compound in school, with an asterisk for the sign; then forms of other cases and
 * of the ported style, which stand in none.
 */
static const char *const parts[] = {
    "",            "одно",        "двох",         "трьох",        "чотирьох",      "п*яти",
    "шести",       "семи",        "восьми",       "дев*яти",      "десяти",        "одинадцяти",
    "дванадцяти",  "тринадцяти",  "чотирнадцяти", "п*ятнадцяти",  "шістнадцяти",   "сімнадцяти",
    "вісімнадцяти", "дев*ятнадцяти", "двадцяти",  "тридцяти",     "сорока",        "п*ятдесяти",
    "шістдесяти",  "сімдесяти",   "вісімдесяти",  "дев*яносто",   "сто",           "двохсот",
    "трьохсот",    "чотирьохсот", "п*ятисот",     "шестисот",     "семисот",       "восьмисот",
    "дев*ятисот",  "ста",         "дев*яноста",   "сорок",        "двадцять",      "один",
    "два",         "дві",         "п*ять",        "двісті",       "тисяча",        "нуль",
    "сорока ",     "двадцяти ",
};

enum { PARTS = sizeof parts / sizeof *parts };

/* How many of the words that are put together end in each base and are numbers. */
static const struct {
  const char *base;
  int numbers;
} bases[] = {{"тисячн", GROUPS - 1}, {"дуодевігінтильйонн", GROUPS - 1}, {"сот", 9}};

/* Writes a text, with the sign where it has an asterisk; the place after it. */
static uint8_t *append(uint8_t *at, const char *text, const char *sign) {
  for (; *text; text++) {
    size_t length = *text == '*' ? strlen(sign) : 1;
    memcpy(at, *text == '*' ? sign : text, length);
    at += length;
  }
  return at;
}

/* Reads front, up to three parts, base and ending; how many were read. */
static int read_compounds(const struct request *r, const char *front, const char *base,
                          const char *ending, const char *sign) {
  uint8_t bytes[LARGE], *at = append(bytes, front, sign);
  int read = 0;
  for (int a = 0; a < PARTS; a++)
    for (int b = 0; b < PARTS; b++)
      for (int c = 0; c < PARTS; c++) {
        /* Fewer than three parts are put together once: those that are empty come last. */
        if ((!*parts[a] && *parts[b]) || (!*parts[b] && *parts[c])) continue;
        uint8_t *end = append(append(append(at, parts[a], sign), parts[b], sign), parts[c], sign);
        end = append(append(end, base, sign), ending, sign);
        read += read_bytes(*r, bytes, (size_t)(end - bytes));
      }
  return read;
}

enum { SIGNS = 3 };

/* The masculine in each number and case, so that endings of all lengths come, with signs in turn. */
static void test_compounds(void) {
  static const char *const signs[SIGNS] = {"\xca\xbc", "\xe2\x80\x99", "'"};
  static const char *const fronts[] = {"", "один ундевігінтильйон "};
  uint8_t phrase[LARGE];
  char ending[LARGE];
  struct request r = {0};
  r.call = find_call("uk_from_ordinal");
  r.settings = first_settings(r.call);
  do {
    const yokepear_uk *settings = &r.settings.uk;
    const char *sign = signs[settings->apostrophe];
    if (settings->gender || sign != signs[settings->grammatical_case % SIGNS]) continue;
    spell(&r, "100", phrase);
    snprintf(ending, sizeof ending, "%.*s", (int)(r.input_length - strlen("сот")),
             (const char *)phrase + strlen("сот"));
    for (size_t i = 0; i < sizeof bases / sizeof *bases; i++)
      for (size_t k = 0; k < sizeof fronts / sizeof *fronts; k++) {
        int read = read_compounds(&r, fronts[k], bases[i].base, ending, sign);
        if (read != bases[i].numbers) stop(&r, "of its kind more or fewer compounds are read");
      }
  } while (next_settings(r.call, &r.settings));
}

void test_ordinal_damage(void) {
  damage_texts("uk_from_ordinal", ordinals, sizeof ordinals / sizeof *ordinals);
  damage_texts("uk_from_year", years, sizeof years / sizeof *years);
  test_compounds();
}
