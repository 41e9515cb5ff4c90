/* Phrases that are a sentence in no setting: near ones, cut ones, long ones. */
#include <stdlib.h>
#include <string.h>

#include "expect.h"
#include "tests.h"

enum { LONG = 64 * 1024 };

static const char *const ukrainian[] = {
    "два тисячі", "одна тисяч", "тисяча", "мільйон", "мінус", "мінус нуль", "нуль нуль",
    "сорок  два", " сорок", "сорок ", "сорокдва", "двісорок", "два сорок", "два два",
    "пять", "п`ять", "п''ять", "п'ятьох", "п’ятдесят дев'ять", "пʼятсот п'ять", "Сорок",
    "сорок-два", "сорок,два", "мінус мінус один", "один мінус", "одна тисяча одна тисяча",
    "один мільйон один мільярд", "двадцять десять", "сто сто", "десять один", "нуль тисяч",
    "сто нуль", "42", "-42", "forty-two", "со", "сор\xd0", "\xd1\x81орок\xff",
    "один мільйон тисяча", "вісімсотсорок", "одинадцять два",
};

static const char *const french[] = {
    "un mille",      "une mille",    "mille mille",     "un millions", "deux million", "million",
    "deux cents un", "cent cent",    "un cent",         "zéro un",     "cent zéro",    "moins",
    "moins zéro",    "moins-zéro",   "vingt-un",        "vingt un",    "vingt deux",   "et",
    "vingt et deux", "dix un",       "deux  cents",     " deux",       "deux ",        "-deux",
    "deux-",         "deux--cents",  "Deux",            "zero",        "soixante et un et un",
    "quatre-vingt et un", "trente et onze", "mille million", "unième",  "unieme",      "primier",
    "deux premier",  "deuxièmes",    "zéroièmes",       "mille zéro",  "42",           "42e",
    "un million un million", "un milliard un billion", "quatre-vingts un", "quatre-vingts-un",
    "z\xc3",         "z\xe9ro",      "vingt et\xa0un",  "moins premier",
};

/* Sentences to the calls that read ordinals and years, and to no other. */
static const char *const ordinals[] = {
    "сороковий", "двохсотий", "стотисячний", "нульовий", "сороковий рік", "нульовий рік до н.е.",
};

static const char *const money[] = {
    "одна", "гривня", "одна гривня одна гривня", "одна копійка одна гривня", "нуль копійок",
    "нуль гривень одна копійка", "сто копійок", "сто однією копійкою", "одна гривня нуль копійок",
    "одна гривня сто копійок", "мінус одна гривня", "одна гривня мінус одна копійка",
    "одна копійка одна копійка", "дві копійка", "одна гривень", "один гривня", "пʼять гривня",
    "одна гривня ", " одна гривня", "одна  гривня", "одна гривня і одна копійка", "1 гривня",
    "одна тисяча копійок", "одна копійка одна", "гривня одна",
    /* One above the limit. */
    "вісімнадцять квінтильйонів чотириста сорок шість квадрильйонів сімсот сорок чотири трильйони "
    "сімдесят три мільярди сімсот девʼять мільйонів пʼятсот пʼятдесят одна тисяча шістсот "
    "шістнадцять гривень",
};

static void refused(struct request r, const uint8_t *phrase, size_t length) {
  r.input = phrase;
  r.input_length = length;
  do expect_refusal(&r, YOKEPEAR_NOT_A_SENTENCE);
  while (next_settings(r.call, &r.settings));
}

static void refused_list(const struct request *r, const char *const *phrases, size_t count) {
  for (size_t i = 0; i < count; i++) refused(*r, (const uint8_t *)phrases[i], strlen(phrases[i]));
}

/* A word over and over, up to 64 KiB, and bytes of all sorts. */
static void refused_long(const struct request *r) {
  static const char *const words[] = {" ",       "-",      "один ", "сто ", "тисяча ", "двохсот",
                                      "сороковий ", "mille ", "un-",   "a"};
  uint8_t *phrase = malloc(LONG);
  if (!phrase) abort();
  for (size_t i = 0; i < sizeof words / sizeof *words; i++) {
    size_t length = strlen(words[i]);
    for (size_t k = 0; k < LONG; k++) phrase[k] = (uint8_t)words[i][k % length];
    struct request copy = *r;
    copy.input = phrase;
    copy.input_length = LONG;
    expect_refusal(&copy, YOKEPEAR_NOT_A_SENTENCE);
  }
  for (size_t length = 0; length < 600; length += 1 + length / 4) {
    for (size_t k = 0; k < length; k++) phrase[k] = (uint8_t)(k * 113 + length);
    refused(*r, phrase, length);
  }
  free(phrase);
}

/* What the call reads in some setting; money is read in no such words. */
static const char *sentence_of(const struct call *call) {
  if (call->french) return call->kind == ORDINAL ? "zéroième" : "zéro";
  if (call->kind == ORDINAL) return "сороковий";
  if (call->kind == YEAR) return "сороковий рік";
  return "сорок тисяч";
}

/* A spelled phrase with its closing zero byte, or without its last byte, is not one. */
static void refused_cut(struct request r) {
  const char *phrase = sentence_of(r.call);
  size_t length = strlen(phrase);
  refused(r, (const uint8_t *)phrase, length + 1);
  refused(r, (const uint8_t *)phrase, length - 1);
  refused(r, 0, 0);
}

void test_phrases(void) {
  for (size_t i = 0; i < call_count; i++) {
    struct request r = {0};
    r.call = &calls[i];
    if (!r.call->reading) continue;
    r.settings = first_settings(r.call);
    set_code(&r, "UAH");
    refused_list(&r, ukrainian, sizeof ukrainian / sizeof *ukrainian);
    refused_list(&r, french, sizeof french / sizeof *french);
    if (r.call->kind == MONEY) refused_list(&r, money, sizeof money / sizeof *money);
    if (r.call->french || r.call->kind == CARDINAL || r.call->kind == MONEY)
      refused_list(&r, ordinals, sizeof ordinals / sizeof *ordinals);
    refused_long(&r);
    refused_cut(r);
  }
}
