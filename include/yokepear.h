/*
 * Yokepear: figures spoken as Ukrainian and French phrases, and phrases read back as figures.
 * SPDX-License-Identifier: MIT OR Apache-2.0
 *
 * Link with libyokepear.a (x86-64 Linux today). No heap, no initialisation, no state: calls may run
 * at the same time in any threads; on one tally only previews may, which do not change it. Of a C
 * library it needs at most memcpy and memset.
 *
 *   Example (C99; in C++ settings are `= {}`, and their fields are set one by one):
 *     yokepear_uk feminine = {.gender = YOKEPEAR_FEMININE};
 *     char out[YOKEPEAR_UK_CARDINAL_PHRASE];
 *     yokepear_answer a = yokepear_uk_to_cardinal_in(feminine, "42", 2, out, sizeof out);
 *     if (a.refusal) puts(yokepear_refusal_text(a.refusal));
 *     else fwrite(out, 1, a.length, stdout);
 *
 * Two forms of each call with settings
 *   yokepear_NAME takes its settings as numbers, at the front: that is the library's own call. In
 *   its declaration YOKEPEAR_UK_NUMBERS_ or YOKEPEAR_FR_NUMBERS_ stands for them, in their order.
 *   yokepear_NAME_in takes them as a struct, by name, and hands them on. Use it: settings that are
 *   named cannot change places; and one that a later version adds is then 0, which means what was
 *   said before. So let a struct begin as zeros: by named fields or `= {0}` in C, `= {}` in C++.
 *
 * Texts and phrases
 *   All are byte strings with a length, UTF-8, without a closing zero byte.
 *   A number text is ASCII: an optional `-`, then `0` or digits without a leading zero; there is
 *   no `-` before zero. Each call below says how large the number may be.
 *   A phrase is in small letters, its words joined by single spaces or hyphens; the Ukrainian
 *   apostrophe is U+02BC (CA BC) unless a setting chooses another. Phrases are those of the library
 *   that was ported, num2words, also where usage has others and no setting chooses them:
 *   docs/DIFFERENCES.md lists them.
 *
 * Buffers
 *   A call takes any bytes, any lengths and any setting numbers. It reads no byte past an input's
 *   length and writes none past the buffer's. A pointer may be null if its length is 0.
 *   No input may overlap the buffer `out`, and a tally neither `out` nor an input; a tally that is
 *   previewed is an input itself, and may overlap others.
 *   The answer stands at the front of `out`; the bytes after it are left as they were. A refusal
 *   changes nothing.
 *   A buffer of the YOKEPEAR_..._PHRASE or YOKEPEAR_..._TEXT bytes given with a call is always long
 *   enough, and the longest answer fills it. For a phrase's exact size, and for the count of its
 *   words, ask the measuring call yokepear_.._measure_.. first, which is lent no buffer. For a
 *   text's, ask the reading call with out_length 0: refusal 7 reports the length needed.
 */
#ifndef YOKEPEAR_H
#define YOKEPEAR_H

#include <stddef.h>
#include <stdint.h>

#ifdef __cplusplus
extern "C" {
#endif

/* ---- Version -------------------------------------------------------------------------------- */

/* While the first is 0, a step of the second may add settings to calls that take numbers. */
#define YOKEPEAR_VERSION_MAJOR 0
#define YOKEPEAR_VERSION_MINOR 7
#define YOKEPEAR_VERSION_PATCH 0

#define YOKEPEAR_TEXT_OF_(number) #number
#define YOKEPEAR_DOTTED_(major, minor, patch) \
  YOKEPEAR_TEXT_OF_(major) "." YOKEPEAR_TEXT_OF_(minor) "." YOKEPEAR_TEXT_OF_(patch)
/* The three as a text, with points between. */
#define YOKEPEAR_VERSION \
  YOKEPEAR_DOTTED_(YOKEPEAR_VERSION_MAJOR, YOKEPEAR_VERSION_MINOR, YOKEPEAR_VERSION_PATCH)

/* ---- Answers and refusals ------------------------------------------------------------------- */

/*
 * What a spelling or a reading call answers, and yokepear_tally_open. `refusal` is 0 and `length`
 * the answer's length in bytes; or `refusal` is the number of one and `length` is 0, except that
 * YOKEPEAR_SHORT_BUFFER comes with the length needed.
 */
typedef struct {
  uint32_t refusal;
  size_t length;
} yokepear_answer;

/*
 * What a measuring call answers about the phrase that its spelling call says. `refusal` is 0,
 * `length` the phrase's length in bytes and `words` the count of its words; or `refusal` is the
 * number of one, and both are 0.
 * A word is what stands between spaces: `deux cents` is two; `quatre-vingts`, `42-го` and every
 * reformed French phrase, whose joiners are hyphens, are one; the `до н.е.` of a year counts as
 * two. No phrase is empty, so there is at least one word.
 */
typedef struct {
  uint32_t refusal;
  uint32_t words;
  size_t length;
} yokepear_measure;

/*
 * What adding to a tally and removing from it answer, and the previews of both. `refusal` is 0,
 * `item` the item number that is given, or would be, 0 from removing, and `length` the length in
 * bytes of the new total's phrase; or `refusal` is the number of one and both are 0, except that
 * YOKEPEAR_SHORT_BUFFER comes with the length needed.
 */
typedef struct {
  uint32_t refusal;
  uint32_t item;
  size_t length;
} yokepear_tallied;

/*
 * Refusals. Where several apply, the one with the lowest number is given, but 7 only where no other
 * one applies: a buffer is looked at last.
 * Spelling never gives 6, measuring neither 6 nor 7; reading gives only 1, 2, 6 and 7. 8 to 10 are
 * of tallies alone.
 */
enum {
  YOKEPEAR_DONE = 0,
  YOKEPEAR_BAD_SETTING = 1,    /* a setting outside its range, even one of no effect here, or an
                                  ordinal style that is not read */
  YOKEPEAR_BAD_CODE = 2,       /* not one of the currency codes, or bytes that are no tally */
  YOKEPEAR_BAD_TEXT = 3,       /* a malformed number text */
  YOKEPEAR_NEGATIVE = 4,       /* a negative ordinal, digit ordinal or amount */
  YOKEPEAR_TOO_LARGE = 5,      /* a number above the call's limit */
  YOKEPEAR_NOT_A_SENTENCE = 6, /* a phrase that the spelling call does not say in these settings */
  YOKEPEAR_SHORT_BUFFER = 7,   /* out_length is below the answer's length, which is reported */
  YOKEPEAR_TALLY_FULL = 8,     /* 64 amounts are held, or the last item number has been given */
  YOKEPEAR_SUM_TOO_LARGE = 9,  /* a total above the limit of money */
  YOKEPEAR_NOT_HELD = 10       /* no amount is held under the item number */
};

/* A short sentence for the number of a refusal, for logs. */
static inline const char *yokepear_refusal_text(uint32_t refusal) {
  switch (refusal) {
    case YOKEPEAR_DONE: return "nothing is refused";
    case YOKEPEAR_BAD_SETTING: return "a setting number is outside its range";
    case YOKEPEAR_BAD_CODE: return "the currency code is not a known one, or this is no tally";
    case YOKEPEAR_BAD_TEXT: return "the number text is malformed";
    case YOKEPEAR_NEGATIVE: return "the number is negative";
    case YOKEPEAR_TOO_LARGE: return "the number is above the limit";
    case YOKEPEAR_NOT_A_SENTENCE: return "the phrase is not a sentence in these settings";
    case YOKEPEAR_SHORT_BUFFER: return "the buffer is shorter than the answer";
    case YOKEPEAR_TALLY_FULL: return "the tally is full, or has given its last item number";
    case YOKEPEAR_SUM_TOO_LARGE: return "the total would be above the limit";
    case YOKEPEAR_NOT_HELD: return "no amount is held under this item number";
    default: return "no refusal has this number";
  }
}

/* ---- Settings ------------------------------------------------------------------------------- */

/*
 * A setting whose values have names has a type of its own, so that a compiler tells where one
 * stands for another: by an error in C++, in C by a warning (gcc: -Wextra). The types hold every
 * number of 32 bits (before C++11 where the compiler keeps them, as gcc and clang do); one that is
 * outside the setting's range is for the call to refuse. A number from a file or a menu is cast in
 * C++: see first that it has no more than 32 bits.
 */
#if defined __cplusplus && __cplusplus >= 201103L
#define YOKEPEAR_32_BITS_ : uint32_t
#else
#define YOKEPEAR_32_BITS_
#endif

typedef enum yokepear_gender YOKEPEAR_32_BITS_ {
  YOKEPEAR_MASCULINE = 0,
  YOKEPEAR_FEMININE = 1,
  YOKEPEAR_NEUTER = 2
} yokepear_gender;

typedef enum yokepear_grammatical_number YOKEPEAR_32_BITS_ {
  YOKEPEAR_SINGULAR = 0,
  YOKEPEAR_PLURAL = 1
} yokepear_grammatical_number;

typedef enum yokepear_grammatical_case YOKEPEAR_32_BITS_ {
  YOKEPEAR_NOMINATIVE = 0,
  YOKEPEAR_GENITIVE = 1,
  YOKEPEAR_DATIVE = 2,
  YOKEPEAR_ACCUSATIVE = 3,
  YOKEPEAR_INSTRUMENTAL = 4,
  YOKEPEAR_LOCATIVE = 5
} yokepear_grammatical_case;

/*
 * The sign that is written in words like п'ять: those for 5 and 9, their teens, tens and hundreds,
 * and ordinals made of these; no other word has one. Reading takes the chosen sign alone.
 */
typedef enum yokepear_apostrophe YOKEPEAR_32_BITS_ {
  YOKEPEAR_APOSTROPHE_U02BC = 0, /* the letter, CA BC: the sign of the library that was ported */
  YOKEPEAR_APOSTROPHE_U2019 = 1, /* the punctuation mark, E2 80 99 */
  YOKEPEAR_APOSTROPHE_ASCII = 2  /* 27 */
} yokepear_apostrophe;

/*
 * How spoken ordinals and years end; on all other phrases it has no effect. 200th, 100000th and
 * 95000th are `сотий` (as is 100th), `статисячний` and `девʼяностапʼятитисячний` as ported, and
 * `двохсотий`, `стотисячний` and `девʼяностопʼятитисячний` as taught in school. Only the latter
 * are read: there a phrase has one number.
 */
typedef enum yokepear_ordinal_style YOKEPEAR_32_BITS_ {
  YOKEPEAR_ORDINAL_STYLE_PORTED = 0,
  YOKEPEAR_ORDINAL_STYLE_SCHOOL = 1
} yokepear_ordinal_style;

/* The names of 70, 80 and 90. */
typedef enum yokepear_region YOKEPEAR_32_BITS_ {
  YOKEPEAR_FR = 0,
  YOKEPEAR_BE = 1,
  YOKEPEAR_CH = 2
} yokepear_region;

#undef YOKEPEAR_32_BITS_

/* With -fshort-enums a number such as 256 would become 0 unseen: that is not compiled. */
typedef char yokepear_enums_have_32_bits_[sizeof(yokepear_gender) == sizeof(uint32_t) ? 1 : -1];

/*
 * Ukrainian settings by name. All zero: masculine, singular, nominative, the apostrophe U+02BC,
 * ordinals as ported.
 */
typedef struct {
  yokepear_gender gender;
  yokepear_grammatical_number number;
  yokepear_grammatical_case grammatical_case;
  yokepear_apostrophe apostrophe;
  yokepear_ordinal_style ordinal_style;
} yokepear_uk;

/* French settings by name. All zero: masculine, words joined by spaces, the names of France. */
typedef struct {
  uint32_t feminine; /* 0 or 1 */
  uint32_t reformed; /* 0 joins words by spaces, 1 by hyphens (the spelling of 1990) */
  yokepear_region region;
} yokepear_fr;

/* The settings as a call takes them: its parameters, and a struct's fields in their places. */
#define YOKEPEAR_UK_NUMBERS_                                                                     \
  uint32_t gender, uint32_t number, uint32_t grammatical_case, uint32_t apostrophe,              \
      uint32_t ordinal_style
#define YOKEPEAR_UK_(settings)                                                                   \
  (settings).gender, (settings).number, (settings).grammatical_case, (settings).apostrophe,      \
      (settings).ordinal_style
#define YOKEPEAR_FR_NUMBERS_ uint32_t feminine, uint32_t reformed, uint32_t region
#define YOKEPEAR_FR_(settings) (settings).feminine, (settings).reformed, (settings).region

/* ---- Ukrainian cardinals ------------------------------------------------------------------- */

#define YOKEPEAR_UK_CARDINAL_PHRASE 2311
#define YOKEPEAR_UK_CARDINAL_TEXT 67

/*
 * Speaks a number of at most 66 digits: 42, feminine, nominative is `сорок дві`; a negative one
 * begins with `мінус`. `number` has no effect on cardinals. Refuses by 1, 3, 5, 7.
 */
yokepear_answer yokepear_uk_to_cardinal(
    YOKEPEAR_UK_NUMBERS_, const void *text, size_t text_length, void *out, size_t out_length);

static inline yokepear_answer yokepear_uk_to_cardinal_in(
    yokepear_uk settings, const void *text, size_t text_length, void *out, size_t out_length) {
  return yokepear_uk_to_cardinal(YOKEPEAR_UK_(settings), text, text_length, out, out_length);
}

/* Measures the phrase that yokepear_uk_to_cardinal says. Refuses by 1, 3, 5. */
yokepear_measure yokepear_uk_measure_cardinal(
    YOKEPEAR_UK_NUMBERS_, const void *text, size_t text_length);

static inline yokepear_measure yokepear_uk_measure_cardinal_in(
    yokepear_uk settings, const void *text, size_t text_length) {
  return yokepear_uk_measure_cardinal(YOKEPEAR_UK_(settings), text, text_length);
}

/*
 * Reads a phrase and writes its number text: exactly the phrases that yokepear_uk_to_cardinal
 * says in the same settings are read, every other one is refused. Refuses by 1, 6, 7.
 */
yokepear_answer yokepear_uk_from_cardinal(
    YOKEPEAR_UK_NUMBERS_, const void *phrase, size_t phrase_length, void *out, size_t out_length);

static inline yokepear_answer yokepear_uk_from_cardinal_in(
    yokepear_uk settings, const void *phrase, size_t phrase_length, void *out, size_t out_length) {
  return yokepear_uk_from_cardinal(YOKEPEAR_UK_(settings), phrase, phrase_length, out, out_length);
}

/* ---- Ukrainian ordinals, digit ordinals and years ------------------------------------------ */

#define YOKEPEAR_UK_ORDINAL_PHRASE 1841
#define YOKEPEAR_UK_ORDINAL_TEXT 66
#define YOKEPEAR_UK_ORDINAL_NUM_PHRASE 44
#define YOKEPEAR_UK_YEAR_PHRASE 513
#define YOKEPEAR_UK_YEAR_TEXT 20

/*
 * Speaks the ordinal of a number of at most 66 digits, which is not negative: 21000, masculine,
 * singular, nominative is `двадцятиоднотисячний`. In the plural `gender` has no effect.
 * Refuses by 1, 3, 4, 5, 7.
 */
yokepear_answer yokepear_uk_to_ordinal(
    YOKEPEAR_UK_NUMBERS_, const void *text, size_t text_length, void *out, size_t out_length);

static inline yokepear_answer yokepear_uk_to_ordinal_in(
    yokepear_uk settings, const void *text, size_t text_length, void *out, size_t out_length) {
  return yokepear_uk_to_ordinal(YOKEPEAR_UK_(settings), text, text_length, out, out_length);
}

/* Measures the phrase that yokepear_uk_to_ordinal says. Refuses by 1, 3, 4, 5. */
yokepear_measure yokepear_uk_measure_ordinal(
    YOKEPEAR_UK_NUMBERS_, const void *text, size_t text_length);

static inline yokepear_measure yokepear_uk_measure_ordinal_in(
    yokepear_uk settings, const void *text, size_t text_length) {
  return yokepear_uk_measure_ordinal(YOKEPEAR_UK_(settings), text, text_length);
}

/*
 * Reads a phrase and writes its number text: exactly the phrases that yokepear_uk_to_ordinal says
 * in the same settings are read, every other one is refused. The style is the school's; as ported
 * nothing is read. Refuses by 1, 6, 7.
 */
yokepear_answer yokepear_uk_from_ordinal(
    YOKEPEAR_UK_NUMBERS_, const void *phrase, size_t phrase_length, void *out, size_t out_length);

static inline yokepear_answer yokepear_uk_from_ordinal_in(
    yokepear_uk settings, const void *phrase, size_t phrase_length, void *out, size_t out_length) {
  return yokepear_uk_from_ordinal(YOKEPEAR_UK_(settings), phrase, phrase_length, out, out_length);
}

/*
 * Writes a digit ordinal: 42, masculine, singular, genitive is `42-го`. The number is not negative
 * and at most 340282366920938463463374607431768211455. In the plural `gender` has no effect, and
 * `apostrophe` and `ordinal_style` nowhere. Refuses by 1, 3, 4, 5, 7.
 */
yokepear_answer yokepear_uk_to_ordinal_num(
    YOKEPEAR_UK_NUMBERS_, const void *text, size_t text_length, void *out, size_t out_length);

static inline yokepear_answer yokepear_uk_to_ordinal_num_in(
    yokepear_uk settings, const void *text, size_t text_length, void *out, size_t out_length) {
  return yokepear_uk_to_ordinal_num(YOKEPEAR_UK_(settings), text, text_length, out, out_length);
}

/* Measures the phrase that yokepear_uk_to_ordinal_num says. Refuses by 1, 3, 4, 5. */
yokepear_measure yokepear_uk_measure_ordinal_num(
    YOKEPEAR_UK_NUMBERS_, const void *text, size_t text_length);

static inline yokepear_measure yokepear_uk_measure_ordinal_num_in(
    yokepear_uk settings, const void *text, size_t text_length) {
  return yokepear_uk_measure_ordinal_num(YOKEPEAR_UK_(settings), text, text_length);
}

/*
 * Speaks a year, any int64_t: -43, singular, genitive is `сорок третього року до н.е.`; year 0 and
 * all years below it end in `до н.е.`. `gender` has no effect on years. Refuses by 1 and 7.
 */
yokepear_answer yokepear_uk_to_year(
    YOKEPEAR_UK_NUMBERS_, int64_t year, void *out, size_t out_length);

static inline yokepear_answer yokepear_uk_to_year_in(
    yokepear_uk settings, int64_t year, void *out, size_t out_length) {
  return yokepear_uk_to_year(YOKEPEAR_UK_(settings), year, out, out_length);
}

/* Measures the phrase that yokepear_uk_to_year says. Refuses by 1. */
yokepear_measure yokepear_uk_measure_year(YOKEPEAR_UK_NUMBERS_, int64_t year);

static inline yokepear_measure yokepear_uk_measure_year_in(yokepear_uk settings, int64_t year) {
  return yokepear_uk_measure_year(YOKEPEAR_UK_(settings), year);
}

/*
 * Reads a phrase and writes its year as a number text: exactly the phrases that yokepear_uk_to_year
 * says in the same settings are read, every other one is refused, also one for a year that is no
 * int64_t. The style is the school's; as ported nothing is read. Refuses by 1, 6, 7.
 */
yokepear_answer yokepear_uk_from_year(
    YOKEPEAR_UK_NUMBERS_, const void *phrase, size_t phrase_length, void *out, size_t out_length);

static inline yokepear_answer yokepear_uk_from_year_in(
    yokepear_uk settings, const void *phrase, size_t phrase_length, void *out, size_t out_length) {
  return yokepear_uk_from_year(YOKEPEAR_UK_(settings), phrase, phrase_length, out, out_length);
}

/* ---- Ukrainian money ----------------------------------------------------------------------- */

#define YOKEPEAR_UK_CURRENCY_PHRASE 722
#define YOKEPEAR_UK_CURRENCY_TEXT 23

/*
 * Speaks an amount: UAH 1.02 is `одна гривня дві копійки`, UAH 0.11 `одинадцять копійок`.
 * A money text may add `.` and two digits, not both zero: `5`, `5.05` and `0.50`, but neither
 * `5.00` nor `5.5`. It is not negative, and its whole part at most 18446744073709551615.
 * The gender is the currency's: `gender` and `number` have no effect. The code is one of
 *   AED ARS AUD BRL CAD CHF CLP CNY COP CRC DINAR DOLLAR DZD EUR GBP HKD IDR ILS INR JPY KRW KWD
 *   KZT MXN MYR NOK NZD PEN PESO PHP PLN QAR RIYAL RUB SAR SGD THB TRY TWD UAH USD UYU VND ZAR
 * in capitals; DINAR, DOLLAR, PESO and RIYAL are for any currency of that name.
 * Refuses by 1, 2, 3, 4, 5, 7.
 */
yokepear_answer yokepear_uk_to_currency(
    YOKEPEAR_UK_NUMBERS_, const void *code, size_t code_length,
    const void *text, size_t text_length, void *out, size_t out_length);

static inline yokepear_answer yokepear_uk_to_currency_in(
    yokepear_uk settings, const void *code, size_t code_length,
    const void *text, size_t text_length, void *out, size_t out_length) {
  return yokepear_uk_to_currency(YOKEPEAR_UK_(settings), code, code_length, text, text_length, out,
                                 out_length);
}

/* Measures the phrase that yokepear_uk_to_currency says. Refuses by 1, 2, 3, 4, 5. */
yokepear_measure yokepear_uk_measure_currency(
    YOKEPEAR_UK_NUMBERS_, const void *code, size_t code_length,
    const void *text, size_t text_length);

static inline yokepear_measure yokepear_uk_measure_currency_in(
    yokepear_uk settings, const void *code, size_t code_length,
    const void *text, size_t text_length) {
  return yokepear_uk_measure_currency(YOKEPEAR_UK_(settings), code, code_length, text, text_length);
}

/*
 * Reads a phrase and writes its money text: exactly the phrases that yokepear_uk_to_currency
 * says in the same settings and currency are read, every other one is refused, also one for an
 * amount above the limit. Refuses by 1, 2, 6, 7.
 */
yokepear_answer yokepear_uk_from_currency(
    YOKEPEAR_UK_NUMBERS_, const void *code, size_t code_length,
    const void *phrase, size_t phrase_length, void *out, size_t out_length);

static inline yokepear_answer yokepear_uk_from_currency_in(
    yokepear_uk settings, const void *code, size_t code_length,
    const void *phrase, size_t phrase_length, void *out, size_t out_length) {
  return yokepear_uk_from_currency(YOKEPEAR_UK_(settings), code, code_length, phrase,
                                   phrase_length, out, out_length);
}

/* ---- Tallies -------------------------------------------------------------------------------- */

#define YOKEPEAR_TALLY_SIZE 837

/*
 * A tally holds amounts of one currency, as a till does, in YOKEPEAR_TALLY_SIZE bytes of yours: at
 * most 64 at a time, each under its own item number. Item numbers count up from 1 to 4294967295,
 * and none is given twice; the place of a removed amount is filled again. The total is the sum of
 * what was added and not removed; its whole part stays within 18446744073709551615.
 * The bytes lie anywhere, have no pointers, and may be copied, stored and taken up again, also by
 * another program with a library of this version. What each of them means is not for callers, who
 * leave them to the calls: bytes that no call made are refused by 2, or taken for some tally.
 *
 * Opens: writes the empty tally of a currency, a code as of yokepear_uk_to_currency, to the front
 * of `tally`. Its length is the answer's. Has no settings, and one form. Refuses by 2 and 7.
 */
yokepear_answer yokepear_tally_open(
    const void *code, size_t code_length, void *tally, size_t tally_length);

/*
 * Adds the amount of a money text, which may be 0, and speaks the new total as
 * yokepear_uk_to_currency does, in at most YOKEPEAR_UK_CURRENCY_PHRASE bytes. Reports the item
 * number under which the amount is held. A refusal leaves the tally as it was too, and uses up no
 * item number. Refuses by 1, 2 (of the tally), 3, 4, 5, 8, 9, 7, in this order.
 */
yokepear_tallied yokepear_tally_add(
    YOKEPEAR_UK_NUMBERS_, void *tally, size_t tally_length,
    const void *text, size_t text_length, void *out, size_t out_length);

static inline yokepear_tallied yokepear_tally_add_in(
    yokepear_uk settings, void *tally, size_t tally_length,
    const void *text, size_t text_length, void *out, size_t out_length) {
  return yokepear_tally_add(YOKEPEAR_UK_(settings), tally, tally_length, text, text_length, out,
                            out_length);
}

/*
 * Removes the amount under an item number and speaks the new total, in the same way: `нуль гривень`
 * where nothing is left. A refusal leaves the tally as it was. Refuses by 1, 2 (of the tally), 10,
 * 7, in this order; and of bytes that no call made by 9 before 7.
 */
yokepear_tallied yokepear_tally_remove(
    YOKEPEAR_UK_NUMBERS_, uint32_t item, void *tally, size_t tally_length,
    void *out, size_t out_length);

static inline yokepear_tallied yokepear_tally_remove_in(
    yokepear_uk settings, uint32_t item, void *tally, size_t tally_length,
    void *out, size_t out_length) {
  return yokepear_tally_remove(YOKEPEAR_UK_(settings), item, tally, tally_length, out, out_length);
}

/*
 * Previews adding: answers what yokepear_tally_add would on a copy of the tally, item number and
 * refusal included, and speaks the total that there would be. Nothing is added, and no item number
 * is used up: the tally is only read. So it may lie in read-only memory, and several threads may
 * preview one tally at the same time, if none changes it meanwhile. As long as its bytes are these,
 * adding the same text in the same settings, with a buffer of the same length, answers the same.
 * Refuses as adding does.
 */
yokepear_tallied yokepear_tally_preview_add(
    YOKEPEAR_UK_NUMBERS_, const void *tally, size_t tally_length,
    const void *text, size_t text_length, void *out, size_t out_length);

static inline yokepear_tallied yokepear_tally_preview_add_in(
    yokepear_uk settings, const void *tally, size_t tally_length,
    const void *text, size_t text_length, void *out, size_t out_length) {
  return yokepear_tally_preview_add(YOKEPEAR_UK_(settings), tally, tally_length, text, text_length,
                                    out, out_length);
}

/*
 * Previews removing in the same way: answers what yokepear_tally_remove would, with item number 0,
 * and only reads the tally. Refuses as removing does.
 */
yokepear_tallied yokepear_tally_preview_remove(
    YOKEPEAR_UK_NUMBERS_, uint32_t item, const void *tally, size_t tally_length,
    void *out, size_t out_length);

static inline yokepear_tallied yokepear_tally_preview_remove_in(
    yokepear_uk settings, uint32_t item, const void *tally, size_t tally_length,
    void *out, size_t out_length) {
  return yokepear_tally_preview_remove(YOKEPEAR_UK_(settings), item, tally, tally_length, out,
                                       out_length);
}

/* ---- French cardinals ---------------------------------------------------------------------- */

#define YOKEPEAR_FR_CARDINAL_PHRASE 1601
#define YOKEPEAR_FR_CARDINAL_TEXT 103

/*
 * Speaks a number of at most 102 digits: 71 is `soixante et onze`, reformed `soixante-et-onze`;
 * 81, feminine, CH is `huitante et une`; a negative one begins with `moins`.
 * Refuses by 1, 3, 5, 7.
 */
yokepear_answer yokepear_fr_to_cardinal(
    YOKEPEAR_FR_NUMBERS_, const void *text, size_t text_length, void *out, size_t out_length);

static inline yokepear_answer yokepear_fr_to_cardinal_in(
    yokepear_fr settings, const void *text, size_t text_length, void *out, size_t out_length) {
  return yokepear_fr_to_cardinal(YOKEPEAR_FR_(settings), text, text_length, out, out_length);
}

/* Measures the phrase that yokepear_fr_to_cardinal says. Refuses by 1, 3, 5. */
yokepear_measure yokepear_fr_measure_cardinal(
    YOKEPEAR_FR_NUMBERS_, const void *text, size_t text_length);

static inline yokepear_measure yokepear_fr_measure_cardinal_in(
    yokepear_fr settings, const void *text, size_t text_length) {
  return yokepear_fr_measure_cardinal(YOKEPEAR_FR_(settings), text, text_length);
}

/*
 * Reads a phrase and writes its number text: exactly the phrases that yokepear_fr_to_cardinal
 * says in the same settings are read, every other one is refused. Refuses by 1, 6, 7.
 */
yokepear_answer yokepear_fr_from_cardinal(
    YOKEPEAR_FR_NUMBERS_, const void *phrase, size_t phrase_length, void *out, size_t out_length);

static inline yokepear_answer yokepear_fr_from_cardinal_in(
    yokepear_fr settings, const void *phrase, size_t phrase_length, void *out, size_t out_length) {
  return yokepear_fr_from_cardinal(YOKEPEAR_FR_(settings), phrase, phrase_length, out, out_length);
}

/* ---- French ordinals ----------------------------------------------------------------------- */

#define YOKEPEAR_FR_ORDINAL_PHRASE 1600
#define YOKEPEAR_FR_ORDINAL_TEXT 102

/*
 * Speaks the ordinal of a number of at most 102 digits, which is not negative: 1 is `premier`,
 * 200 is `deux centsième`. `feminine` has no effect on ordinals. Refuses by 1, 3, 4, 5, 7.
 */
yokepear_answer yokepear_fr_to_ordinal(
    YOKEPEAR_FR_NUMBERS_, const void *text, size_t text_length, void *out, size_t out_length);

static inline yokepear_answer yokepear_fr_to_ordinal_in(
    yokepear_fr settings, const void *text, size_t text_length, void *out, size_t out_length) {
  return yokepear_fr_to_ordinal(YOKEPEAR_FR_(settings), text, text_length, out, out_length);
}

/* Measures the phrase that yokepear_fr_to_ordinal says. Refuses by 1, 3, 4, 5. */
yokepear_measure yokepear_fr_measure_ordinal(
    YOKEPEAR_FR_NUMBERS_, const void *text, size_t text_length);

static inline yokepear_measure yokepear_fr_measure_ordinal_in(
    yokepear_fr settings, const void *text, size_t text_length) {
  return yokepear_fr_measure_ordinal(YOKEPEAR_FR_(settings), text, text_length);
}

/*
 * Reads a phrase and writes its number text: exactly the phrases that yokepear_fr_to_ordinal
 * says in the same settings are read, every other one is refused. Refuses by 1, 6, 7.
 */
yokepear_answer yokepear_fr_from_ordinal(
    YOKEPEAR_FR_NUMBERS_, const void *phrase, size_t phrase_length, void *out, size_t out_length);

static inline yokepear_answer yokepear_fr_from_ordinal_in(
    yokepear_fr settings, const void *phrase, size_t phrase_length, void *out, size_t out_length) {
  return yokepear_fr_from_ordinal(YOKEPEAR_FR_(settings), phrase, phrase_length, out, out_length);
}

/* ---- end of the calls ---------------------------------------------------------------------- */

#undef YOKEPEAR_UK_NUMBERS_
#undef YOKEPEAR_UK_
#undef YOKEPEAR_FR_NUMBERS_
#undef YOKEPEAR_FR_

#ifdef __cplusplus
}
#endif

#endif
