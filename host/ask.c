#include "ask.h"

#include <stdio.h>
#include <stdlib.h>
#include <string.h>

/* A function for each call that hands a request on, with settings by name. */
#define BY_NAME(call, ...)                                                                     \
  static yokepear_answer call##_by_name(const struct request *r, uint8_t *out, size_t length) { \
    return yokepear_##call##_in(__VA_ARGS__, out, length);                                      \
  }
#define UK_TEXT r->settings.uk, r->input, r->input_length
#define UK_YEAR r->settings.uk, r->year
#define UK_MONEY r->settings.uk, r->code, r->code_length, r->input, r->input_length
#define FR_TEXT r->settings.fr, r->input, r->input_length

BY_NAME(uk_to_cardinal, UK_TEXT)
BY_NAME(uk_from_cardinal, UK_TEXT)
BY_NAME(uk_to_ordinal, UK_TEXT)
BY_NAME(uk_from_ordinal, UK_TEXT)
BY_NAME(uk_to_ordinal_num, UK_TEXT)
BY_NAME(uk_to_year, UK_YEAR)
BY_NAME(uk_from_year, UK_TEXT)
BY_NAME(uk_to_currency, UK_MONEY)
BY_NAME(uk_from_currency, UK_MONEY)
BY_NAME(fr_to_cardinal, FR_TEXT)
BY_NAME(fr_from_cardinal, FR_TEXT)
BY_NAME(fr_to_ordinal, FR_TEXT)
BY_NAME(fr_from_ordinal, FR_TEXT)

/* The same for each measuring call, which has no buffer. */
#define MEASURE_BY_NAME(call, ...)                                     \
  static yokepear_measure call##_by_name(const struct request *r) {    \
    return yokepear_##call##_in(__VA_ARGS__);                          \
  }

MEASURE_BY_NAME(uk_measure_cardinal, UK_TEXT)
MEASURE_BY_NAME(uk_measure_ordinal, UK_TEXT)
MEASURE_BY_NAME(uk_measure_ordinal_num, UK_TEXT)
MEASURE_BY_NAME(uk_measure_year, UK_YEAR)
MEASURE_BY_NAME(uk_measure_currency, UK_MONEY)
MEASURE_BY_NAME(fr_measure_cardinal, FR_TEXT)
MEASURE_BY_NAME(fr_measure_ordinal, FR_TEXT)

#define BOTH_FORMS(call, form) \
  .name = #call, .by_name = call##_by_name, .form = yokepear_##call
#define MEASURED(call, form) .measuring = {BOTH_FORMS(call, form)}

struct call calls[] = {
    {BOTH_FORMS(uk_to_cardinal, uk_on_text), .kind = CARDINAL,
     MEASURED(uk_measure_cardinal, uk_on_text)},
    {BOTH_FORMS(uk_from_cardinal, uk_on_text), .kind = CARDINAL, .reading = 1},
    {BOTH_FORMS(fr_to_cardinal, fr_on_text), .kind = CARDINAL, .french = 1,
     MEASURED(fr_measure_cardinal, fr_on_text)},
    {BOTH_FORMS(fr_from_cardinal, fr_on_text), .kind = CARDINAL, .french = 1, .reading = 1},
    {BOTH_FORMS(fr_to_ordinal, fr_on_text), .kind = ORDINAL, .french = 1,
     MEASURED(fr_measure_ordinal, fr_on_text)},
    {BOTH_FORMS(fr_from_ordinal, fr_on_text), .kind = ORDINAL, .french = 1, .reading = 1},
    {BOTH_FORMS(uk_to_currency, uk_on_money), .kind = MONEY,
     MEASURED(uk_measure_currency, uk_on_money)},
    {BOTH_FORMS(uk_from_currency, uk_on_money), .kind = MONEY, .reading = 1},
    {BOTH_FORMS(uk_to_ordinal, uk_on_text), .kind = ORDINAL,
     MEASURED(uk_measure_ordinal, uk_on_text)},
    {BOTH_FORMS(uk_from_ordinal, uk_on_text), .kind = ORDINAL, .reading = 1},
    {BOTH_FORMS(uk_to_ordinal_num, uk_on_text), .kind = DIGIT_ORDINAL,
     MEASURED(uk_measure_ordinal_num, uk_on_text)},
    {BOTH_FORMS(uk_to_year, uk_on_year), .kind = YEAR,
     MEASURED(uk_measure_year, uk_on_year)},
    {BOTH_FORMS(uk_from_year, uk_on_text), .kind = YEAR, .reading = 1},
};

const size_t call_count = sizeof calls / sizeof *calls;

const char *const codes[] = {
    "AED", "ARS", "AUD", "BRL", "CAD", "CHF", "CLP", "CNY", "COP",  "CRC",   "DINAR",
    "DOLLAR", "DZD", "EUR", "GBP", "HKD", "IDR", "ILS", "INR", "JPY", "KRW", "KWD",
    "KZT", "MXN", "MYR", "NOK", "NZD", "PEN", "PESO", "PHP", "PLN", "QAR", "RIYAL",
    "RUB", "SAR", "SGD", "THB", "TRY", "TWD", "UAH", "USD", "UYU", "VND", "ZAR",
};

const size_t code_count = sizeof codes / sizeof *codes;

struct call *find_call(const char *name) {
  for (size_t i = 0; i < call_count; i++)
    if (!strcmp(calls[i].name, name)) return &calls[i];
  return 0;
}

/* Whether the call admits each of the settings. */
static int admits(const struct call *call, const union settings *settings) {
  for (int i = 0; i < setting_count(call); i++) {
    uint32_t number = settings->numbers[i];
    if (number < setting_least(call, i) || number >= setting_end(call, i)) return 0;
  }
  return 1;
}

struct call *reading_call(const struct request *spelling) {
  const struct call *call = spelling->call;
  for (size_t i = 0; i < call_count; i++) {
    struct call *other = &calls[i];
    if (other->reading && other->kind == call->kind && other->french == call->french)
      return admits(other, &spelling->settings) ? other : 0;
  }
  return 0;
}

int setting_count(const struct call *call) { return call->french ? FR_SETTINGS : UK_SETTINGS; }

/* Ordinals and years are read as taught in school; else 0 is admitted everywhere. */
uint32_t setting_least(const struct call *call, int setting) {
  static const union settings none, school = {.uk = {.ordinal_style = 1}};
  int is_taught = !call->french && call->reading && (call->kind == ORDINAL || call->kind == YEAR);
  return (is_taught ? &school : &none)->numbers[setting];
}

uint32_t setting_end(const struct call *call, int setting) {
  static const uint32_t ukrainian[UK_SETTINGS] = {3, 2, 6, 3, 2}, french[FR_SETTINGS] = {2, 2, 3};
  return call->french ? french[setting] : ukrainian[setting];
}

union settings first_settings(const struct call *call) {
  union settings settings = {{0}};
  for (int i = 0; i < setting_count(call); i++)
    settings.numbers[i] = setting_least(call, i);
  return settings;
}

int next_settings(const struct call *call, union settings *settings) {
  for (int i = setting_count(call) - 1; i >= 0; i--) {
    if (++settings->numbers[i] < setting_end(call, i)) return 1;
    settings->numbers[i] = setting_least(call, i);
  }
  return 0;
}

void set_text(struct request *r, const char *text) {
  r->input = (const uint8_t *)text;
  r->input_length = strlen(text);
  if (r->call->kind == YEAR) r->year = strtoll(text, 0, 10);
}

void set_code(struct request *r, const char *code) {
  r->code = (const uint8_t *)code;
  r->code_length = strlen(code);
}

void show_call(const struct request *r) {
  printf("yokepear_%s, settings", r->call->name);
  for (int i = 0; i < setting_count(r->call); i++) printf(" %u", r->settings.numbers[i]);
}

yokepear_answer ask(const struct request *r, uint8_t *out, size_t out_length) {
  r->call->done.asked++;
  return r->call->by_name(r, out, out_length);
}

yokepear_answer ask_by_number(const struct request *r, uint8_t *out, size_t out_length) {
  struct call *call = r->call;
  const uint32_t *s = r->settings.numbers;
  call->done.asked++;
  if (call->uk_on_year) return call->uk_on_year(IN_UK(s), r->year, out, out_length);
  if (call->uk_on_money)
    return call->uk_on_money(IN_UK(s), r->code, r->code_length, r->input, r->input_length, out,
                             out_length);
  if (call->uk_on_text)
    return call->uk_on_text(IN_UK(s), r->input, r->input_length, out, out_length);
  return call->fr_on_text(IN_FR(s), r->input, r->input_length, out, out_length);
}

yokepear_measure measure(const struct request *r) {
  r->call->measuring.done.asked++;
  return r->call->measuring.by_name(r);
}

yokepear_measure measure_by_number(const struct request *r) {
  struct measuring *call = &r->call->measuring;
  const uint32_t *s = r->settings.numbers;
  call->done.asked++;
  if (call->uk_on_year) return call->uk_on_year(IN_UK(s), r->year);
  if (call->uk_on_money)
    return call->uk_on_money(IN_UK(s), r->code, r->code_length, r->input, r->input_length);
  if (call->uk_on_text) return call->uk_on_text(IN_UK(s), r->input, r->input_length);
  return call->fr_on_text(IN_FR(s), r->input, r->input_length);
}
