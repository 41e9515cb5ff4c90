#include "sheet.h"

#include <inttypes.h>
#include <stdio.h>
#include <string.h>

/* The bytes of a tally: currency and item numbers given, then places of 13 bytes each. */
enum { HEAD = 5, PLACE = 13, ITEM_BYTES = 4, WHOLE_BYTES = 8 };

static int is_digit(uint8_t byte) { return byte >= '0' && byte <= '9'; }

/* How many digits stand at the front. */
static size_t digits_of(const uint8_t *text, size_t length) {
  size_t n = 0;
  while (n < length && is_digit(text[n])) n++;
  return n;
}

/* Whether this is what may follow the whole part: nothing, or a point and two digits, not 00. */
static int is_fraction(const uint8_t *text, size_t length) {
  if (!length) return 1;
  return length == 3 && text[0] == '.' && digits_of(text + 1, 2) == 2 && memcmp(text + 1, "00", 2);
}

uint32_t read_money(const uint8_t *text, size_t length, hundredths *value) {
  if (!length) return YOKEPEAR_BAD_TEXT;
  int is_negative = text[0] == '-';
  const uint8_t *at = text + is_negative;
  size_t left = length - (size_t)is_negative, digits = digits_of(at, left);
  hundredths whole = 0;
  if (!digits || (digits > 1 && at[0] == '0')) return YOKEPEAR_BAD_TEXT;
  if (!is_fraction(at + digits, left - digits)) return YOKEPEAR_BAD_TEXT;
  if (is_negative && left == 1 && at[0] == '0') return YOKEPEAR_BAD_TEXT;
  if (is_negative) return YOKEPEAR_NEGATIVE;
  for (size_t i = 0; i < digits; i++) {
    whole = 10 * whole + (at[i] - '0');
    if (whole > UINT64_MAX) return YOKEPEAR_TOO_LARGE;
  }
  *value = 100 * whole;
  if (left > digits) *value += (hundredths)(10 * (at[digits + 1] - '0') + (at[digits + 2] - '0'));
  return 0;
}

void write_money(hundredths value, char text[MONEY_TEXT]) {
  uint64_t whole = (uint64_t)(value / 100);
  unsigned rest = (unsigned)(value % 100);
  if (rest)
    snprintf(text, MONEY_TEXT, "%" PRIu64 ".%02u", whole, rest);
  else
    snprintf(text, MONEY_TEXT, "%" PRIu64, whole);
}

hundredths sum_of_sheet(const struct sheet *sheet) {
  hundredths sum = 0;
  for (size_t i = 0; i < sheet->added; i++)
    if (!sheet->amounts[i].is_struck) sum += sheet->amounts[i].value;
  return sum;
}

size_t held_on(const struct sheet *sheet) {
  size_t held = 0;
  for (size_t i = 0; i < sheet->added; i++) held += !sheet->amounts[i].is_struck;
  return held;
}

struct amount *held_under(struct sheet *sheet, uint32_t item) {
  for (size_t i = 0; i < sheet->added; i++) {
    struct amount *amount = &sheet->amounts[i];
    if (amount->item == item && !amount->is_struck) return amount;
  }
  return 0;
}

void write_down(struct sheet *sheet, hundredths value) {
  size_t place = 0;
  while (sheet->places[place]) place++;
  struct amount *amount = &sheet->amounts[sheet->added++];
  amount->item = ++sheet->given;
  amount->value = value;
  amount->is_struck = 0;
  sheet->places[place] = sheet->added;
}

void strike_out(struct sheet *sheet, struct amount *amount) {
  size_t number = (size_t)(amount - sheet->amounts) + 1;
  amount->is_struck = 1;
  for (size_t place = 0; place < MOST_AMOUNTS; place++)
    if (sheet->places[place] == number) sheet->places[place] = 0;
}

/* Writes the lowest bytes of a number, the lowest first. */
static void put(uint8_t *at, uint64_t number, int bytes) {
  for (int i = 0; i < bytes; i++) at[i] = (uint8_t)(number >> 8 * i);
}

void encode_sheet(const struct sheet *sheet, uint8_t bytes[YOKEPEAR_TALLY_SIZE]) {
  memset(bytes, 0, YOKEPEAR_TALLY_SIZE);
  bytes[0] = (uint8_t)(sheet->currency + 1);
  put(bytes + 1, sheet->given, ITEM_BYTES);
  for (size_t place = 0; place < MOST_AMOUNTS; place++) {
    if (!sheet->places[place]) continue;
    const struct amount *amount = &sheet->amounts[sheet->places[place] - 1];
    uint8_t *at = bytes + HEAD + PLACE * place;
    put(at, amount->item, ITEM_BYTES);
    put(at + ITEM_BYTES, (uint64_t)(amount->value / 100), WHOLE_BYTES);
    put(at + ITEM_BYTES + WHOLE_BYTES, (uint64_t)(amount->value % 100), 1);
  }
}
