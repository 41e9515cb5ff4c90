/*
 * Bytes that no call made, given as a tally: too few, of no currency, at random, and tallies with a
 * bit turned over. A call ends, keeps to its bytes, and changes nothing where it refuses; else it
 * takes them as what they spell: every place counts, the free ones too, and hundredths above 99.
 */
#include <stdio.h>
#include <stdlib.h>
#include <string.h>

#include "tally.h"
#include "tests.h"

enum { SIZE = YOKEPEAR_TALLY_SIZE, HEAD = 5, PLACE = 13, ITEM = 4, WHOLE = 8, RANDOM = 20000 };

/* How many calls were made and did something, and how often removing was refused by 9. */
static unsigned long asked, done, sums_refused;

static uint64_t get(const uint8_t *at, int bytes) {
  uint64_t number = 0;
  for (int i = bytes - 1; i >= 0; i--) number = number << 8 | at[i];
  return number;
}

static void put(uint8_t *at, uint64_t number, int bytes) {
  for (int i = 0; i < bytes; i++) at[i] = (uint8_t)(number >> 8 * i);
}

static hundredths sum_spelled(const uint8_t *tally) {
  hundredths sum = 0;
  for (const uint8_t *at = tally + HEAD; at < tally + SIZE; at += PLACE)
    sum += (hundredths)100 * get(at + ITEM, WHOLE) + at[ITEM + WHOLE];
  return sum;
}

/* The first place with this item number, or null. */
static uint8_t *place_under(uint8_t *tally, uint32_t item) {
  for (uint8_t *at = tally + HEAD; at < tally + SIZE; at += PLACE)
    if (get(at, ITEM) == item) return at;
  return 0;
}

/* What is refused before the sum is looked at; where nothing, the tally is changed. */
static uint32_t add_spelled(const struct tally_call *call, uint8_t *tally) {
  hundredths value = 0;
  uint32_t refusal = read_money(call->text, call->text_length, &value);
  uint8_t *place = place_under(tally, 0);
  uint64_t given = get(tally + 1, ITEM);
  if (refusal) return refusal;
  if (!place || given == LAST_ITEM) return YOKEPEAR_TALLY_FULL;
  put(tally + 1, given + 1, ITEM);
  put(place, given + 1, ITEM);
  put(place + ITEM, (uint64_t)(value / 100), WHOLE);
  put(place + ITEM + WHOLE, (uint64_t)(value % 100), 1);
  return 0;
}

static uint32_t remove_spelled(const struct tally_call *call, uint8_t *tally) {
  uint8_t *place = place_under(tally, call->item);
  if (!call->item || !place) return YOKEPEAR_NOT_HELD;
  memset(place, 0, PLACE);
  return 0;
}

/* The call, in settings within their ranges, on whatever bytes. */
static void expect_spelled(const struct tally_call *call, enum room room) {
  uint8_t after[SIZE], phrase[YOKEPEAR_UK_CURRENCY_PHRASE];
  struct outcome want = {.refusal = YOKEPEAR_BAD_CODE, .phrase = phrase, .after = after};
  if (call->tally_length >= SIZE && call->tally[0] && call->tally[0] <= code_count) {
    memcpy(after, call->tally, SIZE);
    want.refusal = call->is_adding ? add_spelled(call, after) : remove_spelled(call, after);
  }
  if (!want.refusal) {
    hundredths sum = sum_spelled(after);
    if (sum > LARGEST) want.refusal = YOKEPEAR_SUM_TOO_LARGE;
    if (sum <= LARGEST)
      want.length = speak_money(&call->settings, (size_t)(after[0] - 1), sum, phrase);
    want.item = call->is_adding ? (uint32_t)get(after + 1, ITEM) : 0;
    if (sum > LARGEST && !call->is_adding) sums_refused++;
  }
  asked++;
  done += !expect_outcome(call, &want, room);
}

/* An everyday price is added, and an item removed that one of the places has, or is said to. */
static void try_bytes(const uint8_t *tally, size_t length) {
  struct tally_call add = {.tally = tally, .tally_length = length}, take = add;
  add_text(&add, "32.50");
  expect_spelled(&add, (enum room)random_below(ROOMS));
  expect_spelled(&add, GENEROUS);
  take.item = (uint32_t)random_below(4);
  if (length >= SIZE) take.item = (uint32_t)get(tally + HEAD + PLACE * random_below(64), ITEM);
  expect_spelled(&take, (enum room)random_below(ROOMS));
  expect_spelled(&take, EXACT);
}

/* A tally as calls make them, with a few of its places free. */
static void make_tally(uint8_t bytes[SIZE]) {
  static const struct sheet empty;
  static struct sheet sheet;
  sheet = empty;
  sheet.currency = random_below(code_count);
  size_t added = random_below(MOST_AMOUNTS + 1);
  for (size_t i = 0; i < added; i++) write_down(&sheet, random_below(1000000));
  for (size_t i = 0; i < added / 4; i++) {
    struct amount *amount = held_under(&sheet, 1 + (uint32_t)random_below(added));
    if (amount) strike_out(&sheet, amount);
  }
  encode_sheet(&sheet, bytes);
}

/* Every length up to a tally's and somewhat beyond; every first byte; bytes that are all alike. */
static void test_lengths(void) {
  uint8_t bytes[LONGEST_TALLY] = {0};
  try_bytes(0, 0);
  make_tally(bytes);
  for (size_t length = 0; length <= SIZE + 20; length++) try_bytes(bytes, length);
  for (int first = 0; first < 256; first++) {
    bytes[0] = (uint8_t)first;
    try_bytes(bytes, SIZE);
  }
  for (int byte = 0; byte < 256; byte++) {
    memset(bytes, byte, sizeof bytes);
    try_bytes(bytes, SIZE);
  }
}

static void test_turned_bits(void) {
  uint8_t bytes[SIZE];
  make_tally(bytes);
  for (size_t bit = 0; bit < 8 * SIZE; bit++) {
    if (bit % 1000 == 0) make_tally(bytes);
    bytes[bit / 8] ^= (uint8_t)(1 << bit % 8);
    try_bytes(bytes, SIZE);
    bytes[bit / 8] ^= (uint8_t)(1 << bit % 8);
  }
}

/* The more of them are 0, the more often places are free and sums within the limit. */
static void random_bytes(uint8_t bytes[SIZE], size_t zeros) {
  for (size_t i = 0; i < SIZE; i++)
    bytes[i] = (uint8_t)(random_below(zeros + 1) ? 0 : random_number() >> 24);
  if (random_below(8)) bytes[0] = (uint8_t)(1 + random_below(code_count));
  /* Equal item numbers, and amounts that do not each pass the limit by themselves. */
  for (uint8_t *at = bytes + HEAD; zeros && at < bytes + SIZE; at += PLACE) {
    if (random_below(2)) put(at, random_below(8), ITEM);
    if (random_below(zeros)) put(at + ITEM, random_number() >> random_below(64), WHOLE);
    if (random_below(2)) at[ITEM + WHOLE - 1] = 0;
  }
}

/* The first place's amount such that the sum, or that with the price, is about the largest. */
static void to_limit(uint8_t bytes[SIZE]) {
  uint8_t *amount = bytes + HEAD + ITEM;
  memset(amount, 0, PLACE - ITEM);
  hundredths sum = sum_spelled(bytes);
  hundredths goal = LARGEST + 2 - random_below(5) - (random_below(2) ? 3250 : 0);
  if (sum > goal) return;
  /* The last byte may have a hundred hundredths, or two, of the whole part's. */
  uint64_t more = random_below(3), rest = (uint64_t)((goal - sum) % 100) + 100 * more;
  hundredths whole = (goal - sum) / 100;
  if (whole < more || whole - more > UINT64_MAX || rest > UINT8_MAX) return;
  put(amount, (uint64_t)(whole - more), WHOLE);
  amount[WHOLE] = (uint8_t)rest;
}

/* A tally with a stretch of other bytes in it. */
static void stretched_bytes(uint8_t bytes[SIZE]) {
  make_tally(bytes);
  size_t at = random_below(SIZE - PLACE);
  for (size_t i = at; i < at + PLACE; i++) bytes[i] = (uint8_t)(random_number() >> 24);
}

void test_tally_bytes(void) {
  static const size_t zeros[] = {0, 1, 4, 16};
  uint8_t bytes[SIZE];
  test_lengths();
  test_turned_bits();
  for (size_t i = 0; i < RANDOM; i++) {
    if (i % 5 < 4)
      random_bytes(bytes, zeros[i % 5]);
    else
      stretched_bytes(bytes);
    if (i % 3 == 0) to_limit(bytes);
    try_bytes(bytes, SIZE);
  }
  printf("%lu calls on bytes that no call made: %lu are done, %lu removals refused by 9\n", asked,
         done, sums_refused);
  if (done && sums_refused) return;
  printf("DIFFERENCE: none of them are done, or none refused by 9\n");
  exit(1);
}
