/* What a call on a tally must come to by a sheet. */
#include <stdio.h>
#include <stdlib.h>
#include <string.h>

#include "tally.h"

size_t speak_money(const union settings *settings, size_t currency, hundredths value,
                   uint8_t phrase[YOKEPEAR_UK_CURRENCY_PHRASE]) {
  char text[MONEY_TEXT];
  const char *code = codes[currency];
  write_money(value, text);
  yokepear_answer spoken = yokepear_uk_to_currency_in(
      settings->uk, code, strlen(code), text, strlen(text), phrase, YOKEPEAR_UK_CURRENCY_PHRASE);
  if (!spoken.refusal) return spoken.length;
  printf("DIFFERENCE: yokepear_uk_to_currency refuses %s %s by %u\n", code, text, spoken.refusal);
  exit(1);
}

static int are_in_range(const union settings *settings) {
  static const struct call ukrainian = {0};
  for (int i = 0; i < UK_SETTINGS; i++)
    if (settings->numbers[i] >= setting_end(&ukrainian, i)) return 0;
  return 1;
}

/* Bytes are a tally if there are enough of them, and the first is the number of a currency. */
static int is_tally(const struct tally_call *call) {
  return call->tally_length >= YOKEPEAR_TALLY_SIZE && call->tally[0] &&
         call->tally[0] <= code_count;
}

/* What adding or removing refuses, in 02's order; if nothing, the sheet is brought up to date. */
static uint32_t add_on(struct sheet *sheet, const struct tally_call *call) {
  hundredths value = 0;
  uint32_t refusal = read_money(call->text, call->text_length, &value);
  if (refusal) return refusal;
  if (held_on(sheet) == MOST_AMOUNTS || sheet->given == LAST_ITEM) return YOKEPEAR_TALLY_FULL;
  if (sum_of_sheet(sheet) + value > LARGEST) return YOKEPEAR_SUM_TOO_LARGE;
  write_down(sheet, value);
  return 0;
}

static uint32_t remove_on(struct sheet *sheet, const struct tally_call *call) {
  struct amount *amount = held_under(sheet, call->item);
  if (!amount) return YOKEPEAR_NOT_HELD;
  strike_out(sheet, amount);
  return 0;
}

static uint32_t call_on(struct sheet *sheet, const struct tally_call *call) {
  if (!are_in_range(&call->settings)) return YOKEPEAR_BAD_SETTING;
  if (!is_tally(call)) return YOKEPEAR_BAD_CODE;
  return call->is_adding ? add_on(sheet, call) : remove_on(sheet, call);
}

uint32_t expect_on_sheet(struct sheet *sheet, const struct tally_call *call, enum room room) {
  static struct sheet next;
  uint8_t before[YOKEPEAR_TALLY_SIZE], after[YOKEPEAR_TALLY_SIZE];
  uint8_t phrase[YOKEPEAR_UK_CURRENCY_PHRASE];
  struct tally_call on = *call;
  if (!call->tally && !call->tally_length) {
    encode_sheet(sheet, before);
    on.tally = before;
    on.tally_length = sizeof before;
  }
  next = *sheet;
  struct outcome want = {.refusal = call_on(&next, &on)};
  if (!want.refusal) {
    encode_sheet(&next, after);
    want.item = call->is_adding ? next.given : 0;
    want.phrase = phrase;
    want.length = speak_money(&call->settings, next.currency, sum_of_sheet(&next), phrase);
    want.after = after;
  }
  uint32_t refusal = expect_outcome(&on, &want, room);
  if (!refusal) *sheet = next;
  return refusal;
}

uint32_t expect_in_rooms(struct sheet *sheet, const struct tally_call *call) {
  static struct sheet copy;
  for (int room = 0; room < ROOMS; room++) {
    copy = *sheet;
    expect_on_sheet(&copy, call, (enum room)room);
  }
  return expect_on_sheet(sheet, call, EXACT);
}
