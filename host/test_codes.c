/* The currency codes, in every setting. */
#include <string.h>

#include "expect.h"
#include "tests.h"

static const char *const unknown[] = {
    "", "U", "UA", "UAHH", "uah", "Uah", " UAH", "UAH ", "EURO", "DINA", "DINARS", "DOLAR",
    "DOLLARS", "PESOS", "RIYALS", "XXX", "AAA", "ZZZ", "980", "\xd0\xa3\xd0\x90\xd0\x93", "\xff",
};

/* A known code: the amount is spoken, and read back if there is a call that reads. */
static void known_code(struct request r, const char *amount) {
  uint8_t phrase[LARGE];
  set_text(&r, amount);
  size_t length = answer_of(&r, phrase);
  expect_answer(&r, phrase, length);
  r.call = reading_call(&r);
  if (!r.call) return;
  r.input = phrase;
  r.input_length = length;
  expect_answer(&r, (const uint8_t *)amount, strlen(amount));
}

/* An unknown code comes before the text or phrase, good or bad. */
static void unknown_code(struct request r) {
  static const char *const inputs[] = {"1", "007", "", "-1",
                                       "\xd0\xbe\xd0\xb4\xd0\xbd\xd0\xb0"};
  for (size_t i = 0; i < sizeof inputs / sizeof *inputs; i++) {
    set_text(&r, inputs[i]);
    expect_refusal(&r, YOKEPEAR_BAD_CODE);
  }
}

static void test_setting(struct request r) {
  for (size_t i = 0; i < code_count; i++) {
    set_code(&r, codes[i]);
    if (r.call->reading) continue;
    known_code(r, "21.02");
    known_code(r, i % 2 ? "5" : "0.11");
  }
  for (size_t i = 0; i < sizeof unknown / sizeof *unknown; i++) {
    set_code(&r, unknown[i]);
    unknown_code(r);
  }
  r.code = 0;
  r.code_length = 0;
  unknown_code(r);
}

void test_codes(void) {
  for (size_t i = 0; i < call_count; i++) {
    struct request r = {0};
    r.call = &calls[i];
    if (r.call->kind != MONEY) continue;
    do test_setting(r);
    while (next_settings(r.call, &r.settings));
  }
}
