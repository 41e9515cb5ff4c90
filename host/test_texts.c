/* Texts of every shape in every setting: admitted ones come back, the others are refused. */
#include <string.h>

#include "expect.h"
#include "tests.h"

/* One digit more than the longest admitted text, a minus and a closing zero byte. */
enum { LONGEST_TEXT = 106 };

static struct request on_text(struct call *call, const char *text) {
  struct request r = {0};
  r.call = call;
  set_code(&r, "UAH");
  set_text(&r, text);
  return r;
}

/* What is spelled must be the same with every buffer, and must be read back as the text. */
static void admitted(struct request r) {
  uint8_t phrase[LARGE];
  size_t length = answer_of(&r, phrase);
  struct request back = r;
  back.call = reading_call(&r);
  back.input = phrase;
  back.input_length = length;
  expect_answer(&r, phrase, length);
  if (back.call) expect_answer(&back, r.input, r.input_length);
}

/* The number that refuses a text which is well formed for some kind; 0 if it is admitted. */
static uint32_t refusal_of(const struct call *call, uint32_t cardinal, uint32_t ordinal,
                           uint32_t money) {
  return call->kind == MONEY ? money : call->kind == CARDINAL ? cardinal : ordinal;
}

static void test_text(const struct request *r, uint32_t refusal) {
  if (refusal)
    expect_refusal(r, refusal);
  else
    admitted(*r);
}

/* Texts that no kind takes for a number. */
static const char *const malformed[] = {
    "",      "-",     "-0",    "+1",   "+0",   "00",   "01",    "007",  "-00",   "-01",   "-007",
    "--1",   "1-",    "1-1",   " 1",   "1 ",   "1 0",  "a",     "1a",   "a1",    "0x1",   "1e3",
    "1,5",   "1_0",   "0-",    "\t1",  "1\n",  "\xd9\xa3",      "\xff", "1\x80", "1.",    "1.5",
    ".50",   "-.50",  ".",     "-.",   "1.00", "0.00", "-0.00", "-1.00", "00.50", "01.50", "1.505",
    "1.5a",  "1.a5",  "1..5",  "1.5.", "1. 5", "1.-5", "0.",    "0.0",  "0.000", "-0.0",  "1.0",
    "18446744073709551616.00", "-18446744073709551616.00",
};

static const struct {
  const char *text;
  uint32_t cardinal, ordinal, money;
} texts[] = {
    {"0", 0, 0, 0},       {"1", 0, 0, 0},        {"2", 0, 0, 0},      {"9", 0, 0, 0},
    {"10", 0, 0, 0},      {"11", 0, 0, 0},       {"12", 0, 0, 0},     {"13", 0, 0, 0},
    {"19", 0, 0, 0},      {"20", 0, 0, 0},       {"21", 0, 0, 0},     {"71", 0, 0, 0},
    {"80", 0, 0, 0},      {"91", 0, 0, 0},       {"99", 0, 0, 0},     {"100", 0, 0, 0},
    {"101", 0, 0, 0},     {"200", 0, 0, 0},      {"313", 0, 0, 0},    {"999", 0, 0, 0},
    {"1000", 0, 0, 0},    {"1001", 0, 0, 0},     {"2000", 0, 0, 0},   {"11000", 0, 0, 0},
    {"80000", 0, 0, 0},   {"100000", 0, 0, 0},   {"999999", 0, 0, 0}, {"1000000", 0, 0, 0},
    {"1001000", 0, 0, 0}, {"9223372036854775807", 0, 0, 0},           {"-1", 0, 4, 4},
    {"-42", 0, 4, 4},     {"-1000000", 0, 4, 4}, {"1.50", 3, 3, 0},   {"0.01", 3, 3, 0},
    {"0.99", 3, 3, 0},    {"1.01", 3, 3, 0},     {"21.21", 3, 3, 0},  {"-0.01", 3, 3, 4},
    {"-0.50", 3, 3, 4},   {"-1.50", 3, 3, 4},    {"18446744073709551615", 0, 0, 0},
    {"18446744073709551615.99", 3, 3, 0},        {"18446744073709551616", 0, 0, 5},
    {"18446744073709551616.01", 3, 3, 5},        {"-18446744073709551616", 0, 4, 4},
    {"-18446744073709551616.01", 3, 3, 4},       {"99999999999999999999", 0, 0, 5},
};

static void test_given(struct call *call, const union settings *settings) {
  for (size_t i = 0; i < sizeof malformed / sizeof *malformed; i++) {
    struct request r = on_text(call, malformed[i]);
    r.settings = *settings;
    expect_refusal(&r, YOKEPEAR_BAD_TEXT);
  }
  for (size_t i = 0; i < sizeof texts / sizeof *texts; i++) {
    struct request r = on_text(call, texts[i].text);
    r.settings = *settings;
    test_text(&r, refusal_of(call, texts[i].cardinal, texts[i].ordinal, texts[i].money));
  }
}

/* So many digits after an optional minus and a front; admitted up to the limit of digits. */
static void test_long(struct call *call, const union settings *settings, const char *front,
                      char digit, size_t digits) {
  char text[LONGEST_TEXT];
  size_t given = strlen(front), whole = given - (front[0] == '-') + digits;
  memcpy(text, front, given);
  memset(text + given, digit, digits);
  text[given + digits] = 0;
  struct request r = on_text(call, text);
  r.settings = *settings;
  size_t limit = call->french ? 102 : 66;
  uint32_t refusal = whole > limit ? YOKEPEAR_TOO_LARGE : YOKEPEAR_DONE;
  if (call->kind == MONEY || call->kind == DIGIT_ORDINAL) refusal = YOKEPEAR_TOO_LARGE;
  if (front[0] == '-' && call->kind != CARDINAL) refusal = YOKEPEAR_NEGATIVE;
  if (front[0] == '0') refusal = YOKEPEAR_BAD_TEXT;
  test_text(&r, refusal);
}

static void test_limits(struct call *call, const union settings *settings) {
  size_t limit = call->french ? 102 : 66;
  test_long(call, settings, "", '9', limit);
  test_long(call, settings, "", '9', limit + 1);
  test_long(call, settings, "-", '9', limit);
  test_long(call, settings, "-", '9', limit + 1);
  test_long(call, settings, "1", '0', limit - 1);
  test_long(call, settings, "1", '0', limit);
  test_long(call, settings, "-1", '0', limit);
  test_long(call, settings, "0", '9', limit);
  if (call->kind != DIGIT_ORDINAL) return;
  struct request r = on_text(call, "340282366920938463463374607431768211455");
  r.settings = *settings;
  admitted(r);
  r = on_text(call, "340282366920938463463374607431768211456");
  r.settings = *settings;
  expect_refusal(&r, YOKEPEAR_TOO_LARGE);
}

static void test_years(struct call *call, const union settings *settings) {
  static const char *const years[] = {
      "0",     "1",        "-1",   "3",     "13",   "-43",  "200",  "1991", "2000", "2024", "-2024",
      "1000000", "-1000000", "9999", "21000", "9223372036854775807", "-9223372036854775808",
      "-9223372036854775807", "-2147483648"};
  for (size_t i = 0; i < sizeof years / sizeof *years; i++) {
    struct request r = on_text(call, years[i]);
    r.settings = *settings;
    admitted(r);
  }
}

/* A setting out of its range is refused first, whatever else is wrong. */
static void test_wrong_settings(struct call *call) {
  static const char *const inputs[] = {"1", "", "007", "-1", "1.50", "one"};
  for (int at = 0; at < setting_count(call); at++) {
    uint32_t end = setting_end(call, at);
    /* One less than the least number; that of 0 is the largest. */
    uint32_t below = setting_least(call, at) - 1;
    uint32_t wrong[] = {below, end, end + 1, 255, 256, 65536, 0x80000000u, UINT32_MAX};
    for (size_t i = 0; i < sizeof wrong / sizeof *wrong; i++)
      for (size_t k = 0; k < sizeof inputs / sizeof *inputs; k++) {
        struct request r = on_text(call, inputs[k]);
        r.settings = first_settings(call);
        r.settings.numbers[at] = wrong[i];
        expect_refusal(&r, YOKEPEAR_BAD_SETTING);
        r.code_length = 2;
        if (call->kind == MONEY) expect_refusal(&r, YOKEPEAR_BAD_SETTING);
        for (int other = 0; other < setting_count(call); other++)
          r.settings.numbers[other] = wrong[i];
        if (wrong[i] >= 6) expect_refusal(&r, YOKEPEAR_BAD_SETTING);
      }
  }
}

void test_texts(void) {
  for (size_t i = 0; i < call_count; i++) {
    struct call *call = &calls[i];
    test_wrong_settings(call);
    union settings settings = {{0}};
    do {
      if (call->reading) break;
      if (call->kind == YEAR) {
        test_years(call, &settings);
      } else {
        test_given(call, &settings);
        test_limits(call, &settings);
      }
    } while (next_settings(call, &settings));
  }
}
