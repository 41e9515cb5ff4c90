/* The deepest stack use of each call on tallies. */
#include <stdio.h>
#include <string.h>

#include "paint.h"
#include "sheet.h"

enum { SIZE = YOKEPEAR_TALLY_SIZE, LARGE = YOKEPEAR_UK_CURRENCY_PHRASE };

/* The calls, on numbers, or those in their places that do nothing. */
struct tally_calls {
  yokepear_answer (*open)(const void *, size_t, void *, size_t);
  yokepear_tallied (*add)(UK_NUMBERS, void *, size_t, const void *, size_t, void *, size_t);
  yokepear_tallied (*remove)(UK_NUMBERS, uint32_t, void *, size_t, void *, size_t);
  yokepear_tallied (*preview_add)(UK_NUMBERS, const void *, size_t, const void *, size_t, void *,
                                  size_t);
  yokepear_tallied (*preview_remove)(UK_NUMBERS, uint32_t, const void *, size_t, void *, size_t);
};

static yokepear_answer no_open(const void *k, size_t m, void *t, size_t n) {
  (void)k, (void)m, (void)t, (void)n;
  return (yokepear_answer){0, 0};
}
static yokepear_tallied no_add(UK_UNUSED, void *t, size_t m, const void *s, size_t n, void *o,
                               size_t room) {
  IGNORE_UK, (void)t, (void)m, (void)s, (void)n, (void)o, (void)room;
  return (yokepear_tallied){0, 0, 0};
}
static yokepear_tallied no_remove(UK_UNUSED, uint32_t i, void *t, size_t n, void *o, size_t room) {
  IGNORE_UK, (void)i, (void)t, (void)n, (void)o, (void)room;
  return (yokepear_tallied){0, 0, 0};
}
static yokepear_tallied no_preview_add(UK_UNUSED, const void *t, size_t m, const void *s, size_t n,
                                       void *o, size_t room) {
  IGNORE_UK, (void)t, (void)m, (void)s, (void)n, (void)o, (void)room;
  return (yokepear_tallied){0, 0, 0};
}
static yokepear_tallied no_preview_remove(UK_UNUSED, uint32_t i, const void *t, size_t n, void *o,
                                          size_t room) {
  IGNORE_UK, (void)i, (void)t, (void)n, (void)o, (void)room;
  return (yokepear_tallied){0, 0, 0};
}

static const struct tally_calls
    library = {yokepear_tally_open, yokepear_tally_add, yokepear_tally_remove,
               yokepear_tally_preview_add, yokepear_tally_preview_remove},
    nothing = {no_open, no_add, no_remove, no_preview_add, no_preview_remove};

static const struct tally_calls *calls_now;
static union settings settings;
static uint8_t before[SIZE], tally[SIZE], out[LARGE];
static const char *text;
static size_t tally_length, out_length;
static uint32_t item;
static yokepear_answer answer;
static yokepear_tallied tallied;

static void open_it(void) { answer = calls_now->open(text, strlen(text), tally, tally_length); }

static void add_it(void) {
  const uint32_t *s = settings.numbers;
  tallied = calls_now->add(IN_UK(s), tally, tally_length, text, strlen(text), out, out_length);
}

static void remove_it(void) {
  const uint32_t *s = settings.numbers;
  tallied = calls_now->remove(IN_UK(s), item, tally, tally_length, out, out_length);
}

static void preview_add_it(void) {
  const uint32_t *s = settings.numbers;
  tallied =
      calls_now->preview_add(IN_UK(s), tally, tally_length, text, strlen(text), out, out_length);
}

static void preview_remove_it(void) {
  const uint32_t *s = settings.numbers;
  tallied = calls_now->preview_remove(IN_UK(s), item, tally, tally_length, out, out_length);
}

/* The first of them changes the tally, so each of the two runs has it as it was before. */
static void (*run)(void);
static void run_on_tally(void) {
  memcpy(tally, before, SIZE);
  run();
}

/* What the call takes, with room and without. */
static size_t used(const char *name) {
  size_t most = 0, alone;
  static const size_t rooms[] = {LARGE, 0, 1};
  calls_now = &library;
  for (size_t i = 0; i < sizeof rooms / sizeof *rooms; i++) {
    out_length = rooms[i];
    most = deeper(most, stack_used(run_on_tally, name));
  }
  calls_now = &nothing;
  alone = stack_used(run_on_tally, name) - ADDRESS;
  return most - alone;
}

/* A tally of so many amounts: the first, and others of 0.99. */
static void make_tally(size_t amounts, hundredths first) {
  static const struct sheet empty = {.currency = 17}; /* ILS, whose phrases are the longest */
  static struct sheet sheet;
  sheet = empty;
  for (size_t i = 0; i < amounts; i++) write_down(&sheet, i ? 99 : first);
  encode_sheet(&sheet, before);
}

static size_t in_settings(const char *name) {
  static const struct call ukrainian = {0};
  size_t most = 0;
  memset(&settings, 0, sizeof settings);
  do most = deeper(most, used(name));
  while (next_settings(&ukrainian, &settings));
  return most;
}

static size_t show(const char *name, size_t bytes) {
  printf("yokepear_%s: %zu bytes of stack\n", name, bytes);
  return bytes;
}

static size_t deepest_open(void) {
  static const char *const texts[] = {"UAH", "DOLLAR", "", "XXX"};
  size_t most = 0;
  run = open_it;
  for (size_t i = 0; i < sizeof texts / sizeof *texts; i++) {
    text = texts[i];
    for (tally_length = 0; tally_length <= SIZE; tally_length += SIZE)
      most = deeper(most, used("tally_open"));
  }
  return most;
}

/* Of adding, or of its preview. */
static size_t deepest_add(void (*it)(void), const char *name) {
  static const char *const texts[] = {"0", "0.01", "32.50", "007", "14989989989989989988.90"};
  size_t most = 0;
  run = it;
  for (size_t i = 0; i < sizeof texts / sizeof *texts; i++) {
    text = texts[i];
    make_tally(0, 0);
    most = deeper(most, in_settings(name));
    make_tally(2, 0);
    most = deeper(most, in_settings(name));
  }
  make_tally(MOST_AMOUNTS, 0);
  return show(name, deeper(most, in_settings(name)));
}

/* The same of removing. An item of 0.99 is removed, and the longest total is left. */
static size_t deepest_remove(void (*it)(void), const char *name) {
  const hundredths longest = (hundredths)100 * 14989989989989989989u + 89;
  size_t most = 0;
  run = it;
  for (item = 0; item < 3; item++) {
    make_tally(2, LARGEST - 99);
    most = deeper(most, in_settings(name));
    make_tally(MOST_AMOUNTS, longest - (MOST_AMOUNTS - 2) * 99);
    most = deeper(most, in_settings(name));
  }
  return show(name, most);
}

size_t show_tallies(void) {
  size_t most = show("tally_open", deepest_open());
  tally_length = SIZE;
  most = deeper(most, deepest_add(add_it, "tally_add"));
  most = deeper(most, deepest_remove(remove_it, "tally_remove"));
  most = deeper(most, deepest_add(preview_add_it, "tally_preview_add"));
  return deeper(most, deepest_remove(preview_remove_it, "tally_preview_remove"));
}
