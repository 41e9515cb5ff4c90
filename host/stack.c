/* The deepest stack use of each call. */
#include <stdio.h>
#include <stdlib.h>
#include <string.h>

#include "ask.h"
#include "paint.h"

enum { LARGE = 4000, LONG = 64 * 1024 };

static uint8_t out[LARGE], words[LONG];
static const struct request *asking;
static size_t out_length;
static yokepear_answer answer;
static yokepear_measure measured;

/* On numbers: that is the library's own call, with nothing of the header between. */
static void ask_it(void) { answer = ask_by_number(asking, out, out_length); }
static void measure_it(void) { measured = measure_by_number(asking); }

/* Which of them runs. */
static void (*run)(void) = ask_it;

static size_t used(const struct request *r, size_t room) {
  asking = r;
  out_length = room;
  return stack_used(run, r->call->name);
}

/* Calls that do nothing: what asking itself takes. */
static yokepear_answer no_uk_text(UK_UNUSED, const void *s, size_t n, void *o, size_t room) {
  IGNORE_UK, (void)s, (void)n, (void)o, (void)room;
  return (yokepear_answer){0, 0};
}
static yokepear_answer no_money(UK_UNUSED, const void *k, size_t m, const void *s, size_t n,
                                void *o, size_t room) {
  IGNORE_UK, (void)k, (void)m, (void)s, (void)n, (void)o, (void)room;
  return (yokepear_answer){0, 0};
}
static yokepear_answer no_year(UK_UNUSED, int64_t year, void *o, size_t room) {
  IGNORE_UK, (void)year, (void)o, (void)room;
  return (yokepear_answer){0, 0};
}
static yokepear_answer no_fr_text(FR_UNUSED, const void *s, size_t n, void *o, size_t room) {
  IGNORE_FR, (void)s, (void)n, (void)o, (void)room;
  return (yokepear_answer){0, 0};
}

/* The same of measuring calls. */
static yokepear_measure no_uk_text_measure(UK_UNUSED, const void *s, size_t n) {
  IGNORE_UK, (void)s, (void)n;
  return (yokepear_measure){0, 0, 0};
}
static yokepear_measure no_money_measure(UK_UNUSED, const void *k, size_t m, const void *s,
                                         size_t n) {
  IGNORE_UK, (void)k, (void)m, (void)s, (void)n;
  return (yokepear_measure){0, 0, 0};
}
static yokepear_measure no_year_measure(UK_UNUSED, int64_t year) {
  IGNORE_UK, (void)year;
  return (yokepear_measure){0, 0, 0};
}
static yokepear_measure no_fr_text_measure(FR_UNUSED, const void *s, size_t n) {
  IGNORE_FR, (void)s, (void)n;
  return (yokepear_measure){0, 0, 0};
}

static struct measuring measuring_nothing(struct measuring call) {
  if (call.uk_on_text) call.uk_on_text = no_uk_text_measure;
  if (call.uk_on_money) call.uk_on_money = no_money_measure;
  if (call.uk_on_year) call.uk_on_year = no_year_measure;
  if (call.fr_on_text) call.fr_on_text = no_fr_text_measure;
  return call;
}

static size_t asking_alone(const struct call *call) {
  struct call nothing = *call;
  if (call->uk_on_text) nothing.uk_on_text = no_uk_text;
  if (call->uk_on_money) nothing.uk_on_money = no_money;
  if (call->uk_on_year) nothing.uk_on_year = no_year;
  if (call->fr_on_text) nothing.fr_on_text = no_fr_text;
  nothing.measuring = measuring_nothing(call->measuring);
  struct request r = {0};
  r.call = &nothing;
  return used(&r, 0) - ADDRESS;
}

/* The request with room and without; a measuring call has none. */
static size_t with_rooms(struct request r) {
  if (run == measure_it) return used(&r, 0);
  return deeper(used(&r, LARGE), deeper(used(&r, 0), used(&r, 1)));
}

/* Short texts and long ones; the longest are made of groups with the longest words. */
static const char *const texts[] = {
    "0", "1", "-1", "42", "1000", "999999", "007", "0.01", "18446744073709551615.99",
    "14989989989989989989.89", "340282366920938463463374607431768211455",
};

static struct call *spelling_call(const struct call *reading) {
  for (size_t i = 0; i < call_count; i++) {
    struct call *other = &calls[i];
    if (!other->reading && other->kind == reading->kind && other->french == reading->french)
      return other;
  }
  return 0;
}

/* The phrase of a text in the same settings becomes the input, if there is one. */
static void spell_input(struct request *r, uint8_t *phrase) {
  struct request spelling = *r;
  spelling.call = spelling_call(r->call);
  if (!spelling.call) return;
  yokepear_answer a = ask(&spelling, phrase, LARGE);
  if (a.refusal) return;
  r->input = phrase;
  r->input_length = a.length;
}

static size_t with_text(struct request r, const char *text) {
  uint8_t phrase[LARGE];
  set_text(&r, text);
  if (r.call->reading) spell_input(&r, phrase);
  return with_rooms(r);
}

/* A text of so many equal groups after a front. */
static size_t with_groups(struct request r, const char *front, const char *group, int groups) {
  char text[128];
  strcpy(text, front);
  for (int i = 0; i < groups; i++) strcat(text, group);
  return with_text(r, text);
}

static size_t with_texts(struct request r) {
  size_t most = 0;
  for (size_t i = 0; i < sizeof texts / sizeof *texts; i++)
    most = deeper(most, with_text(r, texts[i]));
  int groups = r.call->french ? 34 : 22;
  most = deeper(most, with_groups(r, "", "989", groups));
  most = deeper(most, with_groups(r, "-", "989", groups));
  most = deeper(most, with_groups(r, "", "997", groups));
  return deeper(most, with_groups(r, "9", "999", groups));
}

/* A long run of one word, for readers that might go deeper with every word. */
static size_t with_words(struct request r, const char *word) {
  size_t length = strlen(word);
  for (size_t i = 0; i < LONG; i++) words[i] = (uint8_t)word[i % length];
  r.input = words;
  r.input_length = LONG;
  return used(&r, LARGE);
}

static size_t deepest_of(struct call *call) {
  struct request r = {0};
  size_t most = 0;
  r.call = call;
  r.settings = first_settings(call);
  set_code(&r, "ILS");
  do most = deeper(most, with_texts(r));
  while (next_settings(call, &r.settings));
  static const char *const long_words[] = {"один ", "сто ", "двохсот", "un ", "cent ", "1", "-"};
  for (size_t i = 0; i < sizeof long_words / sizeof *long_words; i++)
    most = deeper(most, with_words(r, long_words[i]));
  return most - asking_alone(call);
}

static size_t show_deepest(struct call *call, void (*runs)(void), const char *name) {
  run = runs;
  size_t bytes = deepest_of(call);
  printf("yokepear_%s: %zu bytes of stack\n", name, bytes);
  return bytes;
}

/* An optional argument is a limit in bytes: the program ends with 1 if a call reaches it. */
int main(int argc, char **argv) {
  size_t most = 0, limit = argc > 1 ? (size_t)strtoul(argv[1], 0, 10) : STACK;
  for (size_t i = 0; i < call_count; i++) {
    struct call *call = &calls[i];
    most = deeper(most, show_deepest(call, ask_it, call->name));
    if (!call->reading) most = deeper(most, show_deepest(call, measure_it, call->measuring.name));
  }
  most = deeper(most, show_tallies());
  printf("deepest: %zu bytes of stack\n", most);
  return most < limit ? 0 : 1;
}
