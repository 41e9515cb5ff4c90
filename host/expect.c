#define _DEFAULT_SOURCE
#include "expect.h"

#include <signal.h>
#include <stdio.h>
#include <stdlib.h>
#include <string.h>
#include <unistd.h>

#include "guard.h"

enum { LONGEST_INPUT = 70000 };

static struct block input_block, code_block, out_block;
static uint8_t *fills[2], *want;
static const struct request *asking;
static int is_measuring;

/* What was asked when something went wrong. */
static void show(const char *what) {
  const struct request *r = asking;
  if (!r) return;
  printf("%s: ", what);
  show_call(r);
  if (r->call->kind == MONEY) printf(", code [%.*s]", (int)r->code_length, (const char *)r->code);
  if (r->call->kind == YEAR && !r->call->reading)
    printf(", year %lld\n", (long long)r->year);
  else
    printf(", input of %zu bytes [%.*s]\n", r->input_length,
           (int)(r->input_length < 3000 ? r->input_length : 3000), (const char *)r->input);
}

static void fault(int number) {
  (void)number;
  show(is_measuring ? "FAULT, measuring touched a byte outside an input"
                    : "FAULT, a byte outside an input or a buffer was touched");
  fflush(stdout);
  _exit(1);
}

/* The byte that stands at a place before a call; the two fills differ at every place. */
static uint8_t filler(size_t place, int fill) {
  uint8_t byte = (uint8_t)(place * 37 + 11);
  return fill ? (uint8_t)~byte : byte;
}

void start_expecting(void) {
  input_block = make_block(LONGEST_INPUT);
  code_block = make_block(64);
  out_block = make_block(2 * LARGE);
  want = make_block(out_block.size).bytes;
  for (int fill = 0; fill < 2; fill++) {
    fills[fill] = make_block(out_block.size).bytes;
    for (size_t i = 0; i < out_block.size; i++) fills[fill][i] = filler(i, fill);
  }
  signal(SIGSEGV, fault);
  signal(SIGBUS, fault);
}

static void differ(const char *what, yokepear_answer got, uint32_t refusal, size_t length,
                   size_t room) {
  show("DIFFERENCE");
  printf("  %s, in a buffer of %zu: answered %u %zu, expected %u %zu\n", what, room, got.refusal,
         got.length, refusal, length);
  exit(1);
}

/* The two forms of a call: settings by name, and as numbers. Both are held to every expectation. */
static yokepear_answer (*const forms[2])(const struct request *, uint8_t *, size_t) = {
    ask, ask_by_number};
static yokepear_measure (*const measure_forms[2])(const struct request *) = {
    measure, measure_by_number};

static void compare_measures(const struct request *r, yokepear_measure expected) {
  struct measuring *call = &r->call->measuring;
  for (int form = 0; form < 2; form++) {
    is_measuring = 1;
    yokepear_measure got = measure_forms[form](r);
    is_measuring = 0;
    if (got.refusal == expected.refusal && got.words == expected.words &&
        got.length == expected.length)
      continue;
    show("DIFFERENCE");
    printf("  yokepear_%s: answered %u, %u words, %zu bytes, expected %u, %u words, %zu bytes\n",
           call->name, got.refusal, got.words, got.length, expected.refusal, expected.words,
           expected.length);
    exit(1);
  }
  if (expected.refusal)
    call->done.refusals++;
  else
    call->done.answers++;
}

/* What the measuring call must give where the spelling call gives this. */
static yokepear_measure measure_of(uint32_t refusal, const uint8_t *phrase, size_t length) {
  yokepear_measure expected = {refusal, 0, 0};
  if (refusal) return expected;
  expected.words = 1;
  for (size_t i = 0; i < length; i++) expected.words += phrase[i] == ' ';
  expected.length = length;
  return expected;
}

static void measure_too(const struct request *r, uint32_t refusal, const uint8_t *phrase,
                        size_t length) {
  if (!r->call->reading) compare_measures(r, measure_of(refusal, phrase, length));
}

/* Asks with a buffer of `room` bytes at `at` of the block; every byte of the block is compared. */
static void expect_at(const struct request *r, uint32_t refusal, const uint8_t *bytes,
                      size_t length, size_t room, size_t at, int fill, int form) {
  memcpy(want, fills[fill], out_block.size);
  memcpy(out_block.bytes, want, out_block.size);
  uint32_t want_refusal = refusal ? refusal : length > room ? YOKEPEAR_SHORT_BUFFER : YOKEPEAR_DONE;
  size_t want_length = refusal ? 0 : length;
  if (!want_refusal && length) memcpy(want + at, bytes, length);
  yokepear_answer got = forms[form](r, out_block.bytes + at, room);
  if (got.refusal != want_refusal || got.length != want_length)
    differ("refusal or length", got, want_refusal, want_length, room);
  if (memcmp(out_block.bytes, want, out_block.size))
    differ("bytes of the buffer or around it", got, want_refusal, want_length, room);
}

/* A buffer of this length: at the block's end, at its front and amid it; both fills, both forms. */
static void expect_room(const struct request *r, uint32_t refusal, const uint8_t *bytes,
                        size_t length, size_t room) {
  size_t last = out_block.size - room;
  size_t places[3] = {last, 0, last / 2};
  for (int i = 0; i < 3; i++)
    for (int fill = 0; fill < 2; fill++)
      for (int form = 0; form < 2; form++)
        expect_at(r, refusal, bytes, length, room, places[i], fill, form);
}

/* No buffer at all. */
static void expect_null(const struct request *r, uint32_t refusal, size_t length) {
  uint32_t want_refusal = refusal ? refusal : length ? YOKEPEAR_SHORT_BUFFER : YOKEPEAR_DONE;
  size_t want_length = refusal ? 0 : length;
  for (int form = 0; form < 2; form++) {
    yokepear_answer got = forms[form](r, 0, 0);
    if (got.refusal != want_refusal || got.length != want_length)
      differ("a null buffer", got, want_refusal, want_length, 0);
  }
}

/* The same request with its inputs in read-only blocks, at their ends or fronts. */
static struct request placed(const struct request *r, int at_end) {
  struct request copy = *r;
  if (r->input_length || r->input)
    copy.input = place_input(input_block, r->input, r->input_length, at_end);
  if (r->code_length || r->code)
    copy.code = place_input(code_block, r->code, r->code_length, at_end);
  return copy;
}

static void expect(const struct request *r, uint32_t refusal, const uint8_t *bytes, size_t length) {
  size_t rooms[] = {LARGE, 0, 1, length + 1, length + 2, length, length - (length > 0),
                    length - 2 * (length > 1)};
  for (int at_end = 0; at_end < 2; at_end++) {
    struct request copy = placed(r, at_end);
    asking = &copy;
    for (size_t i = 0; i < sizeof rooms / sizeof *rooms; i++)
      expect_room(&copy, refusal, bytes, length, rooms[i]);
    expect_null(&copy, refusal, length);
    measure_too(&copy, refusal, bytes, length);
    asking = 0;
  }
}

void expect_answer(const struct request *r, const uint8_t *bytes, size_t length) {
  r->call->done.answers++;
  expect(r, 0, bytes, length);
}

void expect_refusal(const struct request *r, uint32_t refusal) {
  r->call->done.refusals++;
  expect(r, refusal, 0, 0);
}

size_t answer_of(const struct request *r, uint8_t out[LARGE]) {
  asking = r;
  yokepear_answer got = ask(r, out, LARGE);
  if (got.refusal || got.length > LARGE) differ("a refusal", got, 0, 0, LARGE);
  measure_too(r, 0, out, got.length);
  asking = 0;
  return got.length;
}

void expect_measure(const struct request *r, yokepear_measure expected) {
  asking = r;
  compare_measures(r, expected);
  asking = 0;
}

void expect_measured(const struct request *r) {
  uint8_t phrase[LARGE], exact[LARGE];
  size_t length = answer_of(r, phrase), room = measure(r).length;
  asking = r;
  yokepear_answer filled = ask(r, exact, room);
  if (filled.refusal || filled.length != room || memcmp(exact, phrase, room))
    differ("a buffer of the length measured", filled, 0, length, room);
  yokepear_answer cut = ask(r, exact, room - 1);
  if (cut.refusal != YOKEPEAR_SHORT_BUFFER || cut.length != room)
    differ("a buffer of a byte less than measured", cut, YOKEPEAR_SHORT_BUFFER, length, room - 1);
  asking = 0;
}
