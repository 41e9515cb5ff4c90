#define _DEFAULT_SOURCE
#include "tally.h"

#include <signal.h>
#include <stdio.h>
#include <stdlib.h>
#include <string.h>
#include <unistd.h>

#include "guard.h"

enum { TEXT_BYTES = 4096, OUT_BYTES = 4096, TALLY_BYTES = 4096, SPARE = 300 };

struct tally_counts tally_calls[TALLY_CALLS] = {
    {.name = "tally_open"},        {.name = "tally_add"},           {.name = "tally_remove"},
    {.name = "tally_preview_add"}, {.name = "tally_preview_remove"}};

static struct block text_block, out_block, tally_block;
static uint8_t out_want[OUT_BYTES], tally_want[TALLY_BYTES];
static struct {
  yokepear_tallied answer;
  uint8_t phrase[YOKEPEAR_UK_CURRENCY_PHRASE];
} previewed; /* from the last preview */
static const struct tally_call *asking;
static void (*other_faults[2])(int);
static uint64_t random_state;

/* Which of the calls it is. */
static int kind_of(const struct tally_call *c) {
  if (c->is_preview) return c->is_adding ? PREVIEWING_ADD : PREVIEWING_REMOVE;
  return c->is_adding ? ADDING : REMOVING;
}

static void show(const struct tally_call *c, const char *what) {
  printf("%s: yokepear_%s, settings", what, tally_calls[kind_of(c)].name);
  for (int i = 0; i < UK_SETTINGS; i++) printf(" %u", c->settings.numbers[i]);
  printf(", tally of %zu bytes", c->tally_length);
  if (c->is_adding)
    printf(", text [%.*s]\n", (int)c->text_length, c->text ? (const char *)c->text : "");
  else
    printf(", item %u\n", c->item);
}

void tally_differs(const struct tally_call *call, const char *what) {
  show(call, "DIFFERENCE");
  printf("  %s\n", what);
  exit(1);
}

static void fault(int number) {
  (void)number;
  if (asking)
    show(asking, "FAULT, a byte outside a text, a tally or a buffer was touched, or one of an"
                 " input written");
  else
    printf("FAULT, a byte outside a code or a tally was touched: yokepear_tally_open\n");
  fflush(stdout);
  _exit(1);
}

void start_tallies(void) {
  text_block = make_block(TEXT_BYTES);
  out_block = make_block(OUT_BYTES);
  tally_block = make_block(TALLY_BYTES);
  random_state = 88172645463325252u;
  other_faults[0] = signal(SIGSEGV, fault);
  other_faults[1] = signal(SIGBUS, fault);
}

void end_tallies(void) {
  signal(SIGSEGV, other_faults[0]);
  signal(SIGBUS, other_faults[1]);
}

uint64_t random_number(void) {
  random_state ^= random_state << 13;
  random_state ^= random_state >> 7;
  random_state ^= random_state << 17;
  return random_state;
}

size_t random_below(size_t end) { return (size_t)((random_number() >> 16) % end); }

void add_text(struct tally_call *call, const char *text) {
  call->is_adding = 1;
  call->text = (const uint8_t *)text;
  call->text_length = strlen(text);
}

/* Fills a block with what the call must not touch, and the same into what is wanted of it. */
static void fill(uint8_t *block, uint8_t *want, size_t size) {
  uint8_t first = (uint8_t)random_number();
  for (size_t i = 0; i < size; i++) want[i] = (uint8_t)(first + 37 * i);
  memcpy(block, want, size);
}

/* Where so many bytes lie in a block: at its end, at its front or amid it. */
static size_t place_in(size_t size, size_t length) {
  size_t places[] = {size - length, 0, (size - length) / 2};
  return places[random_below(3)];
}

void expect_opening(const uint8_t *code, size_t code_length, size_t tally_length, uint8_t number) {
  const size_t size = YOKEPEAR_TALLY_SIZE;
  uint32_t refusal = !number ? YOKEPEAR_BAD_CODE : tally_length < size ? YOKEPEAR_SHORT_BUFFER : 0;
  size_t at = place_in(TALLY_BYTES, tally_length);
  const uint8_t *placed = place_input(text_block, code, code_length, (int)random_below(2));
  fill(tally_block.bytes, tally_want, TALLY_BYTES);
  if (!refusal) {
    memset(tally_want + at, 0, size);
    tally_want[at] = number;
  }
  uint8_t *tally = tally_length ? tally_block.bytes + at : 0;
  yokepear_answer got =
      yokepear_tally_open(code ? placed : 0, code_length, tally, tally_length);
  struct counts *done = &tally_calls[OPENING].done;
  done->asked++, refusal ? done->refusals++ : done->answers++;
  if (got.refusal == refusal && got.length == (number ? size : 0) &&
      !memcmp(tally_block.bytes, tally_want, TALLY_BYTES))
    return;
  printf("DIFFERENCE: yokepear_tally_open, code [%.*s], tally of %zu bytes: answered %u %zu,"
         " expected %u, or other bytes\n", (int)code_length, (const char *)code, tally_length,
         got.refusal, got.length, refusal);
  exit(1);
}

/* The call with settings as numbers, and by name. */
static yokepear_tallied ask_by_numbers(const struct tally_call *c, uint8_t *tally,
                                       const uint8_t *text, uint8_t *out, size_t room) {
  const uint32_t *s = c->settings.numbers;
  const size_t size = c->tally_length, length = c->text_length;
  switch (kind_of(c)) {
    case ADDING:
      return yokepear_tally_add(IN_UK(s), tally, size, text, length, out, room);
    case REMOVING:
      return yokepear_tally_remove(IN_UK(s), c->item, tally, size, out, room);
    case PREVIEWING_ADD:
      return yokepear_tally_preview_add(IN_UK(s), tally, size, text, length, out, room);
    default:
      return yokepear_tally_preview_remove(IN_UK(s), c->item, tally, size, out, room);
  }
}

static yokepear_tallied ask_by_name(const struct tally_call *c, uint8_t *tally,
                                    const uint8_t *text, uint8_t *out, size_t room) {
  const yokepear_uk uk = c->settings.uk;
  const size_t size = c->tally_length, length = c->text_length;
  switch (kind_of(c)) {
    case ADDING: return yokepear_tally_add_in(uk, tally, size, text, length, out, room);
    case REMOVING: return yokepear_tally_remove_in(uk, c->item, tally, size, out, room);
    case PREVIEWING_ADD:
      return yokepear_tally_preview_add_in(uk, tally, size, text, length, out, room);
    default: return yokepear_tally_preview_remove_in(uk, c->item, tally, size, out, room);
  }
}

static yokepear_tallied (*const forms[2])(const struct tally_call *, uint8_t *, const uint8_t *,
                                          uint8_t *, size_t) = {ask_by_numbers, ask_by_name};

static size_t room_for(enum room room, size_t length) {
  switch (room) {
    case ONE_SHORT: return length - (length > 0);
    case EXACT: return length;
    case ONE_MORE: return length + 1;
    case GENEROUS: return length + 2 + random_below(SPARE);
    default: return 0;
  }
}

static int are_same(const yokepear_tallied *a, const yokepear_tallied *b) {
  return a->refusal == b->refusal && a->item == b->item && a->length == b->length;
}

/* Before the expected is looked at: the call answers what its preview did, and says the same. */
static void expect_as_previewed(const struct tally_call *c, const yokepear_tallied *got,
                         const uint8_t *out) {
  if (!are_same(got, &previewed.answer)) tally_differs(c, "its preview gave another answer");
  if (!got->refusal && memcmp(out, previewed.phrase, got->length))
    tally_differs(c, "its preview said another phrase");
}

static void expect_tallied(const struct tally_call *c, const yokepear_tallied *got,
                           const yokepear_tallied *answer, size_t room_bytes, int form) {
  if (are_same(got, answer)) return;
  printf("answered %u, item %u, %zu bytes, expected %u, %u, %zu, in a buffer of %zu\n",
         got->refusal, got->item, got->length, answer->refusal, answer->item, answer->length,
         room_bytes);
  tally_differs(c, form ? "the answer, settings by name" : "the answer");
}

/* One form of the call: what it answers, and every byte in and around its tally and buffer. */
static void expect_form(const struct tally_call *c, const struct outcome *want,
                        const yokepear_tallied *answer, enum room room, size_t room_bytes,
                        int form) {
  size_t at = place_in(TALLY_BYTES, c->tally_length), out_at = place_in(OUT_BYTES, room_bytes);
  const uint8_t *text = 0;
  if (c->is_adding && c->text)
    text = place_input(text_block, c->text, c->text_length, (int)random_below(2));
  fill(tally_block.bytes, tally_want, TALLY_BYTES);
  fill(out_block.bytes, out_want, OUT_BYTES);
  if (c->tally) memcpy(tally_block.bytes + at, c->tally, c->tally_length);
  if (c->tally) memcpy(tally_want + at, c->tally, c->tally_length);
  if (!answer->refusal) memcpy(out_want + out_at, want->phrase, want->length);
  if (!answer->refusal && !c->is_preview) memcpy(tally_want + at, want->after, YOKEPEAR_TALLY_SIZE);
  uint8_t *tally = c->tally ? tally_block.bytes + at : 0;
  uint8_t *out = room == NULL_BUFFER ? 0 : out_block.bytes + out_at;
  asking = c;
  protect_block(tally_block, c->is_preview);
  yokepear_tallied got = forms[form](c, tally, text, out, room_bytes);
  protect_block(tally_block, 0);
  asking = 0;
  tally_calls[kind_of(c)].done.asked++;
  if (!c->is_preview) expect_as_previewed(c, &got, out);
  expect_tallied(c, &got, answer, room_bytes, form);
  if (memcmp(tally_block.bytes, tally_want, TALLY_BYTES)) tally_differs(c, "the tally's bytes");
  if (memcmp(out_block.bytes, out_want, OUT_BYTES)) tally_differs(c, "the buffer's bytes");
  if (!c->is_preview) return;
  previewed.answer = got;
  if (!got.refusal) memcpy(previewed.phrase, out, got.length);
}

static void count(const struct tally_call *c, uint32_t refusal) {
  struct counts *done = &tally_calls[kind_of(c)].done;
  refusal ? done->refusals++ : done->answers++;
}

uint32_t expect_outcome(const struct tally_call *call, const struct outcome *want, enum room room) {
  size_t length = want->refusal ? 0 : want->length, room_bytes = room_for(room, length);
  yokepear_tallied answer = {want->refusal, 0, length};
  if (!answer.refusal && room_bytes < length) answer.refusal = YOKEPEAR_SHORT_BUFFER;
  if (!answer.refusal) answer.item = want->item;
  struct tally_call preview = *call;
  preview.is_preview = 1;
  for (int form = 0; form < 2; form++) {
    expect_form(&preview, want, &answer, room, room_bytes, form);
    expect_form(call, want, &answer, room, room_bytes, form);
  }
  count(&preview, answer.refusal);
  count(call, answer.refusal);
  return answer.refusal;
}
