/*
 * A plain C speller, as one writes it by hand: tables of words, a list of pieces, memcpy.
 * It keeps the library's contract (refusals, the length known before the first byte is written),
 * so that both do the same work. It is a yardstick of the benchmark, not a part of the library.
 */
#ifndef PLAIN_H
#define PLAIN_H

#include <stddef.h>
#include <stdint.h>

typedef struct {
  uint32_t refusal;
  size_t length;
} plain_answer;

typedef struct {
  const char *bytes;
  uint8_t length;
} word;

#define W(s) {s, sizeof(s) - 1}

/* A word, and the byte that joins it to what stands before; 0 joins directly. */
typedef struct {
  const word *said;
  char joiner;
} piece;

/* French has the most: 34 groups of at most 7 pieces, and a minus. */
enum { MOST_GROUPS = 34, MOST_PIECES = 240 };

typedef struct {
  size_t count;
  piece pieces[MOST_PIECES];
} plan;

static inline void push(plan *p, char joiner, const word *said) {
  p->pieces[p->count].said = said;
  p->pieces[p->count++].joiner = joiner;
}

/* A number in groups of three digits, lowest first; `groups` are in use, the highest nonzero. */
typedef struct {
  int negative, groups;
  uint16_t group[MOST_GROUPS];
} figure;

/* Reads a number text of at most so many digits; the refusal's number or 0. */
uint32_t parse(const uint8_t *text, size_t length, size_t most_digits, int takes_sign, figure *f);

/* A number below 2^64 in groups. */
void from_u64(uint64_t number, figure *f);

/* Measures the plan and, if there is room, writes it. */
plain_answer say(const plan *p, uint8_t *out, size_t out_length);

static inline plain_answer refuse(uint32_t number) {
  plain_answer a = {number, 0};
  return a;
}

/* Pushes the words of a cardinal; the gender is that of order 0. */
void plan_uk_cardinal(const figure *f, uint32_t gender, uint32_t grammatical_case, plan *p);

/* The case and number that a noun takes after these digits. */
static inline void agree(unsigned tens, unsigned units, uint32_t grammatical_case, int *plural,
                         uint32_t *column) {
  int many = units == 0 || units > 4 || tens == 1;
  *plural = many || units != 1;
  *column = many && grammatical_case == 0 ? 1 : grammatical_case;
}

#endif
