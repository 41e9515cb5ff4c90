#include "figure.h"

#include <stdio.h>
#include <stdlib.h>
#include <string.h>

struct figure figure_of(const char *digits, int negative) {
  struct figure f = {0};
  size_t length = strlen(digits);
  f.negative = negative;
  f.orders = (int)(length + DIGITS - 1) / DIGITS;
  for (size_t i = 0; i < length; i++) {
    int *group = &f.groups[(length - 1 - i) / DIGITS];
    *group = 10 * *group + (digits[i] - '0');
  }
  return f;
}

struct figure zero_like(const struct figure *other) {
  struct figure f = {0};
  f.negative = other->negative;
  f.orders = other->orders;
  return f;
}

int is_zero(const struct figure *f) {
  for (int order = 0; order < f->orders; order++)
    if (f->groups[order]) return 0;
  return 1;
}

int is_beyond(const struct figure *f, const struct figure *limit) {
  for (int order = f->orders - 1; order >= 0; order--)
    if (f->groups[order] != limit->groups[order])
      return f->groups[order] > limit->groups[order];
  return 0;
}

/* Writes at least so many digits; the place after them. */
static char *write_digits(char *at, int number, int least) {
  if (number >= 10 || least > 1) at = write_digits(at, number / 10, least - 1);
  *at = (char)('0' + number % 10);
  return at + 1;
}

/* By hand: this is done for millions of figures, and printf would take most of the time. */
static size_t write_figure(const struct figure *f, char text[FIGURE_TEXT]) {
  char *at = text;
  int order = f->orders - 1;
  while (order && !f->groups[order]) order--;
  if (f->negative && f->groups[order]) *at++ = '-';
  at = write_digits(at, f->groups[order], 1);
  while (order--) at = write_digits(at, f->groups[order], DIGITS);
  if (f->hundredths) {
    *at++ = '.';
    at = write_digits(at, f->hundredths, 2);
  }
  *at = 0;
  return (size_t)(at - text);
}

void set_figure(struct request *r, const struct figure *f, char text[FIGURE_TEXT]) {
  r->input_length = write_figure(f, text);
  r->input = (const uint8_t *)text;
  if (r->call->kind == YEAR) r->year = strtoll(text, 0, 10);
}

size_t length_asked(const struct request *request, const struct figure *f) {
  char text[FIGURE_TEXT];
  struct request r = *request;
  set_figure(&r, f, text);
  yokepear_answer answer = ask(&r, 0, 0);
  yokepear_measure measured = measure(&r);
  if (answer.refusal == YOKEPEAR_SHORT_BUFFER && !measured.refusal &&
      measured.length == answer.length)
    return answer.length;
  printf("DIFFERENCE: ");
  show_call(&r);
  printf(", %s\n  asked without a buffer: answered %u %zu, measured %u %zu\n", text, answer.refusal,
         answer.length, measured.refusal, measured.length);
  exit(1);
}
