/* What all kinds share: number texts and the writing of a plan. */
#include "plain.h"

#include <string.h>

uint32_t parse(const uint8_t *text, size_t length, size_t most_digits, int takes_sign, figure *f) {
  int negative = length > 0 && text[0] == '-';
  const uint8_t *digits = text + negative;
  size_t count = length - (size_t)negative;
  if (count == 0 || (digits[0] == '0' && (count > 1 || negative))) return 3;
  for (size_t i = 0; i < count; i++)
    if (digits[i] < '0' || digits[i] > '9') return 3;
  if (negative && !takes_sign) return 4;
  if (count > most_digits) return 5;
  f->negative = negative;
  f->groups = 0;
  if (digits[0] == '0') return 0;
  for (; count >= 3; count -= 3) {
    const uint8_t *d = digits + count - 3;
    f->group[f->groups++] = (uint16_t)((d[0] - '0') * 100 + (d[1] - '0') * 10 + (d[2] - '0'));
  }
  if (count == 2)
    f->group[f->groups++] = (uint16_t)((digits[0] - '0') * 10 + (digits[1] - '0'));
  else if (count == 1)
    f->group[f->groups++] = (uint16_t)(digits[0] - '0');
  return 0;
}

void from_u64(uint64_t number, figure *f) {
  f->negative = 0;
  for (f->groups = 0; number; number /= 1000) f->group[f->groups++] = (uint16_t)(number % 1000);
}

plain_answer say(const plan *p, uint8_t *out, size_t out_length) {
  size_t length = p->pieces[0].said->length;
  for (size_t i = 1; i < p->count; i++)
    length += p->pieces[i].said->length + (size_t)(p->pieces[i].joiner != 0);
  plain_answer a = {length > out_length ? 7 : 0, length};
  if (a.refusal) return a;
  for (size_t i = 0; i < p->count; i++) {
    if (i && p->pieces[i].joiner) *out++ = (uint8_t)p->pieces[i].joiner;
    memcpy(out, p->pieces[i].said->bytes, p->pieces[i].said->length);
    out += p->pieces[i].said->length;
  }
  return a;
}
