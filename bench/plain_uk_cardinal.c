/* Ukrainian cardinals. */
#include "plain_uk.h"
#include "plain_uk_words.h"

static void plan_group(int order, unsigned group, uint32_t gender, uint32_t c, plan *p) {
  unsigned hundreds = group / 100, tens = group / 10 % 10, units = group % 10;
  uint32_t sex = order == 0 ? gender : order == 1 ? 1 : 0;
  if (hundreds) push(p, ' ', &HUNDREDS[hundreds - 1][c]);
  if (tens == 1) {
    push(p, ' ', &TEENS_BASES[units]);
    push(p, 0, &TEENS_FLEXIONS[c]);
  } else {
    if (tens) push(p, ' ', &TENS[tens - 2][c]);
    if (units) push(p, ' ', units < 3 ? &GENDERED[units - 1][sex][c] : &UNITS[units - 3][c]);
  }
  if (order && group) {
    int plural;
    uint32_t column;
    agree(tens, units, c, &plural, &column);
    push(p, ' ', &MEGA_BASES[order - 1]);
    push(p, 0, order == 1 ? &THOUSAND_FLEXIONS[plural][column] : &MEGA_FLEXIONS[plural][column]);
  }
}

void plan_uk_cardinal(const figure *f, uint32_t gender, uint32_t c, plan *p) {
  if (f->groups == 0) {
    push(p, ' ', &ZERO[c]);
    return;
  }
  if (f->negative) push(p, ' ', &MINUS);
  for (int order = f->groups - 1; order >= 0; order--)
    plan_group(order, f->group[order], gender, c, p);
}

plain_answer plain_uk_to_cardinal(uint32_t gender, uint32_t number, uint32_t c, const uint8_t *text,
                                  size_t text_length, uint8_t *out, size_t out_length) {
  if (gender > 2 || number > 1 || c > 5) return refuse(1);
  figure f;
  uint32_t refusal = parse(text, text_length, 66, 1, &f);
  if (refusal) return refuse(refusal);
  plan p;
  p.count = 0;
  plan_uk_cardinal(&f, gender, c, &p);
  return say(&p, out, out_length);
}
