/* Ukrainian ordinals, digit ordinals and years. */
#include <string.h>

#include "plain_uk.h"
#include "plain_uk_words.h"

static const word ORDINAL_ZERO_BASE = W("нульов"), ONE_BASE = W("одно"), HUNDRED_BASE = W("сот");
static const word ADJECTIVE_N = W("н"), HYPHEN = W("-"), BEFORE_OUR_ERA = W("до н.е.");

static const word ORDINAL_UNIT_BASES[9] = {
    W("перш"), W("друг"), W("трет"),  W("четверт"), W("пʼят"),
    W("шост"), W("сьом"), W("восьм"), W("девʼят"),
};

/* From twenty on: ten takes the teen's base. */
static const word ORDINAL_TENS_BASES[8] = {
    W("двадцят"),   W("тридцят"),  W("сороков"),    W("пʼятдесят"),
    W("шістдесят"), W("сімдесят"), W("вісімдесят"), W("девʼяност"),
};

/* Endings, hard and soft: three genders, then the plural. */
static const word ADJECTIVE[2][4][6] = {
    {{W("ий"), W("ого"), W("ому"), W("ий"), W("им"), W("ому")},
     {W("а"), W("ої"), W("ій"), W("у"), W("ою"), W("ій")},
     {W("е"), W("ого"), W("ому"), W("е"), W("им"), W("ому")},
     {W("і"), W("их"), W("им"), W("их"), W("ими"), W("их")}},
    {{W("ій"), W("ього"), W("ьому"), W("ій"), W("ім"), W("ьому")},
     {W("я"), W("ьої"), W("ій"), W("ю"), W("ьою"), W("ій")},
     {W("є"), W("ього"), W("ьому"), W("є"), W("ім"), W("ьому")},
     {W("і"), W("іх"), W("ім"), W("іх"), W("іми"), W("іх")}},
};

static const word SHORT[2][4][6] = {
    {{W("й"), W("го"), W("му"), W("й"), W("м"), W("му")},
     {W("а"), W("ї"), W("й"), W("у"), W("ою"), W("й")},
     {W("е"), W("го"), W("му"), W("е"), W("м"), W("му")},
     {W("і"), W("х"), W("м"), W("х"), W("ми"), W("х")}},
    {{W("й"), W("го"), W("му"), W("й"), W("м"), W("му")},
     {W("я"), W("ї"), W("й"), W("ю"), W("ою"), W("й")},
     {W("є"), W("го"), W("му"), W("є"), W("м"), W("му")},
     {W("і"), W("х"), W("м"), W("х"), W("ми"), W("х")}},
};

static const word YEAR[2][6] = {
    {W("рік"), W("року"), W("року"), W("рік"), W("роком"), W("році")},
    {W("роки"), W("років"), W("рокам"), W("роки"), W("роками"), W("роках")},
};

/* Third is the only soft one: the last digit is 3 and the last two are not 13. */
static int is_soft(unsigned last_two) { return last_two % 10 == 3 && last_two != 13; }

/* The lowest group above order 0: one word. */
static void plan_scale(int order, unsigned group, int lone, const word *ending, plan *p) {
  unsigned hundreds = group / 100, tens = group / 10 % 10, units = group % 10;
  char joiner = ' ';
  if (!(lone && group == 1)) {
    if (hundreds) push(p, joiner, &HUNDREDS[hundreds - 1][1]), joiner = 0;
    if (tens == 1) {
      push(p, joiner, &TEENS_BASES[units]), joiner = 0;
      push(p, 0, &TEENS_FLEXIONS[1]);
    } else {
      if (tens) push(p, joiner, &TENS[tens - 2][1]), joiner = 0;
      if (units == 1) push(p, joiner, &ONE_BASE), joiner = 0;
      if (units == 2) push(p, joiner, &GENDERED[1][0][1]), joiner = 0;
      if (units > 2) push(p, joiner, &UNITS[units - 3][1]), joiner = 0;
    }
  }
  push(p, joiner, &MEGA_BASES[order - 1]);
  push(p, 0, &ADJECTIVE_N);
  push(p, 0, ending);
}

/* The lowest group at order 0. */
static void plan_last(unsigned group, const word *ending, plan *p) {
  unsigned hundreds = group / 100, tens = group / 10 % 10, units = group % 10;
  if (tens == 0 && units == 0) {
    push(p, ' ', &HUNDRED_BASE);
  } else {
    if (hundreds) push(p, ' ', &HUNDREDS[hundreds - 1][0]);
    if (tens == 1) {
      push(p, ' ', &TEENS_BASES[units]);
    } else if (units == 0) {
      push(p, ' ', &ORDINAL_TENS_BASES[tens - 2]);
    } else {
      if (tens) push(p, ' ', &TENS[tens - 2][0]);
      push(p, ' ', &ORDINAL_UNIT_BASES[units - 1]);
    }
  }
  push(p, 0, ending);
}

static void plan_ordinal(const figure *f, uint32_t gender, uint32_t number, uint32_t c, plan *p) {
  uint32_t row = number ? 3 : gender;
  if (f->groups == 0) {
    push(p, ' ', &ORDINAL_ZERO_BASE);
    push(p, 0, &ADJECTIVE[0][row][c]);
    return;
  }
  const word *ending = &ADJECTIVE[is_soft(f->group[0] % 100)][row][c];
  int lowest = 0;
  while (f->group[lowest] == 0) lowest++;
  /* The groups above are nominative cardinals, whatever the caller's gender. */
  figure above = *f;
  above.negative = 0;
  for (int order = 0; order <= lowest; order++) above.group[order] = 0;
  int lone = lowest == f->groups - 1;
  if (!lone) plan_uk_cardinal(&above, 0, 0, p);
  if (lowest)
    plan_scale(lowest, f->group[lowest], lone, ending, p);
  else
    plan_last(f->group[0], ending, p);
}

plain_answer plain_uk_to_ordinal(uint32_t gender, uint32_t number, uint32_t c, const uint8_t *text,
                                 size_t text_length, uint8_t *out, size_t out_length) {
  if (gender > 2 || number > 1 || c > 5) return refuse(1);
  figure f;
  uint32_t refusal = parse(text, text_length, 66, 0, &f);
  if (refusal) return refuse(refusal);
  plan p;
  p.count = 0;
  plan_ordinal(&f, gender, number, c, &p);
  return say(&p, out, out_length);
}

plain_answer plain_uk_to_ordinal_num(uint32_t gender, uint32_t number, uint32_t c,
                                     const uint8_t *text, size_t text_length, uint8_t *out,
                                     size_t out_length) {
  static const char limit[] = "340282366920938463463374607431768211455";
  size_t most = sizeof limit - 1;
  if (gender > 2 || number > 1 || c > 5) return refuse(1);
  figure f;
  uint32_t refusal = parse(text, text_length, most, 0, &f);
  if (!refusal && text_length == most && memcmp(text, limit, most) > 0) refusal = 5;
  if (refusal) return refuse(refusal);
  const word digits = {(const char *)text, (uint8_t)text_length};
  unsigned last_two = f.groups ? f.group[0] % 100 : 0;
  plan p;
  p.count = 0;
  push(&p, 0, &digits);
  push(&p, 0, &HYPHEN);
  push(&p, 0, &SHORT[is_soft(last_two)][number ? 3 : gender][c]);
  return say(&p, out, out_length);
}

plain_answer plain_uk_to_year(uint32_t gender, uint32_t number, uint32_t c, int64_t year,
                              uint8_t *out, size_t out_length) {
  if (gender > 2 || number > 1 || c > 5) return refuse(1);
  figure f;
  from_u64(year < 0 ? 0 - (uint64_t)year : (uint64_t)year, &f);
  plan p;
  p.count = 0;
  plan_ordinal(&f, 0, number, c, &p);
  push(&p, ' ', &YEAR[number][c]);
  if (year <= 0) push(&p, ' ', &BEFORE_OUR_ERA);
  return say(&p, out, out_length);
}
