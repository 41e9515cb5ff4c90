/* French cardinals and ordinals. */
#include "plain_fr.h"

static const word ZERO = W("zéro"), MINUS = W("moins"), UNE = W("une"), CENT = W("cent");
static const word CENTS = W("cents"), PLURAL = W("s"), AND = W("et"), FIRST = W("premier");
static const word FOUR_SCORES = W("quatre-vingts"), ORDINAL = W("ième");

static const word UNITS[9] = {
    W("un"), W("deux"), W("trois"), W("quatre"), W("cinq"),
    W("six"), W("sept"), W("huit"), W("neuf"),
};

static const word TEENS[10] = {
    W("dix"),    W("onze"),  W("douze"),    W("treize"),   W("quatorze"),
    W("quinze"), W("seize"), W("dix-sept"), W("dix-huit"), W("dix-neuf"),
};

/* By region: FR, BE, CH. */
static const word TENS[3][9] = {
    {W("dix"), W("vingt"), W("trente"), W("quarante"), W("cinquante"), W("soixante"),
     W("soixante-dix"), W("quatre-vingt"), W("quatre-vingt-dix")},
    {W("dix"), W("vingt"), W("trente"), W("quarante"), W("cinquante"), W("soixante"),
     W("septante"), W("quatre-vingt"), W("nonante")},
    {W("dix"), W("vingt"), W("trente"), W("quarante"), W("cinquante"), W("soixante"),
     W("septante"), W("huitante"), W("nonante")},
};

static const word MEGAS[33] = {
    W("mille"),         W("million"),       W("milliard"),          W("billion"),
    W("billiard"),      W("trillion"),      W("trilliard"),         W("quadrillion"),
    W("quadrilliard"),  W("quintillion"),   W("quintilliard"),      W("sextillion"),
    W("sextilliard"),   W("septillion"),    W("septilliard"),       W("octillion"),
    W("octilliard"),    W("nonillion"),     W("nonilliard"),        W("décillion"),
    W("décilliard"),    W("unodécillion"),  W("unodécilliard"),     W("duodécillion"),
    W("duodécilliard"), W("trédécillion"),  W("trédécilliard"),     W("quattuordécillion"),
    W("quattuordécilliard"), W("quindécillion"), W("quindécilliard"), W("sexdécillion"),
    W("sexdécilliard"),
};

enum { FR, BE, CH };

typedef struct {
  uint32_t feminine, region;
  char joiner;
} manner;

/* From a tens word to what follows it. */
static void plan_link(unsigned tens, unsigned units, const manner *m, const word *next, plan *p) {
  int scores = (tens == 8 && m->region != CH) || (tens == 9 && m->region == FR);
  if (units == 1 && !scores) {
    push(p, m->joiner, &AND);
    push(p, m->joiner, next);
  } else {
    push(p, '-', next);
  }
}

static void plan_below_hundred(int order, unsigned group, const manner *m, plan *p) {
  unsigned tens = group / 10 % 10, units = group % 10;
  const word *unit = units == 1 && order == 0 && m->feminine ? &UNE : &UNITS[units ? units - 1 : 0];
  if (units == 0) {
    int four_scores = tens == 8 && order != 1 && m->region != CH;
    push(p, m->joiner, four_scores ? &FOUR_SCORES : &TENS[m->region][tens - 1]);
  } else if (tens == 0) {
    if (!(order == 1 && group == 1)) push(p, m->joiner, unit);
  } else if (tens == 1) {
    push(p, m->joiner, &TEENS[units]);
  } else if (m->region == FR && (tens == 7 || tens == 9)) {
    push(p, m->joiner, &TENS[FR][tens - 2]);
    plan_link(tens, units, m, &TEENS[units], p);
  } else {
    push(p, m->joiner, &TENS[m->region][tens - 1]);
    plan_link(tens, units, m, unit, p);
  }
}

static void plan_group(int order, unsigned group, const manner *m, plan *p) {
  unsigned hundreds = group / 100, rest = group % 100;
  if (hundreds > 1) push(p, m->joiner, &UNITS[hundreds - 1]);
  if (hundreds) push(p, m->joiner, hundreds > 1 && !rest && order != 1 ? &CENTS : &CENT);
  if (rest) plan_below_hundred(order, group, m, p);
  if (order) {
    push(p, m->joiner, &MEGAS[order - 1]);
    if (order != 1 && group != 1) push(p, 0, &PLURAL);
  }
}

static void plan_cardinal(const figure *f, const manner *m, plan *p) {
  if (f->groups == 0) push(p, m->joiner, &ZERO);
  if (f->negative) push(p, m->joiner, &MINUS);
  for (int order = f->groups - 1; order >= 0; order--)
    if (f->group[order]) plan_group(order, f->group[order], m, p);
}

plain_answer plain_fr_to_cardinal(uint32_t feminine, uint32_t reformed, uint32_t region,
                                  const uint8_t *text, size_t text_length, uint8_t *out,
                                  size_t out_length) {
  if (feminine > 1 || reformed > 1 || region > 2) return refuse(1);
  figure f;
  uint32_t refusal = parse(text, text_length, 102, 1, &f);
  if (refusal) return refuse(refusal);
  const manner m = {feminine, region, reformed ? '-' : ' '};
  plan p;
  p.count = 0;
  plan_cardinal(&f, &m, &p);
  return say(&p, out, out_length);
}

plain_answer plain_fr_to_ordinal(uint32_t feminine, uint32_t reformed, uint32_t region,
                                 const uint8_t *text, size_t text_length, uint8_t *out,
                                 size_t out_length) {
  if (feminine > 1 || reformed > 1 || region > 2) return refuse(1);
  figure f;
  uint32_t refusal = parse(text, text_length, 102, 0, &f);
  if (refusal) return refuse(refusal);
  const manner m = {feminine, region, reformed ? '-' : ' '};
  plan p;
  p.count = 0;
  if (f.groups == 1 && f.group[0] == 1) {
    push(&p, ' ', &FIRST);
    return say(&p, out, out_length);
  }
  plan_cardinal(&f, &m, &p);
  /* The last word without its final e, then the ending. */
  word last = *p.pieces[p.count - 1].said;
  if (last.bytes[last.length - 1] == 'e') last.length--;
  p.pieces[p.count - 1].said = &last;
  push(&p, 0, &ORDINAL);
  return say(&p, out, out_length);
}
