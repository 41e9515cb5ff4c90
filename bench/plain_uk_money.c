/* Ukrainian money: nouns from stems and classes of endings. */
#include <string.h>

#include "plain_uk.h"

/* How a noun declines. `NEW` is an adjective before a soft noun, in one currency. */
enum class { HARD, SOFT, RUPEE, YEN, GOLDEN, HRYVNIA, KOPIYKA, FIXED, NEW };

static const word ENDINGS[7][2][6] = {
    {{W(""), W("а"), W("у"), W("а"), W("ом"), W("і")},
     {W("и"), W("ів"), W("ам"), W("и"), W("ами"), W("ах")}},
    {{W("ь"), W("я"), W("ю"), W("я"), W("єм"), W("і")},
     {W("і"), W("ів"), W("ям"), W("і"), W("ями"), W("ях")}},
    {{W("я"), W("ї"), W("ї"), W("я"), W("єю"), W("ї")},
     {W("ї"), W("й"), W("ям"), W("ї"), W("ями"), W("ях")}},
    {{W("а"), W("и"), W("і"), W("а"), W("ою"), W("і")},
     {W("и"), W(""), W("ам"), W("и"), W("ами"), W("ах")}},
    {{W("ий"), W("ого"), W("ому"), W("ий"), W("им"), W("ому")},
     {W("і"), W("их"), W("им"), W("их"), W("ими"), W("их")}},
    {{W("ня"), W("ні"), W("ні"), W("ню"), W("нею"), W("ні")},
     {W("ні"), W("ень"), W("ням"), W("ні"), W("нями"), W("нях")}},
    {{W("йка"), W("йки"), W("йці"), W("йку"), W("йкою"), W("йці")},
     {W("йки"), W("йок"), W("йкам"), W("йки"), W("йками"), W("йках")}},
};

static const word NEW_STEM = W("нов");

typedef struct {
  word stem;
  enum class declines;
  uint8_t gender;
} noun;

static const struct {
  const char *code;
  noun main, fraction;
} CURRENCIES[44] = {
    {"AED", {W("дирхам"), HARD, 0}, {W("філс"), HARD, 0}},
    {"ARS", {W("песо"), FIXED, 0}, {W("сентаво"), FIXED, 0}},
    {"AUD", {W("долар"), HARD, 0}, {W("цент"), HARD, 0}},
    {"BRL", {W("реал"), HARD, 0}, {W("сентаво"), FIXED, 0}},
    {"CAD", {W("долар"), HARD, 0}, {W("цент"), HARD, 0}},
    {"CHF", {W("франк"), HARD, 0}, {W("сантим"), HARD, 0}},
    {"CLP", {W("песо"), FIXED, 0}, {W("сентаво"), FIXED, 0}},
    {"CNY", {W("юан"), SOFT, 0}, {W("фен"), SOFT, 0}},
    {"COP", {W("песо"), FIXED, 0}, {W("сентаво"), FIXED, 0}},
    {"CRC", {W("колон"), HARD, 0}, {W("сантимо"), FIXED, 0}},
    {"DINAR", {W("динар"), HARD, 0}, {W("філс"), HARD, 0}},
    {"DOLLAR", {W("долар"), HARD, 0}, {W("цент"), HARD, 0}},
    {"DZD", {W("динар"), HARD, 0}, {W("філс"), HARD, 0}},
    {"EUR", {W("євро"), FIXED, 0}, {W("євроцент"), HARD, 0}},
    {"GBP", {W("фунт"), HARD, 0}, {W("пенс"), HARD, 0}},
    {"HKD", {W("долар"), HARD, 0}, {W("цент"), HARD, 0}},
    {"IDR", {W("рупі"), RUPEE, 0}, {W("сен"), HARD, 0}},
    {"ILS", {W("шекел"), NEW, 0}, {W("агор"), YEN, 1}},
    {"INR", {W("рупі"), RUPEE, 1}, {W("пайс"), HARD, 0}},
    {"JPY", {W("єн"), YEN, 1}, {W("сен"), HARD, 0}},
    {"KRW", {W("вон"), YEN, 1}, {W("чон"), HARD, 0}},
    {"KWD", {W("динар"), HARD, 0}, {W("філс"), HARD, 0}},
    {"KZT", {W("tenge"), FIXED, 0}, {W("тиїн"), HARD, 0}},
    {"MXN", {W("песо"), FIXED, 0}, {W("сентаво"), FIXED, 0}},
    {"MYR", {W("рингіт"), HARD, 0}, {W("сен"), HARD, 0}},
    {"NOK", {W("крон"), YEN, 1}, {W("оре"), FIXED, 0}},
    {"NZD", {W("долар"), HARD, 0}, {W("цент"), HARD, 0}},
    {"PEN", {W("сол"), SOFT, 0}, {W("сентімо"), FIXED, 0}},
    {"PESO", {W("песо"), FIXED, 0}, {W("сентаво"), FIXED, 0}},
    {"PHP", {W("песо"), FIXED, 0}, {W("сентаво"), FIXED, 0}},
    {"PLN", {W("злот"), GOLDEN, 0}, {W("грош"), HARD, 0}},
    {"QAR", {W("ріал"), HARD, 0}, {W("філс"), HARD, 0}},
    {"RIYAL", {W("ріал"), HARD, 0}, {W("філс"), HARD, 0}},
    {"RUB", {W("рубл"), RUPEE, 0}, {W("копійк"), YEN, 1}},
    {"SAR", {W("ріал"), HARD, 0}, {W("філс"), HARD, 0}},
    {"SGD", {W("долар"), HARD, 0}, {W("цент"), HARD, 0}},
    /* The fraction begins with a Latin c, as published. */
    {"THB", {W("бат"), HARD, 0}, {W("cатанг"), HARD, 0}},
    {"TRY", {W("куруш"), YEN, 1}, {W("лір"), YEN, 1}},
    {"TWD", {W("долар"), HARD, 0}, {W("цент"), HARD, 0}},
    {"UAH", {W("грив"), HRYVNIA, 1}, {W("копі"), KOPIYKA, 1}},
    {"USD", {W("долар"), HARD, 0}, {W("цент"), HARD, 0}},
    {"UYU", {W("песо"), FIXED, 0}, {W("сентаво"), FIXED, 0}},
    {"VND", {W("донг"), HARD, 0}, {W("су"), FIXED, 0}},
    {"ZAR", {W("ранд"), HARD, 0}, {W("цент"), HARD, 0}},
};

/* The codes are sorted: the place of one, or -1. */
static int find(const uint8_t *code, size_t length) {
  int low = 0, high = 44;
  while (low < high) {
    int middle = (low + high) / 2;
    size_t known = strlen(CURRENCIES[middle].code);
    int order = memcmp(code, CURRENCIES[middle].code, length < known ? length : known);
    if (order == 0) order = length < known ? -1 : length > known;
    if (order == 0) return middle;
    if (order < 0)
      high = middle;
    else
      low = middle + 1;
  }
  return -1;
}

/* A cardinal and its noun. */
static void plan_amount(const figure *f, const noun *n, uint32_t c, plan *p) {
  unsigned last_two = f->groups ? f->group[0] % 100 : 0;
  int plural;
  uint32_t column;
  plan_uk_cardinal(f, n->gender, c, p);
  agree(last_two / 10, last_two % 10, c, &plural, &column);
  if (n->declines == NEW) {
    push(p, ' ', &NEW_STEM);
    push(p, 0, &ENDINGS[GOLDEN][plural][column]);
  }
  push(p, ' ', &n->stem);
  if (n->declines == NEW)
    push(p, 0, &ENDINGS[SOFT][plural][column]);
  else if (n->declines != FIXED)
    push(p, 0, &ENDINGS[n->declines][plural][column]);
}

static int is_digit(uint8_t byte) { return byte >= '0' && byte <= '9'; }

/* Takes the hundredths off a money text: their number, 0 for none, -1 if they are malformed. */
static int hundredths(const uint8_t *text, size_t *length) {
  const uint8_t *point = *length ? memchr(text, '.', *length) : 0;
  if (!point) return 0;
  size_t whole = (size_t)(point - text);
  if (*length - whole != 3 || !is_digit(point[1]) || !is_digit(point[2])) return -1;
  int number = (point[1] - '0') * 10 + (point[2] - '0');
  *length = whole;
  return number ? number : -1;
}

plain_answer plain_uk_to_currency(uint32_t gender, uint32_t number, uint32_t c, const uint8_t *code,
                                  size_t code_length, const uint8_t *text, size_t text_length,
                                  uint8_t *out, size_t out_length) {
  static const char limit[] = "18446744073709551615";
  size_t most = sizeof limit - 1;
  if (gender > 2 || number > 1 || c > 5) return refuse(1);
  int currency = find(code, code_length);
  if (currency < 0) return refuse(2);
  int cents = hundredths(text, &text_length);
  figure whole, part;
  if (cents > 0 && text_length == 2 && !memcmp(text, "-0", 2)) return refuse(4);
  uint32_t refusal = parse(text, text_length, most, 0, &whole);
  if (refusal == 3 || cents < 0) return refuse(3);
  if (!refusal && text_length == most && memcmp(text, limit, most) > 0) refusal = 5;
  if (refusal) return refuse(refusal);
  plan p;
  p.count = 0;
  if (whole.groups || !cents) plan_amount(&whole, &CURRENCIES[currency].main, c, &p);
  if (cents) {
    from_u64((uint64_t)cents, &part);
    plan_amount(&part, &CURRENCIES[currency].fraction, c, &p);
  }
  return say(&p, out, out_length);
}
