/* One way to ask any call of the library. */
#ifndef ASK_H
#define ASK_H

#include "yokepear.h"

enum {
  UK_SETTINGS = sizeof(yokepear_uk) / sizeof(uint32_t),
  FR_SETTINGS = sizeof(yokepear_fr) / sizeof(uint32_t),
  SETTINGS = UK_SETTINGS > FR_SETTINGS ? UK_SETTINGS : FR_SETTINGS
};

/* The settings of a call, by name in its language, and as numbers in the order of the fields. */
union settings {
  yokepear_uk uk;
  yokepear_fr fr;
  uint32_t numbers[SETTINGS];
};

/* Everything that a call is given but the buffer. */
struct request {
  struct call *call;
  union settings settings;
  const uint8_t *code;
  size_t code_length;
  const uint8_t *input;
  size_t input_length;
  int64_t year;
};

/* The Ukrainian settings as numbers. */
#define UK_NUMBERS uint32_t, uint32_t, uint32_t, uint32_t, uint32_t

/* An array of settings as a call's parameters, in their order. */
#define IN_UK(s) s[0], s[1], s[2], s[3], s[4]
#define IN_FR(s) s[0], s[1], s[2]

typedef yokepear_answer uk_text_call(UK_NUMBERS, const void *, size_t, void *, size_t);
typedef yokepear_answer uk_money_call(UK_NUMBERS, const void *, size_t, const void *, size_t,
                                      void *, size_t);
typedef yokepear_answer uk_year_call(UK_NUMBERS, int64_t, void *, size_t);
typedef yokepear_answer fr_text_call(uint32_t, uint32_t, uint32_t, const void *, size_t, void *,
                                     size_t);

typedef yokepear_measure uk_text_measure(UK_NUMBERS, const void *, size_t);
typedef yokepear_measure uk_money_measure(UK_NUMBERS, const void *, size_t, const void *, size_t);
typedef yokepear_measure uk_year_measure(UK_NUMBERS, int64_t);
typedef yokepear_measure fr_text_measure(uint32_t, uint32_t, uint32_t, const void *, size_t);

/* What a spelling call speaks; a reading call reads the same. */
enum kind { CARDINAL, ORDINAL, DIGIT_ORDINAL, MONEY, YEAR };

/* What was done with a call. */
struct counts {
  unsigned long answers, refusals, asked;
};

/* The call that measures what a spelling call says: its name and its two forms, as below. */
struct measuring {
  const char *name;
  yokepear_measure (*by_name)(const struct request *);
  uk_text_measure *uk_on_text;
  uk_money_measure *uk_on_money;
  uk_year_measure *uk_on_year;
  fr_text_measure *fr_on_text;
  struct counts done;
};

/* A call: its name without the prefix, what it speaks, how it is asked. */
struct call {
  const char *name;
  enum kind kind;
  int french, reading;
  /* The header's form that takes settings by name. */
  yokepear_answer (*by_name)(const struct request *, uint8_t *, size_t);
  /* The library's own, on numbers: one of these. */
  uk_text_call *uk_on_text;
  uk_money_call *uk_on_money;
  uk_year_call *uk_on_year;
  fr_text_call *fr_on_text;
  struct measuring measuring; /* of a spelling call */
  struct counts done;
};

extern struct call calls[];
extern const size_t call_count;

/* The currency codes. */
extern const char *const codes[];
extern const size_t code_count;

/* The call of this name, or null if there is none. */
struct call *find_call(const char *name);

/*
 * The call that reads what the request's spelling call says in its settings, or null: ordinals and
 * years are read in one style alone.
 */
struct call *reading_call(const struct request *spelling);

/* How many settings the call has. */
int setting_count(const struct call *call);

/* The least number that the call admits for the setting, and the one after the largest. */
uint32_t setting_least(const struct call *call, int setting);
uint32_t setting_end(const struct call *call, int setting);

/* The call's first settings in order: those with the least numbers. */
union settings first_settings(const struct call *call);

/* The next settings in order; 0 after the last. */
int next_settings(const struct call *call, union settings *settings);

/* Makes a text the request's input, and a year's text its year. The text must stay. */
void set_text(struct request *request, const char *text);

/* Makes a text the request's code. It must stay. */
void set_code(struct request *request, const char *code);

/* Prints the name of the request's call and its settings. */
void show_call(const struct request *request);

/* Asks with settings by name. */
yokepear_answer ask(const struct request *request, uint8_t *out, size_t out_length);

/* Asks with settings as numbers. */
yokepear_answer ask_by_number(const struct request *request, uint8_t *out, size_t out_length);

/* Asks the measuring call of the request's spelling call, in the same two forms. */
yokepear_measure measure(const struct request *request);
yokepear_measure measure_by_number(const struct request *request);

#endif
