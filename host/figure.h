/* Figures by their groups of three digits, and how a call is asked to spell one. */
#ifndef FIGURE_H
#define FIGURE_H

#include "ask.h"

/* The largest numbers of Ukrainian and of French texts have 66 and 102 digits. */
#define NINES_33 "999999999999999999999999999999999"
#define NINES_66 NINES_33 NINES_33
#define NINES_102 NINES_66 NINES_33 "999"

enum {
  DIGITS = 3,       /* of a group */
  GROUPS = 1000,    /* a group is one of 0 to 999 */
  HUNDREDTHS = 100, /* hundredths are 1 to 99; 0 stands for none */
  MOST_ORDERS = 34, /* those of 102 digits */
  /* A minus, the digits, a point with hundredths, and a closing zero byte. */
  FIGURE_TEXT = 1 + DIGITS * MOST_ORDERS + 3 + 1
};

/* The group of order 0 is the lowest; groups above the figure's first digit are 0. */
struct figure {
  int negative, orders, hundredths;
  int groups[MOST_ORDERS];
};

/* The figure with these digits; it has as many orders as they need. */
struct figure figure_of(const char *digits, int negative);

/* Zero, with as many orders as another figure, on the same side of zero once a group is set. */
struct figure zero_like(const struct figure *other);

int is_zero(const struct figure *figure);

/* Whether the whole part is farther from zero than that of a figure with as many orders. */
int is_beyond(const struct figure *figure, const struct figure *limit);

/* Makes the request one for this figure. The text is the request's input and must stay. */
void set_figure(struct request *request, const struct figure *figure, char text[FIGURE_TEXT]);

/* How long the figure's phrase is: asked without a buffer, and measured, the calls must agree. */
size_t length_asked(const struct request *request, const struct figure *figure);

#endif
