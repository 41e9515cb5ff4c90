/*
 * The longest phrase of a call up to a limit. There are too many figures to ask for; but a phrase
 * is as long as its groups add up to, so every group is asked for at every order instead.
 */
#ifndef LONGEST_H
#define LONGEST_H

#include "figure.h"

/*
 * Where a group stands among the groups of a figure that are not 0. It matters: the last one has
 * an ordinal's ending or a currency's noun; of ordinals, 1000000 is `мільйонний`, but 1001000000
 * ends in `одномільйонний`; and in a digit ordinal the first one counts the digits of all.
 */
enum place { ALONE, FIRST, BETWEEN, LAST, PLACES };

/* What a group adds to a phrase's length at each place and order, and what hundredths add. */
struct lengths {
  struct figure limit;
  size_t groups[PLACES][MOST_ORDERS][GROUPS];
  size_t hundredths[HUNDREDTHS];
};

/*
 * Asks for all of them, in the request's settings and currency. The limit is the last figure
 * that the call admits on its side of zero; its highest group is 2 or more.
 */
void learn_lengths(struct lengths *lengths, const struct request *request,
                   const struct figure *limit);

/* How long the figure's phrase is if lengths add up. */
size_t sum_of(const struct lengths *lengths, const struct figure *figure);

/* The figure with the greatest sum of all from zero to the limit. */
struct figure longest_figure(const struct lengths *lengths);

#endif
