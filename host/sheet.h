/*
 * A plain model of a tally, after 02's words: what was added is written down in a list, what is
 * removed is struck out, and the total is added up anew each time.
 */
#ifndef SHEET_H
#define SHEET_H

#include "ask.h"

enum {
  MOST_AMOUNTS = 64, /* held at a time */
  MOST_ADDED = 512,  /* by the calls of one list */
  MONEY_TEXT = 24    /* the longest money text, and a closing zero byte */
};

#define LAST_ITEM 4294967295u

__extension__ typedef unsigned __int128 hundredths; /* of sums, also of those above the limit */

/* The largest sum: a whole part of 18446744073709551615, and 99 hundredths. */
#define LARGEST ((hundredths)100 * UINT64_MAX + 99)

/* An amount that was added; one that is struck out counts no longer. */
struct amount {
  uint32_t item;
  hundredths value;
  int is_struck;
};

struct sheet {
  size_t currency; /* its place among the codes */
  uint32_t given;  /* item numbers */
  size_t added;
  struct amount amounts[MOST_ADDED];
  /* Which amount lies in each place of a tally, from 1 on; 0 in a free one. */
  size_t places[MOST_AMOUNTS];
};

/* What a money text refuses, 0 if nothing; then its value is set. */
uint32_t read_money(const uint8_t *text, size_t length, hundredths *value);

/* The money text of a value up to the largest. */
void write_money(hundredths value, char text[MONEY_TEXT]);

/* The sum of the amounts that are not struck out, and how many they are. */
hundredths sum_of_sheet(const struct sheet *sheet);
size_t held_on(const struct sheet *sheet);

/* The amount under this item number that is not struck out, or null. */
struct amount *held_under(struct sheet *sheet, uint32_t item);

/* Writes a value down under the next item number. */
void write_down(struct sheet *sheet, hundredths value);

/* Strikes out an amount of the sheet. */
void strike_out(struct sheet *sheet, struct amount *amount);

/* The bytes of a tally with these amounts. */
void encode_sheet(const struct sheet *sheet, uint8_t bytes[YOKEPEAR_TALLY_SIZE]);

#endif
