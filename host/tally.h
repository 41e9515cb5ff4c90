/* Calls on tallies, in guarded memory: what they must answer and leave, by a sheet or by hand. */
#ifndef TALLY_H
#define TALLY_H

#include "sheet.h"

enum { LONGEST_TALLY = 2000 };

/* A call on a tally, and all that it is given but the phrase's buffer. */
struct tally_call {
  int is_adding;  /* else it removes */
  int is_preview; /* of adding or removing: expect_outcome previews each call by itself */
  union settings settings;
  const uint8_t *tally; /* as it lies there before */
  size_t tally_length;  /* at most LONGEST_TALLY */
  const uint8_t *text;  /* to be added */
  size_t text_length;
  uint32_t item; /* to be removed */
};

/* What it must come to where the buffer is long enough; without a refusal the rest is set. */
struct outcome {
  uint32_t refusal, item;
  const uint8_t *phrase;
  size_t length;
  const uint8_t *after; /* the tally's YOKEPEAR_TALLY_SIZE bytes then */
};

/* The buffer for a phrase, by the phrase's length. */
enum room { NULL_BUFFER, NO_ROOM, ONE_SHORT, EXACT, ONE_MORE, GENEROUS, ROOMS };

/* The calls on tallies by name, and what was done with each. */
struct tally_counts {
  const char *name;
  struct counts done;
};
enum { OPENING, ADDING, REMOVING, PREVIEWING_ADD, PREVIEWING_REMOVE, TALLY_CALLS };
extern struct tally_counts tally_calls[TALLY_CALLS];

/* To be called before the others; and after the last, when a fault is another test's again. */
void start_tallies(void);
void end_tallies(void);

/* The same numbers at every run. */
uint64_t random_number(void);
size_t random_below(size_t end);

/* Makes a text the call's. It must stay. */
void add_text(struct tally_call *call, const char *text);

/* Opening with this code must answer this, in a tally of this length; a refusal has number 0. */
void expect_opening(const uint8_t *code, size_t code_length, size_t tally_length, uint8_t number);

/*
 * The call must come to this in both forms, with 7 where the room is too short, and every byte in
 * and around tally and buffer is compared; the refusal that it gave. In each form it is previewed
 * first, on a tally that cannot be written to: that must come to the same, and so to what the call
 * itself then answers.
 */
uint32_t expect_outcome(const struct tally_call *call, const struct outcome *want, enum room room);

/*
 * The call must come to what the sheet says, whose tally it is made on where it brings none; then
 * the sheet is brought up to date. The refusal that was given.
 */
uint32_t expect_on_sheet(struct sheet *sheet, const struct tally_call *call, enum room room);

/* The same in every room, and at last in one that is long enough. */
uint32_t expect_in_rooms(struct sheet *sheet, const struct tally_call *call);

/* The phrase of a value by the money call, in the settings and the sheet's currency; its length. */
size_t speak_money(const union settings *settings, size_t currency, hundredths value,
                   uint8_t phrase[YOKEPEAR_UK_CURRENCY_PHRASE]);

/* Ends the program with what the call was. */
void tally_differs(const struct tally_call *call, const char *what);

#endif
