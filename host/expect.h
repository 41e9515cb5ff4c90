/*
 * Asks a call with buffers of many lengths and places, and compares all that it gives back. What a
 * spelling call must answer its measuring call is held to, without being asked for.
 */
#ifndef EXPECT_H
#define EXPECT_H

#include "ask.h"

/* Longer than any answer. */
#define LARGE 4000

/* To be called once, before the others. */
void start_expecting(void);

/* The request must be answered by these bytes, or by 7 where the buffer is shorter. */
void expect_answer(const struct request *request, const uint8_t *bytes, size_t length);

/* The request must be refused by this number whatever the buffer. */
void expect_refusal(const struct request *request, uint32_t refusal);

/* The answer in a large buffer, which must not be a refusal; its length. */
size_t answer_of(const struct request *request, uint8_t out[LARGE]);

/* The measuring call of the request's spelling call must give this. */
void expect_measure(const struct request *request, yokepear_measure expected);

/*
 * The measuring call must give the measure of what is said in a large buffer, and the phrase must
 * fill a buffer of the length measured and be refused in one of a byte less. Far faster than
 * expect_answer, for many requests.
 */
void expect_measured(const struct request *request);

#endif
