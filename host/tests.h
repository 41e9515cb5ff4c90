/* The parts of the host test; each ends the program at the first difference. */
#ifndef TESTS_H
#define TESTS_H

/* Settings by name, sentences for refusals, the version. */
void test_header(void);

/* Every line of the table of expected answers, spelled and read back. */
void test_table(const char *path);

/* Every setting with a spread of texts, admitted and refused, and settings out of range. */
void test_texts(void);

/* Currency codes, known and unknown. */
void test_codes(void);

/* Phrases that no setting admits. */
void test_phrases(void);

/* The apostrophes of Ukrainian words, in all that a call does. */
void test_apostrophes(void);

/* Ordinals and years as taught in school: spelled, measured, read back, refused. */
void test_ordinals(void);

/* Their phrases damaged: refused, or what is read is spelled as those very bytes. */
void test_ordinal_damage(void);

/* Lengths and words of phrases, by hand and over many figures; refusals in their order. */
void test_measures(void);

/* The header's sizes, by the longest phrase and the longest text of each kind. */
void test_sizes(void);

/* Tallies, each call previewed first: by hand, then in the two ways below. */
void test_tally(void);

/* Long lists of calls at random, held to a sheet on which they are written down. */
void test_tally_lists(void);

/* Bytes that no call made, given as a tally. */
void test_tally_bytes(void);

#endif
