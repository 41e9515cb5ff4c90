/* The host test: every call from C, with every setting, guarded buffers and guarded inputs. */
#include <stdio.h>

#include "expect.h"
#include "tally.h"
#include "tests.h"

static void show_counts(const char *name, const struct counts *done) {
  printf("yokepear_%s: %lu answers, %lu refusals, asked %lu times\n", name, done->answers,
         done->refusals, done->asked);
}

int main(int argc, char **argv) {
  if (argc != 2) {
    fprintf(stderr, "usage: test TABLE\n");
    return 2;
  }
  start_expecting();
  test_header();
  test_table(argv[1]);
  test_texts();
  test_codes();
  test_phrases();
  test_apostrophes();
  test_ordinals();
  test_ordinal_damage();
  test_measures();
  test_sizes();
  test_tally();
  size_t measuring = 0;
  for (size_t i = 0; i < call_count; i++) {
    show_counts(calls[i].name, &calls[i].done);
    if (calls[i].reading) continue;
    show_counts(calls[i].measuring.name, &calls[i].measuring.done);
    measuring++;
  }
  for (size_t i = 0; i < TALLY_CALLS; i++) show_counts(tally_calls[i].name, &tally_calls[i].done);
  printf("%zu calls as expected\n", call_count + measuring + TALLY_CALLS);
  return 0;
}
