/* The table: `call setting setting setting [code] text -> phrase`; lines with # are comments. */
#include <stdio.h>
#include <stdlib.h>
#include <string.h>

#include "expect.h"
#include "tests.h"

/* A line has the settings of the ported calls, which stand first; those that came later are 0. */
enum { LONGEST_LINE = 8192, TABLE_SETTINGS = 3 };

static void stop(const char *what, const char *line) {
  fprintf(stderr, "the table of expected answers: %s: %s\n", what, line);
  exit(2);
}

/* The next word of a line, ended by a zero byte. */
static char *word(char **rest, const char *line) {
  char *start = *rest, *space = strchr(start, ' ');
  if (!space) stop("a word is missing", line);
  *space = 0;
  *rest = space + 1;
  return start;
}

/* Spells the text; then reads the phrase back if there is a call that reads it. */
static void test_line(char *line) {
  struct request r = {0};
  char *rest = line;
  const char *name = word(&rest, line);
  r.call = find_call(name);
  if (!r.call) stop("there is no such call", name);
  for (int i = 0; i < TABLE_SETTINGS; i++)
    r.settings.numbers[i] = (uint32_t)strtoul(word(&rest, line), 0, 10);
  if (r.call->kind == MONEY) set_code(&r, word(&rest, line));
  const char *text = word(&rest, line);
  if (strcmp(word(&rest, line), "->")) stop("the arrow is missing", line);
  set_text(&r, text);
  expect_answer(&r, (const uint8_t *)rest, strlen(rest));
  r.call = reading_call(&r);
  if (!r.call) return;
  set_text(&r, rest);
  expect_answer(&r, (const uint8_t *)text, strlen(text));
}

void test_table(const char *path) {
  static char line[LONGEST_LINE];
  FILE *file = fopen(path, "r");
  if (!file) stop("cannot be opened", path);
  while (fgets(line, sizeof line, file)) {
    size_t length = strlen(line);
    if (!length || line[length - 1] != '\n') stop("a line is too long", line);
    line[length - 1] = 0;
    if (line[0] != '#') test_line(line);
  }
  fclose(file);
}
