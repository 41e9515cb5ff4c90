/* What the header itself does: settings by name, sentences for refusals, its version. */
#include <ctype.h>
#include <stdio.h>
#include <stdlib.h>
#include <string.h>

#include "expect.h"
#include "tests.h"

/* Settings by name, each field by itself, and what is said in them. */
static const struct {
  const char *call;
  union settings settings;
  const char *text, *phrase;
} named[] = {
    {"uk_to_cardinal", {{0}}, "42", "сорок два"},
    {"uk_to_cardinal", {.uk = {.gender = YOKEPEAR_FEMININE}}, "42", "сорок дві"},
    {"uk_to_cardinal", {.uk = {.gender = YOKEPEAR_NEUTER}}, "1", "одне"},
    {"uk_to_ordinal", {.uk = {.number = YOKEPEAR_PLURAL}}, "42", "сорок другі"},
    {"uk_to_ordinal", {.uk = {.grammatical_case = YOKEPEAR_GENITIVE}}, "42", "сорок другого"},
    {"uk_to_cardinal", {.uk = {.grammatical_case = YOKEPEAR_DATIVE}}, "2", "двом"},
    {"uk_to_cardinal", {.uk = {.grammatical_case = YOKEPEAR_ACCUSATIVE}}, "5000", "пʼять тисячі"},
    {"uk_to_cardinal", {.uk = {.grammatical_case = YOKEPEAR_INSTRUMENTAL}}, "2", "двома"},
    {"uk_to_cardinal", {.uk = {.grammatical_case = YOKEPEAR_LOCATIVE}}, "2", "двох"},
    {"uk_to_cardinal", {.uk = {.apostrophe = YOKEPEAR_APOSTROPHE_U02BC}}, "9", "дев\u02bcять"},
    {"uk_to_cardinal", {.uk = {.apostrophe = YOKEPEAR_APOSTROPHE_U2019}}, "9", "дев\u2019ять"},
    {"uk_to_cardinal", {.uk = {.apostrophe = YOKEPEAR_APOSTROPHE_ASCII}}, "9", "дев'ять"},
    {"uk_to_ordinal", {.uk = {.ordinal_style = YOKEPEAR_ORDINAL_STYLE_PORTED}}, "200", "сотий"},
    {"uk_to_ordinal", {.uk = {.ordinal_style = YOKEPEAR_ORDINAL_STYLE_SCHOOL}}, "200", "двохсотий"},
    {"fr_to_cardinal", {.fr = {0}}, "81", "quatre-vingt-un"},
    {"fr_to_cardinal", {.fr = {.feminine = 1}}, "81", "quatre-vingt-une"},
    {"fr_to_cardinal", {.fr = {.reformed = 1}}, "71", "soixante-et-onze"},
    {"fr_to_cardinal", {.fr = {.region = YOKEPEAR_BE}}, "81", "quatre-vingt-un"},
    {"fr_to_cardinal", {.fr = {.region = YOKEPEAR_BE}}, "71", "septante et un"},
    {"fr_to_cardinal", {.fr = {.region = YOKEPEAR_CH}}, "81", "huitante et un"},
};

static void test_names(void) {
  for (size_t i = 0; i < sizeof named / sizeof *named; i++) {
    struct request r = {0};
    r.call = find_call(named[i].call);
    r.settings = named[i].settings;
    set_text(&r, named[i].text);
    expect_answer(&r, (const uint8_t *)named[i].phrase, strlen(named[i].phrase));
  }
}

static void stop(const char *what, unsigned refusal) {
  printf("DIFFERENCE: the sentence for refusal %u: %s\n", refusal, what);
  exit(1);
}

enum { LAST_REFUSAL = YOKEPEAR_NOT_HELD, LONGEST_SENTENCE = 60, LONGEST_VERSION = 40 };

/* Each refusal has a sentence of its own that a log can take; all other numbers have one. */
static void test_sentences(void) {
  const char *none = yokepear_refusal_text(UINT32_MAX);
  for (uint32_t refusal = YOKEPEAR_DONE; refusal <= LAST_REFUSAL; refusal++) {
    const char *sentence = yokepear_refusal_text(refusal);
    if (!*sentence || strlen(sentence) > LONGEST_SENTENCE) stop("empty or long", refusal);
    for (const char *at = sentence; *at; at++)
      if (!isprint((unsigned char)*at)) stop("not plain ASCII", refusal);
    if (!strcmp(sentence, none)) stop("that of an unknown number", refusal);
    for (uint32_t other = 0; other < refusal; other++)
      if (!strcmp(sentence, yokepear_refusal_text(other))) stop("that of another", refusal);
  }
  if (strcmp(yokepear_refusal_text(LAST_REFUSAL + 1), none))
    stop("not that of an unknown number", LAST_REFUSAL + 1);
}

static void test_version(void) {
  char version[LONGEST_VERSION];
  snprintf(version, sizeof version, "%d.%d.%d", YOKEPEAR_VERSION_MAJOR, YOKEPEAR_VERSION_MINOR,
           YOKEPEAR_VERSION_PATCH);
  if (!strcmp(version, YOKEPEAR_VERSION)) return;
  printf("DIFFERENCE: the version is %s, its numbers are %s\n", YOKEPEAR_VERSION, version);
  exit(1);
}

void test_header(void) {
  test_names();
  test_sentences();
  test_version();
}
