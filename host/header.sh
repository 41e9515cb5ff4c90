#!/bin/bash
# Compiles the header alone as C and C++ with all warnings on, shows that settings cannot change
# places, and compares the calls that it declares with those that the archive has.
set -euo pipefail
. "$(dirname "${BASH_SOURCE[0]}")/common.sh"
header=$include/yokepear.h
usual=("${warnings[@]}" -fsyntax-only "-I$include")
all=("${usual[@]}" -Wconversion -Wsign-conversion -Wundef -Wshadow)
as_c=("${all[@]}" -Wstrict-prototypes -Wmissing-prototypes -Wc++-compat -x c)
as_cpp=("${all[@]}" -Wold-style-cast -x c++)

# The compilers that are there; the first of each kind must be.
c_compilers=("${CC:-gcc}") cpp_compilers=("${CXX:-g++}")
if command -v clang > /dev/null; then c_compilers+=(clang); fi
if command -v clang++ > /dev/null; then cpp_compilers+=(clang++); fi

# The header, and settings that begin as zeros.
alone='#include "yokepear.h"'
zeros='yokepear_uk uk(void); yokepear_uk uk(void)'
c_zeros=$alone$'\n'"$zeros { yokepear_uk s = {.gender = YOKEPEAR_MASCULINE}; return s; }"
cpp_zeros=$alone$'\n'"$zeros { yokepear_uk s = {}; return s; }"
for compiler in "${c_compilers[@]}"; do
  for standard in 99 11 17; do "$compiler" "-std=c$standard" "${as_c[@]}" - <<< "$c_zeros"; done
done
for compiler in "${cpp_compilers[@]}"; do
  for standard in 98 11 17 20; do
    "$compiler" "-std=c++$standard" "${as_cpp[@]}" - <<< "$cpp_zeros"
  done
done

# refused WHAT SOURCE COMPILER..: the source must not compile, though the header by itself does.
refused() {
  local what=$1 source=$2
  shift 2
  if "$@" - <<< "$source" 2> /dev/null; then
    echo "compiled by ${*:1:2}: $what" >&2
    exit 1
  fi
}

# only_swapped WHAT RIGHT WRONG COMPILER..: the first line in a function compiles, the second not.
only_swapped() {
  local what=$1 right=$2 wrong=$3
  shift 3
  local front=$alone'
extern yokepear_uk made; yokepear_uk made;
extern yokepear_fr french; yokepear_fr french;
extern void make(void); void make(void) {'
  "$@" - <<< "$front $right }"
  refused "$what" "$front $wrong }" "$@"
}

settings_in_place() {
  local sign=YOKEPEAR_APOSTROPHE_ASCII style=YOKEPEAR_ORDINAL_STYLE_SCHOOL
  local noun='YOKEPEAR_FEMININE, YOKEPEAR_PLURAL, YOKEPEAR_GENITIVE'
  only_swapped 'settings that have changed places' \
    "yokepear_uk s = {$noun, $sign, $style}; made = s;" \
    "yokepear_uk s = {$sign, $noun, $style}; made = s;" "$@"
  only_swapped 'the last two settings in each other'"'"'s place' \
    "yokepear_uk s = {$noun, $sign, $style}; made = s;" \
    "yokepear_uk s = {$noun, $style, $sign}; made = s;" "$@"
  only_swapped 'a case for a gender' \
    'made.gender = YOKEPEAR_NEUTER;' 'made.gender = YOKEPEAR_DATIVE;' "$@"
  only_swapped 'an apostrophe for a case' \
    'made.grammatical_case = YOKEPEAR_DATIVE;' "made.grammatical_case = $sign;" "$@"
  only_swapped 'a case for an apostrophe' \
    "made.apostrophe = $sign;" 'made.apostrophe = YOKEPEAR_DATIVE;' "$@"
  only_swapped 'a number for an ordinal style' \
    "made.ordinal_style = $style;" 'made.ordinal_style = YOKEPEAR_PLURAL;' "$@"
  only_swapped 'an ordinal style for a number' \
    'made.number = YOKEPEAR_PLURAL;' "made.number = $style;" "$@"
  only_swapped 'a case for a region' \
    'french.region = YOKEPEAR_CH;' 'french.region = YOKEPEAR_DATIVE;' "$@"
  only_swapped 'the settings of the other language' \
    'yokepear_uk s = made; (void)yokepear_uk_to_cardinal_in(s, "1", 1, 0, 0);' \
    'yokepear_uk s = made; (void)yokepear_fr_to_cardinal_in(s, "1", 1, 0, 0);' "$@"
  only_swapped 'the settings of the other language, where a phrase is measured' \
    'yokepear_fr s = french; (void)yokepear_fr_measure_ordinal_in(s, "1", 1);' \
    'yokepear_fr s = french; (void)yokepear_uk_measure_ordinal_in(s, "1", 1);' "$@"
  only_swapped 'French settings of a total' \
    'yokepear_uk s = made; (void)yokepear_tally_remove_in(s, 1, 0, 0, 0, 0);' \
    'yokepear_fr s = french; (void)yokepear_tally_remove_in(s, 1, 0, 0, 0, 0);' "$@"
  only_swapped 'a tally that cannot be changed' \
    'static char t[1]; (void)yokepear_tally_open("", 0, t, 1);' \
    'static const char t[1] = {0}; (void)yokepear_tally_open("", 0, t, 1);' "$@"
  only_swapped 'a tally that can only be read, and is added to' \
    'static const char t[1] = {0}; (void)yokepear_tally_preview_add_in(made, t, 1, "", 0, 0, 0);' \
    'static const char t[1] = {0}; (void)yokepear_tally_add_in(made, t, 1, "", 0, 0, 0);' "$@"
  only_swapped 'a tally that can only be read, and is removed from' \
    'static const char t[1] = {0}; (void)yokepear_tally_preview_remove_in(made, 1, t, 1, 0, 0);' \
    'static const char t[1] = {0}; (void)yokepear_tally_remove_in(made, 1, t, 1, 0, 0);' "$@"
}
# The usual warnings tell it.
for compiler in "${c_compilers[@]}"; do
  settings_in_place "$compiler" -std=c99 "${usual[@]}" -x c
done
for compiler in "${cpp_compilers[@]}"; do
  settings_in_place "$compiler" -std=c++11 "${usual[@]}" -x c++
done
# There a number outside its range could become one inside it.
refused 'settings of fewer than 32 bits' "$alone" \
  "${c_compilers[0]}" -std=c99 -fshort-enums "${as_c[@]}"

# same WHAT LIST OTHER: ends with 1 where the lists of calls differ.
same() {
  [ "$2" = "$3" ] && return
  echo "$1:" >&2
  diff <(echo "$2") <(echo "$3") >&2
  exit 1
}
declared=$(declared_calls | sort)
with_settings=$(calls_with_settings | sort)
by_name=$(sed -n 's/^static inline [a-z0-9_]* \(yokepear_[a-z_]*\)_in(.*/\1/p' "$header" | sort)
exported=$(nm --defined-only "$archive" | awk '$2 == "T" {print $3}' | sort)
same 'the header and the archive have other calls (< header, > archive)' "$declared" "$exported"
same 'other calls take settings by name (< as numbers, > by name)' "$with_settings" "$by_name"
echo "header: ${c_compilers[*]} ${cpp_compilers[*]} without a warning, settings keep their" \
  "places, $(wc -l <<< "$declared") calls as in the archive"
