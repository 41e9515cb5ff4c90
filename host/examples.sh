#!/bin/bash
# Compiles the examples of README.md and of the header with all warnings on, runs them, and compares
# what they print with what README says that they print.
set -euo pipefail
. "$(dirname "${BASH_SOURCE[0]}")/common.sh"

# block LANGUAGE N: README's N-th block of code in this language; output LANGUAGE N: the first block
# without a language behind it.
block() {
  awk -v begin="\`\`\`$1" -v n="$2" '
    $0 == begin && ++found == n {in_it = 1; next}
    in_it && /^```$/ {exit}
    in_it' "$repo/README.md"
}
output() {
  awk -v begin="\`\`\`$1" -v n="$2" '
    $0 == begin && ++found == n {seen = 1; next}
    seen == 1 && /^```$/ {seen = 2; next}
    seen == 2 && /^```$/ {seen = 3; next}
    seen == 3 && /^```$/ {exit}
    seen == 3' "$repo/README.md"
}

# The lines of the header's example, in a program.
header_example() {
  printf '#include <stdio.h>\n#include "yokepear.h"\nint main(void) {\n'
  sed -n '/^ \*   Example/,/^ \*$/ s/^ \*     //p' "$include/yokepear.h"
  printf 'return 0;\n}\n'
}

# prints NAME WANTED: runs the example, which must print this.
prints() {
  local got
  got=$("$build/$1")
  [ -n "$2" ] && [ "$got" = "$2" ] && return
  echo "$1 prints [$got], and should print [$2]" >&2
  exit 1
}

# readme LANGUAGE COMPILER..: each of README's blocks in this language.
readme() {
  local language=$1 blocks n name
  shift
  blocks=$(grep -cx "\`\`\`$language" "$repo/README.md")
  for ((n = 1; n <= blocks; n++)); do
    name=readme_${language}_$n
    block "$language" "$n" > "$build/$name.$language"
    "$@" "$build/$name.$language" "$archive" -o "$build/$name"
    prints "$name" "$(output "$language" "$n")"
  done
}

readme c "${compile[@]}"
readme cpp "${CXX:-g++}" -std=c++11 -O2 "${warnings[@]}" "-I$include"
header_example > "$build/header.c"
"${compile[@]}" "$build/header.c" "$archive" -o "$build/header_c"
prints header_c 'сорок дві'
echo "examples: README's in C and C++, and the header's, print what they should"
