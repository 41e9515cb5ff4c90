#!/bin/bash
# The benchmark: times of each call against the published Rust, a plain C speller and a copy of the
# phrase, in one run, with instructions per phrase byte counted by callgrind beside them; then the
# size of the library and its stack.
# YOKEPEAR_LIB is the static library's folder, YOKEPEAR_SOURCES that of the published files,
# YOKEPEAR_BUILD where programs are built.
set -euo pipefail
here=$(cd "$(dirname "${BASH_SOURCE[0]}")" && pwd)
repo=$(dirname "$here")
. "$repo/compare/reference.sh"
build=${YOKEPEAR_BUILD:-$repo/target}/bench
lib=${YOKEPEAR_LIB:-$repo/target/staticlib}

find_sources bench
build_reference "$repo" "$build"
rm -f "$build"/*.o "$build"/libplain.a "$build"/callgrind*
for source in plain plain_uk_cardinal plain_uk_ordinal plain_uk_money plain_fr; do
  "${CC:-gcc}" -std=c99 -O2 -Wall -Wextra -Wpedantic -Werror -c "$here/$source.c" \
    -o "$build/$source.o"
done
ar rcs "$build/libplain.a" "$build"/plain*.o
link_library "$lib"
"${rust[@]}" --crate-name bench -L "native=$build" -l static=plain "$here/main.rs"

# Only what bench_pass does is collected (no start-up), and each of its runs is dumped by itself.
counts=$build/counts
: > "$counts"
if command -v valgrind > /dev/null; then
  valgrind --tool=callgrind --collect-atstart=no --toggle-collect=bench_pass \
    --dump-after=bench_pass --callgrind-out-file="$build/callgrind" "$build/bench" count \
    > "$build/callgrind.log" 2>&1
  for ((dump = 1; ; dump++)); do
    [ -f "$build/callgrind.$dump" ] || break
    awk '/^totals:/ {print $2}' "$build/callgrind.$dump" >> "$counts"
  done
else
  echo "no valgrind: instructions are not counted"
fi
"$build/bench" table "$counts"

# Each function and each constant has a section of its own, named after it.
size -A "$lib/libyokepear.a" | awk '
  $1 ~ /^\.text/ {code += $2}
  $1 ~ /^\.rodata/ {constants += $2}
  END {print "code and constants:", code + constants, "bytes (" code " and " constants ")"}'
"$repo/host/stack.sh" | tail -n 1
