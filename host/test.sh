#!/bin/bash
# The C host tests: the header, every call with guarded buffers, the header's sizes, tallies, the
# examples, an installed copy, the archive's needs, its size and its stack. Ends non-zero at a
# difference.
# YOKEPEAR_LIB is the static library's folder.
set -euo pipefail
. "$(dirname "${BASH_SOURCE[0]}")/common.sh"
"$host/header.sh"
sources=(test.c test_header.c test_table.c test_texts.c test_codes.c test_phrases.c
  test_apostrophes.c test_ordinals.c test_ordinal_damage.c test_measures.c test_sizes.c test_tally.c
  test_tally_lists.c test_tally_bytes.c ask.c guard.c expect.c figure.c longest.c sheet.c tally.c
  tally_sheet.c)
"${compile[@]}" "${sources[@]/#/$host/}" "$archive" -o "$build/test"
"$build/test" "$host/expected.txt"
"${compile[@]}" "$host/price_list.c" "$archive" -o "$build/price_list"
"$build/price_list"
"${compile[@]}" "$host/market_till.c" "$archive" -o "$build/market_till"
"$build/market_till" | diff "$host/market_till.txt" -
echo "the market till prints what it should"
"$host/examples.sh"
"$host/install.sh"
"$host/symbols.sh"
"$host/footprint.sh" | tee "$build/footprint.md"
python3 "$repo/tools/footprint_table.py" --check < "$build/footprint.md"
