#!/bin/bash
# Writes crates/phrases_replay/stdin and stdout: lines over all kinds, settings and currencies, with refusals and bad lines. The phrases are those
# of the published Rust, refusals and bad lines those of 01 (compare/sample_lines.rs and lines.rs). The first line says how the list was made; it
# is itself a bad line. Then come the mixed lines, and at last the odd ones (every byte as a text, lengths around the limit of 512), of which the
# last has no line end.
set -euo pipefail
repo=$(cd "$(dirname "${BASH_SOURCE[0]}")/.." && pwd)
"$repo/compare/run.sh" samples
out=$repo/compare/out
into=$repo/crates/phrases_replay
{
  echo 'Made by tools/make_replay.sh: phrases as the published Rust says them with exact decimals, refusals and bad lines as 01 does'
  cat "$out/phrases.in" "$out/odd.in"
} > "$into/stdin"
{
  echo 'bad line'
  cat "$out/phrases.out" "$out/odd.out"
} > "$into/stdout"
wc -l "$into/stdin" "$into/stdout"
