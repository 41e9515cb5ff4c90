#!/bin/bash
# Compares the library with the published Rust: run.sh, or run.sh full for the long run.
# run.sh samples writes host/expected.txt and compare/out/*.in and *.out from the Rust's answers.
# YOKEPEAR_LIB is the static library's folder, YOKEPEAR_SOURCES that of the published files,
# YOKEPEAR_BUILD where programs are built, YOKEPEAR_SEED another seed of the random texts.
set -euo pipefail
here=$(cd "$(dirname "${BASH_SOURCE[0]}")" && pwd)
repo=$(dirname "$here")
. "$here/reference.sh"
build=${YOKEPEAR_BUILD:-$repo/target}/compare

find_sources compare
build_reference "$repo" "$build"
link_library "${YOKEPEAR_LIB:-$repo/target/staticlib}"
"${rust[@]}" --crate-name compare "$here/main.rs"
if [ "${1:-}" = samples ]; then
  mkdir -p "$here/out"
  "$build/compare" samples "$repo/host/expected.txt" "$here/out"
else
  "$build/compare" "$@"
fi
