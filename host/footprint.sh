#!/bin/bash
# Prints what each call takes, as the rows of README's table: the code and constants that a program
# has more when it uses this call alone and is linked with --gc-sections, and the call's stack.
set -euo pipefail
. "$(dirname "${BASH_SOURCE[0]}")/common.sh"

# linked CALLS..: the bytes of code and constants of a program that keeps these calls.
linked() {
  "${CC:-gcc}" -x c - -x none "${@/#/-Wl,-u,}" "$archive" -Wl,--gc-sections -o "$build/footprint" \
    <<< 'int main(void) { return 0; }'
  size -A "$build/footprint" | awk '$1 ~ /^\.text|^\.rodata/ {bytes += $2} END {print bytes}'
}

calls=$(declared_calls)
none=$(linked)
stack=$("$host/stack.sh")

# stack_of NAME: its number in what stack.sh prints.
stack_of() { sed -n "s/^$1: \([0-9]*\) .*/\1/p" <<< "$stack"; }

for call in $calls; do
  echo "| \`$call\` | $(($(linked "$call") - none)) | $(stack_of "$call") |"
done
# shellcheck disable=SC2086
echo "| all | $(($(linked $calls) - none)) | $(stack_of deepest) |"
