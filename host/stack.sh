#!/bin/bash
# Prints the deepest stack use of each call in bytes. stack.sh LIMIT ends with 1 if one reaches it.
set -euo pipefail
. "$(dirname "${BASH_SOURCE[0]}")/common.sh"
# Bound at the start: a first call to memcpy must not be counted with the linker's own stack.
sources=(stack.c stack_tally.c paint.c ask.c sheet.c)
"${compile[@]}" -Wl,-z,now "${sources[@]/#/$host/}" "$archive" -o "$build/stack"
"$build/stack" "$@"
