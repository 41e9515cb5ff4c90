#!/bin/bash
# Prints what the archive needs from outside and how large it is; ends with 1 if it needs more than
# memcpy and memset, or keeps state (.data or .bss).
set -euo pipefail
. "$(dirname "${BASH_SOURCE[0]}")/common.sh"
needed=$(nm -u "$archive" | awk '$1 == "U" || $1 == "w" {print $2}' | sort -u)
echo "undefined symbols:" ${needed:-none}
size --format=sysv "$archive" | awk '
  $1 ~ /^\.text/ {text += $2}
  $1 ~ /^\.rodata/ || $1 ~ /^\.data\.rel\.ro/ {constants += $2}
  ($1 ~ /^\.data/ && $1 !~ /^\.data\.rel\.ro/) || $1 ~ /^\.t?bss/ || $1 ~ /^\.tdata/ {state += $2}
  END {
    printf "code %d bytes, constants %d bytes, state %d bytes\n", text, constants, state
    exit state > 0
  }'
other=$(grep -vx -e memcpy -e memset -e '' <<< "$needed" || true)
[ -z "$other" ] || { echo "needs more than memcpy and memset" >&2; exit 1; }
