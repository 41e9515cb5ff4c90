#!/usr/bin/env bash
# Compares the toolchain on the PATH with the one that the proofs were made and tested with (kit.txt has what `rt version` prints of it).
# Ends with 0 if it is that one, with 1 if it is another, with 2 if there is none.
set -u
cd "$(dirname "${BASH_SOURCE[0]}")/.." || exit 2
pinned=$(< kit.txt)
if ! command -v rt > /dev/null; then
  echo "yokepear: Rattle's command rt is not on the PATH; the kit to install is '$pinned'" >&2
  exit 2
fi
found=$(rt version)
[ "$found" = "$pinned" ] && exit 0
cat >&2 <<TEXT
yokepear: the toolchain here is not the one that the proofs were made and tested with
  here (rt version): $found
  pinned (kit.txt):  $pinned
Only what the toolchain here proves is built. It may refuse a proof that the pinned one takes; sizes in README are the pinned one's.
To pin the one here instead, write its line into kit.txt and run 'make test'.
TEXT
exit 1
