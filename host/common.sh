# shellcheck shell=bash disable=SC2034
# Sourced by the host scripts: where things are, and how C is compiled.
# YOKEPEAR_LIB is the static library's folder, YOKEPEAR_BUILD where programs are built.
host=$(cd "$(dirname "${BASH_SOURCE[0]}")" && pwd)
repo=$(dirname "$host")
archive=${YOKEPEAR_LIB:-$repo/target/staticlib}/libyokepear.a
include=${YOKEPEAR_INCLUDE:-$repo/include}
build=${YOKEPEAR_BUILD:-$repo/target}/host
[ -f "$archive" ] || { echo "no static library at $archive: build it, or set YOKEPEAR_LIB" >&2; exit 1; }
mkdir -p "$build"
warnings=(-Wall -Wextra -Wpedantic -Werror)
compile=("${CC:-gcc}" -std=c99 -O2 "${warnings[@]}" "-I$include")

# The calls that the header declares, in its order; and those of them that take settings.
declared_calls() { sed -n 's/^[a-z0-9_]* \(yokepear_[a-z_]*\)(.*/\1/p' "$include/yokepear.h"; }
calls_with_settings() {
  sed -n '/^[a-z0-9_]* yokepear_[a-z_]*(/ {
    :more; /;$/! {N; b more}
    /YOKEPEAR_.._NUMBERS_/ s/^[a-z0-9_]* \(yokepear_[a-z_]*\)(.*/\1/p
  }' "$include/yokepear.h"
}
