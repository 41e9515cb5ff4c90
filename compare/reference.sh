# shellcheck shell=bash disable=SC2034
# Sourced by the scripts that need the published Rust: where it is, and how it is built.
# YOKEPEAR_SOURCES is the folder of the published files, the one that has src/lang/uk.rs; where it is
# not set they are looked for in ../shared/docs beside the checkout.

# sources_beside: the folder of the published files beside the checkout, or nothing.
sources_beside() {
  local folder
  for folder in "$(dirname "${BASH_SOURCE[0]}")"/../../shared/docs{,/src}; do
    [ -f "$folder/src/lang/uk.rs" ] && { (cd "$folder" && pwd); return; }
  done
  return 0
}

# find_sources WHAT: says that WHAT is not run, and ends with 0, where they are not there.
find_sources() {
  local file
  YOKEPEAR_SOURCES=${YOKEPEAR_SOURCES:-$(sources_beside)}
  [ -n "$YOKEPEAR_SOURCES" ] || { echo "$1: NOT RUN, set YOKEPEAR_SOURCES to the folder of the published Rust"; exit 0; }
  export YOKEPEAR_SOURCES
  for file in lang/uk.rs lang/fr.rs currency.rs num2words.rs; do
    if [ ! -f "$YOKEPEAR_SOURCES/src/$file" ]; then
      echo "$1: NOT RUN, the published Rust is not there ($YOKEPEAR_SOURCES/src/$file)"
      exit 0
    fi
  done
  YOKEPEAR_SOURCES=$(cd "$YOKEPEAR_SOURCES" && pwd)
  command -v rustc > /dev/null || { echo "$1: NOT RUN, there is no rustc"; exit 0; }
}

# build_reference REPO FOLDER: builds the published files, and leaves in `rust` the command that
# builds a program upon them.
build_reference() {
  mkdir -p "$2"
  rust=(rustc --edition 2021 -O --out-dir "$2" -L "$2")
  "${rust[@]}" --crate-type rlib --crate-name num_bigfloat "$1/compare/num_bigfloat.rs"
  # The published files are not ours to mend: their warnings are not shown.
  "${rust[@]}" --crate-type rlib --crate-name reference --cap-lints allow --extern num_bigfloat \
    "$1/compare/reference.rs"
  rust+=(--extern reference)
}

# link_library FOLDER: adds the archive to the command `rust`.
link_library() {
  [ -f "$1/libyokepear.a" ] || { echo "no static library in $1: build it, or set YOKEPEAR_LIB" >&2; exit 1; }
  rust+=(-L "native=$1" -l static=yokepear)
}
