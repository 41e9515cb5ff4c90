#!/bin/bash
# Installs into a folder of its own and builds the example from there, as a maker would, with the
# flags that pkg-config gives where it is there. The version is the header's, and CHANGELOG's first.
set -euo pipefail
. "$(dirname "${BASH_SOURCE[0]}")/common.sh"
prefix=$(realpath -m "$build")/installed
rm -rf "$prefix" "$build/package"
export YOKEPEAR_LIB PREFIX=$prefix
YOKEPEAR_LIB=$(dirname "$archive")
"$repo/tools/install.sh" > /dev/null
wanted='include/yokepear.h
lib/libyokepear.a
lib/pkgconfig/yokepear.pc
share/doc/yokepear/LICENSE-APACHE
share/doc/yokepear/LICENSE-MIT
share/doc/yokepear/NOTICE'
files=$(cd "$prefix" && find . -type f | sed 's,^\./,,' | sort)
[ "$files" = "$wanted" ] || { printf 'other files are installed:\n%s\n' "$files" >&2; exit 1; }
# For a package the same files are gathered elsewhere, and none of them says so.
DESTDIR=$build/package "$repo/tools/install.sh" > /dev/null
diff -r "$prefix" "$build/package$prefix"

version=$(printf '#include "yokepear.h"\nYOKEPEAR_VERSION\n' |
  "${CC:-gcc}" -E -P "-I$prefix/include" - | tail -n 1 | tr -d '" ')
changelog=$(sed -n 's/^## \([0-9.]*\).*/\1/p' "$repo/CHANGELOG.md" | head -n 1)
[ "$version" = "$changelog" ] ||
  { echo "the header is version $version, the changelog's first is $changelog" >&2; exit 1; }

flags="-I$prefix/include -L$prefix/lib -lyokepear" by='without pkg-config, which is not there'
if command -v pkg-config > /dev/null; then
  export PKG_CONFIG_PATH=$prefix/lib/pkgconfig
  [ "$(pkg-config --modversion yokepear)" = "$version" ] ||
    { echo "the header is version $version, the pkg-config file's is another" >&2; exit 1; }
  flags=$(pkg-config --cflags --libs yokepear) by='by pkg-config'
fi
# shellcheck disable=SC2086
"${CC:-gcc}" -std=c99 "${warnings[@]}" "$host/price_list.c" $flags -o "$build/installed_list"
"$build/installed_list" > /dev/null
echo "install: version $version, the example is built $by"
