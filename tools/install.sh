#!/usr/bin/env bash
# Puts the header, the library, a pkg-config file and the licences below the folder PREFIX. DESTDIR stands before it where files are gathered for a
# package. YOKEPEAR_LIB is the static library's folder.
set -euo pipefail
repo=$(cd "$(dirname "${BASH_SOURCE[0]}")/.." && pwd)
archive=${YOKEPEAR_LIB:-$repo/target/staticlib}/libyokepear.a
# A pkg-config file gives flags that a shell divides at spaces.
case ${PREFIX:-} in '' | *[[:space:]]*) echo "PREFIX must be a folder whose path has no spaces, and is '${PREFIX:-}'" >&2; exit 1 ;; esac
[ -f "$archive" ] || { echo "no static library at $archive: run 'make lib', or set YOKEPEAR_LIB" >&2; exit 1; }
prefix=$(realpath -ms "$PREFIX")
root=${DESTDIR:-}$prefix

# The version is set in the header alone.
part() { sed -n "s/^#define YOKEPEAR_VERSION_$1 //p" "$repo/include/yokepear.h"; }
version=$(part MAJOR).$(part MINOR).$(part PATCH)

# put FOLDER FILE..: installs files, which anyone may read.
put() { install -D -m 644 -t "$root/$1" "${@:2}"; }

put include "$repo/include/yokepear.h"
put lib "$archive"
put share/doc/yokepear "$repo"/{LICENSE-MIT,LICENSE-APACHE,NOTICE}
install -D -m 644 /dev/stdin "$root/lib/pkgconfig/yokepear.pc" <<TEXT
prefix=$prefix
includedir=\${prefix}/include
libdir=\${prefix}/lib

Name: yokepear
Description: Figures spoken as Ukrainian and French phrases, and phrases read back as figures
Version: $version
Cflags: -I\${includedir}
Libs: -L\${libdir} -lyokepear
TEXT
echo "yokepear $version is installed below $root"
