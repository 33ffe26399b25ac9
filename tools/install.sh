#!/bin/sh
# tools/install.sh PREFIX: the header, the library and the pkg-config file for C hosts; the program too, where
# `cargo build --release` in host/ has made it. DESTDIR, where it is set, is put before PREFIX. The library is
# target/staticlib/libjsx_precompile.a, or that in the folder JSX_PRECOMPILE_LIB.
set -eu
[ $# -eq 1 ] || { echo "usage: tools/install.sh PREFIX" >&2; exit 2; }
prefix=${DESTDIR:-}$1
root=$(cd "$(dirname "$0")/.." && pwd)
folder=${JSX_PRECOMPILE_LIB:-$root/target/staticlib}
library=${folder%/libjsx_precompile.a}/libjsx_precompile.a
[ -f "$library" ] || { echo "$library is not there: run \`tools/build.sh library\` in $root" >&2; exit 1; }
version=$(sed -n 's/^version = "\(.*\)"$/\1/p' "$root/host/Cargo.toml")

put() {
  mkdir -p "$(dirname "$3")"
  install -m "$1" "$2" "$3"
  echo "$3"
}

made=$(mktemp)
trap 'rm -f "$made"' EXIT
sed "s/@VERSION@/$version/" "$root/tools/jsx_precompile.pc.in" >"$made"
put 644 "$root/host/include/jsx_precompile.h" "$prefix/include/jsx_precompile.h"
put 644 "$library" "$prefix/lib/libjsx_precompile.a"
put 644 "$made" "$prefix/lib/pkgconfig/jsx_precompile.pc"
for file in LICENSE NOTICE; do put 644 "$root/$file" "$prefix/share/doc/jsx_precompile/$file"; done
program=$root/host/target/release/jsx-precompile
if [ -x "$program" ]; then
  put 755 "$program" "$prefix/bin/jsx-precompile"
else
  echo "not installed: the program; \`cargo build --release\` in host/ makes it"
fi
