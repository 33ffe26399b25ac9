#!/usr/bin/env bash
# tools/build.sh [library] [card] [tag] [replay]: proves and makes what hosts and the tests of host/ use, in target/: staticlib/libjsx_precompile.a,
# bin/card, bin/tag, bin/replay; all four where none is named. A crate that was proved and has not changed is taken from its last run.
set -euo pipefail
cd "$(dirname "$0")/.."
[ $# -gt 0 ] || set -- library card tag replay
for it; do
  case $it in
    library)
      (cd crates/jsx_precompile_c && rt lib)
      mkdir -p target/staticlib
      cp crates/jsx_precompile_c/out/libjsx_precompile_c.a target/staticlib/libjsx_precompile.a
      ;;
    card | tag | replay)
      (cd "crates/$it" && rt run <stdin | cmp - stdout)
      mkdir -p target/bin
      cp "crates/$it/out/$it" "target/bin/$it"
      ;;
    *)
      echo "usage: tools/build.sh [library] [card] [tag] [replay]" >&2
      exit 2
      ;;
  esac
done
