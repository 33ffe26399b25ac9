#!/usr/bin/env bash
# Installs what the tests need besides rt and cargo, from Debian, where that can be done: node and Babel's parser for node/,
# a browser and pkg-config for host/. It never fails: what is missing afterwards is said, and the tests that need it are
# skipped.
set -u
cd "$(dirname "$0")/.." || exit 0

has_node() { command -v node >/dev/null 2>&1; }

has_parser() {
  has_node && node -e 'import("./node/src/babel.js").then((found) => process.exit(found.findParser().missing ? 1 : 0))' 2>/dev/null
}

# apt-get, not for longer than a gate can wait
apt() { DEBIAN_FRONTEND=noninteractive timeout 180 apt-get -qq -o Acquire::Retries=0 -o Acquire::http::Timeout=15 "$@" >/dev/null 2>&1; }

install() {
  command -v apt-get >/dev/null 2>&1 || { echo "skipped: setup: $1: no apt-get here"; return; }
  [ "$(id -u)" = 0 ] || { echo "skipped: setup: $1: only root may install it"; return; }
  apt install -y --no-install-recommends "$1" || { apt update && apt install -y --no-install-recommends "$1"; } \
    || echo "skipped: setup: $1: it could not be installed"
}

has_node || install nodejs
# One package without others; @babel/parser of npm is as good.
has_parser || install node-babel7-standalone
command -v chromium >/dev/null 2>&1 || install chromium
command -v pkg-config >/dev/null 2>&1 || install pkg-config
if has_parser; then
  node -e 'import("./node/src/babel.js").then((found) => { const { name, version } = found.findParser(); console.log(`setup: node ${process.version}, ${name} ${version}`) })'
else
  echo "skipped: setup: node or a parser of Babel's is still missing"
fi
exit 0
