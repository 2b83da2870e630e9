#!/usr/bin/env bash
# Proves a static library of crates.txt and all that it rests on, and puts its archive into target/staticlib.
set -eu
cd "$(dirname "$0")/.."
[ $# -eq 1 ] || { echo 'usage: scripts/library.sh NAME' >&2; exit 2; }
(cd "crates/$1" && rt lib)
mkdir -p target/staticlib
cp "crates/$1/out/lib$1.a" target/staticlib/
