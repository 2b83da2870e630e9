#!/usr/bin/env bash
# Proves a program of crates.txt and all that it rests on, and puts it into target/bin. The kit runs it once on the input beside its source.
set -eu
cd "$(dirname "$0")/.."
[ $# -eq 1 ] || { echo 'usage: scripts/program.sh NAME' >&2; exit 2; }
(cd "crates/$1" && rt run)
mkdir -p target/bin
cp "crates/$1/out/$1" target/bin/
