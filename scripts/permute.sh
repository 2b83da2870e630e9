#!/usr/bin/env bash
# Proves and builds the program `permute`, then runs it on a file of 128 bytes or, with no argument, on the starting state.
set -eu
cd "$(dirname "$0")/.."
log=$(mktemp)
trap 'rm -f "$log"' EXIT
if ! scripts/program.sh permute >"$log" 2>&1; then
    cat "$log" >&2
    exit 1
fi
case $# in
0) target/bin/permute </dev/null ;;
1)
    if [ ! -r "$1" ]; then
        echo "permute: cannot read $1" >&2
        exit 2
    fi
    target/bin/permute <"$1"
    ;;
*)
    echo "usage: scripts/permute.sh [FILE]" >&2
    exit 2
    ;;
esac
