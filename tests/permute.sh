#!/usr/bin/env bash
# The permutation's script prints what the README shows, and the program turns other lengths of input away.
set -eu
cd "$(dirname "$0")/.."
work=$(mktemp -d)
trap 'rm -rf "$work"' EXIT

same() { # WHAT EXPECTED FOUND
    [ "$2" = "$3" ] || { echo "$1: expected '$2', found '$3'"; exit 1; }
}

first=$(scripts/permute.sh)
same 'words of the starting state' 16 "$(grep -cE '^[0-9a-f]{16}$' <<<"$first")"
same 'the starting state' "$(cat crates/permute/stdout)" "$first"
grep -qF "$(printf '%s\n' "$first" | head -n 1)" README.md || { echo "README.md does not show the first word"; exit 1; }

head -c 128 /dev/zero >"$work/zeros"
same 'zeros' "$(yes 0000000000000000 | head -n 16)" "$(scripts/permute.sh "$work/zeros")"

for n in 1 127 129 5000; do
    head -c "$n" /dev/zero >"$work/input"
    same "$n bytes" 'permute: the input has to be empty or 128 bytes long' "$(scripts/permute.sh "$work/input")"
done
! scripts/permute.sh "$work/missing" >/dev/null 2>&1 || { echo "a missing file is taken"; exit 1; }
