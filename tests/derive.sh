#!/usr/bin/env bash
# The README's first command prints the key that the README shows, and hands arguments, standard input and files on to the
# program. rust/cli/tests/terminal.rs types at a terminal.
set -eu
root=$(cd "$(dirname "$0")/.." && pwd)
derive=$root/scripts/derive.sh
work=$(mktemp -d)
trap 'rm -rf "$work"' EXIT
cd "$work"

same() { # WHAT EXPECTED FOUND
    [ "$2" = "$3" ] || { echo "$1: expected '$2', found '$3'"; exit 1; }
}

# The status of a command, which `set -e` would end the test for.
status() { # COMMAND..
    local code=0
    "$@" >/dev/null 2>&1 || code=$?
    echo "$code"
}

# ---- the first key
shown=$(grep -oE '\b[0-9a-f]{64}\b' "$root/README.md")
same 'keys that README.md shows' 1 "$(wc -l <<<"$shown")"
same 'the first key' "$shown" "$("$derive")"

# ---- arguments and files, from another folder
costs='--salt 30313233343536373839616263646566 --time 1 --rows 1024 --columns 64'
"$derive" >key
printf 'correct horse battery staple\n' >line
printf 'incorrect horse battery staple\n' >other
same 'a walk question' 3 "$("$derive" walk 8 5)"
same 'the right password' yes "$("$derive" check $costs --key-file key <line)"
same 'status of yes' 0 "$(status "$derive" check $costs --key-file key <line)"
same 'status of no' 1 "$(status "$derive" check $costs --key-file key <other)"
same 'status of a missing file' 2 "$(status "$derive" check $costs --key-file missing <line)"
