#!/usr/bin/env bash
# The walk program on every input that the vectors file has for it, and on inputs that are long or come in pieces.
set -eu
cd "$(dirname "$0")/.."
work=$(mktemp -d)
trap 'rm -rf "$work"' EXIT

if ! scripts/program.sh walk >"$work/log" 2>&1; then
    cat "$work/log"
    exit 1
fi
walk=target/bin/walk

same() { # WHAT EXPECTED FOUND
    [ "$2" = "$3" ] || { echo "$1: expected '$2', found '$3'"; exit 1; }
}

# The field of a vectors line; a field that the line lacks is empty.
field() { # NAME LINE
    sed -n "s/.* $1=\([^ ]*\).*/\1/p" <<<" $2"
}

# FNV-1a with 64 bits; bash's numbers wrap as the sum does.
checksum() { # FILE
    local sum=$((0xcbf29ce484222325)) byte
    for byte in $(od -An -v -tu1 "$1"); do
        sum=$(((sum ^ byte) * 0x100000001b3))
    done
    printf '%016x' "$sum"
}

# ---- the vectors
cases=0
while read -r line; do
    input=$(field input "$line")
    printf "$(sed 's/../\\x&/g' <<<"$input")" >"$work/input"
    "$walk" <"$work/input" >"$work/output"
    same "length for $input" "$(field output_len "$line")" "$(($(wc -c <"$work/output")))"
    same "sum for $input" "$(field output_sum "$line")" "$(checksum "$work/output")"
    cases=$((cases + 1))
done < <(grep ' op=walk_program ' vectors/lyra2.txt)
[ "$cases" -ge 70 ] || { echo "only $cases cases of the walk program were found"; exit 1; }

# ---- other inputs
refused() { # WHAT FILE
    same "$1" 'refused 5' "$("$walk" <"$2")"
}

# Every single byte before a newline: the digits 3 to 9 are accepted.
for byte in $(seq 0 255); do
    printf "$(printf '\\x%02x' "$byte")\n" >"$work/input"
    if [ "$byte" -ge 51 ] && [ "$byte" -le 57 ]; then
        same "byte $byte" "$((byte - 51))" "$(($("$walk" <"$work/input" | wc -l)))"
    else
        refused "byte $byte" "$work/input"
    fi
done
head -c 1000000 /dev/zero >"$work/input"
refused 'a million zero bytes' "$work/input"
yes 8 | head -n 500000 >"$work/input"
refused 'a number on each of many lines' "$work/input"
tr '\0' 8 </dev/zero | head -c 1000000 >"$work/input"
refused 'a million digits' "$work/input"
refused 'no input' /dev/null

pieces=$({ printf 1; sleep 0.1; printf 0; sleep 0.1; printf '\n'; } | "$walk")
same 'an input in pieces' "$(printf '10\n' | "$walk")" "$pieces"
same 'the lines for 8' "$(printf '3 1\n4 0\n5 3\n6 2\n7 1')" "$(printf '8\n' | "$walk")"
