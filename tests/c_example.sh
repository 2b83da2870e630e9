#!/usr/bin/env bash
# The C examples compile without a warning and print what is due, refusals included; the header also serves C11 and C++.
# rust/derivation-link/tests/c_example.rs and rust/cli/tests/documents.rs hold what is due against the second program, and what
# is chosen against the command line.
set -eu
cd "$(dirname "$0")/.."
. tests/c/build.sh

# ---- the header
cc "${flags[@]}" -fsyntax-only -x c include/lyra2.h
cc -std=c11 "${flags[@]:1}" -fsyntax-only -x c include/lyra2.h
for standard in c++11 c++17; do
    g++ -std=$standard -Wall -Wextra -pedantic -Werror -fsyntax-only -x c++ include/lyra2.h
done
g++ -std=c++11 -Wall -Wextra -pedantic -Werror -Iinclude tests/c/from_cpp.cpp "$library" -o "$work/from_cpp"
"$work/from_cpp" || { echo 'the C++ program fails'; exit 1; }
if cc -m32 -ffreestanding -fsyntax-only -x c include/lyra2.h 2>"$work/log"; then
    echo 'a size_t of 32 bits is taken'
    exit 1
fi
grep -q 'size_t of 64 bits' "$work/log" || { cat "$work/log"; exit 1; }

# A refusal that nobody looks at is warned of.
printf '#include "lyra2.h"\nvoid ask(size_t *row1);\nvoid ask(size_t *row1) { lyra2_walk(8, 3, row1); }\n' >"$work/careless.c"
! cc "${flags[@]}" -c "$work/careless.c" -o "$work/careless.o" 2>"$work/log" || { echo 'an answer may be ignored'; exit 1; }
grep -q 'unused-result' "$work/log" || { cat "$work/log"; exit 1; }

# ---- the example
cc "${flags[@]}" examples/derive_and_check.c "$library" -o "$work/example"
password='correct horse'
numbers=('salt of 16 bytes' 1 256 64 32)
same 'the example' "$(cat examples/derive_and_check.out)" "$(printf '%s' "$password" | "$work/example" "${numbers[@]}")"
key=$(sed -n 's/^key: //p' examples/derive_and_check.out)
same 'digits of the key' 64 "${#key}"
grep -qF "$key" docs/LINKING.md || { echo 'docs/LINKING.md does not show the key'; exit 1; }
setup_alone=$(printf '%s' "$password" | "$work/example" saltsalt 0 3 1 32)
same 'the example with T = 0' "cost: 2 full calls, 3 reduced calls, 27 rounds, 288 bytes of matrix
this key: yes
with a bit changed: no" "$(grep -v '^key: ' <<<"$setup_alone")"

# ---- the memory that it lends: whatever the system refuses it derives the same, and without any it says so
compile refusing
cc "${flags[@]}" examples/derive_and_check.c "$work/refusing.o" "$library" -o "$work/unaided"
found=$(printf '%s' "$password" | "$work/unaided" "${numbers[@]}" 2>"$work/log")
same 'the example without large pages or a lock' "$(cat examples/derive_and_check.out)" "$found"
same 'what the system was asked' 'large 0 1572864
undumped 0 1572864
lock 0 1572864' "$(cat "$work/log")"
status=0
(ulimit -v 300000 && printf '%s' "$password" | "$work/example" saltsalt 1 16384 256 32) >"$work/out" 2>"$work/log" || status=$?
same 'status without memory' 2 "$status"
same 'the example without memory' 'no memory for a matrix of 402653184 bytes' "$(cat "$work/log")"

refused() { # NUMBER SENTENCE ARGUMENT..
    local status=0 due="refused $1: $2"
    shift 2
    "$work/example" "$@" <"$work/password" >"$work/out" 2>"$work/log" || status=$?
    same "status of '$due'" 1 "$status"
    same "refusal of $*" "$due" "$(cat "$work/out" "$work/log")"
}
printf '%s' "$password" >"$work/password"
for length in 0 1025 18446744073709551615; do
    refused 1 'the key has to have 1 to 1024 bytes' saltsalt 1 3 1 $length
done
refused 3 'the salt has to have at least 8 bytes' saltsal 1 3 1 32
refused 10 'the salt may have at most 64 bytes' "$(printf '%065d' 0)" 1 3 1 32
refused 10 'the salt may have at most 64 bytes' "$(printf '%065d' 0)" 256 2 0 32
for time in 256 99999999999999999999; do
    refused 4 'the time cost may be at most 255, and with lanes not 0' saltsalt $time 3 1 32
done
for rows in 2 16385; do
    refused 5 'the number of rows has to be 3 to 16384' saltsalt 1 $rows 1 32
done
for columns in 0 257; do
    refused 6 'the number of columns has to be 1 to 256' saltsalt 1 3 $columns 32
done
head -c 1025 /dev/zero >"$work/password"
refused 2 'the password may have at most 1024 bytes' saltsalt 1 3 1 32

for arguments in '' 'saltsalt 1 3 1' 'saltsalt 1 3 1 32 1' 'saltsalt x 3 1 32' 'saltsalt 1 3 1 32x' 'saltsalt 1 -3 1 32'; do
    status=0
    # The words are the arguments.
    # shellcheck disable=SC2086
    "$work/example" $arguments <"$work/password" >"$work/out" 2>"$work/log" || status=$?
    same "status of '$arguments'" 2 "$status"
    grep -q '^usage: ' "$work/log" || { echo "no usage for '$arguments'"; exit 1; }
done

# ---- the example of a login line: the line, both answers, and each refusal in words
cc "${flags[@]}" examples/login_line.c "$library" -o "$work/login"
login() { # WHAT STATUS DUE PASSWORD ARGUMENT..
    local status=0 found
    found=$(printf '%s' "$4" | "$work/login" "${@:5}" 2>&1) || status=$?
    same "$1" "$3" "$found"
    same "status of $1" "$2" "$status"
}
line=$(cat examples/login_line.out)
login 'the line' 0 "$line" "$password" "${numbers[@]}"
printf '%s' "$password" | "$work/login" "${numbers[@]}" | cmp - examples/login_line.out
grep -qF "$line" docs/LINKING.md || { echo 'docs/LINKING.md does not show the line'; exit 1; }
printf '%s' "$line" >"$work/bare"
login 'a login' 0 yes "$password" examples/login_line.out
login 'a login without a newline' 0 yes "$password" "$work/bare"
login 'a wrong password' 1 no "$password " examples/login_line.out
login 'a password that is too long' 2 'refused 2: the password may have at most 1024 bytes' "$(printf '%01025d' 0)" examples/login_line.out
no_line='refused 11: the line is not of the form $lyra2$t=T,r=R,c=C$SALT$KEY'
for text in '' '\n' "$line\\n\\n" "$line\\r\\n" "${line/t=1/t=01}" "$line="; do
    printf '%b' "$text" >"$work/line"
    login "a login with '$text'" 2 "$no_line" "$password" "$work/line"
done
printf '%s\n' "${line/r=256/r=2}" >"$work/line"
login 'a line with two rows' 2 'refused 5: the number of rows has to be 3 to 16384' "$password" "$work/line"
# With a number of many digits a line is as long as the longest, and then a byte longer.
digits=$(printf '%0*d' $((1480 - ${#line})) 0)
printf '%s\n' "${line/t=1/t=1$digits}" >"$work/line"
login 'a line of 1480 bytes' 2 'refused 4: the time cost may be at most 255, and with lanes not 0' "$password" "$work/line"
printf '%s\n\n' "${line/t=1/t=1$digits}" >"$work/line"
login 'a line of 1480 bytes and two newlines' 2 'the file is longer than any line' "$password" "$work/line"
printf '%s\n' "${line/t=1/t=10$digits}" >"$work/line"
login 'a line of 1481 bytes' 2 'the file is longer than any line' "$password" "$work/line"
login 'a file without an end' 2 'the file is longer than any line' "$password" /dev/zero
login 'no file' 2 "the line's file cannot be opened" "$password" "$work/nothing"
login 'a folder' 2 "the line's file cannot be read" "$password" "$work"
login 'a salt that is too short' 2 'refused 3: the salt has to have at least 8 bytes' "$password" saltsal 1 3 1 32
login 'no key' 2 'refused 1: the key has to have 1 to 1024 bytes' "$password" saltsalt 1 3 1 0
longest=$(printf '%s' "$password" | "$work/login" "$(printf '%064d' 0)" 255 3 1 1024)
same 'bytes of a line with the longest salt and key' 1474 "${#longest}"
for arguments in '' 'saltsalt 1 3 1' 'saltsalt 1 3 1 32 1' 'saltsalt x 3 1 32' 'saltsalt 1 3 1 32x'; do
    status=0
    # The words are the arguments.
    # shellcheck disable=SC2086
    "$work/login" $arguments </dev/null >"$work/out" 2>"$work/log" || status=$?
    same "status of '$arguments'" 2 "$status"
    grep -q '^usage: ' "$work/log" || { echo "no usage for '$arguments'"; exit 1; }
done
status=0
printf '%s' "$password" | "$work/login" "${numbers[@]}" >/dev/full 2>"$work/log" || status=$?
same 'a line that cannot be written' 'the line cannot be written 2' "$(cat "$work/log") $status"

# ---- the example of a choice of costs: for all column counts, for some, and each refusal that it can meet
cc "${flags[@]}" examples/choose_costs.c "$library" -o "$work/choose"
choose() { # STATUS DUE ARGUMENT..
    local status=0 found
    found=$("$work/choose" "${@:3}" 2>&1) || status=$?
    same "the choice for ${*:3}" "$2" "$found"
    same "status of the choice for ${*:3}" "$1" "$status"
}
chosen=$(cat examples/choose_costs.out)
choose 0 "$chosen" 6291456 1000000
for tries in 4 256 18446744073709551615; do
    same "the choice of $tries column counts" "$(sed -n 1,2p <<<"$chosen")" "$("$work/choose" 6291456 1000000 $tries | sed -n 1,2p)"
done
while IFS= read -r shown; do
    grep -qF "    $shown" docs/LINKING.md || { echo "docs/LINKING.md does not show '$shown'"; exit 1; }
done <<<"$chosen"
choose 0 'time 19, rows 16384, columns 3
4718592 bytes of matrix, 983268 rounds
no others that fit have more than these cells and 16384 more' 6291456 1000000 3
choose 0 'time 255, rows 3, columns 1
288 bytes of matrix, 996 rounds
no others that fit have more than these cells and 0 more' 288 996 1
choose 1 'refused 15: at least one column count has to be tried' 288 996 0
choose 1 'refused 15: at least one column count has to be tried' 0 0 0
for limits in '287 996' '288 233' '0 0' '18446744073709551615 233'; do
    # The words are the arguments.
    # shellcheck disable=SC2086
    choose 1 'refused 16: no time cost from 1, rows and columns fit the matrix and the budget' $limits
done
for arguments in '' 288 '288 996 1 1' 'x 996' '288 996x' '-288 996' '288 996 x' '18446744073709551616 996'; do
    status=0
    # The words are the arguments.
    # shellcheck disable=SC2086
    "$work/choose" $arguments >"$work/out" 2>"$work/log" || status=$?
    same "status of '$arguments'" 2 "$status"
    grep -q '^usage: ' "$work/log" || { echo "no usage for '$arguments'"; exit 1; }
done

# ---- the example of a book: what it does one after the other, and each refusal of an account
cc "${flags[@]}" examples/account_book.c "$library" -o "$work/book"
book() { # WHAT STATUS DUE PASSWORD ARGUMENT..
    local status=0 found
    found=$(printf '%s' "$4" | "$work/book" "${@:5}" 2>&1) || status=$?
    same "$1" "$3" "$found"
    same "status of $1" "$2" "$status"
}
shown=$(cat examples/account_book.out)
book 'the book' 0 "$shown" "$password" "${numbers[@]}"
while IFS= read -r line; do
    grep -qF "    $line" docs/LINKING.md || { echo "docs/LINKING.md does not show '$line'"; exit 1; }
done <<<"$shown"
smaller=$(sed 's/\b62\b/23/g; s/\b124\b/46/g; s/time 1, rows 256, columns 64, salt of 16/time 0, rows 3, columns 1, salt of 8/; s/key of 32/key of 1/' <<<"$shown")
book 'the smallest accounts' 0 "$smaller" "$password" saltsalt 0 3 1 1
largest=$(sed 's/\b62\b/1102/g; s/\b124\b/2204/g; s/time 1, rows 256, columns 64, salt of 16/time 1, rows 3, columns 1, salt of 64/; s/key of 32/key of 1024/' <<<"$shown")
book 'the largest accounts' 0 "$largest" "$password" "$(printf '%064d' 0)" 1 3 1 1024
book 'a key of 0 bytes' 1 'refused 1: the key has to have 1 to 1024 bytes' "$password" saltsalt 1 3 1 0
book 'a long password' 1 'refused 2: the password may have at most 1024 bytes' "$(printf '%01025d' 0)" saltsalt 1 3 1 32
book 'no salt' 1 'refused 3: the salt has to have at least 8 bytes' "$password" '' 1 3 1 32
book 'a long salt' 1 'refused 10: the salt may have at most 64 bytes' "$password" "$(printf '%0100d' 0)" 1 3 1 32
book 'a large time' 1 'refused 4: the time cost may be at most 255, and with lanes not 0' "$password" saltsalt 256 3 1 32
book 'few rows' 1 'refused 5: the number of rows has to be 3 to 16384' "$password" saltsalt 1 2 1 32
book 'no columns' 1 'refused 6: the number of columns has to be 1 to 256' "$password" saltsalt 1 3 0 32
for arguments in '' 'saltsalt 1 3 1' 'saltsalt 1 3 1 32 1' 'saltsalt x 3 1 32' 'saltsalt 1 3 1 32x'; do
    status=0
    # The words are the arguments.
    # shellcheck disable=SC2086
    "$work/book" $arguments </dev/null >"$work/out" 2>"$work/log" || status=$?
    same "status of '$arguments'" 2 "$status"
    grep -q '^usage: ' "$work/log" || { echo "no usage for '$arguments'"; exit 1; }
done

# ---- the example of lanes: one number of them says yes, and each refusal
cc "${flags[@]}" examples/lanes.c "$library" -o "$work/lanes"
lanes() { # STATUS DUE PASSWORD ARGUMENT..
    local status=0 found
    found=$(printf '%s' "$3" | "$work/lanes" "${@:4}" 2>&1) || status=$?
    same "the lanes of ${*:4}" "$2" "$found"
    same "status of the lanes of ${*:4}" "$1" "$status"
}
shown=$(cat examples/lanes.out)
lanes 0 "$shown" "$password" 'salt of 16 bytes' 1 256 64 4 32
same 'answers of the example of lanes' 'lanes 1: no
lanes 2: no
lanes 4: yes
lanes 8: no
the single sponge: no' "$(tail -n 5 examples/lanes.out)"
while IFS= read -r line; do
    grep -qF "    $line" docs/LINKING.md || { echo "docs/LINKING.md does not show '$line'"; exit 1; }
done <<<"$shown"
for number in 1 2 3 4 6 8; do
    found=$(printf '%s' "$password" | "$work/lanes" saltsalt 1 48 3 $number 32)
    same "answers to the key of $number lanes" "lanes 1: no
lanes 2: no
lanes 3: no
lanes 4: no
lanes 6: no
lanes 8: no
the single sponge: no" "$(sed "1,2d; s/^lanes $number: yes$/lanes $number: no/" <<<"$found")"
    grep -qx "lanes $number: yes" <<<"$found" || { echo "$number lanes do not find their key"; exit 1; }
done
lanes 1 'refused 1: the key has to have 1 to 1024 bytes' "$password" saltsalt 0 2 0 0 0
lanes 1 'refused 2: the password may have at most 1024 bytes' "$(printf '%01025d' 0)" saltsalt 0 2 0 0 32
lanes 1 'refused 3: the salt has to have at least 8 bytes' "$password" saltsal 0 2 0 0 32
lanes 1 'refused 10: the salt may have at most 64 bytes' "$password" "$(printf '%065d' 0)" 0 2 0 0 32
for time in 0 256; do
    lanes 1 'refused 4: the time cost may be at most 255, and with lanes not 0' "$password" saltsalt $time 2 0 0 32
done
lanes 1 'refused 5: the number of rows has to be 3 to 16384' "$password" saltsalt 1 2 0 0 32
lanes 1 'refused 6: the number of columns has to be 1 to 256' "$password" saltsalt 1 3 0 0 32
for shared in '3 1' '4 0' '6 2' '8 4' '9 3' '10 2' '36 9' '4 18446744073709551615'; do
    lanes 1 'refused 20: the lanes have to be 1 to 8, the rows a multiple of 2 * lanes from 4 * lanes on' \
        "$password" saltsalt 1 "${shared% *}" 1 "${shared#* }" 32
done
for arguments in '' 'saltsalt 1 4 1 1' 'saltsalt 1 4 1 1 32 1' 'saltsalt 1 4 1 x 32' 'saltsalt 1 4 1 -1 32'; do
    status=0
    # The words are the arguments.
    # shellcheck disable=SC2086
    "$work/lanes" $arguments </dev/null >"$work/out" 2>"$work/log" || status=$?
    same "status of '$arguments'" 2 "$status"
    grep -q '^usage: ' "$work/log" || { echo "no usage for '$arguments'"; exit 1; }
done
echo "the C examples print the key $key, its login line, a choice of costs, a book's accounts and a key of lanes, and refuse with their sentences"
