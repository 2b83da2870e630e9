#!/usr/bin/env bash
# The C interface from C: what the archive exports and needs, the header's limits, the refusals in pairs, visit records, login
# lines, choices of costs, books of accounts, several lanes, the stack, what is left on it, and the vectors; and wrong headers,
# wrong vectors and faulty libraries, which these tests have to find.
set -eu
cd "$(dirname "$0")/.."
. tests/c/build.sh

# ---- the archive: seventeen functions, nothing needed from elsewhere, no section to write in
names=$(nm -g --defined-only "$library" 2>"$work/log" | sed -n 's/^[0-9a-f]* //p' | sort | tr '\n' ' ')
same 'exported names' "$(printf 'T lyra2_%s ' book_{account,add,check,find,remove} check choose cost derive derive_recorded \
    lanes_{check,cost,derive} line_read line_write record_pair walk)" "$names"
nm -u "$library" >"$work/undefined" 2>"$work/log"
same 'names from elsewhere' '' "$(sed -n 's/^ *[Uwv] //p' "$work/undefined")"
readelf -SW "$library" >"$work/sections"
grep -q ' AX ' "$work/sections" || { echo 'readelf shows no code'; exit 1; }
same 'sections to write in' '' "$(grep -E ' (WA|WAT|AW)[A-Z]* ' "$work/sections" || true)"

# ---- the programs
compile limits refusals records lines choosing triples books book_refusals book_changes long_books lanes lane_refusals stack \
    left left_lines left_books left_lanes marked vectors vector_books vector_lanes fields calls line_calls choice_calls \
    book_calls book_due book_model lane_calls lane_model lent
cc "${flags[@]}" "$work"/{limits,calls,lent}.o "$library" -o "$work/limits"
cc "${flags[@]}" "$work"/{refusals,calls,lent}.o "$library" -o "$work/refusals"
cc "${flags[@]}" "$work"/{records,calls,lent}.o "$library" -o "$work/records"
cc "${flags[@]}" "$work"/{lines,calls,line_calls,lent}.o "$library" -o "$work/lines"
cc "${flags[@]}" "$work"/{choosing,calls,choice_calls,lent}.o "$library" -o "$work/choosing"
cc "${flags[@]}" "$work"/{triples,calls,choice_calls,lent}.o "$library" -o "$work/triples"
for program in books book_refusals book_changes long_books; do
    cc "${flags[@]}" "$work"/{$program,book_due,book_calls,book_model,calls,lent}.o "$library" -o "$work/$program"
done
for program in lanes lane_refusals; do
    cc "${flags[@]}" "$work"/{$program,lane_calls,lane_model,calls,lent}.o "$library" -o "$work/$program"
done
cc "${flags[@]}" "$work"/{stack,marked,lent}.o "$library" -o "$work/stack"
cc "${flags[@]}" "$work"/{left,marked,calls,lent}.o "$library" -o "$work/left"
cc "${flags[@]}" "$work"/{left_lines,marked,lent}.o "$library" -o "$work/left_lines"
cc "${flags[@]}" "$work"/{left_books,book_model,marked,lent}.o "$library" -o "$work/left_books"
cc "${flags[@]}" "$work"/{left_lanes,lane_model,marked,lent}.o "$library" -o "$work/left_lanes"
vector_parts='vector_books vector_lanes fields calls line_calls choice_calls book_calls book_model lane_calls lane_model'
cc "${flags[@]}" $(printf "$work/%s.o " vectors $vector_parts lent) "$library" -o "$work/vectors"
"$work/limits"
"$work/refusals"
"$work/records"
"$work/lines"
"$work/choosing"
"$work/triples"
"$work/books"
"$work/book_refusals"
"$work/book_changes"
"$work/long_books"
"$work/lanes"
"$work/lane_refusals"
"$work/stack"
"$work/left"
"$work/left_lines"
"$work/left_books"
"$work/left_lanes"
"$work/vectors" vectors/lyra2.txt >"$work/ran"
cat "$work/ran"

# Every line of the file was put to the library, as grep counts them.
for op in derive_recorded derive check cost choose walk line_read line_write book_{find,add,remove,check,account} \
    lanes_{derive,check,cost}; do
    lines=$(grep -c " op=$op " vectors/lyra2.txt)
    grep -qE " $lines $op( lines|,)" "$work/ran" || { echo "not all $lines lines of $op were run"; exit 1; }
done

# An answer that nobody looks at is warned of.
warned() { # FOLDER
    cc -std=c99 -I"$1" -c tests/c/careless.c -o "$work/careless.o" 2>&1 | grep -c 'Wunused-result'
}
same 'warnings of ignored answers' 15 "$(warned include)"

# ---- wrong headers: a constant, a sentence or a declaration changed. The usual settings are those of lines that have none.
grep ' op=derive .* refusal=0 ' vectors/lyra2.txt | grep -vE ' (rho|omega|mixer)=' | sed -n 1,5p >"$work/few"
mkdir "$work/include"
# Whether a test fails with the header in $work/include; what it says is in the log. The tests of books or lanes go first where
# the edit is about them, which saves time.
is_noticed() { # EDIT
    local name parts=() others=(limits records line_calls lines choice_calls choosing)
    local books=(book_model book_calls book_due books book_refusals) lanes=(lane_model lane_calls lane_refusals lanes) order
    case $1 in
    *[Bb][Oo][Oo][Kk]* | *ACCOUNT*) order=("${books[@]}" "${others[@]}" "${lanes[@]}") ;;
    *[Ll][Aa][Nn][Ee]*) order=("${lanes[@]}" "${others[@]}" "${books[@]}") ;;
    *) order=("${others[@]}" "${books[@]}" "${lanes[@]}") ;;
    esac
    for name in calls "${order[@]}" vector_books vector_lanes vectors; do
        cc -std=c99 -Werror=int-conversion -Werror=incompatible-pointer-types -I"$work/include" \
            -c "tests/c/$name.c" -o "$work/include/$name.o" >"$work/log" 2>&1 || return 0
        case $name in
        *calls | *_model | book_due | vector_lanes) parts+=("$work/include/$name.o") ;;
        vector_books) parts+=("$work"/{include/vector_books,fields}.o) ;;
        *)
            cc "$work/include/$name.o" "${parts[@]}" "$work/lent.o" "$library" -o "$work/wrong" || exit 1
            "$work/wrong" "$work/few" >"$work/log" 2>&1 || return 0
            ;;
        esac
    done
    [ "$(warned "$work/include")" != 15 ] || return 1
    echo 'FAILED: an answer may be ignored' >"$work/log"
}
headers=0
while read -r edit; do
    sed "$edit" include/lyra2.h >"$work/include/lyra2.h"
    ! cmp -s include/lyra2.h "$work/include/lyra2.h" || { echo "no header to spoil: $edit"; exit 1; }
    is_noticed "$edit" || { echo "a wrong header passes: $edit"; exit 1; }
    grep -qE '^FAILED: |: error: (too (many|few) arguments to function|passing argument [0-9]+ of)' "$work/log" \
        || { cat "$work/log"; exit 1; }
    headers=$((headers + 1))
done <<'END'
s/KEY_MIN 1/KEY_MIN 2/
s/KEY_MAX 1024/KEY_MAX 1023/
s/PASSWORD_MAX 1024/PASSWORD_MAX 1025/
s/SALT_MIN 8/SALT_MIN 9/
s/SALT_MAX 64/SALT_MAX 65/
s/TIME_MIN 0/TIME_MIN 1/
s/TIME_MAX 255/TIME_MAX 256/
s/ROWS_MIN 3/ROWS_MIN 2/
s/ROWS_MAX 16384/ROWS_MAX 16383/
s/COLUMNS_MIN 1/COLUMNS_MIN 2/
s/COLUMNS_MAX 256/COLUMNS_MAX 255/
s/ROW0_MIN 3/ROW0_MIN 4/
s/ROUNDS_MIN 1/ROUNDS_MIN 0/
s/ROUNDS_MIN 1/ROUNDS_MIN 2/
s/ROUNDS_MAX 12/ROUNDS_MAX 11/
s/ROUNDS_MAX 12/ROUNDS_MAX 13/
s/ROUNDS_USUAL 1/ROUNDS_USUAL 2/
s/ROTATION_MIN 1/ROTATION_MIN 0/
s/ROTATION_MIN 1/ROTATION_MIN 2/
s/ROTATION_MAX 11/ROTATION_MAX 10/
s/ROTATION_MAX 11/ROTATION_MAX 12/
s/ROTATION_USUAL 2/ROTATION_USUAL 1/
s/MIXER_PLAIN false/MIXER_PLAIN true/
s/MIXER_BLAMKA true/MIXER_BLAMKA false/
s/MIXER_PLAIN false/MIXER_PLAIN true/; s/MIXER_BLAMKA true/MIXER_BLAMKA false/
s/MIXER_USUAL LYRA2_MIXER_PLAIN/MIXER_USUAL LYRA2_MIXER_BLAMKA/
s/, bool mixer,/,/
/ lyra2_derive(/,/;/s/, bool mixer,/,/
/ lyra2_derive_recorded(/,/;/s/, bool mixer,/,/
/ lyra2_check(/,/;/s/, bool mixer,/,/
s/size_t rotation, bool mixer,/bool mixer, size_t rotation,/
/ lyra2_derive(/,/;/s/size_t rotation, bool mixer,/bool mixer, size_t rotation,/
/ lyra2_derive_recorded(/,/;/s/size_t rotation, bool mixer,/bool mixer, size_t rotation,/
/ lyra2_check(/,/;/s/size_t rotation, bool mixer,/bool mixer, size_t rotation,/
s/size_t rounds, size_t rotation, bool mixer,/bool mixer, size_t rounds, size_t rotation,/
s/bool mixer,/uint8_t mixer,/
s/bool mixer,/uint32_t mixer,/
s/bool mixer,/size_t mixer,/
/ lyra2_derive(/,/;/s/bool mixer,/size_t mixer,/
/ lyra2_derive_recorded(/,/;/s/bool mixer,/size_t mixer,/
/ lyra2_check(/,/;/s/bool mixer,/size_t mixer,/
s/CELL_WORDS 12/CELL_WORDS 11/
s/(columns) + 1)/(columns))/
s/(columns) + 1)/(columns) + 2)/
s/(columns) + 1)/2 * (columns) + 2)/
/e LYRA2_RECORD_WORDS/s/LYRA2_VISIT_WORDS(columns)/(2 * (columns) + 2)/
/e LYRA2_VISIT_WORDS/s/(columns) + 1)/2 * (columns) + 2)/; /e LYRA2_RECORD_WORDS/s/LYRA2_VISIT_WORDS(columns)/((columns) + 1)/
s/record_pair(uint64_t word/record_pair(uint32_t word/
s/REFUSED_ROWS = 5/REFUSED_ROWS = 6/; s/REFUSED_COLUMNS = 6/REFUSED_COLUMNS = 5/
s/TOO_SHORT = 3/TOO_SHORT = 10/; s/TOO_LONG = 10/TOO_LONG = 3/
s/at least 8 bytes/at least 9 bytes/
s/at most 64 bytes/at most 65 bytes/
s/REFUSED_ROUNDS = 13/REFUSED_ROUNDS = 14/; s/REFUSED_ROTATION = 14/REFUSED_ROTATION = 13/
s/REFUSED_ROTATION = 14/REFUSED_ROTATION = 99/
s/1 to 12 rounds/1 to 13 rounds/
s/1 to 11 words/1 to 10 words/
s/1 to 11 words/2 to 11 words/
s/LINE_MAX 1480/LINE_MAX 1479/
s/LINE_MAX 1480/LINE_MAX 1481/
s/LINE_VALUES 5/LINE_VALUES 4/
s/LINE_VALUES 5/LINE_VALUES 6/
s/LINE_TIME 0/LINE_TIME 1/; s/LINE_ROWS 1/LINE_ROWS 0/
s/LINE_TIME 0/LINE_TIME 2/; s/LINE_COLUMNS 2/LINE_COLUMNS 0/
s/LINE_ROWS 1/LINE_ROWS 2/; s/LINE_COLUMNS 2/LINE_COLUMNS 1/
s/LINE_SALT_LEN 3/LINE_SALT_LEN 4/; s/LINE_KEY_LEN 4/LINE_KEY_LEN 3/
s/REFUSED_LINE = 11/REFUSED_LINE = 12/; s/REFUSED_OUTPUT = 12/REFUSED_OUTPUT = 11/
s/REFUSED_OUTPUT = 12/REFUSED_OUTPUT = 13/; s/REFUSED_ROUNDS = 13/REFUSED_ROUNDS = 12/
s/form [$]lyra2[$]t=T,r=R,c=C/form $lyra2$t=T,c=C,r=R/
s/a lent output is too short/a lent output is too long/
s/a lent output is too short/the line is not of the form $lyra2$t=T,r=R,c=C$SALT$KEY/
s/CHOICE_VALUES 4/CHOICE_VALUES 3/
s/CHOICE_VALUES 4/CHOICE_VALUES 5/
s/CHOICE_TIME 0/CHOICE_TIME 1/; s/CHOICE_ROWS 1/CHOICE_ROWS 0/
s/CHOICE_ROWS 1/CHOICE_ROWS 2/; s/CHOICE_COLUMNS 2/CHOICE_COLUMNS 1/
s/CHOICE_COLUMNS 2/CHOICE_COLUMNS 3/; s/CHOICE_SHORTFALL 3/CHOICE_SHORTFALL 2/
s/CHOICE_TIME 0/CHOICE_TIME 3/; s/CHOICE_SHORTFALL 3/CHOICE_SHORTFALL 0/
s/REFUSED_TRIES = 15/REFUSED_TRIES = 16/; s/REFUSED_NOTHING_FITS = 16/REFUSED_NOTHING_FITS = 15/
s/REFUSED_ROTATION = 14/REFUSED_ROTATION = 15/; s/REFUSED_TRIES = 15/REFUSED_TRIES = 14/
s/REFUSED_NOTHING_FITS = 16/REFUSED_NOTHING_FITS = 99/
s/at least one column count/at least two column counts/
s/fit the matrix and the budget/fit the matrix/
s/at least one column count has to be tried/no time cost from 1, rows and columns fit the matrix and the budget/
/ lyra2_choose(/,/;/s/ size_t salt_len,//
/ lyra2_choose(/,/;/s/ size_t rounds,//
/ lyra2_choose(/,/;/s/ size_t tries,//
/ lyra2_choose(/,/;/s/size_t rounds,/size_t rounds, size_t rotation,/
/ lyra2_choose(/,/;/{ s/size_t tries,/size_t *tries,/; s/values[[].*[]]/values/ }
/ lyra2_choose(/,/;/s/size_t values/uint32_t values/
/ lyra2_choose(/,/;/s/size_t key_len/uint16_t key_len/
/ lyra2_choose(/,/;/s/size_t password_len/uint32_t password_len/
/ lyra2_choose(/,/;/s/size_t salt_len/uint8_t salt_len/
/ lyra2_choose(/,/;/s/size_t matrix_words/uint32_t matrix_words/
/ lyra2_choose(/,/;/s/uint64_t budget/uint32_t budget/
/ lyra2_choose(/,/;/s/size_t rounds/uint8_t rounds/
/ lyra2_choose(/,/;/s/size_t tries/uint8_t tries/
/ lyra2_choose(/,/;/s/size_t tries/uint32_t tries/
s/LYRA2_ANSWER uint32_t lyra2_choose/uint32_t lyra2_choose/
s/ACCOUNT_MARK "AC"/ACCOUNT_MARK "CA"/
s/ACCOUNT_MARK "AC"/ACCOUNT_MARK "Ac"/
s/ACCOUNT_HEAD 14/ACCOUNT_HEAD 13/
s/ACCOUNT_HEAD 14/ACCOUNT_HEAD 15/
s/ACCOUNT_HEAD + (salt_len) + (key_len)/ACCOUNT_HEAD + (salt_len)/
s/ACCOUNT_HEAD + (salt_len) + (key_len)/ACCOUNT_HEAD + (key_len)/
s/ACCOUNT_MAX 1102/ACCOUNT_MAX 1101/
s/ACCOUNT_MAX 1102/ACCOUNT_MAX 1103/
s/ACCOUNT_VALUES 6/ACCOUNT_VALUES 5/
s/ACCOUNT_VALUES 6/ACCOUNT_VALUES 7/
s/ACCOUNT_NUMBER 0/ACCOUNT_NUMBER 1/; s/ACCOUNT_TIME 1/ACCOUNT_TIME 0/
s/ACCOUNT_TIME 1/ACCOUNT_TIME 2/; s/ACCOUNT_ROWS 2/ACCOUNT_ROWS 1/
s/ACCOUNT_ROWS 2/ACCOUNT_ROWS 3/; s/ACCOUNT_COLUMNS 3/ACCOUNT_COLUMNS 2/
s/ACCOUNT_COLUMNS 3/ACCOUNT_COLUMNS 4/; s/ACCOUNT_SALT_LEN 4/ACCOUNT_SALT_LEN 3/
s/ACCOUNT_SALT_LEN 4/ACCOUNT_SALT_LEN 5/; s/ACCOUNT_KEY_LEN 5/ACCOUNT_KEY_LEN 4/
s/REFUSED_NOTHING_FITS = 16/REFUSED_NOTHING_FITS = 17/; s/REFUSED_BOOK = 17/REFUSED_BOOK = 16/
s/REFUSED_BOOK = 17/REFUSED_BOOK = 18/; s/REFUSED_NO_ACCOUNT = 18/REFUSED_NO_ACCOUNT = 17/
s/REFUSED_NO_ACCOUNT = 18/REFUSED_NO_ACCOUNT = 19/; s/REFUSED_BOOK_FULL = 19/REFUSED_BOOK_FULL = 18/
s/REFUSED_BOOK = 17/REFUSED_BOOK = 99/
s/REFUSED_NO_ACCOUNT = 18/REFUSED_NO_ACCOUNT = 99/
s/REFUSED_BOOK_FULL = 19/REFUSED_BOOK_FULL = 99/
s/whole accounts within the limits, no number twice/whole accounts within the limits/
s/the book has no account of this number/the book has no room for the account/
s/the book has no room for the account/the book has no account of this number/
/ lyra2_book_find(/,/;/s/, size_t used,/,/
/ lyra2_book_find(/,/;/s/size_t used/uint32_t used/
/ lyra2_book_find(/,/;/s/size_t book_len/uint8_t book_len/
/ lyra2_book_find(/,/;/s/uint32_t number/uint16_t number/
/ lyra2_book_find(/,/;/{ s/size_t used,$/uint32_t number,/; s/^    uint32_t number,$/    size_t used,/ }
/ lyra2_book_find(/,/;/s/size_t [*]place/uint32_t *place/
/ lyra2_book_add(/,/;/s/, size_t columns,/,/
/ lyra2_book_add(/,/;/s/size_t time, /size_t time, size_t rounds, /
/ lyra2_book_add(/,/;/s/size_t used,/uint32_t used,/
/ lyra2_book_add(/,/;/s/size_t book_len/uint8_t book_len/
/ lyra2_book_add(/,/;/s/uint32_t number/uint8_t number/
/ lyra2_book_add(/,/;/s/size_t time/uint8_t time/
/ lyra2_book_add(/,/;/s/size_t rows/uint16_t rows/
/ lyra2_book_add(/,/;/s/size_t columns/uint16_t columns/
/ lyra2_book_add(/,/;/s/size_t salt_len/uint8_t salt_len/
/ lyra2_book_add(/,/;/s/size_t key_len/uint8_t key_len/
/ lyra2_book_add(/,/;/{ s/size_t used,$/uint32_t number,/; s/^    uint32_t number,$/    size_t used,/ }
/ lyra2_book_add(/,/;/s/size_t [*]used_after/uint32_t *used_after/
/ lyra2_book_remove(/,/;/s/, size_t used,/,/
/ lyra2_book_remove(/,/;/s/size_t used/uint32_t used/
/ lyra2_book_remove(/,/;/s/size_t book_len/uint8_t book_len/
/ lyra2_book_remove(/,/;/s/uint32_t number/uint16_t number/
/ lyra2_book_remove(/,/;/s/size_t [*]used_after/uint32_t *used_after/
/ lyra2_book_check(/,/;/s/, size_t used,/,/
/ lyra2_book_check(/,/;/s/size_t used/uint32_t used/
/ lyra2_book_check(/,/;/s/size_t password_len/uint8_t password_len/
/ lyra2_book_check(/,/;/s/size_t book_len/uint8_t book_len/
/ lyra2_book_check(/,/;/s/uint32_t number/uint16_t number/
/ lyra2_book_check(/,/;/s/size_t matrix_words/uint8_t matrix_words/
/ lyra2_book_check(/,/;/s/uint32_t [*]same/uint64_t *same/
/ lyra2_book_check(/,/;/s/uint64_t counts/uint32_t counts/
/ lyra2_book_account(/,/;/s/, size_t place,/,/
/ lyra2_book_account(/,/;/s/size_t place/uint32_t place/
/ lyra2_book_account(/,/;/s/size_t book_len/uint8_t book_len/
/ lyra2_book_account(/,/;/s/size_t values/uint32_t values/
s/^size_t lyra2_book_account/uint8_t lyra2_book_account/
s/LYRA2_ANSWER uint32_t lyra2_book_find/uint32_t lyra2_book_find/
s/LYRA2_ANSWER uint32_t lyra2_book_add/uint32_t lyra2_book_add/
s/LYRA2_ANSWER uint32_t lyra2_book_remove/uint32_t lyra2_book_remove/
s/LYRA2_ANSWER uint32_t lyra2_book_check/uint32_t lyra2_book_check/
s/LANES_MIN 1/LANES_MIN 0/
s/LANES_MIN 1/LANES_MIN 2/
s/LANES_MAX 8/LANES_MAX 7/
s/LANES_MAX 8/LANES_MAX 9/
s/LANES_TIME_MIN 1/LANES_TIME_MIN 0/
s/LANES_TIME_MIN 1/LANES_TIME_MIN 2/
s/LANE_ROWS_MIN 4/LANE_ROWS_MIN 2/
s/LANE_ROWS_MIN 4/LANE_ROWS_MIN 3/
s/LANE_ROWS_MIN 4/LANE_ROWS_MIN 6/
s/REFUSED_BOOK_FULL = 19/REFUSED_BOOK_FULL = 20/; s/REFUSED_LANES = 20/REFUSED_LANES = 19/
s/REFUSED_LANES = 20/REFUSED_LANES = 99/
s/the lanes have to be 1 to 8/the lanes have to be 1 to 9/
s/from 4 [*] lanes on/from 2 * lanes on/
s/a multiple of 2 [*] lanes from/a multiple of the lanes from/
s/, and with lanes not 0//
/ lyra2_lanes_derive(/,/;/s/, size_t lanes,/,/
/ lyra2_lanes_derive(/,/;/s/size_t lanes,/size_t lanes, size_t rounds,/
/ lyra2_lanes_derive(/,/;/s/size_t password_len/uint8_t password_len/
/ lyra2_lanes_derive(/,/;/s/size_t salt_len/uint8_t salt_len/
/ lyra2_lanes_derive(/,/;/s/size_t time/uint8_t time/
/ lyra2_lanes_derive(/,/;/s/size_t rows/uint16_t rows/
/ lyra2_lanes_derive(/,/;/s/size_t columns/uint16_t columns/
/ lyra2_lanes_derive(/,/;/s/size_t lanes/uint8_t lanes/
/ lyra2_lanes_derive(/,/;/s/size_t lanes/uint16_t lanes/
/ lyra2_lanes_derive(/,/;/s/size_t key_len/uint8_t key_len/
/ lyra2_lanes_derive(/,/;/s/size_t matrix_words/uint16_t matrix_words/
/ lyra2_lanes_derive(/,/;/s/uint64_t counts/uint32_t counts/
/ lyra2_lanes_check(/,/;/s/, size_t lanes,/,/
/ lyra2_lanes_check(/,/;/s/size_t lanes,/size_t lanes, size_t rounds,/
/ lyra2_lanes_check(/,/;/s/size_t password_len/uint8_t password_len/
/ lyra2_lanes_check(/,/;/s/size_t salt_len/uint8_t salt_len/
/ lyra2_lanes_check(/,/;/s/size_t time/uint8_t time/
/ lyra2_lanes_check(/,/;/s/size_t rows/uint16_t rows/
/ lyra2_lanes_check(/,/;/s/size_t columns/uint16_t columns/
/ lyra2_lanes_check(/,/;/s/size_t lanes/uint8_t lanes/
/ lyra2_lanes_check(/,/;/s/size_t lanes/uint16_t lanes/
/ lyra2_lanes_check(/,/;/s/size_t stored_len/uint8_t stored_len/
/ lyra2_lanes_check(/,/;/s/size_t matrix_words/uint16_t matrix_words/
/ lyra2_lanes_check(/,/;/s/uint32_t [*]same/uint64_t *same/
/ lyra2_lanes_check(/,/;/s/uint64_t counts/uint32_t counts/
/ lyra2_lanes_cost(/,/;/s/, size_t lanes,/,/
/ lyra2_lanes_cost(/,/;/s/size_t key_len/uint16_t key_len/
/ lyra2_lanes_cost(/,/;/s/size_t password_len/uint16_t password_len/
/ lyra2_lanes_cost(/,/;/s/size_t salt_len/uint8_t salt_len/
/ lyra2_lanes_cost(/,/;/s/size_t time/uint8_t time/
/ lyra2_lanes_cost(/,/;/s/size_t rows/uint16_t rows/
/ lyra2_lanes_cost(/,/;/s/size_t columns/uint16_t columns/
/ lyra2_lanes_cost(/,/;/s/size_t lanes/uint8_t lanes/
/ lyra2_lanes_cost(/,/;/s/uint64_t counts/uint32_t counts/
s/LYRA2_ANSWER uint32_t lyra2_lanes_derive/uint32_t lyra2_lanes_derive/
s/LYRA2_ANSWER uint32_t lyra2_lanes_check/uint32_t lyra2_lanes_check/
s/LYRA2_ANSWER uint32_t lyra2_lanes_cost/uint32_t lyra2_lanes_cost/
s/__attribute__((warn_unused_result))//
END

# ---- wrong vectors: the first accepted line of an operation with one field spoilt
wrong=0
for spoilt in derive_recorded:{key,state,full,reduced,rounds,matrix_sum,record_sum,matrix,record,rho,omega,mixer} \
    derive:{key,matrix_sum,rho,omega,mixer} check:{answer,matrix_sum,full,rho,omega,mixer} cost:{full,rounds,rho} \
    choose:{T,R,C,shortfall,rho,matrix_words} walk:row1 line_read:{T,R,C,salt,key} line_write:line book_find:{place,number} \
    book_add:{used_after,book_after,R,key} book_remove:{used_after,book_after,number} \
    book_check:{answer,full,reduced,rounds,matrix_sum,password} book_account:{size,number,T,R,C,salt_len,key_len,place} \
    lanes_derive:{key,full,reduced,rounds,matrix_sum,T,R,C,p} lanes_check:{answer,full,reduced,rounds,matrix_sum,T,R,C,p} \
    lanes_cost:{full,reduced,rounds,T,R,C,p}; do
    field=${spoilt#*:}
    line=$(grep " op=${spoilt%:*} .* refusal=0 " vectors/lyra2.txt | grep " $field=" | grep -v " answer=no " | sed -n 1p)
    changed=$(sed -E "s/ $field=yes/ $field=NO/; s/ $field=no/ $field=yes/; s/ $field=NO/ $field=no/
        s/ $field=blamka/ $field=plain/; t
        s/( $field=[^ ]*)0( |\$)/\11\2/; t; s/( $field=[^ ]*)[1-9a-f]( |\$)/\10\2/" <<<"$line")
    [ -n "$line" ] && [ "$line" != "$changed" ] || { echo "no line to spoil for $spoilt"; exit 1; }
    printf '%s\n' "$changed" >"$work/wrong"
    ! "$work/vectors" "$work/wrong" >"$work/log" 2>&1 || { echo "a wrong $field of ${spoilt%:*} passes"; exit 1; }
    grep -q '^FAILED: case' "$work/log" || { cat "$work/log"; exit 1; }
    wrong=$((wrong + 1))
done

# ---- faulty libraries
build_faulty() { # FAULT PROGRAM
    compile_fault "$1"
    local parts=calls
    case $2 in
    vectors) parts=$vector_parts ;;
    lane*) parts='calls lane_calls lane_model' ;;
    *book*) parts='calls book_due book_calls book_model' ;;
    lines) parts='calls line_calls' ;;
    choosing | triples) parts='calls choice_calls' ;;
    esac
    cc "$wrapped" "$work/$2.o" $(printf "$work/%s.o " $parts lent) "${faulty[@]}" "$library" -o "$work/faulty" || exit 1
}
is_found() { # FAULT PROGRAM..
    local program
    for program in "${@:2}"; do
        build_faulty "$1" $program
        "$work/faulty" "$work/small" >"$work/log" 2>&1 || { grep -q "^FAILED: " "$work/log"; return; }
    done
    return 1
}
# Where all operations take one mixer for the other they agree with one another, and the vectors alone tell. The lines of
# choices and of books are for the library without a fault, which makes them by itself.
grep -E ' op=(choose|book_[a-z]+) | op=(derive|derive_recorded|check) .* rho=.* matrix_words=[0-9]{1,3} ' vectors/lyra2.txt >"$work/small"
grep -E ' op=lanes_derive .* matrix_words=[0-9]{1,3} ' vectors/lyra2.txt >"$work/small_lanes"
for program in limits refusals records vectors lines choosing triples books book_refusals book_changes long_books lanes \
    lane_refusals; do
    build_faulty 0 $program
    "$work/faulty" "$work/small" >"$work/log" 2>&1 || { cat "$work/log"; echo 'the wrapped library without a fault fails'; exit 1; }
done
found=0
# From 200 on in the settings of the plain derivation, the recorded one, the check, the cost question, and all of them; from
# 400 on in the record's room, in its words and in their decoder. Two rows that are exchanged the vectors alone tell.
for fault in {1..54} {200..227} {240..267} {280..307} 323 324 327 340 345 346 {360..387} {401..403} {411..423} {431..440}; do
    is_found "$fault" limits refusals records vectors || { echo "fault $fault is not found"; exit 1; }
    found=$((found + 1))
done
for fault in {101..128} {131..142}; do
    is_found "$fault" lines || { echo "fault $fault is not found"; exit 1; }
    found=$((found + 1))
done

# Those of choices, and what is said of each. The searches know the rule by themselves and find what is wrong in it, but for
# cut numbers that they do not ask about.
while read -r fault words; do
    is_found "$fault" choosing || { echo "fault $fault is not found"; exit 1; }
    grep -q "^FAILED: $words" "$work/log" || { cat "$work/log"; echo "fault $fault is found for another reason"; exit 1; }
    case $fault in
    5* | 613 | 617 | 640) ;;
    *) is_found "$fault" triples || { echo "fault $fault is not found by searching"; exit 1; } ;;
    esac
    found=$((found + 1))
done <<'END'
501 values: place 0 was not written
502 values: place 0 was not written
503 values: place 1 was not written
504 values: place 2 was not written
505 values: place 3 was not written
506 choose, full calls: R is 1, where 3 is due
507 choose, full calls: R is 1, where 3 is due
508 choose, full calls: C is 0, where 1 is due
509 choose, full calls: R is 1, where 3 is due
510 values: changed about byte 32,
511 values: changed about byte -8,
512 choose, full calls: R is [0-9]*, where 3 is due
513 values: byte 0 is .., where 0 is due
514 values: byte 0 is .., where 0 is due
515 values: byte 24 is .., where 0 is due
516 values: byte 24 is .., where 0 is due
521 choose, full calls: the answer is 15, where 16 is due
522 choose, two refusals: the answer is 16, where 15 is due
523 choose, two refusals: the answer is 15, where 13 is due
524 choose, two refusals: the answer is 16, where 13 is due
525 choose, two refusals: the answer is 13, where 1 is due
526 choose, two refusals: the answer is 15, where 1 is due
527 choose, two refusals: the answer is 16, where 1 is due
528 choose, one refusal: the answer is 0, where 15 is due
529 choose, other columns passed over: the answer is 15, where 0 is due
530 choose, words of the matrix: the answer is 7, where 16 is due
531 choose, one refusal: the answer is 3, where 10 is due
532 choose, one refusal: the answer is 0, where 1 is due: key 0,
533 choose, one refusal: the answer is 0, where 1 is due: key 1025,
534 choose, one refusal: the answer is 0, where 2 is due: key 32, password 1025,
535 choose, one refusal: the answer is 0, where 3 is due: key 32, password 31, salt 7,
536 choose, one refusal: the answer is 0, where 10 is due: key 32, password 31, salt 65,
537 choose, one refusal: the answer is 0, where 13 is due: .* rounds 0,
538 choose, one refusal: the answer is 0, where 13 is due: .* rounds 13,
539 choose, T inside the budget: the answer is 13, where 0 is due
551 choose, full calls: the answer is 16, where 0 is due
552 choose, full calls: the answer is 3, where 0 is due
553 choose, full calls: the answer is 16, where 0 is due
554 choose, T inside the budget: T is 5, where 2 is due
555 choose, a number at its limit: the answer is 0, where 1 is due: key 4294967297,
556 choose, a number at its limit: the answer is 0, where 13 is due: .* rounds 4294967297,
601 choose, full calls: T is 5, where 1 is due: key 1,
602 choose, full calls: T is 5, where 1 is due: key 1,
603 choose, full calls: T is 5, where 1 is due: key 1,
604 choose, full calls: T is 5, where 1 is due: key 32, password 0, salt 40,
605 choose, full calls: T is 5, where 1 is due: key 32, password 0, salt 40,
606 choose, full calls: T is 5, where 1 is due: key 32, password 0, salt 40,
607 choose, full calls: T is 8, where 1 is due: key 1,
608 choose, full calls: T is 8, where 1 is due: key 1,
609 choose, full calls: the answer is 16, where 0 is due: key 96,
611 choose, full calls: the answer is 16, where 0 is due
612 choose, words of the matrix: R is 4, where 3 is due
613 choose, a bit of the matrix: the answer is 16, where 0 is due: .* matrix 4294967296,
614 choose, rounds of the budget: the answer is 16, where 0 is due
615 choose, T inside the budget: R is 4, where 3 is due
616 choose, a bit of the budget: the answer is 16, where 0 is due: .* budget 4294967296,
617 choose, words of the matrix: the answer is 16, where 0 is due
618 choose, full calls: the answer is 0, where 16 is due
619 choose, full calls: the answer is 0, where 16 is due
620 choose, rounds of the budget: R is 6, where 3 is due
621 choose, full calls: the answer is 0, where 16 is due
622 choose, full calls: the answer is 0, where 16 is due
623 choose, full calls above the budget: the answer is 0, where 16 is due
624 choose, the greatest choice: the shortfall is 1537228672804934997, where 0 is due
625 choose, rounds of the budget: the shortfall is 4161536, where 4177920 is due
631 choose, rounds of the budget: R is 16385, where 16384 is due
632 choose, rounds of the budget: R is 16383, where 16384 is due
633 choose, full calls: the answer is 0, where 16 is due
634 choose, full calls: the answer is 16, where 0 is due
635 choose, equal cells: R is 64, where 16384 is due
636 choose, more cells after fewer: R is 16384, where 3277 is due
637 choose, the last column count: R is 16384, where 16321 is due
638 choose, more tries than columns: R is 16257, where 16384 is due
639 choose, equal cells: R is 0, where 16384 is due
640 choose, a bit of the tries: R is 0, where 16384 is due: .* tries 4294967296
641 choose, more cells after fewer: R is 16384, where 3277 is due
642 choose, more cells after fewer: R is 16384, where 3277 is due
643 choose, more cells after fewer: R is 16384, where 3277 is due
644 choose, more cells after fewer: R is 16384, where 3277 is due
651 choose, rounds of the budget: the shortfall is 0, where 1 is due
652 choose, rounds of the budget: the shortfall is 12, where 1 is due
653 choose, rounds of the budget: the shortfall is 4177664, where 4177919 is due
654 choose, rounds of the budget: the shortfall is 1537228672809129298, where 0 is due
655 choose, full calls: the shortfall is 4194301, where 0 is due
656 choose, full calls: T is 2, where 1 is due
657 choose, full calls: T is 0, where 1 is due
658 choose, T inside the budget: T is 1, where 2 is due
659 choose, T inside the budget: T is 256, where 255 is due
660 choose, T inside the budget: T is 254, where 255 is due
661 choose, T inside the budget: T is 0, where 255 is due
662 choose, rounds of the budget: T is 1, where 255 is due
663 choose, T inside the budget: T is 5, where 2 is due
664 choose, full calls: T is 9, where 1 is due
665 choose, a bit of the budget: T is 0, where 255 is due
END

# Those of books, and what is said of each.
while read -r fault words; do
    is_found "$fault" books book_refusals book_changes long_books || { echo "fault $fault is not found"; exit 1; }
    grep -q "^FAILED: $words" "$work/log" || { cat "$work/log"; echo "fault $fault is found for another reason"; exit 1; }
    found=$((found + 1))
done <<'END'
701 find, the form: the place is [0-9]*, where 280 is due
702 find, the form: the place is 281, where 280 is due
703 find, the form: the place is 294, where 280 is due
704 find, the form: the place is 10, where 280 is due
705 place: byte 0 is .., where 0 is due
706 add, the form: other bytes are due
707 add, the form: other bytes are due
708 add, just enough room: the used length is 50, where 24 is due
709 used_after: byte 0 is .., where 0 is due
710 used_after: byte 0 is .., where 0 is due
711 remove, the form: other bytes are due
712 remove, the form: other bytes are due
713 used_after: byte 0 is .., where 0 is due
714 used_after: byte 0 is .., where 0 is due
715 book: its contents were changed
716 salt: its contents were changed
717 key: its contents were changed
721 book: its contents were changed
722 book: its contents were changed
723 remove, an account that is there: byte 0 of the book is .., where 00 is due
724 add, just enough room: byte 25 of the book is .., where 00 is due
725 remove, an account that is there: byte 0 of the book is .., where 00 is due
726 remove, an account that is there: byte 25 of the book is .., where 00 is due
727 remove, an account that is there: byte 26 of the book is .., where .. is due
728 remove, an account that is there: byte 26 of the book is .., where .. is due
729 remove, the form: other bytes are due
730 remove, the form: other bytes are due
731 book: changed about byte
732 add, just enough room: byte 2 of the book is .., where 00 is due
733 remove, an account that is there: byte 0 of the book is .., where .. is due
734 add, just enough room: byte 14 of the book is .., where .. is due
735 add, the form: other bytes are due
736 add, no accounts: byte 23 of the book is .., where .. is due
741 add, a neighbour's number at its limit: the answer is 19, where 17 is due
742 find, a number at its limit: the answer is 18, where 17 is due
743 remove, a number at its limit: the answer is 18, where 17 is due
744 add, two refusals: the answer is 17, where 1 is due
745 add, a neighbour's number at its limit: the answer is 19, where 17 is due
746 add, just enough room: the answer is .., where 0 is due
747 add, the form: other bytes are due
748 book: changed about byte
749 find, no accounts: the answer is 17, where 18 is due
750 find, no accounts: the answer is 19, where 18 is due
751 find, a number at its limit: the answer is 18, where 17 is due
752 add, a neighbour's number at its limit: the answer is 19, where 17 is due
753 remove, a number at its limit: the answer is 18, where 17 is due
754 remove, no accounts: the answer is 0, where 18 is due
755 add, a number at its limit: the answer is 3, where 10 is due
756 add, two refusals: the answer is 4, where 3 is due
757 add, two refusals: the answer is 6, where 5 is due
758 add, two refusals: the answer is 3, where 1 is due
759 add, a bit of T: the answer is 0, where 4 is due
760 add, a number at its limit: the answer is 0, where 4 is due
801 find, one refusal: the answer is 0, where 17 is due
802 account, a damaged mark: the size is .., where 0 is due
803 account, a damaged mark: the size is .., where 0 is due
804 account, a damaged mark: the size is .., where 0 is due
805 find, one refusal: the answer is 0, where 17 is due
806 find, one refusal: the answer is 0, where 17 is due
807 find, the form: the place is 0, where 280 is due
808 find, a cut book: the answer is 18, where 17 is due
809 find, a number at its limit: the answer is 18, where 17 is due
810 find, no accounts: the answer is 17, where 18 is due
811 add, two refusals: the answer is 19, where 17 is due
812 find, a bit of the used length: the answer is 0, where 17 is due
813 account, a bit of the place: the size is .., where 0 is due
814 around the book: an account 1 bytes before it is read
821 find, one refusal: the answer is 0, where 17 is due
822 find, one refusal: the answer is 0, where 17 is due
823 find, a number twice: the answer is 0, where 17 is due
824 find, one refusal: the answer is 0, where 17 is due
825 find, one refusal: the answer is 0, where 17 is due
826 find, close numbers: the answer is .., where 0 is due
827 find, close numbers: the answer is .., where 0 is due
828 find, close numbers: the place is 0, where 69 is due
829 find, close numbers: the place is 0, where 92 is due
831 add, the form: other bytes are due
832 add, the form: other bytes are due
833 add, the form: other bytes are due
834 add, the form: other bytes are due
835 add, the form: other bytes are due
836 add, the form: other bytes are due
837 add, the form: other bytes are due
841 add, a number at its limit: the answer is 0, where 1 is due
842 add, a number at its limit: the answer is 0, where 1 is due
843 add, no accounts: the answer is 1, where 19 is due
844 add, a number at its limit: the answer is 1, where 0 is due
845 add, a number at its limit: the answer is 0, where 3 is due
846 add, a number at its limit: the answer is 0, where 10 is due
847 add, no accounts: the answer is 3, where 19 is due
848 add, a number at its limit: the answer is .., where 0 is due
850 add, a number at its limit: the answer is 0, where 4 is due
851 add, a number at its limit: the answer is 4, where 0 is due
852 add, the form: other bytes are due
853 add, a number at its limit: the answer is 0, where 5 is due
854 add, a number at its limit: the answer is 0, where 5 is due
855 add, no accounts: the answer is 5, where 19 is due
856 add, the form: other bytes are due
857 add, a number at its limit: the answer is 0, where 6 is due
858 add, a number at its limit: the answer is 0, where 6 is due
859 add, no accounts: the answer is 6, where 19 is due
860 add, a number at its limit: the answer is 6, where 0 is due
871 find, a number at its limit: the answer is 0, where 17 is due
872 find, a number at its limit: the answer is 0, where 17 is due
873 find, close numbers: the answer is .., where 0 is due
874 account, the longest account: the size is 0, where 1102 is due
875 find, a number at its limit: the answer is 0, where 17 is due
876 find, a number at its limit: the answer is 0, where 17 is due
877 add, the form: other bytes are due
878 account, the longest account: the size is 0, where 1102 is due
881 check, the account's password: same is 0
882 find, the form: the place is 0, where 280 is due
883 find, a number at its limit: the answer is 0, where 17 is due
884 find, a number at its limit: the answer is 0, where 17 is due
885 account, the longest account: the size is 0, where 1102 is due
886 find, the form: the place is 0, where 280 is due
887 find, a number at its limit: the answer is 0, where 17 is due
888 find, a number at its limit: the answer is 0, where 17 is due
889 account, the longest account: the size is 0, where 1102 is due
890 add, the form: other bytes are due
901 check, an account that is there: same is 1, where 0 is due
902 check, the account's password: same is 0
903 same: byte 0 is .., where 0 is due
904 same: byte 0 is .., where 0 is due
905 check, an account that is there: the rounds is [0-9]*, where 30 is due
906 counts: byte 16 is .., where 0 is due
907 matrix: byte 280 is .., where 0 is due
908 matrix: changed about byte 288,
909 matrix: changed about byte 0,
910 book: its contents were changed
911 book: its contents were changed
912 password: its contents were changed
913 values: byte 0 is .., where 0 is due
914 account, the form: other values are due
915 account, the form: other values are due
916 account, the form: other values are due
917 values: changed about byte 48,
921 check, a number at its limit: the answer is 18, where 17 is due
922 check, a number at its limit: the answer is 7, where 17 is due
923 check, two refusals: the answer is 7, where 18 is due
924 check, two refusals: the answer is 17, where 2 is due
925 check, two refusals: the answer is 18, where 2 is due
926 check, a number at its limit: the answer is 18, where 17 is due
927 check, two refusals: the answer is 17, where 2 is due
928 check, another password: same is 0
929 check, no accounts: the answer is 0, where 18 is due
931 matrix: changed about byte 0,
932 check, an account that is there: the rounds is 36, where 30 is due
933 check, the account's password: same is 0
934 check, the account's password: same is 0
935 check, the account's password: same is 0
936 check, the account's password: same is 0
END

# Those of several lanes. In the key: the call that tells, and a line of the vectors tells as well.
while read -r fault words; do
    is_found "$fault" lanes || { echo "fault $fault is not found"; exit 1; }
    grep -q "^FAILED: lanes_derive, .*: a byte of the key is .* is due: .*$words" "$work/log" \
        || { cat "$work/log"; echo "fault $fault is found for another reason"; exit 1; }
    build_faulty "$fault" vectors
    ! "$work/faulty" "$work/small_lanes" >"$work/log" 2>&1 || { echo "the vectors do not find fault $fault"; exit 1; }
    grep -q '^FAILED: case .*: lanes_derive: another key is due' "$work/log" || { cat "$work/log"; exit 1; }
    found=$((found + 1))
done <<'END'
1001 R 4, C 1, lanes 1,
1002 R 4, C 1, lanes 1,
1003 R 4, C 1, lanes 1,
1004 R 4, C 1, lanes 1,
1005 R 8, C 1, lanes 2,
1006 R 8, C 1, lanes 2,
1011 R 12, C 1, lanes 2,
1012 R 18, C 1, lanes 3,
1013 R 12, C 1, lanes 2,
1014 R 12, C 1, lanes 2,
1015 R 12, C 1, lanes 2,
1016 R 16, C 1, lanes 2,
1017 R 12, C 1, lanes 2,
1018 R 12, C 1, lanes 2,
1019 R 12, C 1, lanes 2,
1021 R 8, C 2, lanes 2,
1022 R 4, C 2, lanes 1,
1023 R 4, C 2, lanes 1,
1024 R 4, C 5, lanes 1,
1025 R 4, C 1, lanes 1,
1026 R 4, C 2, lanes 1,
1027 R 4, C 1, lanes 1,
1028 R 4, C 1, lanes 1,
1029 R 8, C 1, lanes 2,
1030 R 8, C 1, lanes 2,
1031 R 4, C 1, lanes 1,
1032 R 4, C 1, lanes 1,
1033 R 4, C 2, lanes 1,
1034 R 4, C 1, lanes 1,
1035 R 4, C 2, lanes 1,
1036 R 4, C 1, lanes 1,
1037 R 4, C 1, lanes 1,
1038 R 8, C 1, lanes 2,
1039 R 4, C 1, lanes 1,
1051 R 8, C 1, lanes 2,
1052 R 8, C 1, lanes 2,
1053 R 8, C 1, lanes 2,
1054 R 8, C 1, lanes 2,
1055 R 8, C 1, lanes 2,
1056 R 4, C 1, lanes 1,
1057 key 97, .* R 12, C 2, lanes 2,
1058 R 8, C 1, lanes 2,
1059 R 4, C 1, lanes 1,
1060 R 4, C 1, lanes 1,
END

# Those that the operations with lanes have alike, each from a first number on, and what is said of each.
is_found_in() { # PLACE WORDS PROGRAM OPERATION:FIRST..
    local operation fault
    for operation in "${@:4}"; do
        fault=$((${operation#*:} + $1))
        is_found "$fault" "$3" || { echo "fault $fault is not found"; exit 1; }
        grep -qE "^FAILED: (lanes_${operation%:*}, )?$2" "$work/log" \
            || { cat "$work/log"; echo "fault $fault is found for another reason"; exit 1; }
        found=$((found + 1))
    done
}
# In the refusals; the cost question has no matrix, and is the only one that can be told of lengths that no memory has.
while read -r place words; do
    case $place in
    2[012] | 4[34]) is_found_in "$place" "$words" lane_refusals derive:1100 check:1160 ;;
    53) is_found_in "$place" "$words" lane_refusals cost:1220 ;;
    *) is_found_in "$place" "$words" lane_refusals derive:1100 check:1160 cost:1220 ;;
    esac
done <<'END'
0 the key's limit: the answer is 0, where 1 is due: key 0,
1 the key's limit: the answer is 0, where 1 is due: key 1025,
2 the key's limit: the answer is 1, where 0 is due: key 1024,
3 the password's limit: the answer is 0, where 2 is due: .* password 1025,
4 the password's limit: the answer is 2, where 0 is due: .* password 1024,
5 the salt's limit: the answer is 0, where 3 is due: .* salt 7,
6 the key's limit: the answer is 3, where 0 is due: key 1,
7 the salt's limit: the answer is 0, where 10 is due: .* salt 65,
8 the salt's limit: the answer is 10, where 0 is due: .* salt 64,
9 the limit of T: the answer is 0, where 4 is due: .* T 0,
10 the key's limit: the answer is 4, where 0 is due: key 1,
11 the limit of T: the answer is 0, where 4 is due: .* T 256,
12 the limit of T: the answer is 4, where 0 is due: .* T 255,
13 too few rows: the answer is 20, where 5 is due: .* R 2, C 1, lanes 1,
14 three rows: the answer is 5, where 20 is due: .* R 3, C 1, lanes 1,
15 the most rows: the answer is 0, where 5 is due: .* R 16386, C 1, lanes 1,
16 the most rows: the answer is 5, where 0 is due: .* R 16384, C 1, lanes 1,
17 the limit of C: the answer is 0, where 6 is due: .* C 0,
18 the limit of C: the answer is 0, where 6 is due: .* C 257,
19 the limit of C: the answer is 6, where 0 is due: .* C 256,
20 a word less: the answer is 0, where 7 is due: .* R 8,
21 the key's limit: the answer is 7, where 0 is due: key 1,
22 a word less: the answer is 0, where 7 is due: .* R 8,
23 the limit of the lanes: the answer is 0, where 20 is due: .* lanes 0,
24 the limit of the lanes: the answer is 0, where 20 is due: .* lanes 9,
25 the limit of the lanes: the answer is 20, where 0 is due: .* lanes 1,
26 the limit of the lanes: the answer is 20, where 0 is due: .* lanes 8,
27 lanes and rows: the answer is 0, where 20 is due: .* R 5, C 1, lanes 1,
28 lanes and rows: the answer is 0, where 20 is due: .* R 10, C 1, lanes 2,
29 the most rows: the answer is 0, where 20 is due: .* R 16384, C 1, lanes 3,
30 lanes and rows: the answer is 0, where 20 is due: .* R 6, C 1, lanes 2,
31 too few rows: the answer is 0, where 20 is due: .* R 4, C 1, lanes 2,
32 the fewest rows: the answer is 20, where 0 is due: .* R 4, C 1, lanes 1,
33 two refusals: the answer is 2, where 1 is due
34 two refusals: the answer is 3, where 2 is due
35 two refusals: the answer is 4, where 10 is due
36 two refusals: the answer is 5, where 4 is due
37 two refusals: the answer is 6, where 5 is due
38 two refusals: the answer is 20, where 6 is due
39 too few rows: the answer is 20, where 5 is due: .* R 2, C 1, lanes 1,
40 two refusals: the answer is 20, where 4 is due
41 two refusals: the answer is 20, where 10 is due
42 two refusals: the answer is 20, where 1 is due
43 two refusals: the answer is 7, where 20 is due
44 two refusals: the answer is 7, where 4 is due
45 the limit of the lanes: the answer is 5, where 20 is due: .* lanes 9,
46 the limit of T: the answer is 20, where 4 is due: .* T 0,
47 the salt's limit: the answer is 3, where 10 is due: .* salt 65,
48 a bit: the answer is 0, where 20 is due: .* lanes 4294967298,
49 a bit: the answer is 0, where 20 is due: .* lanes 65538,
50 a bit: the answer is 0, where 5 is due: .* R 4294967440,
51 a bit: the answer is 0, where 4 is due: .* T 4294967297,
52 a bit: the answer is 0, where 6 is due: .* C 4294967297,
53 a bit: the answer is 0, where 1 is due: key 4294967328,
END
# In the counts.
while read -r place program words; do
    is_found_in "$place" "$words" "$program" derive:1300 check:1320 cost:1340
done <<'END'
0 lanes the lanes and rows: the number of full calls is 3, where 2 is due
1 lanes the lanes and rows: the number of reduced calls is 7, where 8 is due
2 lanes the lanes and rows: the number of rounds is 33, where 32 is due
3 lanes the lanes and rows: the number of full calls is 2, where 4 is due: .* lanes 2,
4 lanes the lanes and rows: the number of reduced calls is 8, where 16 is due: .* lanes 2,
5 lanes the lengths: the number of full calls is 2, where 3 is due: key 32, password 24, salt 8,
6 lanes the lanes and rows: the number of full calls is 3, where 4 is due: .* lanes 2,
7 lanes the lanes and rows: the number of reduced calls is 4, where 8 is due
8 lanes the lanes and rows: the number of reduced calls is 12, where 8 is due
9 lanes the lanes and rows: the number of rounds is [0-9]*, where 32 is due
10 lanes counts: changed about byte 24,
11 lane_refusals counts: byte 16 is .., where 0 is due
END
# In the matrix.
while read -r place program words; do
    is_found_in "$place" "matrix: $words" "$program" derive:1360 check:1370
done <<'END'
0 lanes byte 0 is 01, where 0 is due
1 lanes byte 376 is 01, where 0 is due
2 lane_refusals byte 6912 is 01, where 0 is due
3 lanes byte 0 is 01, where 0 is due
4 lanes changed about byte 768,
5 lanes changed about byte 800,
6 lane_refusals changed about byte 0,
7 lane_refusals changed about byte 0,
END
# In what else the derivation and the check store.
while read -r fault program words; do
    is_found_in "$fault" "$words" "$program" derive:0
done <<'END'
1380 lanes key: changed about byte 30, of which 32 are lent and 32 used
1381 lane_refusals key: changed about byte -?[0-9], of which 1025 are lent and 0 used
1382 lane_refusals key: changed about byte -?[0-9], of which 32 are lent and 0 used
1383 lanes password: changed about byte
1384 lanes salt: changed about byte
1385 lanes the lanes and rows: a byte of the key is [0-9]*, where [0-9]* is due
END
while read -r fault program words; do
    is_found_in "$fault" "$words" "$program" check:0
done <<'END'
1390 lanes the lanes and rows: same is 1, where 0 is due
1391 lanes the lanes and rows: same is 0, where 1 is due
1392 lane_refusals same: byte 0 is .., where 0 is due
1393 lane_refusals same: byte 0 is 01, where 0 is due
1394 lanes same: changed about byte 4,
1395 lanes stored: its contents were changed
1396 lanes the lanes and rows: same is 0, where 1 is due: .* lanes 2,
1397 lanes the lanes and rows: same is 1, where 0 is due
1398 lanes the lengths: same is 1, where 0 is due: key 97,
END

# Those that leave something on the stack, and what is said of each. No linker looks up what they call while they run, since
# it would leave more there.
report_left() { # FAULT PROGRAM
    compile_fault "$1"
    cc "$wrapped" -Wl,-z,now "$work"/{"$2",marked,calls,book_model,lane_model,lent}.o "${faulty[@]}" "$library" -o "$work/faulty" || exit 1
    "$work/faulty" 2>&1 && echo 'nothing is found'
}
for program in left left_lines left_books left_lanes; do
    same 'the stack of the wrapped library without a fault' 'nothing is found' "$(report_left 0 $program | tail -n 1)"
done
while read -r fault words; do
    case $((fault / 100)) in
    0) program=left ;;
    1) program=left_lines ;;
    14) program=left_lanes ;;
    *) program=left_books ;;
    esac
    same "fault $fault" "FAILED: $words" "$(report_left "$fault" $program)"
    found=$((found + 1))
done <<'END'
70 derive: the key from byte 0 on is left on the stack
71 derive: 1 words on the stack depend on the password
72 derive: the password from byte 0 on is left on the stack
73 derive: the state from byte 0 on is left on the stack
74 check: the key from byte 0 on is left on the stack
75 check: 1 words on the stack depend on the password
76 check: the password from byte 0 on is left on the stack
77 derive_recorded: the key from byte 0 on is left on the stack
78 derive_recorded: 1 words on the stack depend on the password
79 derive: the state from byte 0 on is left on the stack
80 derive: the password from byte 0 on is left on the stack
81 derive: the password from byte 0 on is left on the stack
82 derive: the state from byte 0 on is left on the stack
83 derive_recorded: the key from byte 0 on is left on the stack
84 check: the key from byte 0 on is left on the stack
171 line_read: the key from byte 0 on is left on the stack
172 line_read: the text of the key from byte 3 on is left on the stack
173 line_write: the key from byte 0 on is left on the stack
174 line_write: the text of the key from byte 3 on is left on the stack
791 book_add: the key from byte 0 on is left on the stack
792 book_remove: the key from byte 0 on is left on the stack
793 book_find: the key from byte 0 on is left on the stack
951 book_check: the key from byte 0 on is left on the stack
952 book_check: the password from byte 0 on is left on the stack
953 book_check: 1 words on the stack depend on the key
1450 lanes_derive: the key from byte 0 on is left on the stack
1451 lanes_derive: 1 words on the stack depend on the password
1452 lanes_derive: the password from byte 0 on is left on the stack
1453 lanes_derive: the password from byte 0 on is left on the stack
1454 lanes_derive: the lanes' state after the visits from byte 120 on is left on the stack
1455 lanes_derive: the lanes' state after the keys from byte 128 on is left on the stack
1456 lanes_derive: the end matrix from byte 376 on is left on the stack
1457 lanes_check: the key from byte 0 on is left on the stack
1458 lanes_check: 1 words on the stack depend on the password
1459 lanes_check: the password from byte 0 on is left on the stack
1460 lanes_check: the lanes' state after the visits from byte 0 on is left on the stack
1461 lanes_check: 1 words on the stack depend on the password
END
echo "C interface: $(sed 's/^vectors: //' "$work/ran"); $headers wrong headers, $wrong wrong lines and $found faulty libraries were found"
