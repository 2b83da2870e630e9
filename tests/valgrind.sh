#!/usr/bin/env bash
# The C interface under valgrind's memcheck: no byte outside of what is lent, nothing that depends on what lent memory
# held before, no touch by a refused call of more than its answer, the line that it reads and the heads in a book, no branch
# on the bytes of a stored key, of one that a line is written from or of a salt or a key in a book, nor on a word of the
# record that is taken apart; and faulty libraries, which it finds.
set -eu
cd "$(dirname "$0")/.."
. tests/c/build.sh
cc -fsyntax-only -include valgrind/memcheck.h -x c /dev/null || { echo "valgrind's headers are missing, of Debian's package valgrind"; exit 1; }

memcheck() { # PROGRAM ARGUMENT..
    valgrind --quiet --error-exitcode=9 --leak-check=full --show-leak-kinds=all --errors-for-leak-kinds=all "$@"
}

flags+=(-g)
compile memcheck memcheck_lines memcheck_choices memcheck_books memcheck_lanes watched refusals records lines choosing books \
    book_refusals lane_refusals vectors vector_books vector_lanes fields calls line_calls choice_calls book_calls book_due \
    book_model lane_calls lane_model lent
cc "$work"/{memcheck,watched,calls,lent}.o "$library" -o "$work/memcheck"
cc "$work"/{memcheck_lines,watched,calls,lent}.o "$library" -o "$work/memcheck_lines"
cc "$work"/{memcheck_choices,watched,calls,lent}.o "$library" -o "$work/memcheck_choices"
cc "$work"/{memcheck_books,book_model,watched,calls,lent}.o "$library" -o "$work/memcheck_books"
cc "$work"/{memcheck_lanes,watched,calls,lent}.o "$library" -o "$work/memcheck_lanes"
cc "$work"/{refusals,calls,lent}.o "$library" -o "$work/refusals"
cc "$work"/{records,calls,lent}.o "$library" -o "$work/records"
cc "$work"/{lines,calls,line_calls,lent}.o "$library" -o "$work/lines"
cc "$work"/{choosing,calls,choice_calls,lent}.o "$library" -o "$work/choosing"
cc "$work"/{books,book_due,book_calls,book_model,calls,lent}.o "$library" -o "$work/books"
cc "$work"/{book_refusals,book_due,book_calls,book_model,calls,lent}.o "$library" -o "$work/book_refusals"
cc "$work"/{lane_refusals,lane_calls,lane_model,calls,lent}.o "$library" -o "$work/lane_refusals"
cc "$work"/{vectors,vector_books,vector_lanes,fields,calls,line_calls,choice_calls,book_calls,book_model,lane_calls,lane_model,lent}.o \
    "$library" -o "$work/vectors"
# A pipe would hide the status.
memcheck "$work/memcheck" >"$work/ran"
memcheck "$work/memcheck_lines" >>"$work/ran"
memcheck "$work/memcheck_choices" >>"$work/ran"
memcheck "$work/memcheck_books" >>"$work/ran"
memcheck "$work/memcheck_lanes" >>"$work/ran"
cat "$work/ran"
memcheck "$work/refusals"
memcheck "$work/records"
memcheck "$work/lines"
memcheck "$work/choosing"
memcheck "$work/books"
memcheck "$work/book_refusals"
memcheck "$work/lane_refusals"
cc "${flags[@]}" examples/derive_and_check.c "$library" -o "$work/example"
same 'the example' "$(cat examples/derive_and_check.out)" "$(printf 'correct horse' | memcheck "$work/example" 'salt of 16 bytes' 1 256 64 32)"

# Every third of the vectors whose matrix has fewer than 1,000 words, since all of them would take minutes, and all lines,
# choices and books.
grep -vE ' op=(choose|book_[a-z]+) ' vectors/lyra2.txt | grep -E ' op=(cost|lanes_cost|walk) | matrix_words=[0-9]{1,3} ' \
    | awk 'NR % 3 == 0' >"$work/small"
grep -E ' op=(choose|line_read|line_write|book_[a-z]+) ' vectors/lyra2.txt >>"$work/small"
memcheck "$work/vectors" "$work/small"

# ---- faulty libraries, and what is said of each
report() { # FAULT PROGRAM
    compile_fault "$1"
    cc "$wrapped" "$work"/{"$2",watched,calls,book_model,lent}.o "${faulty[@]}" "$library" -o "$work/faulty" || exit 1
    memcheck "$work/faulty" 2>&1 && echo 'nothing is found'
}
for program in memcheck memcheck_lines memcheck_choices memcheck_books memcheck_lanes; do
    same 'the wrapped library without a fault' 'nothing is found' "$(report 0 $program | tail -n 1)"
done
found=0
while read -r fault words; do
    case $((fault / 100)) in
    1) program=memcheck_lines ;;
    5) program=memcheck_choices ;;
    [789]) program=memcheck_books ;;
    1?) program=memcheck_lanes ;;
    *) program=memcheck ;;
    esac
    report "$fault" $program >"$work/log" || true
    grep -q "$words" "$work/log" || { cat "$work/log"; echo "fault $fault is not found"; exit 1; }
    found=$((found + 1))
done <<'END'
6 counts: depends on what the memory held
11 state: depends on what the memory held
14 same: depends on what the memory held
18 row1: depends on what the memory held
9 matrix: byte [0-9]* is not zero
34 matrix: byte 0 is not zero
39 matrix: written past its used part
41 Invalid write of size 8
44 matrix: byte [0-9]* is not zero
48 matrix: written past its used part
50 Invalid write of size 8
54 matrix: depends on what the memory held
60 Invalid read of size 1
61 Invalid read of size 1
62 key: depends on what the memory held
63 Invalid write of size 8
64 Conditional jump or move depends on uninitialised value
65 key: depends on what the memory held
66 Invalid read of size 1
67 Invalid read of size 1
68 key: depends on what the memory held
117 salt: written past its used part
118 key: written past its used part
119 Invalid write of size 1
124 values: depends on what the memory held
127 Invalid write of size
133 line: written past its used part
134 Invalid write of size 1
135 line_len: depends on what the memory held
137 Invalid write of size 1
161 Invalid read of size 1
162 key: depends on what the memory held
163 Invalid read of size 1
164 line: written past its used part
165 Conditional jump or move depends on uninitialised value
166 line: depends on what the memory held
421 record: written past its used part
422 record: written past its used part
423 record: written past its used part
437 Invalid write of size 8
438 Invalid write of size 8
461 Conditional jump or move depends on uninitialised value
462 numbers: depends on what the memory held
463 Invalid read of size 8
501 values: depends on what the memory held
505 values: depends on what the memory held
510 Invalid write of size 8
511 Invalid write of size 8
512 values: depends on what the memory held
513 values: depends on what the memory held
515 values: depends on what the memory held
561 values: depends on what the memory held
562 Conditional jump or move depends on uninitialised value
563 Invalid read of size 8
705 place: depends on what the memory held
709 used_after: depends on what the memory held
713 used_after: depends on what the memory held
722 Invalid read of size 1
723 remove: byte 0 is not zero
727 Invalid write of size 1
728 Invalid write of size 1
736 Invalid write of size 1
748 Invalid write of size
771 Invalid read of size 1
772 Invalid read of size 1
773 Invalid read of size 1
774 Invalid read of size 1
775 Conditional jump or move depends on uninitialised value
776 Conditional jump or move depends on uninitialised value
777 Invalid read of size 1
778 Invalid write of size 1
779 place: depends on what the memory held
780 used_after: depends on what the memory held
781 Invalid read of size 1
814 Invalid read of size 1
903 same: depends on what the memory held
906 counts: depends on what the memory held
907 matrix: byte [0-9]* is not zero
908 matrix: written past its used part
909 Invalid write of size 8
913 values: depends on what the memory held
917 Invalid write of size 8
941 Conditional jump or move depends on uninitialised value
942 Invalid read of size 1
943 Invalid write of size 8
944 same: depends on what the memory held
945 values: depends on what the memory held
1013 key: depends on what the memory held
1309 counts: depends on what the memory held
1311 counts: depends on what the memory held
1331 counts: depends on what the memory held
1350 Invalid write of size 8
1351 counts: depends on what the memory held
1360 matrix: byte 0 is not zero
1361 matrix: byte 376 is not zero
1364 matrix: written past its used part
1366 Invalid write of size 8
1367 Invalid write of size 8
1370 matrix: byte 0 is not zero
1374 matrix: written past its used part
1376 Invalid write of size 8
1380 Invalid write of size 1
1381 Invalid read of size 1
1392 same: depends on what the memory held
1394 Invalid write of size 4
1401 Invalid read of size 1
1402 Invalid read of size 1
1403 key: depends on what the memory held
1404 Invalid write of size 8
1405 Invalid read of size 1
1406 Conditional jump or move depends on uninitialised value
1407 same: depends on what the memory held
1408 counts: depends on what the memory held
END
calls=$(awk '{ sum += $(NF - 1) } END { print sum }' "$work/ran")
echo "valgrind: $calls calls without an error, $found faulty libraries were found"
