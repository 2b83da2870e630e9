/* Answers that nobody looks at, one of each operation that has any: the compiler has to warn of all of them. */
#include "lyra2.h"

void ignore_answers(void);

void ignore_answers(void)
{
    static const uint8_t bytes[LYRA2_SALT_MIN];
    static uint8_t key[32], line[LYRA2_LINE_MAX], salt[LYRA2_SALT_MAX], book[LYRA2_ACCOUNT_MAX];
    static uint64_t matrix[LYRA2_MATRIX_WORDS(4, 1)], record[LYRA2_RECORD_WORDS(1, 3, 1)];
    static uint64_t state[LYRA2_STATE_WORDS], counts[LYRA2_COUNTS];
    static size_t choice[LYRA2_CHOICE_VALUES], values[LYRA2_LINE_VALUES], row1, line_len, place, used_after;
    static uint32_t same;
    lyra2_derive(bytes, 8, bytes, 8, 1, 3, 1, 1, 2, false, key, 32, matrix, 36, counts);
    lyra2_derive_recorded(bytes, 8, bytes, 8, 1, 3, 1, 1, 2, false, key, 32, matrix, 36, record, 6, state, counts);
    lyra2_check(bytes, 8, bytes, 8, 1, 3, 1, 1, 2, false, key, 32, matrix, 36, &same, counts);
    lyra2_cost(32, 8, 8, 1, 3, 1, 1, counts);
    lyra2_choose(32, 8, 8, 36, 30, 1, 1, choice);
    lyra2_walk(8, 3, &row1);
    lyra2_line_write(1, 3, 1, bytes, 8, key, 32, line, sizeof line, &line_len);
    lyra2_line_read(line, line_len, salt, sizeof salt, key, sizeof key, values);
    lyra2_book_find(book, sizeof book, 0, 1, &place);
    lyra2_book_add(book, sizeof book, 0, 1, 1, 3, 1, bytes, 8, key, 32, &used_after);
    lyra2_book_remove(book, sizeof book, used_after, 1, &used_after);
    lyra2_book_check(bytes, 8, book, sizeof book, 0, 1, matrix, 36, &same, counts);
    lyra2_lanes_derive(bytes, 8, bytes, 8, 1, 4, 1, 1, key, 32, matrix, 48, counts);
    lyra2_lanes_check(bytes, 8, bytes, 8, 1, 4, 1, 1, key, 32, matrix, 48, &same, counts);
    lyra2_lanes_cost(32, 8, 8, 1, 4, 1, 1, counts);
}
