/*
 * The part of the faulty library that spoils the visit record: the faults from 401 on of its room, from 411 on of its
 * words, from 431 on of the decoder, and from 461 on, which memcheck alone sees, of the decoder too.
 */
#include "faulty.h"
#include "lyra2.h"

#include <string.h>

enum {
    /* in the room that is asked for */
    ROOM_FOR_EACH_NUMBER_ASKED = 401,
    A_WORD_LESS_TAKEN,
    A_WORD_MORE_ASKED,
    /* in the words of the record */
    ROWS_EXCHANGED = 411,
    COLUMNS_EXCHANGED,
    ROWS_BY_256,
    COLUMNS_BY_256,
    BY_65535,
    BY_32_BITS,
    ROW0_IN_BOTH_PLACES,
    ROWS_TWICE,
    ROWS_LAST,
    A_WORD_FOR_EACH_NUMBER,
    A_WORD_FOR_EACH_NUMBER_WHERE_IT_FITS,
    FIRST_WORD_PAST,
    LAST_WORD_WHERE_EACH_NUMBER_FITS,
    /* in the decoder */
    NUMBERS_EXCHANGED = 431,
    LOW_OF_8_BITS,
    LOW_OF_ALL_BITS,
    HIGH_OF_16_BITS,
    WORD_OF_32_BITS,
    NO_HIGH_NUMBER,
    A_THIRD_NUMBER,
    A_NUMBER_BEFORE,
    ZEROS_FOR_WORDS_OF_NO_RECORD,
    EXCHANGED_IN_BOTH,
    /* in the decoder, seen by memcheck alone */
    BRANCH_ON_THE_WORD = 461,
    NUMBERS_HELD_USED,
    READ_PAST_THE_NUMBERS,
};

void __real_lyra2_record_pair(uint64_t word, uint64_t *numbers);
void __wrap_lyra2_record_pair(uint64_t word, uint64_t *numbers);

size_t spoil_room(size_t time, size_t rows, size_t columns, size_t record_words)
{
    size_t used = LYRA2_RECORD_WORDS(time, rows, columns);
    if (has(ROOM_FOR_EACH_NUMBER_ASKED, record_words < 2 * used) || has(A_WORD_MORE_ASKED, record_words == used))
        return 0;
    if (has(A_WORD_LESS_TAKEN, record_words + 1 == used))
        return used;
    return record_words;
}

/* A word of the record, of rows or of columns, in another packing. */
static uint64_t pack(uint64_t word, bool of_rows)
{
    uint64_t low = word % 65536, high = word / 65536;
    if (has(ROWS_EXCHANGED, of_rows) || has(COLUMNS_EXCHANGED, !of_rows) || FAULT == EXCHANGED_IN_BOTH)
        return high + 65536 * low;
    if (has(ROWS_BY_256, of_rows) || has(COLUMNS_BY_256, !of_rows))
        return low + 256 * high;
    if (FAULT == BY_65535)
        return low + 65535 * high;
    if (FAULT == BY_32_BITS)
        return low + (high << 32);
    if (has(ROW0_IN_BOTH_PLACES, of_rows))
        return low + 65536 * low;
    return word;
}

/* The words of a visit, among them the one of its rows in another place; what then has none is lost. */
static void move_rows(uint64_t *visit, size_t words)
{
    uint64_t rows = visit[0];
    if (FAULT == ROWS_TWICE)
        memmove(visit + 1, visit, 8 * (words - 1));
    if (FAULT == ROWS_LAST) {
        memmove(visit, visit + 1, 8 * (words - 1));
        visit[words - 1] = rows;
    }
}

/* A word for each number, as far as there is room; from the last on, so that each is read before it is overwritten. */
static void unpack(uint64_t *record, size_t used, size_t room)
{
    for (size_t i = used; i-- > 0;) {
        const uint64_t word = record[i];
        if (2 * i + 1 < room)
            record[2 * i + 1] = word / 65536;
        if (2 * i < room)
            record[2 * i] = word % 65536;
    }
}

void spoil_record(size_t time, size_t rows, size_t columns, uint64_t *record, size_t record_words)
{
    size_t used = LYRA2_RECORD_WORDS(time, rows, columns), visit = LYRA2_VISIT_WORDS(columns);
    bool each_fits = used > 0 && record_words >= 2 * used;
    for (size_t i = 0; i < used; i++)
        record[i] = pack(record[i], i % visit == 0);
    for (size_t i = 0; i < used; i += visit)
        move_rows(record + i, visit);
    if (FAULT == A_WORD_FOR_EACH_NUMBER)
        unpack(record, used, used);
    if (has(A_WORD_FOR_EACH_NUMBER_WHERE_IT_FITS, each_fits))
        unpack(record, used, 2 * used);
    if (has(FIRST_WORD_PAST, each_fits))
        record[used] = 0;
    if (has(LAST_WORD_WHERE_EACH_NUMBER_FITS, each_fits))
        record[2 * used - 1] = 0;
}

static void exchange(uint64_t *numbers)
{
    uint64_t low = numbers[0];
    numbers[0] = numbers[1];
    numbers[1] = low;
}

void __wrap_lyra2_record_pair(uint64_t word, uint64_t *numbers)
{
    volatile uint64_t held = FAULT == NUMBERS_HELD_USED || FAULT == NO_HIGH_NUMBER ? numbers[1] : 0;
    __real_lyra2_record_pair(FAULT == WORD_OF_32_BITS ? (uint32_t)word : word, numbers);
    if (FAULT == NUMBERS_EXCHANGED || FAULT == EXCHANGED_IN_BOTH)
        exchange(numbers);
    if (FAULT == LOW_OF_8_BITS)
        numbers[0] %= 256;
    if (FAULT == LOW_OF_ALL_BITS)
        numbers[0] = word;
    if (FAULT == HIGH_OF_16_BITS)
        numbers[1] %= 65536;
    if (FAULT == NO_HIGH_NUMBER)
        numbers[1] = held;
    if (FAULT == A_THIRD_NUMBER)
        numbers[2] = 0;
    if (FAULT == A_NUMBER_BEFORE)
        numbers[-1] = 0;
    if (has(ZEROS_FOR_WORDS_OF_NO_RECORD, numbers[0] >= LYRA2_ROWS_MAX || numbers[1] >= LYRA2_ROWS_MAX))
        numbers[0] = numbers[1] = 0;
    if (has(BRANCH_ON_THE_WORD, word == UINT64_MAX))
        held = word;
    if (FAULT == NUMBERS_HELD_USED)
        numbers[1] += held - held;
    if (FAULT == READ_PAST_THE_NUMBERS)
        held = numbers[2];
}
