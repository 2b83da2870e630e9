/*
 * The visit record from C: the decoder takes any word and writes two numbers, and the records of derivations hold every
 * row and every column in either place of a word.
 */
#include "calls.h"

#include <inttypes.h>
#include <stdio.h>

enum { MOST_NUMBERS = 300 };

/* The decoder answers these two numbers and writes nothing else. */
static void require_pair(uint64_t word, uint64_t low, uint64_t high)
{
    struct lent place;
    lend(&place, 2 * sizeof word, 8, NULL);
    const uint64_t *numbers = lent_part(&place);
    lyra2_record_pair(word, lent_part(&place));
    require_kept(&place, 2 * sizeof word, "numbers");
    if (numbers[0] != low || numbers[1] != high)
        fail("record_pair: %" PRIx64 " gives %" PRIx64 " and %" PRIx64, word, numbers[0], numbers[1]);
    take_back(&place);
    calls_made++;
}

/* Words at the edges of what 16, 32 and 64 bits hold. */
static void require_edges(void)
{
    require_pair(0, 0, 0);
    require_pair(1, 1, 0);
    require_pair(65535, 65535, 0);
    require_pair(65536, 0, 1);
    require_pair(65537, 1, 1);
    require_pair(UINT32_MAX, 65535, 65535);
    require_pair(UINT64_C(1) << 32, 0, 65536);
    require_pair(UINT64_MAX - 65535, 0, 281474976710655);
    require_pair(UINT64_MAX, 65535, 281474976710655);
}

/* No bit of a word is lost or counted twice. */
static void require_bits(void)
{
    for (unsigned bit = 0; bit < 16; bit++)
        require_pair(UINT64_C(1) << bit, UINT64_C(1) << bit, 0);
    for (unsigned bit = 16; bit < 64; bit++)
        require_pair(UINT64_C(1) << bit, 0, UINT64_C(1) << (bit - 16));
}

/* Pairs of rows and columns, up to the greatest. */
static void require_pairs(void)
{
    const uint64_t numbers[] = {0, 1, 2, LYRA2_COLUMNS_MAX - 1, LYRA2_COLUMNS_MAX, 8191, 8192, LYRA2_ROWS_MAX - 1};
    size_t count = sizeof numbers / sizeof *numbers;
    for (size_t i = 0; i < count; i++)
        for (size_t j = 0; j < count; j++)
            require_pair(numbers[i] + 65536 * numbers[j], numbers[i], numbers[j]);
}

/* Every number below `below` is met in either place of the words from `first` on, each `step` further. */
static void require_met(const struct call *call, size_t first, size_t step, size_t below)
{
    const uint64_t *record = lent_part(&call->record);
    bool met[2][MOST_NUMBERS] = {{false}};
    for (size_t i = first; i < used_record(&call->sizes); i += step) {
        uint64_t numbers[2];
        lyra2_record_pair(record[i], numbers);
        met[0][numbers[0]] = true;
        met[1][numbers[1]] = true;
    }
    for (size_t number = 0; number < below; number++)
        if (!met[0][number] || !met[1][number])
            fail("record: from word %zu on, each %zu further, %zu is missing in one of the places", first, step, number);
}

/* With so many visits a row or a column that none takes would be a chance of less than one in a thousand. */
static void require_derivation(size_t time, size_t rows, size_t columns, size_t rounds, size_t rotation, bool mixer)
{
    struct sizes n = {.key = 32, .password = 20, .salt = 16, .time = time, .rows = rows, .columns = columns,
                      .rounds = rounds, .rotation = rotation, .mixer = mixer};
    struct call call;
    make_call(&call, RECORDED, fitting(n), (struct contents){NULL, NULL, NULL});
    if (call.answer != LYRA2_ACCEPTED)
        fail("refused: %s", lyra2_sentence(call.answer));
    require_met(&call, 0, LYRA2_VISIT_WORDS(columns), rows);
    for (size_t column = 0; column < columns; column++)
        require_met(&call, 1 + column, LYRA2_VISIT_WORDS(columns), columns);
    end_call(&call);
}

int main(void)
{
    require_edges();
    require_bits();
    require_pairs();
    for (size_t i = 0; i < MIXERS; i++) {
        require_derivation(40, 3, 7, LYRA2_REDUCED_ROUNDS_USUAL, LYRA2_ROTATION_USUAL, mixers[i]);
        require_derivation(20, 17, 4, LYRA2_REDUCED_ROUNDS_MAX, LYRA2_ROTATION_MAX, mixers[i]);
        require_derivation(16, MOST_NUMBERS, 2, LYRA2_REDUCED_ROUNDS_USUAL, 5, mixers[i]);
    }
    printf("visit records: %zu calls\n", calls_made);
    return 0;
}
