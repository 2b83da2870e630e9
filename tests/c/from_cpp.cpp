// The header in a C++ program: its functions link, and its sizes are constants.
#include "lyra2.h"

static_assert(LYRA2_MATRIX_WORDS(3, 1) == 36, "the smallest matrix");
static_assert(LYRA2_VISIT_WORDS(1) == 2 && LYRA2_VISIT_WORDS(LYRA2_COLUMNS_MAX) == 257, "the visits in a record");
static_assert(LYRA2_RECORD_WORDS(1, 3, 1) == 6, "the smallest record");
static_assert(LYRA2_RECORD_WORDS(LYRA2_TIME_MAX, LYRA2_ROWS_MAX, LYRA2_COLUMNS_MAX) == 1073725440, "the largest record");
static_assert(LYRA2_CHOICE_VALUES == 4 && LYRA2_REFUSED_TRIES == 15 && LYRA2_REFUSED_NOTHING_FITS == 16, "the choice");
static_assert(LYRA2_ACCOUNT_BYTES(LYRA2_SALT_MAX, LYRA2_KEY_MAX) == LYRA2_ACCOUNT_MAX, "the longest account");
static_assert(LYRA2_ACCOUNT_VALUES == 6 && LYRA2_REFUSED_BOOK == 17 && LYRA2_REFUSED_NO_ACCOUNT == 18
                  && LYRA2_REFUSED_BOOK_FULL == 19, "the book of accounts");
static_assert(LYRA2_LANES_MIN == 1 && LYRA2_LANES_MAX == 8 && LYRA2_LANES_TIME_MIN == 1 && LYRA2_LANE_ROWS_MIN == 4
                  && LYRA2_REFUSED_LANES == 20, "the lanes");
static_assert(!LYRA2_MIXER_PLAIN && LYRA2_MIXER_BLAMKA, "the two mixers");

// A word of the record is taken apart into these two numbers, and nothing beside them is written.
static bool is_pair(uint64_t word, uint64_t low, uint64_t high)
{
    const uint64_t guard = 0xa5a5a5a5a5a5a5a5;
    uint64_t numbers[4] = {guard, guard, guard, guard};
    lyra2_record_pair(word, numbers + 1);
    return numbers[0] == guard && numbers[1] == low && numbers[2] == high && numbers[3] == guard;
}

// All memory and rounds that there are leave the greatest costs, and nothing beside the four values is written.
static bool chooses_the_greatest()
{
    const size_t guard = 0xa5a5a5a5a5a5a5a5;
    size_t values[LYRA2_CHOICE_VALUES + 2] = {guard, guard, guard, guard, guard, guard};
    const size_t *choice = values + 1;
    if (lyra2_choose(32, 31, 8, SIZE_MAX, UINT64_MAX, LYRA2_REDUCED_ROUNDS_USUAL, LYRA2_COLUMNS_MAX, values + 1)
        != LYRA2_ACCEPTED)
        return false;
    return values[0] == guard && values[LYRA2_CHOICE_VALUES + 1] == guard
        && choice[LYRA2_CHOICE_TIME] == LYRA2_TIME_MAX && choice[LYRA2_CHOICE_ROWS] == LYRA2_ROWS_MAX
        && choice[LYRA2_CHOICE_COLUMNS] == LYRA2_COLUMNS_MAX && choice[LYRA2_CHOICE_SHORTFALL] == 0;
}

// An account is added, found, read, checked and removed; the bytes that are no longer used are zeros.
static bool keeps_an_account(const uint8_t *password, const uint8_t *salt, const uint8_t *key, uint64_t *matrix)
{
    uint8_t book[LYRA2_ACCOUNT_BYTES(LYRA2_SALT_MIN, 32) + 1] = {};
    const size_t size = sizeof book - 1;
    size_t used = 0, place = 1, values[LYRA2_ACCOUNT_VALUES];
    uint64_t counts[LYRA2_COUNTS];
    uint32_t same = 0;
    book[size] = 0xa5;
    if (lyra2_book_add(book, sizeof book, 0, 7, 1, 3, 1, salt, LYRA2_SALT_MIN, key, 32, &used) != LYRA2_ACCEPTED
        || used != size || lyra2_book_find(book, sizeof book, used, 7, &place) != LYRA2_ACCEPTED || place != 0
        || lyra2_book_account(book, used, 0, values) != size || values[LYRA2_ACCOUNT_NUMBER] != 7
        || values[LYRA2_ACCOUNT_KEY_LEN] != 32)
        return false;
    if (lyra2_book_check(password, 1, book, sizeof book, used, 7, matrix, 36, &same, counts) != LYRA2_ACCEPTED
        || same != 1 || lyra2_book_remove(book, sizeof book, used, 7, &used) != LYRA2_ACCEPTED || used != 0)
        return false;
    for (size_t i = 0; i < size; i++)
        if (book[i] != 0)
            return false;
    return book[size] == 0xa5;
}

// Two lanes derive a key that they know again, whose counts were foretold; the word past the used matrix is kept.
static bool derives_with_lanes(const uint8_t *password, const uint8_t *salt)
{
    const uint64_t guard = 0xa5a5a5a5a5a5a5a5;
    const size_t used = LYRA2_MATRIX_WORDS(8, 1);
    uint8_t key[32] = {};
    uint64_t matrix[used + 1], counts[LYRA2_COUNTS], foretold[LYRA2_COUNTS];
    uint32_t same = 0;
    matrix[used] = guard;
    if (lyra2_lanes_derive(password, 1, salt, LYRA2_SALT_MIN, 1, 8, 1, 2, key, sizeof key, matrix, used + 1, counts)
            != LYRA2_ACCEPTED
        || lyra2_lanes_check(password, 1, salt, LYRA2_SALT_MIN, 1, 8, 1, 2, key, sizeof key, matrix, used + 1, &same,
                             counts) != LYRA2_ACCEPTED
        || lyra2_lanes_cost(sizeof key, 1, LYRA2_SALT_MIN, 1, 8, 1, 2, foretold) != LYRA2_ACCEPTED)
        return false;
    for (size_t i = 0; i < LYRA2_COUNTS; i++)
        if (counts[i] != foretold[i])
            return false;
    return same == 1 && counts[LYRA2_REDUCED_CALLS] == 16 && matrix[0] == 0 && matrix[used] == guard;
}

int main()
{
    if (!chooses_the_greatest())
        return 1;
    if (!is_pair(0, 0, 0) || !is_pair(65535, 65535, 0) || !is_pair(65536, 0, 1) || !is_pair(UINT32_MAX, 65535, 65535)
        || !is_pair(UINT64_C(1) << 32, 0, 65536) || !is_pair(UINT64_MAX, 65535, 281474976710655))
        return 1;
    const uint8_t password[] = {'p'}, salt[LYRA2_SALT_MIN] = {};
    uint8_t key[32] = {};
    uint64_t matrix[LYRA2_MATRIX_WORDS(3, 1)], counts[LYRA2_COUNTS];
    uint32_t same = 0;
    const size_t rounds = LYRA2_REDUCED_ROUNDS_USUAL, rotation = LYRA2_ROTATION_USUAL;
    const bool mixer = LYRA2_MIXER_USUAL;
    if (lyra2_derive(password, 1, salt, sizeof salt, 1, 3, 1, rounds, rotation, mixer, key, sizeof key, matrix, 36,
                     counts) != LYRA2_ACCEPTED)
        return 1;
    if (lyra2_check(password, 1, salt, sizeof salt, 1, 3, 1, rounds, rotation, mixer, key, sizeof key, matrix, 36, &same,
                    counts) != LYRA2_ACCEPTED)
        return 1;
    if (same != 1 || counts[LYRA2_REDUCED_CALLS] != 6)
        return 1;
    return keeps_an_account(password, salt, key, matrix) && derives_with_lanes(password, salt) ? 0 : 1;
}
