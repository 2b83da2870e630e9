/*
 * The part of the faulty library that makes the choice of costs anew, so that a fault can stand in any step of the
 * rule: from 601 on in the full calls, from 611 on in the cells that matrix and budget leave, from 631 on in the column
 * counts that are tried, and from 651 on in the shortfall and in T.
 */
#include "faulty.h"
#include "lyra2.h"

enum {
    /* in the full calls */
    PIECES_LEFT_OUT = 601,
    PIECES_ROUNDED_DOWN,
    BLOCKS_LEFT_OUT,
    SALT_LEFT_OUT,
    NUMBERS_LEFT_OUT,
    NO_PADDING_OF_WHOLE_BLOCKS,
    FULL_CALLS_OF_ONE_ROUND,
    FULL_CALLS_OF_REDUCED_ROUNDS,
    KEY_AND_PASSWORD_EXCHANGED_IN_FULL_CALLS,
    /* in the cells that matrix and budget leave */
    MATRIX_IN_BYTES = 611,
    MATRIX_ROUNDED_UP,
    MATRIX_OF_32_BITS,
    MATRIX_WITH_A_SIGN,
    MATRIX_FORGOTTEN,
    BUDGET_OF_32_BITS,
    BUDGET_WITH_A_SIGN,
    BUDGET_FORGOTTEN,
    BUDGET_ROUNDED_UP,
    ROUNDS_FORGOTTEN_IN_LIMIT,
    ONE_REDUCED_CALL_A_CELL,
    FULL_CALLS_FORGOTTEN_IN_LIMIT,
    FULL_CALLS_ABOVE_THE_BUDGET_OVERLOOKED,
    NO_GREATEST_MATRIX,
    GREATEST_MATRIX_OF_255_COLUMNS,
    /* in the column counts and their rows */
    ROWS_NOT_CUT = 631,
    ROWS_CUT_AT_16383,
    TWO_ROWS_TAKEN,
    THREE_ROWS_PASSED_OVER,
    LAST_OF_EQUALS,
    LAST_TRY_LEFT_OUT,
    COLUMNS_TO_255,
    COLUMNS_TO_257,
    TRIES_OF_8_BITS,
    TRIES_OF_32_BITS,
    ONE_COLUMN_ALONE,
    POWERS_OF_TWO_ALONE,
    STOP_AT_FEWER_CELLS,
    STOP_WITHIN_A_ROW,
    /* in the shortfall and in T */
    NO_SHORTFALL = 651,
    SHORTFALL_IN_WORDS,
    SHORTFALL_FROM_THE_BEST,
    SHORTFALL_FROM_THE_MATRIX,
    SHORTFALL_FROM_THE_GREATEST,
    TIME_ONE_MORE,
    TIME_ONE_LESS,
    TIME_ALWAYS_1,
    TIME_NOT_CUT,
    TIME_CUT_AT_254,
    TIME_OF_8_BITS,
    TIME_FROM_THE_LIMIT,
    ROUNDS_FORGOTTEN_IN_TIME,
    FULL_CALLS_FORGOTTEN_IN_TIME,
    BUDGET_OF_32_BITS_IN_TIME,
};

enum { MOST_CELLS = LYRA2_ROWS_MAX * LYRA2_COLUMNS_MAX };

struct shape {
    size_t rows, columns;
};

static uint64_t smaller(uint64_t one, uint64_t other)
{
    return one < other ? one : other;
}

static size_t cells_of(struct shape shape)
{
    return shape.rows * shape.columns;
}

static uint64_t full_spent(const struct choice_asked *n)
{
    bool exchanged = FAULT == KEY_AND_PASSWORD_EXCHANGED_IN_FULL_CALLS;
    size_t key = exchanged ? n->password : n->key, password = exchanged ? n->key : n->password;
    size_t input = password + (FAULT == SALT_LEFT_OUT ? 0 : n->salt) + (FAULT == NUMBERS_LEFT_OUT ? 0 : 24);
    size_t blocks = input / 64 + !has(NO_PADDING_OF_WHOLE_BLOCKS, input % 64 == 0);
    size_t pieces = (key + (FAULT == PIECES_ROUNDED_DOWN ? 0 : 95)) / 96;
    uint64_t full = (FAULT == BLOCKS_LEFT_OUT ? 0 : blocks) + (FAULT == PIECES_LEFT_OUT ? 0 : pieces);
    return full * (FAULT == FULL_CALLS_OF_ONE_ROUND ? 1 : FAULT == FULL_CALLS_OF_REDUCED_ROUNDS ? n->rounds : 12);
}

static uint64_t cells_of_matrix(const struct choice_asked *n)
{
    size_t words = FAULT == MATRIX_OF_32_BITS ? (uint32_t)n->matrix : n->matrix;
    if (FAULT == MATRIX_FORGOTTEN)
        return MOST_CELLS;
    if (has(MATRIX_WITH_A_SIGN, words > INT64_MAX))
        return 0;
    if (FAULT == MATRIX_IN_BYTES)
        return words / (8 * LYRA2_CELL_WORDS);
    return words / LYRA2_CELL_WORDS + has(MATRIX_ROUNDED_UP, words % LYRA2_CELL_WORDS != 0);
}

/* Where a fault lets through that there are no rounds, a reduced call has one. */
static uint64_t cells_of_budget(const struct choice_asked *n)
{
    uint64_t budget = FAULT == BUDGET_OF_32_BITS ? (uint32_t)n->budget : n->budget;
    uint64_t full = FAULT == FULL_CALLS_FORGOTTEN_IN_LIMIT ? 0 : full_spent(n), left = budget - full;
    uint64_t cell = FAULT == ONE_REDUCED_CALL_A_CELL ? 1 : 2;
    if (FAULT != ROUNDS_FORGOTTEN_IN_LIMIT && n->rounds > 0)
        cell *= n->rounds;
    if (FAULT == BUDGET_FORGOTTEN)
        return MOST_CELLS;
    if (has(BUDGET_WITH_A_SIGN, budget > INT64_MAX))
        return 0;
    if (budget < full && FAULT != FULL_CALLS_ABOVE_THE_BUDGET_OVERLOOKED)
        return 0;
    return left / cell + has(BUDGET_ROUNDED_UP, left % cell != 0);
}

size_t cell_limit(const struct choice_asked *n)
{
    uint64_t cells = smaller(cells_of_matrix(n), cells_of_budget(n));
    if (FAULT == NO_GREATEST_MATRIX)
        return cells;
    return smaller(cells, FAULT == GREATEST_MATRIX_OF_255_COLUMNS ? LYRA2_ROWS_MAX * 255 : MOST_CELLS);
}

size_t least_cells(void)
{
    return FAULT == TWO_ROWS_TAKEN ? 2 : FAULT == THREE_ROWS_PASSED_OVER ? 4 : LYRA2_ROWS_MIN;
}

static size_t rows_for(size_t limit, size_t columns)
{
    size_t most = FAULT == ROWS_NOT_CUT ? SIZE_MAX : FAULT == ROWS_CUT_AT_16383 ? 16383 : LYRA2_ROWS_MAX;
    size_t rows = smaller(limit / columns, most);
    return rows < least_cells() ? 0 : rows;
}

static size_t last_column_count(size_t tries)
{
    size_t most = FAULT == COLUMNS_TO_255 ? 255 : FAULT == COLUMNS_TO_257 ? 257 : LYRA2_COLUMNS_MAX;
    if (FAULT == ONE_COLUMN_ALONE)
        return 1;
    if (FAULT == TRIES_OF_8_BITS)
        tries = (uint8_t)tries;
    if (FAULT == TRIES_OF_32_BITS)
        tries = (uint32_t)tries;
    return smaller(tries, most) - has(LAST_TRY_LEFT_OUT, tries > 1);
}

static struct shape best_of(size_t limit, size_t tries)
{
    struct shape best = {0, 0};
    size_t last = last_column_count(tries);
    for (size_t columns = 1; columns <= last; columns++) {
        struct shape one = {rows_for(limit, columns), columns};
        size_t cells = cells_of(one), most = cells_of(best);
        if (has(POWERS_OF_TWO_ALONE, (columns & (columns - 1)) != 0))
            continue;
        if (has(STOP_AT_FEWER_CELLS, cells < most))
            break;
        if (cells > most || has(LAST_OF_EQUALS, cells == most))
            best = one;
        if (has(STOP_WITHIN_A_ROW, limit - cells < columns))
            break;
    }
    return best;
}

static size_t shortfall_of(const struct choice_asked *n, size_t limit, struct shape shape)
{
    if (FAULT == NO_SHORTFALL)
        return 0;
    if (FAULT == SHORTFALL_FROM_THE_BEST)
        limit = cells_of(best_of(limit, LYRA2_COLUMNS_MAX));
    if (FAULT == SHORTFALL_FROM_THE_MATRIX)
        limit = cells_of_matrix(n);
    if (FAULT == SHORTFALL_FROM_THE_GREATEST)
        limit = MOST_CELLS;
    return (limit - cells_of(shape)) * (FAULT == SHORTFALL_IN_WORDS ? LYRA2_CELL_WORDS : 1);
}

static size_t time_of(const struct choice_asked *n, size_t limit, struct shape shape)
{
    uint64_t budget = FAULT == BUDGET_OF_32_BITS_IN_TIME ? (uint32_t)n->budget : n->budget;
    uint64_t full = FAULT == FULL_CALLS_FORGOTTEN_IN_TIME ? 0 : full_spent(n);
    uint64_t once = FAULT == TIME_FROM_THE_LIMIT ? limit : cells_of(shape);
    if (FAULT != ROUNDS_FORGOTTEN_IN_TIME && n->rounds > 0)
        once *= n->rounds;
    uint64_t calls = budget < full || once == 0 ? 0 : (budget - full) / once;
    uint64_t time = calls > 0 ? calls - 1 : 0;
    if (FAULT == TIME_ALWAYS_1)
        return 1;
    if (FAULT == TIME_ONE_MORE)
        time++;
    if (has(TIME_ONE_LESS, time > 0))
        time--;
    if (FAULT == TIME_OF_8_BITS)
        time = (uint8_t)time;
    return FAULT == TIME_NOT_CUT ? time : smaller(time, FAULT == TIME_CUT_AT_254 ? 254 : LYRA2_TIME_MAX);
}

void choose_anew(const struct choice_asked *n, size_t *values)
{
    size_t limit = cell_limit(n);
    struct shape shape = best_of(limit, n->tries);
    values[LYRA2_CHOICE_TIME] = time_of(n, limit, shape);
    values[LYRA2_CHOICE_ROWS] = shape.rows;
    values[LYRA2_CHOICE_COLUMNS] = shape.columns;
    values[LYRA2_CHOICE_SHORTFALL] = shortfall_of(n, limit, shape);
}
