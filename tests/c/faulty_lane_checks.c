/*
 * The part of the faulty library that refuses calls with several lanes: the faults of one operation from its first number
 * on, in the order of the enumeration below.
 */
#include "faulty.h"
#include "lane_model.h"

enum {
    /* in a limit */
    NO_KEY_TAKEN,
    KEY_OF_1025_TAKEN,
    KEY_OF_1024_REFUSED,
    PASSWORD_OF_1025_TAKEN,
    PASSWORD_OF_1024_REFUSED,
    SALT_OF_7_TAKEN,
    SALT_OF_8_REFUSED,
    SALT_OF_65_TAKEN,
    SALT_OF_64_REFUSED,
    NO_TIME_TAKEN,
    TIME_OF_1_REFUSED,
    TIME_OF_256_TAKEN,
    TIME_OF_255_REFUSED,
    TWO_ROWS_REFUSED_LATER,
    THREE_ROWS_REFUSED_AS_ROWS,
    TOO_MANY_ROWS_TAKEN,
    MOST_ROWS_REFUSED,
    NO_COLUMNS_TAKEN,
    COLUMNS_OF_257_TAKEN,
    COLUMNS_OF_256_REFUSED,
    MATRIX_A_WORD_SHORT_TAKEN,
    MATRIX_THAT_FITS_REFUSED,
    MATRIX_OF_A_LANE_TAKEN,
    /* in the numbers of lanes and rows that go together */
    NO_LANES_TAKEN,
    NINE_LANES_TAKEN,
    ONE_LANE_REFUSED,
    EIGHT_LANES_REFUSED,
    ODD_ROWS_TAKEN,
    ODD_ROWS_OF_A_LANE_TAKEN,
    UNEVEN_LANES_TAKEN,
    THREE_ROWS_OF_A_LANE_TAKEN,
    TWO_ROWS_OF_A_LANE_TAKEN,
    FOUR_ROWS_OF_A_LANE_REFUSED,
    /* in the order of two checks */
    PASSWORD_BEFORE_KEY,
    TOO_SHORT_BEFORE_PASSWORD,
    TIME_BEFORE_TOO_LONG,
    ROWS_BEFORE_TIME,
    COLUMNS_BEFORE_ROWS,
    LANES_BEFORE_COLUMNS,
    LANES_BEFORE_ROWS,
    LANES_BEFORE_TIME,
    LANES_BEFORE_TOO_LONG,
    LANES_BEFORE_KEY,
    MATRIX_BEFORE_LANES,
    MATRIX_BEFORE_TIME,
    /* in the number */
    LANES_REFUSED_AS_ROWS,
    NO_TIME_REFUSED_AS_LANES,
    TOO_LONG_REFUSED_AS_TOO_SHORT,
    /* in the bits */
    LANES_CUT_TO_32_BITS,
    LANES_CUT_TO_16_BITS,
    ROWS_CUT_TO_32_BITS,
    TIME_CUT_TO_32_BITS,
    COLUMNS_CUT_TO_32_BITS,
    LENGTHS_CUT_TO_32_BITS,
};

static bool is_between(size_t number, size_t least, size_t most)
{
    return least <= number && number <= most;
}

static bool go_with_rows(int fault, size_t lanes, size_t rows)
{
    size_t fewest = fault == TWO_ROWS_OF_A_LANE_TAKEN ? 2 : fault == THREE_ROWS_OF_A_LANE_TAKEN ? 3 : 4;
    bool odd = fault == ODD_ROWS_OF_A_LANE_TAKEN || fault == THREE_ROWS_OF_A_LANE_TAKEN;
    if (fault == FOUR_ROWS_OF_A_LANE_REFUSED)
        fewest = 6;
    if (!is_between(lanes, 1, 9) || rows / lanes < fewest)
        return false;
    if (fault == ODD_ROWS_TAKEN || fault == UNEVEN_LANES_TAKEN)
        return fault == ODD_ROWS_TAKEN ? rows / 2 % lanes == 0 : rows % 2 == 0;
    return odd ? rows % 2 == 0 && rows % lanes == 0 : rows % (2 * lanes) == 0;
}

static bool are_lanes(int fault, const struct lane_sizes *n)
{
    if (n->lanes == 0)
        return fault == NO_LANES_TAKEN;
    return is_between(n->lanes, 1 + (fault == ONE_LANE_REFUSED),
                      (size_t)8 + (fault == NINE_LANES_TAKEN) - (fault == EIGHT_LANES_REFUSED))
        && go_with_rows(fault, n->lanes, n->rows);
}

static bool is_matrix(int fault, const struct lane_sizes *n)
{
    size_t rows = fault == MATRIX_OF_A_LANE_TAKEN && n->lanes > 0 ? n->rows / n->lanes : n->rows;
    size_t due = LYRA2_MATRIX_WORDS(rows, n->columns);
    return n->matrix >= due - (fault == MATRIX_A_WORD_SHORT_TAKEN) + (fault == MATRIX_THAT_FITS_REFUSED);
}

static bool passes(int fault, uint32_t check, const struct lane_sizes *n)
{
    switch (check) {
    case LYRA2_REFUSED_KEY:
        return is_between(n->key, fault != NO_KEY_TAKEN,
                          (size_t)1024 + (fault == KEY_OF_1025_TAKEN) - (fault == KEY_OF_1024_REFUSED));
    case LYRA2_REFUSED_PASSWORD:
        return n->password <= (size_t)1024 + (fault == PASSWORD_OF_1025_TAKEN) - (fault == PASSWORD_OF_1024_REFUSED);
    case LYRA2_REFUSED_SALT_TOO_SHORT:
        return n->salt >= (size_t)8 - (fault == SALT_OF_7_TAKEN) + (fault == SALT_OF_8_REFUSED);
    case LYRA2_REFUSED_SALT_TOO_LONG:
        return n->salt <= (size_t)64 + (fault == SALT_OF_65_TAKEN) - (fault == SALT_OF_64_REFUSED);
    case LYRA2_REFUSED_TIME:
        return is_between(n->time, (size_t)1 - (fault == NO_TIME_TAKEN) + (fault == TIME_OF_1_REFUSED),
                          (size_t)255 + (fault == TIME_OF_256_TAKEN) - (fault == TIME_OF_255_REFUSED));
    case LYRA2_REFUSED_ROWS:
        return is_between(n->rows, (size_t)3 - (fault == TWO_ROWS_REFUSED_LATER) + (fault == THREE_ROWS_REFUSED_AS_ROWS),
                          fault == TOO_MANY_ROWS_TAKEN ? 32768 : (size_t)16384 - (fault == MOST_ROWS_REFUSED));
    case LYRA2_REFUSED_COLUMNS:
        return is_between(n->columns, fault != NO_COLUMNS_TAKEN,
                          (size_t)256 + (fault == COLUMNS_OF_257_TAKEN) - (fault == COLUMNS_OF_256_REFUSED));
    case LYRA2_REFUSED_LANES:
        return are_lanes(fault, n);
    default:
        return is_matrix(fault, n);
    }
}

/* The number of the later one of two checks that apply, where the fault exchanges them, or else of the first. */
static uint32_t exchange(int fault, uint32_t first, const struct lane_sizes *n)
{
    static const uint32_t pairs[][2] = {
        {LYRA2_REFUSED_KEY, LYRA2_REFUSED_PASSWORD},
        {LYRA2_REFUSED_PASSWORD, LYRA2_REFUSED_SALT_TOO_SHORT},
        {LYRA2_REFUSED_SALT_TOO_LONG, LYRA2_REFUSED_TIME},
        {LYRA2_REFUSED_TIME, LYRA2_REFUSED_ROWS},
        {LYRA2_REFUSED_ROWS, LYRA2_REFUSED_COLUMNS},
        {LYRA2_REFUSED_COLUMNS, LYRA2_REFUSED_LANES},
        {LYRA2_REFUSED_ROWS, LYRA2_REFUSED_LANES},
        {LYRA2_REFUSED_TIME, LYRA2_REFUSED_LANES},
        {LYRA2_REFUSED_SALT_TOO_LONG, LYRA2_REFUSED_LANES},
        {LYRA2_REFUSED_KEY, LYRA2_REFUSED_LANES},
        {LYRA2_REFUSED_LANES, LYRA2_REFUSED_MATRIX},
        {LYRA2_REFUSED_TIME, LYRA2_REFUSED_MATRIX},
    };
    if (fault < PASSWORD_BEFORE_KEY || fault > MATRIX_BEFORE_TIME)
        return first;
    const uint32_t *pair = pairs[fault - PASSWORD_BEFORE_KEY];
    return first == pair[0] && !passes(fault, pair[1], n) ? pair[1] : first;
}

/* The number in the place of the one that is due. */
static uint32_t renumber(int fault, uint32_t refusal, const struct lane_sizes *n)
{
    if (fault == LANES_REFUSED_AS_ROWS && refusal == LYRA2_REFUSED_LANES)
        return LYRA2_REFUSED_ROWS;
    if (fault == NO_TIME_REFUSED_AS_LANES && refusal == LYRA2_REFUSED_TIME && n->time == 0)
        return LYRA2_REFUSED_LANES;
    if (fault == TOO_LONG_REFUSED_AS_TOO_SHORT && refusal == LYRA2_REFUSED_SALT_TOO_LONG)
        return LYRA2_REFUSED_SALT_TOO_SHORT;
    return exchange(fault, refusal, n);
}

/* The numbers as a library takes them that loses bits. */
static struct lane_sizes cut(int fault, struct lane_sizes n)
{
    if (fault == LANES_CUT_TO_32_BITS)
        n.lanes = (uint32_t)n.lanes;
    if (fault == LANES_CUT_TO_16_BITS)
        n.lanes = (uint16_t)n.lanes;
    if (fault == ROWS_CUT_TO_32_BITS)
        n.rows = (uint32_t)n.rows;
    if (fault == TIME_CUT_TO_32_BITS)
        n.time = (uint32_t)n.time;
    if (fault == COLUMNS_CUT_TO_32_BITS)
        n.columns = (uint32_t)n.columns;
    if (fault == LENGTHS_CUT_TO_32_BITS) {
        n.key = (uint32_t)n.key;
        n.password = (uint32_t)n.password;
        n.salt = (uint32_t)n.salt;
    }
    return n;
}

uint32_t judge_lanes(int first, const struct lane_sizes *given, bool has_matrix)
{
    static const uint32_t checks[] = {
        LYRA2_REFUSED_KEY,  LYRA2_REFUSED_PASSWORD, LYRA2_REFUSED_SALT_TOO_SHORT, LYRA2_REFUSED_SALT_TOO_LONG,
        LYRA2_REFUSED_TIME, LYRA2_REFUSED_ROWS,     LYRA2_REFUSED_COLUMNS,        LYRA2_REFUSED_LANES,
        LYRA2_REFUSED_MATRIX};
    int fault = FAULT - first;
    struct lane_sizes n = cut(fault, *given);
    for (size_t i = 0; i < sizeof checks / sizeof *checks; i++)
        if ((has_matrix || checks[i] != LYRA2_REFUSED_MATRIX) && !passes(fault, checks[i], &n))
            return renumber(fault, checks[i], &n);
    return LYRA2_ACCEPTED;
}
