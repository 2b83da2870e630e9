/*
 * The refusals of the calls with several lanes: the header's limits, which numbers of lanes go with which rows, of every
 * two checks that apply the one that is tested first, and numbers of 64 bits, no bit of which is lost.
 */
#include "lane_calls.h"

#include <stdio.h>
#include <string.h>

enum { SIDES = 4, MOST_SMALL_ROWS = 100, MOST_SMALL_LANES = 12, MOST_LENT = 1 << 17 };

/* 144 rows are a multiple of 2, 4, 6, 8, 12 and 16, and of 18, which 9 lanes would take; and neither of 10 nor of 14. */
static struct lane_sizes base(void)
{
    struct lane_sizes n = accepted_lanes;
    n.rows = 144;
    return fitting_lanes(n);
}

static void require_all(const char *what, struct lane_sizes n, uint32_t due)
{
    for (enum lane_operation operation = LANES_DERIVE; operation < LANE_OPERATIONS; operation++)
        require_lane_answer(what, operation, n, due);
}

/* ---- the limits */

struct limit {
    const char *name;
    size_t place; /* in the sizes */
    size_t least, most;
    uint32_t below, above;
};

static const struct limit limits[] = {
    {"the key's limit", offsetof(struct lane_sizes, key), LYRA2_KEY_MIN, LYRA2_KEY_MAX, LYRA2_REFUSED_KEY,
     LYRA2_REFUSED_KEY},
    {"the password's limit", offsetof(struct lane_sizes, password), 0, LYRA2_PASSWORD_MAX, LYRA2_REFUSED_PASSWORD,
     LYRA2_REFUSED_PASSWORD},
    {"the salt's limit", offsetof(struct lane_sizes, salt), LYRA2_SALT_MIN, LYRA2_SALT_MAX,
     LYRA2_REFUSED_SALT_TOO_SHORT, LYRA2_REFUSED_SALT_TOO_LONG},
    {"the limit of T", offsetof(struct lane_sizes, time), LYRA2_LANES_TIME_MIN, LYRA2_TIME_MAX, LYRA2_REFUSED_TIME,
     LYRA2_REFUSED_TIME},
    {"the limit of C", offsetof(struct lane_sizes, columns), LYRA2_COLUMNS_MIN, LYRA2_COLUMNS_MAX,
     LYRA2_REFUSED_COLUMNS, LYRA2_REFUSED_COLUMNS},
    {"the limit of the lanes", offsetof(struct lane_sizes, lanes), LYRA2_LANES_MIN, LYRA2_LANES_MAX,
     LYRA2_REFUSED_LANES, LYRA2_REFUSED_LANES},
};

static struct lane_sizes with(const struct limit *limit, size_t value)
{
    struct lane_sizes n = base();
    *(size_t *)((uint8_t *)&n + limit->place) = value;
    return fitting_lanes(n);
}

static void require_limit(const struct limit *limit)
{
    require_all(limit->name, with(limit, limit->least), LYRA2_ACCEPTED);
    require_all(limit->name, with(limit, limit->most), LYRA2_ACCEPTED);
    require_all(limit->name, with(limit, limit->most + 1), limit->above);
    if (limit->least > 0)
        require_all(limit->name, with(limit, limit->least - 1), limit->below);
}

/* The most rows that go with so many lanes are accepted and 2 * lanes more are not; nor are too few for any lanes. */
static void require_rows(size_t lanes)
{
    struct lane_sizes n = accepted_lanes;
    n.lanes = lanes;
    n.rows = LYRA2_ROWS_MAX / (2 * lanes) * (2 * lanes);
    require_all("the most rows", fitting_lanes(n), LYRA2_ACCEPTED);
    n.rows += 2 * lanes;
    require_all("the most rows", fitting_lanes(n), LYRA2_REFUSED_ROWS);
    n.rows = LYRA2_ROWS_MAX;
    require_all("the most rows", fitting_lanes(n), n.rows / 2 % lanes == 0 ? LYRA2_ACCEPTED : LYRA2_REFUSED_LANES);
    n.rows = LYRA2_LANE_ROWS_MIN * lanes;
    require_all("the fewest rows", fitting_lanes(n), LYRA2_ACCEPTED);
    n.rows -= 2 * lanes;
    require_all("too few rows", fitting_lanes(n), lanes == 1 ? LYRA2_REFUSED_ROWS : LYRA2_REFUSED_LANES);
    n.rows = LYRA2_ROWS_MIN;
    require_all("three rows", fitting_lanes(n), LYRA2_REFUSED_LANES);
    n.rows--;
    require_all("two rows", fitting_lanes(n), LYRA2_REFUSED_ROWS);
}

/* The used matrix is that of all lanes: with it a call is accepted, and with a word less refused. */
static void require_matrix(struct lane_sizes n)
{
    n = fitting_lanes(n);
    require_all("a matrix that fits", n, LYRA2_ACCEPTED);
    n.matrix--;
    for (enum lane_operation operation = LANES_DERIVE; operation < LANE_OPERATIONS; operation++)
        require_lane_answer("a word less", operation, n,
                            operation == LANES_COST ? LYRA2_ACCEPTED : LYRA2_REFUSED_MATRIX);
}

/* Every small number of lanes and rows, as the model tells them. */
static void require_small(void)
{
    struct lane_sizes n = accepted_lanes;
    for (n.lanes = 0; n.lanes <= MOST_SMALL_LANES; n.lanes++)
        for (n.rows = 0; n.rows <= MOST_SMALL_ROWS; n.rows++) {
            n = fitting_lanes(n);
            require_all("lanes and rows", n, model_refusal(LANES_DERIVE, &n));
        }
}

/* ---- pairs of checks */

static const uint32_t checks[] = {
    LYRA2_REFUSED_KEY,  LYRA2_REFUSED_PASSWORD, LYRA2_REFUSED_SALT_TOO_SHORT, LYRA2_REFUSED_SALT_TOO_LONG,
    LYRA2_REFUSED_TIME, LYRA2_REFUSED_ROWS,     LYRA2_REFUSED_COLUMNS,        LYRA2_REFUSED_LANES,
    LYRA2_REFUSED_MATRIX};
enum { CHECKS = sizeof checks / sizeof *checks };

static bool set(size_t *place, size_t value)
{
    *place = value;
    return true;
}

/* A number just below its limits, just above them, or as far above as there are numbers. */
static bool set_number(size_t *place, int side, size_t low, size_t high)
{
    return side < 3 && set(place, side == 0 ? low : side == 1 ? high : SIZE_MAX);
}

/* A length: only the cost question, which lends nothing, can be told of one that no memory has. */
static bool set_length(size_t *place, int side, size_t low, size_t high, enum lane_operation operation)
{
    return (side != 2 || operation == LANES_COST) && set_number(place, side, low, high);
}

/* Makes a check apply from one side, or says that it has no such side. */
static bool make_apply(struct lane_sizes *n, uint32_t check, int side, enum lane_operation operation)
{
    static const size_t lanes[SIDES] = {LYRA2_LANES_MIN - 1, LYRA2_LANES_MAX + 1, SIZE_MAX, 7};
    switch (check) {
    case LYRA2_REFUSED_KEY:
        return set_length(&n->key, side, LYRA2_KEY_MIN - 1, LYRA2_KEY_MAX + 1, operation);
    case LYRA2_REFUSED_PASSWORD:
        return side != 0 && set_length(&n->password, side, 0, LYRA2_PASSWORD_MAX + 1, operation);
    case LYRA2_REFUSED_SALT_TOO_SHORT:
        return side == 0 && set(&n->salt, LYRA2_SALT_MIN - 1);
    case LYRA2_REFUSED_SALT_TOO_LONG:
        return side != 0 && set_length(&n->salt, side, 0, LYRA2_SALT_MAX + 1, operation);
    case LYRA2_REFUSED_TIME:
        return set_number(&n->time, side, LYRA2_LANES_TIME_MIN - 1, LYRA2_TIME_MAX + 1);
    case LYRA2_REFUSED_ROWS:
        return set_number(&n->rows, side, LYRA2_ROWS_MIN - 1, LYRA2_ROWS_MAX + 1);
    case LYRA2_REFUSED_COLUMNS:
        return set_number(&n->columns, side, LYRA2_COLUMNS_MIN - 1, LYRA2_COLUMNS_MAX + 1);
    case LYRA2_REFUSED_LANES:
        return set(&n->lanes, lanes[side]);
    default:
        return side < 2 && set(&n->matrix, side == 0 ? 0 : n->matrix - 1);
    }
}

/* Whether both checks can apply to one call of the operation. */
static bool go_together(uint32_t check, uint32_t later, enum lane_operation operation)
{
    return !(check == LYRA2_REFUSED_SALT_TOO_SHORT && later == LYRA2_REFUSED_SALT_TOO_LONG)
        && !(later == LYRA2_REFUSED_MATRIX && operation == LANES_COST);
}

/* One check from one side, alone and with each later one from each of its sides. */
static void pair_with_later(enum lane_operation operation, size_t check, int side)
{
    struct lane_sizes one = base();
    if (!go_together(LYRA2_ACCEPTED, checks[check], operation) || !make_apply(&one, checks[check], side, operation))
        return;
    require_lane_answer("one refusal", operation, one, checks[check]);
    for (size_t later = check + 1; later < CHECKS; later++)
        for (int later_side = 0; later_side < SIDES; later_side++) {
            struct lane_sizes two = one;
            if (go_together(checks[check], checks[later], operation)
                && make_apply(&two, checks[later], later_side, operation))
                require_lane_answer("two refusals", operation, two, checks[check]);
        }
}

static void pair_checks(enum lane_operation operation)
{
    require_lane_answer("no refusal", operation, base(), LYRA2_ACCEPTED);
    for (size_t check = 0; check < CHECKS; check++)
        for (int side = 0; side < SIDES; side++)
            pair_with_later(operation, check, side);
}

/* ---- numbers of 64 bits */

/* Accepted numbers with one bit more. Only the cost question can be told of lengths that no memory has. */
static void require_bit(size_t bit)
{
    static const struct {
        size_t place;
        uint32_t due;
        bool is_length;
    } numbers[] = {
        {offsetof(struct lane_sizes, key), LYRA2_REFUSED_KEY, true},
        {offsetof(struct lane_sizes, password), LYRA2_REFUSED_PASSWORD, true},
        {offsetof(struct lane_sizes, salt), LYRA2_REFUSED_SALT_TOO_LONG, true},
        {offsetof(struct lane_sizes, time), LYRA2_REFUSED_TIME, false},
        {offsetof(struct lane_sizes, rows), LYRA2_REFUSED_ROWS, false},
        {offsetof(struct lane_sizes, columns), LYRA2_REFUSED_COLUMNS, false},
        {offsetof(struct lane_sizes, lanes), LYRA2_REFUSED_LANES, false},
    };
    for (size_t i = 0; i < sizeof numbers / sizeof *numbers; i++) {
        struct lane_sizes n = base();
        *(size_t *)((uint8_t *)&n + numbers[i].place) |= bit;
        require_lane_answer("a bit", LANES_COST, n, numbers[i].due);
        if (!numbers[i].is_length || bit <= MOST_LENT) {
            require_lane_answer("a bit", LANES_DERIVE, n, numbers[i].due);
            require_lane_answer("a bit", LANES_CHECK, n, numbers[i].due);
        }
    }
}

/* ---- the header */

static void require_sentence(uint32_t refusal, const char *words)
{
    if (strstr(lyra2_sentence(refusal), words) == NULL)
        fail("'%s' does not say: %s", lyra2_sentence(refusal), words);
}

static void require_sentences(void)
{
    require_sentence(LYRA2_REFUSED_LANES, "the lanes have to be 1 to 8");
    require_sentence(LYRA2_REFUSED_LANES, "the rows a multiple of 2 * lanes from 4 * lanes on");
    require_sentence(LYRA2_REFUSED_TIME, "with lanes not 0");
}

int main(void)
{
    for (size_t i = 0; i < sizeof limits / sizeof *limits; i++)
        require_limit(&limits[i]);
    for (size_t lanes = LYRA2_LANES_MIN; lanes <= LYRA2_LANES_MAX; lanes++)
        require_rows(lanes);
    require_matrix(accepted_lanes);
    require_matrix(base());
    require_small();
    for (enum lane_operation operation = LANES_DERIVE; operation < LANE_OPERATIONS; operation++)
        pair_checks(operation);
    for (size_t bit = 1 << 15; bit != 0; bit <<= 1)
        require_bit(bit);
    require_sentences();
    printf("refusals with lanes: %zu calls\n", calls_made);
    return 0;
}
