/*
 * Choosing costs from C: worked choices for each part of the rule, of every two checks that apply the one that is
 * tested first, and the limits of the numbers, no bit of which is lost.
 */
#include "calls.h"
#include "choice_calls.h"

#include <stdio.h>
#include <string.h>

/* The lengths below make two full calls, one for the input's only block and one for the key's only piece. */
enum { FULL_SPENT = 24, MOST_CELLS = LYRA2_ROWS_MAX * LYRA2_COLUMNS_MAX };

/* T = 1, R = 3 and C = 1 just fit. */
static const struct choice_sizes least = {
    .key = 32,
    .password = 31,
    .salt = 8,
    .matrix = LYRA2_MATRIX_WORDS(3, 1),
    .budget = FULL_SPENT + 6,
    .rounds = 1,
    .tries = 1,
};
static const struct choice least_choice = {LYRA2_ACCEPTED, 1, 3, 1, 0};

/* As much as there are numbers for, so that nothing but the limits of T, R and C holds the choice. */
static const struct choice_sizes most = {
    .key = 32,
    .password = 31,
    .salt = 8,
    .matrix = SIZE_MAX,
    .budget = UINT64_MAX,
    .rounds = 1,
    .tries = SIZE_MAX,
};
static const struct choice most_choice = {LYRA2_ACCEPTED, LYRA2_TIME_MAX, LYRA2_ROWS_MAX, LYRA2_COLUMNS_MAX, 0};

/* ---- the full calls */

/* The lengths make so many if T = 1 fits with a round for each of its six reduced calls, and not with a round less. */
static void require_full_calls(size_t key, size_t password, size_t salt, uint64_t full)
{
    struct choice_sizes n = least;
    n.key = key;
    n.password = password;
    n.salt = salt;
    n.budget = 12 * full + 6;
    require_chosen("full calls", &n, least_choice);
    n.budget--;
    require_chosen("full calls", &n, refused_choice(LYRA2_REFUSED_NOTHING_FITS));
    n.budget = 12 * full - 1;
    require_chosen("full calls above the budget", &n, refused_choice(LYRA2_REFUSED_NOTHING_FITS));
}

static void require_lengths(void)
{
    require_full_calls(1, 31, 8, 2);
    require_full_calls(96, 31, 8, 2);
    require_full_calls(97, 31, 8, 3);
    require_full_calls(192, 31, 8, 3);
    require_full_calls(193, 31, 8, 4);
    require_full_calls(LYRA2_KEY_MAX, 0, 8, 12);
    require_full_calls(32, 0, 39, 2);
    require_full_calls(32, 0, 40, 3);
    require_full_calls(32, 32, 8, 3);
    require_full_calls(32, 95, 8, 3);
    require_full_calls(32, 96, 8, 4);
    require_full_calls(1, LYRA2_PASSWORD_MAX, 8, 18);
    require_full_calls(LYRA2_KEY_MAX, LYRA2_PASSWORD_MAX, LYRA2_SALT_MAX, 29);
}

/* ---- the time */

/* For three cells: a budget that this T just spends, and a round less. */
static void require_time(size_t rounds, size_t spent)
{
    struct choice_sizes n = least;
    size_t time = spent < LYRA2_TIME_MAX ? spent : LYRA2_TIME_MAX;
    n.rounds = rounds;
    n.budget = FULL_SPENT + 3 * rounds * (spent + 1);
    require_chosen("T inside the budget", &n, (struct choice){LYRA2_ACCEPTED, time, 3, 1, 0});
    n.budget--;
    time = spent > LYRA2_TIME_MAX ? time : time - 1;
    require_chosen("T inside the budget", &n, (struct choice){LYRA2_ACCEPTED, time, 3, 1, 0});
}

static void require_times(void)
{
    static const size_t rounds[] = {1, 2, 7, LYRA2_REDUCED_ROUNDS_MAX};
    static const size_t spent[] = {2, 3, 100, LYRA2_TIME_MAX - 1, LYRA2_TIME_MAX, LYRA2_TIME_MAX + 1, 511, 1000000};
    for (size_t i = 0; i < sizeof rounds / sizeof *rounds; i++)
        for (size_t j = 0; j < sizeof spent / sizeof *spent; j++)
            require_time(rounds[i], spent[j]);
}

/* ---- the cells that matrix and budget leave */

/* With one column R and the shortfall tell them. */
static struct choice one_column(size_t cells, size_t time)
{
    size_t rows = cells < LYRA2_ROWS_MAX ? cells : LYRA2_ROWS_MAX;
    if (cells < LYRA2_ROWS_MIN)
        return refused_choice(LYRA2_REFUSED_NOTHING_FITS);
    return (struct choice){LYRA2_ACCEPTED, time, rows, 1, cells - rows};
}

/* Just enough words for these cells, as many more as make no cell, and a word less. */
static void require_matrix(size_t cells)
{
    struct choice_sizes n = most;
    n.tries = 1;
    n.matrix = 12 * cells;
    require_chosen("words of the matrix", &n, one_column(cells, LYRA2_TIME_MAX));
    n.matrix += 11;
    require_chosen("words of the matrix", &n, one_column(cells, LYRA2_TIME_MAX));
    n.matrix -= 12;
    require_chosen("words of the matrix", &n, one_column(cells - 1, LYRA2_TIME_MAX));
}

/* The same for the rounds of two reduced calls a cell. */
static void require_budget(size_t rounds, size_t cells, size_t time)
{
    struct choice_sizes n = most;
    n.tries = 1;
    n.rounds = rounds;
    n.budget = FULL_SPENT + 2 * rounds * cells;
    require_chosen("rounds of the budget", &n, one_column(cells, time));
    n.budget += 2 * rounds - 1;
    require_chosen("rounds of the budget", &n, one_column(cells, time));
    n.budget -= 2 * rounds;
    require_chosen("rounds of the budget", &n, one_column(cells - 1, time));
}

static void require_cells(void)
{
    static const size_t rounds[] = {1, 2, 7, LYRA2_REDUCED_ROUNDS_MAX};
    for (size_t i = 0; i < sizeof rounds / sizeof *rounds; i++) {
        require_budget(rounds[i], 3, 1);
        require_budget(rounds[i], 4, 1);
        require_budget(rounds[i], 1000, 1);
        require_budget(rounds[i], LYRA2_ROWS_MAX, 1);
        require_budget(rounds[i], LYRA2_ROWS_MAX + 1, 1);
        require_budget(rounds[i], MOST_CELLS, LYRA2_TIME_MAX);
    }
    require_matrix(3);
    require_matrix(4);
    require_matrix(1000);
    require_matrix(LYRA2_ROWS_MAX);
    require_matrix(LYRA2_ROWS_MAX + 1);
    require_matrix(MOST_CELLS);
}

/* ---- the column counts that are tried */

static void require_shape(const char *what, size_t cells, size_t tries, size_t rows, size_t columns)
{
    struct choice_sizes n = most;
    n.matrix = 12 * cells;
    n.tries = tries;
    require_chosen(what, &n, (struct choice){LYRA2_ACCEPTED, LYRA2_TIME_MAX, rows, columns, cells - rows * columns});
}

static void require_shapes(void)
{
    require_shape("other columns passed over", 3, SIZE_MAX, 3, 1);
    require_shape("other columns passed over", 5, SIZE_MAX, 5, 1);
    require_shape("the most rows", MOST_CELLS, 1, 16384, 1);
    require_shape("equal cells", 16384, 256, 16384, 1);
    require_shape("equal cells", 16385, 2, 16384, 1);
    require_shape("equal cells", 16385, 4, 16384, 1);
    require_shape("more cells after fewer", 16385, 5, 3277, 5);
    require_shape("more cells after fewer", 16385, 256, 3277, 5);
    require_shape("a prime number of cells", 16411, 1, 16384, 1);
    require_shape("a prime number of cells", 16411, 2, 8205, 2);
    require_shape("a prime number of cells", 16411, 256, 8205, 2);
    require_shape("equal cells, 255 and 256", 4177921, 256, 16384, 255);
    require_shape("the last column count", 4178176, 255, 16384, 255);
    require_shape("the last column count", 4178176, 256, 16321, 256);
    require_shape("the last column count", MOST_CELLS, 255, 16384, 255);
    require_shape("the last column count", MOST_CELLS, 256, 16384, 256);
    require_shape("more tries than columns", 4178175, 256, 16384, 255);
    require_shape("more tries than columns", 4178175, 257, 16384, 255);
    require_shape("more tries than columns", 4178175, SIZE_MAX, 16384, 255);
}

/* T goes by the cells that are chosen, and not by those that the matrix could have. */
static void require_time_of_shape(void)
{
    struct choice_sizes n = most;
    n.matrix = 12 * 16411;
    n.tries = 1;
    n.budget = FULL_SPENT + 16384 * 10;
    require_chosen("T of the chosen cells", &n, (struct choice){LYRA2_ACCEPTED, 9, 16384, 1, 27});
}

/* ---- pairs of checks */

/* A number has three sides at most. */
enum { SIDES = 4, LOW = 0, HIGH = 1, FAR = 2, FOURTH = 3 };

/* A number just below its limits, just above them, or as far above as there are numbers. */
static bool set(size_t *place, int side, size_t low, size_t high)
{
    *place = side == LOW ? low : side == HIGH ? high : SIZE_MAX;
    return side != FOURTH;
}

/* A matrix that lacks a word for three cells, a budget that lacks a round for them, or none of either. */
static bool leave_nothing(struct choice_sizes *n, int side)
{
    if (side == LOW)
        n->matrix = least.matrix - 1;
    else if (side == HIGH)
        n->budget = least.budget - 1;
    else if (side == FAR)
        n->budget = 0;
    else
        n->matrix = 0;
    return true;
}

/* Makes a check apply from one side, or says that it has no such side. */
static bool make_apply(struct choice_sizes *n, uint32_t check, int side)
{
    switch (check) {
    case LYRA2_REFUSED_KEY:
        return set(&n->key, side, LYRA2_KEY_MIN - 1, LYRA2_KEY_MAX + 1);
    case LYRA2_REFUSED_PASSWORD:
        return side != LOW && set(&n->password, side, 0, LYRA2_PASSWORD_MAX + 1);
    case LYRA2_REFUSED_SALT_TOO_SHORT:
        return side == LOW && set(&n->salt, side, LYRA2_SALT_MIN - 1, 0);
    case LYRA2_REFUSED_SALT_TOO_LONG:
        return side != LOW && set(&n->salt, side, 0, LYRA2_SALT_MAX + 1);
    case LYRA2_REFUSED_ROUNDS:
        return set(&n->rounds, side, LYRA2_REDUCED_ROUNDS_MIN - 1, LYRA2_REDUCED_ROUNDS_MAX + 1);
    case LYRA2_REFUSED_TRIES:
        return side == LOW && set(&n->tries, side, 0, 0);
    default:
        return leave_nothing(n, side);
    }
}

static const uint32_t order[] = {LYRA2_REFUSED_KEY,           LYRA2_REFUSED_PASSWORD, LYRA2_REFUSED_SALT_TOO_SHORT,
                                 LYRA2_REFUSED_SALT_TOO_LONG, LYRA2_REFUSED_ROUNDS,   LYRA2_REFUSED_TRIES,
                                 LYRA2_REFUSED_NOTHING_FITS};
enum { CHECKS = sizeof order / sizeof *order };

/* Whether two checks apply at once to no call: a salt is not both too short and too long. */
static bool exclude_each_other(uint32_t check, uint32_t later)
{
    return check == LYRA2_REFUSED_SALT_TOO_SHORT && later == LYRA2_REFUSED_SALT_TOO_LONG;
}

/* One check from one side, alone and with each later one from each of its sides. */
static void pair_with_later(size_t place, int side)
{
    struct choice_sizes one = most;
    if (!make_apply(&one, order[place], side))
        return;
    require_chosen("one refusal", &one, refused_choice(order[place]));
    for (size_t later = place + 1; later < CHECKS; later++)
        for (int later_side = 0; later_side < SIDES; later_side++) {
            struct choice_sizes two = one;
            if (!exclude_each_other(order[place], order[later]) && make_apply(&two, order[later], later_side))
                require_chosen("two refusals", &two, refused_choice(order[place]));
        }
}

/* ---- numbers at their limits and with each bit */

struct choice_limit {
    size_t place; /* of a number in struct choice_sizes */
    size_t least, most;
    uint32_t below, above;
};

static const struct choice_limit limits[] = {
    {offsetof(struct choice_sizes, key), LYRA2_KEY_MIN, LYRA2_KEY_MAX, LYRA2_REFUSED_KEY, LYRA2_REFUSED_KEY},
    {offsetof(struct choice_sizes, password), 0, LYRA2_PASSWORD_MAX, LYRA2_REFUSED_PASSWORD, LYRA2_REFUSED_PASSWORD},
    {offsetof(struct choice_sizes, salt), LYRA2_SALT_MIN, LYRA2_SALT_MAX, LYRA2_REFUSED_SALT_TOO_SHORT,
     LYRA2_REFUSED_SALT_TOO_LONG},
    {offsetof(struct choice_sizes, rounds), LYRA2_REDUCED_ROUNDS_MIN, LYRA2_REDUCED_ROUNDS_MAX, LYRA2_REFUSED_ROUNDS,
     LYRA2_REFUSED_ROUNDS},
};

static void require_with(const struct choice_limit *limit, size_t value, uint32_t due)
{
    struct choice_sizes n = most;
    *(size_t *)((uint8_t *)&n + limit->place) = value;
    require_chosen("a number at its limit", &n, due == LYRA2_ACCEPTED ? most_choice : refused_choice(due));
}

/* Numbers above the limit whose low bits are within it are refused too. */
static void require_limit(const struct choice_limit *limit)
{
    require_with(limit, limit->least, LYRA2_ACCEPTED);
    require_with(limit, limit->most, LYRA2_ACCEPTED);
    if (limit->least > 0)
        require_with(limit, limit->least - 1, limit->below);
    require_with(limit, limit->most + 1, limit->above);
    require_with(limit, SIZE_MAX, limit->above);
    for (size_t bit = 1; bit != 0; bit <<= 1)
        if (bit > limit->most)
            require_with(limit, bit + limit->least, limit->above);
}

/* Matrix, budget and tries may be any numbers. Three cells with the greatest T spend less than 1,024 rounds. */
static void require_bit(size_t bit)
{
    struct choice_sizes words = most, paid = most;
    size_t columns = bit < LYRA2_COLUMNS_MAX ? bit : LYRA2_COLUMNS_MAX;
    require_shape("a bit of the tries", MOST_CELLS, bit, LYRA2_ROWS_MAX, columns);
    words.matrix = bit;
    words.tries = 1;
    if (bit >= 12 * MOST_CELLS)
        require_chosen("a bit of the matrix", &words, one_column(MOST_CELLS, LYRA2_TIME_MAX));
    paid.matrix = least.matrix;
    paid.budget = bit;
    if (bit >= 1024)
        require_chosen("a bit of the budget", &paid, (struct choice){LYRA2_ACCEPTED, LYRA2_TIME_MAX, 3, 1, 0});
}

/* The sentences of the two refusals that the choice alone has. */
static void require_sentences(void)
{
    static const char tries[] = "at least one column count", fits[] = "fit the matrix and the budget";
    if (strstr(lyra2_sentence(LYRA2_REFUSED_TRIES), tries) == NULL)
        fail("'%s' does not say: %s", lyra2_sentence(LYRA2_REFUSED_TRIES), tries);
    if (strstr(lyra2_sentence(LYRA2_REFUSED_NOTHING_FITS), fits) == NULL)
        fail("'%s' does not say: %s", lyra2_sentence(LYRA2_REFUSED_NOTHING_FITS), fits);
}

int main(void)
{
    require_lengths();
    require_times();
    require_cells();
    require_shapes();
    require_time_of_shape();
    require_chosen("the greatest choice", &most, most_choice);
    for (size_t place = 0; place < CHECKS; place++)
        for (int side = 0; side < SIDES; side++)
            pair_with_later(place, side);
    for (size_t bit = 1; bit != 0; bit <<= 1)
        require_bit(bit);
    for (size_t i = 0; i < sizeof limits / sizeof *limits; i++)
        require_limit(&limits[i]);
    require_sentences();
    printf("choices of costs: %zu calls\n", calls_made);
    return 0;
}
