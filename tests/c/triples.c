/*
 * The choice of costs against searches that know from the cost question alone what T, R and C spend, and try where the
 * rule divides: over all triples where few cells fit, and by halving for each column count up to the greatest matrix.
 * And derivations with what was chosen.
 */
#include "calls.h"
#include "choice_calls.h"

#include <inttypes.h>
#include <stdio.h>

enum { FEW = 40, RANDOM_CHOICES = 3000, MOST_CELLS = LYRA2_ROWS_MAX * LYRA2_COLUMNS_MAX };

/* Lengths with one to eighteen blocks of input and one to eleven pieces of the key. */
static const struct choice_sizes lengths[] = {
    {.key = 32, .password = 31, .salt = 8},
    {.key = 97, .password = 0, .salt = 40},
    {.key = 1, .password = LYRA2_PASSWORD_MAX, .salt = LYRA2_SALT_MAX},
    {.key = LYRA2_KEY_MAX, .password = 0, .salt = 8},
};
static const size_t rounds[] = {1, 2, 5, 7, LYRA2_REDUCED_ROUNDS_MAX};
static const size_t tries[] = {1, 2, 3, 5, 16, 255, 256, 257, SIZE_MAX};
enum {
    LENGTHS = sizeof lengths / sizeof *lengths,
    ROUNDS = sizeof rounds / sizeof *rounds,
    TRIES = sizeof tries / sizeof *tries,
};

struct triple {
    size_t time, rows, columns;
};

/* Whether the cost question accepts a triple and it stays within the matrix and the budget. */
static bool fits(const struct choice_sizes *n, struct triple t)
{
    uint64_t counts[LYRA2_COUNTS];
    return LYRA2_MATRIX_WORDS(t.rows, t.columns) <= n->matrix
        && lyra2_cost(n->key, n->password, n->salt, t.time, t.rows, t.columns, n->rounds, counts) == LYRA2_ACCEPTED
        && counts[LYRA2_ROUNDS] <= n->budget;
}

static uint64_t full_spent(const struct choice_sizes *n)
{
    uint64_t counts[LYRA2_COUNTS];
    uint32_t answer = lyra2_cost(n->key, n->password, n->salt, 1, LYRA2_ROWS_MIN, 1, n->rounds, counts);
    if (answer != LYRA2_ACCEPTED)
        fail("refused: %s", lyra2_sentence(answer));
    return 12 * counts[LYRA2_FULL_CALLS];
}

/* Sizes with the turn's lengths, rounds and tries, a matrix of these cells and some words that make no cell, and a
 * budget that pays so many reduced calls. */
static struct choice_sizes sizes_of(size_t turn, size_t cells, uint64_t reduced)
{
    struct choice_sizes n = lengths[turn % LENGTHS];
    n.rounds = rounds[turn % ROUNDS];
    n.tries = tries[turn % TRIES];
    n.matrix = 12 * cells + turn % 12;
    n.budget = full_spent(&n) + n.rounds * reduced;
    return n;
}

/* ---- over all triples */

static void require(bool holds, const char *what, const struct choice_sizes *n, const struct choice *c)
{
    if (!holds)
        fail("choose: %s: answer %u, T %zu, R %zu, C %zu, shortfall %zu: key %zu, password %zu, salt %zu, matrix %zu, "
             "budget %" PRIu64 ", rounds %zu, tries %zu", what, c->answer, c->time, c->rows, c->columns, c->shortfall,
             n->key, n->password, n->salt, n->matrix, n->budget, n->rounds, n->tries);
}

/* What the choice promises against a triple that fits. */
static void require_against(const struct triple *t, const struct choice_sizes *n, const struct choice *c)
{
    size_t cells = t->rows * t->columns, chosen = c->rows * c->columns;
    require(c->answer == LYRA2_ACCEPTED, "refused, though a triple fits", n, c);
    require(cells <= chosen + c->shortfall, "a triple has more cells than the shortfall says", n, c);
    if (n->tries >= LYRA2_COLUMNS_MAX)
        require(cells <= chosen, "a triple has more cells", n, c);
    if (t->columns <= n->tries) {
        require(cells <= chosen, "a column count that is tried has more cells", n, c);
        require(cells < chosen || t->columns >= c->columns, "fewer columns have as many cells", n, c);
    }
}

/* What it promises of itself. */
static void require_fitting(const struct choice_sizes *n, const struct choice *c)
{
    struct triple chosen = {c->time, c->rows, c->columns};
    require(c->time >= 1 && fits(n, chosen), "it does not fit", n, c);
    require(c->columns <= n->tries, "more columns than are tried", n, c);
    chosen.time++;
    require(!fits(n, chosen), "a greater T fits", n, c);
}

/* All triples with T at least 1 and up to twice FEW cells; no matrix that is asked about is long enough for more. */
static void require_searched(const struct choice_sizes *n)
{
    struct choice c = ask_choice(n);
    struct triple t;
    bool any = false;
    for (t.columns = 1; t.columns <= 2 * FEW; t.columns++)
        for (t.rows = LYRA2_ROWS_MIN; t.rows * t.columns <= 2 * FEW; t.rows++)
            for (t.time = 1; t.time <= LYRA2_TIME_MAX; t.time++)
                if (fits(n, t)) {
                    require_against(&t, n, &c);
                    any = true;
                }
    if (any)
        require_fitting(n, &c);
    else
        require(c.answer == LYRA2_REFUSED_NOTHING_FITS, "16 is due, since no triple fits", n, &c);
}

/* Every number of cells up to FEW, from the matrix and from the budget, and budgets that some T just spends. */
static void search_few(void)
{
    static const size_t times[] = {1, 2, 3, 100, LYRA2_TIME_MAX - 1, LYRA2_TIME_MAX, LYRA2_TIME_MAX + 1};
    size_t turn = 0;
    for (size_t cells = 0; cells <= FEW; cells++) {
        for (size_t paid = 0; paid <= FEW; paid++) {
            struct choice_sizes n = sizes_of(turn++, cells, 2 * paid);
            require_searched(&n);
            n.budget--;
            require_searched(&n);
        }
        for (size_t i = 0; i < sizeof times / sizeof *times; i++) {
            struct choice_sizes n = sizes_of(turn++, cells, cells * (times[i] + 1));
            require_searched(&n);
            n.budget--;
            require_searched(&n);
        }
    }
}

/* ---- by halving */

/* Conditions that hold up to some number: that a triple fits with this T or this R, and that the matrix has so many
 * cells and the budget pays two reduced calls for each. */
typedef bool condition(const struct choice_sizes *n, struct triple t, size_t number);

static bool time_fits(const struct choice_sizes *n, struct triple t, size_t time)
{
    t.time = time;
    return fits(n, t);
}

static bool rows_fit(const struct choice_sizes *n, struct triple t, size_t rows)
{
    t.rows = rows;
    return fits(n, t);
}

static bool cells_fit(const struct choice_sizes *n, struct triple t, size_t cells)
{
    uint64_t full = full_spent(n);
    (void)t;
    return 12 * cells <= n->matrix && full <= n->budget && 2 * n->rounds * cells <= n->budget - full;
}

/* The greatest number of a range for which the condition holds, 0 if there is none. */
static size_t greatest(condition *holds, const struct choice_sizes *n, struct triple t, size_t least, size_t most)
{
    if (!holds(n, t, least))
        return 0;
    while (least < most) {
        size_t middle = least + (most - least + 1) / 2;
        if (holds(n, t, middle))
            least = middle;
        else
            most = middle - 1;
    }
    return least;
}

/* The choice that is due for accepted lengths and rounds. */
static struct choice due_choice(const struct choice_sizes *n)
{
    struct triple t = {1, 0, 0}, best = t;
    size_t limit = greatest(cells_fit, n, t, 0, MOST_CELLS);
    if (limit < LYRA2_ROWS_MIN)
        return refused_choice(LYRA2_REFUSED_NOTHING_FITS);
    for (t.columns = 1; t.columns <= n->tries && t.columns <= LYRA2_COLUMNS_MAX; t.columns++) {
        t.rows = greatest(rows_fit, n, t, LYRA2_ROWS_MIN, LYRA2_ROWS_MAX);
        if (t.rows * t.columns > best.rows * best.columns)
            best = t;
    }
    best.time = greatest(time_fits, n, best, 1, LYRA2_TIME_MAX);
    return (struct choice){LYRA2_ACCEPTED, best.time, best.rows, best.columns, limit - best.rows * best.columns};
}

static void require_halved(const struct choice_sizes *n)
{
    require_chosen("by halving", n, due_choice(n));
}

/* Cells about the most rows of some columns, where the best column count changes from one number to the next. */
static void halve_many(void)
{
    static const size_t columns[] = {1, 2, 3, 16, 100, 254, 255, 256};
    size_t turn = 0;
    for (size_t i = 0; i < sizeof columns / sizeof *columns; i++)
        for (size_t cells = LYRA2_ROWS_MAX * columns[i] - 8; cells <= LYRA2_ROWS_MAX * columns[i] + 8; cells++)
            for (size_t j = 0; j < TRIES; j++) {
                struct choice_sizes n = sizes_of(turn++, cells, 2 * cells);
                n.tries = tries[j];
                require_halved(&n);
                n.budget *= 1 + turn % 300;
                require_halved(&n);
                n.matrix = SIZE_MAX;
                require_halved(&n);
            }
}

static uint64_t next_random(void)
{
    static uint64_t x = 1;
    x ^= x << 13;
    x ^= x >> 7;
    x ^= x << 17;
    return x;
}

/* A number of any size up to so many bits. */
static uint64_t random_number(unsigned bits)
{
    return next_random() >> 11 & ((UINT64_C(2) << next_random() % bits) - 1);
}

static void halve_random(void)
{
    for (size_t i = 0; i < RANDOM_CHOICES; i++) {
        size_t cells = random_number(23), columns = random_number(9);
        uint64_t reduced = cells * (2 + random_number(8)) + random_number(20);
        struct choice_sizes n = sizes_of(next_random() >> 40, cells, reduced);
        n.rounds = 1 + next_random() % LYRA2_REDUCED_ROUNDS_MAX;
        n.tries = columns > 0 ? columns : SIZE_MAX;
        require_halved(&n);
    }
}

/* ---- by deriving */

/* A derivation with the chosen costs is accepted over the whole matrix and stays within the budget. */
static void require_derived(const struct choice_sizes *n)
{
    struct choice c = ask_choice(n);
    struct sizes sizes = {.key = n->key, .password = n->password, .salt = n->salt, .time = c.time, .rows = c.rows,
                          .columns = c.columns, .rounds = n->rounds, .rotation = LYRA2_ROTATION_USUAL,
                          .mixer = LYRA2_MIXER_USUAL, .matrix = n->matrix};
    struct call call;
    make_call(&call, PLAIN, sizes, (struct contents){NULL, NULL, NULL});
    require(call.answer == LYRA2_ACCEPTED, "a derivation is refused", n, &c);
    require(((uint64_t *)lent_part(&call.counts))[LYRA2_ROUNDS] <= n->budget, "a derivation spends more", n, &c);
    end_call(&call);
}

static void derive_few(void)
{
    for (size_t cells = LYRA2_ROWS_MIN; cells <= FEW; cells++) {
        struct choice_sizes n = sizes_of(cells, cells, 3 * cells - cells % 3);
        require_derived(&n);
    }
    struct choice_sizes many = sizes_of(8, LYRA2_ROWS_MAX + 27, 5 * LYRA2_ROWS_MAX);
    require_derived(&many);
}

int main(void)
{
    search_few();
    halve_many();
    halve_random();
    derive_few();
    printf("choices of costs and triples: %zu calls\n", calls_made);
    return 0;
}
