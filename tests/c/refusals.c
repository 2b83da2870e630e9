/* The order of the checks: of every two that apply the one that the operation tests first is answered, and a refused call
 * changes nothing but the fields of its answer, which become zero. */
#include "calls.h"

#include <stdio.h>

enum { SIDES = 3, LOW = 0, HIGH = 1, FAR = 2 };

/* The accepted sizes with the mixer that is being tried; no refusal may depend on it. */
static struct sizes base;

static bool set(size_t *place, size_t value)
{
    *place = value;
    return true;
}

/* A number just below its limits, just above them, or as far above as there are numbers. */
static bool set_number(size_t *place, int side, size_t low, size_t high)
{
    return set(place, side == LOW ? low : side == HIGH ? high : SIZE_MAX);
}

/* A length: only the cost question, which lends nothing, can be told of one that no memory has. */
static bool set_length(size_t *place, int side, size_t low, size_t high, enum operation operation)
{
    if (side == FAR && operation != COST)
        return false;
    return set_number(place, side, low, high);
}

/* Makes a check apply from one side, or says that it has no such side. */
static bool make_apply(struct sizes *n, uint32_t check, int side, enum operation operation)
{
    switch (check) {
    case LYRA2_REFUSED_KEY:
        return set_length(&n->key, side, LYRA2_KEY_MIN - 1, LYRA2_KEY_MAX + 1, operation);
    case LYRA2_REFUSED_PASSWORD:
        return side != LOW && set_length(&n->password, side, 0, LYRA2_PASSWORD_MAX + 1, operation);
    case LYRA2_REFUSED_SALT_TOO_SHORT:
        return side == LOW && set(&n->salt, LYRA2_SALT_MIN - 1);
    case LYRA2_REFUSED_SALT_TOO_LONG:
        return side != LOW && set_length(&n->salt, side, 0, LYRA2_SALT_MAX + 1, operation);
    case LYRA2_REFUSED_TIME:
        return side != LOW && set_number(&n->time, side, 0, LYRA2_TIME_MAX + 1);
    case LYRA2_REFUSED_ROWS:
        return set_number(&n->rows, side, LYRA2_ROWS_MIN - 1, LYRA2_ROWS_MAX + 1);
    case LYRA2_REFUSED_COLUMNS:
        return set_number(&n->columns, side, LYRA2_COLUMNS_MIN - 1, LYRA2_COLUMNS_MAX + 1);
    case LYRA2_REFUSED_ROUNDS:
        return set_number(&n->rounds, side, LYRA2_REDUCED_ROUNDS_MIN - 1, LYRA2_REDUCED_ROUNDS_MAX + 1);
    case LYRA2_REFUSED_ROTATION:
        return set_number(&n->rotation, side, LYRA2_ROTATION_MIN - 1, LYRA2_ROTATION_MAX + 1);
    case LYRA2_REFUSED_MATRIX:
        return side != FAR && set(&n->matrix, side == LOW ? 0 : base.matrix - 1);
    default:
        return side != FAR && set(&n->record, side == LOW ? 0 : base.record - 1);
    }
}

static void require_answer(enum operation operation, struct sizes sizes, uint32_t due)
{
    struct call call;
    make_call(&call, operation, sizes, (struct contents){NULL, NULL, NULL});
    if (call.answer != due)
        fail("%s: %u is due, %u was answered: key %zu, password %zu, salt %zu, T %zu, R %zu, C %zu, rounds %zu, "
             "rotation %zu, mixer %d, matrix %zu, record %zu", operation_names[operation], due, call.answer, sizes.key,
             sizes.password, sizes.salt, sizes.time, sizes.rows, sizes.columns, sizes.rounds, sizes.rotation,
             sizes.mixer, sizes.matrix, sizes.record);
    end_call(&call);
}

/* Whether two checks apply at once to no call: a salt is not both too short and too long. */
static bool exclude_each_other(uint32_t check, uint32_t later)
{
    return check == LYRA2_REFUSED_SALT_TOO_SHORT && later == LYRA2_REFUSED_SALT_TOO_LONG;
}

/* One check from one side, alone and with each later check of the operation from each of its sides. */
static void pair_with_later(enum operation operation, const uint32_t *check, int side)
{
    struct sizes one = base;
    if (!make_apply(&one, *check, side, operation))
        return;
    require_answer(operation, one, *check);
    for (const uint32_t *later = check + 1; *later != LYRA2_ACCEPTED; later++) {
        for (int later_side = 0; later_side < SIDES; later_side++) {
            struct sizes two = one;
            if (!exclude_each_other(*check, *later) && make_apply(&two, *later, later_side, operation))
                require_answer(operation, two, *check);
        }
    }
}

/* A check that the operation does not have changes nothing. */
static void ignore_check(enum operation operation, uint32_t check)
{
    for (int side = 0; side < SIDES; side++) {
        struct sizes one = base;
        if (make_apply(&one, check, side, operation))
            require_answer(operation, one, LYRA2_ACCEPTED);
    }
}

static void require_walk(size_t rows, size_t row0, uint32_t due)
{
    size_t row1;
    uint32_t answer = ask_walk(rows, row0, &row1);
    if (answer != due)
        fail("walk: %u is due for R %zu and row0 %zu, %u was answered", due, rows, row0, answer);
}

/* The walk question has two checks; row0 is measured by a number of rows that is itself accepted or not. */
static void pair_walk(void)
{
    const size_t rows[] = {0, LYRA2_ROWS_MIN - 1, LYRA2_ROWS_MAX + 1, SIZE_MAX};
    const size_t row0[] = {0, LYRA2_ROW0_MIN - 1, LYRA2_ROW0_MIN, 8, LYRA2_ROWS_MAX, LYRA2_ROWS_MAX + 1, SIZE_MAX};
    for (size_t i = 0; i < sizeof rows / sizeof *rows; i++)
        for (size_t j = 0; j < sizeof row0 / sizeof *row0; j++)
            require_walk(rows[i], row0[j], LYRA2_REFUSED_ROWS);
    require_walk(8, 7, LYRA2_ACCEPTED);
    const size_t wrong[] = {0, LYRA2_ROW0_MIN - 1, 8, 9, SIZE_MAX};
    for (size_t j = 0; j < sizeof wrong / sizeof *wrong; j++)
        require_walk(8, wrong[j], LYRA2_REFUSED_ROW0);
}

static void pair_checks(enum operation operation)
{
    require_answer(operation, base, LYRA2_ACCEPTED);
    for (const uint32_t *check = checks_of[operation]; *check != LYRA2_ACCEPTED; check++)
        for (int side = 0; side < SIDES; side++)
            pair_with_later(operation, check, side);
    for (const uint32_t *check = checks_of[RECORDED]; *check != LYRA2_ACCEPTED; check++)
        if (!has_check(operation, *check))
            ignore_check(operation, *check);
}

int main(void)
{
    base = accepted_sizes;
    for (size_t i = 0; i < MIXERS; i++) {
        base.mixer = mixers[i];
        for (enum operation operation = RECORDED; operation < OPERATIONS; operation++)
            pair_checks(operation);
    }
    pair_walk();
    printf("refusals in pairs: %zu calls\n", calls_made);
    return 0;
}
