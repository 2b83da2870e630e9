/*
 * The part of the faulty library that is asked for a choice of costs: the faults from 501 on are in what it stores,
 * from 521 on in the refusals, from 551 on in the numbers that it takes, and from 561 on, which memcheck alone sees, in
 * what it reads. It never asks the library: the choice is made in faulty_rule.c.
 */
#include "faulty.h"
#include "lyra2.h"

#include <string.h>

enum {
    /* in what is stored */
    NOTHING_STORED = 501,
    TIME_NOT_STORED,
    ROWS_NOT_STORED,
    COLUMNS_NOT_STORED,
    SHORTFALL_NOT_STORED,
    TIME_AND_ROWS_EXCHANGED,
    ROWS_AND_COLUMNS_EXCHANGED,
    COLUMNS_AND_SHORTFALL_EXCHANGED,
    SHORTFALL_FIRST,
    A_FIFTH_VALUE,
    A_VALUE_BEFORE,
    VALUES_OF_32_BITS,
    REFUSED_VALUES_KEPT,
    REFUSED_TIME_KEPT,
    REFUSED_SHORTFALL_KEPT,
    REFUSED_WITH_A_SHORTFALL,
    /* in the refusals */
    NUMBERS_15_AND_16_EXCHANGED = 521,
    FIT_BEFORE_TRIES,
    TRIES_BEFORE_ROUNDS,
    FIT_BEFORE_ROUNDS,
    ROUNDS_BEFORE_LENGTHS,
    TRIES_BEFORE_LENGTHS,
    FIT_BEFORE_LENGTHS,
    NO_TRIES_TAKEN_FOR_ALL,
    TRIES_ABOVE_256_REFUSED,
    SHORT_MATRIX_ANSWERED_7,
    LONG_SALT_ANSWERED_3,
    EMPTY_KEY_TAKEN,
    KEY_OF_1025_TAKEN,
    PASSWORD_OF_1025_TAKEN,
    SALT_OF_7_TAKEN,
    SALT_OF_65_TAKEN,
    NO_ROUNDS_TAKEN,
    ROUNDS_13_TAKEN,
    ROUNDS_12_REFUSED,
    /* in the numbers that are given */
    KEY_AND_PASSWORD_EXCHANGED = 551,
    PASSWORD_AND_SALT_EXCHANGED,
    MATRIX_AND_BUDGET_EXCHANGED,
    ROUNDS_AND_TRIES_EXCHANGED,
    LENGTHS_OF_32_BITS,
    ROUNDS_OF_32_BITS,
    /* in what is read, seen by memcheck alone */
    VALUES_HELD_USED = 561,
    BRANCH_ON_VALUES_HELD,
    READ_PAST_THE_VALUES,
};

uint32_t __wrap_lyra2_choose(size_t key_len, size_t password_len, size_t salt_len, size_t matrix_words, uint64_t budget,
                             size_t rounds, size_t tries, size_t *values);

static uint32_t check_lengths(const struct choice_asked *n)
{
    bool empty = n->key < LYRA2_KEY_MIN && FAULT != EMPTY_KEY_TAKEN;
    if (empty || n->key > LYRA2_KEY_MAX + (FAULT == KEY_OF_1025_TAKEN))
        return LYRA2_REFUSED_KEY;
    if (n->password > LYRA2_PASSWORD_MAX + (FAULT == PASSWORD_OF_1025_TAKEN))
        return LYRA2_REFUSED_PASSWORD;
    if (n->salt < LYRA2_SALT_MIN - (FAULT == SALT_OF_7_TAKEN))
        return LYRA2_REFUSED_SALT_TOO_SHORT;
    if (n->salt > LYRA2_SALT_MAX + (FAULT == SALT_OF_65_TAKEN))
        return FAULT == LONG_SALT_ANSWERED_3 ? LYRA2_REFUSED_SALT_TOO_SHORT : LYRA2_REFUSED_SALT_TOO_LONG;
    return LYRA2_ACCEPTED;
}

static uint32_t check_rounds(const struct choice_asked *n)
{
    size_t least = LYRA2_REDUCED_ROUNDS_MIN - (FAULT == NO_ROUNDS_TAKEN);
    size_t most = LYRA2_REDUCED_ROUNDS_MAX + (FAULT == ROUNDS_13_TAKEN) - (FAULT == ROUNDS_12_REFUSED);
    return n->rounds < least || n->rounds > most ? LYRA2_REFUSED_ROUNDS : LYRA2_ACCEPTED;
}

static uint32_t check_tries(const struct choice_asked *n)
{
    if (n->tries > 0 && !has(TRIES_ABOVE_256_REFUSED, n->tries > LYRA2_COLUMNS_MAX))
        return LYRA2_ACCEPTED;
    return FAULT == NUMBERS_15_AND_16_EXCHANGED ? LYRA2_REFUSED_NOTHING_FITS : LYRA2_REFUSED_TRIES;
}

static uint32_t check_fit(const struct choice_asked *n)
{
    if (cell_limit(n) >= least_cells())
        return LYRA2_ACCEPTED;
    if (has(SHORT_MATRIX_ANSWERED_7, n->matrix < LYRA2_MATRIX_WORDS(3, 1)))
        return LYRA2_REFUSED_MATRIX;
    return FAULT == NUMBERS_15_AND_16_EXCHANGED ? LYRA2_REFUSED_TRIES : LYRA2_REFUSED_NOTHING_FITS;
}

typedef uint32_t check(const struct choice_asked *n);

/* The right order, and those of the faults from FIT_BEFORE_TRIES on. */
static check *const orders[][4] = {
    {check_lengths, check_rounds, check_tries, check_fit}, {check_lengths, check_rounds, check_fit, check_tries},
    {check_lengths, check_tries, check_rounds, check_fit}, {check_lengths, check_fit, check_rounds, check_tries},
    {check_rounds, check_lengths, check_tries, check_fit}, {check_tries, check_lengths, check_rounds, check_fit},
    {check_fit, check_lengths, check_rounds, check_tries},
};

static uint32_t first_refusal(const struct choice_asked *n)
{
    bool ordered = FIT_BEFORE_TRIES <= FAULT && FAULT <= FIT_BEFORE_LENGTHS;
    check *const *order = orders[ordered ? FAULT - FIT_BEFORE_TRIES + 1 : 0];
    uint32_t refusal = LYRA2_ACCEPTED;
    for (size_t i = 0; i < 4 && refusal == LYRA2_ACCEPTED; i++)
        refusal = order[i](n);
    return refusal;
}

static void exchange(size_t *one, size_t *other)
{
    size_t held = *one;
    *one = *other;
    *other = held;
}

static void spoil_numbers(struct choice_asked *n)
{
    uint64_t budget = n->budget;
    if (FAULT == KEY_AND_PASSWORD_EXCHANGED)
        exchange(&n->key, &n->password);
    if (FAULT == PASSWORD_AND_SALT_EXCHANGED)
        exchange(&n->password, &n->salt);
    if (FAULT == MATRIX_AND_BUDGET_EXCHANGED) {
        n->budget = n->matrix;
        n->matrix = budget;
    }
    if (FAULT == ROUNDS_AND_TRIES_EXCHANGED)
        exchange(&n->rounds, &n->tries);
    if (FAULT == LENGTHS_OF_32_BITS) {
        n->key = (uint32_t)n->key;
        n->password = (uint32_t)n->password;
        n->salt = (uint32_t)n->salt;
    }
    if (FAULT == ROUNDS_OF_32_BITS)
        n->rounds = (uint32_t)n->rounds;
    if (has(NO_TRIES_TAKEN_FOR_ALL, n->tries == 0))
        n->tries = LYRA2_COLUMNS_MAX;
}

static void store_accepted(size_t *values, const struct choice_asked *n)
{
    size_t due[LYRA2_CHOICE_VALUES];
    choose_anew(n, due);
    if (FAULT == TIME_AND_ROWS_EXCHANGED)
        exchange(&due[0], &due[1]);
    if (FAULT == ROWS_AND_COLUMNS_EXCHANGED)
        exchange(&due[1], &due[2]);
    if (FAULT == COLUMNS_AND_SHORTFALL_EXCHANGED)
        exchange(&due[2], &due[3]);
    if (FAULT == SHORTFALL_FIRST)
        for (size_t i = 3; i > 0; i--)
            exchange(&due[i], &due[i - 1]);
    for (int i = 0; i < LYRA2_CHOICE_VALUES; i++)
        if (FAULT != NOTHING_STORED && FAULT != TIME_NOT_STORED + i)
            memcpy(&values[i], &due[i], FAULT == VALUES_OF_32_BITS ? sizeof(uint32_t) : sizeof(size_t));
    if (FAULT == A_FIFTH_VALUE)
        values[LYRA2_CHOICE_VALUES] = 0;
    if (FAULT == A_VALUE_BEFORE)
        values[-1] = 0;
}

static void store_refused(size_t *values, const struct choice_asked *n, uint32_t refusal)
{
    for (int i = 0; i < LYRA2_CHOICE_VALUES; i++)
        if (FAULT != REFUSED_VALUES_KEPT && !has(REFUSED_TIME_KEPT, i == LYRA2_CHOICE_TIME)
            && !has(REFUSED_SHORTFALL_KEPT, i == LYRA2_CHOICE_SHORTFALL))
            values[i] = 0;
    if (has(REFUSED_WITH_A_SHORTFALL, refusal == LYRA2_REFUSED_NOTHING_FITS))
        values[LYRA2_CHOICE_SHORTFALL] = cell_limit(n);
}

uint32_t __wrap_lyra2_choose(size_t key_len, size_t password_len, size_t salt_len, size_t matrix_words, uint64_t budget,
                             size_t rounds, size_t tries, size_t *values)
{
    struct choice_asked n = {key_len, password_len, salt_len, matrix_words, budget, rounds, tries};
    volatile size_t held = FAULT == VALUES_HELD_USED || FAULT == BRANCH_ON_VALUES_HELD ? values[0] : 0;
    spoil_numbers(&n);
    uint32_t refusal = first_refusal(&n);
    if (refusal == LYRA2_ACCEPTED)
        store_accepted(values, &n);
    else
        store_refused(values, &n, refusal);
    if (FAULT == VALUES_HELD_USED)
        values[0] += held - held;
    if (has(BRANCH_ON_VALUES_HELD, held == 1))
        held = 0;
    if (FAULT == READ_PAST_THE_VALUES)
        held = values[LYRA2_CHOICE_VALUES];
    return refusal;
}
