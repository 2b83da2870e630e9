/*
 * The part of the faulty library that answers calls with several lanes: the faults from 1300 on are in what it stores,
 * those from 1400 on are seen by memcheck alone, and those from 1450 on by the search of the stack alone. Those in the key
 * are in faulty_lane_keys.c, and those in the refusals in faulty_lane_checks.c.
 */
#include "faulty.h"
#include "lane_model.h"

#include <stdlib.h>
#include <string.h>

/* The first fault of each operation in the counts, and in the matrix. */
enum { COUNTS_OF_DERIVE = 1300, COUNTS_OF_CHECK = 1320, COUNTS_OF_COST = 1340 };
enum { MATRIX_OF_DERIVE = 1360, MATRIX_OF_CHECK = 1370 };

/* In the counts. */
enum {
    A_FULL_CALL_MORE,
    A_REDUCED_CALL_LESS,
    A_ROUND_MORE,
    FULL_CALLS_OF_A_LANE,
    REDUCED_CALLS_OF_A_LANE,
    BLOCKS_OF_SIX_NUMBERS,
    PIECES_OF_A_LANE,
    SETUP_NOT_COUNTED,
    VISITS_COUNTED_TWICE,
    ROUNDS_NOT_STORED,
    A_FOURTH_COUNT,
    REFUSED_COUNTS_KEPT,
};

/* In the matrix. */
enum {
    FIRST_WORD_LEFT,
    LAST_WORD_LEFT,
    LAST_LANE_LEFT,
    ALL_LEFT,
    PAST_WIPED,
    PAST_CHANGED,
    REFUSED_MATRIX_WIPED,
    REFUSED_LANES_WRITE_THE_MATRIX,
};

enum {
    /* in what else is stored */
    KEY_WRITTEN_PAST = 1380,
    REFUSED_KEY_WRITTEN,
    REFUSED_LANES_WRITE_THE_KEY,
    PASSWORD_WIPED,
    SALT_WRITTEN,
    LAST_BYTE_OF_THE_KEY_NOT_WRITTEN,
    SAME_ALWAYS_YES = 1390,
    SAME_ALWAYS_NO,
    REFUSED_SAME_KEPT,
    REFUSED_SAME_YES,
    SAME_OF_MORE_BYTES,
    STORED_WRITTEN,
    CHECK_WITH_ONE_LANE,
    LAST_BYTE_NOT_COMPARED,
    FIRST_PIECE_COMPARED_ALONE,
    /* seen by memcheck alone */
    REFUSED_SALT_READ = 1401,
    PASSWORD_READ_PAST,
    KEY_FROM_WHAT_WAS_HELD,
    REFUSED_MATRIX_REWRITTEN,
    REFUSED_STORED_READ,
    STORED_COMPARED_WITH_EARLY_EXIT,
    SAME_FROM_WHAT_WAS_HELD,
    COUNTS_FROM_WHAT_WAS_HELD,
    /* seen by the search of the stack alone */
    DERIVE_LEAVES_THE_KEY = 1450,
    DERIVE_LEAVES_A_BYTE,
    DERIVE_LEAVES_THE_PASSWORD,
    SEVERAL_LANES_LEAVE_THE_PASSWORD,
    DERIVE_LEAVES_THE_LAST_STATE,
    DERIVE_LEAVES_THE_LAST_LANES_KEY,
    DERIVE_LEAVES_THE_MATRIX,
    CHECK_LEAVES_THE_KEY,
    CHECK_LEAVES_A_BYTE,
    CHECK_LEAVES_THE_PASSWORD,
    CHECK_LEAVES_THE_FIRST_STATE,
    CHECK_LEAVES_A_ROW,
};

#define INPUT_PARAMETERS                                                                                           \
    const uint8_t *password, size_t password_len, const uint8_t *salt, size_t salt_len, size_t time, size_t rows, \
        size_t columns, size_t lanes
#define DERIVE_PARAMETERS                                                                                          \
    INPUT_PARAMETERS, uint8_t *key, size_t key_len, uint64_t *matrix, size_t matrix_words, uint64_t *counts
#define CHECK_PARAMETERS                                                                                           \
    INPUT_PARAMETERS, const uint8_t *stored, size_t stored_len, uint64_t *matrix, size_t matrix_words,             \
        uint32_t *same, uint64_t *counts
#define COST_PARAMETERS                                                                                            \
    size_t key_len, size_t password_len, size_t salt_len, size_t time, size_t rows, size_t columns, size_t lanes,  \
        uint64_t *counts

uint32_t __real_lyra2_lanes_derive(DERIVE_PARAMETERS);
uint32_t __wrap_lyra2_lanes_derive(DERIVE_PARAMETERS);
uint32_t __real_lyra2_lanes_check(CHECK_PARAMETERS);
uint32_t __wrap_lyra2_lanes_check(CHECK_PARAMETERS);
uint32_t __real_lyra2_lanes_cost(COST_PARAMETERS);
uint32_t __wrap_lyra2_lanes_cost(COST_PARAMETERS);

/* What memcheck may see, but nobody who looks at the results. */
static volatile uint8_t seen;

/* ---- the counts */

/* What the memory of the rounds held, if a fault is about that. */
static uint64_t held_rounds(const uint64_t *counts)
{
    bool about = (FAULT >= COUNTS_OF_DERIVE && FAULT < MATRIX_OF_DERIVE) || FAULT == COUNTS_FROM_WHAT_WAS_HELD;
    return about ? counts[LYRA2_ROUNDS] : 0;
}

static void spoil_accepted_counts(int fault, const struct lane_sizes *n, uint64_t *counts)
{
    uint64_t *full = &counts[LYRA2_FULL_CALLS], *reduced = &counts[LYRA2_REDUCED_CALLS];
    uint64_t input = n->password + n->salt, pieces = (n->key + 95) / 96, cells = n->rows * n->columns;
    if (fault == A_FULL_CALL_MORE)
        ++*full;
    if (fault == A_REDUCED_CALL_LESS)
        --*reduced;
    if (fault == FULL_CALLS_OF_A_LANE)
        *full /= n->lanes;
    if (fault == REDUCED_CALLS_OF_A_LANE)
        *reduced /= n->lanes;
    if (fault == BLOCKS_OF_SIX_NUMBERS)
        *full = n->lanes * ((input + 24) / 64 + 1 + pieces);
    if (fault == PIECES_OF_A_LANE)
        *full -= (n->lanes - 1) * pieces;
    if (fault == SETUP_NOT_COUNTED)
        *reduced = cells * n->time;
    if (fault == VISITS_COUNTED_TWICE)
        *reduced = cells * (2 * n->time + 1);
    counts[LYRA2_ROUNDS] = 12 * *full + *reduced + (fault == A_ROUND_MORE);
}

/* Changes the counts of a call. */
static void spoil_counts(int first, const struct lane_sizes *n, uint32_t answer, uint64_t held, uint64_t *counts)
{
    int fault = FAULT - first;
    bool accepted = answer == LYRA2_ACCEPTED;
    if (fault < A_FULL_CALL_MORE || fault > REFUSED_COUNTS_KEPT)
        return;
    if (accepted)
        spoil_accepted_counts(fault, n, counts);
    if ((fault == ROUNDS_NOT_STORED && accepted) || (fault == REFUSED_COUNTS_KEPT && !accepted))
        counts[LYRA2_ROUNDS] = held;
    if (fault == A_FOURTH_COUNT)
        counts[LYRA2_COUNTS] = 0;
}

/* ---- the matrix */

static void fill(uint64_t *words, size_t from, size_t to, uint64_t value)
{
    while (from < to)
        words[from++] = value;
}

static void spoil_matrix(int first, const struct lane_sizes *n, uint32_t answer, uint64_t *matrix)
{
    int fault = FAULT - first;
    size_t used = LYRA2_MATRIX_WORDS(n->rows, n->columns);
    bool accepted = answer == LYRA2_ACCEPTED;
    if ((fault == REFUSED_MATRIX_WIPED && !accepted)
        || (fault == REFUSED_LANES_WRITE_THE_MATRIX && answer == LYRA2_REFUSED_LANES))
        fill(matrix, 0, n->matrix, 0);
    if (!accepted)
        return;
    if (fault == FIRST_WORD_LEFT || fault == ALL_LEFT)
        matrix[0] = 1;
    if (fault == LAST_WORD_LEFT)
        matrix[used - 1] = 1;
    if (fault == LAST_LANE_LEFT || fault == ALL_LEFT)
        fill(matrix, fault == ALL_LEFT ? 0 : used - used / n->lanes, used, 1);
    if (fault == PAST_WIPED && used < n->matrix)
        matrix[used] = 0;
    if (fault == PAST_CHANGED && used < n->matrix)
        matrix[n->matrix - 1] ^= 1;
}

/* ---- the stack */

/* Zeros where a derivation beside has worked. */
static void scrub(void)
{
    volatile uint8_t below[8192];
    for (size_t i = 0; i < sizeof below; i++)
        below[i] = 0;
}

static void leave_secrets(const struct lane_sizes *n, const uint8_t *password, const uint8_t *salt)
{
    static struct lane_end end;
    static uint64_t secret;
    size_t last = n->lanes - 1;
    derive_beside(n, password, salt, &end);
    if (FAULT == DERIVE_LEAVES_THE_LAST_STATE)
        secret = end.states[last][LYRA2_STATE_WORDS - 1];
    if (FAULT == CHECK_LEAVES_THE_FIRST_STATE)
        secret = end.states[0][0];
    if (FAULT == CHECK_LEAVES_A_ROW)
        secret = end.states[0][0] % n->rows;
    if (has(DERIVE_LEAVES_THE_LAST_LANES_KEY, last > 0))
        secret = end.squeezed[last][0];
    if (FAULT == DERIVE_LEAVES_THE_MATRIX)
        secret = end.matrix[LYRA2_MATRIX_WORDS(n->rows, n->columns) - 1];
    free(end.matrix);
    scrub();
    leave((const uint8_t *)&secret, sizeof secret);
}

/* ---- the operations */

static uint32_t refuse(uint32_t refusal, uint64_t *counts)
{
    memset(counts, 0, LYRA2_COUNTS * sizeof *counts);
    return refusal;
}

/* What a derivation stores besides counts and matrix. */
static void spoil_derivation(const struct lane_sizes *n, uint32_t answer, const uint8_t *password, const uint8_t *salt,
                             uint8_t *key, uint64_t matrix_held, uint8_t key_held)
{
    bool accepted = answer == LYRA2_ACCEPTED;
    if (has(KEY_WRITTEN_PAST, accepted))
        key[n->key] = 0;
    if (has(REFUSED_KEY_WRITTEN, !accepted && n->key > 0)
        || has(REFUSED_LANES_WRITE_THE_KEY, answer == LYRA2_REFUSED_LANES))
        key[0] ^= 1;
    if (has(LAST_BYTE_OF_THE_KEY_NOT_WRITTEN, accepted))
        key[n->key - 1] = key_held;
    if (has(PASSWORD_WIPED, accepted))
        memset((uint8_t *)password, 0, n->password);
    if (has(SALT_WRITTEN, accepted))
        ((uint8_t *)salt)[n->salt - 1] ^= 1;
    if (has(REFUSED_SALT_READ, answer == LYRA2_REFUSED_LANES))
        seen = salt[0];
    if (has(PASSWORD_READ_PAST, accepted))
        seen = password[n->password];
    if (has(KEY_FROM_WHAT_WAS_HELD, accepted))
        key[0] ^= (uint8_t)matrix_held;
    if (has(DERIVE_LEAVES_THE_KEY, accepted))
        leave(key, n->key);
    if (has(DERIVE_LEAVES_A_BYTE, accepted))
        leave(key + n->key - 1, 1);
    if (has(DERIVE_LEAVES_THE_PASSWORD, accepted) || has(SEVERAL_LANES_LEAVE_THE_PASSWORD, accepted && n->lanes > 1))
        leave(password, n->password);
    if (DERIVE_LEAVES_THE_LAST_STATE <= FAULT && FAULT <= DERIVE_LEAVES_THE_MATRIX && accepted)
        leave_secrets(n, password, salt);
}

uint32_t __wrap_lyra2_lanes_derive(DERIVE_PARAMETERS)
{
    const struct lane_sizes n = {key_len, password_len, salt_len, time, rows, columns, lanes, matrix_words};
    volatile uint64_t held = held_rounds(counts);
    uint32_t answer = judge_lanes(CHECKS_OF_DERIVE, &n, true);
    bool accepted = answer == LYRA2_ACCEPTED;
    uint64_t matrix_held = has(KEY_FROM_WHAT_WAS_HELD, accepted) ? matrix[0] : 0;
    uint8_t key_held = has(LAST_BYTE_OF_THE_KEY_NOT_WRITTEN, accepted) ? key[key_len - 1] : 0;
    if (!accepted)
        refuse(answer, counts);
    else if (derive_wrongly(&n, password, salt, key, matrix))
        __real_lyra2_lanes_cost(n.key, password_len, salt_len, time, rows, columns, lanes, counts);
    else
        __real_lyra2_lanes_derive(password, password_len, salt, salt_len, time, rows, columns, lanes, key, key_len,
                                  matrix, matrix_words, counts);
    spoil_derivation(&n, answer, password, salt, key, matrix_held, key_held);
    spoil_matrix(MATRIX_OF_DERIVE, &n, answer, matrix);
    spoil_counts(COUNTS_OF_DERIVE, &n, answer, held, counts);
    return answer;
}

/* Compares only so many bytes, and stops at the first that differs. */
static uint32_t compare(const uint8_t *stored, const uint8_t *key, size_t length)
{
    for (size_t i = 0; i < length; i++)
        if (stored[i] != key[i])
            return 0;
    return 1;
}

/* The check in the place of the library's, where it compares another key or other bytes; true if it does. */
static bool check_wrongly(const struct lane_sizes *n, const uint8_t *password, const uint8_t *salt,
                          const uint8_t *stored, uint64_t *matrix, uint32_t *same)
{
    static uint8_t key[LYRA2_KEY_MAX];
    uint64_t counts[LYRA2_COUNTS];
    size_t lanes = FAULT == CHECK_WITH_ONE_LANE ? 1 : n->lanes, compared = n->key;
    bool other = derive_wrongly(n, password, salt, key, matrix);
    if (!other && FAULT != CHECK_WITH_ONE_LANE && FAULT != LAST_BYTE_NOT_COMPARED
        && FAULT != FIRST_PIECE_COMPARED_ALONE && FAULT != STORED_COMPARED_WITH_EARLY_EXIT)
        return false;
    if (!other
        && __real_lyra2_lanes_derive(password, n->password, salt, n->salt, n->time, n->rows, n->columns, lanes, key,
                                     n->key, matrix, n->matrix, counts) != LYRA2_ACCEPTED)
        abort();
    if (FAULT == LAST_BYTE_NOT_COMPARED)
        compared--;
    if (FAULT == FIRST_PIECE_COMPARED_ALONE && compared > 96)
        compared = 96;
    *same = compare(stored, key, compared);
    return true;
}

/* What a check stores besides counts and matrix. */
static void spoil_check(const struct lane_sizes *n, uint32_t answer, const uint8_t *password, const uint8_t *salt,
                        const uint8_t *stored, uint64_t *matrix, uint32_t held, uint32_t *same)
{
    bool accepted = answer == LYRA2_ACCEPTED;
    if (accepted && (FAULT == SAME_ALWAYS_YES || FAULT == SAME_ALWAYS_NO))
        *same = FAULT == SAME_ALWAYS_YES;
    if (!accepted && (FAULT == REFUSED_SAME_KEPT || FAULT == REFUSED_SAME_YES))
        *same = FAULT == REFUSED_SAME_YES ? 1 : held;
    if (has(SAME_OF_MORE_BYTES, true))
        same[1] = 0;
    if (has(STORED_WRITTEN, accepted))
        ((uint8_t *)stored)[0] ^= 1;
    if (has(REFUSED_MATRIX_REWRITTEN, !accepted && n->matrix > 0))
        *(volatile uint64_t *)matrix = *(volatile uint64_t *)matrix;
    if (has(REFUSED_STORED_READ, answer == LYRA2_REFUSED_LANES))
        seen = stored[0];
    if (has(CHECK_LEAVES_THE_KEY, accepted))
        leave(stored, n->key);
    if (has(CHECK_LEAVES_A_BYTE, accepted))
        leave(stored + n->key - 1, 1);
    if (has(CHECK_LEAVES_THE_PASSWORD, accepted))
        leave(password, n->password);
    if (has(CHECK_LEAVES_THE_FIRST_STATE, accepted) || has(CHECK_LEAVES_A_ROW, accepted))
        leave_secrets(n, password, salt);
}

uint32_t __wrap_lyra2_lanes_check(CHECK_PARAMETERS)
{
    const struct lane_sizes n = {stored_len, password_len, salt_len, time, rows, columns, lanes, matrix_words};
    volatile uint64_t held = held_rounds(counts);
    volatile uint32_t same_held = FAULT == REFUSED_SAME_KEPT || FAULT == SAME_FROM_WHAT_WAS_HELD ? *same : 0;
    uint32_t answer = judge_lanes(CHECKS_OF_CHECK, &n, true);
    bool accepted = answer == LYRA2_ACCEPTED;
    *same = 0;
    if (!accepted)
        refuse(answer, counts);
    else if (check_wrongly(&n, password, salt, stored, matrix, same))
        __real_lyra2_lanes_cost(n.key, password_len, salt_len, time, rows, columns, lanes, counts);
    else
        __real_lyra2_lanes_check(password, password_len, salt, salt_len, time, rows, columns, lanes, stored, stored_len,
                                 matrix, matrix_words, same, counts);
    spoil_check(&n, answer, password, salt, stored, matrix, same_held, same);
    if (FAULT == SAME_FROM_WHAT_WAS_HELD)
        *same += same_held - same_held;
    spoil_matrix(MATRIX_OF_CHECK, &n, answer, matrix);
    spoil_counts(COUNTS_OF_CHECK, &n, answer, held, counts);
    return answer;
}

uint32_t __wrap_lyra2_lanes_cost(COST_PARAMETERS)
{
    const struct lane_sizes n = {key_len, password_len, salt_len, time, rows, columns, lanes, 0};
    volatile uint64_t held = held_rounds(counts);
    uint32_t answer = judge_lanes(CHECKS_OF_COST, &n, false);
    if (answer != LYRA2_ACCEPTED)
        refuse(answer, counts);
    else
        __real_lyra2_lanes_cost(key_len, password_len, salt_len, time, rows, columns, lanes, counts);
    spoil_counts(COUNTS_OF_COST, &n, answer, held, counts);
    if (FAULT == COUNTS_FROM_WHAT_WAS_HELD)
        counts[LYRA2_ROUNDS] += held - held;
    return answer;
}
