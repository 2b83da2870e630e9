/*
 * A derivation with several lanes, the guide's Algorithm 3, for the model and for the faulty library. FAULT chooses what
 * is wrong in it; 0 is nothing.
 */
#ifndef LANE_STEPS_H
#define LANE_STEPS_H

#include "lane_model.h"

#include <stdbool.h>
#include <string.h>

enum {
    /* in the input */
    LANES_LEFT_OUT = 1001,
    LANE_LEFT_OUT,
    LANE_BEFORE_LANES,
    LANES_COUNTED_FROM_ONE,
    ROWS_OF_A_LANE_IN_THE_INPUT,
    PASSWORD_FOR_THE_FIRST_LANE_ALONE,
    /* in Setup */
    SETUP_IN_THE_OWN_LANE = 1011,
    SETUP_IN_THE_LANE_BEFORE,
    SETUP_WITHOUT_MEETINGS,
    FIRST_MEETING_A_ROW_EARLY,
    FIRST_MEETING_A_ROW_LATE,
    MEETINGS_BY_THE_WHOLE_ROOT,
    PREV1_OF_THE_OWN_LANE,
    ROW1_WRITTEN_IN_THE_OWN_LANE,
    PREV0_OF_THE_OTHER_LANE,
    /* in the visits */
    VISITS_WITHOUT_MEETINGS = 1021,
    FIRST_INTERVAL_A_VISIT_SHORT,
    FIRST_INTERVAL_A_VISIT_LONG,
    LATER_INTERVALS_AS_LONG_AS_THE_FIRST,
    ROOT_STARTS_ANEW,
    HALVES_STAY,
    SECOND_HALF_FIRST,
    OTHER_ROW_IN_THE_SAME_HALF,
    OTHER_ROW_OF_THE_OWN_LANE,
    OTHER_LANE_BY_WORD_2,
    OTHER_ROW_WRITTEN,
    OTHER_ROW_NOT_READ,
    COLUMN_PICKED_ONCE,
    COLUMN_OF_THE_SAME_ROW,
    COLUMN_OF_THE_OTHER_ROW_PICKED,
    PREV0_OF_THE_FIRST_VISIT_IS_ROW_2,
    ROWS_PICKED_FROM_THE_WHOLE_LANE,
    VISITS_OF_ALL_ROWS,
    A_VISIT_LESS,
    /* at the end */
    KEYS_ORED = 1051,
    KEYS_ADDED,
    LAST_KEY_LEFT_OUT,
    FIRST_KEY_LEFT_OUT,
    LAST_KEY_ALONE,
    KEYS_XORED_INTO_WHAT_WAS_LENT,
    LATER_PIECES_OF_THE_LAST_LANE,
    CELL_OF_THE_FIRST_LANE,
    CELL_OF_THE_LAST_ROW,
    ONE_LANE_IS_THE_SINGLE_SPONGE,
};

enum {
    BLOCK_BYTES = 64,
    PIECE_BYTES = 8 * LYRA2_CELL_WORDS,
    NUMBERS = 8,
    LONGEST_INPUT = LYRA2_PASSWORD_MAX + LYRA2_SALT_MAX + 4 * NUMBERS + BLOCK_BYTES
};

/* What a lane knows: its state, its walk through Setup, and its place in the visits. */
struct lane {
    uint64_t state[LYRA2_STATE_WORDS];
    size_t prev0, row1, prev1, stp, wnd, sqrt, sync, other, half;
    bool gap_is_up;
};

struct lanes {
    const struct lane_sizes *n;
    size_t rows; /* of a lane */
    uint64_t *matrix;
    struct lane lane[LYRA2_LANES_MAX];
};

/* ---- the sponge */

static inline uint64_t rotate_right(uint64_t word, int by)
{
    return word >> by | word << (64 - by);
}

static void mix(uint64_t *s, int a, int b, int c, int d)
{
    s[a] += s[b], s[d] = rotate_right(s[d] ^ s[a], 32);
    s[c] += s[d], s[b] = rotate_right(s[b] ^ s[c], 24);
    s[a] += s[b], s[d] = rotate_right(s[d] ^ s[a], 16);
    s[c] += s[d], s[b] = rotate_right(s[b] ^ s[c], 63);
}

/* Four columns a round, then four diagonals. */
static void permute(uint64_t *s, int rounds)
{
    for (; rounds > 0; rounds--)
        for (int shift = 0; shift < 2; shift++)
            for (int i = 0; i < 4; i++)
                mix(s, i, 4 + (i + shift) % 4, 8 + (i + 2 * shift) % 4, 12 + (i + 3 * shift) % 4);
}

/* XORs words into a state and calls the permutation: 12 rounds for a full call, one for a reduced one. */
static void absorb(uint64_t *state, const uint64_t *words, size_t count, int rounds)
{
    for (size_t i = 0; i < count; i++)
        state[i] ^= words[i];
    permute(state, rounds);
}

/* ---- the input */

static size_t append(uint8_t *input, size_t length, const uint8_t *bytes, size_t count)
{
    for (size_t i = 0; i < count; i++)
        input[length + i] = bytes[i];
    return length + count;
}

/* The numbers at the input's end. */
static size_t append_numbers(uint8_t *input, size_t length, const struct lane_sizes *n, size_t lane)
{
    size_t numbers[NUMBERS] = {n->key, n->password, n->salt, n->time, n->rows, n->columns, n->lanes, lane};
    if (FAULT == LANES_COUNTED_FROM_ONE)
        numbers[7]++;
    if (FAULT == ROWS_OF_A_LANE_IN_THE_INPUT)
        numbers[4] /= n->lanes;
    if (FAULT == LANE_BEFORE_LANES) {
        numbers[6] = lane;
        numbers[7] = n->lanes;
    }
    for (size_t i = 0; i < NUMBERS; i++) {
        uint8_t bytes[4] = {(uint8_t)numbers[i], (uint8_t)(numbers[i] >> 8), (uint8_t)(numbers[i] >> 16), 0};
        if (!(FAULT == LANES_LEFT_OUT && i == 6) && !(FAULT == LANE_LEFT_OUT && i == 7))
            length = append(input, length, bytes, sizeof bytes);
    }
    return length;
}

static void absorb_input(uint64_t *state, const struct lane_sizes *n, const uint8_t *password, const uint8_t *salt,
                         size_t lane)
{
    uint8_t input[LONGEST_INPUT] = {0};
    size_t used = FAULT == PASSWORD_FOR_THE_FIRST_LANE_ALONE && lane > 0 ? 0 : n->password;
    size_t length = append(input, append(input, 0, password, used), salt, n->salt);
    length = append_numbers(input, length, n, lane);
    size_t padded = (length / BLOCK_BYTES + 1) * BLOCK_BYTES;
    input[length] = 0x80;
    input[padded - 1] ^= 0x01;
    for (const uint8_t *block = input; block < input + padded; block += BLOCK_BYTES) {
        uint64_t words[BLOCK_BYTES / 8] = {0};
        for (size_t i = 0; i < BLOCK_BYTES; i++)
            words[i / 8] |= (uint64_t)block[i] << 8 * (i % 8);
        absorb(state, words, BLOCK_BYTES / 8, 12);
    }
}

static void start_lane(struct lane *lane, const struct lane_sizes *n, const uint8_t *password, const uint8_t *salt,
                       size_t number)
{
    static const uint64_t upper[LYRA2_STATE_WORDS / 2] = {
        UINT64_C(0x6a09e667f3bcc908), UINT64_C(0xbb67ae8584caa73b), UINT64_C(0x3c6ef372fe94f82b),
        UINT64_C(0xa54ff53a5f1d36f1), UINT64_C(0x510e527fade682d1), UINT64_C(0x9b05688c2b3e6c1f),
        UINT64_C(0x1f83d9abfb41bd6b), UINT64_C(0x5be0cd19137e2179)};
    *lane = (struct lane){.prev0 = 2, .row1 = 1, .prev1 = 0, .stp = 1, .wnd = 2, .sqrt = 2, .sync = 4,
                          .other = number, .half = FAULT == SECOND_HALF_FIRST, .gap_is_up = true};
    if (FAULT == FIRST_MEETING_A_ROW_EARLY)
        lane->sync--;
    if (FAULT == FIRST_MEETING_A_ROW_LATE)
        lane->sync++;
    memcpy(lane->state + LYRA2_STATE_WORDS / 2, upper, sizeof upper);
    absorb_input(lane->state, n, password, salt, number);
}

/* ---- Setup */

static uint64_t *cell(const struct lanes *all, size_t lane, size_t row, size_t column)
{
    return all->matrix + LYRA2_CELL_WORDS * ((lane * all->rows + row) * all->n->columns + column);
}

static void fill_first_rows(struct lanes *all, size_t i)
{
    uint64_t *state = all->lane[i].state;
    size_t columns = all->n->columns;
    for (size_t column = 0; column < columns; column++) {
        memcpy(cell(all, i, 0, columns - 1 - column), state, PIECE_BYTES);
        permute(state, 1);
    }
    for (size_t row = 1; row <= 2; row++)
        for (size_t column = 0; column < columns; column++) {
            const uint64_t *before = cell(all, i, row - 1, column);
            uint64_t *filled = cell(all, i, row, columns - 1 - column);
            absorb(state, before, LYRA2_CELL_WORDS, 1);
            for (size_t k = 0; k < LYRA2_CELL_WORDS; k++)
                filled[k] = before[k] ^ state[k];
        }
}

/* Row row0 of a lane, and the row of the other lane that is revisited. */
static void fill_row(struct lanes *all, size_t i, size_t row0)
{
    struct lane *lane = &all->lane[i];
    size_t other = FAULT == SETUP_IN_THE_OWN_LANE ? i : lane->other;
    size_t written = FAULT == ROW1_WRITTEN_IN_THE_OWN_LANE ? i : other;
    for (size_t column = 0; column < all->n->columns; column++) {
        const uint64_t *before = cell(all, FAULT == PREV0_OF_THE_OTHER_LANE ? other : i, lane->prev0, column);
        const uint64_t *first = cell(all, other, lane->row1, column);
        const uint64_t *last = cell(all, FAULT == PREV1_OF_THE_OWN_LANE ? i : other, lane->prev1, column);
        uint64_t sum[LYRA2_CELL_WORDS];
        for (size_t k = 0; k < LYRA2_CELL_WORDS; k++)
            sum[k] = first[k] + before[k] + last[k];
        absorb(lane->state, sum, LYRA2_CELL_WORDS, 1);
        for (size_t k = 0; k < LYRA2_CELL_WORDS; k++) {
            cell(all, i, row0, all->n->columns - 1 - column)[k] = before[k] ^ lane->state[k];
            cell(all, written, lane->row1, column)[k] ^= lane->state[(k + 2) % LYRA2_CELL_WORDS];
        }
    }
}

/* The walk after a row; whether a meeting follows it. */
static bool walk_on(struct lane *lane, size_t row0, size_t lanes)
{
    lane->prev0 = row0;
    lane->prev1 = lane->row1;
    lane->row1 = (lane->row1 + lane->stp) % lane->wnd;
    if (lane->row1 == 0) {
        lane->wnd *= 2;
        lane->stp = lane->gap_is_up ? lane->sqrt + 1 : lane->sqrt - 1;
        lane->sqrt *= lane->gap_is_up ? 2 : 1;
        lane->gap_is_up = !lane->gap_is_up;
    }
    if (row0 != lane->sync)
        return false;
    lane->sync += FAULT == MEETINGS_BY_THE_WHOLE_ROOT ? lane->sqrt : lane->sqrt / 2;
    lane->other = (lane->other + (FAULT == SETUP_IN_THE_LANE_BEFORE ? lanes - 1 : 1)) % lanes;
    return FAULT != SETUP_WITHOUT_MEETINGS;
}

/* The lanes in turn up to a meeting, and so on to the last row. */
static void fill_rows(struct lanes *all)
{
    size_t from = 3, row0 = 3;
    for (size_t i = 0; i < all->n->lanes; i++)
        fill_first_rows(all, i);
    for (; from < all->rows; from = row0)
        for (size_t i = 0; i < all->n->lanes; i++) {
            bool meets = false;
            for (row0 = from; row0 < all->rows && !meets; row0++) {
                fill_row(all, i, row0);
                meets = walk_on(&all->lane[i], row0, all->n->lanes);
            }
        }
}

/* ---- the visits */

/* Both rows and the other lane are picked once, and a column of the previous row anew before each call. */
static void visit(struct lanes *all, size_t i)
{
    struct lane *lane = &all->lane[i];
    uint64_t *state = lane->state, wnd = all->rows / 2, columns = all->n->columns;
    uint64_t second = FAULT == OTHER_ROW_IN_THE_SAME_HALF ? lane->half : 1 - lane->half;
    uint64_t row0 = lane->half * wnd + state[0] % wnd, row = second * wnd + state[2] % wnd, picked = state[6] % columns;
    uint64_t other = state[FAULT == OTHER_LANE_BY_WORD_2 ? 2 : 4] % all->n->lanes;
    if (FAULT == OTHER_ROW_OF_THE_OWN_LANE)
        other = i;
    if (FAULT == ROWS_PICKED_FROM_THE_WHOLE_LANE) {
        row0 = state[0] % all->rows;
        row = state[2] % all->rows;
    }
    for (size_t column = 0; column < columns; column++) {
        uint64_t column0 = FAULT == COLUMN_PICKED_ONCE ? picked : state[6] % columns, sum[LYRA2_CELL_WORDS];
        uint64_t *visited = cell(all, i, row0, column);
        uint64_t *read = cell(all, other, row, FAULT == COLUMN_OF_THE_OTHER_ROW_PICKED ? column0 : column);
        const uint64_t *before = cell(all, i, FAULT == COLUMN_OF_THE_SAME_ROW ? row0 : lane->prev0, column0);
        for (size_t k = 0; k < LYRA2_CELL_WORDS; k++)
            sum[k] = visited[k] + before[k] + (FAULT == OTHER_ROW_NOT_READ ? 0 : read[k]);
        absorb(state, sum, LYRA2_CELL_WORDS, 1);
        for (size_t k = 0; k < LYRA2_CELL_WORDS; k++) {
            visited[k] ^= state[k];
            if (FAULT == OTHER_ROW_WRITTEN)
                read[k] ^= state[(k + 2) % LYRA2_CELL_WORDS];
        }
    }
    lane->prev0 = row0;
}

/* Where the visits of a lane start. */
static void start_visits(struct lane *lane)
{
    if (FAULT == ROOT_STARTS_ANEW)
        lane->sqrt = 2;
    lane->sync = lane->sqrt;
    if (FAULT == FIRST_INTERVAL_A_VISIT_SHORT)
        lane->sync--;
    if (FAULT == FIRST_INTERVAL_A_VISIT_LONG)
        lane->sync++;
    if (FAULT == PREV0_OF_THE_FIRST_VISIT_IS_ROW_2)
        lane->prev0 = 2;
}

/* Whether a meeting follows a visit of this number. */
static bool visit_on(struct lane *lane, size_t number)
{
    if (number != lane->sync)
        return false;
    lane->sync += lane->sqrt + (FAULT == LATER_INTERVALS_AS_LONG_AS_THE_FIRST);
    if (FAULT != HALVES_STAY)
        lane->half = 1 - lane->half;
    return FAULT != VISITS_WITHOUT_MEETINGS;
}

/* The lanes in turn up to a meeting, and so on to the last visit. */
static void visit_rows(struct lanes *all)
{
    size_t due = (FAULT == VISITS_OF_ALL_ROWS ? all->n->rows : all->rows) * all->n->time - (FAULT == A_VISIT_LESS);
    size_t from = 0, number = 0;
    for (size_t i = 0; i < all->n->lanes; i++)
        start_visits(&all->lane[i]);
    for (; from < due; from = number)
        for (size_t i = 0; i < all->n->lanes; i++) {
            bool meets = false;
            for (number = from; number < due && !meets; number++) {
                visit(all, i);
                meets = visit_on(&all->lane[i], number);
            }
        }
}

/* ---- the key */

/* Puts a byte of a lane's key to those of the lanes before it. */
static void add_byte(uint8_t *key, uint8_t byte, size_t lane, size_t lanes, bool later_piece)
{
    bool last = lane + 1 == lanes;
    if (lane == 0 && FAULT != KEYS_XORED_INTO_WHAT_WAS_LENT)
        *key = 0;
    if (FAULT == KEYS_ORED)
        *key |= byte;
    else if (FAULT == KEYS_ADDED)
        *key = (uint8_t)(*key + byte);
    else if (last && (FAULT == LAST_KEY_ALONE || (FAULT == LATER_PIECES_OF_THE_LAST_LANE && later_piece)))
        *key = byte;
    else if (!(FAULT == LAST_KEY_LEFT_OUT && last && lane > 0) && !(FAULT == FIRST_KEY_LEFT_OUT && lane == 0 && !last))
        *key ^= byte;
}

static void squeeze_lane(struct lanes *all, size_t i, uint8_t *key)
{
    struct lane *lane = &all->lane[i];
    size_t row = FAULT == CELL_OF_THE_LAST_ROW ? all->rows - 1 : lane->prev0;
    absorb(lane->state, cell(all, FAULT == CELL_OF_THE_FIRST_LANE ? 0 : i, row, 0), LYRA2_CELL_WORDS, 12);
    for (size_t k = 0; k < all->n->key; k++) {
        size_t place = k % PIECE_BYTES;
        if (place == 0 && k > 0)
            permute(lane->state, 12);
        add_byte(&key[k], (uint8_t)(lane->state[place / 8] >> 8 * (place % 8)), i, all->n->lanes, k >= PIECE_BYTES);
    }
}

/* All of it, for numbers that are accepted; the matrix holds what the visits leave. `end` gets the states, unless null. */
static void derive_lanes(const struct lane_sizes *n, const uint8_t *password, const uint8_t *salt, uint8_t *key,
                         uint64_t *matrix, struct lane_end *end)
{
    struct lanes all = {.n = n, .rows = n->rows / n->lanes, .matrix = matrix};
    for (size_t i = 0; i < n->lanes; i++)
        start_lane(&all.lane[i], n, password, salt, i);
    fill_rows(&all);
    visit_rows(&all);
    for (size_t i = 0; i < n->lanes; i++) {
        if (end != NULL)
            memcpy(end->states[i], all.lane[i].state, sizeof end->states[i]);
        squeeze_lane(&all, i, key);
        if (end != NULL)
            memcpy(end->squeezed[i], all.lane[i].state, sizeof end->squeezed[i]);
    }
}

#endif
