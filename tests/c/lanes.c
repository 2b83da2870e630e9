/*
 * Deriving and checking with several lanes from C: the key, the counts and what is left in the matrix are the model's for
 * every number of lanes, for lanes with several meetings, for lengths around a block and a piece, and for the largest
 * numbers; the keys of different numbers of lanes differ; and what is only read may overlap.
 */
#include "lane_calls.h"

#include <stdio.h>
#include <stdlib.h>
#include <string.h>

/* Words past the used ones, in the calls that lend more than is needed. */
enum { SPARE = 5 };

static const struct contents nothing = {NULL, NULL, NULL};

/* The check says `due` of a stored key. */
static void require_check(const struct lane_call *derived, const char *what, const uint8_t *stored, uint32_t due)
{
    struct contents contents = {lent_part(&derived->password), lent_part(&derived->salt), stored};
    struct lane_call check;
    make_lane_call(&check, what, LANES_CHECK, derived->sizes, contents, LYRA2_ACCEPTED);
    uint32_t same = *(uint32_t *)lent_part(&check.same);
    if (same != due)
        fail_lanes(&check, what, "same", same, due);
    end_lane_call(&check);
}

/* Says yes to the key and no to it with a bit of the first, a middle or the last byte flipped. */
static void require_checks(const struct lane_call *derived, const char *what)
{
    size_t length = derived->sizes.key;
    size_t places[] = {0, length / 2, length - 1};
    uint8_t *stored = allocate(length);
    memcpy(stored, lent_part(&derived->key), length);
    require_check(derived, what, stored, 1);
    for (size_t i = 0; i < 3; i++) {
        stored[places[i]] ^= (uint8_t)(1 << (i + length) % 8);
        require_check(derived, what, stored, 0);
        stored[places[i]] ^= (uint8_t)(1 << (i + length) % 8);
    }
    free(stored);
}

static void require_model_key(const struct lane_call *derived, const char *what)
{
    const struct lane_sizes *n = &derived->sizes;
    const uint8_t *key = lent_part(&derived->key);
    uint8_t *due = allocate(n->key);
    struct lane_end end;
    model_derive(n, lent_part(&derived->password), lent_part(&derived->salt), due, &end);
    for (size_t i = 0; i < n->key; i++)
        if (key[i] != due[i])
            fail_lanes(derived, what, "a byte of the key", key[i], due[i]);
    free(end.matrix);
    free(due);
}

/* The model's key, its checks, and the cost question's counts, in a matrix of as many words as are used and more. */
static void require_derivation(const char *what, struct lane_sizes n, size_t spare)
{
    struct lane_call derived;
    n = fitting_lanes(n);
    n.matrix += spare;
    make_lane_call(&derived, what, LANES_DERIVE, n, nothing, LYRA2_ACCEPTED);
    require_model_key(&derived, what);
    require_checks(&derived, what);
    require_lane_answer(what, LANES_COST, n, LYRA2_ACCEPTED);
    end_lane_call(&derived);
}

/* ---- the shapes */

/* So many rows for each lane. */
static struct lane_sizes with_rows(size_t lanes, size_t lane_rows, size_t columns, size_t time)
{
    struct lane_sizes n = accepted_lanes;
    n.lanes = lanes;
    n.rows = lanes * lane_rows;
    n.columns = columns;
    n.time = time;
    return n;
}

/* The meetings of Setup follow row 4 of a lane and from there on every second row, from row 16 on every fourth and from
 * row 64 on every eighth: lanes of these rows have none, one, several, and some between which the interval grows. */
static void require_shapes(void)
{
    static const size_t lane_rows[] = {LYRA2_LANE_ROWS_MIN, 6, 8, 10, 12, 16, 18, 34, 66};
    static const size_t columns[] = {1, 2, 5};
    for (size_t lanes = LYRA2_LANES_MIN; lanes <= LYRA2_LANES_MAX; lanes++)
        for (size_t i = 0; i < sizeof lane_rows / sizeof *lane_rows; i++)
            for (size_t j = 0; j < sizeof columns / sizeof *columns; j++)
                require_derivation("the lanes and rows", with_rows(lanes, lane_rows[i], columns[j], 1 + (i + j) % 3),
                                   j * SPARE);
}

static void require_largest(void)
{
    for (size_t lanes = LYRA2_LANES_MIN; lanes <= LYRA2_LANES_MAX; lanes++)
        require_derivation("many rows", with_rows(lanes, LYRA2_ROWS_MAX / lanes / 2 * 2, 1, LYRA2_LANES_TIME_MIN), 0);
    require_derivation("many columns", with_rows(3, LYRA2_LANE_ROWS_MIN, LYRA2_COLUMNS_MAX, 2), SPARE);
    require_derivation("many visits", with_rows(2, LYRA2_LANE_ROWS_MIN, 3, LYRA2_TIME_MAX), SPARE);
    require_derivation("many visits", with_rows(LYRA2_LANES_MAX, 10, 1, LYRA2_TIME_MAX), 0);
}

/* ---- the lengths */

static void require_lengths(size_t key, size_t password, size_t salt)
{
    for (size_t lanes = 1; lanes <= 3; lanes++) {
        struct lane_sizes n = with_rows(lanes, 6, 2, 1);
        n.key = key;
        n.password = password;
        n.salt = salt;
        require_derivation("the lengths", n, 0);
    }
}

/* The input has eight numbers of four bytes: 31 bytes before them leave one for the padding, and 32 none. */
static void require_all_lengths(void)
{
    static const size_t passwords[] = {0, 1, 23, 24, 25, 87, 88, 89, LYRA2_PASSWORD_MAX - 1, LYRA2_PASSWORD_MAX};
    static const size_t keys[] = {LYRA2_KEY_MIN, 8, 95, 96, 97, 191, 192, 193, LYRA2_KEY_MAX - 1, LYRA2_KEY_MAX};
    for (size_t i = 0; i < sizeof passwords / sizeof *passwords; i++)
        require_lengths(32, passwords[i], LYRA2_SALT_MIN);
    for (size_t i = 0; i < sizeof keys / sizeof *keys; i++)
        require_lengths(keys[i], 20, 16);
    for (size_t salt = LYRA2_SALT_MIN; salt <= LYRA2_SALT_MAX; salt += 7)
        require_lengths(32, 40, salt);
    require_lengths(LYRA2_KEY_MAX, LYRA2_PASSWORD_MAX, LYRA2_SALT_MAX);
}

/* ---- the lanes in the key */

/* One shape with every number of lanes that it goes with, and with the single sponge: no two keys are the same. */
static void require_own_keys(void)
{
    static const size_t lanes[] = {1, 2, 3, 4, 6, 8};
    enum { KEYS = sizeof lanes / sizeof *lanes + 1, ROWS = 96, LENGTH = 32 };
    static const uint8_t password[8], salt[LYRA2_SALT_MIN];
    uint64_t matrix[LYRA2_MATRIX_WORDS(ROWS, 1)], counts[LYRA2_COUNTS];
    uint8_t keys[KEYS][LENGTH];
    uint32_t answer = lyra2_derive(password, sizeof password, salt, sizeof salt, 1, ROWS, 1,
                                   LYRA2_REDUCED_ROUNDS_USUAL, LYRA2_ROTATION_USUAL, LYRA2_MIXER_USUAL, keys[0],
                                   LENGTH, matrix, sizeof matrix / sizeof *matrix, counts);
    for (size_t i = 1; i < KEYS && answer == LYRA2_ACCEPTED; i++)
        answer = lyra2_lanes_derive(password, sizeof password, salt, sizeof salt, 1, ROWS, 1, lanes[i - 1], keys[i],
                                    LENGTH, matrix, sizeof matrix / sizeof *matrix, counts);
    if (answer != LYRA2_ACCEPTED)
        fail("refused: %s", lyra2_sentence(answer));
    for (size_t i = 0; i < KEYS; i++)
        for (size_t j = 0; j < i; j++)
            if (memcmp(keys[i], keys[j], LENGTH) == 0)
                fail("%zu lanes have the key of %zu; 0 stands for the single sponge", lanes[i - 1],
                     j > 0 ? lanes[j - 1] : 0);
}

/* What is only read may overlap: the key is that of the same bytes apart. Bytes of the password are a wrong key. */
static void require_overlap(void)
{
    uint8_t bytes[64], password[40], salt[16], key[32];
    uint64_t matrix[LYRA2_MATRIX_WORDS(8, 1)], counts[LYRA2_COUNTS];
    uint32_t right = 0, wrong = 1;
    for (size_t i = 0; i < sizeof bytes; i++)
        bytes[i] = (uint8_t)(i * i);
    memcpy(password, bytes, sizeof password);
    memcpy(salt, bytes + 32, sizeof salt);
    if (lyra2_lanes_derive(password, 40, salt, 16, 1, 8, 1, 2, key, 32, matrix, 96, counts) != LYRA2_ACCEPTED
        || lyra2_lanes_check(bytes, 40, bytes + 32, 16, 1, 8, 1, 2, key, 32, matrix, 96, &right, counts)
            != LYRA2_ACCEPTED
        || lyra2_lanes_check(bytes, 40, bytes + 32, 16, 1, 8, 1, 2, bytes + 4, 32, matrix, 96, &wrong, counts)
            != LYRA2_ACCEPTED
        || right != 1 || wrong != 0)
        fail("overlap: the check with lanes said %u of the key and %u of other bytes", right, wrong);
}

int main(void)
{
    require_shapes();
    require_all_lengths();
    require_largest();
    require_own_keys();
    require_overlap();
    printf("lanes: %zu calls\n", calls_made);
    return 0;
}
