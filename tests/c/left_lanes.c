/*
 * What the calls with several lanes leave on the stack that they used. It is searched, at every byte, for eight bytes of
 * the key, of the password, of the end matrix and of each lane's state, after the visits and after its key. Then two
 * calls that differ in the password alone are compared: their stacks must not differ at all, not even in a row or a
 * column that the visits picked.
 */
#include "lane_model.h"
#include "lent.h"
#include "marked.h"

#include <stdio.h>
#include <stdlib.h>
#include <string.h>

enum { MOST_ROWS = 48, MOST_COLUMNS = 5, WINDOW = 8, STATES_BYTES = LYRA2_LANES_MAX * LYRA2_STATE_WORDS * 8 };
#define MOST_MATRIX LYRA2_MATRIX_WORDS(MOST_ROWS, MOST_COLUMNS)

/* A password, what is made from it, and the stack after a call. */
struct side {
    uint8_t password[LYRA2_PASSWORD_MAX], key[LYRA2_KEY_MAX];
    struct lane_end end;
    uint64_t stack[MARKED_WORDS];
    size_t used;
};

/* What is lent lies at the same addresses on both sides. */
static const uint8_t salt[LYRA2_SALT_MAX];
static uint8_t password[LYRA2_PASSWORD_MAX], key[LYRA2_KEY_MAX];
static uint64_t matrix[MOST_MATRIX], counts[LYRA2_COUNTS];
static struct lane_sizes n;
static uint32_t same, answer;

static size_t searched, pairs;

static void derive(void)
{
    answer = lyra2_lanes_derive(password, n.password, salt, n.salt, n.time, n.rows, n.columns, n.lanes, key, n.key,
                                matrix, n.matrix, counts);
}

static void check(void)
{
    answer = lyra2_lanes_check(password, n.password, salt, n.salt, n.time, n.rows, n.columns, n.lanes, key, n.key,
                               matrix, n.matrix, &same, counts);
}

static const struct operation {
    const char *name;
    void (*call)(void);
    uint32_t same; /* what a check says of the bytes that it is given */
    uint8_t wrong; /* how they differ from the key */
} operations[] = {{"lanes_derive", derive, 0, 0}, {"lanes_check", check, 1, 0}, {"lanes_check", check, 0, 1}};

static void run_side(struct side *side, const struct operation *operation)
{
    memcpy(password, side->password, sizeof password);
    memcpy(key, side->key, sizeof key);
    key[n.key - 1] ^= operation->wrong;
    same = 0;
    side->used = run_marked(operation->call);
    memcpy(side->stack, marked_stack, sizeof marked_stack);
    if (answer != LYRA2_ACCEPTED || same != operation->same)
        fail("%s: answer %u, same %u", operation->name, answer, same);
}

/* No eight bytes of a secret, starting at every `step` of its bytes, stand on the stack. */
static void require_absent(const struct side *side, const char *name, const char *what, const void *secret,
                           size_t bytes, size_t step)
{
    const uint8_t *stack = (const uint8_t *)side->stack, *start = secret;
    for (size_t i = 0; i + WINDOW <= bytes; i += step, searched++)
        for (size_t j = MARKED_BYTES - side->used; j + WINDOW <= MARKED_BYTES; j++)
            if (memcmp(stack + j, start + i, WINDOW) == 0)
                fail("%s: the %s from byte %zu on is left on the stack", name, what, i);
}

static void require_no_secret(const struct side *side, const char *name)
{
    size_t states = STATES_BYTES / LYRA2_LANES_MAX * n.lanes;
    require_absent(side, name, "key", side->key, n.key, 1);
    require_absent(side, name, "password", side->password, n.password, 1);
    require_absent(side, name, "end matrix", side->end.matrix, 8 * n.matrix, 8);
    require_absent(side, name, "lanes' state after the visits", side->end.states, states, 8);
    require_absent(side, name, "lanes' state after the keys", side->end.squeezed, states, 8);
}

/* The words in which the stacks differ. */
static size_t compare(const struct side *one, const struct side *other)
{
    size_t words = 0;
    for (size_t i = 0; i < MARKED_WORDS; i++)
        words += one->stack[i] != other->stack[i];
    return words;
}

static void require_pair(struct side sides[2], const struct operation *operation)
{
    for (int i = 0; i < 2; i++) {
        run_side(&sides[i], operation);
        require_no_secret(&sides[i], operation->name);
    }
    size_t words = compare(&sides[0], &sides[1]);
    if (words > 0)
        fail("%s: %zu words on the stack depend on the password", operation->name, words);
    pairs++;
}

/* A password, and what the model makes of it. */
static void prepare_side(struct side *side)
{
    static uint64_t x = 1;
    for (size_t i = 0; i < sizeof side->password; i++) {
        x ^= x << 13;
        x ^= x >> 7;
        x ^= x << 17;
        side->password[i] = (uint8_t)(x >> 32);
    }
    model_derive(&n, side->password, salt, side->key, &side->end);
}

static void require_shape(size_t lanes, size_t rows, size_t columns, size_t time, size_t key_bytes,
                          size_t password_bytes)
{
    static struct side sides[2];
    n = (struct lane_sizes){key_bytes, password_bytes, sizeof salt, time, rows, columns, lanes,
                            LYRA2_MATRIX_WORDS(rows, columns)};
    for (int i = 0; i < 2; i++)
        prepare_side(&sides[i]);
    for (size_t i = 0; i < sizeof operations / sizeof *operations; i++)
        require_pair(sides, &operations[i]);
    for (int i = 0; i < 2; i++)
        free(sides[i].end.matrix);
}

int main(void)
{
    static const size_t keys[] = {LYRA2_KEY_MAX, 97, 96, 32, 8, 1}, passwords[] = {LYRA2_PASSWORD_MAX, 64, 31, 8};
    for (size_t lanes = LYRA2_LANES_MIN; lanes <= LYRA2_LANES_MAX; lanes++) {
        for (size_t i = 0; i < sizeof keys / sizeof *keys; i++)
            require_shape(lanes, LYRA2_LANE_ROWS_MIN * lanes, 1 + i % 3, 1 + i % 2, keys[i], passwords[i % 4]);
        require_shape(lanes, MOST_ROWS / (2 * lanes) * (2 * lanes), MOST_COLUMNS, 2, 64, 20);
    }
    printf("left of lanes: none of %zu words; the stacks of %zu pairs of calls do not differ\n", searched, pairs);
    return 0;
}
