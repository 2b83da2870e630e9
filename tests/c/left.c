/*
 * What an accepted call leaves on the stack that it used. The stack is searched, at every byte, for words of the key,
 * the password, the state and the end matrix. Then two calls that differ in the password's bytes alone are compared:
 * what differs on their stacks was made from the password. That may be a row, a column or a place in the matrix, as the
 * visits pick them, and with the recorded derivation a word of the state that it returns.
 */
#include "calls.h"
#include "marked.h"

#include <stdio.h>
#include <string.h>

enum { MOST_TIME = 2, MOST_ROWS = 20, MOST_COLUMNS = 17, WINDOW = 8 };
#define MOST_MATRIX LYRA2_MATRIX_WORDS(MOST_ROWS, MOST_COLUMNS)
#define MOST_RECORD LYRA2_RECORD_WORDS(MOST_TIME, MOST_ROWS, MOST_COLUMNS)

/* A password, what is made from it, and the stack after a call. */
struct side {
    uint8_t password[LYRA2_PASSWORD_MAX], key[LYRA2_KEY_MAX];
    uint64_t state[LYRA2_STATE_WORDS], matrix[MOST_MATRIX], stack[MARKED_WORDS];
    size_t used;
};

/* What is lent lies at the same addresses on both sides. */
static struct sizes sizes;
static enum operation operation;
static uint8_t password[LYRA2_PASSWORD_MAX], salt[LYRA2_SALT_MAX], key[LYRA2_KEY_MAX];
static uint64_t matrix[MOST_MATRIX], record[MOST_RECORD], state[LYRA2_STATE_WORDS], counts[LYRA2_COUNTS];
static uint32_t same, answer;

static size_t pairs, searched, most_bytes;

static void call(void)
{
    const struct sizes *n = &sizes;
    if (operation == RECORDED)
        answer = lyra2_derive_recorded(password, n->password, salt, n->salt, n->time, n->rows, n->columns, n->rounds,
                                       n->rotation, n->mixer, key, n->key, matrix, n->matrix, record, n->record, state,
                                       counts);
    else if (operation == PLAIN)
        answer = lyra2_derive(password, n->password, salt, n->salt, n->time, n->rows, n->columns, n->rounds,
                              n->rotation, n->mixer, key, n->key, matrix, n->matrix, counts);
    else
        answer = lyra2_check(password, n->password, salt, n->salt, n->time, n->rows, n->columns, n->rounds,
                             n->rotation, n->mixer, key, n->key, matrix, n->matrix, &same, counts);
}

/* Whether eight bytes stand on the used part of a side's stack. */
static bool stands(const struct side *side, const uint8_t *bytes)
{
    const uint8_t *stack = (const uint8_t *)side->stack;
    for (size_t i = MARKED_BYTES - side->used; i + WINDOW <= MARKED_BYTES; i++)
        if (memcmp(stack + i, bytes, WINDOW) == 0)
            return true;
    return false;
}

/* No eight bytes of a secret, starting at every `step` of its bytes, stand on the stack. */
static void require_absent(const struct side *side, const char *name, const void *secret, size_t bytes, size_t step)
{
    for (size_t i = 0; i + WINDOW <= bytes; i += step, searched++)
        if (stands(side, (const uint8_t *)secret + i))
            fail("%s: the %s from byte %zu on is left on the stack", operation_names[operation], name, i);
}

static void require_no_secret(const struct side *side)
{
    require_absent(side, "key", side->key, sizes.key, 1);
    require_absent(side, "password", side->password, sizes.password, 1);
    require_absent(side, "end matrix", side->matrix, 8 * sizes.matrix, 8);
    if (operation != RECORDED)
        require_absent(side, "state", side->state, sizeof side->state, 8);
}

/* Whether a word that differs is one of the picks, of which there are none without visits, or of the returned state. */
static bool may_differ(const struct side *side, uint64_t word)
{
    bool returned = false;
    for (size_t i = 0; operation == RECORDED && i < LYRA2_STATE_WORDS; i++)
        returned = returned || word == side->state[i];
    return returned || (sizes.time > 0 && word < sizes.matrix);
}

/* The bytes in which the stacks differ; `wrong` counts the words in which they may not. */
static size_t compare(const struct side *one, const struct side *other, size_t *wrong)
{
    size_t bytes = 0;
    *wrong = 0;
    for (size_t i = 0; i < MARKED_WORDS; i++) {
        uint64_t difference = one->stack[i] ^ other->stack[i];
        if (difference != 0 && !(may_differ(one, one->stack[i]) && may_differ(other, other->stack[i])))
            ++*wrong;
        for (; difference != 0; difference >>= 8)
            bytes += (difference & 0xff) != 0;
    }
    return bytes;
}

/* The call on the marked stack, of which the side gets a copy. A check is given the key, or another one. */
static void run_side(struct side *side, uint8_t wrong)
{
    memcpy(password, side->password, sizeof password);
    memcpy(key, side->key, sizeof key);
    key[sizes.key - 1] ^= wrong;
    side->used = run_marked(call);
    memcpy(side->stack, marked_stack, sizeof marked_stack);
    if (answer != LYRA2_ACCEPTED || (operation == CHECK && same != !wrong))
        fail("%s: answer %u, same %u", operation_names[operation], answer, same);
}

static void require_pair(struct side *one, struct side *other, uint8_t wrong)
{
    size_t words;
    run_side(one, wrong);
    run_side(other, wrong);
    require_no_secret(one);
    require_no_secret(other);
    size_t bytes = compare(one, other, &words);
    if (words != 0)
        fail("%s: %zu words on the stack depend on the password", operation_names[operation], words);
    if (operation != RECORDED && bytes > most_bytes)
        most_bytes = bytes;
    pairs++;
}

/* A password, and what the recorded derivation makes of it. */
static void prepare_side(struct side *side)
{
    static uint64_t x = 1;
    for (size_t i = 0; i < sizeof password; i++) {
        x ^= x << 13;
        x ^= x >> 7;
        x ^= x << 17;
        password[i] = (uint8_t)(x >> 32);
    }
    operation = RECORDED;
    call();
    if (answer != LYRA2_ACCEPTED)
        fail("refused: %s", lyra2_sentence(answer));
    memcpy(side->password, password, sizeof password);
    memcpy(side->key, key, sizeof key);
    memcpy(side->state, state, sizeof state);
    memcpy(side->matrix, matrix, sizeof matrix);
}

/* The search finds a word of the key at an odd place of the stack, and the comparison a single byte. */
static void require_sight(struct side *one, struct side *other)
{
    size_t before, after;
    operation = PLAIN;
    run_side(one, 0);
    run_side(other, 0);
    uint8_t *place = (uint8_t *)one->stack + MARKED_BYTES - one->used + 13;
    if (stands(one, one->key))
        fail("a word of the key was there before");
    memcpy(place, one->key, WINDOW);
    if (!stands(one, one->key))
        fail("a word of the key is not seen");
    memcpy(place, (uint8_t *)other->stack + MARKED_BYTES - other->used + 13, WINDOW);
    compare(one, other, &before);
    *place ^= 0x80;
    compare(one, other, &after);
    if (before != 0 || after != 1)
        fail("%zu and %zu words are seen to differ", before, after);
}

/* One shape, with the settings that `sizes` has. */
static void require_shape(size_t time, size_t rows, size_t columns, size_t key_bytes, size_t password_bytes)
{
    static struct side one, other;
    sizes.key = key_bytes;
    sizes.password = password_bytes;
    sizes.time = time;
    sizes.rows = rows;
    sizes.columns = columns;
    sizes = fitting(sizes);
    prepare_side(&one);
    prepare_side(&other);
    for (operation = RECORDED; operation <= CHECK; operation++)
        require_pair(&one, &other, 0);
    operation = CHECK;
    require_pair(&one, &other, 1);
    if (time == 0 && key_bytes >= WINDOW)
        require_sight(&one, &other);
}

/* Other rounds and rotations, with the mixer that `sizes` has. */
static void require_settings(size_t rounds, size_t rotation)
{
    sizes.rounds = rounds;
    sizes.rotation = rotation;
    for (size_t time = 0; time <= MOST_TIME; time++) {
        require_shape(time, MOST_ROWS, MOST_COLUMNS, LYRA2_KEY_MAX, LYRA2_PASSWORD_MAX);
        require_shape(time, MOST_ROWS, 1, 96, 20);
        require_shape(time, 3, MOST_COLUMNS, 32, 20);
    }
}

static void require_mixer(bool mixer)
{
    static const size_t keys[] = {LYRA2_KEY_MAX, 200, 192, 97, 96, 95, 32, 8, 1};
    static const size_t passwords[] = {LYRA2_PASSWORD_MAX, 100, 64, 32, 31, 20, 8, 1};
    sizes = accepted_sizes;
    sizes.salt = LYRA2_SALT_MAX;
    sizes.mixer = mixer;
    for (size_t time = 0; time <= MOST_TIME; time++)
        for (size_t i = 0; i < sizeof keys / sizeof *keys; i++)
            for (size_t j = 0; j < sizeof passwords / sizeof *passwords; j++)
                require_shape(time, 3 + i % 2, 1 + j % 3, keys[i], passwords[j]);
    require_settings(LYRA2_REDUCED_ROUNDS_USUAL, LYRA2_ROTATION_USUAL);
    require_settings(LYRA2_REDUCED_ROUNDS_USUAL, LYRA2_ROTATION_MAX);
    require_settings(LYRA2_REDUCED_ROUNDS_MAX, LYRA2_ROTATION_USUAL);
    require_settings(LYRA2_REDUCED_ROUNDS_MAX, LYRA2_ROTATION_MAX);
    require_settings(2, LYRA2_ROTATION_MIN);
    require_settings(3, 5);
}

int main(void)
{
    for (size_t i = 0; i < MIXERS; i++)
        require_mixer(mixers[i]);
    printf("left on the stack: none of %zu words; in %zu pairs of calls at most %zu bytes of picks differ\n", searched,
           pairs, most_bytes);
    return 0;
}
