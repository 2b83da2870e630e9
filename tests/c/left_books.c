/*
 * What the calls with a book of accounts leave on the stack that they used. It is searched, at every byte, for eight
 * bytes of the account's key, of the password and of the end matrix. Then two calls that differ in the password and in
 * the account's key alone are compared: what differs on their stacks was made from these. After a check that may be a
 * row, a column or a place in the matrix, as the visits pick them.
 */
#include "book_model.h"
#include "marked.h"

#include <stdbool.h>
#include <stdio.h>
#include <string.h>

enum { MOST_TIME = 2, MOST_ROWS = 20, MOST_COLUMNS = 17, WINDOW = 8, NUMBER = 300 };
#define MOST_MATRIX LYRA2_MATRIX_WORDS(MOST_ROWS, MOST_COLUMNS)
#define MOST_RECORD LYRA2_RECORD_WORDS(MOST_TIME, MOST_ROWS, MOST_COLUMNS)

/* A password, what is made from it, and the stack after a call. */
struct side {
    uint8_t password[LYRA2_PASSWORD_MAX], key[LYRA2_KEY_MAX];
    uint64_t matrix[MOST_MATRIX], stack[MARKED_WORDS];
    size_t used;
};

/* What is lent lies at the same addresses on both sides. */
static const uint8_t salt[LYRA2_SALT_MAX];
static uint8_t password[LYRA2_PASSWORD_MAX], key[LYRA2_KEY_MAX], book[4 * LYRA2_ACCOUNT_MAX];
static uint64_t matrix[MOST_MATRIX], counts[LYRA2_COUNTS];
static struct account account;
static size_t password_len, used, used_after, place;
static uint32_t same, answer;

static size_t searched, most_bytes, pairs;

static void check(void)
{
    answer = lyra2_book_check(password, password_len, book, sizeof book, used, NUMBER, matrix, MOST_MATRIX, &same,
                              counts);
}

static void add(void)
{
    answer = lyra2_book_add(book, sizeof book, used, NUMBER, account.time, account.rows, account.columns, salt,
                            account.salt.length, key, account.key.length, &used_after);
}

static void remove_account(void)
{
    answer = lyra2_book_remove(book, sizeof book, used, NUMBER, &used_after);
}

static void find(void)
{
    answer = lyra2_book_find(book, sizeof book, used, NUMBER, &place);
}

static const struct operation {
    const char *name;
    void (*call)(void);
    bool derives;
} operations[] = {{"book_check", check, true}, {"book_add", add, false}, {"book_remove", remove_account, false},
                  {"book_find", find, false}};

/* Three accounts, the one with the key in the middle; a new one has the same number. */
static void write_book(const struct side *side)
{
    struct account three[] = {account, account, account};
    three[0].number = 1;
    three[2].number = 2;
    three[0].key.start = three[2].key.start = salt;
    three[0].key.length = three[2].key.length = sizeof salt;
    three[1].key.start = side->key;
    used = encode(book, three, 3);
    memcpy(key, side->key, sizeof key);
    memcpy(password, side->password, sizeof password);
}

static void run_side(struct side *side, const struct operation *operation)
{
    write_book(side);
    side->used = run_marked(operation->call);
    memcpy(side->stack, marked_stack, sizeof marked_stack);
    if (answer != LYRA2_ACCEPTED || (operation->derives && same != 1))
        fail("%s: answer %u, same %u", operation->name, answer, same);
}

/* No eight bytes of a secret, starting at every `step` of its bytes, stand on the stack. */
static void require_absent(const struct side *side, const char *name, const char *what, const void *secret,
                           size_t bytes, size_t step)
{
    const uint8_t *stack = (const uint8_t *)side->stack, *start = secret;
    for (size_t i = 0; i + WINDOW <= bytes; i += step, searched++)
        for (size_t j = MARKED_BYTES - side->used; j + WINDOW <= MARKED_BYTES; j++)
            if (memcmp(stack + j, start + i, WINDOW) == 0)
                fail("%s: the %s from byte %zu on is left on the stack", name, what, i);
}

/* The words in which the stacks differ and may not; `most_bytes` keeps the bytes in which they do. */
static size_t compare(const struct side *one, const struct side *other, bool picks)
{
    size_t bytes = 0, words = 0, most = LYRA2_MATRIX_WORDS(account.rows, account.columns);
    for (size_t i = 0; i < MARKED_WORDS; i++) {
        uint64_t difference = one->stack[i] ^ other->stack[i];
        words += difference != 0 && !(picks && one->stack[i] < most && other->stack[i] < most);
        for (; difference != 0; difference >>= 8)
            bytes += (difference & 0xff) != 0;
    }
    if (bytes > most_bytes)
        most_bytes = bytes;
    return words;
}

static void require_pair(struct side sides[2], const struct operation *operation)
{
    for (int i = 0; i < 2; i++) {
        run_side(&sides[i], operation);
        require_absent(&sides[i], operation->name, "key", sides[i].key, account.key.length, 1);
        require_absent(&sides[i], operation->name, "password", sides[i].password, password_len, 1);
        if (operation->derives)
            require_absent(&sides[i], operation->name, "end matrix", sides[i].matrix,
                           8 * LYRA2_MATRIX_WORDS(account.rows, account.columns), 8);
    }
    size_t words = compare(&sides[0], &sides[1], operation->derives && account.time > 0);
    if (words != 0)
        fail("%s: %zu words on the stack depend on the key", operation->name, words);
    pairs++;
}

/* A password, and what the recorded derivation makes of it. */
static void prepare_side(struct side *side)
{
    static uint64_t x = 1, state[LYRA2_STATE_WORDS], record[MOST_RECORD];
    for (size_t i = 0; i < sizeof side->password; i++) {
        x ^= x << 13;
        x ^= x >> 7;
        x ^= x << 17;
        side->password[i] = (uint8_t)(x >> 32);
    }
    uint32_t recorded = lyra2_derive_recorded(
        side->password, password_len, salt, account.salt.length, account.time, account.rows, account.columns,
        LYRA2_REDUCED_ROUNDS_USUAL, LYRA2_ROTATION_USUAL, LYRA2_MIXER_USUAL, side->key, account.key.length,
        side->matrix, MOST_MATRIX, record, MOST_RECORD, state, counts);
    if (recorded != LYRA2_ACCEPTED)
        fail("refused: %s", lyra2_sentence(recorded));
}

static void require_shape(size_t time, size_t rows, size_t columns, size_t key_bytes, size_t password_bytes)
{
    static struct side sides[2];
    account = (struct account){NUMBER, time, rows, columns, {salt, sizeof salt}, {key, key_bytes}};
    password_len = password_bytes;
    for (int i = 0; i < 2; i++)
        prepare_side(&sides[i]);
    for (size_t i = 0; i < sizeof operations / sizeof *operations; i++)
        require_pair(sides, &operations[i]);
}

int main(void)
{
    static const size_t keys[] = {LYRA2_KEY_MAX, 97, 96, 32, 8, 1}, passwords[] = {LYRA2_PASSWORD_MAX, 64, 31, 8};
    for (size_t time = 0; time <= MOST_TIME; time++) {
        for (size_t i = 0; i < sizeof keys / sizeof *keys; i++)
            for (size_t j = 0; j < sizeof passwords / sizeof *passwords; j++)
                require_shape(time, 3 + i % 2, 1 + j % 3, keys[i], passwords[j]);
        require_shape(time, MOST_ROWS, MOST_COLUMNS, 64, 20);
    }
    printf("left of books: none of %zu words; in %zu pairs of calls at most %zu bytes differ\n", searched, pairs,
           most_bytes);
    return 0;
}
