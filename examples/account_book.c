/*
 * Keeps a book of accounts in a static buffer, as a gateway does that checks passwords by itself: adds accounts, lists
 * them, finds one and checks passwords against it, replaces one and removes one. The password is all of standard input.
 *
 *     cc -std=c99 -Iinclude examples/account_book.c target/staticlib/libderivation_export.a -o account_book
 *     printf 'correct horse' | ./account_book 'salt of 16 bytes' 1 256 64 32
 *
 * The salts come from an argument here so that the keys are always the same; a program that enrols takes a new one from
 * the system's random source each time, as by getrandom. An account's key is one of the usual rounds, rotation and
 * mixer. derive_and_check.c shows better memory for the matrix. Of a book that outlives the program the used part is
 * kept, as secret as the keys in it.
 */
#include "lyra2.h"

#include <inttypes.h>
#include <stdio.h>
#include <stdlib.h>
#include <string.h>

enum { DONE = 0, REFUSED = 1, FAILED = 2 };

static uint8_t book[2 * LYRA2_ACCOUNT_MAX];
static size_t used; /* 0 at first: a book without accounts */

/* What an account is made from. */
struct costs {
    size_t time, rows, columns, key_len;
};

/* Writes that the compiler may not leave out, though nobody reads the memory afterwards. */
static void wipe(void *memory, size_t bytes)
{
    volatile uint8_t *place = memory;
    while (bytes-- > 0)
        *place++ = 0;
}

static int fail(const char *words)
{
    fprintf(stderr, "%s\n", words);
    return FAILED;
}

static int refuse(uint32_t answer)
{
    fprintf(stderr, "refused %" PRIu32 ": %s\n", answer, lyra2_sentence(answer));
    return REFUSED;
}

/* The used length changes only if the call was accepted: a refused one has stored 0, and the book is as it was. */
static int changed(uint32_t answer, size_t used_after, uint32_t number, const char *how)
{
    if (answer != LYRA2_ACCEPTED)
        return refuse(answer);
    used = used_after;
    printf("account %" PRIu32 " %s, %zu bytes used\n", number, how, used);
    return DONE;
}

/* Derives the key and puts the account at the end of the book; an older one of the number goes. */
static int enrol(uint32_t number, const uint8_t *password, size_t password_len, const uint8_t *salt, size_t salt_len,
                 struct costs costs, const char *how)
{
    uint8_t key[LYRA2_KEY_MAX];
    uint64_t counts[LYRA2_COUNTS];
    size_t used_after = 0;
    uint32_t answer = lyra2_cost(costs.key_len, password_len, salt_len, costs.time, costs.rows, costs.columns,
                                 LYRA2_REDUCED_ROUNDS_USUAL, counts);
    if (answer != LYRA2_ACCEPTED)
        return refuse(answer);
    size_t words = LYRA2_MATRIX_WORDS(costs.rows, costs.columns);
    uint64_t *matrix = malloc(words * sizeof *matrix);
    if (matrix == NULL)
        return fail("no memory for the matrix");
    answer = lyra2_derive(password, password_len, salt, salt_len, costs.time, costs.rows, costs.columns,
                          LYRA2_REDUCED_ROUNDS_USUAL, LYRA2_ROTATION_USUAL, LYRA2_MIXER_USUAL, key, costs.key_len,
                          matrix, words, counts);
    free(matrix);
    if (answer == LYRA2_ACCEPTED)
        answer = lyra2_book_add(book, sizeof book, used, number, costs.time, costs.rows, costs.columns, salt, salt_len,
                                key, costs.key_len, &used_after);
    wipe(key, sizeof key);
    return changed(answer, used_after, number, how);
}

/* Steps from account to account. Whether a book from elsewhere is in order, lyra2_book_find tells: any number will do. */
static void list(void)
{
    size_t value[LYRA2_ACCOUNT_VALUES], size;
    for (size_t place = 0; (size = lyra2_book_account(book, used, place, value)) > 0; place += size)
        printf("at %zu: account %zu, time %zu, rows %zu, columns %zu, salt of %zu bytes, key of %zu bytes\n", place,
               value[LYRA2_ACCOUNT_NUMBER], value[LYRA2_ACCOUNT_TIME], value[LYRA2_ACCOUNT_ROWS],
               value[LYRA2_ACCOUNT_COLUMNS], value[LYRA2_ACCOUNT_SALT_LEN], value[LYRA2_ACCOUNT_KEY_LEN]);
}

/* Sizes the matrix from the account, whose values are within the limits once it is found. */
static int log_in(uint32_t number, const uint8_t *password, size_t password_len, const char *what)
{
    size_t place, value[LYRA2_ACCOUNT_VALUES];
    uint64_t counts[LYRA2_COUNTS];
    uint32_t same = 0;
    uint32_t answer = lyra2_book_find(book, sizeof book, used, number, &place);
    if (answer != LYRA2_ACCEPTED)
        return refuse(answer);
    lyra2_book_account(book, used, place, value);
    size_t words = LYRA2_MATRIX_WORDS(value[LYRA2_ACCOUNT_ROWS], value[LYRA2_ACCOUNT_COLUMNS]);
    uint64_t *matrix = malloc(words * sizeof *matrix);
    if (matrix == NULL)
        return fail("no memory for the matrix");
    answer = lyra2_book_check(password, password_len, book, sizeof book, used, number, matrix, words, &same, counts);
    free(matrix);
    if (answer != LYRA2_ACCEPTED)
        return refuse(answer);
    printf("account %" PRIu32 " at %zu, %s: %s\n", number, place, what, same ? "yes" : "no");
    return DONE;
}

static int take_out(uint32_t number)
{
    size_t used_after = 0;
    uint32_t answer = lyra2_book_remove(book, sizeof book, used, number, &used_after);
    return changed(answer, used_after, number, "removed");
}

/* All that can be done with a book, one after the other; the first that fails ends it. */
static int keep(const uint8_t *password, size_t password_len, const char *salt_text, struct costs costs)
{
    uint8_t salt[LYRA2_SALT_MAX + 1] = {0}; /* one byte more than is accepted, so that nothing is cut off unseen */
    size_t place, salt_len = strlen(salt_text) < sizeof salt ? strlen(salt_text) : sizeof salt;
    memcpy(salt, salt_text, salt_len);
    int status = enrol(7, password, password_len, salt, salt_len, costs, "added");
    salt[0] ^= 1;
    if (status == DONE)
        status = enrol(8, password, password_len, salt, salt_len, costs, "added");
    if (status == DONE)
        list();
    if (status == DONE)
        status = log_in(8, password, password_len, "this password");
    if (status == DONE)
        status = log_in(8, (const uint8_t *)"another", 7, "another password");
    salt[0] ^= 2;
    if (status == DONE)
        status = enrol(7, (const uint8_t *)"another", 7, salt, salt_len, costs, "replaced");
    if (status == DONE)
        status = log_in(7, password, password_len, "this password");
    if (status == DONE)
        status = take_out(8);
    if (status == DONE) {
        list();
        printf("account 8: %s\n", lyra2_sentence(lyra2_book_find(book, sizeof book, used, 8, &place)));
    }
    return status;
}

/* T, R, C and the key length, from four arguments. */
static int read_costs(char **arguments, struct costs *costs)
{
    size_t *numbers[] = {&costs->time, &costs->rows, &costs->columns, &costs->key_len};
    for (int i = 0; i < 4; i++) {
        char *end;
        if (*arguments[i] < '0' || *arguments[i] > '9')
            return 0;
        *numbers[i] = strtoull(arguments[i], &end, 10);
        if (*end != '\0')
            return 0;
    }
    return 1;
}

int main(int count, char **arguments)
{
    uint8_t password[LYRA2_PASSWORD_MAX + 1]; /* one byte more than is accepted, so that nothing is cut off unseen */
    struct costs costs;
    if (count != 6 || !read_costs(arguments + 2, &costs))
        return fail("usage: account_book SALT TIME ROWS COLUMNS KEY_BYTES <PASSWORD");
    setvbuf(stdin, NULL, _IONBF, 0); /* the standard library then keeps no copy in a buffer of its own */
    size_t password_len = fread(password, 1, sizeof password, stdin);
    int status = ferror(stdin) ? fail("the password cannot be read")
                               : keep(password, password_len, arguments[1], costs);
    wipe(password, sizeof password);
    wipe(book, sizeof book);
    return status;
}
