/*
 * Derives a key with several lanes and checks it: with every number of lanes that the rows allow, of which one says yes,
 * and with the single sponge. So who stores such a key has to store the number of its lanes. The password is all of
 * standard input.
 *
 *     cc -std=c99 -Iinclude examples/lanes.c target/staticlib/libderivation_export.a -o lanes
 *     printf 'correct horse' | ./lanes 'salt of 16 bytes' 1 256 64 4 32
 *
 * How memory is better set aside than by malloc shows derive_and_check.c.
 */
#include "lyra2.h"

#include <errno.h>
#include <inttypes.h>
#include <stdio.h>
#include <stdlib.h>
#include <string.h>

enum { DONE = 0, REFUSED = 1, FAILED = 2 };

struct inputs {
    uint8_t password[LYRA2_PASSWORD_MAX + 1]; /* one byte more than is accepted, so that nothing is cut off unseen */
    size_t password_len;
    const uint8_t *salt;
    size_t salt_len;
    size_t time, rows, columns, lanes, key_len;
};

/* Writes that the compiler may not leave out, though nobody reads the memory afterwards. */
static void wipe(void *memory, size_t bytes)
{
    volatile uint8_t *place = memory;
    while (bytes-- > 0)
        *place++ = 0;
}

static int refuse(uint32_t answer)
{
    fprintf(stderr, "refused %" PRIu32 ": %s\n", answer, lyra2_sentence(answer));
    return REFUSED;
}

/* Reads a number; one that has no room in 64 bits is none. */
static int read_number(const char *text, size_t *number)
{
    char *end;
    if (*text < '0' || *text > '9')
        return 0;
    errno = 0;
    *number = strtoull(text, &end, 10);
    return *end == '\0' && errno == 0;
}

static int read_arguments(int count, char **arguments, struct inputs *in)
{
    if (count != 7)
        return 0;
    in->salt = (const uint8_t *)arguments[1];
    in->salt_len = strlen(arguments[1]);
    return read_number(arguments[2], &in->time) && read_number(arguments[3], &in->rows)
        && read_number(arguments[4], &in->columns) && read_number(arguments[5], &in->lanes)
        && read_number(arguments[6], &in->key_len);
}

static int read_password(struct inputs *in)
{
    setvbuf(stdin, NULL, _IONBF, 0); /* the standard library then keeps no copy in a buffer of its own */
    in->password_len = fread(in->password, 1, sizeof in->password, stdin);
    return !ferror(stdin);
}

static uint32_t derive(const struct inputs *in, uint8_t *key, uint64_t *matrix, size_t matrix_words)
{
    uint64_t counts[LYRA2_COUNTS];
    uint32_t answer = lyra2_lanes_derive(in->password, in->password_len, in->salt, in->salt_len, in->time, in->rows,
                                         in->columns, in->lanes, key, in->key_len, matrix, matrix_words, counts);
    if (answer != LYRA2_ACCEPTED)
        return answer;
    printf("key: ");
    for (size_t i = 0; i < in->key_len; i++)
        printf("%02x", key[i]);
    puts("");
    return answer;
}

/* Checks with each number of lanes but those that cannot share the rows. */
static uint32_t check_lanes(const struct inputs *in, const uint8_t *key, uint64_t *matrix, size_t matrix_words)
{
    for (size_t lanes = LYRA2_LANES_MIN; lanes <= LYRA2_LANES_MAX; lanes++) {
        uint64_t counts[LYRA2_COUNTS];
        uint32_t same = 0;
        uint32_t answer = lyra2_lanes_check(in->password, in->password_len, in->salt, in->salt_len, in->time, in->rows,
                                            in->columns, lanes, key, in->key_len, matrix, matrix_words, &same, counts);
        if (answer == LYRA2_REFUSED_LANES)
            continue;
        if (answer != LYRA2_ACCEPTED)
            return answer;
        printf("lanes %zu: %s\n", lanes, same ? "yes" : "no");
    }
    return LYRA2_ACCEPTED;
}

static uint32_t check_single(const struct inputs *in, const uint8_t *key, uint64_t *matrix, size_t matrix_words)
{
    uint64_t counts[LYRA2_COUNTS];
    uint32_t same = 0;
    uint32_t answer = lyra2_check(in->password, in->password_len, in->salt, in->salt_len, in->time, in->rows,
                                  in->columns, LYRA2_REDUCED_ROUNDS_USUAL, LYRA2_ROTATION_USUAL, LYRA2_MIXER_USUAL, key,
                                  in->key_len, matrix, matrix_words, &same, counts);
    if (answer == LYRA2_ACCEPTED)
        printf("the single sponge: %s\n", same ? "yes" : "no");
    return answer;
}

/* Lends the memory. The cost question has accepted the numbers, so the matrix's size means something. */
static int run(const struct inputs *in)
{
    size_t words = LYRA2_MATRIX_WORDS(in->rows, in->columns);
    uint8_t key[LYRA2_KEY_MAX];
    uint64_t *matrix = malloc(words * sizeof *matrix);
    if (matrix == NULL) {
        fprintf(stderr, "no memory for a matrix of %zu bytes\n", words * sizeof *matrix);
        return FAILED;
    }
    uint32_t answer = derive(in, key, matrix, words);
    if (answer == LYRA2_ACCEPTED)
        answer = check_lanes(in, key, matrix, words);
    if (answer == LYRA2_ACCEPTED)
        answer = check_single(in, key, matrix, words);
    wipe(key, sizeof key);
    free(matrix); /* not wiped here: an accepted call leaves zeros in it, and a refused one what it held */
    return answer == LYRA2_ACCEPTED ? DONE : refuse(answer);
}

static int ask_and_run(const struct inputs *in)
{
    uint64_t counts[LYRA2_COUNTS];
    uint32_t answer = lyra2_lanes_cost(in->key_len, in->password_len, in->salt_len, in->time, in->rows, in->columns,
                                       in->lanes, counts);
    if (answer != LYRA2_ACCEPTED)
        return refuse(answer);
    printf("cost: %" PRIu64 " full calls, %" PRIu64 " reduced calls, %" PRIu64 " rounds, %" PRIu64 " bytes of matrix\n",
           counts[LYRA2_FULL_CALLS], counts[LYRA2_REDUCED_CALLS], counts[LYRA2_ROUNDS],
           8 * LYRA2_MATRIX_WORDS(in->rows, in->columns));
    return run(in);
}

int main(int count, char **arguments)
{
    struct inputs in;
    if (!read_arguments(count, arguments, &in) || !read_password(&in)) {
        fprintf(stderr, "usage: lanes SALT TIME ROWS COLUMNS LANES KEY_BYTES <PASSWORD\n");
        return FAILED;
    }
    int status = ask_and_run(&in);
    wipe(&in, sizeof in);
    return status;
}
