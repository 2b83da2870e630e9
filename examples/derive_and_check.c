/*
 * Derives a key from a password and checks it: asks the cost, lends the matrix, derives, checks the key and a wrong
 * one, and wipes what is secret. Rounds, rotation and mixer are the usual ones. The password is all of standard input.
 *
 *     cc -std=c99 -Iinclude examples/derive_and_check.c target/staticlib/libderivation_export.a -o derive_and_check
 *     printf 'correct horse' | ./derive_and_check 'salt of 16 bytes' 1 256 64 32
 *
 * Over an installed library the first of these is
 *
 *     cc -std=c99 $(pkg-config --cflags lyra2) derive_and_check.c $(pkg-config --libs lyra2) -o derive_and_check
 */
#define _DEFAULT_SOURCE /* for madvise and MAP_ANONYMOUS, which C99 alone hides */

#include "lyra2.h"

#include <inttypes.h>
#include <stdio.h>
#include <stdlib.h>
#include <string.h>
#include <sys/mman.h>

enum { DONE = 0, REFUSED = 1, FAILED = 2 };
enum { LARGE_PAGE = 2 << 20 };

struct inputs {
    uint8_t password[LYRA2_PASSWORD_MAX + 1]; /* one byte more than is accepted, so that nothing is cut off unseen */
    size_t password_len;
    const uint8_t *salt;
    size_t salt_len;
    size_t time, rows, columns, key_len;
};

/* Writes that the compiler may not leave out, though nobody reads the memory afterwards. */
static void wipe(void *memory, size_t bytes)
{
    volatile uint8_t *place = memory;
    while (bytes-- > 0)
        *place++ = 0;
}

static int refuse(uint32_t answer)
{
    fprintf(stderr, "refused %" PRIu32 ": %s\n", answer, lyra2_sentence(answer));
    return REFUSED;
}

static int read_number(const char *text, size_t *number)
{
    char *end;
    if (*text < '0' || *text > '9')
        return 0;
    *number = strtoull(text, &end, 10);
    return *end == '\0';
}

static int read_arguments(int count, char **arguments, struct inputs *in)
{
    if (count != 6)
        return 0;
    in->salt = (const uint8_t *)arguments[1];
    in->salt_len = strlen(arguments[1]);
    return read_number(arguments[2], &in->time) && read_number(arguments[3], &in->rows)
        && read_number(arguments[4], &in->columns) && read_number(arguments[5], &in->key_len);
}

static int read_password(struct inputs *in)
{
    setvbuf(stdin, NULL, _IONBF, 0); /* the standard library then keeps no copy in a buffer of its own */
    in->password_len = fread(in->password, 1, sizeof in->password, stdin);
    return !ferror(stdin);
}

static uint32_t check(const struct inputs *in, const uint8_t *stored, uint64_t *matrix, size_t matrix_words)
{
    uint64_t counts[LYRA2_COUNTS];
    uint32_t same = 0;
    uint32_t answer = lyra2_check(in->password, in->password_len, in->salt, in->salt_len, in->time, in->rows,
                                  in->columns, LYRA2_REDUCED_ROUNDS_USUAL, LYRA2_ROTATION_USUAL, LYRA2_MIXER_USUAL,
                                  stored, in->key_len, matrix, matrix_words, &same, counts);
    if (answer == LYRA2_ACCEPTED)
        printf("%s\n", same ? "yes" : "no");
    return answer;
}

/* Derives the key, then checks it as it is and with one bit changed. */
static uint32_t derive_and_check(const struct inputs *in, uint8_t *key, uint64_t *matrix, size_t matrix_words)
{
    uint64_t counts[LYRA2_COUNTS];
    uint32_t answer = lyra2_derive(in->password, in->password_len, in->salt, in->salt_len, in->time, in->rows,
                                   in->columns, LYRA2_REDUCED_ROUNDS_USUAL, LYRA2_ROTATION_USUAL, LYRA2_MIXER_USUAL,
                                   key, in->key_len, matrix, matrix_words, counts);
    if (answer != LYRA2_ACCEPTED)
        return answer;
    printf("key: ");
    for (size_t i = 0; i < in->key_len; i++)
        printf("%02x", key[i]);
    printf("\nthis key: ");
    answer = check(in, key, matrix, matrix_words);
    if (answer != LYRA2_ACCEPTED)
        return answer;
    key[0] ^= 1;
    printf("with a bit changed: ");
    return check(in, key, matrix, matrix_words);
}

/* Memory to lend; it starts on the first boundary of a large page within its mapping. */
struct memory {
    void *mapping;
    size_t mapped;
    uint64_t *words;
};

/* Sets memory aside. Large pages make a derivation over some megabytes faster; core dumps leave it out; locked, as far
 * as `ulimit -l` allows, it is not swapped out. What the system refuses of these three is done without. */
static int lend(struct memory *memory, size_t bytes)
{
    memory->mapped = bytes + LARGE_PAGE;
    memory->mapping = mmap(NULL, memory->mapped, PROT_READ | PROT_WRITE, MAP_PRIVATE | MAP_ANONYMOUS, -1, 0);
    if (memory->mapping == MAP_FAILED)
        return 0;
    size_t past = (uintptr_t)memory->mapping % LARGE_PAGE;
    void *start = (char *)memory->mapping + (past == 0 ? 0 : LARGE_PAGE - past);
    (void)madvise(start, bytes, MADV_HUGEPAGE);
    (void)madvise(start, bytes, MADV_DONTDUMP);
    (void)mlock(start, bytes); /* last, for this fetches the pages, which should be large ones from the start */
    memory->words = start;
    return 1;
}

/* Gives memory back, and with it the lock. It is not wiped here: the library leaves zeros in the matrix of a derivation
 * or a check, and a refused call leaves it alone. After a recorded derivation matrix and record have to be wiped. */
static void give_back(struct memory *memory)
{
    munmap(memory->mapping, memory->mapped);
}

/* Lends the memory. The cost question has accepted the numbers, so the matrix's size means something. */
static int run(const struct inputs *in)
{
    size_t words = LYRA2_MATRIX_WORDS(in->rows, in->columns), bytes = words * sizeof(uint64_t);
    uint8_t key[LYRA2_KEY_MAX];
    struct memory matrix;
    if (!lend(&matrix, bytes)) {
        fprintf(stderr, "no memory for a matrix of %zu bytes\n", bytes);
        return FAILED;
    }
    uint32_t answer = derive_and_check(in, key, matrix.words, words);
    wipe(key, sizeof key);
    give_back(&matrix);
    return answer == LYRA2_ACCEPTED ? DONE : refuse(answer);
}

static int ask_and_run(const struct inputs *in)
{
    uint64_t counts[LYRA2_COUNTS];
    uint32_t answer = lyra2_cost(in->key_len, in->password_len, in->salt_len, in->time, in->rows, in->columns,
                                 LYRA2_REDUCED_ROUNDS_USUAL, counts);
    if (answer != LYRA2_ACCEPTED)
        return refuse(answer);
    printf("cost: %" PRIu64 " full calls, %" PRIu64 " reduced calls, %" PRIu64 " rounds, %" PRIu64 " bytes of matrix\n",
           counts[LYRA2_FULL_CALLS], counts[LYRA2_REDUCED_CALLS], counts[LYRA2_ROUNDS],
           8 * LYRA2_MATRIX_WORDS(in->rows, in->columns));
    return run(in);
}

int main(int count, char **arguments)
{
    struct inputs in;
    if (!read_arguments(count, arguments, &in) || !read_password(&in)) {
        fprintf(stderr, "usage: derive_and_check SALT TIME ROWS COLUMNS KEY_BYTES <PASSWORD\n");
        return FAILED;
    }
    int status = ask_and_run(&in);
    wipe(&in, sizeof in);
    return status;
}
