/*
 * Chooses the costs of a gateway's logins: from the bytes that the matrix may take and the rounds that a login may
 * spend come T, R and C, and what is promised of them. Nothing is derived.
 *
 *     cc -std=c99 -Iinclude examples/choose_costs.c target/staticlib/libderivation_export.a -o choose_costs
 *     ./choose_costs 6291456 1000000
 *
 * A third argument says how many column counts are tried; without one all are. The budget is one for the longest
 * password and salt and a key of 32 bytes, so that every login keeps to it. How many rounds a second has is the
 * gateway's to measure, by timing a derivation; `lyra2 choose --seconds` does.
 */
#include "lyra2.h"

#include <errno.h>
#include <inttypes.h>
#include <stdio.h>
#include <stdlib.h>

enum { DONE = 0, REFUSED = 1, FAILED = 2 };
enum { KEY_LEN = 32 };

static int refuse(uint32_t answer)
{
    fprintf(stderr, "refused %" PRIu32 ": %s\n", answer, lyra2_sentence(answer));
    return REFUSED;
}

/* Reads a number; one that has no room in 64 bits is none. */
static int read_number(const char *text, uint64_t *number)
{
    char *end;
    if (*text < '0' || *text > '9')
        return 0;
    errno = 0;
    *number = strtoull(text, &end, 10);
    return *end == '\0' && errno == 0;
}

/* Tells what is chosen and what it takes. */
static int tell(const size_t value[LYRA2_CHOICE_VALUES], size_t tries)
{
    size_t time = value[LYRA2_CHOICE_TIME], rows = value[LYRA2_CHOICE_ROWS], columns = value[LYRA2_CHOICE_COLUMNS];
    uint64_t counts[LYRA2_COUNTS];
    uint32_t answer = lyra2_cost(KEY_LEN, LYRA2_PASSWORD_MAX, LYRA2_SALT_MAX, time, rows, columns,
                                 LYRA2_REDUCED_ROUNDS_USUAL, counts);
    if (answer != LYRA2_ACCEPTED)
        return refuse(answer);
    printf("time %zu, rows %zu, columns %zu\n", time, rows, columns);
    printf("%" PRIu64 " bytes of matrix, %" PRIu64 " rounds\n", 8 * LYRA2_MATRIX_WORDS(rows, columns),
           counts[LYRA2_ROUNDS]);
    if (tries >= LYRA2_COLUMNS_MAX)
        puts("no others that fit have more cells");
    else
        printf("no others that fit have more than these cells and %zu more\n", value[LYRA2_CHOICE_SHORTFALL]);
    return DONE;
}

int main(int count, char **arguments)
{
    uint64_t bytes, budget, tries = LYRA2_COLUMNS_MAX;
    size_t value[LYRA2_CHOICE_VALUES];
    if (count < 3 || count > 4 || !read_number(arguments[1], &bytes) || !read_number(arguments[2], &budget)
        || (count == 4 && !read_number(arguments[3], &tries))) {
        fprintf(stderr, "usage: choose_costs BYTES ROUNDS [COLUMN_COUNTS]\n");
        return FAILED;
    }
    uint32_t answer = lyra2_choose(KEY_LEN, LYRA2_PASSWORD_MAX, LYRA2_SALT_MAX, bytes / sizeof(uint64_t), budget,
                                   LYRA2_REDUCED_ROUNDS_USUAL, tries, value);
    return answer == LYRA2_ACCEPTED ? tell(value, tries) : refuse(answer);
}
