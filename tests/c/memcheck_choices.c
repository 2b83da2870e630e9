/*
 * The choice of costs under valgrind's memcheck, which sees every byte that a call reads or writes. Its values are
 * memory of exactly their length, marked as never written: accepted or refused, a call writes all and reads none of them.
 */
#include "calls.h"
#include "choice_calls.h"
#include "watched.h"

#include <stdio.h>
#include <stdlib.h>
#include <valgrind/memcheck.h>

enum { VALUES_BYTES = LYRA2_CHOICE_VALUES * sizeof(size_t) };

static const struct choice_sizes accepted = {
    .key = 32, .password = 31, .salt = 8, .matrix = 12 * 16411, .budget = UINT64_MAX, .rounds = 1, .tries = SIZE_MAX};

static void require_answer(struct choice_sizes n, uint32_t due)
{
    size_t *values = unwritten(VALUES_BYTES);
    uint32_t answer = lyra2_choose(n.key, n.password, n.salt, n.matrix, n.budget, n.rounds, n.tries, values);
    calls_made++;
    if (answer != due)
        fail("choose: %u is due, %u was answered", due, answer);
    require_written("values", values, VALUES_BYTES, VALUES_BYTES);
    if (due != LYRA2_ACCEPTED)
        require_zero_field("values", values, VALUES_BYTES);
    free(values);
}

static void require_refusals(void)
{
    const struct choice_sizes n = accepted;
    struct choice_sizes wrong[] = {n, n, n, n, n, n, n, n, n};
    static const uint32_t due[] = {
        LYRA2_REFUSED_KEY,           LYRA2_REFUSED_KEY,    LYRA2_REFUSED_PASSWORD, LYRA2_REFUSED_SALT_TOO_SHORT,
        LYRA2_REFUSED_SALT_TOO_LONG, LYRA2_REFUSED_ROUNDS, LYRA2_REFUSED_ROUNDS,   LYRA2_REFUSED_TRIES,
        LYRA2_REFUSED_NOTHING_FITS,
    };
    wrong[0].key = 0;
    wrong[1].key = SIZE_MAX;
    wrong[2].password = LYRA2_PASSWORD_MAX + 1;
    wrong[3].salt = LYRA2_SALT_MIN - 1;
    wrong[4].salt = LYRA2_SALT_MAX + 1;
    wrong[5].rounds = 0;
    wrong[6].rounds = LYRA2_REDUCED_ROUNDS_MAX + 1;
    wrong[7].tries = 0;
    wrong[8].matrix = LYRA2_MATRIX_WORDS(3, 1) - 1;
    for (size_t i = 0; i < sizeof due / sizeof *due; i++)
        require_answer(wrong[i], due[i]);
}

/* From the least matrix and budget to as much as there are numbers for. */
static void require_accepted(size_t rounds, size_t tries)
{
    struct choice_sizes n = accepted;
    n.rounds = rounds;
    n.tries = tries;
    require_answer(n, LYRA2_ACCEPTED);
    n.matrix = LYRA2_MATRIX_WORDS(3, 1);
    require_answer(n, LYRA2_ACCEPTED);
    n.matrix = SIZE_MAX;
    require_answer(n, LYRA2_ACCEPTED);
    n.budget = 24 + 6 * rounds;
    require_answer(n, LYRA2_ACCEPTED);
    n.budget--;
    require_answer(n, LYRA2_REFUSED_NOTHING_FITS);
    n.budget = 0;
    require_answer(n, LYRA2_REFUSED_NOTHING_FITS);
}

int main(void)
{
    static const size_t tries[] = {1, 2, 255, 256, 257, SIZE_MAX};
    if (!RUNNING_ON_VALGRIND)
        fail("this program tells nothing outside of valgrind");
    require_refusals();
    for (size_t rounds = LYRA2_REDUCED_ROUNDS_MIN; rounds <= LYRA2_REDUCED_ROUNDS_MAX; rounds++)
        for (size_t i = 0; i < sizeof tries / sizeof *tries; i++)
            require_accepted(rounds, tries[i]);
    printf("memcheck of choices: %zu calls\n", calls_made);
    return 0;
}
