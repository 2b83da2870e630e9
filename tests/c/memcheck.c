/*
 * Calls under valgrind's memcheck, which sees every byte that they read or write. All memory has exactly the length
 * that is lent; what a call writes is marked as never written, so an answer that depended on it would be marked too.
 */
#include "calls.h"
#include "watched.h"

#include <stdio.h>
#include <stdlib.h>
#include <string.h>
#include <valgrind/memcheck.h>

/* Words and bytes past the used ones, in the calls that lend more than is needed. */
enum { SPARE = 5 };

struct memory {
    uint8_t *password, *salt, *key, *stored;
    uint64_t *matrix, *record, *state, *counts;
    uint32_t *same;
};

static struct memory lend_all(const struct sizes *n)
{
    return (struct memory){
        .password = written(n->password, 1),
        .salt = written(n->salt, 2),
        .key = unwritten(n->key),
        .stored = unwritten(n->key),
        .matrix = unwritten(8 * n->matrix),
        .record = unwritten(8 * n->record),
        .state = unwritten(8 * LYRA2_STATE_WORDS),
        .counts = unwritten(8 * LYRA2_COUNTS),
        .same = unwritten(sizeof(uint32_t)),
    };
}

static void take_all_back(struct memory *m)
{
    void *all[] = {m->password, m->salt, m->key, m->stored, m->matrix, m->record, m->state, m->counts, m->same};
    for (size_t i = 0; i < sizeof all / sizeof *all; i++)
        free(all[i]);
}

/* Nothing is left in the used matrix of a plain derivation and a check. */
static void require_wiped(const struct sizes *n, const struct memory *m)
{
    require_written("matrix", m->matrix, 8 * used_matrix(n), 8 * n->matrix);
    require_zeros_in("matrix", m->matrix, 8 * used_matrix(n));
}

static uint32_t derive_recorded(const struct sizes *n, struct memory *m)
{
    calls_made++;
    return lyra2_derive_recorded(m->password, n->password, m->salt, n->salt, n->time, n->rows, n->columns, n->rounds,
                                 n->rotation, n->mixer, m->key, n->key, m->matrix, n->matrix, m->record, n->record,
                                 m->state, m->counts);
}

static uint32_t derive(const struct sizes *n, struct memory *m)
{
    calls_made++;
    return lyra2_derive(m->password, n->password, m->salt, n->salt, n->time, n->rows, n->columns, n->rounds,
                        n->rotation, n->mixer, m->key, n->key, m->matrix, n->matrix, m->counts);
}

static uint32_t check(const struct sizes *n, struct memory *m)
{
    calls_made++;
    return lyra2_check(m->password, n->password, m->salt, n->salt, n->time, n->rows, n->columns, n->rounds, n->rotation,
                       n->mixer, m->stored, n->key, m->matrix, n->matrix, m->same, m->counts);
}

static void require_accepted(uint32_t answer)
{
    if (answer != LYRA2_ACCEPTED)
        fail("refused: %s", lyra2_sentence(answer));
}

static void require_derivation(const struct sizes *n, int recorded)
{
    struct memory m = lend_all(n);
    require_accepted(recorded ? derive_recorded(n, &m) : derive(n, &m));
    require_written("key", m.key, n->key, n->key);
    if (recorded)
        require_written("matrix", m.matrix, 8 * used_matrix(n), 8 * n->matrix);
    else
        require_wiped(n, &m);
    require_written("record", m.record, recorded ? 8 * used_record(n) : 0, 8 * n->record);
    require_written("state", m.state, recorded ? 8 * LYRA2_STATE_WORDS : 0, 8 * LYRA2_STATE_WORDS);
    require_written("counts", m.counts, 8 * LYRA2_COUNTS, 8 * LYRA2_COUNTS);
    take_all_back(&m);
}

/*
 * The stored key is marked as never written, so memcheck reports a branch or an address that depends on its bytes: the
 * comparison may have none before its answer.
 */
static void require_check(const struct sizes *n, int wrong)
{
    struct memory m = lend_all(n);
    require_accepted(derive(n, &m));
    memcpy(m.stored, m.key, n->key);
    m.stored[n->key / 2] ^= (uint8_t)wrong;
    (void)VALGRIND_MAKE_MEM_UNDEFINED(m.stored, n->key);
    (void)VALGRIND_MAKE_MEM_UNDEFINED(m.matrix, 8 * n->matrix);
    (void)VALGRIND_MAKE_MEM_UNDEFINED(m.counts, 8 * LYRA2_COUNTS);
    require_accepted(check(n, &m));
    require_wiped(n, &m);
    require_written("counts", m.counts, 8 * LYRA2_COUNTS, 8 * LYRA2_COUNTS);
    (void)VALGRIND_MAKE_MEM_DEFINED(m.same, sizeof *m.same);
    if (*m.same != !wrong)
        fail("the check said %u", *m.same);
    take_all_back(&m);
}

static void require_answer(uint32_t answer, uint32_t due, struct memory *m)
{
    if (answer != due)
        fail("%u is due, %u was answered", due, answer);
    require_zero_field("counts", m->counts, 8 * LYRA2_COUNTS);
}

/* A refused call writes the fields of its answer and may not even read the rest, which is marked as out of reach. */
static void require_refused(struct sizes n, uint32_t due)
{
    struct memory m = lend_all(&n);
    (void)VALGRIND_MAKE_MEM_NOACCESS(m.password, n.password);
    (void)VALGRIND_MAKE_MEM_NOACCESS(m.salt, n.salt);
    (void)VALGRIND_MAKE_MEM_NOACCESS(m.key, n.key);
    (void)VALGRIND_MAKE_MEM_NOACCESS(m.stored, n.key);
    (void)VALGRIND_MAKE_MEM_NOACCESS(m.matrix, 8 * n.matrix);
    (void)VALGRIND_MAKE_MEM_NOACCESS(m.record, 8 * n.record);
    require_answer(derive_recorded(&n, &m), due, &m);
    require_zero_field("state", m.state, 8 * LYRA2_STATE_WORDS);
    if (has_check(PLAIN, due)) {
        require_answer(derive(&n, &m), due, &m);
        require_answer(check(&n, &m), due, &m);
        require_zero_field("same", m.same, sizeof *m.same);
    }
    if (has_check(COST, due)) {
        require_answer(lyra2_cost(n.key, n.password, n.salt, n.time, n.rows, n.columns, n.rounds, m.counts), due, &m);
        calls_made++;
    }
    take_all_back(&m);
}

static void require_refusals(bool mixer)
{
    struct sizes n = accepted_sizes;
    n.mixer = mixer;
    struct sizes wrong[] = {n, n, n, n, n, n, n, n}, rounds = n, rotation = n;
    wrong[0].key = 0;
    wrong[1].password = LYRA2_PASSWORD_MAX + 1;
    wrong[2].salt = LYRA2_SALT_MIN - 1;
    wrong[3].time = LYRA2_TIME_MAX + 1;
    wrong[4].rows = LYRA2_ROWS_MAX + 1;
    wrong[5].columns = 0;
    wrong[6].matrix = 35;
    wrong[7].record = 5;
    for (uint32_t i = 0; i < 8; i++)
        require_refused(wrong[i], i + 1);
    wrong[0].key = LYRA2_KEY_MAX + 1;
    require_refused(wrong[0], LYRA2_REFUSED_KEY);
    wrong[2].salt = LYRA2_SALT_MAX + 1;
    require_refused(wrong[2], LYRA2_REFUSED_SALT_TOO_LONG);
    wrong[3].time = SIZE_MAX;
    require_refused(wrong[3], LYRA2_REFUSED_TIME);
    wrong[6].matrix = 0;
    require_refused(wrong[6], LYRA2_REFUSED_MATRIX);
    rounds.rounds = LYRA2_REDUCED_ROUNDS_MAX + 1;
    require_refused(rounds, LYRA2_REFUSED_ROUNDS);
    rotation.rotation = LYRA2_ROTATION_MAX + 1;
    require_refused(rotation, LYRA2_REFUSED_ROTATION);
}

/* The lengths and numbers of these sizes, exactly lent and with words to spare, of the record as many as it uses. */
static void require_sizes(struct sizes n)
{
    for (size_t spare = 0; spare <= SPARE; spare += SPARE) {
        n.matrix = used_matrix(&n) + spare;
        n.record = used_record(&n) * (spare > 0 ? 2 : 1) + spare;
        require_derivation(&n, 1);
        require_derivation(&n, 0);
    }
    require_check(&n, 0);
    require_check(&n, 1);
    require_check(&n, 0x80);
}

/* One shape with a key, a password and a salt of these lengths, and the usual settings. */
static void require_shape(size_t time, size_t rows, size_t columns, size_t key, size_t password, size_t salt)
{
    require_sizes((struct sizes){key, password, salt, time, rows, columns, LYRA2_REDUCED_ROUNDS_USUAL,
                                 LYRA2_ROTATION_USUAL, LYRA2_MIXER_USUAL, 0, 0});
}

/* Other settings, with Setup alone and with visits. */
static void require_settings(size_t rounds, size_t rotation, bool mixer)
{
    for (size_t time = 0; time <= 2; time++)
        for (size_t columns = 1; columns <= 16; columns *= 4)
            require_sizes((struct sizes){97, 33, 9, time, 9, columns, rounds, rotation, mixer, 0, 0});
}

static void require_cost_and_walk(void)
{
    uint64_t *counts = unwritten(8 * LYRA2_COUNTS);
    size_t *row1 = unwritten(sizeof(size_t));
    require_accepted(lyra2_cost(32, 31, 8, 1, 3, 1, LYRA2_REDUCED_ROUNDS_MAX, counts));
    require_written("counts", counts, 8 * LYRA2_COUNTS, 8 * LYRA2_COUNTS);
    for (size_t row0 = 2; row0 <= 17; row0++) {
        (void)VALGRIND_MAKE_MEM_UNDEFINED(row1, sizeof *row1);
        uint32_t answer = lyra2_walk(17, row0, row1);
        if (answer != (row0 < 3 || row0 == 17 ? LYRA2_REFUSED_ROW0 : LYRA2_ACCEPTED))
            fail("walk: answer %u for row0 %zu", answer, row0);
        require_written("row1", row1, sizeof *row1, sizeof *row1);
        if (answer != LYRA2_ACCEPTED)
            require_zero_field("row1", row1, sizeof *row1);
        calls_made++;
    }
    calls_made++;
    free(counts);
    free(row1);
}

/* The decoder writes two numbers. A word of the record is secret, so it takes no branch on one that is marked as never
 * written. */
static void require_pair(uint64_t word)
{
    size_t bytes = 2 * sizeof word;
    uint64_t *numbers = unwritten(bytes), hidden = word;
    lyra2_record_pair(word, numbers);
    require_written("numbers", numbers, bytes, bytes);
    (void)VALGRIND_MAKE_MEM_UNDEFINED(numbers, bytes);
    (void)VALGRIND_MAKE_MEM_UNDEFINED(&hidden, sizeof hidden);
    lyra2_record_pair(hidden, numbers);
    (void)VALGRIND_MAKE_MEM_DEFINED(numbers, bytes);
    if (numbers[0] != word % 65536 || numbers[1] != word / 65536)
        fail("record_pair: %zu and %zu", (size_t)numbers[0], (size_t)numbers[1]);
    calls_made += 2;
    free(numbers);
}

int main(void)
{
    static const size_t keys[] = {1, 8, 95, 96, 97, 191, 192, 193, LYRA2_KEY_MAX - 1, LYRA2_KEY_MAX};
    static const size_t passwords[] = {0, 1, 31, 32, 39, 40, 95, 96, LYRA2_PASSWORD_MAX - 1, LYRA2_PASSWORD_MAX};
    static const size_t columns[] = {1, 2, 3, 15, 16, 17, 32, 64, 100, 128, 256};
    if (!RUNNING_ON_VALGRIND)
        fail("this program tells nothing outside of valgrind");
    for (size_t i = 0; i < MIXERS; i++)
        require_refusals(mixers[i]);
    require_cost_and_walk();
    for (size_t i = 0; i <= 64; i++)
        require_pair(i == 64 ? UINT64_MAX : UINT64_C(1) << i);
    for (size_t i = 0; i < sizeof keys / sizeof *keys; i++)
        for (size_t j = 0; j < sizeof passwords / sizeof *passwords; j++)
            require_shape(1, 3 + i % 3, 1 + j % 3, keys[i], passwords[j], i % 2 ? LYRA2_SALT_MAX : LYRA2_SALT_MIN);
    for (size_t i = 0; i < sizeof columns / sizeof *columns; i++)
        require_shape(1 + i % 3, 3 + 2 * i, columns[i], 97, 33, 9);
    for (size_t i = 0; i < sizeof columns / sizeof *columns; i++)
        require_shape(0, 3 + 2 * i, columns[i], keys[i % 10], passwords[i % 10], 9);
    require_shape(2, 65, 16, 64, 20, 16);
    require_shape(1, 256, 64, 32, 20, 16);
    require_shape(LYRA2_TIME_MAX, 3, 1, 64, 20, 16);
    for (size_t i = 0; i < MIXERS; i++) {
        require_settings(LYRA2_REDUCED_ROUNDS_USUAL, LYRA2_ROTATION_USUAL, mixers[i]);
        require_settings(LYRA2_REDUCED_ROUNDS_USUAL, LYRA2_ROTATION_MAX, mixers[i]);
        require_settings(LYRA2_REDUCED_ROUNDS_MAX, LYRA2_ROTATION_USUAL, mixers[i]);
        require_settings(LYRA2_REDUCED_ROUNDS_MAX, LYRA2_ROTATION_MAX, mixers[i]);
        require_settings(2, LYRA2_ROTATION_MIN, mixers[i]);
        require_settings(3, 5, mixers[i]);
    }
    printf("memcheck: %zu calls\n", calls_made);
    return 0;
}
