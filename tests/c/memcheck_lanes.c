/*
 * Calls with several lanes under valgrind's memcheck, which sees every byte that they read or write. All memory has
 * exactly the length that is lent; what a call writes is marked as never written, so an answer that depended on it would
 * be marked too.
 */
#include "calls.h"
#include "lane_model.h"
#include "watched.h"

#include <stdio.h>
#include <stdlib.h>
#include <string.h>
#include <valgrind/memcheck.h>

/* Words past the used ones, in the calls that lend more than is needed. */
enum { SPARE = 5, COUNTS_BYTES = 8 * LYRA2_COUNTS };

static const struct lane_sizes accepted = {
    .key = 32, .password = 31, .salt = 8, .time = 1, .rows = 48, .columns = 1, .lanes = 2, .matrix = 576};

struct memory {
    uint8_t *password, *salt, *key, *stored;
    uint64_t *matrix, *counts;
    uint32_t *same;
};

static struct memory lend_all(const struct lane_sizes *n)
{
    return (struct memory){
        .password = written(n->password, 1),
        .salt = written(n->salt, 2),
        .key = unwritten(n->key),
        .stored = unwritten(n->key),
        .matrix = unwritten(8 * n->matrix),
        .counts = unwritten(COUNTS_BYTES),
        .same = unwritten(sizeof(uint32_t)),
    };
}

static void take_all_back(struct memory *m)
{
    void *all[] = {m->password, m->salt, m->key, m->stored, m->matrix, m->counts, m->same};
    for (size_t i = 0; i < sizeof all / sizeof *all; i++)
        free(all[i]);
}

static uint32_t derive(const struct lane_sizes *n, struct memory *m)
{
    calls_made++;
    return lyra2_lanes_derive(m->password, n->password, m->salt, n->salt, n->time, n->rows, n->columns, n->lanes,
                              m->key, n->key, m->matrix, n->matrix, m->counts);
}

static uint32_t check(const struct lane_sizes *n, struct memory *m)
{
    calls_made++;
    return lyra2_lanes_check(m->password, n->password, m->salt, n->salt, n->time, n->rows, n->columns, n->lanes,
                             m->stored, n->key, m->matrix, n->matrix, m->same, m->counts);
}

static uint32_t cost(const struct lane_sizes *n, struct memory *m)
{
    calls_made++;
    return lyra2_lanes_cost(n->key, n->password, n->salt, n->time, n->rows, n->columns, n->lanes, m->counts);
}

/* ---- accepted */

/* The counts are written, and so is the used matrix, with zeros. */
static void require_accepted(uint32_t answer, const struct lane_sizes *n, const struct memory *m)
{
    size_t used = 8 * LYRA2_MATRIX_WORDS(n->rows, n->columns);
    if (answer != LYRA2_ACCEPTED)
        fail("refused: %s", lyra2_sentence(answer));
    require_written("counts", m->counts, COUNTS_BYTES, COUNTS_BYTES);
    require_written("matrix", m->matrix, used, 8 * n->matrix);
    require_zeros_in("matrix", m->matrix, used);
}

/* The stored key is marked as never written, so memcheck reports a branch or an address that depends on its bytes: the
 * comparison may have none before its answer. */
static void require_check(const struct lane_sizes *n, struct memory *m, int wrong)
{
    memcpy(m->stored, m->key, n->key);
    m->stored[n->key / 2] ^= (uint8_t)wrong;
    (void)VALGRIND_MAKE_MEM_UNDEFINED(m->stored, n->key);
    (void)VALGRIND_MAKE_MEM_UNDEFINED(m->matrix, 8 * n->matrix);
    (void)VALGRIND_MAKE_MEM_UNDEFINED(m->counts, COUNTS_BYTES);
    require_accepted(check(n, m), n, m);
    (void)VALGRIND_MAKE_MEM_DEFINED(m->same, sizeof *m->same);
    if (*m->same != !wrong)
        fail("the check with lanes said %u", *m->same);
}

static void require_sizes(struct lane_sizes n, size_t spare)
{
    n.matrix = LYRA2_MATRIX_WORDS(n.rows, n.columns) + spare;
    struct memory m = lend_all(&n);
    require_accepted(derive(&n, &m), &n, &m);
    require_written("key", m.key, n.key, n.key);
    require_check(&n, &m, 0);
    require_check(&n, &m, 1);
    require_check(&n, &m, 0x80);
    (void)VALGRIND_MAKE_MEM_UNDEFINED(m.counts, COUNTS_BYTES);
    require_accepted(cost(&n, &m), &n, &m);
    take_all_back(&m);
}

/* ---- refused */

static void require_answer(uint32_t answer, uint32_t due, struct memory *m)
{
    if (answer != due)
        fail("%u is due, %u was answered", due, answer);
    require_zero_field("counts", m->counts, COUNTS_BYTES);
}

/* A refused call writes the fields of its answer and may not even read the rest, which is marked as out of reach. */
static void require_refused(struct lane_sizes n, uint32_t due)
{
    struct memory m = lend_all(&n);
    (void)VALGRIND_MAKE_MEM_NOACCESS(m.password, n.password);
    (void)VALGRIND_MAKE_MEM_NOACCESS(m.salt, n.salt);
    (void)VALGRIND_MAKE_MEM_NOACCESS(m.key, n.key);
    (void)VALGRIND_MAKE_MEM_NOACCESS(m.stored, n.key);
    (void)VALGRIND_MAKE_MEM_NOACCESS(m.matrix, 8 * n.matrix);
    require_answer(derive(&n, &m), due, &m);
    require_answer(check(&n, &m), due, &m);
    require_zero_field("same", m.same, sizeof *m.same);
    if (due != LYRA2_REFUSED_MATRIX)
        require_answer(cost(&n, &m), due, &m);
    take_all_back(&m);
}

static void require_refusals(void)
{
    static const uint32_t due[] = {
        LYRA2_REFUSED_KEY,  LYRA2_REFUSED_KEY,     LYRA2_REFUSED_PASSWORD, LYRA2_REFUSED_SALT_TOO_SHORT,
        LYRA2_REFUSED_SALT_TOO_LONG, LYRA2_REFUSED_TIME, LYRA2_REFUSED_TIME, LYRA2_REFUSED_ROWS,
        LYRA2_REFUSED_COLUMNS, LYRA2_REFUSED_LANES, LYRA2_REFUSED_LANES, LYRA2_REFUSED_LANES,
        LYRA2_REFUSED_LANES, LYRA2_REFUSED_MATRIX, LYRA2_REFUSED_MATRIX,
    };
    enum { REFUSALS = sizeof due / sizeof *due };
    struct lane_sizes wrong[REFUSALS];
    for (size_t i = 0; i < REFUSALS; i++)
        wrong[i] = accepted;
    wrong[0].key = 0;
    wrong[1].key = LYRA2_KEY_MAX + 1;
    wrong[2].password = LYRA2_PASSWORD_MAX + 1;
    wrong[3].salt = LYRA2_SALT_MIN - 1;
    wrong[4].salt = LYRA2_SALT_MAX + 1;
    wrong[5].time = LYRA2_LANES_TIME_MIN - 1;
    wrong[6].time = LYRA2_TIME_MAX + 1;
    wrong[7].rows = LYRA2_ROWS_MAX + 1;
    wrong[8].columns = 0;
    wrong[9].lanes = 0;
    wrong[10].lanes = LYRA2_LANES_MAX + 1;
    wrong[11].lanes = 7;
    wrong[12].lanes = SIZE_MAX;
    wrong[13].matrix--;
    wrong[14].matrix = 0;
    for (size_t i = 0; i < REFUSALS; i++)
        require_refused(wrong[i], due[i]);
}

int main(void)
{
    static const size_t keys[] = {1, 8, 95, 96, 97, 192, 193, LYRA2_KEY_MAX};
    static const size_t passwords[] = {0, 1, 23, 24, 31, 88, LYRA2_PASSWORD_MAX - 1, LYRA2_PASSWORD_MAX};
    if (!RUNNING_ON_VALGRIND)
        fail("this program tells nothing outside of valgrind");
    require_refusals();
    for (size_t lanes = LYRA2_LANES_MIN; lanes <= LYRA2_LANES_MAX; lanes++)
        for (size_t i = 0; i < sizeof keys / sizeof *keys; i++) {
            size_t salt = i % 2 ? LYRA2_SALT_MAX : LYRA2_SALT_MIN, lane_rows = LYRA2_LANE_ROWS_MIN + 2 * i;
            require_sizes((struct lane_sizes){keys[i], passwords[(i + lanes) % 8], salt, 1 + i % 2, lanes * lane_rows,
                                              1 + i % 3, lanes, 0}, i % 2 * SPARE);
        }
    require_sizes((struct lane_sizes){32, 20, 16, 1, 256, 16, 4, 0}, 0);
    require_sizes((struct lane_sizes){32, 20, 16, LYRA2_TIME_MAX, 8, 1, 2, 0}, SPARE);
    printf("memcheck of lanes: %zu calls\n", calls_made);
    return 0;
}
