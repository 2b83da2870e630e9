/*
 * The lines of the vectors file that are about several lanes, each put to the library between guards. An accepted line of
 * the derivation is put to the check and the cost question as well, which share its key and counts.
 */
#include "vector_lanes.h"

#include "lane_calls.h"

#include <inttypes.h>
#include <stdio.h>
#include <stdlib.h>
#include <string.h>

static const char shown[] = "as the line says";
static size_t lines_of[LANE_OPERATIONS];

/* What a line asks, and the answer's number. */
struct question {
    struct lane_sizes sizes;
    uint8_t *password, *salt, *stored;
    uint32_t due;
};

static struct question read_question(struct text line, enum lane_operation operation)
{
    struct question asked = {.due = (uint32_t)require_number(line, "refusal")};
    struct lane_sizes *n = &asked.sizes;
    n->time = require_number(line, "T");
    n->rows = require_number(line, "R");
    n->columns = require_number(line, "C");
    n->lanes = require_number(line, "p");
    if (operation == LANES_COST) {
        n->password = require_number(line, "password_len");
        n->salt = require_number(line, "salt_len");
    } else {
        asked.password = require_bytes(line, "password", &n->password);
        asked.salt = require_bytes(line, "salt", &n->salt);
        n->matrix = require_number(line, "matrix_words");
    }
    if (operation == LANES_CHECK)
        asked.stored = require_bytes(line, "stored", &n->key);
    else
        n->key = require_number(line, "key_len");
    return asked;
}

/* What an accepted line tells of the counts and the matrix. */
static void require_told(struct text line, const struct lane_call *call)
{
    static const char *const names[LYRA2_COUNTS] = {"full", "reduced", "rounds"};
    const uint64_t *counts = lent_part(&call->counts);
    size_t used = 8 * LYRA2_MATRIX_WORDS(call->sizes.rows, call->sizes.columns);
    for (size_t i = 0; i < LYRA2_COUNTS; i++)
        if (counts[i] != require_number(line, names[i]))
            fail("%s: %" PRIu64 " %s", lane_names[call->operation], counts[i], names[i]);
    if (!is(require_field(line, "op"), lane_names[LANES_COST])
        && require_word(line, "matrix_sum") != checksum_of_zeros(used))
        fail("%s: another matrix_sum is due", lane_names[call->operation]);
}

/* Makes a call; `same` is the answer of an accepted check. */
static void require_call(struct text line, enum lane_operation operation, const struct question *asked, uint32_t same)
{
    struct contents contents = {asked->password, asked->salt, asked->stored};
    struct lane_call call;
    make_lane_call(&call, shown, operation, asked->sizes, contents, asked->due);
    if (asked->due == LYRA2_ACCEPTED)
        require_told(line, &call);
    if (operation == LANES_CHECK && *(uint32_t *)lent_part(&call.same) != same)
        fail("%s: %u is due", lane_names[operation], same);
    end_lane_call(&call);
}

/* An accepted derivation gives the line's key; the check says yes to it, and no to it with a flipped bit. */
static void require_key(struct text line, struct question asked)
{
    struct lane_call call;
    size_t length;
    uint8_t *key = require_bytes(line, "key", &length);
    make_lane_call(&call, shown, LANES_DERIVE, asked.sizes, (struct contents){asked.password, asked.salt, NULL},
                   LYRA2_ACCEPTED);
    if (length != asked.sizes.key || memcmp(key, lent_part(&call.key), length) != 0)
        fail("%s: another key is due", lane_names[LANES_DERIVE]);
    end_lane_call(&call);
    require_call(line, LANES_COST, &asked, 0);
    asked.stored = key;
    require_call(line, LANES_CHECK, &asked, 1);
    key[case_number % length] ^= (uint8_t)(1 << case_number % 8);
    require_call(line, LANES_CHECK, &asked, 0);
    free(key);
}

static void run_line(struct text line, enum lane_operation operation)
{
    struct question asked = read_question(line, operation);
    bool accepted = asked.due == LYRA2_ACCEPTED;
    uint32_t same = accepted && operation == LANES_CHECK && require_choice(line, "answer", "no", "yes");
    if (accepted && operation == LANES_DERIVE)
        require_key(line, asked);
    else
        require_call(line, operation, &asked, same);
    lines_of[operation]++;
    free(asked.password);
    free(asked.salt);
    free(asked.stored);
}

bool run_lanes(struct text line, struct text name)
{
    for (enum lane_operation operation = LANES_DERIVE; operation < LANE_OPERATIONS; operation++)
        if (is(name, lane_names[operation])) {
            run_line(line, operation);
            return true;
        }
    return false;
}

void print_lane_lines(void)
{
    for (enum lane_operation operation = LANES_DERIVE; operation < LANE_OPERATIONS; operation++)
        printf("%s %zu %s", operation > LANES_DERIVE ? "," : "", lines_of[operation], lane_names[operation]);
}
