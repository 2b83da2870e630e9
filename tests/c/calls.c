/* Calls whose lent memory lies between guards. */
#include "calls.h"

#include <inttypes.h>

const char *const operation_names[OPERATIONS] = {"derive_recorded", "derive", "check", "cost"};
const bool mixers[MIXERS] = {LYRA2_MIXER_PLAIN, LYRA2_MIXER_BLAMKA};
size_t calls_made;

const struct sizes accepted_sizes = {
    .key = 32,
    .password = 31,
    .salt = 8,
    .time = 1,
    .rows = 3,
    .columns = 1,
    .rounds = LYRA2_REDUCED_ROUNDS_USUAL,
    .rotation = LYRA2_ROTATION_USUAL,
    .mixer = LYRA2_MIXER_USUAL,
    .matrix = 36,
    .record = 6,
};

#define CHECKS_OF_COST                                                                                              \
    LYRA2_REFUSED_KEY, LYRA2_REFUSED_PASSWORD, LYRA2_REFUSED_SALT_TOO_SHORT, LYRA2_REFUSED_SALT_TOO_LONG,          \
        LYRA2_REFUSED_TIME, LYRA2_REFUSED_ROWS, LYRA2_REFUSED_COLUMNS, LYRA2_REFUSED_ROUNDS
#define CHECKS_OF_PLAIN CHECKS_OF_COST, LYRA2_REFUSED_ROTATION, LYRA2_REFUSED_MATRIX
const uint32_t checks_of[OPERATIONS][MOST_CHECKS + 1] = {
    [RECORDED] = {CHECKS_OF_PLAIN, LYRA2_REFUSED_RECORD},
    [PLAIN] = {CHECKS_OF_PLAIN},
    [CHECK] = {CHECKS_OF_PLAIN},
    [COST] = {CHECKS_OF_COST},
};

bool has_check(enum operation operation, uint32_t check)
{
    const uint32_t *one = checks_of[operation];
    while (*one != LYRA2_ACCEPTED && *one != check)
        one++;
    return *one == check;
}

size_t used_matrix(const struct sizes *sizes)
{
    return LYRA2_MATRIX_WORDS(sizes->rows, sizes->columns);
}

size_t used_record(const struct sizes *sizes)
{
    return LYRA2_RECORD_WORDS(sizes->time, sizes->rows, sizes->columns);
}

struct sizes fitting(struct sizes sizes)
{
    sizes.matrix = used_matrix(&sizes);
    sizes.record = used_record(&sizes);
    return sizes;
}

/* Lends what an operation takes; what it does not take is lent too, and has to stay as it is. */
static void lend_all(struct call *call, struct contents contents)
{
    const struct sizes *sizes = &call->sizes;
    bool lends = call->operation != COST;
    lend(&call->password, lends ? sizes->password : 0, 1, contents.password);
    lend(&call->salt, lends ? sizes->salt : 0, 1, contents.salt);
    lend(&call->key, lends ? sizes->key : 0, 1, contents.stored);
    lend(&call->matrix, lends ? 8 * sizes->matrix : 0, 8, NULL);
    lend(&call->record, call->operation == RECORDED ? 8 * sizes->record : 0, 8, NULL);
    lend(&call->state, 8 * LYRA2_STATE_WORDS, 8, NULL);
    lend(&call->counts, 8 * LYRA2_COUNTS, 8, NULL);
    lend(&call->same, sizeof(uint32_t), 4, NULL);
}

static uint32_t ask(struct call *call)
{
    const struct sizes *n = &call->sizes;
    const uint8_t *password = lent_part(&call->password), *salt = lent_part(&call->salt);
    uint8_t *key = lent_part(&call->key);
    uint64_t *matrix = lent_part(&call->matrix), *record = lent_part(&call->record);
    uint64_t *state = lent_part(&call->state), *counts = lent_part(&call->counts);
    switch (call->operation) {
    case RECORDED:
        return lyra2_derive_recorded(password, n->password, salt, n->salt, n->time, n->rows, n->columns, n->rounds,
                                     n->rotation, n->mixer, key, n->key, matrix, n->matrix, record, n->record, state,
                                     counts);
    case PLAIN:
        return lyra2_derive(password, n->password, salt, n->salt, n->time, n->rows, n->columns, n->rounds, n->rotation,
                            n->mixer, key, n->key, matrix, n->matrix, counts);
    case CHECK:
        return lyra2_check(password, n->password, salt, n->salt, n->time, n->rows, n->columns, n->rounds, n->rotation,
                           n->mixer, key, n->key, matrix, n->matrix, lent_part(&call->same), counts);
    default:
        return lyra2_cost(n->key, n->password, n->salt, n->time, n->rows, n->columns, n->rounds, counts);
    }
}

void require_answer_field(const struct lent *field, bool has, uint32_t answer, const char *name)
{
    require_kept(field, has ? field->bytes : 0, name);
    if (has && answer != LYRA2_ACCEPTED)
        require_zeros(field, field->bytes, name);
}

/* The recorded derivation keeps its end matrix, in which a word is 0 by chance once in 2^64; the others leave zeros. */
static void require_matrix(const struct call *call, bool written)
{
    size_t used = written ? 8 * used_matrix(&call->sizes) : 0;
    require_kept(&call->matrix, used, "matrix");
    if (call->operation == RECORDED)
        require_no_zero(&call->matrix, used, "matrix");
    else
        require_zeros(&call->matrix, used, "matrix");
}

/* The words of a used record hold rows below R and columns below C, and nothing that these numbers do not tell. */
static void require_visits(const struct call *call)
{
    const struct sizes *n = &call->sizes;
    const uint64_t *record = lent_part(&call->record);
    for (size_t i = 0; i < used_record(n); i++) {
        size_t below = i % LYRA2_VISIT_WORDS(n->columns) == 0 ? n->rows : n->columns;
        uint64_t numbers[2];
        lyra2_record_pair(record[i], numbers);
        if (numbers[0] >= below || numbers[1] >= below || record[i] != numbers[0] + 65536 * numbers[1])
            fail("record: word %zu is %" PRIx64 ", with T %zu, R %zu, C %zu", i, record[i], n->time, n->rows,
                 n->columns);
    }
}

static void require_record(const struct call *call, bool written)
{
    require_kept(&call->record, written ? 8 * used_record(&call->sizes) : 0, "record");
    if (written)
        require_visits(call);
}

/* Nothing may have changed but the answer's fields and what the operation writes when it is accepted. */
static void require_all_kept(const struct call *call)
{
    bool accepted = call->answer == LYRA2_ACCEPTED;
    bool records = call->operation == RECORDED;
    bool derives = records || call->operation == PLAIN;
    bool checks = call->operation == CHECK;
    bool walks = derives || checks;
    require_kept(&call->password, 0, "password");
    require_kept(&call->salt, 0, "salt");
    require_kept(&call->key, accepted && derives ? call->sizes.key : 0, "key");
    require_matrix(call, accepted && walks);
    require_record(call, accepted && records);
    require_answer_field(&call->state, records, call->answer, "state");
    require_answer_field(&call->counts, true, call->answer, "counts");
    require_answer_field(&call->same, checks, call->answer, "same");
}

void make_call(struct call *call, enum operation operation, struct sizes sizes, struct contents contents)
{
    call->operation = operation;
    call->sizes = sizes;
    lend_all(call, contents);
    call->answer = ask(call);
    require_all_kept(call);
    calls_made++;
}

void end_call(struct call *call)
{
    struct lent *all[] = {&call->password, &call->salt,  &call->key,    &call->matrix,
                          &call->record,   &call->state, &call->counts, &call->same};
    for (size_t i = 0; i < sizeof all / sizeof *all; i++)
        take_back(all[i]);
}

uint32_t ask_walk(size_t rows, size_t row0, size_t *row1)
{
    struct lent place;
    lend(&place, sizeof(size_t), 8, NULL);
    uint32_t answer = lyra2_walk(rows, row0, lent_part(&place));
    require_answer_field(&place, true, answer, "row1");
    *row1 = *(size_t *)lent_part(&place);
    take_back(&place);
    calls_made++;
    return answer;
}
