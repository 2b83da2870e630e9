/* Calls with several lanes whose lent memory lies between guards. */
#include "lane_calls.h"

#include <inttypes.h>

const char *const lane_names[LANE_OPERATIONS] = {"lanes_derive", "lanes_check", "lanes_cost"};

const struct lane_sizes accepted_lanes = {
    .key = 32, .password = 23, .salt = 8, .time = 1, .rows = 8, .columns = 1, .lanes = 2, .matrix = 96};

struct lane_sizes fitting_lanes(struct lane_sizes sizes)
{
    sizes.matrix = LYRA2_MATRIX_WORDS(sizes.rows, sizes.columns);
    return sizes;
}

/* The cost question is lent the counts alone; what an operation does not take is lent too, and has to stay as it is. */
static void lend_all(struct lane_call *call, struct contents contents)
{
    const struct lane_sizes *n = &call->sizes;
    bool lends = call->operation != LANES_COST;
    lend(&call->password, lends ? n->password : 0, 1, contents.password);
    lend(&call->salt, lends ? n->salt : 0, 1, contents.salt);
    lend(&call->key, lends ? n->key : 0, 1, contents.stored);
    lend(&call->matrix, lends ? 8 * n->matrix : 0, 8, NULL);
    lend(&call->counts, 8 * LYRA2_COUNTS, 8, NULL);
    lend(&call->same, sizeof(uint32_t), 4, NULL);
}

static uint32_t ask(struct lane_call *call)
{
    const struct lane_sizes *n = &call->sizes;
    const uint8_t *password = lent_part(&call->password), *salt = lent_part(&call->salt);
    uint8_t *key = lent_part(&call->key);
    uint64_t *matrix = lent_part(&call->matrix), *counts = lent_part(&call->counts);
    switch (call->operation) {
    case LANES_DERIVE:
        return lyra2_lanes_derive(password, n->password, salt, n->salt, n->time, n->rows, n->columns, n->lanes, key,
                                  n->key, matrix, n->matrix, counts);
    case LANES_CHECK:
        return lyra2_lanes_check(password, n->password, salt, n->salt, n->time, n->rows, n->columns, n->lanes, key,
                                 n->key, matrix, n->matrix, lent_part(&call->same), counts);
    default:
        return lyra2_lanes_cost(n->key, n->password, n->salt, n->time, n->rows, n->columns, n->lanes, counts);
    }
}

static void require_all_kept(const struct lane_call *call)
{
    bool accepted = call->answer == LYRA2_ACCEPTED, derives = call->operation == LANES_DERIVE;
    bool walks = accepted && call->operation != LANES_COST;
    size_t used = walks ? 8 * LYRA2_MATRIX_WORDS(call->sizes.rows, call->sizes.columns) : 0;
    require_kept(&call->password, 0, "password");
    require_kept(&call->salt, 0, "salt");
    require_kept(&call->key, accepted && derives ? call->sizes.key : 0, derives ? "key" : "stored");
    require_kept(&call->matrix, used, "matrix");
    require_zeros(&call->matrix, used, "matrix");
    require_answer_field(&call->counts, true, call->answer, "counts");
    require_answer_field(&call->same, call->operation == LANES_CHECK, call->answer, "same");
}

void end_lane_call(struct lane_call *call)
{
    struct lent *all[] = {&call->password, &call->salt, &call->key, &call->matrix, &call->counts, &call->same};
    for (size_t i = 0; i < sizeof all / sizeof *all; i++)
        take_back(all[i]);
}

void fail_lanes(const struct lane_call *call, const char *what, const char *name, uint64_t value, uint64_t due)
{
    const struct lane_sizes *n = &call->sizes;
    fail("%s, %s: %s is %" PRIu64 ", where %" PRIu64 " is due: key %zu, password %zu, salt %zu, T %zu, R %zu, C %zu, "
         "lanes %zu, matrix %zu", lane_names[call->operation], what, name, value, due, n->key, n->password, n->salt,
         n->time, n->rows, n->columns, n->lanes, n->matrix);
}

static void require_counts(const struct lane_call *call, const char *what)
{
    static const char *const names[LYRA2_COUNTS] = {
        [LYRA2_FULL_CALLS] = "the number of full calls",
        [LYRA2_REDUCED_CALLS] = "the number of reduced calls",
        [LYRA2_ROUNDS] = "the number of rounds",
    };
    const uint64_t *counts = lent_part(&call->counts);
    uint64_t due[LYRA2_COUNTS];
    model_counts(&call->sizes, due);
    for (size_t i = 0; i < LYRA2_COUNTS; i++)
        if (counts[i] != due[i])
            fail_lanes(call, what, names[i], counts[i], due[i]);
}

void make_lane_call(struct lane_call *call, const char *what, enum lane_operation operation, struct lane_sizes sizes,
                    struct contents contents, uint32_t due)
{
    uint32_t model = model_refusal(operation, &sizes);
    if (model != due)
        fail("%s, %s: the model answers %u, where %u is due", lane_names[operation], what, model, due);
    call->operation = operation;
    call->sizes = sizes;
    lend_all(call, contents);
    call->answer = ask(call);
    calls_made++;
    if (call->answer != due)
        fail_lanes(call, what, "the answer", call->answer, due);
    require_all_kept(call);
    if (due == LYRA2_ACCEPTED)
        require_counts(call, what);
}

void require_lane_answer(const char *what, enum lane_operation operation, struct lane_sizes sizes, uint32_t due)
{
    struct lane_call call;
    make_lane_call(&call, what, operation, sizes, (struct contents){NULL, NULL, NULL}, due);
    end_lane_call(&call);
}
