/* Calls with several lanes, in which everything that is lent lies between guards, held to the model. */
#ifndef LANE_CALLS_H
#define LANE_CALLS_H

#include "calls.h"
#include "lane_model.h"
#include "lent.h"

struct lane_call {
    enum lane_operation operation;
    struct lane_sizes sizes;
    struct lent password, salt, key, matrix, counts, same;
    uint32_t answer;
};

extern const char *const lane_names[LANE_OPERATIONS];

/* Sizes that every operation accepts, with a matrix that fits exactly. */
extern const struct lane_sizes accepted_lanes;

/* The sizes with a matrix that fits exactly. */
struct lane_sizes fitting_lanes(struct lane_sizes sizes);

/*
 * Lends what the operation takes, calls it, and ends the program unless the answer is `due`, which the model has to
 * answer too, and the counts are the model's; unless nothing changed but what the answer allows, the used matrix of an
 * accepted call is zero, and the counts and `same` of a refused one are zero. `what` says what the call shows.
 */
void make_lane_call(struct lane_call *call, const char *what, enum lane_operation operation, struct lane_sizes sizes,
                    struct contents contents, uint32_t due);

/* Gives back what was lent. */
void end_lane_call(struct lane_call *call);

/* A call of which the answer alone is looked at afterwards. */
void require_lane_answer(const char *what, enum lane_operation operation, struct lane_sizes sizes, uint32_t due);

/* Ends the program, and names the call. */
void fail_lanes(const struct lane_call *call, const char *what, const char *name, uint64_t value, uint64_t due);

#endif
