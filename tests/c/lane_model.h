/* A small model of the calls with several lanes: their refusals, their counts, and the derivation itself. */
#ifndef LANE_MODEL_H
#define LANE_MODEL_H

#include "lyra2.h"

enum lane_operation { LANES_DERIVE, LANES_CHECK, LANES_COST, LANE_OPERATIONS };

/* The numbers of a call. The matrix is in words, the lengths in bytes. */
struct lane_sizes {
    size_t key, password, salt, time, rows, columns, lanes, matrix;
};

/* The first of the operation's checks that applies, or LYRA2_ACCEPTED. */
uint32_t model_refusal(enum lane_operation operation, const struct lane_sizes *n);

/* The counts of an accepted call. */
void model_counts(const struct lane_sizes *n, uint64_t counts[LYRA2_COUNTS]);

/* What a derivation makes on its way and has to wipe: the used matrix after the last visit, to be freed, each lane's
 * state then, and its state after the last piece of its key. */
struct lane_end {
    uint64_t *matrix;
    uint64_t states[LYRA2_LANES_MAX][LYRA2_STATE_WORDS], squeezed[LYRA2_LANES_MAX][LYRA2_STATE_WORDS];
};

/* An accepted derivation. */
void model_derive(const struct lane_sizes *n, const uint8_t *password, const uint8_t *salt, uint8_t *key,
                  struct lane_end *end);

#endif
