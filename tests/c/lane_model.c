/* A small model of the calls with several lanes. Its limits are its own, so that the header's are held to them. */
#include "lane_model.h"

#include "lent.h"

#define FAULT 0
#include "lane_steps.h"

static bool is_within(size_t number, size_t least, size_t most)
{
    return least <= number && number <= most;
}

static bool are_lanes(size_t lanes, size_t rows)
{
    return is_within(lanes, 1, 8) && rows % 2 == 0 && rows / 2 % lanes == 0 && rows / lanes >= 4;
}

uint32_t model_refusal(enum lane_operation operation, const struct lane_sizes *n)
{
    const struct {
        uint32_t refusal;
        bool passes;
    } checks[] = {
        {1, is_within(n->key, 1, 1024)},   {2, n->password <= 1024},  {3, n->salt >= 8},
        {10, n->salt <= 64},               {4, is_within(n->time, 1, 255)}, {5, is_within(n->rows, 3, 16384)},
        {6, is_within(n->columns, 1, 256)}, {20, are_lanes(n->lanes, n->rows)},
    };
    for (size_t i = 0; i < sizeof checks / sizeof *checks; i++)
        if (!checks[i].passes)
            return checks[i].refusal;
    return operation != LANES_COST && n->matrix < 12 * n->rows * n->columns ? 7 : 0;
}

void model_counts(const struct lane_sizes *n, uint64_t counts[LYRA2_COUNTS])
{
    uint64_t blocks = (n->password + n->salt + 4 * NUMBERS) / BLOCK_BYTES + 1;
    uint64_t pieces = (n->key + PIECE_BYTES - 1) / PIECE_BYTES;
    counts[LYRA2_FULL_CALLS] = n->lanes * (blocks + pieces);
    counts[LYRA2_REDUCED_CALLS] = n->rows * n->columns * (n->time + 1);
    counts[LYRA2_ROUNDS] = 12 * counts[LYRA2_FULL_CALLS] + counts[LYRA2_REDUCED_CALLS];
}

void model_derive(const struct lane_sizes *n, const uint8_t *password, const uint8_t *salt, uint8_t *key,
                  struct lane_end *end)
{
    end->matrix = allocate(8 * LYRA2_MATRIX_WORDS(n->rows, n->columns));
    derive_lanes(n, password, salt, key, end->matrix, end);
}
