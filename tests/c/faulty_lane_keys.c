/*
 * The part of the faulty library that derives with several lanes: the faults from 1001 on are in the key, and
 * lane_steps.h names them.
 */
#include "faulty.h"
#include "lane_steps.h"

#include <stdlib.h>

uint32_t __real_lyra2_derive(const uint8_t *password, size_t password_len, const uint8_t *salt, size_t salt_len,
                             size_t time, size_t rows, size_t columns, size_t rounds, size_t rotation, bool mixer,
                             uint8_t *key, size_t key_len, uint64_t *matrix, size_t matrix_words, uint64_t *counts);

bool derive_wrongly(const struct lane_sizes *n, const uint8_t *password, const uint8_t *salt, uint8_t *key,
                    uint64_t *matrix)
{
    uint64_t counts[LYRA2_COUNTS];
    if (FAULT == 0 || has(ONE_LANE_IS_THE_SINGLE_SPONGE, n->lanes > 1))
        return false;
    if (FAULT == ONE_LANE_IS_THE_SINGLE_SPONGE)
        return __real_lyra2_derive(password, n->password, salt, n->salt, n->time, n->rows, n->columns,
                                   LYRA2_REDUCED_ROUNDS_USUAL, LYRA2_ROTATION_USUAL, LYRA2_MIXER_USUAL, key, n->key,
                                   matrix, n->matrix, counts) == LYRA2_ACCEPTED;
    derive_lanes(n, password, salt, key, matrix, NULL);
    memset(matrix, 0, 8 * LYRA2_MATRIX_WORDS(n->rows, n->columns));
    return true;
}

void derive_beside(const struct lane_sizes *n, const uint8_t *password, const uint8_t *salt, struct lane_end *end)
{
    static uint8_t key[LYRA2_KEY_MAX];
    end->matrix = malloc(8 * LYRA2_MATRIX_WORDS(n->rows, n->columns));
    if (end->matrix == NULL)
        abort();
    derive_lanes(n, password, salt, key, end->matrix, end);
}
