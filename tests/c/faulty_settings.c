/*
 * The part of the faulty library that spoils rounds, rotation and mixer: the faults of one operation from its first
 * number on, in the order of the enumeration below, and then the same in all operations at once.
 */
#include "faulty.h"
#include "lyra2.h"

enum {
    /* in what reaches the library */
    EXCHANGED,
    ROUNDS_IGNORED,
    ROTATION_IGNORED,
    NO_ROUNDS_TAKEN,
    TOO_MANY_ROUNDS_TAKEN,
    NO_ROTATION_TAKEN,
    TOO_FAR_A_ROTATION_TAKEN,
    MOST_ROUNDS_REFUSED,
    MOST_ROTATION_REFUSED,
    MIXER_IGNORED,
    ALWAYS_BLAMKA,
    MIXERS_EXCHANGED,
    MIXERS_EXCHANGED_FOR_SEVERAL_ROUNDS,
    BLAMKA_FOR_ONE_ROUND_ALONE,
    BLAMKA_FOR_THE_USUAL_ROTATION_ALONE,
    MIXER_READ_FROM_ROUNDS,
    MIXER_READ_FROM_ROTATION,
    BLAMKA_WITH_USUAL_ROUNDS,
    BLAMKA_WITH_USUAL_ROTATION,
    BLAMKA_REFUSED,
    /* in the number of a refusal */
    ROUNDS_BEFORE_COLUMNS,
    ROUNDS_AFTER_ROTATION,
    ROUNDS_AFTER_MATRIX,
    ROTATION_AFTER_MATRIX,
    ROTATION_REFUSED_AS_ROUNDS,
    /* in the rounds that are counted */
    REDUCED_CALLS_OF_ONE_ROUND,
    FULL_CALLS_OF_MORE_ROUNDS,
    ROUNDS_OF_BLAMKA_TWICE,
    SETTINGS_FAULTS
};

/* The fault that the operation has, or none of the above. */
static int fault_of(int first)
{
    return FAULT >= OF_ALL && FAULT < OF_ALL + SETTINGS_FAULTS ? FAULT - OF_ALL : FAULT - first;
}

static bool are_rounds(size_t rounds)
{
    return LYRA2_REDUCED_ROUNDS_MIN <= rounds && rounds <= LYRA2_REDUCED_ROUNDS_MAX;
}

static bool is_rotation(size_t rotation)
{
    return LYRA2_ROTATION_MIN <= rotation && rotation <= LYRA2_ROTATION_MAX;
}

/* What reaches the library where both numbers are within their limits. */
static void spoil_mixer(int fault, size_t *rounds, size_t *rotation, bool *mixer)
{
    bool several = *rounds != LYRA2_REDUCED_ROUNDS_USUAL, far = *rotation != LYRA2_ROTATION_USUAL;
    if (fault == MIXER_IGNORED || (fault == BLAMKA_FOR_ONE_ROUND_ALONE && several)
        || (fault == BLAMKA_FOR_THE_USUAL_ROTATION_ALONE && far))
        *mixer = LYRA2_MIXER_PLAIN;
    if (fault == ALWAYS_BLAMKA)
        *mixer = LYRA2_MIXER_BLAMKA;
    if (fault == MIXERS_EXCHANGED || (fault == MIXERS_EXCHANGED_FOR_SEVERAL_ROUNDS && several))
        *mixer = !*mixer;
    if (fault == MIXER_READ_FROM_ROUNDS)
        *mixer = *rounds % 2;
    if (fault == MIXER_READ_FROM_ROTATION)
        *mixer = *rotation % 2;
    if (fault == BLAMKA_WITH_USUAL_ROUNDS && *mixer == LYRA2_MIXER_BLAMKA)
        *rounds = LYRA2_REDUCED_ROUNDS_USUAL;
    if (fault == BLAMKA_WITH_USUAL_ROTATION && *mixer == LYRA2_MIXER_BLAMKA)
        *rotation = LYRA2_ROTATION_USUAL;
    if (fault == BLAMKA_REFUSED && *mixer == LYRA2_MIXER_BLAMKA)
        *rotation = LYRA2_ROTATION_MAX + 1;
}

void spoil_settings(int first, size_t *rounds, size_t *rotation, bool *mixer)
{
    int fault = fault_of(first);
    size_t given = *rounds;
    if (fault == EXCHANGED) {
        *rounds = *rotation;
        *rotation = given;
    }
    if (fault == ROUNDS_IGNORED && are_rounds(*rounds))
        *rounds = LYRA2_REDUCED_ROUNDS_USUAL;
    if (fault == ROTATION_IGNORED && is_rotation(*rotation))
        *rotation = LYRA2_ROTATION_USUAL;
    if (fault == NO_ROUNDS_TAKEN && *rounds == LYRA2_REDUCED_ROUNDS_MIN - 1)
        ++*rounds;
    if (fault == TOO_MANY_ROUNDS_TAKEN && *rounds == LYRA2_REDUCED_ROUNDS_MAX + 1)
        --*rounds;
    if (fault == NO_ROTATION_TAKEN && *rotation == LYRA2_ROTATION_MIN - 1)
        ++*rotation;
    if (fault == TOO_FAR_A_ROTATION_TAKEN && *rotation == LYRA2_ROTATION_MAX + 1)
        --*rotation;
    if (fault == MOST_ROUNDS_REFUSED && *rounds == LYRA2_REDUCED_ROUNDS_MAX)
        ++*rounds;
    if (fault == MOST_ROTATION_REFUSED && *rotation == LYRA2_ROTATION_MAX)
        ++*rotation;
    if (are_rounds(*rounds) && is_rotation(*rotation))
        spoil_mixer(fault, rounds, rotation, mixer);
}

static uint32_t spoil_number(int fault, struct given given, uint32_t answer)
{
    if (fault == ROUNDS_BEFORE_COLUMNS && answer == LYRA2_REFUSED_COLUMNS && !are_rounds(given.rounds))
        return LYRA2_REFUSED_ROUNDS;
    if (fault == ROUNDS_AFTER_ROTATION && answer == LYRA2_REFUSED_ROUNDS && !is_rotation(given.rotation))
        return LYRA2_REFUSED_ROTATION;
    if (fault == ROUNDS_AFTER_MATRIX && answer == LYRA2_REFUSED_ROUNDS && !given.matrix_fits)
        return LYRA2_REFUSED_MATRIX;
    if (fault == ROTATION_AFTER_MATRIX && answer == LYRA2_REFUSED_ROTATION && !given.matrix_fits)
        return LYRA2_REFUSED_MATRIX;
    if (fault == ROTATION_REFUSED_AS_ROUNDS && answer == LYRA2_REFUSED_ROTATION)
        return LYRA2_REFUSED_ROUNDS;
    return answer;
}

uint32_t spoil_answer(int first, struct given given, uint32_t answer, uint64_t *counts)
{
    int fault = fault_of(first);
    uint64_t full = 12 * counts[LYRA2_FULL_CALLS], reduced = counts[LYRA2_REDUCED_CALLS];
    if (answer != LYRA2_ACCEPTED)
        return spoil_number(fault, given, answer);
    if (fault == ROUNDS_IGNORED || fault == BLAMKA_WITH_USUAL_ROUNDS) /* but the counts are right */
        counts[LYRA2_ROUNDS] = full + given.rounds * reduced;
    if (fault == REDUCED_CALLS_OF_ONE_ROUND)
        counts[LYRA2_ROUNDS] = full + reduced;
    if (fault == FULL_CALLS_OF_MORE_ROUNDS)
        counts[LYRA2_ROUNDS] = given.rounds * (full + reduced);
    if (fault == ROUNDS_OF_BLAMKA_TWICE && given.mixer == LYRA2_MIXER_BLAMKA)
        counts[LYRA2_ROUNDS] *= 2;
    return answer;
}
