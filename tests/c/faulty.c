/*
 * A library with one fault, to see that the tests of the C interface find it: linked with --wrap, it stands between a
 * test and the library. FAULT chooses the fault; 0 is none, those from 60 on are seen by memcheck alone, and those from
 * 70 on by the search of the stack alone. Those from 100 on are in faulty_lines.c, those from 200 on in
 * faulty_settings.c, those from 400 on in faulty_records.c, those from 500 on in faulty_choices.c, those from 600 on in
 * faulty_rule.c, those from 700 on in faulty_books.c, those from 800 on in faulty_accounts.c, those from 900 on in
 * faulty_book_checks.c, those from 1000 on in faulty_lane_keys.c, those from 1100 on in faulty_lane_checks.c and those
 * from 1300 on in faulty_lanes.c.
 */
#include "faulty.h"
#include "lyra2.h"

#include <stdlib.h>
#include <string.h>

#define DERIVE_PARAMETERS                                                                                          \
    const uint8_t *password, size_t password_len, const uint8_t *salt, size_t salt_len, size_t time, size_t rows, \
        size_t columns, size_t rounds, size_t rotation, bool mixer, uint8_t *key, size_t key_len,                  \
        uint64_t *matrix, size_t matrix_words
#define DERIVE_VALUES                                                                                              \
    password, password_len, salt, salt_len, time, rows, columns, rounds, rotation, mixer, key, key_len, matrix,    \
        matrix_words
#define CHECK_PARAMETERS                                                                                           \
    const uint8_t *password, size_t password_len, const uint8_t *salt, size_t salt_len, size_t time, size_t rows, \
        size_t columns, size_t rounds, size_t rotation, bool mixer, const uint8_t *stored, size_t stored_len,      \
        uint64_t *matrix, size_t matrix_words, uint32_t *same, uint64_t *counts
#define CHECK_VALUES                                                                                               \
    password, password_len, salt, salt_len, time, rows, columns, rounds, rotation, mixer, stored, stored_len,      \
        matrix, matrix_words, same, counts
#define COST_PARAMETERS                                                                                            \
    size_t key_len, size_t password_len, size_t salt_len, size_t time, size_t rows, size_t columns, size_t rounds, \
        uint64_t *counts

uint32_t __real_lyra2_derive(DERIVE_PARAMETERS, uint64_t *counts);
uint32_t __wrap_lyra2_derive(DERIVE_PARAMETERS, uint64_t *counts);
uint32_t __real_lyra2_derive_recorded(DERIVE_PARAMETERS, uint64_t *record, size_t record_words, uint64_t *state,
                                      uint64_t *counts);
uint32_t __wrap_lyra2_derive_recorded(DERIVE_PARAMETERS, uint64_t *record, size_t record_words, uint64_t *state,
                                      uint64_t *counts);
uint32_t __real_lyra2_check(CHECK_PARAMETERS);
uint32_t __wrap_lyra2_check(CHECK_PARAMETERS);
uint32_t __real_lyra2_cost(COST_PARAMETERS);
uint32_t __wrap_lyra2_cost(COST_PARAMETERS);
uint32_t __real_lyra2_walk(size_t rows, size_t row0, size_t *row1);
uint32_t __wrap_lyra2_walk(size_t rows, size_t row0, size_t *row1);

/* Whether a plain derivation or a check is accepted, so that the used matrix is there to look at beforehand. */
static bool is_accepted(DERIVE_PARAMETERS)
{
    uint64_t counts[LYRA2_COUNTS];
    (void)password, (void)salt, (void)mixer, (void)key, (void)matrix;
    return __real_lyra2_cost(key_len, password_len, salt_len, time, rows, columns, rounds, counts) == LYRA2_ACCEPTED
        && LYRA2_ROTATION_MIN <= rotation && rotation <= LYRA2_ROTATION_MAX
        && matrix_words >= LYRA2_MATRIX_WORDS(rows, columns);
}

/* The recorded derivation in the place of an accepted plain one: the same key, and its end matrix. */
static void record_instead(DERIVE_PARAMETERS)
{
    size_t record_words = LYRA2_RECORD_WORDS(time, rows, columns);
    uint64_t state[LYRA2_STATE_WORDS], counts[LYRA2_COUNTS], *record = malloc(8 * record_words + 1);
    if (record == NULL
        || __real_lyra2_derive_recorded(DERIVE_VALUES, record, record_words, state, counts) != LYRA2_ACCEPTED)
        abort();
    free(record);
}

static void fill(uint64_t *words, size_t from, size_t to, uint64_t value)
{
    while (from < to)
        words[from++] = value;
}

/* What is wrong in the matrix of an accepted plain derivation or check: words left, or too many wiped. */
enum { FIRST_LEFT, LAST_LEFT, ROW_LEFT, SETUP_LEFT, NOT_WIPED, PAST_WIPED, ALL_WIPED };

static void spoil_matrix(int fault, DERIVE_PARAMETERS)
{
    size_t used = LYRA2_MATRIX_WORDS(rows, columns);
    if (fault == FIRST_LEFT)
        matrix[0] = 1;
    if (fault == LAST_LEFT)
        matrix[used - 1] = 1;
    if (fault == ROW_LEFT)
        fill(matrix, LYRA2_MATRIX_WORDS(rows - 1, columns), used, 1);
    if (fault == SETUP_LEFT && time == 0)
        fill(matrix, 0, used, 1);
    if (fault == NOT_WIPED)
        record_instead(DERIVE_VALUES);
    if (fault == PAST_WIPED && used < matrix_words)
        matrix[used] = 0;
    if (fault == ALL_WIPED)
        fill(matrix, 0, matrix_words, 0);
}

void leave(const uint8_t *bytes, size_t count)
{
    volatile uint64_t words[2];
    volatile uint8_t *place = (volatile uint8_t *)words + 3;
    for (size_t i = 0; i < count && i < 8; i++)
        place[i] = bytes[i];
}

/* A refusal that is wrong in its number alone. */
static uint32_t refuse(uint32_t refusal, uint64_t *counts)
{
    memset(counts, 0, LYRA2_COUNTS * sizeof *counts);
    return refusal;
}

uint32_t __wrap_lyra2_derive(DERIVE_PARAMETERS, uint64_t *counts)
{
    volatile uint8_t seen = 0;
    uint64_t spent = counts[LYRA2_ROUNDS];
    struct given given = {rounds, rotation, mixer, matrix_words >= LYRA2_MATRIX_WORDS(rows, columns)};
    bool looks = FAULT == 54 || FAULT == 62 || FAULT == 65 || FAULT == 68;
    uint64_t before = looks && is_accepted(DERIVE_VALUES) ? matrix[35] : 0;
    if (has(60, key_len == 0))
        seen = salt[0];
    if (has(1, password_len == LYRA2_PASSWORD_MAX + 1))
        password_len--;
    if (has(2, salt_len == LYRA2_SALT_MIN))
        return refuse(LYRA2_REFUSED_SALT_TOO_SHORT, counts);
    if (has(3, columns > LYRA2_COLUMNS_MAX && key_len > 0))
        return refuse(LYRA2_REFUSED_COLUMNS, counts);
    if (has(25, time == 0))
        return refuse(LYRA2_REFUSED_TIME, counts);
    if (has(26, time == LYRA2_TIME_MAX + 1))
        time--;
    if (has(27, time == 0))
        time = 1;
    if (has(28, salt_len == LYRA2_SALT_MAX))
        return refuse(LYRA2_REFUSED_SALT_TOO_LONG, counts);
    if (has(29, salt_len == LYRA2_SALT_MAX + 1))
        salt_len--;
    spoil_settings(OF_DERIVE, &rounds, &rotation, &mixer);
    uint32_t answer = __real_lyra2_derive(DERIVE_VALUES, counts);
    bool accepted = answer == LYRA2_ACCEPTED;
    if (has(30, answer == LYRA2_REFUSED_SALT_TOO_LONG))
        return LYRA2_REFUSED_SALT_TOO_SHORT;
    if (has(31, answer == LYRA2_REFUSED_SALT_TOO_SHORT))
        return LYRA2_REFUSED_SALT_TOO_LONG;
    if (has(32, answer == LYRA2_REFUSED_SALT_TOO_LONG && time > LYRA2_TIME_MAX))
        return LYRA2_REFUSED_TIME;
    if (has(33, answer == LYRA2_REFUSED_PASSWORD && salt_len > LYRA2_SALT_MAX))
        return LYRA2_REFUSED_SALT_TOO_LONG;
    if (has(4, accepted))
        key[key_len] = 0;
    if (has(5, accepted))
        matrix[LYRA2_MATRIX_WORDS(rows, columns)] ^= 1;
    if (has(6, !accepted))
        counts[LYRA2_ROUNDS] = spent;
    if (has(7, accepted))
        memset((uint8_t *)password, 0, password_len);
    if (has(8, !accepted && key_len > 0))
        key[0] ^= 1;
    if (has(9, accepted))
        matrix[LYRA2_MATRIX_WORDS(rows, columns) / 2] ^= 1;
    if (accepted)
        spoil_matrix(FAULT - 34, DERIVE_VALUES);
    if (has(41, !accepted))
        fill(matrix, 0, matrix_words, 0);
    if (has(42, answer == LYRA2_REFUSED_MATRIX))
        fill(matrix, 0, matrix_words, 0);
    if (has(54, accepted))
        matrix[35] = before;
    if (has(61, accepted))
        seen = password[password_len];
    if (has(62, accepted) || has(65, accepted && rotation != LYRA2_ROTATION_USUAL) || has(68, accepted && mixer))
        key[0] ^= (uint8_t)before;
    if (has(66, answer == LYRA2_REFUSED_ROUNDS) || has(67, answer == LYRA2_REFUSED_ROTATION))
        seen = salt[0];
    if (has(70, accepted))
        leave(key, key_len);
    if (has(71, accepted))
        leave(key + key_len - 1, 1);
    if (has(72, accepted) || has(80, accepted && rounds == LYRA2_REDUCED_ROUNDS_MAX) || has(81, accepted && mixer))
        leave(password, password_len);
    if (has(73, accepted) || has(79, accepted && rotation != LYRA2_ROTATION_USUAL) || has(82, accepted && mixer)) {
        record_instead(DERIVE_VALUES);
        fill(matrix, 0, LYRA2_MATRIX_WORDS(rows, columns), 0);
    }
    (void)seen;
    return spoil_answer(OF_DERIVE, given, answer, counts);
}

uint32_t __wrap_lyra2_derive_recorded(DERIVE_PARAMETERS, uint64_t *record, size_t record_words, uint64_t *state,
                                      uint64_t *counts)
{
    uint64_t last_word = state[LYRA2_STATE_WORDS - 1], full = counts[LYRA2_FULL_CALLS];
    struct given given = {rounds, rotation, mixer, matrix_words >= LYRA2_MATRIX_WORDS(rows, columns)};
    spoil_settings(OF_RECORDED, &rounds, &rotation, &mixer);
    size_t room = spoil_room(time, rows, columns, record_words);
    uint32_t answer = __real_lyra2_derive_recorded(DERIVE_VALUES, record, room, state, counts);
    bool accepted = answer == LYRA2_ACCEPTED;
    if (accepted)
        spoil_record(time, rows, columns, record, record_words);
    if (has(10, accepted))
        record[LYRA2_RECORD_WORDS(time, rows, columns)] ^= 1;
    if (has(11, !accepted))
        state[LYRA2_STATE_WORDS - 1] = last_word;
    if (has(12, answer == LYRA2_REFUSED_RECORD))
        matrix[0] ^= 1;
    if (has(13, accepted))
        state[LYRA2_STATE_WORDS] = 0;
    if (has(20, !accepted))
        counts[LYRA2_FULL_CALLS] = full;
    if (has(21, answer == LYRA2_REFUSED_MATRIX && record_words > 0))
        record[0] = 0;
    if (has(52, accepted))
        fill(matrix, 0, LYRA2_MATRIX_WORDS(rows, columns), 0);
    if (has(53, accepted))
        matrix[LYRA2_MATRIX_WORDS(rows, columns) - 1] = 0;
    if (has(63, !accepted && record_words > 0))
        *(volatile uint64_t *)record = *(volatile uint64_t *)record;
    if (has(77, accepted) || has(83, accepted && mixer))
        leave(key, key_len);
    if (has(78, accepted))
        leave(key + key_len - 1, 1);
    return spoil_answer(OF_RECORDED, given, answer, counts);
}

/* Stops at the first byte that differs. */
static uint32_t compare_early(const uint8_t *stored, const uint8_t *key, size_t length)
{
    for (size_t i = 0; i < length; i++)
        if (stored[i] != key[i])
            return 0;
    return 1;
}

uint32_t __wrap_lyra2_check(CHECK_PARAMETERS)
{
    uint8_t key[LYRA2_KEY_MAX];
    uint32_t flag = *same;
    uint64_t reduced = counts[LYRA2_REDUCED_CALLS];
    struct given given = {rounds, rotation, mixer, matrix_words >= LYRA2_MATRIX_WORDS(rows, columns)};
    spoil_settings(OF_CHECK, &rounds, &rotation, &mixer);
    uint32_t answer = __real_lyra2_check(CHECK_VALUES);
    bool accepted = answer == LYRA2_ACCEPTED;
    if (has(14, !accepted))
        *same = flag;
    if (has(22, !accepted))
        counts[LYRA2_REDUCED_CALLS] = reduced;
    if (has(23, !accepted))
        *same = 1;
    if (has(15, accepted))
        *same = 0;
    if (has(16, accepted))
        *same = 1;
    if (accepted)
        spoil_matrix(FAULT - 43, password, password_len, salt, salt_len, time, rows, columns, rounds, rotation, mixer,
                     key, stored_len, matrix, matrix_words);
    if (has(50, !accepted))
        fill(matrix, 0, matrix_words, 0);
    if (has(51, accepted && *same == 0))
        matrix[0] = 1;
    if (has(74, accepted) || has(84, accepted && mixer && rounds > 1))
        leave(stored, stored_len);
    if (has(75, accepted))
        leave(stored + stored_len - 1, 1);
    if (has(76, accepted))
        leave(password, password_len);
    if (FAULT == 64 && accepted
        && __real_lyra2_derive(password, password_len, salt, salt_len, time, rows, columns, rounds, rotation, mixer,
                               key, stored_len, matrix, matrix_words, counts) == LYRA2_ACCEPTED)
        *same = compare_early(stored, key, stored_len);
    return spoil_answer(OF_CHECK, given, answer, counts);
}

uint32_t __wrap_lyra2_cost(COST_PARAMETERS)
{
    uint64_t spent = counts[LYRA2_ROUNDS];
    struct given given = {rounds, LYRA2_ROTATION_USUAL, LYRA2_MIXER_USUAL, true};
    size_t rotation = given.rotation;
    bool mixer = given.mixer;
    spoil_settings(OF_COST, &rounds, &rotation, &mixer);
    uint32_t answer = __real_lyra2_cost(key_len, password_len, salt_len, time, rows, columns, rounds, counts);
    if (has(17, answer == LYRA2_ACCEPTED))
        counts[LYRA2_FULL_CALLS]++;
    if (has(24, answer != LYRA2_ACCEPTED))
        counts[LYRA2_ROUNDS] = spent;
    return spoil_answer(OF_COST, given, answer, counts);
}

uint32_t __wrap_lyra2_walk(size_t rows, size_t row0, size_t *row1)
{
    size_t row = *row1;
    uint32_t answer = __real_lyra2_walk(rows, row0, row1);
    if (has(18, answer != LYRA2_ACCEPTED))
        *row1 = row;
    if (has(19, row0 == rows && rows == LYRA2_ROWS_MAX))
        return LYRA2_ACCEPTED;
    return answer;
}
