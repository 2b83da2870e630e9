/* The header's limits, sizes and sentences are the library's own: each limit is accepted and one beyond it refused. */
#include "calls.h"

#include <ctype.h>
#include <inttypes.h>
#include <stdio.h>
#include <stdlib.h>
#include <string.h>

/* Words past the used ones, in the calls that lend more than is needed. */
enum { SPARE = 5 };

static const struct contents nothing = {NULL, NULL, NULL};

/* Two calls left the same in a part that both wrote. */
static void require_same(const struct lent *one, const struct lent *other, size_t bytes, const char *what)
{
    if (memcmp(lent_part(one), lent_part(other), bytes) != 0)
        fail("%s: two operations differ", what);
}

/* The check says `due` of a stored key, with the counts of the derivation. */
static void require_check(const struct call *derived, const uint8_t *stored, uint32_t due)
{
    struct contents contents = {NULL, NULL, stored};
    struct call check;
    contents.password = lent_part(&derived->password);
    contents.salt = lent_part(&derived->salt);
    make_call(&check, CHECK, derived->sizes, contents);
    if (check.answer != LYRA2_ACCEPTED || *(uint32_t *)lent_part(&check.same) != due)
        fail("check: answer %u, same %u, where %u is due", check.answer, *(uint32_t *)lent_part(&check.same), due);
    require_same(&check.counts, &derived->counts, 8 * LYRA2_COUNTS, "counts of a check");
    end_call(&check);
}

/* Says yes to the key and no to it with a bit of the first, a middle or the last byte flipped. */
static void require_checks(const struct call *derived)
{
    size_t length = derived->sizes.key;
    size_t places[] = {0, length / 2, length - 1};
    uint8_t *stored = allocate(length);
    memcpy(stored, lent_part(&derived->key), length);
    require_check(derived, stored, 1);
    for (size_t i = 0; i < 3; i++) {
        stored[places[i]] ^= (uint8_t)(1 << (i + length) % 8);
        require_check(derived, stored, 0);
        memcpy(stored, lent_part(&derived->key), length);
    }
    free(stored);
}

/* The rounds spent are those of the full and of the reduced calls. */
static void require_rounds(const struct call *call)
{
    const uint64_t *counts = lent_part(&call->counts);
    uint64_t due = 12 * counts[LYRA2_FULL_CALLS] + call->sizes.rounds * counts[LYRA2_REDUCED_CALLS];
    if (counts[LYRA2_ROUNDS] != due)
        fail("%s: %" PRIu64 " rounds, where %" PRIu64 " are due", operation_names[call->operation],
             counts[LYRA2_ROUNDS], due);
}

/* All operations accept the sizes and agree with one another. */
static void require_agreement(struct sizes sizes)
{
    struct call recorded, plain, cost;
    make_call(&recorded, RECORDED, sizes, nothing);
    struct contents contents = {lent_part(&recorded.password), lent_part(&recorded.salt), NULL};
    make_call(&plain, PLAIN, sizes, contents);
    make_call(&cost, COST, sizes, nothing);
    if (recorded.answer != LYRA2_ACCEPTED || plain.answer != LYRA2_ACCEPTED || cost.answer != LYRA2_ACCEPTED)
        fail("answers %u, %u, %u at T %zu, R %zu, C %zu, rounds %zu, rotation %zu, mixer %d", recorded.answer,
             plain.answer, cost.answer, sizes.time, sizes.rows, sizes.columns, sizes.rounds, sizes.rotation,
             sizes.mixer);
    require_same(&recorded.key, &plain.key, sizes.key, "key");
    require_same(&recorded.counts, &plain.counts, 8 * LYRA2_COUNTS, "counts");
    require_same(&recorded.counts, &cost.counts, 8 * LYRA2_COUNTS, "counts and cost");
    require_rounds(&recorded);
    require_checks(&plain);
    end_call(&recorded);
    end_call(&plain);
    end_call(&cost);
}

/* All operations accept the sizes with a matrix and a record that fit exactly. */
static void require_accepted(struct sizes sizes)
{
    require_agreement(fitting(sizes));
}

/* Each operation that has the check refuses the sizes. */
static void require_refused(struct sizes sizes, uint32_t due)
{
    for (enum operation operation = RECORDED; operation < OPERATIONS; operation++) {
        struct call call;
        if (!has_check(operation, due))
            continue;
        make_call(&call, operation, sizes, nothing);
        if (call.answer != due)
            fail("%s: %u is due, %u was answered", operation_names[operation], due, call.answer);
        end_call(&call);
    }
}

struct limit {
    size_t place; /* of a number in struct sizes */
    size_t least, most;
    uint32_t below, above; /* the refusals of a number beyond either end */
};

static const struct limit limits[] = {
    {offsetof(struct sizes, key), LYRA2_KEY_MIN, LYRA2_KEY_MAX, LYRA2_REFUSED_KEY, LYRA2_REFUSED_KEY},
    {offsetof(struct sizes, password), 0, LYRA2_PASSWORD_MAX, LYRA2_REFUSED_PASSWORD, LYRA2_REFUSED_PASSWORD},
    {offsetof(struct sizes, salt), LYRA2_SALT_MIN, LYRA2_SALT_MAX, LYRA2_REFUSED_SALT_TOO_SHORT,
     LYRA2_REFUSED_SALT_TOO_LONG},
    {offsetof(struct sizes, time), LYRA2_TIME_MIN, LYRA2_TIME_MAX, LYRA2_REFUSED_TIME, LYRA2_REFUSED_TIME},
    {offsetof(struct sizes, rows), LYRA2_ROWS_MIN, LYRA2_ROWS_MAX, LYRA2_REFUSED_ROWS, LYRA2_REFUSED_ROWS},
    {offsetof(struct sizes, columns), LYRA2_COLUMNS_MIN, LYRA2_COLUMNS_MAX, LYRA2_REFUSED_COLUMNS,
     LYRA2_REFUSED_COLUMNS},
    {offsetof(struct sizes, rounds), LYRA2_REDUCED_ROUNDS_MIN, LYRA2_REDUCED_ROUNDS_MAX, LYRA2_REFUSED_ROUNDS,
     LYRA2_REFUSED_ROUNDS},
    {offsetof(struct sizes, rotation), LYRA2_ROTATION_MIN, LYRA2_ROTATION_MAX, LYRA2_REFUSED_ROTATION,
     LYRA2_REFUSED_ROTATION},
};

static struct sizes with(const struct limit *limit, size_t value)
{
    struct sizes sizes = accepted_sizes;
    *(size_t *)((uint8_t *)&sizes + limit->place) = value;
    return sizes;
}

/* A refusal's sentence names the limit that was passed. */
static void require_sentence(uint32_t refusal, size_t limit)
{
    char number[32];
    int length = snprintf(number, sizeof number, " %zu", limit);
    const char *place = strstr(lyra2_sentence(refusal), number);
    if (place == NULL || isdigit((unsigned char)place[length]))
        fail("'%s' does not say%s", lyra2_sentence(refusal), number);
}

static void require_limit(const struct limit *limit)
{
    require_accepted(with(limit, limit->least));
    require_accepted(with(limit, limit->most));
    require_refused(with(limit, limit->most + 1), limit->above);
    require_sentence(limit->above, limit->most);
    if (limit->least > 0) {
        require_refused(with(limit, limit->least - 1), limit->below);
        require_sentence(limit->below, limit->least);
    }
}

/* The macros give the least words: with them a call is accepted, with words to spare too, and refused with a word less.
 * A record without visits has no words. One of twice the words has room for each number alone, and the rest is kept. */
static void require_least_words(size_t time, size_t rows, size_t columns)
{
    struct sizes sizes = accepted_sizes;
    sizes.time = time;
    sizes.rows = rows;
    sizes.columns = columns;
    require_accepted(sizes);
    sizes = fitting(sizes);
    sizes.record *= 2;
    require_agreement(sizes);
    sizes = fitting(sizes);
    sizes.matrix += SPARE;
    sizes.record += SPARE;
    require_agreement(sizes);
    sizes = fitting(sizes);
    if (time > 0) {
        sizes.record--;
        require_refused(sizes, LYRA2_REFUSED_RECORD);
    }
    sizes.matrix--;
    require_refused(sizes, LYRA2_REFUSED_MATRIX);
}

/* The plain derivation's key of a password and a salt of zeros. */
static void derive_from_zeros(const struct sizes *sizes, uint8_t *key)
{
    static const uint8_t password[LYRA2_PASSWORD_MAX], salt[LYRA2_SALT_MAX];
    struct call call;
    make_call(&call, PLAIN, *sizes, (struct contents){password, salt, NULL});
    if (call.answer != LYRA2_ACCEPTED)
        fail("refused: %s", lyra2_sentence(call.answer));
    memcpy(key, lent_part(&call.key), sizes->key);
    end_call(&call);
}

/* The key is none of those before. */
static void require_new_key(const struct sizes *n)
{
    static uint8_t keys[MIXERS * LYRA2_REDUCED_ROUNDS_MAX * LYRA2_ROTATION_MAX][LYRA2_KEY_MAX];
    static size_t count;
    derive_from_zeros(n, keys[count]);
    for (size_t i = 0; i < count; i++)
        if (memcmp(keys[i], keys[count], n->key) == 0)
            fail("choices %zu and %zu of the settings give the same key", i, count);
    count++;
}

/* All rounds, rotations and mixers go together, and no two choices give the same key. */
static void require_settings(bool mixer)
{
    struct sizes n = {.key = 32, .password = 20, .salt = 16, .time = 2, .rows = 5, .columns = 4, .mixer = mixer};
    for (n.rounds = LYRA2_REDUCED_ROUNDS_MIN; n.rounds <= LYRA2_REDUCED_ROUNDS_MAX; n.rounds++)
        for (n.rotation = LYRA2_ROTATION_MIN; n.rotation <= LYRA2_ROTATION_MAX; n.rotation++) {
            n = fitting(n);
            require_agreement(n);
            require_new_key(&n);
        }
}

/* What C converts to the mixer's bool: every number but 0 is BlaMka, whatever its lowest byte is. */
static void require_conversion(size_t number)
{
    const size_t rounds = LYRA2_REDUCED_ROUNDS_USUAL, rotation = LYRA2_ROTATION_USUAL;
    const uint8_t password[8] = {1}, salt[LYRA2_SALT_MIN] = {2};
    uint8_t due[32], derived[32], recorded[32];
    uint64_t matrix[LYRA2_MATRIX_WORDS(3, 1)], record[LYRA2_RECORD_WORDS(1, 3, 1)], state[LYRA2_STATE_WORDS];
    uint64_t counts[LYRA2_COUNTS];
    uint32_t same = 0;
    if (lyra2_derive(password, 8, salt, sizeof salt, 1, 3, 1, rounds, rotation, LYRA2_MIXER_BLAMKA, due, 32, matrix, 36,
                     counts) != LYRA2_ACCEPTED
        || lyra2_derive(password, 8, salt, sizeof salt, 1, 3, 1, rounds, rotation, number, derived, 32, matrix, 36,
                        counts) != LYRA2_ACCEPTED
        || lyra2_derive_recorded(password, 8, salt, sizeof salt, 1, 3, 1, rounds, rotation, number, recorded, 32,
                                 matrix, 36, record, 6, state, counts) != LYRA2_ACCEPTED
        || lyra2_check(password, 8, salt, sizeof salt, 1, 3, 1, rounds, rotation, number, due, 32, matrix, 36, &same,
                       counts) != LYRA2_ACCEPTED
        || memcmp(derived, due, sizeof due) != 0 || memcmp(recorded, due, sizeof due) != 0 || same != 1)
        fail("mixer %zu is not BlaMka", number);
}

static void require_walk_limits(void)
{
    const size_t rows[] = {LYRA2_ROWS_MIN + 1, 5, 100, LYRA2_ROWS_MAX};
    size_t row1;
    for (size_t i = 0; i < sizeof rows / sizeof *rows; i++) {
        size_t r = rows[i];
        if (ask_walk(r, LYRA2_ROW0_MIN, &row1) != LYRA2_ACCEPTED || row1 != 1)
            fail("walk: row 3 of %zu", r);
        if (ask_walk(r, r - 1, &row1) != LYRA2_ACCEPTED || row1 >= r - 1)
            fail("walk: the last row of %zu", r);
        if (ask_walk(r, LYRA2_ROW0_MIN - 1, &row1) != LYRA2_REFUSED_ROW0 || ask_walk(r, r, &row1) != LYRA2_REFUSED_ROW0)
            fail("walk: a row outside of %zu", r);
    }
    if (ask_walk(LYRA2_ROWS_MIN - 1, LYRA2_ROW0_MIN, &row1) != LYRA2_REFUSED_ROWS
        || ask_walk(LYRA2_ROWS_MAX + 1, LYRA2_ROW0_MIN, &row1) != LYRA2_REFUSED_ROWS)
        fail("walk: a number of rows beyond its limits");
}

/* Every answer has a sentence of its own. */
static void require_own_sentences(void)
{
    for (uint32_t i = 0; i <= LYRA2_REFUSED_LANES + 1; i++)
        for (uint32_t j = 0; j < i; j++)
            if (strcmp(lyra2_sentence(i), lyra2_sentence(j)) == 0)
                fail("%u and %u have the same sentence", i, j);
}

/* What is only read may overlap: the key is that of the same bytes apart. Bytes of the password are a wrong key. */
static void require_overlap(void)
{
    uint8_t bytes[64], password[40], salt[16], key[32];
    uint64_t matrix[LYRA2_MATRIX_WORDS(3, 1)], counts[LYRA2_COUNTS];
    const size_t rounds = LYRA2_REDUCED_ROUNDS_USUAL, rotation = LYRA2_ROTATION_USUAL;
    const bool mixer = LYRA2_MIXER_USUAL;
    uint32_t right = 0, wrong = 1;
    for (size_t i = 0; i < sizeof bytes; i++)
        bytes[i] = (uint8_t)(i * i);
    memcpy(password, bytes, sizeof password);
    memcpy(salt, bytes + 32, sizeof salt);
    if (lyra2_derive(password, 40, salt, 16, 1, 3, 1, rounds, rotation, mixer, key, 32, matrix, 36, counts)
            != LYRA2_ACCEPTED
        || lyra2_check(bytes, 40, bytes + 32, 16, 1, 3, 1, rounds, rotation, mixer, key, 32, matrix, 36, &right, counts)
            != LYRA2_ACCEPTED
        || lyra2_check(bytes, 40, bytes + 32, 16, 1, 3, 1, rounds, rotation, mixer, bytes + 4, 32, matrix, 36, &wrong,
                       counts)
            != LYRA2_ACCEPTED
        || right != 1 || wrong != 0)
        fail("overlap: the check said %u of the key and %u of other bytes", right, wrong);
}

int main(void)
{
    for (size_t i = 0; i < sizeof limits / sizeof *limits; i++)
        require_limit(&limits[i]);
    require_least_words(0, 3, 1);
    require_least_words(0, 100, 33);
    require_least_words(1, 3, 1);
    require_least_words(2, 5, 7);
    require_least_words(3, 100, 33);
    require_least_words(LYRA2_TIME_MAX, 3, LYRA2_COLUMNS_MAX);
    require_least_words(1, LYRA2_ROWS_MAX, 2);
    for (size_t i = 0; i < MIXERS; i++)
        require_settings(mixers[i]);
    for (size_t number = 1; number != 0; number <<= 1)
        require_conversion(number);
    require_walk_limits();
    require_own_sentences();
    require_overlap();
    printf("limits of the header: %zu calls\n", calls_made);
    return 0;
}
