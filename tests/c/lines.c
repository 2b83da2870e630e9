/*
 * Login lines from C: the header's limits, sizes and sentences are the library's own, of every two checks that apply the
 * one that is tested first is answered, and what was written is read back.
 */
#include "calls.h"
#include "line_calls.h"

#include <inttypes.h>
#include <stdio.h>
#include <stdlib.h>
#include <string.h>

/* Texts are built in here; numbers of two thousand digits go in too. */
enum { MOST_TEXT = 8192, LONG_NUMBER = 2000 };

/* A line by its parts: the numbers as texts, salt and key by their lengths, all of whose bytes are zero. */
struct text_line {
    const char *time, *rows, *columns;
    size_t salt, key;
    const char *end; /* what stands behind the key */
};

/* A call to read or to write by its numbers; the outputs may lack bytes. */
struct line_sizes {
    size_t time, rows, columns, salt, key;
    size_t salt_lacks, key_lacks, line_lacks;
    bool spoilt; /* not of the form, for reading alone */
};

static const struct line_sizes accepted = {1, 3, 1, LYRA2_SALT_MIN, 24, 0, 0, 0, false};

/* The length of the base 64 of so many bytes. */
static size_t text_length(size_t bytes)
{
    return (8 * bytes + 5) / 6;
}

static char text[MOST_TEXT];

static struct bytes build(struct text_line line)
{
    int start = snprintf(text, sizeof text, "$lyra2$t=%s,r=%s,c=%s$", line.time, line.rows, line.columns);
    size_t salt = text_length(line.salt), key = text_length(line.key), end = strlen(line.end);
    if (start < 0 || (size_t)start + salt + key + end + 1 > sizeof text)
        fail("a text is too long");
    char *place = text + start;
    memset(place, 'A', salt);
    place[salt] = '$';
    memset(place + salt + 1, 'A', key);
    memcpy(place + salt + 1 + key, line.end, end);
    return (struct bytes){(const uint8_t *)text, (size_t)start + salt + 1 + key + end};
}

static struct bytes build_sizes(const struct line_sizes *n)
{
    char time[32], rows[32], columns[32];
    snprintf(time, sizeof time, "%zu", n->time);
    snprintf(rows, sizeof rows, "%zu", n->rows);
    snprintf(columns, sizeof columns, "%zu", n->columns);
    return build((struct text_line){time, rows, columns, n->salt, n->key, n->spoilt ? "\n" : ""});
}

static void require_line(const struct line_sizes *n, uint32_t due)
{
    struct read_call call;
    struct bytes line = build_sizes(n);
    make_read(&call, line, n->salt - n->salt_lacks, n->key - n->key_lacks);
    if (call.answer != due)
        fail("line_read: %u is due, %u was answered: T %zu, R %zu, C %zu, salt %zu, key %zu", due, call.answer, n->time,
             n->rows, n->columns, n->salt, n->key);
    const size_t values[] = {
        [LYRA2_LINE_TIME] = n->time,     [LYRA2_LINE_ROWS] = n->rows,   [LYRA2_LINE_COLUMNS] = n->columns,
        [LYRA2_LINE_SALT_LEN] = n->salt, [LYRA2_LINE_KEY_LEN] = n->key,
    };
    if (due == LYRA2_ACCEPTED) {
        if (memcmp(values, lent_part(&call.values), sizeof values) != 0)
            fail("line_read: other values are due");
        require_zeros(&call.salt, n->salt, "salt");
        require_zeros(&call.key, n->key, "key");
    }
    end_read(&call);
}

static void require_written(const struct line_sizes *n, uint32_t due)
{
    struct write_call call;
    struct bytes line = build_sizes(n);
    uint8_t *zeros = allocate(n->salt > n->key ? n->salt : n->key);
    struct line_parts parts = {n->time, n->rows, n->columns, {zeros, n->salt}, {zeros, n->key}};
    make_write(&call, parts, line.length - n->line_lacks);
    if (call.answer != due)
        fail("line_write: %u is due, %u was answered: T %zu, R %zu, C %zu, salt %zu, key %zu", due, call.answer, n->time,
             n->rows, n->columns, n->salt, n->key);
    if (due == LYRA2_ACCEPTED
        && (written_length(&call) != line.length || memcmp(line.start, lent_part(&call.line), line.length) != 0))
        fail("line_write: another line is due");
    end_write(&call);
    free(zeros);
}

static void require_both(const struct line_sizes *n, uint32_t due)
{
    require_line(n, due);
    require_written(n, due);
}

/* ---- the limits */

struct line_limit {
    size_t place; /* of a number in struct line_sizes */
    size_t least, most;
    uint32_t below, above;
};

static const struct line_limit limits[] = {
    {offsetof(struct line_sizes, key), LYRA2_KEY_MIN, LYRA2_KEY_MAX, LYRA2_REFUSED_KEY, LYRA2_REFUSED_KEY},
    {offsetof(struct line_sizes, salt), LYRA2_SALT_MIN, LYRA2_SALT_MAX, LYRA2_REFUSED_SALT_TOO_SHORT,
     LYRA2_REFUSED_SALT_TOO_LONG},
    {offsetof(struct line_sizes, time), LYRA2_TIME_MIN, LYRA2_TIME_MAX, LYRA2_REFUSED_TIME, LYRA2_REFUSED_TIME},
    {offsetof(struct line_sizes, rows), LYRA2_ROWS_MIN, LYRA2_ROWS_MAX, LYRA2_REFUSED_ROWS, LYRA2_REFUSED_ROWS},
    {offsetof(struct line_sizes, columns), LYRA2_COLUMNS_MIN, LYRA2_COLUMNS_MAX, LYRA2_REFUSED_COLUMNS,
     LYRA2_REFUSED_COLUMNS},
};

static struct line_sizes with(const struct line_limit *limit, size_t value)
{
    struct line_sizes sizes = accepted;
    *(size_t *)((uint8_t *)&sizes + limit->place) = value;
    return sizes;
}

static void require_limit(const struct line_limit *limit)
{
    const size_t values[] = {limit->least, limit->most, limit->most + 1, limit->least - 1};
    const uint32_t due[] = {LYRA2_ACCEPTED, LYRA2_ACCEPTED, limit->above, limit->below};
    for (size_t i = 0; i < (limit->least > 0 ? 4 : 3); i++) {
        struct line_sizes sizes = with(limit, values[i]);
        require_both(&sizes, due[i]);
    }
}

/* A number of the line, by its place, with these digits. */
static void require_number(const char *digits, int place, uint32_t due)
{
    const char *numbers[] = {"1", "3", "1"};
    struct read_call call;
    numbers[place] = digits;
    make_read(&call, build((struct text_line){numbers[0], numbers[1], numbers[2], LYRA2_SALT_MIN, 1, ""}),
              LYRA2_SALT_MAX, LYRA2_KEY_MAX);
    if (call.answer != due)
        fail("line_read: %u is due for %.40s at place %d, %u was answered", due, digits, place, call.answer);
    end_read(&call);
}

/* Numbers have any length. These are above their limits, although their low bits are not. */
static void require_long_numbers(void)
{
    static const char *const cut[][3] = {
        {"65537", "65539", "65537"},
        {"4294967297", "4294967299", "4294967297"},
        {"18446744073709551617", "18446744073709551619", "18446744073709551617"},
        {"340282366920938463463374607431768211457", "340282366920938463463374607431768211459",
         "340282366920938463463374607431768211457"},
    };
    static const uint32_t above[] = {LYRA2_REFUSED_TIME, LYRA2_REFUSED_ROWS, LYRA2_REFUSED_COLUMNS};
    char digits[LONG_NUMBER + 1] = {0};
    memset(digits, '7', LONG_NUMBER);
    for (int place = 0; place < 3; place++) {
        for (size_t i = 0; i < sizeof cut / sizeof *cut; i++)
            require_number(cut[i][place], place, above[place]);
        require_number(digits, place, above[place]);
        require_number("", place, LYRA2_REFUSED_LINE);
        require_number("03", place, LYRA2_REFUSED_LINE);
        require_number("00", place, LYRA2_REFUSED_LINE);
        require_number("+3", place, LYRA2_REFUSED_LINE);
        require_number("3 ", place, LYRA2_REFUSED_LINE);
    }
}

/* Texts that are not of the form: the key, or all behind the salt, is one of these. */
static void require_spoilt_keys(void)
{
    static const char *const keys[] = {"A", "AAAAA", "AB", "AAB", "AA=", "AA==", "AAA=", "AA-A", "AA_A", "AA A",
                                       "AAAA\n", "AAAA$", "AAAA$AAAA", "$", "=", "\n", "AAAA\r\n"};
    static const char *const good[] = {"AA", "AAA", "AAAA", "+/+/", "/w", "//8"};
    struct read_call call;
    for (size_t i = 0; i < sizeof keys / sizeof *keys; i++) {
        make_read(&call, build((struct text_line){"1", "3", "1", LYRA2_SALT_MIN, 0, keys[i]}), LYRA2_SALT_MAX,
                  LYRA2_KEY_MAX);
        if (call.answer != LYRA2_REFUSED_LINE)
            fail("line_read: %u was answered to the key '%s'", call.answer, keys[i]);
        end_read(&call);
    }
    for (size_t i = 0; i < sizeof good / sizeof *good; i++) {
        make_read(&call, build((struct text_line){"1", "3", "1", LYRA2_SALT_MIN, 0, good[i]}), LYRA2_SALT_MAX,
                  LYRA2_KEY_MAX);
        if (call.answer != LYRA2_ACCEPTED || line_value(&call, LYRA2_LINE_KEY_LEN) != 3 * strlen(good[i]) / 4)
            fail("line_read: %u was answered to the key '%s'", call.answer, good[i]);
        end_read(&call);
    }
}

/* ---- pairs of checks */

enum { SIDES = 3 };

/* Makes a check apply from one side, or says that it has no such side. */
static bool make_apply(struct line_sizes *n, uint32_t check, int side)
{
    switch (check) {
    case LYRA2_REFUSED_LINE:
        n->spoilt = true;
        return side == 0;
    case LYRA2_REFUSED_KEY:
        n->key = side == 0 ? LYRA2_KEY_MIN - 1 : LYRA2_KEY_MAX + 1;
        return side < 2;
    case LYRA2_REFUSED_SALT_TOO_SHORT:
        n->salt = side == 0 ? 0 : LYRA2_SALT_MIN - 1;
        return side < 2;
    case LYRA2_REFUSED_SALT_TOO_LONG:
        n->salt = LYRA2_SALT_MAX + 1;
        return side == 0;
    case LYRA2_REFUSED_TIME:
        n->time = side == 0 ? LYRA2_TIME_MAX + 1 : SIZE_MAX;
        return side < 2;
    case LYRA2_REFUSED_ROWS:
        n->rows = side == 0 ? LYRA2_ROWS_MIN - 1 : side == 1 ? LYRA2_ROWS_MAX + 1 : SIZE_MAX;
        return true;
    case LYRA2_REFUSED_COLUMNS:
        n->columns = side == 0 ? LYRA2_COLUMNS_MIN - 1 : side == 1 ? LYRA2_COLUMNS_MAX + 1 : SIZE_MAX;
        return true;
    default:
        n->salt_lacks = side == 0 && n->salt > 0;
        n->key_lacks = side == 1 && n->key > 0;
        n->line_lacks = side == 0 ? 1 : 30;
        return side < 2 && n->salt_lacks + n->key_lacks > 0;
    }
}

static const uint32_t order[] = {LYRA2_REFUSED_LINE,          LYRA2_REFUSED_KEY,  LYRA2_REFUSED_SALT_TOO_SHORT,
                                 LYRA2_REFUSED_SALT_TOO_LONG, LYRA2_REFUSED_TIME, LYRA2_REFUSED_ROWS,
                                 LYRA2_REFUSED_COLUMNS,       LYRA2_REFUSED_OUTPUT};
enum { CHECKS = sizeof order / sizeof *order };

/* Writing has no check of the form. */
static void require_refused(const struct line_sizes *n, uint32_t due)
{
    require_line(n, due);
    if (!n->spoilt)
        require_written(n, due);
}

/* One check from one side, alone and with each later one from each of its sides. */
static void pair_with_later(size_t place, int side)
{
    struct line_sizes one = accepted;
    if (!make_apply(&one, order[place], side))
        return;
    require_refused(&one, order[place]);
    for (size_t later = place + 1; later < CHECKS; later++)
        for (int later_side = 0; later_side < SIDES; later_side++) {
            struct line_sizes two = one;
            /* A salt is not both too short and too long. */
            if (order[place] == LYRA2_REFUSED_SALT_TOO_SHORT && order[later] == LYRA2_REFUSED_SALT_TOO_LONG)
                continue;
            if (make_apply(&two, order[later], later_side))
                require_refused(&two, order[place]);
        }
}

/* ---- the outputs */

/* Every output from none to three bytes more than enough. */
static void require_rooms(size_t salt, size_t key)
{
    const struct line_sizes sizes = {1, 3, 1, salt, key, 0, 0, 0, false};
    uint8_t *contents = allocate(salt + key);
    for (size_t i = 0; i < salt + key; i++)
        contents[i] = (uint8_t)(37 * i + 200);
    struct line_parts parts = {1, 3, 1, {contents, salt}, {contents + salt, key}};
    size_t length = build_sizes(&sizes).length;
    uint8_t *line = allocate(length);
    for (size_t room = 0; room < length + 4; room++) {
        struct write_call call;
        make_write(&call, parts, room);
        if (call.answer != (room < length ? LYRA2_REFUSED_OUTPUT : LYRA2_ACCEPTED))
            fail("line_write: %u was answered with room for %zu of %zu", call.answer, room, length);
        if (room == length)
            memcpy(line, lent_part(&call.line), length);
        end_write(&call);
    }
    for (size_t salt_room = 0; salt_room < salt + 4; salt_room++)
        for (size_t key_room = key < 2 ? 0 : key - 2; key_room < key + 4; key_room++) {
            struct read_call call;
            bool fits = salt_room >= salt && key_room >= key;
            make_read(&call, (struct bytes){line, length}, salt_room, key_room);
            if (call.answer != (fits ? LYRA2_ACCEPTED : LYRA2_REFUSED_OUTPUT))
                fail("line_read: %u was answered with room for %zu and %zu", call.answer, salt_room, key_room);
            if (fits
                && (memcmp(lent_part(&call.salt), contents, salt) != 0
                    || memcmp(lent_part(&call.key), contents + salt, key) != 0))
                fail("line_read: another salt or key is due");
            end_read(&call);
        }
    free(line);
    free(contents);
}

/* With the longest values a line has exactly LYRA2_LINE_MAX bytes, and it is read back into outputs of the header's
 * sizes. */
static void require_longest(void)
{
    uint8_t salt[LYRA2_SALT_MAX], key[LYRA2_KEY_MAX];
    struct write_call written, short_by_one;
    struct read_call read;
    for (size_t i = 0; i < sizeof salt; i++)
        salt[i] = (uint8_t)(255 - i);
    for (size_t i = 0; i < sizeof key; i++)
        key[i] = (uint8_t)(i * i >> 3);
    struct line_parts parts = {LYRA2_TIME_MAX, LYRA2_ROWS_MAX, LYRA2_COLUMNS_MAX, {salt, sizeof salt}, {key, sizeof key}};
    make_write(&written, parts, LYRA2_LINE_MAX);
    if (written.answer != LYRA2_ACCEPTED || written_length(&written) != LYRA2_LINE_MAX)
        fail("line_write: %u was answered and %zu bytes written", written.answer, written_length(&written));
    make_write(&short_by_one, parts, LYRA2_LINE_MAX - 1);
    if (short_by_one.answer != LYRA2_REFUSED_OUTPUT)
        fail("line_write: %u was answered with a byte less", short_by_one.answer);
    make_read(&read, (struct bytes){lent_part(&written.line), LYRA2_LINE_MAX}, sizeof salt, sizeof key);
    const size_t values[] = {
        [LYRA2_LINE_TIME] = LYRA2_TIME_MAX,     [LYRA2_LINE_ROWS] = LYRA2_ROWS_MAX,
        [LYRA2_LINE_COLUMNS] = LYRA2_COLUMNS_MAX, [LYRA2_LINE_SALT_LEN] = sizeof salt,
        [LYRA2_LINE_KEY_LEN] = sizeof key,
    };
    if (read.answer != LYRA2_ACCEPTED || memcmp(values, lent_part(&read.values), sizeof values) != 0
        || memcmp(salt, lent_part(&read.salt), sizeof salt) != 0 || memcmp(key, lent_part(&read.key), sizeof key) != 0)
        fail("the longest line is not read back: %u", read.answer);
    end_read(&read);
    end_write(&short_by_one);
    end_write(&written);
}

/* A line whose values differ from one another. */
static void require_example(void)
{
    static const char line[] = "$lyra2$t=2,r=300,c=25$c2FsdHNhbHQ$Zm9vYmFy";
    const struct bytes salt = {(const uint8_t *)"saltsalt", 8}, key = {(const uint8_t *)"foobar", 6};
    static const size_t values[] = {2, 300, 25, 8, 6};
    struct read_call read;
    struct write_call written;
    make_read(&read, (struct bytes){(const uint8_t *)line, sizeof line - 1}, 9, 7);
    if (read.answer != LYRA2_ACCEPTED || memcmp(values, lent_part(&read.values), sizeof values) != 0
        || memcmp(salt.start, lent_part(&read.salt), salt.length) != 0
        || memcmp(key.start, lent_part(&read.key), key.length) != 0)
        fail("line_read: the example gives %u", read.answer);
    make_write(&written, (struct line_parts){2, 300, 25, salt, key}, sizeof line + 3);
    if (written.answer != LYRA2_ACCEPTED || written_length(&written) != sizeof line - 1
        || memcmp(line, lent_part(&written.line), sizeof line - 1) != 0)
        fail("line_write: the example gives %u", written.answer);
    end_read(&read);
    end_write(&written);
}

/* The sentences of the two refusals that lines alone have. */
static void require_sentences(void)
{
    static const char form[] = "$lyra2$t=T,r=R,c=C$SALT$KEY", output[] = "output is too short";
    if (strstr(lyra2_sentence(LYRA2_REFUSED_LINE), form) == NULL)
        fail("'%s' does not say %s", lyra2_sentence(LYRA2_REFUSED_LINE), form);
    if (strstr(lyra2_sentence(LYRA2_REFUSED_OUTPUT), output) == NULL)
        fail("'%s' does not say: %s", lyra2_sentence(LYRA2_REFUSED_OUTPUT), output);
}

int main(void)
{
    require_both(&accepted, LYRA2_ACCEPTED);
    require_example();
    for (size_t i = 0; i < sizeof limits / sizeof *limits; i++)
        require_limit(&limits[i]);
    require_long_numbers();
    require_spoilt_keys();
    for (size_t place = 0; place < CHECKS; place++)
        for (int side = 0; side < SIDES; side++)
            pair_with_later(place, side);
    require_rooms(LYRA2_SALT_MIN, LYRA2_KEY_MIN);
    require_rooms(9, 2);
    require_rooms(10, 32);
    require_rooms(LYRA2_SALT_MAX, 97);
    require_longest();
    require_sentences();
    printf("login lines: %zu calls\n", calls_made);
    return 0;
}
