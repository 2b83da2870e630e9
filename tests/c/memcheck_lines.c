/*
 * Login lines under valgrind's memcheck, which sees every byte that a call reads or writes. All memory has exactly the
 * length that is lent; what a call writes is marked as never written, so an answer that depended on it would be marked
 * too, and so is the key that a line is written from, so that a branch or an address that depends on it is reported.
 */
#include "calls.h"
#include "watched.h"

#include <stdio.h>
#include <stdlib.h>
#include <string.h>
#include <valgrind/memcheck.h>

/* Bytes past the written ones, in the calls that lend more than is needed. */
enum { SPARE = 5 };

struct parts {
    size_t time, rows, columns, salt, key;
};

struct memory {
    uint8_t *salt, *key, *line, *read_salt, *read_key;
    size_t *line_len, *values;
};

/* The digits of a number. */
static size_t digits(size_t number)
{
    return number < 10 ? 1 : 1 + digits(number / 10);
}

static size_t line_length(const struct parts *n)
{
    return strlen("$lyra2$t=,r=,c=$$") + digits(n->time) + digits(n->rows) + digits(n->columns) + (8 * n->salt + 5) / 6
        + (8 * n->key + 5) / 6;
}

/* Salt and key are for writing a line; the outputs have these many bytes more than is needed, or fewer. */
static struct memory lend_all(const struct parts *n, size_t line_room, size_t salt_room, size_t key_room)
{
    return (struct memory){
        .salt = written(n->salt, 2),
        .key = written(n->key, 200),
        .line = unwritten(line_room),
        .read_salt = unwritten(salt_room),
        .read_key = unwritten(key_room),
        .line_len = unwritten(sizeof(size_t)),
        .values = unwritten(LYRA2_LINE_VALUES * sizeof(size_t)),
    };
}

static void take_all_back(struct memory *m)
{
    void *all[] = {m->salt, m->key, m->line, m->read_salt, m->read_key, m->line_len, m->values};
    for (size_t i = 0; i < sizeof all / sizeof *all; i++)
        free(all[i]);
}

static uint32_t write_line(const struct parts *n, struct memory *m, size_t room)
{
    calls_made++;
    return lyra2_line_write(n->time, n->rows, n->columns, m->salt, n->salt, m->key, n->key, m->line, room, m->line_len);
}

static void require_answer(const char *name, uint32_t answer, uint32_t due)
{
    if (answer != due)
        fail("%s: %u is due, %u was answered", name, due, answer);
}

/* Writes a line from a key and a salt that are marked as never written, and reads it back. */
static void require_line(struct parts n, size_t spare)
{
    size_t length = line_length(&n);
    struct memory m = lend_all(&n, length + spare, n.salt + spare, n.key + spare);
    (void)VALGRIND_MAKE_MEM_UNDEFINED(m.salt, n.salt);
    (void)VALGRIND_MAKE_MEM_UNDEFINED(m.key, n.key);
    require_answer("line_write", write_line(&n, &m, length + spare), LYRA2_ACCEPTED);
    require_written("line_len", m.line_len, sizeof(size_t), sizeof(size_t));
    if (*m.line_len != length || !is_unwritten(m.line + length, spare))
        fail("line: written past its used part");
    (void)VALGRIND_MAKE_MEM_DEFINED(m.salt, n.salt);
    (void)VALGRIND_MAKE_MEM_DEFINED(m.key, n.key);
    (void)VALGRIND_MAKE_MEM_UNDEFINED(m.line, length + spare);
    require_answer("line_write", write_line(&n, &m, length + spare), LYRA2_ACCEPTED);
    require_written("line", m.line, length, length + spare);

    /* What is read has no byte behind it. */
    uint8_t *line = unwritten(length);
    memcpy(line, m.line, length);
    require_answer("line_read",
                   lyra2_line_read(line, length, m.read_salt, n.salt + spare, m.read_key, n.key + spare, m.values),
                   LYRA2_ACCEPTED);
    calls_made++;
    require_written("values", m.values, LYRA2_LINE_VALUES * sizeof(size_t), LYRA2_LINE_VALUES * sizeof(size_t));
    require_written("salt", m.read_salt, n.salt, n.salt + spare);
    require_written("key", m.read_key, n.key, n.key + spare);
    if (memcmp(m.salt, m.read_salt, n.salt) != 0 || memcmp(m.key, m.read_key, n.key) != 0)
        fail("line_read: another salt or key is due");
    free(line);
    take_all_back(&m);
}

/* A refused call writes the fields of its answer, and may not even read its outputs, nor what it would write a line
 * from. */
static void require_not_written(struct parts n, size_t room, uint32_t due)
{
    struct memory m = lend_all(&n, room, 0, 0);
    (void)VALGRIND_MAKE_MEM_NOACCESS(m.salt, n.salt);
    (void)VALGRIND_MAKE_MEM_NOACCESS(m.key, n.key);
    (void)VALGRIND_MAKE_MEM_NOACCESS(m.line, room);
    require_answer("line_write", write_line(&n, &m, room), due);
    require_zero_field("line_len", m.line_len, sizeof(size_t));
    take_all_back(&m);
}

static void require_not_read(const char *text, size_t salt_room, size_t key_room, uint32_t due)
{
    const struct parts n = {0, 0, 0, 0, 0};
    struct memory m = lend_all(&n, 0, salt_room, key_room);
    size_t length = strlen(text);
    uint8_t *line = unwritten(length);
    memcpy(line, text, length);
    (void)VALGRIND_MAKE_MEM_NOACCESS(m.read_salt, salt_room);
    (void)VALGRIND_MAKE_MEM_NOACCESS(m.read_key, key_room);
    require_answer(text, lyra2_line_read(line, length, m.read_salt, salt_room, m.read_key, key_room, m.values), due);
    calls_made++;
    require_zero_field("values", m.values, LYRA2_LINE_VALUES * sizeof(size_t));
    free(line);
    take_all_back(&m);
}

static void require_refused_writes(void)
{
    const struct parts n = {1, 3, 1, 8, 32};
    struct parts wrong[] = {n, n, n, n, n, n, n, n};
    static const uint32_t due[] = {LYRA2_REFUSED_KEY,  LYRA2_REFUSED_KEY,  LYRA2_REFUSED_SALT_TOO_SHORT,
                                   LYRA2_REFUSED_SALT_TOO_LONG, LYRA2_REFUSED_TIME, LYRA2_REFUSED_ROWS,
                                   LYRA2_REFUSED_COLUMNS,       LYRA2_REFUSED_OUTPUT};
    wrong[0].key = 0;
    wrong[1].key = LYRA2_KEY_MAX + 1;
    wrong[2].salt = LYRA2_SALT_MIN - 1;
    wrong[3].salt = LYRA2_SALT_MAX + 1;
    wrong[4].time = LYRA2_TIME_MAX + 1;
    wrong[5].rows = LYRA2_ROWS_MAX + 1;
    wrong[6].columns = 0;
    for (size_t i = 0; i < sizeof due / sizeof *due; i++) {
        require_not_written(wrong[i], i == 7 ? line_length(&n) - 1 : LYRA2_LINE_MAX, due[i]);
        require_not_written(wrong[i], 0, due[i]);
    }
}

/* Each refusal; a line that is cut anywhere is not of the form, unless it is cut in its key's text. */
static void require_refused_reads(void)
{
    static const char whole[] = "$lyra2$t=1,r=3,c=1$c2FsdHNhbHQ$Zm9vYmFy";
    char text[sizeof whole];
    for (size_t length = 0; length < sizeof whole; length++) {
        size_t key = length <= 31 ? 0 : length - 31;
        memcpy(text, whole, length);
        text[length] = '\0';
        if (length < 31)
            require_not_read(text, LYRA2_SALT_MAX, LYRA2_KEY_MAX, LYRA2_REFUSED_LINE);
        else if (key == 0)
            require_not_read(text, LYRA2_SALT_MAX, LYRA2_KEY_MAX, LYRA2_REFUSED_KEY);
        else if (key % 4 == 1)
            require_not_read(text, LYRA2_SALT_MAX, LYRA2_KEY_MAX, LYRA2_REFUSED_LINE);
    }
    require_not_read("$lyra2$t=1,r=3,c=1$$Zm9vYmFy", 8, 6, LYRA2_REFUSED_SALT_TOO_SHORT);
    require_not_read("$lyra2$t=256,r=3,c=1$c2FsdHNhbHQ$Zm9vYmFy", 8, 6, LYRA2_REFUSED_TIME);
    require_not_read("$lyra2$t=1,r=18446744073709551619,c=1$c2FsdHNhbHQ$Zm9vYmFy", 8, 6, LYRA2_REFUSED_ROWS);
    require_not_read("$lyra2$t=1,r=3,c=0$c2FsdHNhbHQ$Zm9vYmFy", 8, 6, LYRA2_REFUSED_COLUMNS);
    require_not_read("$lyra2$t=1,r=3,c=1$"
                     "AAAAAAAAAAAAAAAAAAAAAAAAAAAAAAAAAAAAAAAAAAAAAAAAAAAAAAAAAAAAAAAAAAAAAAAAAAAAAAAAAAAAAAA"
                     "$Zm9vYmFy", LYRA2_SALT_MAX, 6, LYRA2_REFUSED_SALT_TOO_LONG);
    require_not_read(whole, 7, 6, LYRA2_REFUSED_OUTPUT);
    require_not_read(whole, 8, 5, LYRA2_REFUSED_OUTPUT);
    require_not_read(whole, 0, 0, LYRA2_REFUSED_OUTPUT);
    require_not_read("$lyra2$t=1,r=3,c=1$c2FsdHNhbHQ$Zm9vYmFy\n", 8, 6, LYRA2_REFUSED_LINE);
}

int main(void)
{
    static const size_t keys[] = {1, 2, 3, 4, 5, 31, 32, 33, 97, LYRA2_KEY_MAX - 1, LYRA2_KEY_MAX};
    static const size_t salts[] = {LYRA2_SALT_MIN, 9, 10, 16, 63, LYRA2_SALT_MAX};
    if (!RUNNING_ON_VALGRIND)
        fail("this program tells nothing outside of valgrind");
    require_refused_writes();
    require_refused_reads();
    for (size_t i = 0; i < sizeof keys / sizeof *keys; i++)
        for (size_t j = 0; j < sizeof salts / sizeof *salts; j++)
            for (size_t spare = 0; spare <= SPARE; spare += SPARE)
                require_line((struct parts){25 * i, 3 + 1000 * i, 1 + 50 * j, salts[j], keys[i]}, spare);
    require_line((struct parts){LYRA2_TIME_MAX, LYRA2_ROWS_MAX, LYRA2_COLUMNS_MAX, LYRA2_SALT_MAX, LYRA2_KEY_MAX}, 0);
    printf("memcheck of lines: %zu calls\n", calls_made);
    return 0;
}
