/*
 * What reading and writing a login line leave on the stack that they used. It is searched, at every byte, for eight bytes
 * of the key and of its text. Then two calls that differ in the key alone are compared: what differs on their stacks was
 * made from the key.
 */
#include "lent.h"
#include "lyra2.h"
#include "marked.h"

#include <stdio.h>
#include <string.h>

enum { WINDOW = 8 };

/* A key, its line and the stack after a call. */
struct side {
    uint8_t key[LYRA2_KEY_MAX], line[LYRA2_LINE_MAX];
    uint64_t stack[MARKED_WORDS];
    size_t used;
};

/* What is lent lies at the same addresses on both sides. */
static const uint8_t salt[LYRA2_SALT_MIN];
static uint8_t key[LYRA2_KEY_MAX], line[LYRA2_LINE_MAX], read_salt[LYRA2_SALT_MAX];
static size_t key_len, line_len, values[LYRA2_LINE_VALUES];
static uint32_t answer;

static size_t searched, most_bytes;

static void write_line(void)
{
    answer = lyra2_line_write(1, 3, 1, salt, sizeof salt, key, key_len, line, sizeof line, &line_len);
}

static void read_line(void)
{
    answer = lyra2_line_read(line, line_len, read_salt, sizeof read_salt, key, sizeof key, values);
}

static void run_side(struct side *side, void (*function)(void), const char *name)
{
    memcpy(key, side->key, sizeof key);
    memcpy(line, side->line, sizeof line);
    side->used = run_marked(function);
    memcpy(side->stack, marked_stack, sizeof marked_stack);
    memcpy(side->line, line, sizeof line);
    if (answer != LYRA2_ACCEPTED)
        fail("%s: %s", name, lyra2_sentence(answer));
}

/* No eight bytes of a secret stand on the stack. */
static void require_absent(const struct side *side, const char *name, const char *what, const uint8_t *secret,
                           size_t bytes)
{
    const uint8_t *stack = (const uint8_t *)side->stack;
    for (size_t i = 0; i + WINDOW <= bytes; i++, searched++)
        for (size_t j = MARKED_BYTES - side->used; j + WINDOW <= MARKED_BYTES; j++)
            if (memcmp(stack + j, secret + i, WINDOW) == 0)
                fail("%s: the %s from byte %zu on is left on the stack", name, what, i);
}

/* The bytes in which the stacks differ. */
static size_t compare(const struct side *one, const struct side *other)
{
    const uint8_t *x = (const uint8_t *)one->stack, *y = (const uint8_t *)other->stack;
    size_t bytes = 0;
    for (size_t i = 0; i < MARKED_BYTES; i++)
        bytes += x[i] != y[i];
    return bytes;
}

static void require_pair(struct side sides[2], void (*function)(void), const char *name)
{
    for (int i = 0; i < 2; i++) {
        run_side(&sides[i], function, name);
        size_t text = (8 * key_len + 5) / 6;
        require_absent(&sides[i], name, "key", sides[i].key, key_len);
        require_absent(&sides[i], name, "text of the key", sides[i].line + line_len - text, text);
    }
    size_t bytes = compare(&sides[0], &sides[1]);
    if (bytes >= WINDOW)
        fail("%s: %zu bytes on the stack depend on the key", name, bytes);
    if (bytes > most_bytes)
        most_bytes = bytes;
}

int main(void)
{
    static const size_t lengths[] = {1, 2, 3, 8, 24, 31, 32, 33, 64, 97, LYRA2_KEY_MAX};
    static struct side sides[2];
    uint64_t x = 1;
    for (size_t i = 0; i < sizeof lengths / sizeof *lengths; i++) {
        key_len = lengths[i];
        for (size_t j = 0; j < 2 * sizeof key; j++) {
            x ^= x << 13;
            x ^= x >> 7;
            x ^= x << 17;
            sides[j % 2].key[j / 2] = (uint8_t)(x >> 32);
        }
        require_pair(sides, write_line, "line_write");
        require_pair(sides, read_line, "line_read");
    }
    printf("left of lines: none of %zu words; at most %zu bytes depend on the key\n", searched, most_bytes);
    return 0;
}
