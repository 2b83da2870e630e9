/* The fields of a line of the vectors file. */
#include "fields.h"

#include "lent.h"

#include <inttypes.h>
#include <stdio.h>
#include <string.h>

enum { WORD_DIGITS = 16 };

bool is(struct text value, const char *word)
{
    return strlen(word) == value.length && memcmp(word, value.start, value.length) == 0;
}

/* The text before the next separator; `rest` goes past it. */
static struct text cut(struct text *rest, char separator)
{
    const char *end = memchr(rest->start, separator, rest->length);
    struct text piece = *rest;
    if (end != NULL)
        piece.length = (size_t)(end - rest->start);
    size_t past = piece.length + (end != NULL);
    rest->start += past;
    rest->length -= past;
    return piece;
}

bool find(struct text line, const char *name, struct text *value)
{
    bool found = false;
    while (line.length > 0) {
        struct text field = cut(&line, ' ');
        if (is(cut(&field, '='), name)) {
            if (found)
                fail("a line has %s twice", name);
            *value = field;
            found = true;
        }
    }
    return found;
}

struct text require_field(struct text line, const char *name)
{
    struct text value;
    if (!find(line, name, &value))
        fail("a line has no %s", name);
    return value;
}

static unsigned digit(char c, unsigned base)
{
    unsigned value = base;
    if ('0' <= c && c <= '9')
        value = (unsigned)(c - '0');
    else if ('a' <= c && c <= 'f')
        value = (unsigned)(c - 'a') + 10;
    if (value >= base)
        fail("'%c' is not a digit", c);
    return value;
}

size_t require_number(struct text line, const char *name)
{
    struct text value = require_field(line, name);
    uint64_t number = 0;
    if (value.length == 0)
        fail("%s is empty", name);
    for (size_t i = 0; i < value.length; i++) {
        unsigned next = digit(value.start[i], 10);
        if (number > (UINT64_MAX - next) / 10)
            fail("%s has more than 64 bits", name);
        number = 10 * number + next;
    }
    return number;
}

size_t number_or(struct text line, const char *name, size_t otherwise)
{
    struct text value;
    return find(line, name, &value) ? require_number(line, name) : otherwise;
}

bool require_choice(struct text line, const char *name, const char *no, const char *yes)
{
    struct text value = require_field(line, name);
    if (!is(value, no) && !is(value, yes))
        fail("%s is neither %s nor %s", name, no, yes);
    return is(value, yes);
}

static uint64_t hexadecimal(const char *digits, size_t count)
{
    uint64_t value = 0;
    for (size_t i = 0; i < count; i++)
        value = value << 4 | digit(digits[i], 16);
    return value;
}

void require_words(struct text line, const char *name, uint64_t *words, size_t count)
{
    struct text value = require_field(line, name);
    for (size_t i = 0; i < count; i++) {
        struct text word = cut(&value, ',');
        if (word.length != WORD_DIGITS)
            fail("%s: word %zu of %zu has %zu digits", name, i, count, word.length);
        words[i] = hexadecimal(word.start, word.length);
    }
    if (value.length != 0)
        fail("%s has more than %zu words", name, count);
}

uint64_t require_word(struct text line, const char *name)
{
    uint64_t word;
    require_words(line, name, &word, 1);
    return word;
}

uint8_t *require_bytes(struct text line, const char *name, size_t *length)
{
    char zeros[32];
    struct text value;
    snprintf(zeros, sizeof zeros, "%s_zeros", name);
    if (find(line, zeros, &value)) {
        *length = require_number(line, zeros);
        return allocate(*length);
    }
    value = require_field(line, name);
    if (value.length % 2 != 0)
        fail("%s has half a byte", name);
    *length = value.length / 2;
    uint8_t *bytes = allocate(*length);
    for (size_t i = 0; i < *length; i++)
        bytes[i] = (uint8_t)hexadecimal(value.start + 2 * i, 2);
    return bytes;
}

uint64_t checksum_of_zeros(size_t bytes)
{
    uint64_t sum = UINT64_C(0xcbf29ce484222325);
    while (bytes-- > 0)
        sum *= UINT64_C(0x100000001b3);
    return sum;
}
