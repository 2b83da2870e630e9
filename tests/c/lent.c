/* Memory lent to a call between two guards. */
#include "lent.h"

#include <stdarg.h>
#include <stdbool.h>
#include <stdio.h>
#include <stdlib.h>
#include <string.h>

#define GUARD_WORDS 32
#define WORD_BYTES sizeof(uint64_t)

size_t case_number;

void fail(const char *format, ...)
{
    va_list values;
    va_start(values, format);
    fputs("FAILED: ", stderr);
    if (case_number != 0)
        fprintf(stderr, "case %zu: ", case_number);
    vfprintf(stderr, format, values);
    fputc('\n', stderr);
    va_end(values);
    exit(EXIT_FAILURE);
}

void *allocate(size_t bytes)
{
    void *memory = calloc(bytes + 1, 1);
    if (memory == NULL)
        fail("no memory for %zu bytes", bytes);
    return memory;
}

/* No two words of the pattern are alike, and none is a small number that a call might write. */
static uint64_t pattern(size_t word)
{
    uint64_t x = (word + 1) * UINT64_C(0x9e3779b97f4a7c15);
    return x ^ (x >> 29) ^ UINT64_C(0xa5a5a5a5a5a5a5a5);
}

void lend(struct lent *lent, size_t bytes, size_t alignment, const uint8_t *contents)
{
    static size_t turn;
    size_t shift = turn++ * alignment % 16;
    lent->whole_words = 2 * GUARD_WORDS + (shift + bytes) / WORD_BYTES + 1;
    lent->whole = allocate(lent->whole_words * WORD_BYTES);
    lent->start = GUARD_WORDS * WORD_BYTES + shift;
    lent->bytes = bytes;
    lent->contents = contents;
    for (size_t i = 0; i < lent->whole_words; i++)
        lent->whole[i] = pattern(i);
    if (contents != NULL)
        memcpy(lent_part(lent), contents, bytes);
}

void *lent_part(const struct lent *lent)
{
    return (uint8_t *)lent->whole + lent->start;
}

/* Whether a word's bytes are as they were, but for those between two places of the whole. */
static bool is_word_kept(const struct lent *lent, size_t word, size_t from, size_t to)
{
    uint64_t due = pattern(word);
    if (lent->whole[word] == due)
        return true;
    for (size_t i = 0; i < WORD_BYTES; i++) {
        size_t place = word * WORD_BYTES + i;
        bool inside = from <= place && place < to;
        if (!inside && ((uint8_t *)lent->whole)[place] != ((uint8_t *)&due)[i])
            return false;
    }
    return true;
}

void require_kept(const struct lent *lent, size_t used, const char *name)
{
    size_t from = lent->start;
    size_t to = from + (lent->contents == NULL ? used : lent->bytes);
    for (size_t word = 0; word < lent->whole_words; word++) {
        if (word * WORD_BYTES >= from && (word + 1) * WORD_BYTES <= to)
            continue;
        if (!is_word_kept(lent, word, from, to))
            fail("%s: changed about byte %td, of which %zu are lent and %zu used", name,
                 (ptrdiff_t)(word * WORD_BYTES) - (ptrdiff_t)from, lent->bytes, used);
    }
    if (lent->contents != NULL && memcmp(lent_part(lent), lent->contents, lent->bytes) != 0)
        fail("%s: its contents were changed", name);
}

void require_zeros(const struct lent *lent, size_t used, const char *name)
{
    const uint8_t *part = lent_part(lent);
    for (size_t i = 0; i < used; i++)
        if (part[i] != 0)
            fail("%s: byte %zu is %02x, where 0 is due", name, i, part[i]);
}

void require_no_zero(const struct lent *lent, size_t used, const char *name)
{
    const uint64_t *words = lent_part(lent);
    for (size_t i = 0; i < used / WORD_BYTES; i++)
        if (words[i] == 0)
            fail("%s: word %zu is 0", name, i);
}

void take_back(struct lent *lent)
{
    free(lent->whole);
    lent->whole = NULL;
}
