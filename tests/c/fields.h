/* The fields of a line of the vectors file, found by their names as vectors/README.md describes them. */
#ifndef FIELDS_H
#define FIELDS_H

#include <stdbool.h>
#include <stddef.h>
#include <stdint.h>

/* A line, or a field's value: the text up to, but without, its end. */
struct text {
    const char *start;
    size_t length;
};

/* The value of a field; false if the line has no such field. A field that stands twice ends the program. */
bool find(struct text line, const char *name, struct text *value);

/* The value of a field that the line must have. What they cannot read ends the program. */
struct text require_field(struct text line, const char *name);
size_t require_number(struct text line, const char *name);
size_t number_or(struct text line, const char *name, size_t otherwise); /* or this, if the line has no such field */
bool require_choice(struct text line, const char *name, const char *no, const char *yes); /* one of the two words */
uint64_t require_word(struct text line, const char *name);

/* As many words as are asked for, with commas between them. */
void require_words(struct text line, const char *name, uint64_t *words, size_t count);

/* Bytes, as `name` or as a number of zeros in `name_zeros`; to be freed. */
uint8_t *require_bytes(struct text line, const char *name, size_t *length);

/* Whether a value is this word. */
bool is(struct text value, const char *word);

/* FNV-1a over so many zero bytes, which an accepted call leaves in the used matrix. */
uint64_t checksum_of_zeros(size_t bytes);

#endif
