/* Memory lent to a call between two guards, so that every byte that the call changes is seen. */
#ifndef LENT_H
#define LENT_H

#include <stddef.h>
#include <stdint.h>

struct lent {
    uint64_t *whole;         /* guard, lent part, guard */
    size_t whole_words;
    size_t start;            /* the byte of the whole at which the lent part starts */
    size_t bytes;            /* of the lent part */
    const uint8_t *contents; /* what the lent part holds beforehand; null stands for the pattern */
};

/* Bytes to read; a null stands for the pattern of lent memory. */
struct bytes {
    const uint8_t *start;
    size_t length;
};

/* Lends so many bytes at an address that `alignment`, 1 to 8, divides and often no higher power of two. */
void lend(struct lent *lent, size_t bytes, size_t alignment, const uint8_t *contents);

/* The lent part. */
void *lent_part(const struct lent *lent);

/* Ends the program unless all but the first `used` bytes of the lent part is as it was, guards included. What was lent
 * with contents is for reading, and has to be as it was altogether. */
void require_kept(const struct lent *lent, size_t used, const char *name);

/* Ends the program unless the first `used` bytes of the lent part are 0. */
void require_zeros(const struct lent *lent, size_t used, const char *name);

/* Ends the program if a word among the first `used` bytes of the lent part, which holds words, is 0. */
void require_no_zero(const struct lent *lent, size_t used, const char *name);

void take_back(struct lent *lent);

/* Allocates zeroed memory or ends the program. */
void *allocate(size_t bytes);

/* The case that the program is at, for fail to name; 0 is none. */
extern size_t case_number;

/* Says what is wrong, as printf does, and ends the program. */
void fail(const char *format, ...);

#endif
