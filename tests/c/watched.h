/* Memory for calls under valgrind's memcheck: of exactly the length that is lent, and looked at through memcheck's eyes. */
#ifndef WATCHED_H
#define WATCHED_H

#include <stddef.h>
#include <stdint.h>

/* Memory of exactly this length, never written; no bytes have an address too, at which none may be touched. */
void *unwritten(size_t bytes);

/* The same with contents that start with this byte. */
uint8_t *written(size_t bytes, uint8_t first);

/* Whether memcheck holds every bit for never written, or for made from one that was not. */
int is_unwritten(const void *memory, size_t bytes);

/* The used part was written from what was written, and past it nothing was. */
void require_written(const char *name, const void *memory, size_t used, size_t lent);

/* Ends the program unless these bytes are zero. */
void require_zeros_in(const char *name, const void *memory, size_t bytes);

/* A field of a refused call's answer: zeros, whatever it held. It is marked as never written for the next call. */
void require_zero_field(const char *name, void *field, size_t bytes);

#endif
