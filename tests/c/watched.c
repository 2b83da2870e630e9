/* Memory for calls under valgrind's memcheck. */
#include "watched.h"

#include "lent.h"

#include <stdlib.h>
#include <string.h>
#include <valgrind/memcheck.h>

void *unwritten(size_t bytes)
{
    void *memory = malloc(bytes);
    if (memory == NULL)
        fail("no memory for %zu bytes", bytes);
    return memory;
}

uint8_t *written(size_t bytes, uint8_t first)
{
    uint8_t *memory = unwritten(bytes);
    for (size_t i = 0; i < bytes; i++)
        memory[i] = (uint8_t)(first + 7 * i);
    return memory;
}

int is_unwritten(const void *memory, size_t bytes)
{
    uint8_t bits[256], none[256];
    memset(none, 0xff, sizeof none);
    for (size_t i = 0; i < bytes; i += sizeof bits) {
        size_t piece = bytes - i < sizeof bits ? bytes - i : sizeof bits;
        if (VALGRIND_GET_VBITS((const uint8_t *)memory + i, bits, piece) != 1 || memcmp(bits, none, piece) != 0)
            return 0;
    }
    return 1;
}

void require_written(const char *name, const void *memory, size_t used, size_t lent)
{
    if (VALGRIND_CHECK_MEM_IS_DEFINED(memory, used) != 0)
        fail("%s: depends on what the memory held", name);
    if (!is_unwritten((const uint8_t *)memory + used, lent - used))
        fail("%s: written past its used part", name);
}

void require_zeros_in(const char *name, const void *memory, size_t bytes)
{
    for (size_t i = 0; i < bytes; i++)
        if (((const uint8_t *)memory)[i] != 0)
            fail("%s: byte %zu is not zero", name, i);
}

void require_zero_field(const char *name, void *field, size_t bytes)
{
    require_written(name, field, bytes, bytes);
    require_zeros_in(name, field, bytes);
    (void)VALGRIND_MAKE_MEM_UNDEFINED(field, bytes);
}
