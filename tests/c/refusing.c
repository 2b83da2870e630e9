/*
 * Stand-ins for madvise and mlock that refuse, and say on standard error what they were asked: the advice, how far the
 * memory starts past a boundary of 2 MiB, and its bytes.
 */
#define _DEFAULT_SOURCE

#include <stdint.h>
#include <stdio.h>
#include <sys/mman.h>

static int refuse(const char *request, const void *start, size_t bytes)
{
    fprintf(stderr, "%s %zu %zu\n", request, (size_t)((uintptr_t)start % (2 << 20)), bytes);
    return -1;
}

int madvise(void *start, size_t bytes, int advice)
{
    return refuse(advice == MADV_HUGEPAGE ? "large" : advice == MADV_DONTDUMP ? "undumped" : "other", start, bytes);
}

int mlock(const void *start, size_t bytes)
{
    return refuse("lock", start, bytes);
}
