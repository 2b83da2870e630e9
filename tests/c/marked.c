/* A stack that is marked before a function runs on it. */
#define _XOPEN_SOURCE 700
#include "marked.h"

#include "lent.h"

#include <stdbool.h>
#include <ucontext.h>

enum { MARK = 0xa5 };

uint64_t marked_stack[MARKED_WORDS];
static ucontext_t here, there;

/* The registers are taken once. */
static void prepare(void)
{
    static bool prepared;
    if (prepared)
        return;
    if (getcontext(&there) != 0)
        fail("no context");
    there.uc_stack.ss_sp = marked_stack;
    there.uc_stack.ss_size = sizeof marked_stack;
    there.uc_link = &here;
    prepared = true;
}

size_t run_marked(void (*function)(void))
{
    volatile uint8_t *bytes = (volatile uint8_t *)marked_stack; /* others write there */
    size_t unused = 0;
    prepare();
    for (size_t i = 0; i < MARKED_BYTES; i++)
        bytes[i] = MARK;
    makecontext(&there, function, 0);
    if (swapcontext(&here, &there) != 0)
        fail("no context");
    while (unused < MARKED_BYTES && bytes[unused] == MARK)
        unused++;
    return MARKED_BYTES - unused;
}
