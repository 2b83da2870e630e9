/* A stack that is marked before a function runs on it, so that what the function wrote there is seen afterwards. */
#ifndef MARKED_H
#define MARKED_H

#include <stddef.h>
#include <stdint.h>

enum { MARKED_WORDS = 1 << 13, MARKED_BYTES = 8 * MARKED_WORDS };

extern uint64_t marked_stack[MARKED_WORDS];

/* Runs the function on the marked stack and tells the bytes from the deepest one that was written up to the stack's
 * end, its caller's own included. Every run starts with the same registers, so that two differ by what they read alone. */
size_t run_marked(void (*function)(void));

#endif
