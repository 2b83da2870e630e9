/* The choice of costs asked with its values between guards, which are looked at afterwards. */
#ifndef CHOICE_CALLS_H
#define CHOICE_CALLS_H

#include "lent.h"
#include "lyra2.h"

/* What the choice is made from: lengths in bytes, a matrix in words, the rounds that may be spent, those of a reduced
 * call, and how many column counts may be tried. */
struct choice_sizes {
    size_t key, password, salt, matrix;
    uint64_t budget;
    size_t rounds, tries;
};

struct choice {
    uint32_t answer;
    size_t time, rows, columns, shortfall;
};

/* Asks, and requires that nothing changed but the values, that an accepted call wrote each of them, and that those of a
 * refused one are zero. */
struct choice ask_choice(const struct choice_sizes *n);

/* The answer of a refused call. */
struct choice refused_choice(uint32_t refusal);

/* Asks, and ends the program unless the choice is the one that is due; `what` says what the sizes show. */
void require_chosen(const char *what, const struct choice_sizes *n, struct choice due);

#endif
