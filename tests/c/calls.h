/* A call of the library in which everything that is lent lies between guards, which are looked at afterwards. */
#ifndef CALLS_H
#define CALLS_H

#include "lent.h"
#include "lyra2.h"

#include <stdbool.h>

enum operation { RECORDED, PLAIN, CHECK, COST, OPERATIONS };

/* The numbers of a call, and the mixer. Matrix and record are in words, the lengths in bytes. */
struct sizes {
    size_t key, password, salt, time, rows, columns, rounds, rotation;
    bool mixer;
    size_t matrix, record;
};

enum { MIXERS = 2 };
extern const bool mixers[MIXERS];

/* Sizes that every operation accepts, with the usual settings and a matrix and a record that fit exactly. */
extern const struct sizes accepted_sizes;

/* What a call reads. A null stands for the pattern of lent memory. */
struct contents {
    const uint8_t *password, *salt, *stored;
};

struct call {
    enum operation operation;
    struct sizes sizes;
    struct lent password, salt, key, matrix, record, state, counts, same;
    uint32_t answer;
};

extern const char *const operation_names[OPERATIONS];

/* The checks of each operation in their order; LYRA2_ACCEPTED ends the list. The recorded derivation has them all. */
enum { MOST_CHECKS = 11 };
extern const uint32_t checks_of[OPERATIONS][MOST_CHECKS + 1];
bool has_check(enum operation operation, uint32_t check);

/* Lends what the operation takes, calls it, and requires that nothing changed but what the answer allows, that the used
 * matrix of an accepted plain derivation or check is zero, that the used record of an accepted recorded one holds visits,
 * and that the state, the counts and `same` of a refused call are zero. */
void make_call(struct call *call, enum operation operation, struct sizes sizes, struct contents contents);

/* Gives back what was lent. */
void end_call(struct call *call);

/* A field of the answer: an operation that has it writes it in every case, and with zeros where the call is refused. */
void require_answer_field(const struct lent *field, bool has, uint32_t answer, const char *name);

/* The words that an accepted call uses. */
size_t used_matrix(const struct sizes *sizes);
size_t used_record(const struct sizes *sizes);

/* The sizes with a matrix and a record that fit exactly. */
struct sizes fitting(struct sizes sizes);

/* The walk question; `row1` gets the answer, or 0 where it is refused. */
uint32_t ask_walk(size_t rows, size_t row0, size_t *row1);

/* How many calls were made. */
extern size_t calls_made;

#endif
