/* What the parts of the faulty library share. FAULT chooses the fault; 0 is none. */
#ifndef FAULTY_H
#define FAULTY_H

#include <stdbool.h>
#include <stddef.h>
#include <stdint.h>

/* Whether the library has this fault, where the condition of the fault holds. */
static inline bool has(int fault, bool condition)
{
    return FAULT == fault && condition;
}

/* The settings that a call is given, and whether its matrix is long enough. */
struct given {
    size_t rounds, rotation;
    bool mixer, matrix_fits;
};

/* The first fault in the settings of each operation, and of all operations at once. */
enum { OF_DERIVE = 200, OF_RECORDED = 240, OF_CHECK = 280, OF_COST = 320, OF_ALL = 360 };

/* Changes the settings before they reach the library. */
void spoil_settings(int first, size_t *rounds, size_t *rotation, bool *mixer);

/* The number in the place of the library's, which was given spoilt settings; changes the counts of an accepted call. */
uint32_t spoil_answer(int first, struct given given, uint32_t answer, uint64_t *counts);

/* The words of the lent record that the library is told of. */
size_t spoil_room(size_t time, size_t rows, size_t columns, size_t record_words);

/* Changes the record of an accepted call. */
void spoil_record(size_t time, size_t rows, size_t columns, uint64_t *record, size_t record_words);

/* What a choice of costs is made from, as its call is given it. */
struct choice_asked {
    size_t key, password, salt, matrix;
    uint64_t budget;
    size_t rounds, tries;
};

/* The cells that matrix and budget leave, and the fewest with which the choice is accepted. */
size_t cell_limit(const struct choice_asked *n);
size_t least_cells(void);

/* The values of an accepted choice, in their order. */
void choose_anew(const struct choice_asked *n, size_t *values);

/* An account of a book; the salt stands behind its head, and the key behind the salt. */
struct account_read {
    size_t number, time, rows, columns, salt, key, size;
};

/* The account at a place of the used part; false, and zeros, where there is none. */
bool read_account(const uint8_t *book, size_t used, size_t place, struct account_read *account);
void write_account(uint8_t *to, const struct account_read *account, const uint8_t *salt, const uint8_t *key);

/* The used length as the library takes it, and whether the book is good. */
size_t take_used(size_t book_len, size_t used);
bool is_good(const uint8_t *book, size_t book_len, size_t used);

/* The account of a number and its place; false if there is none. */
bool look_up(const uint8_t *book, size_t used, uint32_t number, struct account_read *account, size_t *place);

/* The account of a number and its place, or why there is none. A call may have left the judgement of the book out, or may
 * look for the account before it. */
uint32_t judge(const uint8_t *book, size_t book_len, size_t used, uint32_t number, bool unjudged, bool missing_first,
               struct account_read *account, size_t *place);

/* The first of the checks of an account that is added. */
uint32_t refuse_account(const struct account_read *account);

struct lane_sizes;
struct lane_end;

/* The first fault in the refusals of each operation with several lanes. */
enum { CHECKS_OF_DERIVE = 1100, CHECKS_OF_CHECK = 1160, CHECKS_OF_COST = 1220 };

/* The answer in the place of the library's. */
uint32_t judge_lanes(int first, const struct lane_sizes *n, bool has_matrix);

/* An accepted derivation with several lanes in the place of the library's; false if nothing is wrong in its key. */
bool derive_wrongly(const struct lane_sizes *n, const uint8_t *password, const uint8_t *salt, uint8_t *key,
                    uint64_t *matrix);

/* What an accepted derivation makes on its way; the matrix is to be freed. */
void derive_beside(const struct lane_sizes *n, const uint8_t *password, const uint8_t *salt, struct lane_end *end);

/* Leaves up to eight bytes on the stack, where no word starts, as a function does that does not wipe its own place. */
void leave(const uint8_t *bytes, size_t count);

#endif
