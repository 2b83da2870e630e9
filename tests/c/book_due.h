/* Calls with a book of accounts between guards, held to the answers of the model. */
#ifndef BOOK_DUE_H
#define BOOK_DUE_H

#include "book_model.h"

/* Whatever the model answers. */
#define BY_THE_MODEL UINT32_MAX

/*
 * Each asks, and ends the program unless all of the answer, and the book after a change, are the model's; the answer's
 * number has to be `due` as well. `what` says what the call shows.
 */
void require_found(const char *what, struct book book, uint32_t number, uint32_t due);
void require_added(const char *what, struct book book, const struct account *account, uint32_t due);
void require_removed(const char *what, struct book book, uint32_t number, uint32_t due);
void require_checked(const char *what, struct bytes password, struct book book, uint32_t number, size_t matrix_words,
                     uint32_t due);
void require_account(const char *what, struct bytes part, size_t place);

/* Requires the same answer of the four calls that judge the whole book; the check has a matrix of so many words. */
void require_all(const char *what, struct book book, const struct account *account, size_t matrix_words, uint32_t due);

/* Ends the program unless a value is the one that is due. */
void require_value(const char *call, const char *what, const char *name, uint64_t value, uint64_t due);

#endif
