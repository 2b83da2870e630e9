/* Calls with a book of accounts, in which everything that is lent lies between guards. */
#ifndef BOOK_CALLS_H
#define BOOK_CALLS_H

#include "book_model.h"
#include "lent.h"
#include "lyra2.h"

/*
 * Each asks, and requires that nothing changed but what the answer allows, and that the fields of a refused call's
 * answer are zero. An accepted check leaves zeros in the matrix that its account uses. `after` gets the lent bytes of the
 * book.
 */
uint32_t ask_find(struct book book, uint32_t number, size_t *place);
uint32_t ask_add(struct book book, const struct account *account, uint8_t *after, size_t *used_after);
uint32_t ask_remove(struct book book, uint32_t number, uint8_t *after, size_t *used_after);
uint32_t ask_book_check(struct bytes password, struct book book, uint32_t number, size_t matrix_words,
                        struct checked *checked);

/* The same for the account at a place of the used part; its size is returned. */
size_t ask_account(struct bytes part, size_t place, size_t values[LYRA2_ACCOUNT_VALUES]);

#endif
