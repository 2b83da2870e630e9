/*
 * What the calls with a book of accounts have to answer, by a model of their rules: it takes a whole book apart into a
 * list of accounts, and puts a changed one together anew.
 */
#ifndef BOOK_MODEL_H
#define BOOK_MODEL_H

#include "lent.h"
#include "lyra2.h"

struct account {
    uint32_t number;
    size_t time, rows, columns;
    struct bytes salt, key;
};

/* Bytes that are lent as a book, and how many of them are said to be used. */
struct book {
    struct bytes lent;
    size_t used;
};

/* What a check answers. */
struct checked {
    uint32_t same;
    uint64_t counts[LYRA2_COUNTS];
};

/* The bytes of accounts one after the other, each within its limits or not; how many there are. */
size_t encode(uint8_t *to, const struct account *accounts, size_t count);

/* The size of an account in bytes. */
size_t size_of(const struct account *account);

/* The account at a place of the used part and its size; all zeros and 0 where there is none. */
size_t model_account(struct bytes part, size_t place, struct account *account);

/* The account of a number and its place; the answer, and zeros after a refusal. */
uint32_t model_find(struct book book, uint32_t number, struct account *account, size_t *place);

/* The lent bytes and the used length after an account is added, or removed; after a refusal the bytes as they were and
 * 0. */
uint32_t model_add(struct book book, const struct account *account, uint8_t *after, size_t *used_after);
uint32_t model_remove(struct book book, uint32_t number, uint8_t *after, size_t *used_after);

/* What the check of a stored key answers for the account of a number. */
uint32_t model_check(struct bytes password, struct book book, uint32_t number, size_t matrix_words,
                     struct checked *checked);

#endif
