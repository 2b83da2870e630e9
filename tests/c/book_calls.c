/* Calls with a book of accounts between guards. */
#include "book_calls.h"

#include "calls.h"

#include <string.h>

/* A field of the answer is written in every case, and with zeros where the call is refused. */
static void take_field(struct lent *field, uint32_t answer, void *value, const char *name)
{
    require_kept(field, field->bytes, name);
    if (answer != LYRA2_ACCEPTED)
        require_zeros(field, field->bytes, name);
    memcpy(value, lent_part(field), field->bytes);
    take_back(field);
}

static void take_read(struct lent *lent, const char *name)
{
    require_kept(lent, 0, name);
    take_back(lent);
}

/* A book that a call may change is as it was after a refusal. */
static void take_book(struct lent *lent, uint32_t answer, uint8_t *after)
{
    if (answer == LYRA2_ACCEPTED)
        lent->contents = NULL;
    require_kept(lent, lent->bytes, "book");
    memcpy(after, lent_part(lent), lent->bytes);
    take_back(lent);
}

uint32_t ask_find(struct book book, uint32_t number, size_t *place)
{
    struct lent bytes, field;
    lend(&bytes, book.lent.length, 1, book.lent.start);
    lend(&field, sizeof *place, sizeof *place, NULL);
    uint32_t answer = lyra2_book_find(lent_part(&bytes), book.lent.length, book.used, number, lent_part(&field));
    calls_made++;
    take_read(&bytes, "book");
    take_field(&field, answer, place, "place");
    return answer;
}

uint32_t ask_add(struct book book, const struct account *account, uint8_t *after, size_t *used_after)
{
    struct lent bytes, salt, key, field;
    lend(&bytes, book.lent.length, 1, book.lent.start);
    lend(&salt, account->salt.length, 1, account->salt.start);
    lend(&key, account->key.length, 1, account->key.start);
    lend(&field, sizeof *used_after, sizeof *used_after, NULL);
    uint32_t answer = lyra2_book_add(lent_part(&bytes), book.lent.length, book.used, account->number, account->time,
                                     account->rows, account->columns, lent_part(&salt), account->salt.length,
                                     lent_part(&key), account->key.length, lent_part(&field));
    calls_made++;
    take_book(&bytes, answer, after);
    take_read(&salt, "salt");
    take_read(&key, "key");
    take_field(&field, answer, used_after, "used_after");
    return answer;
}

uint32_t ask_remove(struct book book, uint32_t number, uint8_t *after, size_t *used_after)
{
    struct lent bytes, field;
    lend(&bytes, book.lent.length, 1, book.lent.start);
    lend(&field, sizeof *used_after, sizeof *used_after, NULL);
    uint32_t answer = lyra2_book_remove(lent_part(&bytes), book.lent.length, book.used, number, lent_part(&field));
    calls_made++;
    take_book(&bytes, answer, after);
    take_field(&field, answer, used_after, "used_after");
    return answer;
}

/* The bytes of the matrix that an accepted check uses. */
static size_t used_bytes(struct book book, uint32_t number, uint32_t answer)
{
    struct account account;
    size_t place;
    if (answer != LYRA2_ACCEPTED || model_find(book, number, &account, &place) != LYRA2_ACCEPTED)
        return 0;
    return 8 * LYRA2_MATRIX_WORDS(account.rows, account.columns);
}

uint32_t ask_book_check(struct bytes password, struct book book, uint32_t number, size_t matrix_words,
                        struct checked *checked)
{
    struct lent bytes, secret, matrix, same, counts;
    lend(&secret, password.length, 1, password.start);
    lend(&bytes, book.lent.length, 1, book.lent.start);
    lend(&matrix, 8 * matrix_words, 8, NULL);
    lend(&same, sizeof checked->same, sizeof checked->same, NULL);
    lend(&counts, sizeof checked->counts, sizeof *checked->counts, NULL);
    uint32_t answer = lyra2_book_check(lent_part(&secret), password.length, lent_part(&bytes), book.lent.length,
                                       book.used, number, lent_part(&matrix), matrix_words, lent_part(&same),
                                       lent_part(&counts));
    calls_made++;
    size_t used = used_bytes(book, number, answer);
    take_read(&secret, "password");
    take_read(&bytes, "book");
    require_kept(&matrix, used, "matrix");
    require_zeros(&matrix, used, "matrix");
    take_back(&matrix);
    take_field(&same, answer, &checked->same, "same");
    take_field(&counts, answer, checked->counts, "counts");
    return answer;
}

size_t ask_account(struct bytes part, size_t place, size_t values[LYRA2_ACCOUNT_VALUES])
{
    struct lent bytes, field;
    lend(&bytes, part.length, 1, part.start);
    lend(&field, LYRA2_ACCOUNT_VALUES * sizeof *values, sizeof *values, NULL);
    size_t size = lyra2_book_account(lent_part(&bytes), part.length, place, lent_part(&field));
    calls_made++;
    take_read(&bytes, "book");
    take_field(&field, size == 0 ? LYRA2_REFUSED_NO_ACCOUNT : LYRA2_ACCEPTED, values, "values");
    return size;
}
