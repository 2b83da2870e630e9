/* Calls with a book of accounts between guards, held to the answers of the model. */
#include "book_due.h"

#include "book_calls.h"

#include <inttypes.h>
#include <stdlib.h>
#include <string.h>

void require_value(const char *call, const char *what, const char *name, uint64_t value, uint64_t due)
{
    if (value != due)
        fail("%s, %s: %s is %" PRIu64 ", where %" PRIu64 " is due", call, what, name, value, due);
}

/* The answer that the model gives is the one that the test expects. */
static void require_answer(const char *call, const char *what, uint32_t answer, uint32_t model, uint32_t due)
{
    if (due != BY_THE_MODEL && model != due)
        fail("%s, %s: the model answers %u, where the test expects %u", call, what, model, due);
    require_value(call, what, "the answer", answer, model);
}

static void require_bytes_after(const char *call, const char *what, const uint8_t *after, const uint8_t *due,
                                size_t length)
{
    for (size_t i = 0; i < length; i++)
        if (after[i] != due[i])
            fail("%s, %s: byte %zu of the book is %02x, where %02x is due", call, what, i, after[i], due[i]);
}

void require_found(const char *what, struct book book, uint32_t number, uint32_t due)
{
    struct account account;
    size_t place, due_place;
    uint32_t model = model_find(book, number, &account, &due_place);
    require_answer("find", what, ask_find(book, number, &place), model, due);
    require_value("find", what, "the place", place, due_place);
}

void require_added(const char *what, struct book book, const struct account *account, uint32_t due)
{
    uint8_t *after = allocate(book.lent.length), *due_after = allocate(book.lent.length);
    size_t used, due_used;
    uint32_t model = model_add(book, account, due_after, &due_used);
    require_answer("add", what, ask_add(book, account, after, &used), model, due);
    require_value("add", what, "the used length", used, due_used);
    require_bytes_after("add", what, after, due_after, book.lent.length);
    free(after);
    free(due_after);
}

void require_removed(const char *what, struct book book, uint32_t number, uint32_t due)
{
    uint8_t *after = allocate(book.lent.length), *due_after = allocate(book.lent.length);
    size_t used, due_used;
    uint32_t model = model_remove(book, number, due_after, &due_used);
    require_answer("remove", what, ask_remove(book, number, after, &used), model, due);
    require_value("remove", what, "the used length", used, due_used);
    require_bytes_after("remove", what, after, due_after, book.lent.length);
    free(after);
    free(due_after);
}

void require_checked(const char *what, struct bytes password, struct book book, uint32_t number, size_t matrix_words,
                     uint32_t due)
{
    static const char *const names[LYRA2_COUNTS] = {"the full calls", "the reduced calls", "the rounds"};
    struct checked checked, due_checked;
    uint32_t model = model_check(password, book, number, matrix_words, &due_checked);
    require_answer("check", what, ask_book_check(password, book, number, matrix_words, &checked), model, due);
    require_value("check", what, "same", checked.same, due_checked.same);
    for (size_t i = 0; i < LYRA2_COUNTS; i++)
        require_value("check", what, names[i], checked.counts[i], due_checked.counts[i]);
}

void require_account(const char *what, struct bytes part, size_t place)
{
    struct account due;
    size_t values[LYRA2_ACCOUNT_VALUES], due_size = model_account(part, place, &due);
    require_value("account", what, "the size", ask_account(part, place, values), due_size);
    require_value("account", what, "the number", values[LYRA2_ACCOUNT_NUMBER], due.number);
    require_value("account", what, "T", values[LYRA2_ACCOUNT_TIME], due.time);
    require_value("account", what, "R", values[LYRA2_ACCOUNT_ROWS], due.rows);
    require_value("account", what, "C", values[LYRA2_ACCOUNT_COLUMNS], due.columns);
    require_value("account", what, "the salt's length", values[LYRA2_ACCOUNT_SALT_LEN], due.salt.length);
    require_value("account", what, "the key's length", values[LYRA2_ACCOUNT_KEY_LEN], due.key.length);
}

void require_all(const char *what, struct book book, const struct account *account, size_t matrix_words, uint32_t due)
{
    const struct bytes password = {account->key.start, account->key.length};
    require_found(what, book, account->number, due);
    require_checked(what, password, book, account->number, matrix_words, due);
    require_removed(what, book, account->number, due);
    require_added(what, book, account, due);
}
