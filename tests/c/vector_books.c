/* The lines of the vectors file that are about books of accounts, each put to the library between guards. */
#include "vector_books.h"

#include "book_calls.h"

#include <inttypes.h>
#include <stdio.h>
#include <stdlib.h>
#include <string.h>

/* Bytes of a field; their start is to be freed. */
static struct bytes require_run(struct text line, const char *name)
{
    struct bytes bytes;
    bytes.start = require_bytes(line, name, &bytes.length);
    return bytes;
}

static void free_run(struct bytes bytes)
{
    free((uint8_t *)bytes.start);
}

static struct book require_book(struct text line)
{
    return (struct book){require_run(line, "book"), require_number(line, "used")};
}

static uint32_t require_account_number(struct text line)
{
    size_t number = require_number(line, "number");
    if (number > UINT32_MAX)
        fail("an account has the number %zu", number);
    return (uint32_t)number;
}

/* The answer is the line's; whether the call was accepted. */
static bool require_refusal(struct text line, const char *call, uint32_t answer)
{
    size_t due = require_number(line, "refusal");
    if (answer != due)
        fail("%s: %zu is due, %u was answered", call, due, answer);
    return due == LYRA2_ACCEPTED;
}

static void require_same_number(struct text line, const char *name, uint64_t value)
{
    if (value != require_number(line, name))
        fail("%s is %" PRIu64, name, value);
}

static void run_find(struct text line)
{
    struct book book = require_book(line);
    size_t place;
    if (require_refusal(line, "book_find", ask_find(book, require_account_number(line), &place)))
        require_same_number(line, "place", place);
    free_run(book.lent);
}

/* The used length and all bytes of the book after a change. */
static void require_changed(struct text line, const uint8_t *after, size_t length, size_t used_after)
{
    struct bytes due = require_run(line, "book_after");
    require_same_number(line, "used_after", used_after);
    if (due.length != length || memcmp(due.start, after, length) != 0)
        fail("another book_after is due");
    free_run(due);
}

static void run_add(struct text line)
{
    struct book book = require_book(line);
    struct account account = {
        .number = require_account_number(line),
        .time = require_number(line, "T"),
        .rows = require_number(line, "R"),
        .columns = require_number(line, "C"),
        .salt = require_run(line, "salt"),
        .key = require_run(line, "key"),
    };
    uint8_t *after = allocate(book.lent.length);
    size_t used_after;
    if (require_refusal(line, "book_add", ask_add(book, &account, after, &used_after)))
        require_changed(line, after, book.lent.length, used_after);
    free(after);
    free_run(account.salt);
    free_run(account.key);
    free_run(book.lent);
}

static void run_remove(struct text line)
{
    struct book book = require_book(line);
    uint8_t *after = allocate(book.lent.length);
    size_t used_after;
    if (require_refusal(line, "book_remove", ask_remove(book, require_account_number(line), after, &used_after)))
        require_changed(line, after, book.lent.length, used_after);
    free(after);
    free_run(book.lent);
}

static void require_checked(struct text line, struct book book, const struct checked *checked)
{
    static const char *const names[LYRA2_COUNTS] = {"full", "reduced", "rounds"};
    struct account account;
    size_t place;
    if (checked->same != require_choice(line, "answer", "no", "yes"))
        fail("book_check: same is %u", checked->same);
    for (size_t i = 0; i < LYRA2_COUNTS; i++)
        require_same_number(line, names[i], checked->counts[i]);
    if (model_find(book, require_account_number(line), &account, &place) != LYRA2_ACCEPTED
        || require_word(line, "matrix_sum")
            != checksum_of_zeros(8 * LYRA2_MATRIX_WORDS(account.rows, account.columns)))
        fail("book_check: another matrix_sum is due");
}

static void run_check(struct text line)
{
    struct book book = require_book(line);
    struct bytes password = require_run(line, "password");
    struct checked checked;
    uint32_t answer = ask_book_check(password, book, require_account_number(line),
                                     require_number(line, "matrix_words"), &checked);
    if (require_refusal(line, "book_check", answer))
        require_checked(line, book, &checked);
    free_run(password);
    free_run(book.lent);
}

static void run_account(struct text line)
{
    static const char *const names[] = {
        [LYRA2_ACCOUNT_NUMBER] = "number", [LYRA2_ACCOUNT_TIME] = "T",
        [LYRA2_ACCOUNT_ROWS] = "R",        [LYRA2_ACCOUNT_COLUMNS] = "C",
        [LYRA2_ACCOUNT_SALT_LEN] = "salt_len", [LYRA2_ACCOUNT_KEY_LEN] = "key_len",
    };
    struct bytes part = require_run(line, "book");
    size_t values[LYRA2_ACCOUNT_VALUES];
    size_t size = ask_account(part, require_number(line, "place"), values);
    require_refusal(line, "book_account", LYRA2_ACCEPTED);
    require_same_number(line, "size", size);
    for (size_t i = 0; i < LYRA2_ACCOUNT_VALUES; i++)
        require_same_number(line, names[i], values[i]);
    free_run(part);
}

static struct book_operation {
    const char *name;
    void (*run)(struct text line);
    size_t lines;
} operations[] = {{"book_find", run_find, 0},   {"book_add", run_add, 0},         {"book_remove", run_remove, 0},
                  {"book_check", run_check, 0}, {"book_account", run_account, 0}};

enum { OPERATIONS_OF_BOOKS = sizeof operations / sizeof *operations };

bool run_book(struct text line, struct text name)
{
    for (size_t i = 0; i < OPERATIONS_OF_BOOKS; i++)
        if (is(name, operations[i].name)) {
            operations[i].run(line);
            operations[i].lines++;
            return true;
        }
    return false;
}

void print_book_lines(void)
{
    for (size_t i = 0; i < OPERATIONS_OF_BOOKS; i++)
        printf("%s %zu %s", i > 0 ? "," : "", operations[i].lines, operations[i].name);
}
