/*
 * The book of accounts under valgrind's memcheck, which sees every byte that a call reads or writes. All memory has
 * exactly the length that is lent. Salts and keys are out of reach of a call that has no need to move or to compare
 * them, and marked as never written for the others, so that a branch or an address that depends on them is reported. Out
 * of reach are also the unused bytes of a book, and what a refused call would read or write.
 */
#include "book_model.h"
#include "calls.h"
#include "watched.h"

#include <stdio.h>
#include <stdlib.h>
#include <string.h>
#include <valgrind/memcheck.h>

enum { ACCOUNTS = 3, SPARE = 5, NEW = 9, PASSWORD = 10, ABSENT = 12345, VALUES_BYTES = 8 * LYRA2_ACCOUNT_VALUES };

static uint8_t text[256];
static struct account accounts[ACCOUNTS];
static size_t whole; /* the bytes of all accounts */

static void list_accounts(size_t salt, size_t key)
{
    for (size_t i = 0; i < sizeof text; i++)
        text[i] = (uint8_t)(7 * i + 5);
    whole = 0;
    for (uint32_t i = 0; i < ACCOUNTS; i++) {
        accounts[i] = (struct account){300 * i, i, 3 + i, 1 + i, {text + i, salt + i}, {text + 20 * i, key + 7 * i}};
        whole += size_of(&accounts[i]);
    }
}

/* Of a book, bytes of accounts that are lent: the first `length` bytes, and behind them what was never written. */
static uint8_t *lend_book(size_t length)
{
    uint8_t *all = allocate(whole), *book = unwritten(length);
    encode(all, accounts, ACCOUNTS);
    memcpy(book, all, length < whole ? length : whole);
    free(all);
    return book;
}

enum marking { HIDDEN, CLOSED };

static void mark(uint8_t *start, size_t bytes, enum marking marking)
{
    if (marking == CLOSED)
        (void)VALGRIND_MAKE_MEM_NOACCESS(start, bytes);
    else
        (void)VALGRIND_MAKE_MEM_UNDEFINED(start, bytes);
}

/* Marks the salts and keys of a book, as far as it is lent, and puts its unused bytes out of reach. */
static void mark_book(uint8_t *book, size_t length, size_t used, enum marking secrets)
{
    size_t place = 0;
    for (size_t i = 0; i < ACCOUNTS; place += size_of(&accounts[i++])) {
        size_t from = place + LYRA2_ACCOUNT_HEAD, to = place + size_of(&accounts[i]);
        if (from < length)
            mark(book + from, (to < length ? to : length) - from, secrets);
    }
    if (used < length)
        mark(book + used, length - used, CLOSED);
}

static void require_answer(const char *name, uint32_t answer, uint32_t due)
{
    calls_made++;
    if (answer != due)
        fail("%s: %u is due, %u was answered", name, due, answer);
}

/* A number that the call answers was written, whatever its place held, and is the one that is due. */
static void require_field(const char *name, size_t *field, size_t due)
{
    require_written(name, field, sizeof *field, sizeof *field);
    if (*field != due)
        fail("%s: %zu is due, found %zu", name, due, *field);
    free(field);
}

/* ---- finding and reading: heads alone are read */

static void require_find(size_t length, size_t used, uint32_t number, uint32_t due)
{
    struct account account;
    uint8_t *book = lend_book(length);
    size_t *place = unwritten(sizeof *place), due_place;
    uint32_t model = model_find((struct book){{book, length}, used}, number, &account, &due_place);
    mark_book(book, length, used, CLOSED);
    require_answer("find", lyra2_book_find(book, length, used, number, place), due);
    if (model != due)
        fail("find: the model answers %u", model);
    require_field("place", place, due_place);
    free(book);
}

/* No byte but those of the head at the place. */
static void require_account(size_t length, size_t place)
{
    struct account due;
    uint8_t *book = lend_book(length);
    size_t *values = unwritten(VALUES_BYTES), due_size = model_account((struct bytes){book, length}, place, &due);
    size_t from = place < length ? place : length, rest = length - from;
    size_t head = rest < LYRA2_ACCOUNT_HEAD ? rest : LYRA2_ACCOUNT_HEAD;
    mark(book, from, CLOSED);
    mark(book + from + head, rest - head, CLOSED);
    size_t size = lyra2_book_account(book, length, place, values);
    calls_made++;
    require_written("values", values, VALUES_BYTES, VALUES_BYTES);
    if (size != due_size || values[LYRA2_ACCOUNT_KEY_LEN] != due.key.length)
        fail("account: %zu is due at %zu, found %zu", due_size, place, size);
    free(values);
    free(book);
}

/* ---- changes */

/* After an accepted change: heads and zeros are made from nothing that is hidden, and all is as the model says. */
static void require_book(const char *name, uint8_t *book, size_t length, const uint8_t *due, size_t used, bool hidden)
{
    if (!hidden && VALGRIND_CHECK_MEM_IS_DEFINED(book, used) != 0)
        fail("%s: the book depends on what the memory held", name);
    (void)VALGRIND_MAKE_MEM_DEFINED(book, length);
    if (memcmp(book, due, used) != 0)
        fail("%s: another book is due", name);
}

/* Where an account of a good book starts, its head is made from nothing that is hidden. */
static void require_heads(const char *name, const uint8_t *book, const uint8_t *due, size_t used)
{
    struct account account;
    size_t size;
    for (size_t place = 0; place < used; place += size) {
        size = model_account((struct bytes){due, used}, place, &account);
        if (size == 0 || VALGRIND_CHECK_MEM_IS_DEFINED(book + place, LYRA2_ACCOUNT_HEAD) != 0)
            fail("%s: a head depends on a salt or a key", name);
    }
}

static void require_zeros_behind(const char *name, const uint8_t *book, size_t used_after, size_t used)
{
    if (used_after < used) {
        require_written(name, book + used_after, used - used_after, used - used_after);
        require_zeros_in(name, book + used_after, used - used_after);
    }
}

/* An account removed, or added if one is given; its salt and key are hidden as those of the book are, or none is. */
static void require_change(const char *name, uint32_t number, struct account *added, size_t spare, bool hidden)
{
    size_t length = whole + (added == NULL ? 0 : size_of(added)) + spare, due_used;
    uint8_t *book = lend_book(length), *due = allocate(length), *salt = NULL, *key = NULL;
    size_t *used_after = unwritten(sizeof *used_after);
    struct book before = {{book, length}, whole};
    (void)VALGRIND_MAKE_MEM_DEFINED(book, length);
    uint32_t model = added == NULL ? model_remove(before, number, due, &due_used)
                                   : model_add(before, added, due, &due_used);
    if (model != LYRA2_ACCEPTED)
        fail("%s: the model answers %u", name, model);
    size_t most = whole > due_used ? whole : due_used;
    if (hidden)
        mark_book(book, length, length, HIDDEN);
    mark(book + whole, most - whole, HIDDEN);
    mark(book + most, length - most, CLOSED);
    if (added == NULL)
        require_answer(name, lyra2_book_remove(book, length, whole, number, used_after), LYRA2_ACCEPTED);
    else {
        salt = unwritten(added->salt.length);
        key = unwritten(added->key.length);
        memcpy(salt, added->salt.start, added->salt.length);
        memcpy(key, added->key.start, added->key.length);
        mark(salt, hidden ? added->salt.length : 0, HIDDEN);
        mark(key, hidden ? added->key.length : 0, HIDDEN);
        require_answer(name, lyra2_book_add(book, length, whole, number, added->time, added->rows, added->columns, salt,
                                            added->salt.length, key, added->key.length, used_after), LYRA2_ACCEPTED);
    }
    require_field("used_after", used_after, due_used);
    require_heads(name, book, due, due_used);
    require_zeros_behind(name, book, due_used, whole);
    require_book(name, book, length, due, due_used, hidden);
    free(key);
    free(salt);
    free(due);
    free(book);
}

/* ---- checks */

/* Only the head, the salt and the key of the account are read beside the other heads. */
static void require_check(size_t index, size_t spare)
{
    const struct account *account = &accounts[index];
    size_t used = LYRA2_MATRIX_WORDS(account->rows, account->columns), place = 0;
    uint8_t *password = written(PASSWORD, 1), *book = lend_book(whole + spare);
    uint64_t *matrix = unwritten(8 * (used + spare)), *counts = unwritten(8 * LYRA2_COUNTS);
    uint32_t *same = unwritten(sizeof *same);
    mark_book(book, whole + spare, whole, CLOSED);
    for (size_t i = 0; i < index; i++)
        place += size_of(&accounts[i]);
    uint8_t *salt = book + place + LYRA2_ACCOUNT_HEAD;
    (void)VALGRIND_MAKE_MEM_DEFINED(salt, account->salt.length);
    mark(salt + account->salt.length, account->key.length, HIDDEN);
    require_answer("check", lyra2_book_check(password, PASSWORD, book, whole + spare, whole, account->number, matrix,
                                             used + spare, same, counts), LYRA2_ACCEPTED);
    require_written("matrix", matrix, 8 * used, 8 * (used + spare));
    require_zeros_in("matrix", matrix, 8 * used);
    require_written("counts", counts, 8 * LYRA2_COUNTS, 8 * LYRA2_COUNTS);
    (void)VALGRIND_MAKE_MEM_DEFINED(same, sizeof *same);
    if (*same != 0)
        fail("check: same is %u", *same);
    free(same);
    free(counts);
    free(matrix);
    free(book);
    free(password);
}

/* ---- refusals */

/* What a refused call is asked; the book is closed altogether, or but for its heads. */
struct refused {
    struct account account;
    size_t password, matrix, length, used;
    bool closed;
};

static void require_refused_add(struct refused n, uint32_t due)
{
    uint8_t *book = lend_book(n.length);
    uint8_t *salt = written(n.account.salt.length, 2), *key = written(n.account.key.length, 3);
    size_t *used_after = unwritten(sizeof *used_after);
    mark_book(book, n.length, n.closed ? 0 : n.used, CLOSED);
    mark(salt, n.account.salt.length, CLOSED);
    mark(key, n.account.key.length, CLOSED);
    require_answer("add", lyra2_book_add(book, n.length, n.used, n.account.number, n.account.time, n.account.rows,
                                         n.account.columns, salt, n.account.salt.length, key, n.account.key.length,
                                         used_after), due);
    require_field("used_after", used_after, 0);
    free(key);
    free(salt);
    free(book);
}

static void require_refused_check(struct refused n, uint32_t due)
{
    uint8_t *book = lend_book(n.length), *password = written(n.password, 1);
    uint64_t *matrix = unwritten(8 * n.matrix), *counts = unwritten(8 * LYRA2_COUNTS);
    uint32_t *same = unwritten(sizeof *same);
    mark_book(book, n.length, n.closed ? 0 : n.used, CLOSED);
    mark(password, n.password, CLOSED);
    mark((uint8_t *)matrix, 8 * n.matrix, CLOSED);
    require_answer("check", lyra2_book_check(password, n.password, book, n.length, n.used, n.account.number, matrix,
                                             n.matrix, same, counts), due);
    require_zero_field("same", same, sizeof *same);
    require_zero_field("counts", counts, 8 * LYRA2_COUNTS);
    free(same);
    free(counts);
    free(matrix);
    free(password);
    free(book);
}

static void require_refused_remove(struct refused n, uint32_t due)
{
    uint8_t *book = lend_book(n.length);
    size_t *used_after = unwritten(sizeof *used_after);
    mark_book(book, n.length, n.closed ? 0 : n.used, CLOSED);
    require_answer("remove", lyra2_book_remove(book, n.length, n.used, n.account.number, used_after), due);
    require_field("used_after", used_after, 0);
    free(book);
}

/* The book cut at every length, as all that is lent and as a part of it: none of its calls reads past the cut. */
static void require_cuts(void)
{
    size_t ends = 0, next = 0;
    for (size_t used = 0; used <= whole; used++) {
        bool good = used == ends;
        if (good && used < whole)
            ends += size_of(&accounts[next++]);
        uint32_t due = good ? LYRA2_REFUSED_NO_ACCOUNT : LYRA2_REFUSED_BOOK;
        for (size_t length = used; length <= whole; length += length < whole ? whole - length : 1) {
            struct refused n = {accounts[0], PASSWORD, 36, length, used, false};
            n.account.number = ABSENT;
            require_find(length, used, ABSENT, due);
            require_refused_remove(n, due);
            require_refused_check(n, due);
            if (!good)
                require_refused_add(n, due);
        }
        require_account(used, 0);
        require_account(used, size_of(&accounts[0]));
        require_account(used, used);
        require_account(used, used + 1);
    }
    require_account(whole, SIZE_MAX);
}

/* Those that need no book read none of it; the others read its heads. */
static void require_refusals(void)
{
    const struct refused n = {accounts[1], PASSWORD, 36, whole, whole, true};
    struct refused wrong[] = {n, n, n, n, n, n, n};
    static const uint32_t due[] = {LYRA2_REFUSED_KEY,  LYRA2_REFUSED_KEY,  LYRA2_REFUSED_SALT_TOO_SHORT,
                                   LYRA2_REFUSED_SALT_TOO_LONG, LYRA2_REFUSED_TIME, LYRA2_REFUSED_ROWS,
                                   LYRA2_REFUSED_COLUMNS};
    wrong[0].account.key.length = 0;
    wrong[1].account.key.length = LYRA2_KEY_MAX + 1;
    wrong[2].account.salt.length = LYRA2_SALT_MIN - 1;
    wrong[3].account.salt.length = LYRA2_SALT_MAX + 1;
    wrong[4].account.time = LYRA2_TIME_MAX + 1;
    wrong[5].account.rows = SIZE_MAX;
    wrong[6].account.columns = 0;
    for (size_t i = 0; i < sizeof due / sizeof *due; i++)
        require_refused_add(wrong[i], due[i]);
    struct refused full = n, past = n, password = n, matrix = n;
    full.closed = matrix.closed = false;
    full.account.number = ABSENT;
    require_refused_add(full, LYRA2_REFUSED_BOOK_FULL);
    full.length += size_of(&full.account) - 1;
    require_refused_add(full, LYRA2_REFUSED_BOOK_FULL);
    past.used = SIZE_MAX;
    require_refused_add(past, LYRA2_REFUSED_BOOK);
    require_refused_remove(past, LYRA2_REFUSED_BOOK);
    require_refused_check(past, LYRA2_REFUSED_BOOK);
    password.password = LYRA2_PASSWORD_MAX + 1;
    require_refused_check(password, LYRA2_REFUSED_PASSWORD);
    matrix.matrix = LYRA2_MATRIX_WORDS(n.account.rows, n.account.columns) - 1;
    require_refused_check(matrix, LYRA2_REFUSED_MATRIX);
}

static void require_sizes(size_t salt, size_t key, size_t new_key)
{
    list_accounts(salt, key);
    for (size_t spare = 0; spare <= SPARE; spare += SPARE)
        for (size_t i = 0; i < ACCOUNTS; i++) {
            struct account added = {accounts[i].number, 1, 3, 1, {text, 9}, {text + 9, new_key}};
            require_find(whole + spare, whole, accounts[i].number, LYRA2_ACCEPTED);
            require_check(i, spare);
            for (int hidden = 0; hidden < 2; hidden++) {
                require_change("remove", accounts[i].number, NULL, spare, hidden);
                require_change("add", accounts[i].number, &added, spare, hidden);
                added.number = NEW;
                require_change("add", NEW, &added, spare, hidden);
                added.number = accounts[i].number;
            }
        }
}

int main(void)
{
    if (!RUNNING_ON_VALGRIND)
        fail("this program tells nothing outside of valgrind");
    list_accounts(LYRA2_SALT_MIN, LYRA2_KEY_MIN);
    require_cuts();
    require_refusals();
    require_sizes(LYRA2_SALT_MIN, LYRA2_KEY_MIN, 1);
    require_sizes(LYRA2_SALT_MAX - ACCOUNTS, 97, 32);
    require_sizes(16, 32, 97);
    printf("memcheck of books: %zu calls\n", calls_made);
    return 0;
}
