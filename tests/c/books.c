/*
 * The book of accounts from C: the form of an account byte by byte, finding, adding, removing, checking and reading in
 * small books, the limits of an account, and the header's sizes and sentences. All answers are held to a model, and all
 * numbers of refusals to what the test says.
 */
#include "book_calls.h"
#include "book_due.h"
#include "calls.h"

#include <stdio.h>
#include <string.h>

enum { POOL = 1 << 14, MOST_BOOK = 1 << 13, SMALLEST = 23, SPARE = 9, ABSENT = 12345 };

/* Salts and keys are parts of this. */
static uint8_t pool[POOL];
static uint8_t bytes[MOST_BOOK];

static void fill_pool(void)
{
    uint64_t x = 1;
    for (size_t i = 0; i < sizeof pool; i++) {
        x ^= x << 13;
        x ^= x >> 7;
        x ^= x << 17;
        pool[i] = (uint8_t)(x >> 32);
    }
}

/* An account with a salt and a key of these lengths, other ones for each number. */
static struct account account_with(uint32_t number, size_t salt, size_t key)
{
    const uint8_t *start = pool + number % 97 * 64;
    return (struct account){number, 1, 3, 1, {start, salt}, {start + salt, key}};
}

/* The accounts in `bytes`, with so many unused bytes behind them that hold anything. */
static struct book build(const struct account *accounts, size_t count, size_t spare)
{
    memcpy(bytes, pool, sizeof bytes);
    size_t used = encode(bytes, accounts, count);
    return (struct book){{bytes, used + spare}, used};
}

/* ---- the form */

/* No two bytes of these heads are alike but for zeros, so none can stand in another's place. */
static void require_form(void)
{
    static const uint8_t heads[2][14] = {{65, 67, 1, 2, 3, 4, 5, 6, 7, 0, 1, 8, 2, 1},
                                         {'A', 'C', 0xff, 0xfe, 0xfd, 0xfc, 0xff, 0x00, 0x40, 0x0b, 0x00, 9, 3, 0}};
    const struct account accounts[2] = {{0x04030201, 5, 0x0706, 256, {pool, 8}, {pool + 8, 0x0102}},
                                        {0xfcfdfeff, 255, 16384, 11, {pool + 500, 9}, {pool + 600, 3}}};
    enum { FIRST = 14 + 8 + 258, BOTH = FIRST + 14 + 9 + 3 };
    uint8_t due[BOTH], after[BOTH];
    size_t used, place, values[LYRA2_ACCOUNT_VALUES];
    memcpy(due, heads[0], 14);
    memcpy(due + 14, pool, 8 + 258);
    memcpy(due + FIRST, heads[1], 14);
    memcpy(due + FIRST + 14, pool + 500, 9);
    memcpy(due + FIRST + 14 + 9, pool + 600, 3);
    memcpy(bytes, due, FIRST);
    struct book book = {{bytes, BOTH}, FIRST};
    if (ask_add(book, &accounts[1], after, &used) != LYRA2_ACCEPTED || used != BOTH || memcmp(after, due, BOTH) != 0)
        fail("add, the form: other bytes are due");
    memcpy(bytes, due, BOTH);
    book.used = BOTH;
    if (ask_find(book, 0xfcfdfeff, &place) != LYRA2_ACCEPTED || place != FIRST)
        fail("find, the form: the place is %zu, where %d is due", place, FIRST);
    const size_t first[] = {0x04030201, 5, 0x0706, 256, 8, 258}, second[] = {0xfcfdfeff, 255, 16384, 11, 9, 3};
    if (ask_account(book.lent, 0, values) != FIRST || memcmp(values, first, sizeof first) != 0
        || ask_account(book.lent, FIRST, values) != BOTH - FIRST || memcmp(values, second, sizeof second) != 0)
        fail("account, the form: other values are due");
    if (ask_remove(book, 0x04030201, after, &used) != LYRA2_ACCEPTED || used != BOTH - FIRST
        || memcmp(after, due + FIRST, used) != 0)
        fail("remove, the form: other bytes are due");
}

/* ---- small books */

static const uint32_t numbers[] = {300, 0, UINT32_MAX, 70000, 2};
enum { MOST_ACCOUNTS = sizeof numbers / sizeof *numbers };

/* The first so many accounts, of different sizes. */
static size_t list_accounts(struct account *accounts, size_t count)
{
    for (size_t i = 0; i < count; i++)
        accounts[i] = account_with(numbers[i], 8 + 5 * i % 7, 4 + 11 * i % 31);
    return count;
}

/* One account added where the book ends with exactly as much room, more, and a byte less. */
static void require_rooms(struct book book, const struct account *account)
{
    struct account old;
    size_t place, needed = book.used + size_of(account);
    if (model_find(book, account->number, &old, &place) == LYRA2_ACCEPTED)
        needed -= size_of(&old);
    size_t least = book.used > needed ? book.used : needed;
    for (size_t spare = 0; spare <= SPARE; spare += SPARE) {
        book.lent.length = least + spare;
        require_added(spare > 0 ? "room to spare" : "just enough room", book, account, LYRA2_ACCEPTED);
    }
    book.lent.length = needed - 1;
    if (book.lent.length >= book.used)
        require_added("a byte too few", book, account, LYRA2_REFUSED_BOOK_FULL);
}

static void require_small_book(size_t count)
{
    struct account accounts[MOST_ACCOUNTS];
    list_accounts(accounts, count);
    for (size_t spare = 0; spare <= SPARE; spare += SPARE) {
        struct book book = build(accounts, count, spare);
        for (size_t i = 0; i < count; i++) {
            require_found("an account that is there", book, numbers[i], LYRA2_ACCEPTED);
            require_removed("an account that is there", book, numbers[i], LYRA2_ACCEPTED);
            require_checked("an account that is there", accounts[i].key, book, numbers[i], 36, LYRA2_ACCEPTED);
        }
        require_found("no such account", book, ABSENT, LYRA2_REFUSED_NO_ACCOUNT);
        require_removed("no such account", book, ABSENT, LYRA2_REFUSED_NO_ACCOUNT);
        require_checked("no such account", accounts[0].key, book, ABSENT, 36, LYRA2_REFUSED_NO_ACCOUNT);
        for (size_t place = 0; place < book.lent.length + SPARE; place++)
            require_account("a place in a small book", (struct bytes){bytes, book.used}, place);
    }
    for (size_t i = 0; i <= count; i++)
        for (size_t key = 1; key < 60; key += 1 + key / 2) {
            struct account added = account_with(i < count ? numbers[i] : ABSENT, 8 + key % 4, key);
            require_rooms(build(accounts, count, 200), &added);
        }
}

/* A replaced account goes to the end, whatever its size was: the order and the freed bytes, in bytes of this test. */
static void require_replaced(void)
{
    const struct account before[] = {account_with(1, 8, 40), account_with(2, 9, 3), account_with(3, 10, 5)};
    const struct account anew = account_with(1, 8, 2), after[] = {before[1], before[2], anew};
    uint8_t due[MOST_BOOK], found[MOST_BOOK];
    struct book book = build(before, 3, SPARE);
    size_t used, due_used;
    memcpy(due, bytes, sizeof due);
    memset(due, 0, book.used);
    due_used = encode(due, after, 3);
    if (ask_add(book, &anew, found, &used) != LYRA2_ACCEPTED || used != due_used
        || memcmp(found, due, book.lent.length) != 0)
        fail("add, replaced: another book is due");
}

/* Numbers that differ in one byte, or in the sign, are different accounts. */
static void require_numbers(void)
{
    static const uint32_t close[] = {0, 1, 256, 65536, 16777216, 0x80000000, 0xffffffff, 0xffff};
    enum { CLOSE = sizeof close / sizeof *close };
    struct account accounts[CLOSE];
    for (size_t i = 0; i < CLOSE; i++)
        accounts[i] = account_with(close[i], 8, 1);
    struct book book = build(accounts, CLOSE, SPARE);
    for (size_t i = 0; i < CLOSE; i++) {
        require_all("close numbers", book, &accounts[i], 36, LYRA2_ACCEPTED);
        for (int bit = 0; bit < 32; bit++)
            require_found("close numbers", book, close[i] ^ UINT32_C(1) << bit, BY_THE_MODEL);
    }
}

/* A key and a salt may hold a mark, and even a whole account, which is none. */
static void require_inner(void)
{
    uint8_t inner[SMALLEST], longer[SMALLEST + 20];
    const struct account hidden = account_with(77, 8, 1);
    encode(inner, &hidden, 1);
    memcpy(longer, "ACACACACAC", 10);
    memcpy(longer + 10, inner, sizeof inner);
    memcpy(longer + 10 + sizeof inner, "ACACACACAC", 10);
    const struct account accounts[] = {{5, 1, 3, 1, {longer, 10}, {longer, sizeof longer}},
                                       {6, 1, 3, 1, {longer, sizeof longer}, {inner, sizeof inner}}};
    struct book book = build(accounts, 2, SPARE);
    require_found("an account in a key", book, 77, LYRA2_REFUSED_NO_ACCOUNT);
    require_removed("an account in a key", book, 77, LYRA2_REFUSED_NO_ACCOUNT);
    require_added("an account in a key", (struct book){book.lent, book.used - size_of(&accounts[1])}, &hidden,
                  LYRA2_ACCEPTED);
    require_all("a key that holds an account", book, &accounts[1], 36, LYRA2_ACCEPTED);
    for (size_t place = 0; place <= book.used; place++)
        require_account("a place in a key", (struct bytes){bytes, book.used}, place);
    struct account found;
    size_t values[LYRA2_ACCOUNT_VALUES], place = 14 + 10 + 10;
    if (model_account(book.lent, place, &found) != SMALLEST || ask_account(book.lent, place, values) != SMALLEST)
        fail("account, a place in a key: an account is due");
}

/* The reader's steps lead from account to account and end where the used part does. */
static void require_steps(void)
{
    struct account accounts[MOST_ACCOUNTS];
    size_t values[LYRA2_ACCOUNT_VALUES], place = 0, size, steps = 0, found;
    struct book book = build(accounts, list_accounts(accounts, MOST_ACCOUNTS), 0);
    while ((size = ask_account(book.lent, place, values)) > 0) {
        if (values[LYRA2_ACCOUNT_NUMBER] != numbers[steps++]
            || ask_find(book, (uint32_t)values[LYRA2_ACCOUNT_NUMBER], &found) != LYRA2_ACCEPTED || found != place)
            fail("account, the steps of a reader: step %zu is at %zu", steps, place);
        place += size;
    }
    require_value("account", "the steps of a reader", "the last place", place, book.used);
    /* The account alone is looked at: its number twice, or damage behind it, is not seen. */
    size_t second = size_of(&accounts[0]);
    memcpy(bytes + second + 2, bytes + 2, 4);
    require_account("a number twice", book.lent, 0);
    require_account("a number twice", book.lent, second);
    bytes[second] = 'a';
    require_account("a damaged neighbour", book.lent, 0);
    require_account("a damaged mark", book.lent, second);
}

/* A lent book of no bytes, and one of no accounts. */
static void require_empty(void)
{
    const struct account one = account_with(1, 8, 1);
    for (size_t length = 0; length < 2 * SMALLEST; length++) {
        struct book book = {{pool, length}, 0};
        require_found("no accounts", book, 1, LYRA2_REFUSED_NO_ACCOUNT);
        require_removed("no accounts", book, 1, LYRA2_REFUSED_NO_ACCOUNT);
        require_checked("no accounts", one.key, book, 1, 36, LYRA2_REFUSED_NO_ACCOUNT);
        require_added("no accounts", book, &one, length < SMALLEST ? LYRA2_REFUSED_BOOK_FULL : LYRA2_ACCEPTED);
        require_account("no accounts", (struct bytes){pool, 0}, length);
    }
}

/* ---- checks */

static void derive_key(struct bytes password, const struct account *account, uint8_t *key)
{
    static uint64_t matrix[LYRA2_MATRIX_WORDS(20, 17)];
    uint64_t counts[LYRA2_COUNTS];
    uint32_t answer = lyra2_derive(password.start, password.length, account->salt.start, account->salt.length,
                                   account->time, account->rows, account->columns, LYRA2_REDUCED_ROUNDS_USUAL,
                                   LYRA2_ROTATION_USUAL, LYRA2_MIXER_USUAL, key, account->key.length, matrix,
                                   sizeof matrix / sizeof *matrix, counts);
    if (answer != LYRA2_ACCEPTED)
        fail("derive: %s", lyra2_sentence(answer));
}

/* The account of these costs says yes to its own password and no to all others, with exactly enough matrix or more; and
 * its key with a bit flipped says no. */
static void require_passwords(size_t time, size_t rows, size_t columns, size_t key_len, size_t password_len)
{
    uint8_t key[LYRA2_KEY_MAX];
    const struct bytes password = {pool + 1000, password_len}, other = {pool + 1001, password_len + 1};
    struct account accounts[3] = {account_with(9, 8, 32), account_with(5, 16, 0), account_with(8, 8, 32)};
    struct account *own = &accounts[1];
    struct checked yes, no, cut;
    size_t words = LYRA2_MATRIX_WORDS(rows, columns);
    *own = (struct account){5, time, rows, columns, own->salt, {key, key_len}};
    derive_key(password, own, key);
    struct book book = build(accounts, 3, SPARE);
    if (ask_book_check(password, book, 5, words, &yes) != LYRA2_ACCEPTED || yes.same != 1)
        fail("check, the account's password: same is %u", yes.same);
    if (ask_book_check(other, book, 5, words + 7, &no) != LYRA2_ACCEPTED || no.same != 0)
        fail("check, another password: same is %u", no.same);
    require_checked("the account's password", password, book, 5, words + 7, LYRA2_ACCEPTED);
    require_checked("another password", other, book, 5, words, LYRA2_ACCEPTED);
    require_checked("another account", password, book, 8, words, LYRA2_ACCEPTED);
    require_checked("a word too few", password, book, 5, words - 1, LYRA2_REFUSED_MATRIX);
    require_checked("no matrix", password, book, 5, 0, LYRA2_REFUSED_MATRIX);
    bytes[size_of(&accounts[0]) + size_of(own) - 1] ^= 0x80;
    if (ask_book_check(password, book, 5, words, &cut) != LYRA2_ACCEPTED || cut.same != 0)
        fail("check, the key's last byte changed: same is %u", cut.same);
}

/* ---- the limits */

struct limit {
    size_t place; /* of a number in struct account */
    size_t least, most;
    uint32_t below, above;
};

static const struct limit limits[] = {
    {offsetof(struct account, key.length), LYRA2_KEY_MIN, LYRA2_KEY_MAX, LYRA2_REFUSED_KEY, LYRA2_REFUSED_KEY},
    {offsetof(struct account, salt.length), LYRA2_SALT_MIN, LYRA2_SALT_MAX, LYRA2_REFUSED_SALT_TOO_SHORT,
     LYRA2_REFUSED_SALT_TOO_LONG},
    {offsetof(struct account, time), LYRA2_TIME_MIN, LYRA2_TIME_MAX, LYRA2_REFUSED_TIME, LYRA2_REFUSED_TIME},
    {offsetof(struct account, rows), LYRA2_ROWS_MIN, LYRA2_ROWS_MAX, LYRA2_REFUSED_ROWS, LYRA2_REFUSED_ROWS},
    {offsetof(struct account, columns), LYRA2_COLUMNS_MIN, LYRA2_COLUMNS_MAX, LYRA2_REFUSED_COLUMNS,
     LYRA2_REFUSED_COLUMNS},
};

/* The account in the place of the second of three, in which each may have been left by other means; and added. T has a
 * byte, so no book has one above its limit. */
static void require_with(const struct limit *limit, size_t value, uint32_t due)
{
    struct account accounts[3] = {account_with(1, 8, 1), account_with(2, 8, 1), account_with(3, 8, 1)};
    *(size_t *)((uint8_t *)&accounts[1] + limit->place) = value;
    const struct account added = accounts[1];
    bool good = due == LYRA2_ACCEPTED;
    require_added("a number at its limit", build(accounts, 1, 3000), &added, due);
    if (due == LYRA2_REFUSED_TIME)
        return;
    struct book book = build(accounts, 3, SPARE);
    uint32_t found = good ? LYRA2_ACCEPTED : LYRA2_REFUSED_BOOK;
    require_found("a number at its limit", book, 2, found);
    require_found("a neighbour's number at its limit", book, 1, found);
    require_removed("a number at its limit", book, 2, found);
    require_removed("a neighbour's number at its limit", book, 3, found);
    require_checked("a number at its limit", added.salt, book, 2, 0, good ? LYRA2_REFUSED_MATRIX : LYRA2_REFUSED_BOOK);
    require_checked("a neighbour's number at its limit", added.salt, book, 1, 36, found);
    require_added("a neighbour's number at its limit", book, &accounts[2], found);
    require_account("a number at its limit", (struct bytes){bytes, book.used}, size_of(&accounts[0]));
}

static void require_limit(const struct limit *limit)
{
    require_with(limit, limit->least, LYRA2_ACCEPTED);
    require_with(limit, limit->most, LYRA2_ACCEPTED);
    require_with(limit, limit->most + 1, limit->above);
    if (limit->least > 0)
        require_with(limit, limit->least - 1, limit->below);
}

/* ---- the header */

static void require_header(void)
{
    const struct account longest = account_with(1, LYRA2_SALT_MAX, LYRA2_KEY_MAX);
    struct book book = build(&longest, 1, 0);
    require_value("header", "sizes", "the longest account", book.used, LYRA2_ACCOUNT_MAX);
    require_account("the longest account", book.lent, 0);
    require_value("header", "sizes", "the smallest account", LYRA2_ACCOUNT_BYTES(LYRA2_SALT_MIN, LYRA2_KEY_MIN),
                  SMALLEST);
    require_value("header", "sizes", "the values", LYRA2_ACCOUNT_VALUES, 6);
}

static void require_sentence(uint32_t refusal, const char *words)
{
    if (strstr(lyra2_sentence(refusal), words) == NULL)
        fail("'%s' does not say: %s", lyra2_sentence(refusal), words);
}

int main(void)
{
    fill_pool();
    require_form();
    require_header();
    require_sentence(LYRA2_REFUSED_BOOK, "whole accounts within the limits, no number twice");
    require_sentence(LYRA2_REFUSED_NO_ACCOUNT, "no account of this number");
    require_sentence(LYRA2_REFUSED_BOOK_FULL, "no room");
    require_empty();
    for (size_t count = 1; count <= MOST_ACCOUNTS; count++)
        require_small_book(count);
    require_replaced();
    require_numbers();
    require_inner();
    require_steps();
    require_passwords(1, 3, 1, 32, 8);
    require_passwords(0, 3, 2, 1, 0);
    require_passwords(2, 20, 17, LYRA2_KEY_MAX, LYRA2_PASSWORD_MAX - 1);
    for (size_t i = 0; i < sizeof limits / sizeof *limits; i++)
        require_limit(&limits[i]);
    printf("books: %zu calls\n", calls_made);
    return 0;
}
