/*
 * The refusals of the calls with a book: of every two checks that apply the one that is tested first is answered, each
 * from several sides; lengths, places and numbers of 64 bits, no bit of which is lost; accounts that stand around what
 * is lent; and arguments that overlap.
 */
#include "book_calls.h"
#include "book_due.h"
#include "calls.h"

#include <stdio.h>
#include <stdlib.h>
#include <string.h>

enum { OLD_ACCOUNTS = 3, ROOM = 200, MOST_BYTES = 512, SIDES = 6, SMALLEST = 23 };
enum book_call { FIND, REMOVE, ADD, BOOK_CHECK, CALLS };

static const uint8_t text[2 * LYRA2_KEY_MAX] = "salts and keys of the accounts are parts of this text, ACACAC and all";

/* What a call is asked. */
struct asked {
    uint8_t bytes[MOST_BYTES];
    size_t length, used;
    struct account account; /* its number is the one that is looked for too */
    size_t password, matrix;
};

static struct account account_with(uint32_t number, size_t salt, size_t key)
{
    return (struct account){number, 1, 3, 1, {text, salt}, {text + 9, key}};
}

/* What every call accepts: three accounts, the second of which is asked about, and room for more. */
static struct asked accepted(void)
{
    const struct account old[] = {account_with(7, 8, 30), account_with(300, 9, 20), account_with(70000, 8, 1)};
    struct asked asked = {.account = account_with(300, 8, 5), .password = 10, .matrix = 36};
    asked.used = encode(asked.bytes, old, OLD_ACCOUNTS);
    asked.length = asked.used + ROOM;
    return asked;
}

static void require_answer(const char *what, enum book_call call, const struct asked *asked, uint32_t due)
{
    struct book book = {{asked->bytes, asked->length}, asked->used};
    if (call == FIND)
        require_found(what, book, asked->account.number, due);
    else if (call == REMOVE)
        require_removed(what, book, asked->account.number, due);
    else if (call == ADD)
        require_added(what, book, &asked->account, due);
    else
        require_checked(what, (struct bytes){text, asked->password}, book, asked->account.number, asked->matrix, due);
}

/* ---- pairs of checks */

static bool set(size_t *place, int side, size_t low, size_t high)
{
    *place = side == 0 ? low : side == 1 ? high : SIZE_MAX;
    return side <= 2;
}

/* A book that is not good: its used length passes it by a byte or by far, a mark is wrong, an account is cut off, a
 * number is outside its limits, or one stands there twice. */
static bool damage(struct asked *n, int side)
{
    size_t whole = n->used, last = whole - SMALLEST;
    if (side == 0)
        n->used = whole + ROOM + 1;
    else if (side == 1)
        n->used = SIZE_MAX;
    else if (side == 2)
        n->bytes[last + 1] = 'c';
    else if (side == 3)
        n->used = whole - 1;
    else if (side == 4)
        memset(n->bytes + 7, 0, 2);
    else
        memcpy(n->bytes + last + 2, n->bytes + 2, 4);
    return true;
}

/* No room at all for one more, a byte too few for it, or a byte too few for one in the place of another. */
static bool fill(struct asked *n, int side)
{
    const struct asked base = accepted();
    size_t size = size_of(&base.account);
    n->account.number = side < 2 ? 12345 : 70000;
    n->length = base.used + (side == 0 ? 0 : side == 1 ? size - 1 : size - SMALLEST - 1);
    return side <= 2;
}

/* Makes a check apply from one side, or says that it has no such side. */
static bool make_apply(struct asked *n, uint32_t check, int side)
{
    switch (check) {
    case LYRA2_REFUSED_KEY:
        return side < 2 && set(&n->account.key.length, side, LYRA2_KEY_MIN - 1, LYRA2_KEY_MAX + 1);
    case LYRA2_REFUSED_SALT_TOO_SHORT:
        return side < 2 && set(&n->account.salt.length, side, 0, LYRA2_SALT_MIN - 1);
    case LYRA2_REFUSED_SALT_TOO_LONG:
        return side < 2 && set(&n->account.salt.length, side, LYRA2_SALT_MAX + 1, 256 + LYRA2_SALT_MIN);
    case LYRA2_REFUSED_TIME:
        return set(&n->account.time, side, LYRA2_TIME_MAX + 1, 65536);
    case LYRA2_REFUSED_ROWS:
        return set(&n->account.rows, side, LYRA2_ROWS_MIN - 1, LYRA2_ROWS_MAX + 1);
    case LYRA2_REFUSED_COLUMNS:
        return set(&n->account.columns, side, LYRA2_COLUMNS_MIN - 1, LYRA2_COLUMNS_MAX + 1);
    case LYRA2_REFUSED_PASSWORD:
        return side < 2 && set(&n->password, side, LYRA2_PASSWORD_MAX + 1, sizeof text);
    case LYRA2_REFUSED_BOOK:
        return damage(n, side);
    case LYRA2_REFUSED_NO_ACCOUNT:
        n->account.number = side == 0 ? 301 : 0;
        return side < 2;
    case LYRA2_REFUSED_BOOK_FULL:
        return fill(n, side);
    default:
        return side < 2 && set(&n->matrix, side, 35, 0);
    }
}

/* The checks of each call in their order; LYRA2_ACCEPTED ends the list. */
static const uint32_t orders[CALLS][9] = {
    [FIND] = {LYRA2_REFUSED_BOOK, LYRA2_REFUSED_NO_ACCOUNT},
    [REMOVE] = {LYRA2_REFUSED_BOOK, LYRA2_REFUSED_NO_ACCOUNT},
    [ADD] = {LYRA2_REFUSED_KEY, LYRA2_REFUSED_SALT_TOO_SHORT, LYRA2_REFUSED_SALT_TOO_LONG, LYRA2_REFUSED_TIME,
             LYRA2_REFUSED_ROWS, LYRA2_REFUSED_COLUMNS, LYRA2_REFUSED_BOOK, LYRA2_REFUSED_BOOK_FULL},
    [BOOK_CHECK] = {LYRA2_REFUSED_PASSWORD, LYRA2_REFUSED_BOOK, LYRA2_REFUSED_NO_ACCOUNT, LYRA2_REFUSED_MATRIX},
};

/* Whether two checks apply at once to no call: a salt is not both too short and too long. */
static bool exclude_each_other(uint32_t check, uint32_t later)
{
    return check == LYRA2_REFUSED_SALT_TOO_SHORT && later == LYRA2_REFUSED_SALT_TOO_LONG;
}

/* One check from one side, alone and with each later one from each of its sides. */
static void pair_with_later(enum book_call call, const uint32_t *check, int side)
{
    struct asked one = accepted();
    if (!make_apply(&one, *check, side))
        return;
    require_answer("one refusal", call, &one, *check);
    for (const uint32_t *later = check + 1; *later != LYRA2_ACCEPTED; later++)
        for (int later_side = 0; later_side < SIDES; later_side++) {
            struct asked two = one;
            if (!exclude_each_other(*check, *later) && make_apply(&two, *later, later_side))
                require_answer("two refusals", call, &two, *check);
        }
}

static void pair_checks(enum book_call call)
{
    const struct asked base = accepted();
    require_answer("no refusal", call, &base, LYRA2_ACCEPTED);
    for (const uint32_t *check = orders[call]; *check != LYRA2_ACCEPTED; check++)
        for (int side = 0; side < SIDES; side++)
            pair_with_later(call, check, side);
}

/* ---- numbers of 64 bits */

/* A used length, a place and the costs of an account with one more bit, from 256 on, the low ones of which are good. */
static void require_bit(size_t bit)
{
    const struct asked base = accepted();
    struct asked longer = base, time = base, rows = base, columns = base;
    longer.used += bit;
    time.account.time += bit;
    rows.account.rows += bit;
    columns.account.columns += bit;
    for (enum book_call call = FIND; call < CALLS; call++)
        require_answer("a bit of the used length", call, &longer, LYRA2_REFUSED_BOOK);
    require_answer("a bit of T", ADD, &time, LYRA2_REFUSED_TIME);
    if (bit >= LYRA2_ROWS_MAX)
        require_answer("a bit of R", ADD, &rows, LYRA2_REFUSED_ROWS);
    require_answer("a bit of C", ADD, &columns, LYRA2_REFUSED_COLUMNS);
    require_account("a bit of the place", (struct bytes){base.bytes, base.used}, bit);
    require_account("a bit of the place", (struct bytes){base.bytes, base.used}, bit + base.used - SMALLEST);
    require_account("far from the end", (struct bytes){base.bytes, base.used}, SIZE_MAX - bit + 1);
}

static void require_far(void)
{
    const struct asked base = accepted();
    for (size_t short_by = 0; short_by < 2 * SMALLEST; short_by++) {
        struct asked far = base, past = base;
        far.used = SIZE_MAX - short_by;
        past.length = base.used;
        past.used = base.used + 1 + short_by;
        for (enum book_call call = FIND; call < CALLS; call++) {
            require_answer("a used length near the last number", call, &far, LYRA2_REFUSED_BOOK);
            require_answer("a used length past a full book", call, &past, LYRA2_REFUSED_BOOK);
        }
        require_account("a place near the last number", (struct bytes){base.bytes, base.used}, far.used);
    }
}

/* ---- around what is lent */

/* The middle one of three equal accounts is lent alone. What stands before and behind it is no part of the book. */
static void require_alone(void)
{
    const struct account three[] = {account_with(1, 8, 1), account_with(2, 8, 1), account_with(3, 8, 1)};
    uint8_t whole[3 * SMALLEST];
    size_t place, values[LYRA2_ACCOUNT_VALUES], used_after;
    struct lent lent;
    encode(whole, three, 3);
    lend(&lent, sizeof whole, 1, whole);
    uint8_t *middle = (uint8_t *)lent_part(&lent) + SMALLEST;
    if (lyra2_book_find(middle, SMALLEST, SMALLEST, 3, &place) != LYRA2_REFUSED_NO_ACCOUNT
        || lyra2_book_find(middle, SMALLEST, 2 * SMALLEST, 3, &place) != LYRA2_REFUSED_BOOK
        || lyra2_book_find(middle, SMALLEST, SMALLEST, 1, &place) != LYRA2_REFUSED_NO_ACCOUNT
        || lyra2_book_remove(middle, SMALLEST, 2 * SMALLEST, 2, &used_after) != LYRA2_REFUSED_BOOK
        || lyra2_book_remove(middle, 2 * SMALLEST, SMALLEST, 3, &used_after) != LYRA2_REFUSED_NO_ACCOUNT)
        fail("around the book: an account outside of it is taken");
    if (lyra2_book_account(middle, SMALLEST, SMALLEST, values) != 0
        || lyra2_book_account(middle, SMALLEST - 1, 0, values) != 0
        || lyra2_book_account(middle, SMALLEST, 0, values) != SMALLEST)
        fail("around the book: an account outside of it is read");
    for (size_t before = 1; before <= SMALLEST; before++, calls_made++)
        if (lyra2_book_account(middle - SMALLEST + before, 2 * SMALLEST, 0 - before, values) != 0)
            fail("around the book: an account %zu bytes before it is read", before);
    require_kept(&lent, 0, "book");
    lent.contents = NULL;
    if (lyra2_book_remove(middle, SMALLEST, SMALLEST, 2, &used_after) != LYRA2_ACCEPTED || used_after != 0)
        fail("around the book: %zu bytes are used", used_after);
    memset(whole + SMALLEST, 0, SMALLEST);
    if (memcmp(lent_part(&lent), whole, sizeof whole) != 0)
        fail("around the book: bytes outside of it are changed");
    calls_made += 9;
    take_back(&lent);
}

/* ---- overlaps */

/* The salt and the key of a new account overlap, in each way. */
static void require_overlap(void)
{
    for (size_t from = 0; from < 16; from++) {
        const struct account one = {9, 1, 3, 1, {text + from, 8}, {text + 8, 8}};
        uint8_t due[SMALLEST + 7], book[SMALLEST + 7];
        size_t used;
        encode(due, &one, 1);
        memset(book, 0xa5, sizeof book);
        uint32_t answer = lyra2_book_add(book, sizeof book, 0, 9, 1, 3, 1, text + from, 8, text + 8, 8, &used);
        if (answer != LYRA2_ACCEPTED || used != sizeof book || memcmp(book, due, used) != 0)
            fail("add, a salt inside the key: another book is due");
        calls_made++;
    }
}

/* A password that lies in the book is read as any other. */
static void require_password_in_book(void)
{
    struct asked base = accepted();
    struct book book = {{base.bytes, base.length}, base.used};
    uint64_t matrix[36], counts[LYRA2_COUNTS];
    for (size_t from = 0; from < base.used; from += 11) {
        struct checked due;
        uint32_t same;
        model_check((struct bytes){base.bytes + from, 11}, book, 300, 36, &due);
        uint32_t answer = lyra2_book_check(base.bytes + from, 11, base.bytes, base.length, base.used, 300, matrix, 36,
                                           &same, counts);
        if (answer != LYRA2_ACCEPTED || same != due.same || memcmp(counts, due.counts, sizeof counts) != 0)
            fail("check, a password in the book: another answer is due");
        calls_made++;
    }
}

int main(void)
{
    for (enum book_call call = FIND; call < CALLS; call++)
        pair_checks(call);
    for (size_t bit = 256; bit != 0; bit <<= 1)
        require_bit(bit);
    require_far();
    require_alone();
    require_overlap();
    require_password_in_book();
    printf("refusals of books: %zu calls\n", calls_made);
    return 0;
}
