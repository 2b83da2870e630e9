/*
 * The part of the faulty library that finds, adds and removes accounts of a book: the faults from 701 on are in what it
 * stores, from 721 on in the bytes that move, and from 741 on in the refusals; those from 771 on are seen by memcheck
 * alone, and those from 791 on by the search of the stack alone. It never asks the library: the form is in
 * faulty_accounts.c.
 */
#include "faulty.h"
#include "lyra2.h"

#include <string.h>

enum {
    /* in what is stored */
    PLACE_NOT_STORED = 701,
    PLACE_ONE_MORE,
    PLACE_OF_THE_SALT,
    PLACE_BY_COUNTING,
    REFUSED_PLACE_KEPT,
    ADDED_LENGTH_NOT_STORED,
    ADDED_LENGTH_ONE_MORE,
    ADDED_LENGTH_WITH_THE_OLD,
    REFUSED_ADDED_LENGTH_KEPT,
    REFUSED_ADD_ANSWERS_USED,
    REMOVED_LENGTH_NOT_STORED,
    REMOVED_LENGTH_ONE_LESS,
    REFUSED_REMOVED_LENGTH_KEPT,
    REFUSED_REMOVE_ANSWERS_USED,
    BOOK_WRITTEN_BY_FIND,
    SALT_WRITTEN,
    KEY_WRITTEN,
    /* in the bytes that move */
    REFUSED_ADD_HAS_REMOVED = 721,
    REFUSED_ADD_HAS_WRITTEN,
    FREED_BYTES_LEFT,
    FREED_BYTES_LEFT_BY_ADD,
    FIRST_FREED_BYTE_LEFT,
    LAST_FREED_BYTE_LEFT,
    A_BYTE_TOO_MANY_ZEROED,
    THE_REST_ZEROED,
    MOVED_A_BYTE_SHORT,
    LAST_BYTE_NOT_MOVED,
    OLD_ACCOUNT_LEFT,
    NEW_IN_THE_OLD_PLACE,
    THE_FIRST_REMOVED,
    SALT_AND_KEY_EXCHANGED,
    KEY_A_BYTE_SHORT,
    A_BYTE_BEHIND_THE_NEW,
    /* in the refusals */
    FULL_BEFORE_BOOK = 741,
    MISSING_BEFORE_BOOK_IN_FIND,
    MISSING_BEFORE_BOOK_IN_REMOVE,
    BOOK_BEFORE_ACCOUNT,
    FULL_BEFORE_ACCOUNT,
    FULL_BY_BOTH,
    FULL_A_BYTE_EARLY,
    FULL_A_BYTE_LATE,
    NUMBERS_17_AND_18_EXCHANGED,
    NUMBERS_18_AND_19_EXCHANGED,
    BOOK_NOT_JUDGED_BY_FIND,
    BOOK_NOT_JUDGED_BY_ADD,
    BOOK_NOT_JUDGED_BY_REMOVE,
    NOTHING_REMOVED_TAKEN,
    LONG_SALT_ANSWERED_3,
    TIME_BEFORE_SALT,
    COLUMNS_BEFORE_ROWS,
    SALT_BEFORE_KEY,
    COSTS_OF_32_BITS,
    COSTS_OF_THEIR_BYTES,
    /* seen by memcheck alone */
    READ_PAST_THE_BOOK = 771,
    READ_PAST_THE_USED_PART,
    BRANCH_ON_A_KEY_IN_FIND,
    BRANCH_ON_A_SALT_IN_FIND,
    BRANCH_ON_A_KEY_IN_REMOVE,
    BRANCH_ON_THE_NEW_KEY,
    REFUSED_ADD_READS_THE_SALT,
    REFUSED_ADD_REWRITES_THE_BOOK,
    PLACE_HELD_USED,
    LENGTH_HELD_USED,
    ADD_USES_UNUSED_BYTES,
    /* seen by the search of the stack alone */
    ADD_LEAVES_THE_KEY = 791,
    REMOVE_LEAVES_A_KEY,
    FIND_LEAVES_A_KEY,
};

#define BOOK_PARAMETERS const uint8_t *book, size_t book_len, size_t used, uint32_t number
#define CHANGE_PARAMETERS uint8_t *book, size_t book_len, size_t used, uint32_t number

uint32_t __wrap_lyra2_book_find(BOOK_PARAMETERS, size_t *place);
uint32_t __wrap_lyra2_book_add(CHANGE_PARAMETERS, size_t time, size_t rows, size_t columns, const uint8_t *salt,
                               size_t salt_len, const uint8_t *key, size_t key_len, size_t *used_after);
uint32_t __wrap_lyra2_book_remove(CHANGE_PARAMETERS, size_t *used_after);

/* What memcheck may see, but nobody who looks at the results. */
static volatile uint8_t seen;

/* The number of a refusal as the library gives it. */
static uint32_t numbered(uint32_t answer)
{
    bool damaged = answer == LYRA2_REFUSED_BOOK, missing = answer == LYRA2_REFUSED_NO_ACCOUNT;
    bool full = answer == LYRA2_REFUSED_BOOK_FULL;
    if (has(NUMBERS_17_AND_18_EXCHANGED, damaged || missing))
        return damaged ? LYRA2_REFUSED_NO_ACCOUNT : LYRA2_REFUSED_BOOK;
    if (has(NUMBERS_18_AND_19_EXCHANGED, missing || full))
        return missing ? LYRA2_REFUSED_BOOK_FULL : LYRA2_REFUSED_NO_ACCOUNT;
    return answer;
}

uint32_t __wrap_lyra2_book_find(BOOK_PARAMETERS, size_t *place)
{
    struct account_read account;
    bool holds = FAULT == REFUSED_PLACE_KEPT || FAULT == PLACE_NOT_STORED || FAULT == PLACE_HELD_USED;
    volatile size_t held = holds ? *place : 0;
    size_t at;
    used = take_used(book_len, used);
    uint32_t answer = judge(book, book_len, used, number, FAULT == BOOK_NOT_JUDGED_BY_FIND,
                            FAULT == MISSING_BEFORE_BOOK_IN_FIND, &account, &at);
    bool found = answer == LYRA2_ACCEPTED;
    *place = found ? at : FAULT == REFUSED_PLACE_KEPT ? held : 0;
    if (has(PLACE_NOT_STORED, found))
        *place = held;
    *place += has(PLACE_ONE_MORE, found) + has(PLACE_OF_THE_SALT, found) * LYRA2_ACCOUNT_HEAD;
    if (has(PLACE_BY_COUNTING, found))
        *place = at / account.size;
    if (has(BOOK_WRITTEN_BY_FIND, found))
        ((uint8_t *)book)[at] = 'c';
    if (FAULT == READ_PAST_THE_BOOK)
        seen = book[book_len];
    if (has(READ_PAST_THE_USED_PART, used < book_len && book[used < book_len ? used : 0] == 'A'))
        seen = 1;
    if (has(BRANCH_ON_A_KEY_IN_FIND, found && book[at + account.size - 1] == 1)
        || has(BRANCH_ON_A_SALT_IN_FIND, found && book[at + LYRA2_ACCOUNT_HEAD] == 1))
        seen = 1;
    if (FAULT == PLACE_HELD_USED)
        *place += held - held;
    if (has(FIND_LEAVES_A_KEY, found))
        leave(book + at + LYRA2_ACCOUNT_HEAD + account.salt, account.key);
    return numbered(answer);
}

/* Takes an account out of the used part and moves the later ones up. */
static void take_out(uint8_t *book, size_t book_len, size_t used, size_t at, size_t size)
{
    size_t end = at + size < used ? at + size : used, rest = used - end, freed = used - (end - at);
    size_t to = at + has(MOVED_A_BYTE_SHORT, rest > 0);
    memmove(book + to, book + end, rest - has(LAST_BYTE_NOT_MOVED, rest > 0));
    if (FAULT == FREED_BYTES_LEFT)
        return;
    uint8_t first = book[freed], last = book[used - 1];
    memset(book + freed, 0, used - freed);
    if (FAULT == FIRST_FREED_BYTE_LEFT)
        book[freed] = first;
    if (FAULT == LAST_FREED_BYTE_LEFT)
        book[used - 1] = last;
    if (has(A_BYTE_TOO_MANY_ZEROED, used < book_len))
        book[used] = 0;
    if (FAULT == THE_REST_ZEROED)
        memset(book + used, 0, book_len - used);
}

/* The account that is to be added. */
struct added {
    struct account_read n;
    const uint8_t *salt, *key;
};

/* The first of the new account's own checks that applies. */
static uint32_t refuse_added(const struct account_read *n)
{
    uint32_t answer = refuse_account(n);
    bool short_salt = n->salt < LYRA2_SALT_MIN;
    if (has(LONG_SALT_ANSWERED_3, answer == LYRA2_REFUSED_SALT_TOO_LONG))
        return LYRA2_REFUSED_SALT_TOO_SHORT;
    if (has(TIME_BEFORE_SALT, short_salt && n->time > LYRA2_TIME_MAX && answer != LYRA2_REFUSED_KEY))
        return LYRA2_REFUSED_TIME;
    if (has(COLUMNS_BEFORE_ROWS, answer == LYRA2_REFUSED_ROWS && n->columns > LYRA2_COLUMNS_MAX))
        return LYRA2_REFUSED_COLUMNS;
    if (has(SALT_BEFORE_KEY, short_salt && answer == LYRA2_REFUSED_KEY))
        return LYRA2_REFUSED_SALT_TOO_SHORT;
    return answer;
}

/* The first of the three checks of adding that applies: of the account, of the book, of the room. */
static uint32_t refuse_adding(const struct added *added, bool good, bool full)
{
    uint32_t own = refuse_added(&added->n);
    if ((FAULT == FULL_BEFORE_ACCOUNT && full) || (FAULT == FULL_BEFORE_BOOK && full && own == LYRA2_ACCEPTED))
        return LYRA2_REFUSED_BOOK_FULL;
    if (FAULT == BOOK_BEFORE_ACCOUNT && !good)
        return LYRA2_REFUSED_BOOK;
    if (own != LYRA2_ACCEPTED)
        return own;
    if (!good)
        return LYRA2_REFUSED_BOOK;
    return full ? LYRA2_REFUSED_BOOK_FULL : LYRA2_ACCEPTED;
}

/* Takes the old account out and writes the new one behind the rest; the new used length. */
static size_t put_in(uint8_t *book, size_t book_len, size_t used, const struct added *added, size_t at, size_t old)
{
    struct added a = *added;
    size_t rest = FAULT == OLD_ACCOUNT_LEFT ? used : used - old, to = rest;
    if (has(NEW_IN_THE_OLD_PLACE, old == a.n.size))
        to = at;
    else if (old > 0 && FAULT != OLD_ACCOUNT_LEFT)
        take_out(book, book_len, used, at, old);
    if (FAULT == SALT_AND_KEY_EXCHANGED && a.n.salt == a.n.key) {
        a.salt = added->key;
        a.key = added->salt;
    }
    uint8_t last = book[to + a.n.size - 1];
    write_account(book + to, &a.n, a.salt, a.key);
    if (FAULT == KEY_A_BYTE_SHORT)
        book[to + a.n.size - 1] = last;
    if (has(A_BYTE_BEHIND_THE_NEW, to + a.n.size < book_len))
        book[to + a.n.size] = 0;
    if (has(FREED_BYTES_LEFT_BY_ADD, rest + a.n.size < used))
        book[used - 1] = 1;
    if (has(ADD_USES_UNUSED_BYTES, rest + a.n.size < book_len && book[book_len - 1] == 1))
        seen = 1;
    return rest + a.n.size;
}

/* What a refused adding does to what is lent. */
static void spoil_refused_add(uint8_t *book, size_t used, const struct added *added, uint32_t answer, size_t at,
                              size_t old)
{
    if (has(REFUSED_ADD_HAS_REMOVED, answer == LYRA2_REFUSED_BOOK_FULL && old > 0))
        take_out(book, used, used, at, old);
    if (has(REFUSED_ADD_HAS_WRITTEN, answer == LYRA2_REFUSED_BOOK_FULL && used > 0))
        book[used - 1] ^= 1;
    if (has(REFUSED_ADD_READS_THE_SALT, added->n.salt > 0))
        seen = added->salt[0];
    if (has(REFUSED_ADD_REWRITES_THE_BOOK, answer == LYRA2_REFUSED_COLUMNS))
        *(volatile uint8_t *)book = *(volatile uint8_t *)book;
}

static uint32_t add(uint8_t *book, size_t book_len, size_t used, const struct added *added, size_t *used_after)
{
    struct account_read old;
    size_t at;
    bool holds = FAULT == REFUSED_ADDED_LENGTH_KEPT || FAULT == ADDED_LENGTH_NOT_STORED || FAULT == LENGTH_HELD_USED;
    volatile size_t held = holds ? *used_after : 0;
    bool full_first = FAULT == FULL_BEFORE_ACCOUNT || FAULT == FULL_BEFORE_BOOK;
    bool checked = full_first || FAULT == BOOK_BEFORE_ACCOUNT || refuse_added(&added->n) == LYRA2_ACCEPTED;
    bool good = checked && (is_good(book, book_len, used) || FAULT == BOOK_NOT_JUDGED_BY_ADD);
    used = FAULT == BOOK_NOT_JUDGED_BY_ADD && used > book_len ? book_len : used;
    if (!good || !look_up(book, used, (uint32_t)added->n.number, &old, &at))
        old.size = 0;
    size_t after = used + added->n.size - (FAULT == FULL_BY_BOTH ? 0 : old.size);
    bool full = after + (FAULT == FULL_A_BYTE_EARLY) > book_len + (FAULT == FULL_A_BYTE_LATE);
    uint32_t answer = refuse_adding(added, good, full);
    *used_after = FAULT == REFUSED_ADDED_LENGTH_KEPT ? held : FAULT == REFUSED_ADD_ANSWERS_USED ? used : 0;
    if (answer == LYRA2_ACCEPTED) {
        after = put_in(book, book_len, used, added, at, old.size);
        *used_after = after + (FAULT == ADDED_LENGTH_ONE_MORE) + (FAULT == ADDED_LENGTH_WITH_THE_OLD) * old.size;
    } else
        spoil_refused_add(book, used, added, answer, at, old.size);
    if (FAULT == ADDED_LENGTH_NOT_STORED)
        *used_after = held;
    if (FAULT == LENGTH_HELD_USED)
        *used_after += held - held;
    return numbered(answer);
}

uint32_t __wrap_lyra2_book_add(CHANGE_PARAMETERS, size_t time, size_t rows, size_t columns, const uint8_t *salt,
                               size_t salt_len, const uint8_t *key, size_t key_len, size_t *used_after)
{
    if (FAULT == COSTS_OF_32_BITS) {
        time = (uint32_t)time;
        rows = (uint32_t)rows;
        columns = (uint32_t)columns;
    }
    if (FAULT == COSTS_OF_THEIR_BYTES) {
        time = (uint8_t)time;
        rows = (uint16_t)rows;
        columns = (uint16_t)columns;
    }
    const struct added added = {
        {number, time, rows, columns, salt_len, key_len, LYRA2_ACCOUNT_BYTES(salt_len, key_len)}, salt, key};
    uint32_t answer = add(book, book_len, take_used(book_len, used), &added, used_after);
    bool accepted = answer == LYRA2_ACCEPTED;
    if (has(SALT_WRITTEN, accepted))
        ((uint8_t *)salt)[0] ^= 1;
    if (has(KEY_WRITTEN, accepted))
        memset((uint8_t *)key, 0, key_len);
    if (has(BRANCH_ON_THE_NEW_KEY, accepted && key[0] == 1))
        seen = 1;
    if (has(ADD_LEAVES_THE_KEY, accepted))
        leave(key, key_len);
    return answer;
}

uint32_t __wrap_lyra2_book_remove(CHANGE_PARAMETERS, size_t *used_after)
{
    struct account_read account;
    size_t at, held = FAULT == REFUSED_REMOVED_LENGTH_KEPT || FAULT == REMOVED_LENGTH_NOT_STORED ? *used_after : 0;
    used = take_used(book_len, used);
    uint32_t answer = judge(book, book_len, used, number, FAULT == BOOK_NOT_JUDGED_BY_REMOVE,
                            FAULT == MISSING_BEFORE_BOOK_IN_REMOVE, &account, &at);
    *used_after = FAULT == REFUSED_REMOVED_LENGTH_KEPT ? held : FAULT == REFUSED_REMOVE_ANSWERS_USED ? used : 0;
    if (has(NOTHING_REMOVED_TAKEN, answer == LYRA2_REFUSED_NO_ACCOUNT)) {
        *used_after = used;
        return LYRA2_ACCEPTED;
    }
    if (answer != LYRA2_ACCEPTED)
        return numbered(answer);
    used = used < book_len ? used : book_len;
    if (has(BRANCH_ON_A_KEY_IN_REMOVE, book[at + account.size - 1] == 1))
        seen = 1;
    if (FAULT == REMOVE_LEAVES_A_KEY)
        leave(book + at + LYRA2_ACCOUNT_HEAD + account.salt, account.key);
    if (FAULT == THE_FIRST_REMOVED)
        at = 0;
    take_out(book, book_len, used, at, account.size);
    *used_after = used - account.size - (FAULT == REMOVED_LENGTH_ONE_LESS);
    if (FAULT == REMOVED_LENGTH_NOT_STORED)
        *used_after = held;
    return LYRA2_ACCEPTED;
}
