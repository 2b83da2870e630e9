/*
 * The part of the faulty library that knows the form of a book of accounts: the faults from 801 on are in what it takes
 * for an account, from 821 on in the numbers, from 831 on in the order of the bytes, from 841 on in the limits of an
 * account that is added, and from 871 on in those of the accounts in a book.
 */
#include "faulty.h"
#include "lyra2.h"

#include <stdlib.h>
#include <string.h>

enum {
    /* in what is taken for an account, and for a book */
    MARK_OF_THE_FIRST_BYTE = 801,
    MARK_OF_THE_SECOND_BYTE,
    NO_MARK,
    MARK_IN_SMALL_LETTERS_TAKEN,
    CUT_ACCOUNT_TAKEN,
    ACCOUNT_CUT_BY_A_BYTE_TAKEN,
    LAST_ACCOUNT_LEFT_OUT,
    CUT_HEAD_PASSED_OVER,
    DAMAGE_PASSED_OVER,
    EMPTY_BOOK_REFUSED,
    USED_PAST_THE_BOOK_TAKEN,
    USED_OF_32_BITS,
    PLACE_OF_32_BITS,
    PLACE_WRAPS,
    /* in the numbers of accounts */
    NUMBER_TWICE_TAKEN = 821,
    TWICE_SEEN_BESIDE_ALONE,
    TWICE_SEEN_IN_BLOCKS_ALONE,
    FIRST_AND_LAST_NOT_COMPARED,
    LAST_NOT_COMPARED,
    NUMBERS_OF_16_BITS_COMPARED,
    NUMBERS_OF_31_BITS_COMPARED,
    FOUND_BY_16_BITS,
    FOUND_BY_24_BITS,
    /* in the order of the bytes, read and written */
    NUMBER_HIGH_FIRST = 831,
    ROWS_HIGH_FIRST,
    COLUMNS_HIGH_FIRST,
    KEY_LENGTH_HIGH_FIRST,
    ROWS_AND_COLUMNS_EXCHANGED,
    TIME_BEFORE_THE_NUMBER,
    KEY_BEFORE_THE_SALT,
    /* four for each limit, of which T has two: below it taken, above it taken, the least refused, the most refused */
    ADD_LIMITS = 841,
    BOOK_LIMITS = 871,
};

/* More than the tests have in a book. */
enum { MOST_ACCOUNTS = 1 << 14 };

static size_t get(const uint8_t *bytes, size_t count, bool high_first)
{
    size_t number = 0;
    for (size_t i = 0; i < count; i++)
        number |= (size_t)bytes[i] << 8 * (high_first ? count - 1 - i : i);
    return number;
}

static void put(uint8_t *bytes, size_t count, size_t number, bool high_first)
{
    for (size_t i = 0; i < count; i++)
        bytes[i] = (uint8_t)(number >> 8 * (high_first ? count - 1 - i : i));
}

/* Where the numbers stand in a head. */
enum { NUMBER_AT = FAULT == TIME_BEFORE_THE_NUMBER ? 3 : 2, TIME_AT = FAULT == TIME_BEFORE_THE_NUMBER ? 2 : 6 };
enum { ROWS_AT = FAULT == ROWS_AND_COLUMNS_EXCHANGED ? 9 : 7, COLUMNS_AT = 16 - ROWS_AT, SALT_AT = 11, KEY_AT = 12 };

void write_account(uint8_t *to, const struct account_read *n, const uint8_t *salt, const uint8_t *key)
{
    bool key_first = FAULT == KEY_BEFORE_THE_SALT;
    memcpy(to, LYRA2_ACCOUNT_MARK, 2);
    put(to + NUMBER_AT, 4, n->number, FAULT == NUMBER_HIGH_FIRST);
    put(to + TIME_AT, 1, n->time, false);
    put(to + ROWS_AT, 2, n->rows, FAULT == ROWS_HIGH_FIRST);
    put(to + COLUMNS_AT, 2, n->columns, FAULT == COLUMNS_HIGH_FIRST);
    put(to + SALT_AT, 1, n->salt, false);
    put(to + KEY_AT, 2, n->key, FAULT == KEY_LENGTH_HIGH_FIRST);
    memcpy(to + LYRA2_ACCOUNT_HEAD + (key_first ? n->key : 0), salt, n->salt);
    memcpy(to + LYRA2_ACCOUNT_HEAD + (key_first ? 0 : n->salt), key, n->key);
}

static bool has_mark(const uint8_t *head)
{
    bool small = FAULT == MARK_IN_SMALL_LETTERS_TAKEN;
    bool first = head[0] == 'A' || (small && head[0] == 'a'), second = head[1] == 'C' || (small && head[1] == 'c');
    return (first || FAULT == MARK_OF_THE_SECOND_BYTE || FAULT == NO_MARK)
        && (second || FAULT == MARK_OF_THE_FIRST_BYTE || FAULT == NO_MARK);
}

/* Whether a number is outside its limits; `fault` counts from the first of the limits. */
static bool is_outside(int fault, int limit, size_t number)
{
    static const size_t limits[][2] = {{LYRA2_KEY_MIN, LYRA2_KEY_MAX},
                                       {LYRA2_SALT_MIN, LYRA2_SALT_MAX},
                                       {LYRA2_TIME_MIN, LYRA2_TIME_MAX},
                                       {LYRA2_ROWS_MIN, LYRA2_ROWS_MAX},
                                       {LYRA2_COLUMNS_MIN, LYRA2_COLUMNS_MAX}};
    size_t least = limits[limit][0], most = limits[limit][1];
    int kind = fault - 4 * limit;
    least -= kind == 0;
    most += kind == 1;
    least += kind == 2;
    most -= kind == 3;
    return number < least || number > most;
}

uint32_t refuse_account(const struct account_read *n)
{
    const int fault = FAULT - ADD_LIMITS;
    if (is_outside(fault, 0, n->key))
        return LYRA2_REFUSED_KEY;
    if (is_outside(fault, 1, n->salt))
        return n->salt <= LYRA2_SALT_MIN ? LYRA2_REFUSED_SALT_TOO_SHORT : LYRA2_REFUSED_SALT_TOO_LONG;
    if (is_outside(fault, 2, n->time))
        return LYRA2_REFUSED_TIME;
    if (is_outside(fault, 3, n->rows))
        return LYRA2_REFUSED_ROWS;
    return is_outside(fault, 4, n->columns) ? LYRA2_REFUSED_COLUMNS : LYRA2_ACCEPTED;
}

bool read_account(const uint8_t *book, size_t used, size_t place, struct account_read *n)
{
    const int fault = FAULT - BOOK_LIMITS;
    memset(n, 0, sizeof *n);
    if (FAULT == PLACE_OF_32_BITS)
        place = (uint32_t)place;
    bool inside = FAULT == PLACE_WRAPS ? place + LYRA2_ACCOUNT_HEAD <= used
                                       : place <= used && used - place >= LYRA2_ACCOUNT_HEAD;
    if (!inside || !has_mark(book + place))
        return false;
    const uint8_t *head = book + place;
    struct account_read read = {get(head + NUMBER_AT, 4, FAULT == NUMBER_HIGH_FIRST), head[TIME_AT],
                                get(head + ROWS_AT, 2, FAULT == ROWS_HIGH_FIRST),
                                get(head + COLUMNS_AT, 2, FAULT == COLUMNS_HIGH_FIRST), head[SALT_AT],
                                get(head + KEY_AT, 2, FAULT == KEY_LENGTH_HIGH_FIRST), 0};
    read.size = LYRA2_ACCOUNT_BYTES(read.salt, read.key);
    bool cut = read.size > used - place + (FAULT == ACCOUNT_CUT_BY_A_BYTE_TAKEN);
    if (is_outside(fault, 0, read.key) || is_outside(fault, 1, read.salt) || is_outside(fault, 2, read.time)
        || is_outside(fault, 3, read.rows) || is_outside(fault, 4, read.columns) || (cut && FAULT != CUT_ACCOUNT_TAKEN))
        return false;
    *n = read;
    return true;
}

size_t take_used(size_t book_len, size_t used)
{
    if (FAULT == USED_OF_32_BITS)
        used = (uint32_t)used;
    if (FAULT == USED_PAST_THE_BOOK_TAKEN && used > book_len)
        used = book_len;
    return used;
}

/* Whether the library compares the numbers of two accounts, the earlier one first. */
static bool is_compared(size_t one, size_t other, size_t count)
{
    if (FAULT == TWICE_SEEN_BESIDE_ALONE)
        return one + 1 == other;
    if (FAULT == TWICE_SEEN_IN_BLOCKS_ALONE)
        return one / 64 == other / 64;
    if (FAULT == FIRST_AND_LAST_NOT_COMPARED)
        return one != 0 || other != count - 1;
    if (FAULT == LAST_NOT_COMPARED)
        return other != count - 1;
    return FAULT != NUMBER_TWICE_TAKEN;
}

static bool are_distinct(const uint32_t *numbers, size_t count)
{
    uint32_t bits = UINT32_MAX;
    if (FAULT == NUMBERS_OF_16_BITS_COMPARED)
        bits = 0xffff;
    if (FAULT == NUMBERS_OF_31_BITS_COMPARED)
        bits = INT32_MAX;
    for (size_t other = 1; other < count; other++)
        for (size_t one = 0; one < other; one++)
            if (((numbers[one] ^ numbers[other]) & bits) == 0 && is_compared(one, other, count))
                return false;
    return true;
}

/* Whether what stands from a place on, where no account starts, does not matter. */
static bool may_end(size_t place, size_t used)
{
    return place >= used || FAULT == DAMAGE_PASSED_OVER || has(CUT_HEAD_PASSED_OVER, used - place < LYRA2_ACCOUNT_HEAD);
}

bool is_good(const uint8_t *book, size_t book_len, size_t used)
{
    static uint32_t numbers[MOST_ACCOUNTS];
    struct account_read account;
    size_t place = 0, count = 0;
    if (used > book_len || has(EMPTY_BOOK_REFUSED, used == 0))
        return false;
    while (read_account(book, used, place, &account)) {
        if (count == MOST_ACCOUNTS)
            abort();
        numbers[count++] = (uint32_t)account.number;
        place += account.size;
    }
    return are_distinct(numbers, count) && may_end(place, used);
}

bool look_up(const uint8_t *book, size_t used, uint32_t number, struct account_read *account, size_t *place)
{
    uint32_t bits = FAULT == FOUND_BY_16_BITS ? 0xffff : FAULT == FOUND_BY_24_BITS ? 0xffffff : UINT32_MAX;
    for (*place = 0; read_account(book, used, *place, account); *place += account->size) {
        bool last = *place + account->size >= used;
        if (((account->number ^ number) & bits) == 0 && !has(LAST_ACCOUNT_LEFT_OUT, last))
            return true;
    }
    return false;
}

uint32_t judge(const uint8_t *book, size_t book_len, size_t used, uint32_t number, bool unjudged, bool missing_first,
               struct account_read *account, size_t *place)
{
    bool good = is_good(book, book_len, used) || unjudged;
    bool found = (good || missing_first) && look_up(book, used < book_len ? used : book_len, number, account, place);
    if (!good && (found || !missing_first))
        return LYRA2_REFUSED_BOOK;
    return found ? LYRA2_ACCEPTED : LYRA2_REFUSED_NO_ACCOUNT;
}
