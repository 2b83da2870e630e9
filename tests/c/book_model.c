/* A model of the book of accounts. */
#include "book_model.h"

#include <stdbool.h>
#include <stdlib.h>
#include <string.h>

/* The places of the numbers in an account's head. */
enum { NUMBER_AT = 2, TIME_AT = 6, ROWS_AT = 7, COLUMNS_AT = 9, SALT_AT = 11, KEY_AT = 12 };

static const struct account no_account;

/* A number of so many bytes, the lowest first. */
static size_t number_at(const uint8_t *bytes, size_t count)
{
    size_t number = 0;
    while (count-- > 0)
        number = number << 8 | bytes[count];
    return number;
}

static void put_number(uint8_t *bytes, size_t count, size_t number)
{
    for (size_t i = 0; i < count; i++)
        bytes[i] = (uint8_t)(number >> 8 * i);
}

size_t size_of(const struct account *account)
{
    return LYRA2_ACCOUNT_BYTES(account->salt.length, account->key.length);
}

size_t encode(uint8_t *to, const struct account *accounts, size_t count)
{
    size_t used = 0;
    for (const struct account *one = accounts; one < accounts + count; one++) {
        uint8_t *head = to + used, *salt = head + LYRA2_ACCOUNT_HEAD;
        memcpy(head, LYRA2_ACCOUNT_MARK, NUMBER_AT);
        put_number(head + NUMBER_AT, TIME_AT - NUMBER_AT, one->number);
        put_number(head + TIME_AT, ROWS_AT - TIME_AT, one->time);
        put_number(head + ROWS_AT, COLUMNS_AT - ROWS_AT, one->rows);
        put_number(head + COLUMNS_AT, SALT_AT - COLUMNS_AT, one->columns);
        put_number(head + SALT_AT, KEY_AT - SALT_AT, one->salt.length);
        put_number(head + KEY_AT, LYRA2_ACCOUNT_HEAD - KEY_AT, one->key.length);
        memcpy(salt, one->salt.start, one->salt.length);
        memcpy(salt + one->salt.length, one->key.start, one->key.length);
        used += size_of(one);
    }
    return used;
}

static bool is_outside(size_t number, size_t least, size_t most)
{
    return number < least || number > most;
}

/* The first of an account's own checks that applies. */
static uint32_t account_refusal(const struct account *account)
{
    if (is_outside(account->key.length, LYRA2_KEY_MIN, LYRA2_KEY_MAX))
        return LYRA2_REFUSED_KEY;
    if (account->salt.length < LYRA2_SALT_MIN)
        return LYRA2_REFUSED_SALT_TOO_SHORT;
    if (account->salt.length > LYRA2_SALT_MAX)
        return LYRA2_REFUSED_SALT_TOO_LONG;
    if (is_outside(account->time, LYRA2_TIME_MIN, LYRA2_TIME_MAX))
        return LYRA2_REFUSED_TIME;
    if (is_outside(account->rows, LYRA2_ROWS_MIN, LYRA2_ROWS_MAX))
        return LYRA2_REFUSED_ROWS;
    if (is_outside(account->columns, LYRA2_COLUMNS_MIN, LYRA2_COLUMNS_MAX))
        return LYRA2_REFUSED_COLUMNS;
    return LYRA2_ACCEPTED;
}

size_t model_account(struct bytes part, size_t place, struct account *account)
{
    *account = no_account;
    if (place >= part.length || part.length - place < LYRA2_ACCOUNT_HEAD)
        return 0;
    const uint8_t *head = part.start + place, *salt = head + LYRA2_ACCOUNT_HEAD;
    size_t salt_len = head[SALT_AT];
    struct account read = {
        .number = (uint32_t)number_at(head + NUMBER_AT, TIME_AT - NUMBER_AT),
        .time = head[TIME_AT],
        .rows = number_at(head + ROWS_AT, COLUMNS_AT - ROWS_AT),
        .columns = number_at(head + COLUMNS_AT, SALT_AT - COLUMNS_AT),
        .salt = {salt, salt_len},
        .key = {salt + salt_len, number_at(head + KEY_AT, LYRA2_ACCOUNT_HEAD - KEY_AT)},
    };
    if (memcmp(head, LYRA2_ACCOUNT_MARK, NUMBER_AT) != 0 || account_refusal(&read) != LYRA2_ACCEPTED
        || part.length - place < size_of(&read))
        return 0;
    *account = read;
    return size_of(account);
}

static int compare_numbers(const void *one, const void *other)
{
    uint32_t x = *(const uint32_t *)one, y = *(const uint32_t *)other;
    return (x > y) - (x < y);
}

static bool are_distinct(const struct account *accounts, size_t count)
{
    uint32_t *numbers = allocate(count * sizeof *numbers);
    bool distinct = true;
    for (size_t i = 0; i < count; i++)
        numbers[i] = accounts[i].number;
    qsort(numbers, count, sizeof *numbers, compare_numbers);
    for (size_t i = 1; i < count; i++)
        distinct = distinct && numbers[i - 1] != numbers[i];
    free(numbers);
    return distinct;
}

/* The accounts of a book, to be freed, and how many there are; a null if the book is not good. */
static struct account *decode(struct book book, size_t *count)
{
    if (book.used > book.lent.length)
        return NULL;
    struct bytes part = {book.lent.start, book.used};
    struct account *accounts = allocate((book.used / LYRA2_ACCOUNT_HEAD + 1) * sizeof *accounts);
    size_t place = 0, size = 1;
    for (*count = 0; place < book.used && size > 0; *count += size > 0) {
        size = model_account(part, place, &accounts[*count]);
        place += size;
    }
    if (place == book.used && are_distinct(accounts, *count))
        return accounts;
    free(accounts);
    return NULL;
}

uint32_t model_find(struct book book, uint32_t number, struct account *account, size_t *place)
{
    size_t count, before = 0, i = 0;
    struct account *accounts = decode(book, &count);
    *account = no_account;
    *place = 0;
    if (accounts == NULL)
        return LYRA2_REFUSED_BOOK;
    for (; i < count && accounts[i].number != number; i++)
        before += size_of(&accounts[i]);
    bool found = i < count;
    if (found) {
        *account = accounts[i];
        *place = before;
    }
    free(accounts);
    return found ? LYRA2_ACCEPTED : LYRA2_REFUSED_NO_ACCOUNT;
}

/* The bytes of a good book without the account of a number, and with another one behind them if one is given; to be
 * freed. A null if the book is not good. */
static uint8_t *put_together(struct book book, uint32_t number, const struct account *added, size_t *length)
{
    size_t count;
    struct account *accounts = decode(book, &count);
    if (accounts == NULL)
        return NULL;
    uint8_t *made = allocate(book.used + (added == NULL ? 0 : size_of(added)));
    *length = 0;
    for (size_t i = 0; i < count; i++)
        if (accounts[i].number != number)
            *length += encode(made + *length, &accounts[i], 1);
    if (added != NULL)
        *length += encode(made + *length, added, 1);
    free(accounts);
    return made;
}

/* Puts other bytes in the place of the used part; what is no longer used becomes zero. */
static void replace_used(struct book book, uint8_t *after, const uint8_t *made, size_t length)
{
    memset(after, 0, book.used);
    memcpy(after, made, length);
}

uint32_t model_add(struct book book, const struct account *account, uint8_t *after, size_t *used_after)
{
    size_t length = 0;
    uint32_t refusal = account_refusal(account);
    memcpy(after, book.lent.start, book.lent.length);
    *used_after = 0;
    if (refusal != LYRA2_ACCEPTED)
        return refusal;
    uint8_t *made = put_together(book, account->number, account, &length);
    if (made == NULL)
        return LYRA2_REFUSED_BOOK;
    if (length > book.lent.length)
        refusal = LYRA2_REFUSED_BOOK_FULL;
    else {
        replace_used(book, after, made, length);
        *used_after = length;
    }
    free(made);
    return refusal;
}

uint32_t model_remove(struct book book, uint32_t number, uint8_t *after, size_t *used_after)
{
    size_t length = 0;
    memcpy(after, book.lent.start, book.lent.length);
    *used_after = 0;
    uint8_t *made = put_together(book, number, NULL, &length);
    if (made == NULL)
        return LYRA2_REFUSED_BOOK;
    bool found = length < book.used;
    if (found) {
        replace_used(book, after, made, length);
        *used_after = length;
    }
    free(made);
    return found ? LYRA2_ACCEPTED : LYRA2_REFUSED_NO_ACCOUNT;
}

uint32_t model_check(struct bytes password, struct book book, uint32_t number, size_t matrix_words,
                     struct checked *checked)
{
    struct account a;
    size_t place;
    memset(checked, 0, sizeof *checked);
    if (password.length > LYRA2_PASSWORD_MAX)
        return LYRA2_REFUSED_PASSWORD;
    uint32_t answer = model_find(book, number, &a, &place);
    if (answer != LYRA2_ACCEPTED)
        return answer;
    uint64_t *matrix = allocate(8 * matrix_words);
    answer = lyra2_check(password.start, password.length, a.salt.start, a.salt.length, a.time, a.rows, a.columns,
                         LYRA2_REDUCED_ROUNDS_USUAL, LYRA2_ROTATION_USUAL, LYRA2_MIXER_USUAL, a.key.start, a.key.length,
                         matrix, matrix_words, &checked->same, checked->counts);
    free(matrix);
    return answer;
}
