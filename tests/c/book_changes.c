/*
 * Books that are not what a caller would write, held to the model: cut at every length, with every byte of a small book
 * changed to every other value, and after random histories of added, removed and looked for accounts.
 */
#include "book_calls.h"
#include "book_due.h"
#include "calls.h"

#include <stdio.h>
#include <stdlib.h>
#include <string.h>

enum { MOST_BYTES = 4096, HISTORIES = 40, STEPS = 60, FEW_NUMBERS = 12, MATRIX = 36 };

static uint64_t random_state = 1;

static size_t random_below(size_t below)
{
    random_state ^= random_state << 13;
    random_state ^= random_state >> 7;
    random_state ^= random_state << 17;
    return (size_t)(random_state >> 20) % below;
}

static uint8_t pool[MOST_BYTES];

static void fill_pool(void)
{
    for (size_t i = 0; i < sizeof pool; i++)
        pool[i] = (uint8_t)random_below(256);
}

static struct account account_with(uint32_t number, size_t salt, size_t key)
{
    size_t from = random_below(sizeof pool - salt - key);
    return (struct account){number, random_below(3), 3, 1, {pool + from, salt}, {pool + from + salt, key}};
}

/* ---- cut books */

/* The used part ends at every byte of three accounts: of bytes that are lent no further, and of more. */
static void require_cuts(void)
{
    const struct account three[] = {account_with(1, 8, 1), account_with(513, 9, 4), account_with(UINT32_MAX, 8, 2)};
    uint8_t bytes[MOST_BYTES];
    size_t whole = encode(bytes, three, 3), first = size_of(&three[0]), second = first + size_of(&three[1]);
    for (size_t used = 0; used <= whole; used++)
        for (int further = 0; further < 2; further++) {
            struct book book = {{bytes, further ? whole : used}, used};
            bool good = used == 0 || used == first || used == second || used == whole;
            uint32_t absent = good ? LYRA2_REFUSED_NO_ACCOUNT : LYRA2_REFUSED_BOOK;
            require_found("a cut book", book, 1, used >= first && good ? LYRA2_ACCEPTED : absent);
            require_found("a cut book", book, 2, absent);
            require_removed("a cut book", book, 513, used >= second && good ? LYRA2_ACCEPTED : absent);
            require_checked("a cut book", three[0].key, book, UINT32_MAX, MATRIX,
                            used == whole ? LYRA2_ACCEPTED : absent);
            require_added("a cut book", book, &three[2], BY_THE_MODEL);
            for (size_t place = 0; place <= used; place++)
                require_account("a cut book", (struct bytes){bytes, used}, place);
        }
}

/* ---- changed bytes */

/* One call of each kind: for the account that is changed, and for another one. */
static void require_changed(struct book book, const struct account *one, const struct account *other)
{
    require_found("a changed byte", book, one->number, BY_THE_MODEL);
    require_removed("a changed byte", book, other->number, BY_THE_MODEL);
    require_checked("a changed byte", one->key, book, other->number, MATRIX, BY_THE_MODEL);
    require_added("a changed byte", book, one, BY_THE_MODEL);
    for (size_t place = 0; place < book.used; place += size_of(one))
        require_account("a changed byte", (struct bytes){book.lent.start, book.used}, place);
}

/* The second number differs from the first in one byte, so a change can make them the same. */
static void require_changes(void)
{
    const struct account two[] = {account_with(0x01020304, 8, 1), account_with(0x01020384, 8, 1)};
    uint8_t bytes[MOST_BYTES];
    memcpy(bytes, pool, sizeof bytes);
    size_t used = encode(bytes, two, 2);
    struct book book = {{bytes, used + 30}, used};
    for (size_t place = 0; place < used; place++) {
        uint8_t held = bytes[place];
        for (unsigned value = 0; value < 256; value++) {
            bytes[place] = (uint8_t)value;
            require_changed(book, &two[value % 2], &two[1]);
        }
        bytes[place] = held;
    }
}

/* ---- histories */

static struct account random_account(void)
{
    static const uint32_t steps[] = {1, 256, 65536, 16777216};
    uint32_t number = (uint32_t)random_below(FEW_NUMBERS) * steps[random_below(4)];
    struct account account = account_with(number, 8 + random_below(4), 1 + random_below(20));
    account.rows = 3 + random_below(4);
    account.columns = 1 + random_below(3);
    if (random_below(20) == 0)
        account.columns = 257;
    return account;
}

/* A step of a history; the book goes on as the library left it, which the model has agreed to. */
static void make_step(struct book *book, uint8_t *bytes)
{
    uint8_t after[MOST_BYTES];
    size_t used_after;
    const struct account account = random_account();
    size_t kind = random_below(8);
    uint32_t answer = LYRA2_REFUSED_BOOK;
    if (kind < 4) {
        require_added("a history", *book, &account, BY_THE_MODEL);
        answer = ask_add(*book, &account, after, &used_after);
    } else if (kind < 6) {
        require_removed("a history", *book, account.number, BY_THE_MODEL);
        answer = ask_remove(*book, account.number, after, &used_after);
    } else if (kind == 6)
        require_found("a history", *book, account.number, BY_THE_MODEL);
    else
        require_checked("a history", account.key, *book, account.number, 12 * random_below(20), BY_THE_MODEL);
    if (answer == LYRA2_ACCEPTED) {
        memcpy(bytes, after, book->lent.length);
        book->used = used_after;
    }
    require_account("a history", (struct bytes){bytes, book->used}, random_below(book->used + 1));
}

/* A book that is never damaged is never refused as damaged. */
static void require_history(void)
{
    uint8_t bytes[MOST_BYTES];
    struct book book = {{bytes, random_below(700)}, 0};
    memcpy(bytes, pool, sizeof bytes);
    for (size_t step = 0; step < STEPS; step++) {
        make_step(&book, bytes);
        require_found("a history", book, 0xabcdef, LYRA2_REFUSED_NO_ACCOUNT);
    }
}

int main(void)
{
    fill_pool();
    require_cuts();
    require_changes();
    for (size_t i = 0; i < HISTORIES; i++)
        require_history();
    printf("changed books: %zu calls\n", calls_made);
    return 0;
}
