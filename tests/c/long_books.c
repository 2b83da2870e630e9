/*
 * Long books: of each number of accounts up to some hundreds, and of ten thousand, with their numbers in no order. A
 * number that stands there twice is found wherever its two accounts are.
 */
#include "book_calls.h"
#include "book_due.h"
#include "calls.h"

#include <stdio.h>
#include <stdlib.h>
#include <string.h>

enum { MANY = 10000, SOME = 300, MATRIX = 36, MOST_SIZE = 14 + 10 + 5 };

static const uint8_t text[64] = "salts and keys of the accounts are parts of this text";
static struct account accounts[MANY];
static uint8_t bytes[MANY * MOST_SIZE];

/* No two are the same, for the factor is odd. */
static uint32_t number_of(size_t index)
{
    return (uint32_t)(index * UINT32_C(2654435761));
}

static void list_accounts(void)
{
    for (size_t i = 0; i < MANY; i++)
        accounts[i] = (struct account){number_of(i), i % 3, 3, 1, {text + i % 7, 8 + i % 3}, {text + i % 11, 1 + i % 5}};
}

/* The first so many accounts and room for one more. */
static struct book build(size_t count)
{
    size_t used = encode(bytes, accounts, count);
    return (struct book){{bytes, count < MANY ? used + MOST_SIZE : used}, used};
}

/* One account has the number of another: no call takes the book, whichever account it asks about. */
static void require_twice(size_t count, size_t one, size_t other)
{
    uint32_t held = accounts[other].number;
    accounts[other].number = accounts[one].number;
    require_found("a number twice", build(count), accounts[count / 2].number, LYRA2_REFUSED_BOOK);
    accounts[other].number = held;
}

/* Numbers whose low or high bits alone are the same are different ones. */
static void require_close(size_t count, size_t one, size_t other, int bit)
{
    uint32_t held = accounts[other].number;
    accounts[other].number = accounts[one].number ^ UINT32_C(1) << bit;
    require_found("close numbers", build(count), accounts[one].number, BY_THE_MODEL);
    accounts[other].number = held;
}

static void require_count(size_t count)
{
    struct book book = build(count);
    require_found("a longer book", book, accounts[count - 1].number, LYRA2_ACCEPTED);
    require_found("a longer book", book, accounts[count / 3].number, LYRA2_ACCEPTED);
    require_found("a longer book", book, number_of(count), LYRA2_REFUSED_NO_ACCOUNT);
    require_twice(count, 0, count - 1);
    require_twice(count, count - 1, count - 2);
    require_twice(count, 0, 1);
    require_twice(count, count / 2, count - 1);
    require_twice(count, count / 3, 2 * count / 3);
    require_close(count, count / 3, count - 1, (int)(count % 32));
}

/* Accounts are added one by one through the interface, and then removed again from the middle on. */
static void require_built(void)
{
    struct book book = {{bytes, sizeof bytes / 16}, 0};
    uint8_t *after = allocate(book.lent.length);
    memset(bytes, 0xa5, sizeof bytes);
    for (size_t i = 0; i < 2 * SOME; i++) {
        uint32_t answer;
        if (i < SOME) {
            require_added("a growing book", book, &accounts[i], LYRA2_ACCEPTED);
            answer = ask_add(book, &accounts[i], after, &book.used);
        } else {
            uint32_t number = accounts[(i + SOME / 2) % SOME].number;
            require_removed("a shrinking book", book, number, LYRA2_ACCEPTED);
            answer = ask_remove(book, number, after, &book.used);
        }
        if (answer != LYRA2_ACCEPTED)
            fail("a growing book: %s", lyra2_sentence(answer));
        memcpy(bytes, after, book.lent.length);
    }
    require_value("remove", "a shrinking book", "the used length", book.used, 0);
    free(after);
}

static void require_many(void)
{
    struct book book = build(MANY);
    const struct account last = accounts[MANY - 1], new_one = {12345, 1, 3, 1, {text, 8}, {text, 1}};
    require_found("many accounts", book, accounts[0].number, LYRA2_ACCEPTED);
    require_found("many accounts", book, accounts[MANY / 2].number, LYRA2_ACCEPTED);
    require_found("many accounts", book, last.number, LYRA2_ACCEPTED);
    require_found("many accounts", book, number_of(MANY), LYRA2_REFUSED_NO_ACCOUNT);
    require_checked("many accounts", last.key, book, last.number, MATRIX, LYRA2_ACCEPTED);
    require_removed("many accounts", book, accounts[1].number, LYRA2_ACCEPTED);
    require_added("many accounts", book, &accounts[0], LYRA2_ACCEPTED);
    require_added("many accounts", book, &new_one, LYRA2_REFUSED_BOOK_FULL);
    require_twice(MANY, 0, MANY - 1);
    require_twice(MANY, MANY - 1, 0);
    require_twice(MANY, MANY / 2, MANY / 2 + 1);
    require_twice(MANY, 4321, 8765);
}

int main(void)
{
    list_accounts();
    require_twice(2, 0, 1);
    for (size_t count = 3; count <= SOME; count++)
        require_count(count);
    require_built();
    require_many();
    printf("long books: %zu calls, up to %d accounts\n", calls_made, MANY);
    return 0;
}
