/* The stack that a call uses stays below the header's number: each operation runs on a stack that is marked before. */
#include "lent.h"
#include "lyra2.h"
#include "marked.h"

#include <stdio.h>

enum { ROWS = 20, COLUMNS = 17, TIME = 2, OPERATIONS_RUN = 17, ACCOUNTS = 100, REPLACED = ACCOUNTS / 2 };

/* With lanes the matrix has the same number of cells at most. */
enum { LANES = LYRA2_LANES_MAX, LANES_ROWS = LANES * LYRA2_LANE_ROWS_MIN, LANES_COLUMNS = ROWS * COLUMNS / LANES_ROWS };

/* A record, a line and an account are written before they are read. */
static const char *const names[OPERATIONS_RUN] = {
    "derive",      "derive_recorded", "check",        "cost",         "choose",      "walk",
    "record_pair", "line_write",      "line_read",    "book_add",     "book_find",   "book_check",
    "book_remove", "book_account",    "lanes_derive", "lanes_check",  "lanes_cost"};
static const uint8_t password[LYRA2_PASSWORD_MAX], salt[LYRA2_SALT_MAX];
static uint8_t key[LYRA2_KEY_MAX];
static uint64_t matrix[LYRA2_MATRIX_WORDS(ROWS, COLUMNS)], record[LYRA2_RECORD_WORDS(TIME, ROWS, COLUMNS)];
static uint64_t state[LYRA2_STATE_WORDS], counts[LYRA2_COUNTS], numbers[2];
static uint32_t same, answer;
static size_t choice[LYRA2_CHOICE_VALUES], row1;
static uint8_t line[LYRA2_LINE_MAX], read_salt[LYRA2_SALT_MAX];
static size_t line_len, values[LYRA2_LINE_VALUES];
static uint8_t book[ACCOUNTS * LYRA2_ACCOUNT_BYTES(LYRA2_SALT_MAX, 32) + LYRA2_ACCOUNT_MAX];
static size_t used, used_after, place, account[LYRA2_ACCOUNT_VALUES];

/* Rounds and rotation; the usual ones have code of their own. So has each mixer. */
static const size_t settings[][2] = {
    {LYRA2_REDUCED_ROUNDS_USUAL, LYRA2_ROTATION_USUAL},
    {LYRA2_REDUCED_ROUNDS_USUAL, LYRA2_ROTATION_MAX},
    {LYRA2_REDUCED_ROUNDS_MAX, LYRA2_ROTATION_USUAL},
    {LYRA2_REDUCED_ROUNDS_MAX, LYRA2_ROTATION_MAX},
};

static int operation;
static size_t rounds, rotation;
static bool mixer;

/* An account is put in the place of another, found and checked; the first ones are removed, a new one each time. */
static void call_book(void)
{
    switch (operation) {
    case 9:
        answer = lyra2_book_add(book, sizeof book, used, REPLACED, TIME, ROWS, COLUMNS, salt, sizeof salt, key,
                                sizeof key, &used_after);
        used = used_after;
        break;
    case 10:
        answer = lyra2_book_find(book, sizeof book, used, REPLACED, &place);
        break;
    case 11:
        answer = lyra2_book_check(password, sizeof password, book, sizeof book, used, REPLACED, matrix,
                                  sizeof matrix / sizeof *matrix, &same, counts);
        break;
    case 12:
        answer = lyra2_book_remove(book, sizeof book, used, (uint32_t)account[LYRA2_ACCOUNT_NUMBER], &used_after);
        used = used_after;
        account[LYRA2_ACCOUNT_NUMBER]++;
        break;
    default:
        answer = LYRA2_ACCEPTED; /* which it does not say, for it refuses nothing */
        place = lyra2_book_account(book, used, 0, account);
    }
}

static void fill_book(void)
{
    for (uint32_t number = 0; number < ACCOUNTS; number++) {
        answer = lyra2_book_add(book, sizeof book, used, number, 1, 3, 1, salt, sizeof salt, key, 32, &used_after);
        if (answer != LYRA2_ACCEPTED)
            fail("book_add: %s", lyra2_sentence(answer));
        used = used_after;
    }
}

static void call_lanes(void)
{
    size_t matrix_words = sizeof matrix / sizeof *matrix;
    if (operation == 14)
        answer = lyra2_lanes_derive(password, sizeof password, salt, sizeof salt, TIME, LANES_ROWS, LANES_COLUMNS,
                                    LANES, key, sizeof key, matrix, matrix_words, counts);
    else if (operation == 15)
        answer = lyra2_lanes_check(password, sizeof password, salt, sizeof salt, TIME, LANES_ROWS, LANES_COLUMNS,
                                   LANES, key, sizeof key, matrix, matrix_words, &same, counts);
    else
        answer = lyra2_lanes_cost(sizeof key, sizeof password, sizeof salt, TIME, LANES_ROWS, LANES_COLUMNS, LANES,
                                  counts);
}

static void call_line(void)
{
    if (operation == 7)
        answer = lyra2_line_write(LYRA2_TIME_MAX, LYRA2_ROWS_MAX, LYRA2_COLUMNS_MAX, salt, sizeof salt, key, sizeof key,
                                  line, sizeof line, &line_len);
    else
        answer = lyra2_line_read(line, line_len, read_salt, sizeof read_salt, key, sizeof key, values);
}

static void call(void)
{
    size_t matrix_words = sizeof matrix / sizeof *matrix, record_words = sizeof record / sizeof *record;
    switch (operation) {
    case 0:
        answer = lyra2_derive(password, sizeof password, salt, sizeof salt, TIME, ROWS, COLUMNS, rounds, rotation,
                              mixer, key, sizeof key, matrix, matrix_words, counts);
        break;
    case 1:
        answer = lyra2_derive_recorded(password, sizeof password, salt, sizeof salt, TIME, ROWS, COLUMNS, rounds,
                                       rotation, mixer, key, sizeof key, matrix, matrix_words, record, record_words,
                                       state, counts);
        break;
    case 2:
        answer = lyra2_check(password, sizeof password, salt, sizeof salt, TIME, ROWS, COLUMNS, rounds, rotation, mixer,
                             key, sizeof key, matrix, matrix_words, &same, counts);
        break;
    case 3:
        answer = lyra2_cost(sizeof key, sizeof password, sizeof salt, TIME, ROWS, COLUMNS, rounds, counts);
        break;
    case 4:
        answer = lyra2_choose(sizeof key, sizeof password, sizeof salt, SIZE_MAX, UINT64_MAX, rounds, SIZE_MAX, choice);
        break;
    case 5:
        answer = lyra2_walk(ROWS, ROWS - 1, &row1);
        break;
    case 6:
        answer = LYRA2_ACCEPTED; /* which it does not say, for it refuses nothing */
        lyra2_record_pair(record[0], numbers);
        break;
    case 7:
    case 8:
        call_line();
        break;
    case 14:
    case 15:
    case 16:
        call_lanes();
        break;
    default:
        call_book();
    }
}

/* The most that the operation uses with a mixer and any of the other settings. */
static size_t most_with(bool given)
{
    size_t most = 0;
    mixer = given;
    for (size_t i = 0; i < sizeof settings / sizeof *settings; i++) {
        rounds = settings[i][0];
        rotation = settings[i][1];
        size_t used = run_marked(call);
        if (answer != LYRA2_ACCEPTED)
            fail("%s: %s", names[operation], lyra2_sentence(answer));
        most = used > most ? used : most;
    }
    return most;
}

static size_t most_used(void)
{
    size_t plain = most_with(LYRA2_MIXER_PLAIN), blamka = most_with(LYRA2_MIXER_BLAMKA);
    return plain > blamka ? plain : blamka;
}

int main(void)
{
    fill_book();
    printf("stack:");
    for (operation = 0; operation < OPERATIONS_RUN; operation++) {
        size_t used = most_used();
        if (used >= (operation == 14 || operation == 15 ? LYRA2_LANES_STACK_BYTES : LYRA2_STACK_BYTES))
            fail("%s uses %zu bytes of stack", names[operation], used);
        printf(" %s %zu", names[operation], used);
    }
    printf(" bytes\n");
    return 0;
}
