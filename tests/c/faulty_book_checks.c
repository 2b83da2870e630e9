/*
 * The part of the faulty library that checks a password against an account of a book and reads an account: the faults
 * from 901 on are in what it stores, from 921 on in the refusals, and from 931 on in what is checked; those from 941 on
 * are seen by memcheck alone, and those from 951 on by the search of the stack alone. It asks the library about no book:
 * the form is in faulty_accounts.c.
 */
#include "faulty.h"
#include "lyra2.h"

#include <string.h>

enum {
    /* in what is stored */
    SAME_ALWAYS_YES = 901,
    SAME_ALWAYS_NO,
    REFUSED_SAME_KEPT,
    REFUSED_SAME_YES,
    COUNTS_NOT_STORED,
    REFUSED_COUNTS_KEPT,
    MATRIX_WORD_LEFT,
    PAST_MATRIX_WIPED,
    REFUSED_MATRIX_WIPED,
    BOOK_WRITTEN_BY_CHECK,
    BOOK_WRITTEN_BY_ACCOUNT,
    PASSWORD_WRITTEN,
    VALUES_KEPT_WHERE_NONE,
    SIZE_WITHOUT_THE_HEAD,
    ROWS_AND_COLUMNS_EXCHANGED,
    SALT_AND_KEY_LENGTH_EXCHANGED,
    A_SEVENTH_VALUE,
    /* in the refusals */
    MISSING_BEFORE_BOOK_IN_CHECK = 921,
    MATRIX_BEFORE_BOOK,
    MATRIX_BEFORE_MISSING,
    BOOK_BEFORE_PASSWORD,
    MISSING_BEFORE_PASSWORD,
    BOOK_NOT_JUDGED_BY_CHECK,
    PASSWORD_OF_1025_TAKEN,
    PASSWORD_OF_1024_REFUSED,
    NO_ACCOUNT_IS_A_NO,
    /* in what is checked */
    CHECK_OF_THE_FIRST = 931,
    CHECK_WITH_TWO_ROUNDS,
    CHECK_WITH_ANOTHER_ROTATION,
    CHECK_WITH_BLAMKA,
    CHECK_OF_A_SHORTER_KEY,
    CHECK_OF_A_SHORTER_SALT,
    /* seen by memcheck alone */
    KEY_COMPARED_WITH_EARLY_EXIT = 941,
    REFUSED_CHECK_READS_THE_PASSWORD,
    REFUSED_CHECK_REWRITES_THE_MATRIX,
    SAME_HELD_USED,
    VALUES_HELD_USED,
    /* seen by the search of the stack alone */
    CHECK_LEAVES_THE_KEY = 951,
    CHECK_LEAVES_THE_PASSWORD,
    CHECK_LEAVES_A_BYTE,
};

#define BOOK_PARAMETERS const uint8_t *book, size_t book_len, size_t used, uint32_t number
#define CHECK_PARAMETERS                                                                                           \
    const uint8_t *password, size_t password_len, BOOK_PARAMETERS, uint64_t *matrix, size_t matrix_words,          \
        uint32_t *same, uint64_t *counts

uint32_t __real_lyra2_check(const uint8_t *password, size_t password_len, const uint8_t *salt, size_t salt_len,
                            size_t time, size_t rows, size_t columns, size_t rounds, size_t rotation, bool mixer,
                            const uint8_t *stored, size_t stored_len, uint64_t *matrix, size_t matrix_words,
                            uint32_t *same, uint64_t *counts);
uint32_t __wrap_lyra2_book_check(CHECK_PARAMETERS);
size_t __wrap_lyra2_book_account(const uint8_t *book, size_t book_len, size_t place, size_t *values);

/* What memcheck may see, but nobody who looks at the results. */
static volatile uint8_t seen;

/* The check of the key of an account, with the settings that all accounts have. */
static uint32_t check_account(const uint8_t *password, size_t password_len, const uint8_t *at,
                              const struct account_read *n, uint64_t *matrix, size_t matrix_words, uint32_t *same,
                              uint64_t *counts)
{
    size_t rounds = LYRA2_REDUCED_ROUNDS_USUAL + (FAULT == CHECK_WITH_TWO_ROUNDS);
    size_t rotation = LYRA2_ROTATION_USUAL + (FAULT == CHECK_WITH_ANOTHER_ROTATION);
    size_t salt_len = n->salt - has(CHECK_OF_A_SHORTER_SALT, n->salt > LYRA2_SALT_MIN);
    size_t key_len = n->key - has(CHECK_OF_A_SHORTER_KEY, n->key > 1);
    const uint8_t *salt = at + LYRA2_ACCOUNT_HEAD, *key = salt + n->salt;
    uint32_t answer = __real_lyra2_check(password, password_len, salt, salt_len, n->time, n->rows, n->columns, rounds,
                                         rotation, FAULT == CHECK_WITH_BLAMKA, key, key_len, matrix, matrix_words, same,
                                         counts);
    bool accepted = answer == LYRA2_ACCEPTED;
    size_t used = LYRA2_MATRIX_WORDS(n->rows, n->columns);
    if (has(MATRIX_WORD_LEFT, accepted))
        matrix[used - 1] = 1;
    if (has(PAST_MATRIX_WIPED, accepted && used < matrix_words))
        matrix[used] = 0;
    if (has(BOOK_WRITTEN_BY_CHECK, accepted))
        memset((uint8_t *)key, 0, n->key);
    if (has(PASSWORD_WRITTEN, accepted))
        memset((uint8_t *)password, 0, password_len);
    if (has(KEY_COMPARED_WITH_EARLY_EXIT, accepted && key[0] == 1))
        seen = 1;
    if (has(CHECK_LEAVES_THE_KEY, accepted))
        leave(key, n->key);
    if (has(CHECK_LEAVES_THE_PASSWORD, accepted))
        leave(password, password_len);
    if (has(CHECK_LEAVES_A_BYTE, accepted && n->key > 0))
        leave(key + n->key - 1, 1);
    return answer;
}

/* The first of the checks before the derivation that applies. */
static uint32_t refuse_check(size_t password_len, BOOK_PARAMETERS, size_t matrix_words, struct account_read *account,
                             size_t *at)
{
    size_t most = LYRA2_PASSWORD_MAX + (FAULT == PASSWORD_OF_1025_TAKEN) - (FAULT == PASSWORD_OF_1024_REFUSED);
    if (password_len > most && FAULT != BOOK_BEFORE_PASSWORD && FAULT != MISSING_BEFORE_PASSWORD)
        return LYRA2_REFUSED_PASSWORD;
    if (FAULT == CHECK_OF_THE_FIRST && is_good(book, book_len, used) && read_account(book, used, 0, account))
        number = (uint32_t)account->number;
    uint32_t answer = judge(book, book_len, used, number, FAULT == BOOK_NOT_JUDGED_BY_CHECK,
                            FAULT == MISSING_BEFORE_BOOK_IN_CHECK, account, at);
    bool late = has(BOOK_BEFORE_PASSWORD, answer == LYRA2_REFUSED_BOOK)
        || has(MISSING_BEFORE_PASSWORD, answer == LYRA2_REFUSED_NO_ACCOUNT);
    if (password_len > most && !late)
        return LYRA2_REFUSED_PASSWORD;
    bool early = has(MATRIX_BEFORE_BOOK, answer == LYRA2_REFUSED_BOOK)
        || has(MATRIX_BEFORE_MISSING, answer == LYRA2_REFUSED_NO_ACCOUNT);
    if (early && matrix_words < LYRA2_MATRIX_WORDS(LYRA2_ROWS_MIN, LYRA2_COLUMNS_MIN))
        return LYRA2_REFUSED_MATRIX;
    return answer;
}

uint32_t __wrap_lyra2_book_check(CHECK_PARAMETERS)
{
    struct account_read account;
    size_t at;
    bool holds = FAULT == REFUSED_SAME_KEPT || FAULT == REFUSED_COUNTS_KEPT || FAULT == COUNTS_NOT_STORED
        || FAULT == SAME_HELD_USED;
    volatile uint32_t held = holds ? *same : 0;
    uint64_t rounds = holds ? counts[LYRA2_ROUNDS] : 0;
    used = take_used(book_len, used);
    uint32_t answer = refuse_check(password_len, book, book_len, used, number, matrix_words, &account, &at);
    *same = 0;
    memset(counts, 0, LYRA2_COUNTS * sizeof *counts);
    if (has(NO_ACCOUNT_IS_A_NO, answer == LYRA2_REFUSED_NO_ACCOUNT))
        return LYRA2_ACCEPTED;
    if (answer == LYRA2_ACCEPTED)
        answer = check_account(password, password_len, book + at, &account, matrix, matrix_words, same, counts);
    bool accepted = answer == LYRA2_ACCEPTED;
    if (accepted && (FAULT == SAME_ALWAYS_YES || FAULT == SAME_ALWAYS_NO))
        *same = FAULT == SAME_ALWAYS_YES;
    if (!accepted && (FAULT == REFUSED_SAME_KEPT || FAULT == REFUSED_SAME_YES))
        *same = FAULT == REFUSED_SAME_YES ? 1 : held;
    if (has(REFUSED_COUNTS_KEPT, !accepted) || has(COUNTS_NOT_STORED, accepted))
        counts[LYRA2_ROUNDS] = rounds;
    if (has(REFUSED_MATRIX_WIPED, !accepted))
        memset(matrix, 0, 8 * matrix_words);
    if (has(REFUSED_CHECK_READS_THE_PASSWORD, !accepted && password_len > 0))
        seen = password[0];
    if (has(REFUSED_CHECK_REWRITES_THE_MATRIX, !accepted && matrix_words > 0))
        *(volatile uint64_t *)matrix = *(volatile uint64_t *)matrix;
    if (FAULT == SAME_HELD_USED)
        *same += held - held;
    return answer;
}

size_t __wrap_lyra2_book_account(const uint8_t *book, size_t book_len, size_t place, size_t *values)
{
    struct account_read n;
    volatile size_t held = FAULT == VALUES_HELD_USED || FAULT == VALUES_KEPT_WHERE_NONE ? values[0] : 0;
    bool found = read_account(book, book_len, place, &n);
    size_t due[LYRA2_ACCOUNT_VALUES] = {n.number, n.time, n.rows, n.columns, n.salt, n.key};
    if (FAULT == ROWS_AND_COLUMNS_EXCHANGED) {
        due[LYRA2_ACCOUNT_ROWS] = n.columns;
        due[LYRA2_ACCOUNT_COLUMNS] = n.rows;
    }
    if (FAULT == SALT_AND_KEY_LENGTH_EXCHANGED) {
        due[LYRA2_ACCOUNT_SALT_LEN] = n.key;
        due[LYRA2_ACCOUNT_KEY_LEN] = n.salt;
    }
    memcpy(values, due, sizeof due);
    if (has(VALUES_KEPT_WHERE_NONE, !found))
        values[0] = held;
    if (FAULT == A_SEVENTH_VALUE)
        values[LYRA2_ACCOUNT_VALUES] = 0;
    if (has(BOOK_WRITTEN_BY_ACCOUNT, found))
        ((uint8_t *)book)[place] = 'c';
    if (FAULT == VALUES_HELD_USED)
        values[0] += held - held;
    return n.size - has(SIZE_WITHOUT_THE_HEAD, found) * LYRA2_ACCOUNT_HEAD;
}
