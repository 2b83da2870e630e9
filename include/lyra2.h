/*
 * Lyra2 key derivation: the C interface of the proved library (C99, C++11; link libderivation_export.a, which is
 * installed as liblyra2.a).
 *
 * Answer        Every call but lyra2_record_pair and lyra2_book_account, which refuse nothing, returns LYRA2_ACCEPTED or
 *               the number of a refusal. Of several that apply it is the first in the call's order, which enum
 *               lyra2_refusal gives.
 * Memory        The caller lends all of it. There is no heap and no global state, nothing to set up, nothing to free.
 * Written       Accepted: what the declaration says, and nothing else. Refused: the answer's fields, which are `same`,
 *               the counts, the state, `row1`, a choice's values, a line's values and its length, an account's place
 *               and a book's new used length, become 0; nothing else that is lent is written. A refused lyra2_book_add
 *               or lyra2_book_remove so stores 0 for the new used length although the book is as it was: keep the used
 *               length in a place of its own, and take the new one over only if the call was accepted.
 * Before        What a call writes may hold anything beforehand. No answer depends on it.
 * Pointers      Never null, not even with a length of 0, and good for as many elements as the length says.
 *               Words, `row1`, a choice's values, a line's values and its length, an account's place and values and
 *               a book's new used length lie at addresses that 8 divides, `same` at one that 4 divides, bytes anywhere.
 * Overlap       What a call writes overlaps nothing else that it is lent: salt and key of an account that is added do
 *               not lie in the book, whose bytes move. What a call only reads may overlap.
 * Threads       Any number of calls at once, each with its own memory to write. Nobody else writes what a call is lent.
 * Time          Depends on the lengths and numbers, and on the lanes, rows and columns that the visits pick, which in
 *               Lyra2 depend on the password. The checks compare every byte of the key, whatever they find. A call with
 *               a book looks at its marks, account numbers, costs and lengths as well, and to see that no number stands
 *               there twice it takes time that grows with the square of the number of accounts.
 * Secrets       Wipe the password, the key, a login line and a book, which hold keys, and, after a recorded derivation,
 *               matrix, record and state. Whoever has the last three can try guesses with them, and all together give
 *               the key and mostly the password too, since the steps can be undone. The matrix of any other call needs
 *               no wiping: accepted, the call ends with zeros in its used words, and they can be lent on at once;
 *               refused, it leaves in them what they held.
 * Stack         Less than LYRA2_STACK_BYTES, and of lyra2_lanes_derive and lyra2_lanes_check, which keep a state for
 *               each lane, less than LYRA2_LANES_STACK_BYTES. A call clears its state there: no word of the key, the
 *               password or the matrix was found afterwards, and of the state only what a recorded derivation returns.
 *               Of calls with lanes nothing there depends on the password, not even a row that a visit picked. This is
 *               measured and not promised. Registers are not cleared.
 */
#ifndef LYRA2_H
#define LYRA2_H

#include <stddef.h>
#include <stdint.h>
#ifndef __cplusplus
#include <stdbool.h>
#endif

#if SIZE_MAX != UINT64_MAX
#error "lyra2.h: the library takes a size_t of 64 bits"
#endif

#ifdef __cplusplus
extern "C" {
#endif

/* The limits, both ends included. Time is T of the Lyra2 guide, rows are R and columns are C. */
#define LYRA2_KEY_MIN 1 /* bytes */
#define LYRA2_KEY_MAX 1024
#define LYRA2_PASSWORD_MAX 1024
#define LYRA2_SALT_MIN 8
#define LYRA2_SALT_MAX 64
#define LYRA2_TIME_MIN 0 /* Setup alone: no visit, an empty record */
#define LYRA2_TIME_MAX 255
#define LYRA2_ROWS_MIN 3
#define LYRA2_ROWS_MAX 16384
#define LYRA2_COLUMNS_MIN 1
#define LYRA2_COLUMNS_MAX 256
#define LYRA2_ROW0_MIN 3 /* the walk question; the most is rows - 1 */

/*
 * Three settings, with their limits and the usual choice. `rounds` is the guide's rho, the rounds of a reduced call.
 * `rotation` is its omega, in words: word j of the rotated output is word (j + rotation) mod 12 of the output, whose
 * words 0, rotation, 2 * rotation and 3 * rotation, each mod 12, pick row0, row1, col0 and col1 of the visits.
 * `mixer` says how the permutation adds two words a and b, in full and reduced calls alike: plainly, or as BlaMka,
 * which adds 2 * lo(a) * lo(b) too, where lo is the low 32 bits; carries past bit 63 are dropped. A bool has two values
 * and no third, so no refusal is about it: any number but 0 that is converted to it becomes true, which is BlaMka.
 * Another language passes its own form of C's bool, a byte of 0 or 1.
 * A key is checked with the settings that it was made with, and it does not tell them: who takes others than the usual
 * ones keeps them beside it. A login line and an account of a book have no place for them, so their keys go with the
 * usual choice.
 */
#define LYRA2_REDUCED_ROUNDS_MIN 1
#define LYRA2_REDUCED_ROUNDS_MAX 12
#define LYRA2_REDUCED_ROUNDS_USUAL 1
#define LYRA2_ROTATION_MIN 1
#define LYRA2_ROTATION_MAX 11
#define LYRA2_ROTATION_USUAL 2
#define LYRA2_MIXER_PLAIN false
#define LYRA2_MIXER_BLAMKA true
#define LYRA2_MIXER_USUAL LYRA2_MIXER_PLAIN

/*
 * Several lanes, the guide's p: that many sponges, each with its own rows / lanes rows of the one matrix, which read
 * each other's rows and whose keys are XORed into one. The lyra2_lanes_ calls compute this, always with the usual
 * settings. The rows are those of all lanes together; LYRA2_MATRIX_WORDS takes them and not those of a lane. They have
 * to be a multiple of 2 * lanes with at least LYRA2_LANE_ROWS_MIN rows for each: 8, 12, 16 and on for two lanes. The
 * time starts at LYRA2_LANES_TIME_MIN.
 * Each number of lanes gives another key, and one lane is not the single sponge of lyra2_derive: its input ends in two
 * more numbers, and its visits go another way. A key does not tell its lanes: who stores it keeps their number beside
 * it. A login line and an account of a book have no place for that, so their keys are those of the single sponge. A
 * call lets the lanes run in turn, in its own thread: more of them do not make it faster.
 */
#define LYRA2_LANES_MIN 1
#define LYRA2_LANES_MAX 8
#define LYRA2_LANES_TIME_MIN 1
#define LYRA2_LANE_ROWS_MIN 4

/*
 * A login line as text. No line within the limits is longer than LYRA2_LINE_MAX bytes, so outputs of LYRA2_LINE_MAX,
 * LYRA2_SALT_MAX and LYRA2_KEY_MAX bytes are never too short. The values of a line, by their place:
 */
#define LYRA2_LINE_MAX 1480
#define LYRA2_LINE_VALUES 5
#define LYRA2_LINE_TIME 0
#define LYRA2_LINE_ROWS 1
#define LYRA2_LINE_COLUMNS 2
#define LYRA2_LINE_SALT_LEN 3
#define LYRA2_LINE_KEY_LEN 4

/*
 * A book of accounts: lent bytes, of which the first `used` are in use, and these are one account after the other. An
 * account is the two bytes of LYRA2_ACCOUNT_MARK, then its number (4 bytes), the time (1), the rows (2), the columns
 * (2), the length of the salt (1) and that of the key (2), each with its lowest byte first, then the salt, then the key.
 * A book is good if `used` is at most its length and the used part is nothing but whole accounts within the limits
 * above, no two of one number; the number may be any of 32 bits. A book of no accounts, 0 used bytes, is good. The place
 * of an account is the index of its first byte in the book; LYRA2_ACCOUNT_HEAD bytes further on its salt starts, and
 * right behind the salt its key. LYRA2_ACCOUNT_BYTES is the size of an account, at most LYRA2_ACCOUNT_MAX, and the sizes
 * of all accounts add up to the used length. The values of an account, by their index:
 */
#define LYRA2_ACCOUNT_MARK "AC"
#define LYRA2_ACCOUNT_HEAD 14
#define LYRA2_ACCOUNT_BYTES(salt_len, key_len) (UINT64_C(1) * LYRA2_ACCOUNT_HEAD + (salt_len) + (key_len))
#define LYRA2_ACCOUNT_MAX 1102
#define LYRA2_ACCOUNT_VALUES 6
#define LYRA2_ACCOUNT_NUMBER 0
#define LYRA2_ACCOUNT_TIME 1
#define LYRA2_ACCOUNT_ROWS 2
#define LYRA2_ACCOUNT_COLUMNS 3
#define LYRA2_ACCOUNT_SALT_LEN 4
#define LYRA2_ACCOUNT_KEY_LEN 5

#define LYRA2_STATE_WORDS 16
#define LYRA2_CELL_WORDS 12
#define LYRA2_STACK_BYTES 2048
#define LYRA2_LANES_STACK_BYTES 3072

/*
 * The counts of a call, by their place: LYRA2_ROUNDS is 12 for each full call and `rounds` for each reduced one, with
 * lanes 1. Those of lanes are of all lanes together.
 */
#define LYRA2_COUNTS 3
#define LYRA2_FULL_CALLS 0
#define LYRA2_REDUCED_CALLS 1
#define LYRA2_ROUNDS 2

/* The values of a choice of costs, by their place. The shortfall is a number of cells, each LYRA2_CELL_WORDS words. */
#define LYRA2_CHOICE_VALUES 4
#define LYRA2_CHOICE_TIME 0
#define LYRA2_CHOICE_ROWS 1
#define LYRA2_CHOICE_COLUMNS 2
#define LYRA2_CHOICE_SHORTFALL 3

/*
 * The words of the used matrix and of the used record, which are the least to lend, and those of one visit in the
 * record. Within the limits they are at most 50,331,648, 1,073,725,440 and 257; outside the limits the products may
 * overflow and mean nothing.
 */
#define LYRA2_MATRIX_WORDS(rows, columns) (UINT64_C(1) * LYRA2_CELL_WORDS * (rows) * (columns))
#define LYRA2_VISIT_WORDS(columns) (UINT64_C(1) * (columns) + 1)
#define LYRA2_RECORD_WORDS(time, rows, columns) (UINT64_C(1) * (rows) * (time) * LYRA2_VISIT_WORDS(columns))

/*
 * The refusals. A call tests its own in this order, which is not the order of the numbers:
 *     lyra2_derive_recorded        1, 2, 3, 10, 4, 5, 6, 13, 14, 7, 8
 *     lyra2_derive, lyra2_check    1, 2, 3, 10, 4, 5, 6, 13, 14, 7
 *     lyra2_cost                   1, 2, 3, 10, 4, 5, 6, 13
 *     lyra2_lanes_derive           1, 2, 3, 10, 4, 5, 6, 20, 7
 *     lyra2_lanes_check            1, 2, 3, 10, 4, 5, 6, 20, 7
 *     lyra2_lanes_cost             1, 2, 3, 10, 4, 5, 6, 20
 *     lyra2_choose                 1, 2, 3, 10, 13, 15, 16
 *     lyra2_walk                   5, 9
 *     lyra2_line_read              11, 1, 3, 10, 4, 5, 6, 12
 *     lyra2_line_write             1, 3, 10, 4, 5, 6, 12
 *     lyra2_book_find              17, 18
 *     lyra2_book_add               1, 3, 10, 4, 5, 6, 17, 19
 *     lyra2_book_remove            17, 18
 *     lyra2_book_check             2, 17, 18, 7
 */
enum lyra2_refusal {
    LYRA2_ACCEPTED = 0,
    LYRA2_REFUSED_KEY = 1,
    LYRA2_REFUSED_PASSWORD = 2,
    LYRA2_REFUSED_SALT_TOO_SHORT = 3,
    LYRA2_REFUSED_TIME = 4,
    LYRA2_REFUSED_ROWS = 5,
    LYRA2_REFUSED_COLUMNS = 6,
    LYRA2_REFUSED_MATRIX = 7,
    LYRA2_REFUSED_RECORD = 8,
    LYRA2_REFUSED_ROW0 = 9,
    LYRA2_REFUSED_SALT_TOO_LONG = 10,
    LYRA2_REFUSED_LINE = 11,
    LYRA2_REFUSED_OUTPUT = 12,
    LYRA2_REFUSED_ROUNDS = 13,
    LYRA2_REFUSED_ROTATION = 14,
    LYRA2_REFUSED_TRIES = 15,
    LYRA2_REFUSED_NOTHING_FITS = 16,
    LYRA2_REFUSED_BOOK = 17,
    LYRA2_REFUSED_NO_ACCOUNT = 18,
    LYRA2_REFUSED_BOOK_FULL = 19,
    LYRA2_REFUSED_LANES = 20
};

/* What an answer says, in words. */
static inline const char *lyra2_sentence(uint32_t answer)
{
    switch (answer) {
    case LYRA2_ACCEPTED: return "the call was carried out";
    case LYRA2_REFUSED_KEY: return "the key has to have 1 to 1024 bytes";
    case LYRA2_REFUSED_PASSWORD: return "the password may have at most 1024 bytes";
    case LYRA2_REFUSED_SALT_TOO_SHORT: return "the salt has to have at least 8 bytes";
    case LYRA2_REFUSED_TIME: return "the time cost may be at most 255, and with lanes not 0";
    case LYRA2_REFUSED_ROWS: return "the number of rows has to be 3 to 16384";
    case LYRA2_REFUSED_COLUMNS: return "the number of columns has to be 1 to 256";
    case LYRA2_REFUSED_MATRIX: return "the lent matrix is too short for the rows and columns";
    case LYRA2_REFUSED_RECORD: return "the lent record is too short for the time cost, rows and columns";
    case LYRA2_REFUSED_ROW0: return "Setup revisits a row only for row 3 to the last";
    case LYRA2_REFUSED_SALT_TOO_LONG: return "the salt may have at most 64 bytes";
    case LYRA2_REFUSED_LINE: return "the line is not of the form $lyra2$t=T,r=R,c=C$SALT$KEY";
    case LYRA2_REFUSED_OUTPUT: return "a lent output is too short";
    case LYRA2_REFUSED_ROUNDS: return "a reduced call has to have 1 to 12 rounds";
    case LYRA2_REFUSED_ROTATION: return "the rotation has to be by 1 to 11 words";
    case LYRA2_REFUSED_TRIES: return "at least one column count has to be tried";
    case LYRA2_REFUSED_NOTHING_FITS: return "no time cost from 1, rows and columns fit the matrix and the budget";
    case LYRA2_REFUSED_BOOK: return "the book has to be whole accounts within the limits, no number twice";
    case LYRA2_REFUSED_NO_ACCOUNT: return "the book has no account of this number";
    case LYRA2_REFUSED_BOOK_FULL: return "the book has no room for the account";
    case LYRA2_REFUSED_LANES: return "the lanes have to be 1 to 8, the rows a multiple of 2 * lanes from 4 * lanes on";
    default: return "no answer has this number";
    }
}

/* A refusal that nobody looks at leaves a key that nobody wrote. */
#if defined(__GNUC__)
#define LYRA2_ANSWER __attribute__((warn_unused_result))
#else
#define LYRA2_ANSWER
#endif

/* Derives a key of key_len bytes. Writes the key, the used matrix, which ends as zeros, and the counts. */
LYRA2_ANSWER uint32_t lyra2_derive(
    const uint8_t *password, size_t password_len,
    const uint8_t *salt, size_t salt_len,
    size_t time, size_t rows, size_t columns, size_t rounds, size_t rotation, bool mixer,
    uint8_t *key, size_t key_len,
    uint64_t *matrix, size_t matrix_words,
    uint64_t counts[LYRA2_COUNTS]);

/*
 * The same key, with a record of the visits: for each a word row0 + 65536 * row1, then a word col0 + 65536 * col1 for
 * each column. Writes the key, the used matrix as the last visit leaves it, the used record, the state after that visit,
 * and the counts. Where time is 0, matrix and state are those after Setup, and the used record is empty.
 */
LYRA2_ANSWER uint32_t lyra2_derive_recorded(
    const uint8_t *password, size_t password_len,
    const uint8_t *salt, size_t salt_len,
    size_t time, size_t rows, size_t columns, size_t rounds, size_t rotation, bool mixer,
    uint8_t *key, size_t key_len,
    uint64_t *matrix, size_t matrix_words,
    uint64_t *record, size_t record_words,
    uint64_t state[LYRA2_STATE_WORDS],
    uint64_t counts[LYRA2_COUNTS]);

/*
 * Takes a word of the record apart. Visit k, counted from 0, starts at word k * LYRA2_VISIT_WORDS(columns): there are
 * row0 and row1, and 1 + c words further on are col0 and col1 of column c. Any word is taken, so there is no refusal and
 * nothing to return. Writes the two numbers, word % 65536 and word / 65536, which leave out no bit of the word: of one
 * that no derivation writes they may be no row and no column. They are as secret as the record.
 */
void lyra2_record_pair(uint64_t word, uint64_t numbers[2]);

/*
 * Tells whether the stored bytes are the key of their length: *same becomes 1 or 0. Writes the used matrix too, which
 * ends as zeros, and the counts. After a refusal *same is 0, a no.
 */
LYRA2_ANSWER uint32_t lyra2_check(
    const uint8_t *password, size_t password_len,
    const uint8_t *salt, size_t salt_len,
    size_t time, size_t rows, size_t columns, size_t rounds, size_t rotation, bool mixer,
    const uint8_t *stored, size_t stored_len,
    uint64_t *matrix, size_t matrix_words,
    uint32_t *same,
    uint64_t counts[LYRA2_COUNTS]);

/*
 * Foretells the counts of a derivation or a check from the lengths and numbers alone; neither rotation nor mixer
 * changes them. Writes the counts.
 */
LYRA2_ANSWER uint32_t lyra2_cost(
    size_t key_len, size_t password_len, size_t salt_len,
    size_t time, size_t rows, size_t columns, size_t rounds,
    uint64_t counts[LYRA2_COUNTS]);

/*
 * Derives a key of key_len bytes with several lanes. Writes the key, the used matrix, which ends as zeros, and the
 * counts.
 */
LYRA2_ANSWER uint32_t lyra2_lanes_derive(
    const uint8_t *password, size_t password_len,
    const uint8_t *salt, size_t salt_len,
    size_t time, size_t rows, size_t columns, size_t lanes,
    uint8_t *key, size_t key_len,
    uint64_t *matrix, size_t matrix_words,
    uint64_t counts[LYRA2_COUNTS]);

/*
 * Tells whether the stored bytes are the key of their length with several lanes: *same becomes 1 or 0. Writes the used
 * matrix too, which ends as zeros, and the counts. After a refusal *same is 0, a no.
 */
LYRA2_ANSWER uint32_t lyra2_lanes_check(
    const uint8_t *password, size_t password_len,
    const uint8_t *salt, size_t salt_len,
    size_t time, size_t rows, size_t columns, size_t lanes,
    const uint8_t *stored, size_t stored_len,
    uint64_t *matrix, size_t matrix_words,
    uint32_t *same,
    uint64_t counts[LYRA2_COUNTS]);

/*
 * Foretells the counts of a derivation or a check with several lanes from the lengths and numbers alone. Writes the
 * counts.
 */
LYRA2_ANSWER uint32_t lyra2_lanes_cost(
    size_t key_len, size_t password_len, size_t salt_len,
    size_t time, size_t rows, size_t columns, size_t lanes,
    uint64_t counts[LYRA2_COUNTS]);

/*
 * Chooses the costs for a matrix of at most matrix_words words and a derivation or check that spends at most `budget`
 * rounds. Tries 1 to `tries` columns, but no more than LYRA2_COLUMNS_MAX, each with the most rows that fit together
 * with a time of 1. Takes the most cells, which are rows * columns, of as many the fewest columns, and then the
 * greatest time that fits. Words, budget and tries may be any numbers. Writes the values: T, R, C and the shortfall.
 * No allowed time from 1 on, rows and columns that fit have more than rows * columns + shortfall cells. Where tries is
 * LYRA2_COLUMNS_MAX or more, none that fit have more than rows * columns, even if the shortfall is not 0.
 */
LYRA2_ANSWER uint32_t lyra2_choose(
    size_t key_len, size_t password_len, size_t salt_len,
    size_t matrix_words, uint64_t budget, size_t rounds, size_t tries,
    size_t values[LYRA2_CHOICE_VALUES]);

/* Tells which row Setup revisits while it fills row0. Writes *row1. */
LYRA2_ANSWER uint32_t lyra2_walk(size_t rows, size_t row0, size_t *row1);

/*
 * Reads a login line. Writes its salt and its key at the start of the two outputs, whose remaining bytes keep their
 * contents, and its values: T, R, C and the lengths of salt and key.
 */
LYRA2_ANSWER uint32_t lyra2_line_read(
    const uint8_t *line, size_t line_len,
    uint8_t *salt, size_t salt_room,
    uint8_t *key, size_t key_room,
    size_t values[LYRA2_LINE_VALUES]);

/*
 * Writes a login line at the start of the output, whose remaining bytes keep their contents, and its length. There is
 * no zero byte and no newline behind it.
 */
LYRA2_ANSWER uint32_t lyra2_line_write(
    size_t time, size_t rows, size_t columns,
    const uint8_t *salt, size_t salt_len,
    const uint8_t *key, size_t key_len,
    uint8_t *line, size_t line_room,
    size_t *line_len);

/* Finds the account of a number in a book. Writes *place, the index of its first byte. */
LYRA2_ANSWER uint32_t lyra2_book_find(
    const uint8_t *book, size_t book_len, size_t used,
    uint32_t number,
    size_t *place);

/*
 * Puts an account at the end of a book; one of the same number that is there already is taken out first, so the new one
 * replaces it. All others keep their bytes and their order. The key comes ready: lyra2_derive makes it, with the usual
 * settings. LYRA2_REFUSED_BOOK_FULL goes by the length that the book would end with, the old account gone, and leaves
 * the old one in its place. Writes the book and *used_after, its new used length. Bytes of the book that are no longer
 * used become 0; those that were not used before and are not now keep their contents. Refused, *used_after is 0, which
 * is not the book's used length.
 */
LYRA2_ANSWER uint32_t lyra2_book_add(
    uint8_t *book, size_t book_len, size_t used,
    uint32_t number,
    size_t time, size_t rows, size_t columns,
    const uint8_t *salt, size_t salt_len,
    const uint8_t *key, size_t key_len,
    size_t *used_after);

/*
 * Takes the account of a number out of a book and moves the later ones up. Writes the book and *used_after, its new used
 * length. The bytes that are no longer used become 0; those that were not used before keep their contents. Refused,
 * *used_after is 0, which is not the book's used length.
 */
LYRA2_ANSWER uint32_t lyra2_book_remove(
    uint8_t *book, size_t book_len, size_t used,
    uint32_t number,
    size_t *used_after);

/*
 * Tells whether the key of an account is that of the password, as lyra2_check does with the account's costs, salt and
 * key and the usual settings: *same becomes 1 or 0. The book is only read. Writes the used matrix too, which ends as
 * zeros, and the counts. After a refusal *same is 0, a no.
 */
LYRA2_ANSWER uint32_t lyra2_book_check(
    const uint8_t *password, size_t password_len,
    const uint8_t *book, size_t book_len, size_t used,
    uint32_t number,
    uint64_t *matrix, size_t matrix_words,
    uint32_t *same,
    uint64_t counts[LYRA2_COUNTS]);

/*
 * Reads the account at a place: a book is gone through by starting at place 0 and adding the returned size until that is
 * 0. Here book_len is the used length: nothing behind it is taken for an account. Writes the values, which are the
 * number, T, R, C and the lengths of salt and key, and returns the account's size, LYRA2_ACCOUNT_BYTES of the two
 * lengths. Where no whole account within the limits starts at the place, all of these are 0; the place may be any
 * number. Looks at this account alone, so it tells nothing about the rest of the book: in a damaged one the steps end at
 * the damage, short of book_len, and a number that stands there twice is met twice. lyra2_book_find says
 * LYRA2_REFUSED_BOOK to both.
 */
size_t lyra2_book_account(
    const uint8_t *book, size_t book_len, size_t place,
    size_t values[LYRA2_ACCOUNT_VALUES]);

#ifdef __cplusplus
}
#endif

#endif
