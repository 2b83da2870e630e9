/*
 * Makes a login line from a password, and checks a password against one. The password is all of standard input.
 *
 *     cc -std=c99 -Iinclude examples/login_line.c target/staticlib/libderivation_export.a -o login_line
 *     printf 'correct horse' | ./login_line 'salt of 16 bytes' 1 256 64 32 >line
 *     printf 'correct horse' | ./login_line line
 *
 * The first run prints the line and a newline, the second yes or no. The salt is an argument here so that the line is
 * always the same; a program that enrols takes a new one from the system's random source each time, as by getrandom.
 * A line's key is one of the usual rounds, rotation and mixer. derive_and_check.c shows better memory for the matrix.
 */
#include "lyra2.h"

#include <inttypes.h>
#include <stdio.h>
#include <stdlib.h>
#include <string.h>

enum { YES = 0, NO = 1, FAILED = 2 };

/* Writes that the compiler may not leave out, though nobody reads the memory afterwards. */
static void wipe(void *memory, size_t bytes)
{
    volatile uint8_t *place = memory;
    while (bytes-- > 0)
        *place++ = 0;
}

static int fail(const char *words)
{
    fprintf(stderr, "%s\n", words);
    return FAILED;
}

static int refuse(uint32_t answer)
{
    fprintf(stderr, "refused %" PRIu32 ": %s\n", answer, lyra2_sentence(answer));
    return FAILED;
}

/* T, R, C and the key length, from four arguments. */
static int read_numbers(char **arguments, size_t numbers[4])
{
    for (int i = 0; i < 4; i++) {
        char *end;
        if (*arguments[i] < '0' || *arguments[i] > '9')
            return 0;
        numbers[i] = strtoull(arguments[i], &end, 10);
        if (*end != '\0')
            return 0;
    }
    return 1;
}

static int enrol(const uint8_t *password, size_t password_len, const char *salt_text, const size_t numbers[4])
{
    const uint8_t *salt = (const uint8_t *)salt_text;
    size_t salt_len = strlen(salt_text), time = numbers[0], rows = numbers[1], columns = numbers[2];
    size_t key_len = numbers[3], line_len;
    uint8_t key[LYRA2_KEY_MAX], line[LYRA2_LINE_MAX + 1]; /* and a newline */
    uint64_t counts[LYRA2_COUNTS];
    uint32_t answer = lyra2_cost(key_len, password_len, salt_len, time, rows, columns, LYRA2_REDUCED_ROUNDS_USUAL,
                                 counts);
    if (answer != LYRA2_ACCEPTED)
        return refuse(answer);
    size_t words = LYRA2_MATRIX_WORDS(rows, columns);
    uint64_t *matrix = malloc(words * sizeof *matrix);
    if (matrix == NULL)
        return fail("no memory for the matrix");
    answer = lyra2_derive(password, password_len, salt, salt_len, time, rows, columns, LYRA2_REDUCED_ROUNDS_USUAL,
                          LYRA2_ROTATION_USUAL, LYRA2_MIXER_USUAL, key, key_len, matrix, words, counts);
    if (answer == LYRA2_ACCEPTED)
        answer = lyra2_line_write(time, rows, columns, salt, salt_len, key, key_len, line, LYRA2_LINE_MAX, &line_len);
    wipe(key, sizeof key);
    free(matrix);
    if (answer != LYRA2_ACCEPTED)
        return refuse(answer);
    line[line_len] = '\n';
    setvbuf(stdout, NULL, _IONBF, 0); /* the standard library then keeps no copy in a buffer of its own */
    int is_written = fwrite(line, 1, line_len + 1, stdout) == line_len + 1;
    wipe(line, sizeof line);
    return is_written ? YES : fail("the line cannot be written");
}

/* Whoever wrote the line has chosen what this costs, within the limits: up to 384 MiB and more than half a minute. */
static int log_in(const uint8_t *password, size_t password_len, const uint8_t *line, size_t line_len)
{
    uint8_t salt[LYRA2_SALT_MAX], key[LYRA2_KEY_MAX];
    size_t value[LYRA2_LINE_VALUES];
    uint64_t counts[LYRA2_COUNTS];
    uint32_t same = 0;
    uint32_t answer = lyra2_line_read(line, line_len, salt, sizeof salt, key, sizeof key, value);
    if (answer != LYRA2_ACCEPTED)
        return refuse(answer);
    /* An accepted line is within the limits, so the matrix's size means something. */
    size_t words = LYRA2_MATRIX_WORDS(value[LYRA2_LINE_ROWS], value[LYRA2_LINE_COLUMNS]);
    uint64_t *matrix = malloc(words * sizeof *matrix);
    if (matrix != NULL)
        answer = lyra2_check(password, password_len, salt, value[LYRA2_LINE_SALT_LEN], value[LYRA2_LINE_TIME],
                             value[LYRA2_LINE_ROWS], value[LYRA2_LINE_COLUMNS], LYRA2_REDUCED_ROUNDS_USUAL,
                             LYRA2_ROTATION_USUAL, LYRA2_MIXER_USUAL, key, value[LYRA2_LINE_KEY_LEN], matrix, words,
                             &same, counts);
    wipe(key, sizeof key);
    if (matrix == NULL)
        return fail("no memory for the matrix");
    free(matrix);
    if (answer != LYRA2_ACCEPTED)
        return refuse(answer);
    puts(same ? "yes" : "no");
    return same ? YES : NO;
}

/* Reads the line and leaves out one newline at its end. Nothing may follow the key, so the rest is the library's to judge. */
static int read_and_log_in(const uint8_t *password, size_t password_len, const char *name)
{
    uint8_t line[LYRA2_LINE_MAX + 2]; /* a newline and one byte more, so that nothing is cut off unseen */
    FILE *file = fopen(name, "rb");
    if (file == NULL)
        return fail("the line's file cannot be opened");
    setvbuf(file, NULL, _IONBF, 0);
    size_t line_len = fread(line, 1, sizeof line, file);
    int is_read = !ferror(file), status = FAILED;
    fclose(file);
    if (line_len > 0 && line[line_len - 1] == '\n')
        line_len--;
    if (!is_read || line_len > LYRA2_LINE_MAX)
        fail(is_read ? "the file is longer than any line" : "the line's file cannot be read");
    else
        status = log_in(password, password_len, line, line_len);
    wipe(line, sizeof line);
    return status;
}

int main(int count, char **arguments)
{
    uint8_t password[LYRA2_PASSWORD_MAX + 1]; /* one byte more than is accepted, so that nothing is cut off unseen */
    size_t numbers[4];
    int enrols = count == 6 && read_numbers(arguments + 2, numbers);
    if (!enrols && count != 2)
        return fail("usage: login_line SALT TIME ROWS COLUMNS KEY_BYTES <PASSWORD\n   or: login_line LINE_FILE <PASSWORD");
    setvbuf(stdin, NULL, _IONBF, 0);
    size_t password_len = fread(password, 1, sizeof password, stdin);
    int status = ferror(stdin) ? fail("the password cannot be read")
               : enrols        ? enrol(password, password_len, arguments[1], numbers)
                               : read_and_log_in(password, password_len, arguments[1]);
    wipe(password, sizeof password);
    return status;
}
