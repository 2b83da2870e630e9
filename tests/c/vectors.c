/*
 * The vectors file put to the C interface: all its lines but those of the walk program, each between guards. A line of
 * the recorded derivation is put to the other operations as well, which share its key and counts.
 */
#include "calls.h"
#include "choice_calls.h"
#include "fields.h"
#include "line_calls.h"
#include "vector_books.h"
#include "vector_lanes.h"

#include <inttypes.h>
#include <stdio.h>
#include <stdlib.h>
#include <string.h>

/* What a line asks. */
struct question {
    struct sizes sizes;
    uint8_t *password, *salt, *stored;
};

static const struct sizes no_sizes;
static size_t lines_of[OPERATIONS], choice_lines, walk_lines, read_lines, write_lines;

/* FNV-1a over words, the lowest byte of each first. */
static uint64_t checksum(const uint64_t *words, size_t count)
{
    uint64_t sum = UINT64_C(0xcbf29ce484222325);
    for (size_t i = 0; i < count; i++)
        for (int shift = 0; shift < 64; shift += 8)
            sum = (sum ^ (words[i] >> shift & 0xff)) * UINT64_C(0x100000001b3);
    return sum;
}

static bool read_mixer(struct text line)
{
    struct text value;
    if (!find(line, "mixer", &value))
        return LYRA2_MIXER_USUAL;
    return require_choice(line, "mixer", "plain", "blamka") ? LYRA2_MIXER_BLAMKA : LYRA2_MIXER_PLAIN;
}

static struct question read_question(struct text line, enum operation operation)
{
    struct question asked = {no_sizes, NULL, NULL, NULL};
    struct sizes *n = &asked.sizes;
    n->time = require_number(line, "T");
    n->rows = require_number(line, "R");
    n->columns = require_number(line, "C");
    n->rounds = number_or(line, "rho", LYRA2_REDUCED_ROUNDS_USUAL);
    n->rotation = number_or(line, "omega", LYRA2_ROTATION_USUAL);
    n->mixer = read_mixer(line);
    if (operation == COST) {
        n->password = require_number(line, "password_len");
        n->salt = require_number(line, "salt_len");
    } else {
        asked.password = require_bytes(line, "password", &n->password);
        asked.salt = require_bytes(line, "salt", &n->salt);
        n->matrix = require_number(line, "matrix_words");
    }
    if (operation == CHECK)
        asked.stored = require_bytes(line, "stored", &n->key);
    else
        n->key = require_number(line, "key_len");
    if (operation == RECORDED)
        n->record = require_number(line, "record_words");
    return asked;
}

static void require_counts(struct text line, const struct call *call)
{
    static const char *const names[LYRA2_COUNTS] = {"full", "reduced", "rounds"};
    const uint64_t *counts = lent_part(&call->counts);
    for (size_t i = 0; i < LYRA2_COUNTS; i++)
        if (counts[i] != require_number(line, names[i]))
            fail("%s: %" PRIu64 " %s", operation_names[call->operation], counts[i], names[i]);
}

static void require_sum(struct text line, const char *name, const struct lent *lent, size_t used)
{
    uint64_t sum = checksum(lent_part(lent), used);
    if (sum != require_word(line, name))
        fail("%s is %016" PRIx64, name, sum);
}

static void require_listed(struct text line, const char *name, const struct lent *lent, size_t used)
{
    struct text value;
    if (!find(line, name, &value))
        return;
    uint64_t *due = allocate(8 * used);
    require_words(line, name, due, used);
    if (memcmp(due, lent_part(lent), 8 * used) != 0)
        fail("the %s is not the one listed", name);
    free(due);
}

static void require_key(struct text line, const struct call *call)
{
    size_t length;
    uint8_t *due = require_bytes(line, "key", &length);
    if (length != call->sizes.key || memcmp(due, lent_part(&call->key), length) != 0)
        fail("%s: another key is due", operation_names[call->operation]);
    free(due);
}

static void require_recorded(struct text line, const struct call *call)
{
    uint64_t state[LYRA2_STATE_WORDS];
    require_words(line, "state", state, LYRA2_STATE_WORDS);
    if (memcmp(state, lent_part(&call->state), sizeof state) != 0)
        fail("another state is due");
    size_t matrix = used_matrix(&call->sizes), record = used_record(&call->sizes);
    require_sum(line, "record_sum", &call->record, record);
    require_listed(line, "record", &call->record, record);
    require_listed(line, "matrix", &call->matrix, matrix);
}

/* A line tells the matrix of its own operation; make_call holds every plain derivation and check to zeros. */
static bool tells_matrix(struct text line, enum operation operation)
{
    return operation != COST && is(require_field(line, "op"), operation_names[operation]);
}

/* Makes the call of a line, and holds an accepted one to what the line tells of it. `same` is a check's answer. */
static void require_call(struct text line, enum operation operation, const struct question *asked, uint32_t due,
                         uint32_t same)
{
    struct call call;
    make_call(&call, operation, asked->sizes, (struct contents){asked->password, asked->salt, asked->stored});
    if (call.answer != due)
        fail("%s: %u is due, %u was answered", operation_names[operation], due, call.answer);
    if (due == LYRA2_ACCEPTED) {
        require_counts(line, &call);
        if (tells_matrix(line, operation))
            require_sum(line, "matrix_sum", &call.matrix, used_matrix(&call.sizes));
        if (operation == RECORDED || operation == PLAIN)
            require_key(line, &call);
        if (operation == RECORDED)
            require_recorded(line, &call);
        if (operation == CHECK && *(uint32_t *)lent_part(&call.same) != same)
            fail("check: %u is due", same);
    }
    end_call(&call);
}

/* An accepted line of the recorded derivation holds for the others; the key with a flipped bit is a wrong one. */
static void require_others(struct text line, struct question asked)
{
    size_t length;
    uint8_t *key = require_bytes(line, "key", &length);
    require_call(line, PLAIN, &asked, LYRA2_ACCEPTED, 0);
    require_call(line, COST, &asked, LYRA2_ACCEPTED, 0);
    asked.stored = key;
    require_call(line, CHECK, &asked, LYRA2_ACCEPTED, 1);
    key[case_number % length] ^= (uint8_t)(1 << case_number % 8);
    require_call(line, CHECK, &asked, LYRA2_ACCEPTED, 0);
    free(key);
}

static void run_line(struct text line, enum operation operation)
{
    struct question asked = read_question(line, operation);
    uint32_t due = (uint32_t)require_number(line, "refusal");
    uint32_t same = operation == CHECK && due == LYRA2_ACCEPTED && require_choice(line, "answer", "no", "yes");
    require_call(line, operation, &asked, due, same);
    if (operation == RECORDED && due == LYRA2_ACCEPTED)
        require_others(line, asked);
    lines_of[operation]++;
    free(asked.password);
    free(asked.salt);
    free(asked.stored);
}

static void run_choice(struct text line)
{
    struct choice_sizes asked = {
        .key = require_number(line, "key_len"),
        .password = require_number(line, "password_len"),
        .salt = require_number(line, "salt_len"),
        .matrix = require_number(line, "matrix_words"),
        .budget = require_number(line, "budget"),
        .rounds = require_number(line, "rho"),
        .tries = require_number(line, "tries"),
    };
    struct choice due = refused_choice((uint32_t)require_number(line, "refusal"));
    if (due.answer == LYRA2_ACCEPTED) {
        due.time = require_number(line, "T");
        due.rows = require_number(line, "R");
        due.columns = require_number(line, "C");
        due.shortfall = require_number(line, "shortfall");
    }
    require_chosen("as the line says", &asked, due);
    choice_lines++;
}

static void run_walk(struct text line)
{
    size_t row1, due = require_number(line, "refusal");
    size_t rows = require_number(line, "R"), row0 = require_number(line, "row0");
    if (ask_walk(rows, row0, &row1) != due)
        fail("walk: %zu is due", due);
    if (due == LYRA2_ACCEPTED && row1 != require_number(line, "row1"))
        fail("walk: row1 %zu", row1);
    walk_lines++;
}

/* Bytes of a field; their start is to be freed. */
static struct bytes require_run(struct text line, const char *name)
{
    struct bytes bytes;
    bytes.start = require_bytes(line, name, &bytes.length);
    return bytes;
}

static void free_run(struct bytes bytes)
{
    free((uint8_t *)bytes.start);
}

/* The written bytes of an output are those of a field. */
static void require_output(struct text line, const char *name, const struct lent *output, size_t written)
{
    struct bytes due = require_run(line, name);
    if (due.length != written || memcmp(due.start, lent_part(output), written) != 0)
        fail("another %s is due", name);
    free_run(due);
}

static void run_line_read(struct text line)
{
    static const char *const names[] = {[LYRA2_LINE_TIME] = "T", [LYRA2_LINE_ROWS] = "R", [LYRA2_LINE_COLUMNS] = "C"};
    struct read_call call;
    struct bytes login = require_run(line, "line");
    size_t due = require_number(line, "refusal");
    make_read(&call, login, require_number(line, "salt_room"), require_number(line, "key_room"));
    if (call.answer != due)
        fail("line_read: %zu is due, %u was answered", due, call.answer);
    if (due == LYRA2_ACCEPTED) {
        for (size_t place = 0; place < sizeof names / sizeof *names; place++)
            if (line_value(&call, place) != require_number(line, names[place]))
                fail("line_read: %s is %zu", names[place], line_value(&call, place));
        require_output(line, "salt", &call.salt, line_value(&call, LYRA2_LINE_SALT_LEN));
        require_output(line, "key", &call.key, line_value(&call, LYRA2_LINE_KEY_LEN));
    }
    end_read(&call);
    free_run(login);
    read_lines++;
}

static void run_line_write(struct text line)
{
    struct write_call call;
    struct line_parts parts = {
        .time = require_number(line, "T"),
        .rows = require_number(line, "R"),
        .columns = require_number(line, "C"),
        .salt = require_run(line, "salt"),
        .key = require_run(line, "key"),
    };
    size_t due = require_number(line, "refusal");
    make_write(&call, parts, require_number(line, "line_room"));
    if (call.answer != due)
        fail("line_write: %zu is due, %u was answered", due, call.answer);
    if (due == LYRA2_ACCEPTED)
        require_output(line, "line", &call.line, written_length(&call));
    end_write(&call);
    free_run(parts.salt);
    free_run(parts.key);
    write_lines++;
}

static void run_any(struct text line)
{
    struct text name = require_field(line, "op");
    case_number = require_number(line, "case");
    for (enum operation operation = RECORDED; operation < OPERATIONS; operation++)
        if (is(name, operation_names[operation])) {
            run_line(line, operation);
            return;
        }
    if (is(name, "choose"))
        run_choice(line);
    else if (is(name, "walk"))
        run_walk(line);
    else if (is(name, "line_read"))
        run_line_read(line);
    else if (is(name, "line_write"))
        run_line_write(line);
    else if (!run_book(line, name) && !run_lanes(line, name) && !is(name, "walk_program"))
        fail("an unknown operation");
}

/* The whole file; to be freed. */
static struct text read_file(const char *path)
{
    FILE *file = fopen(path, "rb");
    if (file == NULL || fseek(file, 0, SEEK_END) != 0)
        fail("%s cannot be read", path);
    long length = ftell(file);
    rewind(file);
    char *start = allocate((size_t)length);
    if (length <= 0 || fread(start, 1, (size_t)length, file) != (size_t)length)
        fail("%s cannot be read", path);
    fclose(file);
    return (struct text){start, (size_t)length};
}

int main(int count, char **arguments)
{
    if (count != 2)
        fail("usage: vectors FILE");
    struct text file = read_file(arguments[1]);
    const char *end = file.start + file.length;
    for (const char *start = file.start; start < end;) {
        const char *newline = memchr(start, '\n', (size_t)(end - start));
        if (newline == NULL)
            fail("the last line has no end");
        if (*start != '#')
            run_any((struct text){start, (size_t)(newline - start)});
        start = newline + 1;
    }
    free((char *)file.start);
    printf("vectors:");
    for (enum operation operation = RECORDED; operation < OPERATIONS; operation++)
        printf(" %zu %s,", lines_of[operation], operation_names[operation]);
    printf(" %zu choose, %zu walk, %zu line_read, %zu line_write,", choice_lines, walk_lines, read_lines, write_lines);
    print_book_lines();
    printf(",");
    print_lane_lines();
    printf(" lines; %zu calls\n", calls_made);
    return 0;
}
