/* Calls that read and write login lines, in which everything that is lent lies between guards. */
#ifndef LINE_CALLS_H
#define LINE_CALLS_H

#include "lent.h"
#include "lyra2.h"

struct read_call {
    struct lent line, salt, key, values;
    uint32_t answer;
};

struct write_call {
    struct lent salt, key, line, line_len;
    uint32_t answer;
};

/* What a line is written from. */
struct line_parts {
    size_t time, rows, columns;
    struct bytes salt, key;
};

/* Reads a line into outputs of these lengths, and requires that nothing changed but what the answer allows and that the
 * values of a refused call are zero. */
void make_read(struct read_call *call, struct bytes line, size_t salt_room, size_t key_room);
void end_read(struct read_call *call);

/* A value of a line that was read, by its place. */
size_t line_value(const struct read_call *call, size_t place);

/* The same for writing into an output of this length. */
void make_write(struct write_call *call, struct line_parts parts, size_t line_room);
void end_write(struct write_call *call);

/* The length of a line that was written. */
size_t written_length(const struct write_call *call);

#endif
