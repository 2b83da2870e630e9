/* Calls that read and write login lines between guards. */
#include "line_calls.h"

#include "calls.h"

size_t line_value(const struct read_call *call, size_t place)
{
    return ((const size_t *)lent_part(&call->values))[place];
}

size_t written_length(const struct write_call *call)
{
    return *(const size_t *)lent_part(&call->line_len);
}

/* An output keeps all bytes past those that an accepted call writes, and all bytes of a refused one. */
static void require_output(const struct lent *output, uint32_t answer, size_t length, const char *name)
{
    size_t used = answer == LYRA2_ACCEPTED ? length : 0;
    if (used > output->bytes)
        fail("%s: %zu bytes are said to be written, where %zu are lent", name, used, output->bytes);
    require_kept(output, used, name);
}

static void require_fields(const struct lent *fields, uint32_t answer, const char *name)
{
    require_kept(fields, fields->bytes, name);
    if (answer != LYRA2_ACCEPTED)
        require_zeros(fields, fields->bytes, name);
}

void make_read(struct read_call *call, struct bytes line, size_t salt_room, size_t key_room)
{
    lend(&call->line, line.length, 1, line.start);
    lend(&call->salt, salt_room, 1, NULL);
    lend(&call->key, key_room, 1, NULL);
    lend(&call->values, LYRA2_LINE_VALUES * sizeof(size_t), 8, NULL);
    call->answer = lyra2_line_read(lent_part(&call->line), line.length, lent_part(&call->salt), salt_room,
                                   lent_part(&call->key), key_room, lent_part(&call->values));
    calls_made++;
    require_kept(&call->line, 0, "line");
    require_fields(&call->values, call->answer, "values");
    require_output(&call->salt, call->answer, line_value(call, LYRA2_LINE_SALT_LEN), "salt");
    require_output(&call->key, call->answer, line_value(call, LYRA2_LINE_KEY_LEN), "key");
}

void end_read(struct read_call *call)
{
    take_back(&call->line);
    take_back(&call->salt);
    take_back(&call->key);
    take_back(&call->values);
}

void make_write(struct write_call *call, struct line_parts parts, size_t line_room)
{
    lend(&call->salt, parts.salt.length, 1, parts.salt.start);
    lend(&call->key, parts.key.length, 1, parts.key.start);
    lend(&call->line, line_room, 1, NULL);
    lend(&call->line_len, sizeof(size_t), 8, NULL);
    call->answer = lyra2_line_write(parts.time, parts.rows, parts.columns, lent_part(&call->salt), parts.salt.length,
                                    lent_part(&call->key), parts.key.length, lent_part(&call->line), line_room,
                                    lent_part(&call->line_len));
    calls_made++;
    require_kept(&call->salt, 0, "salt");
    require_kept(&call->key, 0, "key");
    require_fields(&call->line_len, call->answer, "line_len");
    require_output(&call->line, call->answer, written_length(call), "line");
}

void end_write(struct write_call *call)
{
    take_back(&call->salt);
    take_back(&call->key);
    take_back(&call->line);
    take_back(&call->line_len);
}
