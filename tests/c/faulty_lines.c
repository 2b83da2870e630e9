/*
 * The part of the faulty library that reads and writes login lines: the faults from 101 on of reading, those from 131 on
 * of writing, those from 161 on, which memcheck alone sees, and those from 171 on, which the search of the stack alone
 * sees.
 */
#include "faulty.h"
#include "lyra2.h"

#include <stdlib.h>
#include <string.h>

#define READ_PARAMETERS                                                                                            \
    const uint8_t *line, size_t line_len, uint8_t *salt, size_t salt_room, uint8_t *key, size_t key_room,          \
        size_t *values
#define READ_VALUES line, line_len, salt, salt_room, key, key_room, values
#define WRITE_PARAMETERS                                                                                           \
    size_t time, size_t rows, size_t columns, const uint8_t *salt, size_t salt_len, const uint8_t *key,            \
        size_t key_len, uint8_t *line, size_t line_room, size_t *line_len
#define WRITE_VALUES time, rows, columns, salt, salt_len, key, key_len, line, line_room, line_len

uint32_t __real_lyra2_line_read(READ_PARAMETERS);
uint32_t __wrap_lyra2_line_read(READ_PARAMETERS);
uint32_t __real_lyra2_line_write(WRITE_PARAMETERS);
uint32_t __wrap_lyra2_line_write(WRITE_PARAMETERS);

static bool is_digit(uint8_t byte)
{
    return '0' <= byte && byte <= '9';
}

/* Copies the digits of a number without a leading zero, or as what is left of it in so many bits; how many there are. */
static size_t copy_number(uint8_t *copy, const uint8_t *digits, size_t count, unsigned bits)
{
    uint64_t value = 0, mask = bits == 64 ? UINT64_MAX : (UINT64_C(1) << bits) - 1;
    uint8_t reversed[20];
    size_t length = 0;
    if (bits == 0) {
        size_t zero = count > 1 && digits[0] == '0';
        memcpy(copy, digits + zero, count - zero);
        return count - zero;
    }
    for (size_t i = 0; i < count; i++)
        value = (10 * value + (uint64_t)(digits[i] - '0')) & mask;
    do
        reversed[length++] = (uint8_t)('0' + value % 10);
    while ((value /= 10) > 0);
    for (size_t i = 0; i < length; i++)
        copy[i] = reversed[length - 1 - i];
    return length;
}

/* Copies a line with its numbers changed, which stand behind `=`; 0 bits take a leading zero away. */
static size_t copy_line(uint8_t *copy, const uint8_t *line, size_t length, unsigned bits)
{
    size_t used = 0;
    for (size_t i = 0; i < length;) {
        size_t end = i;
        while (end < length && i > 0 && line[i - 1] == '=' && is_digit(line[end]))
            end++;
        if (end > i) {
            used += copy_number(copy + used, line + i, end - i, bits);
            i = end;
        } else
            copy[used++] = line[i++];
    }
    return used;
}

/* The line as a reader with a fault of its form would take it; its length. */
static size_t misread(uint8_t *copy, const uint8_t *line, size_t length)
{
    static const unsigned bits[] = {0, 64, 32, 16};
    if (FAULT >= 101 && FAULT <= 104)
        return copy_line(copy, line, length, bits[FAULT - 101]);
    memcpy(copy, line, length);
    uint8_t last = length > 0 ? line[length - 1] : 0;
    if (has(105, last == 'B'))
        copy[length - 1] = 'A';
    if (has(106, last == '=') || has(107, last == '\n') || has(108, last == '$'))
        length--;
    for (size_t i = 0; FAULT == 109 && i < length; i++)
        copy[i] = line[i] == '-' ? '+' : line[i] == '_' ? '/' : line[i];
    return length;
}

/* Reads the line as it is taken. */
static uint32_t read_misread(READ_PARAMETERS)
{
    uint8_t *copy = malloc(line_len + 64);
    if (copy == NULL)
        abort();
    size_t length = misread(copy, line, line_len);
    uint32_t answer = __real_lyra2_line_read(copy, length, salt, salt_room, key, key_room, values);
    free(copy);
    return answer;
}

static void exchange(uint8_t *one, uint8_t *other, size_t count)
{
    for (size_t i = 0; i < count; i++) {
        uint8_t byte = one[i];
        one[i] = other[i];
        other[i] = byte;
    }
}

/* A refusal that is wrong in its number alone. */
static uint32_t misjudge(uint32_t answer, size_t line_len, size_t salt_room)
{
    bool short_salt = salt_room < LYRA2_SALT_MIN;
    if (has(110, answer == LYRA2_REFUSED_COLUMNS && short_salt) || has(111, answer == LYRA2_REFUSED_LINE && short_salt)
        || has(112, answer == LYRA2_REFUSED_KEY && short_salt))
        return LYRA2_REFUSED_OUTPUT;
    if (has(113, answer == LYRA2_REFUSED_SALT_TOO_LONG))
        return LYRA2_REFUSED_SALT_TOO_SHORT;
    if (has(114, answer == LYRA2_REFUSED_OUTPUT))
        return LYRA2_REFUSED_LINE;
    if (has(115, answer != LYRA2_ACCEPTED && line_len > LYRA2_LINE_MAX))
        return LYRA2_REFUSED_LINE;
    return answer;
}

static void spoil_read(READ_PARAMETERS)
{
    size_t salt_len = values[LYRA2_LINE_SALT_LEN], key_len = values[LYRA2_LINE_KEY_LEN];
    (void)line_len;
    if (has(116, true))
        exchange(salt, key, salt_len < key_len ? salt_len : key_len);
    if (has(117, salt_room > salt_len))
        salt[salt_len] = 0;
    if (has(118, key_room > key_len))
        memset(key + key_len, 0, key_room - key_len);
    if (has(119, true))
        key[key_room] = 0;
    if (has(120, true))
        values[LYRA2_LINE_ROWS] = values[LYRA2_LINE_COLUMNS];
    if (has(121, true))
        values[LYRA2_LINE_KEY_LEN]++;
    if (has(122, true))
        ((uint8_t *)line)[0] = 0;
    if (has(123, true))
        key[key_len - 1] ^= 1;
}

static void spoil_refused(uint32_t answer, size_t before, READ_PARAMETERS)
{
    (void)line, (void)line_len;
    if (has(124, true))
        values[LYRA2_LINE_TIME] = before;
    if (has(125, true))
        values[LYRA2_LINE_KEY_LEN] = 1;
    if (has(126, answer == LYRA2_REFUSED_OUTPUT && salt_room >= LYRA2_SALT_MIN))
        salt[0] ^= 1;
    if (has(127, answer == LYRA2_REFUSED_OUTPUT))
        memset(key, 0, key_room);
    if (has(128, answer == LYRA2_REFUSED_LINE))
        memset(salt, 0, salt_room);
}

uint32_t __wrap_lyra2_line_read(READ_PARAMETERS)
{
    volatile uint8_t seen = 0;
    size_t before = values[LYRA2_LINE_TIME];
    uint8_t held = FAULT == 162 && key_room > 0 ? key[0] : 0;
    bool is_misread = FAULT >= 101 && FAULT <= 109;
    uint32_t answer = is_misread ? read_misread(READ_VALUES) : __real_lyra2_line_read(READ_VALUES);
    if (answer == LYRA2_ACCEPTED)
        spoil_read(READ_VALUES);
    else
        spoil_refused(answer, before, READ_VALUES);
    if (has(161, true))
        seen = line[line_len];
    if (has(162, answer == LYRA2_ACCEPTED))
        key[0] ^= held;
    if (has(163, answer != LYRA2_ACCEPTED && salt_room > 0))
        *(volatile uint8_t *)salt = *(volatile uint8_t *)salt;
    if (has(171, answer == LYRA2_ACCEPTED))
        leave(key, values[LYRA2_LINE_KEY_LEN]);
    if (has(172, answer == LYRA2_ACCEPTED && line_len > 8))
        leave(line + line_len - 8, 8);
    (void)seen;
    return misjudge(answer, line_len, salt_room);
}

uint32_t __wrap_lyra2_line_write(WRITE_PARAMETERS)
{
    size_t before = *line_len, room = line_room;
    uint8_t held = FAULT == 166 && room > 0 ? line[0] : 0;
    if (has(131, rows != columns && rows <= LYRA2_COLUMNS_MAX && columns >= LYRA2_ROWS_MIN)) {
        size_t number = rows;
        rows = columns;
        columns = number;
    }
    if (has(132, time == LYRA2_TIME_MAX + 1))
        time--;
    uint32_t answer = __real_lyra2_line_write(WRITE_VALUES);
    bool accepted = answer == LYRA2_ACCEPTED;
    if (has(133, accepted && *line_len < room))
        memset(line + *line_len, 0, room - *line_len);
    if (has(134, accepted))
        line[room] = 0;
    if (has(135, !accepted))
        *line_len = before;
    if (has(136, accepted))
        ++*line_len;
    if (has(137, !accepted && room > 0))
        line[0] = '$';
    if (has(138, accepted))
        line[*line_len - 1] = '=';
    if (has(139, accepted))
        ((uint8_t *)salt)[0] ^= 1;
    if (has(140, accepted && *line_len == room)) {
        *line_len = 0;
        return LYRA2_REFUSED_OUTPUT;
    }
    if (has(141, answer == LYRA2_REFUSED_COLUMNS && room < 40))
        return LYRA2_REFUSED_OUTPUT;
    if (has(142, answer == LYRA2_REFUSED_SALT_TOO_SHORT))
        return LYRA2_REFUSED_SALT_TOO_LONG;
    if (has(164, accepted && *line_len < room))
        *(volatile uint8_t *)(line + *line_len) = 0;
    if (has(165, accepted && key[0] > 100))
        line[0] = '$';
    if (has(166, accepted))
        line[0] ^= held;
    if (has(173, accepted))
        leave(key, key_len);
    if (has(174, accepted))
        leave(line + *line_len - 8, 8);
    return answer;
}
