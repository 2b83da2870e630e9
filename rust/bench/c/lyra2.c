/*
 * The plain derivation in C with intrinsics, to set the proved one beside, with the usual rounds and rotation: a reduced
 * call has one round and the rotation goes by two words. It is compiled once for each set of instructions and each mixer:
 * sse2.h or avx2.h has the registers and the round, and everything else stands here once. The compiler's options define
 * BLAMKA, which is 1 for that mixer and 0 for the plain one, and DERIVE, the name of the function.
 *
 * The caller answers for what the checks would refuse, and lends a matrix of 12 * R * C words, which end as zeros; the
 * proved derivation pays for that too.
 */
#include <stddef.h>
#include <stdint.h>
#include <string.h>

#ifdef __AVX2__
#include "avx2.h"
#else
#include "sse2.h"
#endif

enum { STATE_WORDS = 16, BLOCK_BYTES = 64, CELL_WORDS = 12, CELL_BYTES = 96, FULL_ROUNDS = 12 };

static const uint64_t STARTING_WORDS[STATE_WORDS] = {
    0, 0, 0, 0, 0, 0, 0, 0,
    0x6a09e667f3bcc908, 0xbb67ae8584caa73b, 0x3c6ef372fe94f82b, 0xa54ff53a5f1d36f1,
    0x510e527fade682d1, 0x9b05688c2b3e6c1f, 0x1f83d9abfb41bd6b, 0x5be0cd19137e2179,
};

/* What is asked, and the lent buffers; src/intrinsics.rs has the same. */
typedef struct {
    uint8_t *key;
    size_t key_len;
    const uint8_t *password;
    size_t password_len;
    const uint8_t *salt;
    size_t salt_len;
    uint32_t t, r, c;
    uint64_t *matrix;
} Derivation;

/* The only functions with a name outside, one a compilation. */
void DERIVE(const Derivation *asked);

typedef struct {
    uint64_t *words;
    size_t rows, columns;
} Matrix;

typedef struct {
    size_t row0, row1, prev0, prev1;
} Rows;

static inline uint64_t *row_of(const Matrix *m, size_t row) { return m->words + CELL_WORDS * m->columns * row; }

static void full_call(Vector *s)
{
    for (int i = 0; i < FULL_ROUNDS; i++)
        permute_round(s);
}

/* A block of the padded input while it fills. */
typedef struct {
    uint8_t bytes[BLOCK_BYTES];
    size_t used;
} Block;

static void absorb_block(Vector *s, Block *block)
{
    uint64_t words[BLOCK_BYTES / 8];
    memcpy(words, block->bytes, BLOCK_BYTES);
    for (int i = 0; i < BLOCK_BYTES / 8 / LANES; i++)
        s[i] = exclusive_or(s[i], load(words + LANES * i));
    full_call(s);
    block->used = 0;
}

/* Appends to the block and absorbs it whenever it is full. */

static void append(Vector *s, Block *block, const void *from, size_t len)
{
    const uint8_t *bytes = from;
    while (len > 0) {
        size_t free_bytes = BLOCK_BYTES - block->used;
        size_t n = len < free_bytes ? len : free_bytes;
        memcpy(block->bytes + block->used, bytes, n);
        block->used += n, bytes += n, len -= n;
        if (block->used == BLOCK_BYTES)
            absorb_block(s, block);
    }
}

static void absorb_padding(Vector *s, Block *block)
{
    memset(block->bytes + block->used, 0, BLOCK_BYTES - block->used);
    block->bytes[block->used] |= 0x80;
    block->bytes[BLOCK_BYTES - 1] |= 0x01;
    absorb_block(s, block);
}

static void fill_first_row(Vector *s, const Matrix *m)
{
    for (uint64_t *cell = row_of(m, 1); cell > m->words;) {
        cell -= CELL_WORDS;
        for (int i = 0; i < CELL_VECTORS; i++)
            store(cell + LANES * i, s[i]);
        permute_round(s);
    }
}

static void fill_row_from(Vector *state, const Matrix *m, size_t row)
{
    Vector s[STATE_VECTORS];
    memcpy(s, state, sizeof s);
    const uint64_t *prev = row_of(m, row - 1);
    uint64_t *written = row_of(m, row + 1);
    for (size_t col = 0; col < m->columns; col++) {
        Vector cell[CELL_VECTORS];
        for (int i = 0; i < CELL_VECTORS; i++) {
            cell[i] = load(prev + LANES * i);
            s[i] = exclusive_or(s[i], cell[i]);
        }
        permute_round(s);
        written -= CELL_WORDS;
        for (int i = 0; i < CELL_VECTORS; i++)
            store(written + LANES * i, exclusive_or(cell[i], s[i]));
        prev += CELL_WORDS;
    }
    memcpy(state, s, sizeof s);
}

static void fill_row(Vector *state, const Matrix *m, Rows rows)
{
    Vector s[STATE_VECTORS];
    memcpy(s, state, sizeof s);
    const uint64_t *p = row_of(m, rows.prev0), *q = row_of(m, rows.prev1);
    uint64_t *revisited = row_of(m, rows.row1), *written = row_of(m, rows.row0 + 1);
    for (size_t col = 0; col < m->columns; col++) {
        for (int i = 0; i < CELL_VECTORS; i++) {
            Vector sum = add(add(load(revisited + LANES * i), load(p + LANES * i)), load(q + LANES * i));
            s[i] = exclusive_or(s[i], sum);
        }
        permute_round(s);
        written -= CELL_WORDS;
        for (int i = 0; i < CELL_VECTORS; i++) {
            store(written + LANES * i, exclusive_or(load(p + LANES * i), s[i]));
            store(revisited + LANES * i, exclusive_or(load(revisited + LANES * i), rotated(s, i)));
        }
        p += CELL_WORDS, q += CELL_WORDS, revisited += CELL_WORDS;
    }
    memcpy(state, s, sizeof s);
}

/* Fills the matrix and says which rows were filled and revisited last. */
static Rows setup(Vector *s, const Matrix *m)
{
    fill_first_row(s, m);
    fill_row_from(s, m, 1);
    fill_row_from(s, m, 2);
    ptrdiff_t gap = 1;
    size_t step = 1, window = 2, root = 2;
    Rows rows = {.row0 = 3, .row1 = 1, .prev0 = 2, .prev1 = 0};
    while (rows.row0 < m->rows) {
        fill_row(s, m, rows);
        rows.prev0 = rows.row0++;
        rows.prev1 = rows.row1;
        rows.row1 = (rows.row1 + step) % window;
        if (rows.row1 == 0) {
            window *= 2;
            step = root + (size_t)gap;
            gap = -gap;
            if (gap == -1)
                root *= 2;
        }
    }
    return rows;
}

/* One column of a visit; where both rows are one, the second XOR reads what the first has written. */
static inline void visit_column(Vector *s, uint64_t *x, uint64_t *y, const uint64_t *p, const uint64_t *q)
{
    for (int i = 0; i < CELL_VECTORS; i++) {
        Vector sum = add(load(x + LANES * i), load(y + LANES * i));
        Vector picked = add(load(p + LANES * i), load(q + LANES * i));
        s[i] = exclusive_or(s[i], add(sum, picked));
    }
    permute_round(s);
    for (int i = 0; i < CELL_VECTORS; i++)
        store(x + LANES * i, exclusive_or(load(x + LANES * i), s[i]));
    for (int i = 0; i < CELL_VECTORS; i++)
        store(y + LANES * i, exclusive_or(load(y + LANES * i), rotated(s, i)));
}

/* A visit; the mask is one below the number of columns if that is a power of two, else 0 and each pick divides. */
static inline void visit_row(Vector *state, const Matrix *m, Rows rows, uint64_t mask)
{
    Vector s[STATE_VECTORS];
    memcpy(s, state, sizeof s);
    uint64_t *x = row_of(m, rows.row0), *y = row_of(m, rows.row1);
    const uint64_t *p = row_of(m, rows.prev0), *q = row_of(m, rows.prev1);
    for (size_t col = 0; col < m->columns; col++) {
        uint64_t col0 = mask ? even_word(s, 4) & mask : even_word(s, 4) % m->columns;
        uint64_t col1 = mask ? even_word(s, 6) & mask : even_word(s, 6) % m->columns;
        visit_column(s, x, y, p + CELL_WORDS * col0, q + CELL_WORDS * col1);
        x += CELL_WORDS, y += CELL_WORDS;
    }
    memcpy(state, s, sizeof s);
}

/* All visits; returns the row whose first cell is absorbed last. */
static size_t wander(Vector *s, const Matrix *m, uint64_t visits, Rows rows)
{
    uint64_t below = m->columns - 1;
    int power_of_two = (m->columns & below) == 0 && below != 0;
    for (uint64_t n = 0; n < visits; n++) {
        rows.row0 = even_word(s, 0) % m->rows;
        rows.row1 = even_word(s, 2) % m->rows;
        if (power_of_two)
            visit_row(s, m, rows, below);
        else
            visit_row(s, m, rows, 0);
        rows.prev0 = rows.row0;
        rows.prev1 = rows.row1;
    }
    return rows.prev0;
}

static void squeeze(Vector *s, uint8_t *key, size_t key_len)
{
    for (;;) {
        size_t n = key_len < CELL_BYTES ? key_len : CELL_BYTES;
        memcpy(key, s, n);
        key += n, key_len -= n;
        if (key_len == 0)
            return;
        full_call(s);
    }
}

static void absorb_input(Vector *s, const Derivation *asked)
{
    uint32_t numbers[6] = {(uint32_t)asked->key_len,  (uint32_t)asked->password_len,
                           (uint32_t)asked->salt_len, asked->t, asked->r, asked->c};
    Block block = {.used = 0};
    append(s, &block, asked->password, asked->password_len);
    append(s, &block, asked->salt, asked->salt_len);
    append(s, &block, numbers, sizeof numbers);
    absorb_padding(s, &block);
}

void DERIVE(const Derivation *asked)
{
    Vector s[STATE_VECTORS];
    memcpy(s, STARTING_WORDS, sizeof s);
    absorb_input(s, asked);
    Matrix m = {asked->matrix, asked->r, asked->c};
    Rows rows = setup(s, &m);
    uint64_t *last = row_of(&m, wander(s, &m, (uint64_t)asked->r * asked->t, rows));
    for (int i = 0; i < CELL_VECTORS; i++)
        s[i] = exclusive_or(s[i], load(last + LANES * i));
    full_call(s);
    squeeze(s, asked->key, asked->key_len);
    memset(m.words, 0, CELL_BYTES * m.rows * m.columns);
}
