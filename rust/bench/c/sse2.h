/* The state in eight registers of two words, with the instructions that every x86-64 processor has. */
#ifndef SSE2_H
#define SSE2_H

#include <emmintrin.h>
#include <stdint.h>

enum { LANES = 2, STATE_VECTORS = 8, CELL_VECTORS = 6 };

typedef __m128i Vector;

static inline Vector load(const uint64_t *words) { return _mm_loadu_si128((const __m128i *)words); }

static inline void store(uint64_t *words, Vector v) { _mm_storeu_si128((__m128i *)words, v); }

static inline Vector add(Vector x, Vector y) { return _mm_add_epi64(x, y); }

static inline Vector exclusive_or(Vector x, Vector y) { return _mm_xor_si128(x, y); }

/* Vector i of the output rotated by two words. */
static inline Vector rotated(const Vector *state, int i) { return state[(i + 1) % CELL_VECTORS]; }

/* Word i of the state, for an even i. */
static inline uint64_t even_word(const Vector *state, int i) { return (uint64_t)_mm_cvtsi128_si64(state[i / 2]); }

static inline Vector turn32(Vector x) { return _mm_shuffle_epi32(x, _MM_SHUFFLE(2, 3, 0, 1)); }

static inline Vector turn24(Vector x) { return _mm_or_si128(_mm_srli_epi64(x, 24), _mm_slli_epi64(x, 40)); }

static inline Vector turn16(Vector x)
{
    return _mm_shufflehi_epi16(_mm_shufflelo_epi16(x, _MM_SHUFFLE(0, 3, 2, 1)), _MM_SHUFFLE(0, 3, 2, 1));
}

static inline Vector turn63(Vector x) { return _mm_or_si128(_mm_srli_epi64(x, 63), _mm_add_epi64(x, x)); }

/* The upper word of x, then the lower one of y. */
static inline Vector across(Vector x, Vector y)
{
    return _mm_castpd_si128(_mm_shuffle_pd(_mm_castsi128_pd(x), _mm_castsi128_pd(y), 1));
}

/* G's addition. BlaMka adds twice the product of the low halves besides. */
static inline Vector mixing_sum(Vector x, Vector y)
{
    Vector product = _mm_mul_epu32(x, y);
    return BLAMKA ? add(add(x, y), add(product, product)) : add(x, y);
}

/* G on the four columns of the state as a square of four by four, half of them in each register of a row. */
static inline void g(Vector *s)
{
    for (int i = 0; i < 2; i++) {
        Vector a = s[i], b = s[2 + i], c = s[4 + i], d = s[6 + i];
        a = mixing_sum(a, b);
        d = turn32(exclusive_or(d, a));
        c = mixing_sum(c, d);
        b = turn24(exclusive_or(b, c));
        a = mixing_sum(a, b);
        d = turn16(exclusive_or(d, a));
        c = mixing_sum(c, d);
        b = turn63(exclusive_or(b, c));
        s[i] = a, s[2 + i] = b, s[4 + i] = c, s[6 + i] = d;
    }
}

static inline void swap(Vector *x, Vector *y)
{
    Vector kept = *x;
    *x = *y;
    *y = kept;
}

/* Turns a row of the square by one word, so that its last word comes first. */
static inline void turn_row(Vector *row)
{
    Vector first = across(row[1], row[0]);
    row[1] = across(row[0], row[1]);
    row[0] = first;
}

/* Turns it back. */
static inline void turn_row_back(Vector *row)
{
    Vector first = across(row[0], row[1]);
    row[1] = across(row[1], row[0]);
    row[0] = first;
}

/* The diagonals become columns by turning rows a, c and d: b is ready last, and so no turn has to wait for it. */
static inline void permute_round(Vector *s)
{
    g(s);
    turn_row(s);
    turn_row_back(s + 4);
    swap(s + 6, s + 7);
    g(s);
    turn_row_back(s);
    turn_row(s + 4);
    swap(s + 6, s + 7);
}

#endif
