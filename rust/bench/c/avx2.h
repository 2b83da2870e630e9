/* The state in four registers of four words, for processors with AVX2. */
#ifndef AVX2_H
#define AVX2_H

#include <immintrin.h>
#include <stdint.h>

enum { LANES = 4, STATE_VECTORS = 4, CELL_VECTORS = 3 };

typedef __m256i Vector;

static inline Vector load(const uint64_t *words) { return _mm256_loadu_si256((const __m256i *)words); }

static inline void store(uint64_t *words, Vector v) { _mm256_storeu_si256((__m256i *)words, v); }

static inline Vector add(Vector x, Vector y) { return _mm256_add_epi64(x, y); }

static inline Vector exclusive_or(Vector x, Vector y) { return _mm256_xor_si256(x, y); }

/* Vector i of the output rotated by two words: the upper half of one register and the lower half of the next. */
static inline Vector rotated(const Vector *state, int i)
{
    return _mm256_permute2x128_si256(state[i], state[(i + 1) % CELL_VECTORS], 0x21);
}

/* Word i of the state, for an even i. */
static inline uint64_t even_word(const Vector *state, int i)
{
    Vector v = state[i / 4];
    __m128i half = i % 4 == 0 ? _mm256_castsi256_si128(v) : _mm256_extracti128_si256(v, 1);
    return (uint64_t)_mm_cvtsi128_si64(half);
}

static inline Vector turn32(Vector x) { return _mm256_shuffle_epi32(x, _MM_SHUFFLE(2, 3, 0, 1)); }

static inline Vector turn24(Vector x)
{
    const Vector bytes = _mm256_setr_epi8(3, 4, 5, 6, 7, 0, 1, 2, 11, 12, 13, 14, 15, 8, 9, 10,
                                          3, 4, 5, 6, 7, 0, 1, 2, 11, 12, 13, 14, 15, 8, 9, 10);
    return _mm256_shuffle_epi8(x, bytes);
}

static inline Vector turn16(Vector x)
{
    const Vector bytes = _mm256_setr_epi8(2, 3, 4, 5, 6, 7, 0, 1, 10, 11, 12, 13, 14, 15, 8, 9,
                                          2, 3, 4, 5, 6, 7, 0, 1, 10, 11, 12, 13, 14, 15, 8, 9);
    return _mm256_shuffle_epi8(x, bytes);
}

static inline Vector turn63(Vector x) { return _mm256_or_si256(_mm256_srli_epi64(x, 63), _mm256_add_epi64(x, x)); }

/* G's addition. BlaMka adds twice the product of the low halves besides. */
static inline Vector mixing_sum(Vector x, Vector y)
{
    Vector product = _mm256_mul_epu32(x, y);
    return BLAMKA ? add(add(x, y), add(product, product)) : add(x, y);
}

/* G on the four columns of the state as a square of four by four. */
static inline void g(Vector *s)
{
    Vector a = s[0], b = s[1], c = s[2], d = s[3];
    a = mixing_sum(a, b);
    d = turn32(exclusive_or(d, a));
    c = mixing_sum(c, d);
    b = turn24(exclusive_or(b, c));
    a = mixing_sum(a, b);
    d = turn16(exclusive_or(d, a));
    c = mixing_sum(c, d);
    b = turn63(exclusive_or(b, c));
    s[0] = a, s[1] = b, s[2] = c, s[3] = d;
}

/* The diagonals become columns by turning rows a, c and d: b is ready last, and so no turn has to wait for it. */
static inline void permute_round(Vector *s)
{
    g(s);
    s[0] = _mm256_permute4x64_epi64(s[0], _MM_SHUFFLE(2, 1, 0, 3));
    s[2] = _mm256_permute4x64_epi64(s[2], _MM_SHUFFLE(0, 3, 2, 1));
    s[3] = _mm256_permute4x64_epi64(s[3], _MM_SHUFFLE(1, 0, 3, 2));
    g(s);
    s[0] = _mm256_permute4x64_epi64(s[0], _MM_SHUFFLE(0, 3, 2, 1));
    s[2] = _mm256_permute4x64_epi64(s[2], _MM_SHUFFLE(2, 1, 0, 3));
    s[3] = _mm256_permute4x64_epi64(s[3], _MM_SHUFFLE(1, 0, 3, 2));
}

#endif
