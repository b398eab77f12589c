/* The meaning in C of the integer code that fixif judges, so that it can be tried with a compiler.
 *
 * An example: nothing is claimed of it. What the code means stands in docs/MEANING.md, "The run of a program", and its
 * grammar in docs/FORMATS.md. Compile code.c as a file of its own, as the names below are short.
 *
 * All arithmetic is defined in C: sums and products are modulo 2^64, and of an accumulator of fewer bits the low ones
 * are taken when it is read, which is the same number as modulo 2^W on the way.
 */
#ifndef FIXIF_H
#define FIXIF_H

#include "fixif_step.h"

/* The number from -2^(width-1) to 2^(width-1) - 1 that is congruent to z modulo 2^width; the width is 1 to 64. */
static inline int64_t fixif_signed(uint64_t z, int width)
{
    const uint64_t sign = UINT64_C(1) << (width - 1);
    const uint64_t low = ((z & (2 * sign - 1)) ^ sign) - sign;
    return low <= INT64_MAX ? (int64_t)low : -1 - (int64_t)~low;
}

/* z / 2^shift, rounded down; the shift is 0 to 63. C leaves >> of a number below 0 to the compiler. */
static inline int64_t fixif_floor(int64_t z, int shift)
{
    return z >= 0 ? z >> shift : -1 - ((-1 - z) >> shift);
}

/* The low bits of an input, read as a word. */
static inline int32_t fixif_word(struct fixif_state *state, const int32_t *in, int input, int width)
{
    const int32_t word = (int32_t)fixif_signed((uint64_t)in[input], width);
    state->outside |= (unsigned)(word != in[input]) << input;
    return word;
}

#define STEP(bits, inputs, rows, outputs) \
    const int fixif_inputs = inputs; \
    const int fixif_outputs = outputs; \
    enum { FIXIF_BITS = bits, FIXIF_ROWS = rows }; \
    void fixif_step(struct fixif_state *state, const int32_t *in, int32_t *out)

/* The first line of each program is that of u0: it declares the accumulator and the words of this moment too. */
#define FIXIF_BEGIN_u0 uint64_t a; int32_t r[FIXIF_ROWS];
#define FIXIF_BEGIN_u1
#define FIXIF_BEGIN_u2
#define FIXIF_BEGIN_u3
#define FIXIF_PLACE_u0 0
#define FIXIF_PLACE_u1 1
#define FIXIF_PLACE_u2 2
#define FIXIF_PLACE_u3 3

#define IN(u, width) FIXIF_BEGIN_##u const int32_t u = fixif_word(state, in, FIXIF_PLACE_##u, width)
#define MUL(coef, word, left) ((uint64_t)(coef) * (uint64_t)(word) << (left))
#define SAR(a, shift) fixif_floor(fixif_signed(a, FIXIF_BITS), shift)
/* The same value. A row with SAR has a half step in its constant, and so is rounded to the nearest; one with FLR has
 * none, and so is floored. */
#define FLR(a, shift) SAR(a, shift)
#define LOW(x, width) ((int32_t)fixif_signed((uint64_t)(x), width))
#define OUT(output, word) (out[output] = (word))

/* The words of the rows: r of this moment, s of the moment before. */
#define r0 r[0]
#define r1 r[1]
#define r2 r[2]
#define r3 r[3]
#define r4 r[4]
#define r5 r[5]
#define r6 r[6]
#define r7 r[7]
#define r8 r[8]
#define r9 r[9]
#define r10 r[10]
#define r11 r[11]
#define r12 r[12]
#define r13 r[13]
#define r14 r[14]
#define r15 r[15]
#define r16 r[16]
#define r17 r[17]
#define r18 r[18]
#define r19 r[19]
#define r20 r[20]
#define r21 r[21]
#define r22 r[22]
#define r23 r[23]
#define r24 r[24]
#define r25 r[25]
#define r26 r[26]
#define r27 r[27]
#define r28 r[28]
#define r29 r[29]
#define r30 r[30]
#define r31 r[31]
#define r32 r[32]
#define r33 r[33]
#define r34 r[34]
#define r35 r[35]
#define r36 r[36]
#define r37 r[37]
#define r38 r[38]
#define r39 r[39]
#define s0 state->s[0]
#define s1 state->s[1]
#define s2 state->s[2]
#define s3 state->s[3]
#define s4 state->s[4]
#define s5 state->s[5]
#define s6 state->s[6]
#define s7 state->s[7]
#define s8 state->s[8]
#define s9 state->s[9]
#define s10 state->s[10]
#define s11 state->s[11]
#define s12 state->s[12]
#define s13 state->s[13]
#define s14 state->s[14]
#define s15 state->s[15]
#define s16 state->s[16]
#define s17 state->s[17]
#define s18 state->s[18]
#define s19 state->s[19]
#define s20 state->s[20]
#define s21 state->s[21]
#define s22 state->s[22]
#define s23 state->s[23]
#define s24 state->s[24]
#define s25 state->s[25]
#define s26 state->s[26]
#define s27 state->s[27]
#define s28 state->s[28]
#define s29 state->s[29]
#define s30 state->s[30]
#define s31 state->s[31]
#define s32 state->s[32]
#define s33 state->s[33]
#define s34 state->s[34]
#define s35 state->s[35]
#define s36 state->s[36]
#define s37 state->s[37]
#define s38 state->s[38]
#define s39 state->s[39]

#endif
