/* A biquad in direct form I as device libraries have it: words and coefficients in Q15, one accumulator of 32 bits. */
#include <stdint.h>

#ifndef HALF
#define HALF (1 << 14)                  /* half of the last place that is kept; -DHALF=0 cuts off */
#endif

struct biquad { int16_t x1, x2, y1, y2; };

static int16_t saturate(int32_t v)
{
    return v > INT16_MAX ? INT16_MAX : v < INT16_MIN ? INT16_MIN : (int16_t)v;
}

int16_t biquad(struct biquad *s, int16_t x)
{
    int32_t acc = HALF;
    acc += 3199 * x;                    /* b0 */
    acc += 6398 * s->x1;                /* b1 */
    acc += 3199 * s->x2;                /* b2 */
    acc += 30894 * s->y1;               /* -a1 */
    acc -= 10923 * s->y2;               /* a2 */
    const int16_t y = saturate(acc >> 15);
    s->x2 = s->x1;
    s->x1 = x;
    s->y2 = s->y1;
    s->y1 = y;
    return y;
}
