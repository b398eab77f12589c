#!/usr/bin/env python3
"""The low-pass by trial: the code's integers beside the filter in doubles, on noise, a step, and the worst signs."""

import random

B, A = [0.0039161266605473695, 0.007832253321094739, 0.0039161266605473695], [-1.8153410827045681, 0.83100558934675755]
BOUND = 16384


def trial(name: str, words: list) -> None:
    """The greatest output, and the greatest difference, on these input words."""
    u1 = u2 = s2 = s3 = 0
    y1 = y2 = greatest = largest = 0.0
    for u in words:
        r2 = (2**23 + 64 * (65702 * u + 131403 * u1 + 65702 * u2) + 30456369 * s2 - 13941960 * s3) >> 24
        y = B[0] * u + B[1] * u1 + B[2] * u2 - A[0] * y1 - A[1] * y2
        greatest, largest = max(greatest, abs(y)), max(largest, abs(((r2 + 32) >> 6) - y))
        u1, u2, s2, s3, y1, y2 = u, u1, r2, s2, y, y1
    print(f"{name:20} {len(words):8} moments   output up to {greatest:10.3f}   difference up to {largest:.6f}")


def worst_signs(count: int) -> list:
    """The words of the greatest magnitude whose signs make the last output the greatest."""
    h, response = [0.0, 0.0], []
    for moment in range(count):
        h.append((B + [0.0] * count)[moment] - A[0] * h[-1] - A[1] * h[-2])
        response.append(BOUND if h[-1] > 0 else -BOUND)
    return response[::-1]


draw = random.Random(1)
trial("noise", [draw.randint(-BOUND, BOUND) for _ in range(1_000_000)])
trial("noise of extremes", [draw.choice([-BOUND, BOUND]) for _ in range(1_000_000)])
trial("step", [BOUND] * 1000)
trial("worst signs", worst_signs(1000))
