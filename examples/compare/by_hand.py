#!/usr/bin/env python3
"""The low-pass as a book does it: sums of impulse responses, in doubles, for its code in examples/low_pass."""

B, A = [0.0039161266605473695, 0.007832253321094739, 0.0039161266605473695], [-1.8153410827045681, 0.83100558934675755]
CODE_B, CODE_A = [65702 / 2**24, 131403 / 2**24, 65702 / 2**24], [-30456369 / 2**24, 13941960 / 2**24]
BOUND, MOMENTS = 16384, 4096


def impulse_response(b: list, a: list) -> list:
    padded, y = b + [0.0] * MOMENTS, [0.0, 0.0]
    for moment in range(MOMENTS):
        y.append(padded[moment] - a[0] * y[-1] - a[1] * y[-2])
    return y[2:]


filter_, code = impulse_response(B, A), impulse_response(CODE_B, CODE_A)
roundings = impulse_response([1.0], CODE_A)
print(f"greatest output        {sum(map(abs, filter_)) * BOUND:.6f}")
print(f"greatest row 2         {sum(map(abs, code)) * BOUND * 64 + sum(map(abs, roundings)) / 2:.6f}")
difference = sum(abs(x - y) for x, y in zip(filter_, code)) * BOUND
print(f"error, roundings       {0.5 + sum(map(abs, roundings)) / 128:.9f}")
print(f"error, coefficients    {difference:.9f}")
print(f"error, both            {0.5 + sum(map(abs, roundings)) / 128 + difference:.9f}")
