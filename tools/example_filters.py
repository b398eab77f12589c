#!/usr/bin/env python3
"""Writes ten of the filters of examples/filters, computed with 60 digits from the formulas that stand in them.

tools/example_filters.py FOLDER writes the ten files into a folder. What `show` puts for them stands beside them.
"""

from __future__ import annotations

import argparse
import sys
from decimal import Context, Decimal, localcontext
from pathlib import Path
from typing import NamedTuple

import filter_file

PI = Decimal("3.14159265358979323846264338327950288419716939937510582097494")
ONE = Decimal(1)
ZERO = Decimal(0)
WORKING_DIGITS = 60
FILE_DIGITS = 17


class Example(NamedTuple):
    """A filter: the name of its file, what it is for and how it was computed, its coefficients, its options."""

    name: str
    comment: str
    lists: dict
    words: str


# ---- functions of decimals


def series(x: Decimal, first: int) -> Decimal:
    """x^n / n! - x^(n+2) / (n+2)! + .., with n the first power."""
    term, total, power = x**first, ZERO, first
    while total + term != total:
        total += term
        term *= -x * x / ((power + 1) * (power + 2))
        power += 2
    return total


def sine(x: Decimal) -> Decimal:
    return series(x, 1)


def cosine(x: Decimal) -> Decimal:
    return series(x, 0) if x else ONE


def tangent(x: Decimal) -> Decimal:
    return sine(x) / cosine(x)


def short(entry: Decimal) -> str:
    """A coefficient's text of 17 digits."""
    rounded = Context(prec=FILE_DIGITS).plus(entry).normalize()
    return format(rounded, "f") if rounded else "0"


def shorts(row: list) -> list:
    return [short(Decimal(entry)) for entry in row]


# ---- sections


def bilinear(b: list, a: list, scale: Decimal) -> list:
    """The section of (b0 + b1 s + b2 s^2) / (a0 + a1 s + a2 s^2) with s = scale (z - 1) / (z + 1)."""

    def turned(c: list) -> list:
        c0, c1, c2 = c[0], c[1] * scale, c[2] * scale * scale
        return [c0 + c1 + c2, 2 * (c0 - c2), c0 - c1 + c2]

    over, under = turned(b), turned(a)
    return [entry / under[0] for entry in over + under]


def first_order(b: list, a: list, scale: Decimal) -> list:
    """The section of (b0 + b1 s) / (a0 + a1 s) with s = scale (z - 1) / (z + 1)."""

    def turned(c: list) -> list:
        return [c[0] + c[1] * scale, c[0] - c[1] * scale, ZERO]

    over, under = turned(b), turned(a)
    return [entry / under[0] for entry in over + under]


def warp(frequency: Decimal, rate: int) -> Decimal:
    """The scale of the bilinear rule that keeps the frequency, for s in units of it."""
    return 1 / tangent(PI * frequency / rate)


# ---- the filters

# What each filter is for, and how its coefficients were computed.
COMMENTS = {
    "crossover_low": """\
Low branch of a loudspeaker crossover at 2 kHz, 48 kHz, of Linkwitz and Riley, order 4: twice the
Butterworth section 1 / (s^2 + sqrt(2) s + 1), with s = (z - 1) / ((z + 1) tan(pi 2000 / 48000)).
The two branches add up to an all-pass.""",
    "crossover_high": """\
High branch of a loudspeaker crossover at 2 kHz, 48 kHz, of Linkwitz and Riley, order 4: twice the
Butterworth section s^2 / (s^2 + sqrt(2) s + 1), with s = (z - 1) / ((z + 1) tan(pi 2000 / 48000)).
The two branches add up to an all-pass. The output has one bit more than the input.""",
    "k_weighting": """\
K-weighting of a loudness meter at 48 kHz: the shelf for the head, then the high-pass (RLB), with the
coefficients that ITU-R BS.1770 prints in its tables 1 and 2. Nothing was computed.
The output counts in steps four times as fine.
What it needs: the high-pass has both poles at 0.995, so what is rounded in its row comes back some
40000 times. 15 guards bring that below 10 steps; 16 would need words of more than 32 bits.""",
    "a_weighting": """\
A-weighting of a sound level meter at 48 kHz:
G s^4 w4^2 / ((s + w1)^2 (s + w2) (s + w3) (s + w4)^2), w = 2 pi f with the pole frequencies that
follow from IEC 61672-1, 20.598997, 107.65265, 737.86223 and 12194.217 Hz, by the bilinear rule
s = 96000 (z - 1) / (z + 1), a section for each real pole and one for w4 twice; G makes the gain 1 at
1 kHz. It goes as far as that rule does: its gain is below that of the formula by 0.1 dB at 5 kHz,
0.5 dB at 8 kHz, 1.2 dB at 10 kHz, 2.7 dB at 12.5 kHz and 6.4 dB at 16 kHz.
What it needs: sections of first order, as in one section the double pole at 20.6 Hz amplifies
roundings 140000 times, and in two each pole 370 times; and 12 guards.""",
    "mains_harmonics": """\
Takes mains hum of 50 Hz and its harmonics 100, 150 and 200 Hz out of a measurement at 1 kHz.
Each section is a notch of 2 Hz width, (1 - 2 c z^-1 + z^-2) / (1 + t - 2 c z^-1 + (1 - t) z^-2)
with c = cos(2 pi f / 1000) and t = tan(pi 2 / 1000), divided by 1 + t.
Input and output count in steps of 2^-8 of the unit that is measured.
What it needs: 12 guards, as with 8 the roundings of four sections come to more than the wanted 3
steps; and 4096 moments, with which the error is 0.8 steps, as after 2048 it is still 2.7.""",
    "ecg_band": """\
Band of an electrocardiogram for monitoring, 0.5 to 40 Hz at 500 Hz: Butterworth high-pass
s^2 / (s^2 + sqrt(2) s + 1) with s = (z - 1) / ((z + 1) tan(pi 0.5 / 500)), then Butterworth low-pass
of order 4 as two sections 1 / (s^2 + 2 cos(pi m / 8) s + 1), m = 1 and 3, with
s = (z - 1) / ((z + 1) tan(pi 40 / 500)).
What it needs: the high-pass has two poles at 0.9956, so what is rounded in its row comes back some
25000 times: 16 guards, and coefficients of 30 places.""",
    "yaw_damper": """\
Yaw damper of an aircraft at 100 Hz: a washout with a time constant of 2 seconds, 2 s / (2 s + 1) with
s = 200 (z - 1) / (z + 1), lets steady turns pass; then a notch at a structural mode of 6.5 Hz,
(s^2 + 0.2 s + 1) / (s^2 + 1.2 s + 1) with s = (z - 1) / ((z + 1) tan(pi 6.5 / 100)).
The yaw rate counts in steps of 2^-6 degrees a second, the output in steps of 2^-8.
What it needs: guards count from the input's step, which is four of the output's, and the washout
has its pole at 0.995: 12 guards and 4096 moments.""",
    "pid": """\
PID controller at 500 Hz with a leaking integral, and with the rate of the measurement alone, so that
a new set point gives no kick. Inputs are the set point r and the measurement y:
  i(k+1) = exp(-0.002 / 0.5) i(k) + 6 0.002 (r(k) - y(k)), the integral with a leak of 0.5 s,
  m(k+1) = exp(-0.002 / 0.005) m(k) + (1 - exp(-0.002 / 0.005)) y(k), y smoothed over 5 ms,
  output(k) = 2.4 (r(k) - y(k)) + i(k) - (0.03 / 0.005) (y(k) - m(k)).""",
    "speech_lattice": """\
Vocal tract of a speech synthesiser at 8 kHz, the vowel of 'hot': resonances at 730, 1090, 2440 and
3400 Hz, 80, 90, 120 and 160 Hz wide. Each gives the denominator a factor
1 - 2 r cos(2 pi f / 8000) z^-1 + r^2 z^-2 with r = exp(-pi width / 8000). The k follow by step-down:
k_n is the last coefficient of order n, then a_i becomes (a_i - k_n a_(n-i)) / (1 - k_n^2).
The one tap, the denominator at z = 1, makes the gain 1 at frequency 0.""",
    "observer": """\
State observer of a motor at 1 kHz with a time constant of 20 ms and a speed of 0.02 encoder steps a
millisecond for each step of the command u. With e = exp(-1 / 20) and h = 20 (1 - e) the model is
angle' = angle + h speed + 0.02 (1 - h) u, speed' = e speed + 0.02 (1 - e) u (u held for 1 ms).
The measured angle y corrects them by l1 (y - angle) and l2 (y - angle), with both poles at
p = exp(-0.15): l1 = 1 + e - 2 p, l2 = (p^2 - e (1 - l1)) / h. The outputs are the angle in 16ths of
an encoder step and the speed in 256ths of a step a millisecond.
What it needs: guards count from the input's step, and the speed has 8 places more: 12 guards.""",
}


def example(name: str, lists: dict, words: str) -> Example:
    return Example(name, COMMENTS[name], lists, words)


def sections_of(rows: list) -> dict:
    return {"sections": [shorts(row) for row in rows]}


def crossovers() -> list:
    scale, root = warp(Decimal(2000), 48000), Decimal(2).sqrt()
    low = bilinear([ONE, ZERO, ZERO], [ONE, root, ONE], scale)
    high = bilinear([ZERO, ZERO, ONE], [ONE, root, ONE], scale)
    words = "--width 16 --bound 24000 --error 2 --output-width"
    return [example("crossover_low", sections_of([low, low]), f"{words} 16"),
            example("crossover_high", sections_of([high, high]), f"{words} 17")]


def k_weighting() -> Example:
    shelf = ["1.53512485958697", "-2.69169618940638", "1.19839281085285", "1",
             "-1.69065929318241", "0.73248077421585"]
    high = ["1", "-2", "1", "1", "-1.99004745483398", "0.99007225036621"]
    return example("k_weighting", {"sections": [shelf, high]},
                   "--width 16 --bound 16384 --output-width 20 --output-low -2 --error 10 "
                   "--guards 15 --fractions 30 --lengths 4096")


def a_weighting() -> Example:
    poles = ("20.598997", "107.65265", "737.86223", "12194.217")
    w1, w2, w3, w4 = [2 * PI * Decimal(frequency) for frequency in poles]
    scale = Decimal(96000)
    rows = [first_order([ZERO, ONE], [pole, ONE], scale) for pole in (w1, w1, w2, w3)]
    rows.append(bilinear([w4 * w4, ZERO, ZERO], [w4 * w4, 2 * w4, ONE], scale))
    # The rule gives 1 kHz the gain of the formula at s = i w, with this w^2.
    square = (scale * tangent(PI * 1000 / 48000)) ** 2
    middle = ((square + w2**2) * (square + w3**2)).sqrt()
    gain = square**2 * w4**2 / ((square + w1**2) * middle * (square + w4**2))
    rows[4][:3] = [entry / gain for entry in rows[4][:3]]
    return example("a_weighting", sections_of(rows),
                   "--width 16 --bound 12000 --output-width 18 --output-low -1 --error 4 "
                   "--guards 12 --fractions 26 --lengths 4096")


def mains_harmonics() -> Example:
    t = tangent(PI * 2 / 1000)
    rows = []
    for frequency in (50, 100, 150, 200):
        c = cosine(2 * PI * frequency / 1000)
        rows.append([entry / (1 + t) for entry in (ONE, -2 * c, ONE, 1 + t, -2 * c, 1 - t)])
    return example("mains_harmonics", sections_of(rows),
                   "--width 16 --bound 12000 --output-width 17 --input-low -8 --error 3 "
                   "--guards 12 --fractions 26 --lengths 4096")


def ecg_band() -> Example:
    rows = [bilinear([ZERO, ZERO, ONE], [ONE, Decimal(2).sqrt(), ONE], warp(Decimal("0.5"), 500))]
    for m in (1, 3):
        damping = 2 * cosine(PI * m / 8)
        rows.append(bilinear([ONE, ZERO, ZERO], [ONE, damping, ONE], warp(Decimal(40), 500)))
    return example("ecg_band", sections_of(rows), "--width 16 --bound 8000 --output-width 16 --error 4 "
                   "--guards 16 --fractions 30 --lengths 4096")


def yaw_damper() -> Example:
    washout = first_order([ZERO, Decimal(2)], [ONE, Decimal(2)], Decimal(200))
    mode = bilinear([ONE, Decimal("0.2"), ONE], [ONE, Decimal("1.2"), ONE], warp(Decimal("6.5"), 100))
    return example("yaw_damper", sections_of([washout, mode]), "--width 14 --bound 6400 "
                   "--output-width 18 --input-low -6 --output-low -8 --error 2 "
                   "--guards 12 --fractions 26 --lengths 4096")


def matrices(lists: dict) -> dict:
    return {key: [shorts(row) for row in rows] for key, rows in lists.items()}


def pid() -> Example:
    leak, smooth = Decimal("-0.004").exp(), Decimal("-0.4").exp()
    integral, rate = Decimal("0.012"), Decimal(6)
    lists = {"A": [[leak, ZERO], [ZERO, smooth]],
             "B": [[integral, -integral], [ZERO, 1 - smooth]],
             "C": [[ONE, rate]],
             "D": [[Decimal("2.4"), Decimal("-2.4") - rate]]}
    return example("pid", matrices(lists), "--width 12 12 --bound 1000 1000 --output-width 16 --error 2")


def speech_lattice() -> Example:
    a = [ONE]
    for frequency, width in ((730, 80), (1090, 90), (2440, 120), (3400, 160)):
        r = (-PI * width / 8000).exp()
        factor = [ONE, -2 * r * cosine(2 * PI * frequency / 8000), r * r]
        a = [sum(a[j] * factor[i - j] for j in range(len(a)) if 0 <= i - j <= 2)
             for i in range(len(a) + 2)]
    gain, k = sum(a), []
    while len(a) > 1:
        last = a[-1]
        k.insert(0, last)
        a = [(a[i] - last * a[-1 - i]) / (1 - last * last) for i in range(len(a) - 1)]
    return example("speech_lattice", {"k": shorts(k), "v": shorts([gain] + [ZERO] * len(k))},
                   "--width 16 --bound 3500 --output-width 18 --error 4")


def observer() -> Example:
    e, p, speed = Decimal("-0.05").exp(), Decimal("-0.15").exp(), Decimal("0.02")
    h = 20 * (1 - e)
    l1 = 1 + e - 2 * p
    l2 = (p * p - e * (1 - l1)) / h
    lists = {"A": [[1 - l1, h], [-l2, e]],
             "B": [[speed * (1 - h), l1], [speed * (1 - e), l2]],
             "C": [[ONE, ZERO], [ZERO, ONE]],
             "D": [[ZERO, ZERO], [ZERO, ZERO]]}
    return example("observer", matrices(lists), "--width 12 16 --bound 2047 16000 "
                   "--output-width 20 20 --output-low -4 -8 --error 4 4 "
                   "--guards 12 --fractions 26 --lengths 256")


def examples() -> list:
    with localcontext() as context:
        context.prec = WORKING_DIGITS
        return [*crossovers(), k_weighting(), a_weighting(), mains_harmonics(), ecg_band(), yaw_damper(), pid(),
                speech_lattice(), observer()]


def text_of(example: Example) -> str:
    """The text of an example's filter file."""
    options = filter_file.options_of(example.words.split() + ["--comment", example.comment])
    return filter_file.file_text(example.lists, options)


def main(words: list) -> int:
    parser = argparse.ArgumentParser(prog="example_filters.py", description=__doc__, allow_abbrev=False,
                                     formatter_class=argparse.RawDescriptionHelpFormatter)
    parser.add_argument("folder", metavar="FOLDER", help="where the filter files are placed")
    folder = Path(parser.parse_args(words).folder)
    for made in examples():
        try:
            (folder / f"{made.name}.toml").write_text(text_of(made), encoding="utf-8")
        except OSError as fault:
            print(f"example_filters: '{folder / made.name}.toml' cannot be written: {fault.strerror}", file=sys.stderr)
            return 1
    return 0


if __name__ == "__main__":
    sys.exit(main(sys.argv[1:]))
