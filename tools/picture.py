#!/usr/bin/env python3
"""Draws what a code of fixif does: its impulse and step response beside those of the filter, their difference, and the
frequency response of both.

The filter's responses to words are exact: they are computed from the equations that `fixif show` puts, in decimals of
any length. The code's are what `fixif simulate` puts. The band of the difference is the error that `fixif check` has
accepted.
"""

from __future__ import annotations

import argparse
import cmath
import math
import re
import sys
import tempfile
from decimal import Decimal, localcontext
from pathlib import Path
from typing import NamedTuple
from xml.sax.saxutils import escape

import program
from program import EXACT, Code, Filter, Program, Refused, Term, read_code, read_show

LONGEST = 4096
# One moment is drawn beyond the scale where it is so many times all others.
SPIKE = 8
# The frequencies of the frequency response, as parts of the sampling rate.
LOWEST, HIGHEST, FREQUENCIES, DOT_EACH = 1e-4, 0.5, 601, 5
# The scale of the frequency response ends so many dB below the level of the error.
BELOW_ERROR = 20

HELP = """\
The files are those of `fixif check`. The picture, an SVG, goes to standard output or to the file of --to, and the
largest differences to standard error.

The frequency response is that of the filter's equations and that of the code's coefficients, without its roundings; its
dashed line is the accepted error against an input at its bound.

The status is 0 where the picture was written, 1 where `check` does not accept or a difference is beyond its error, 2
where the options are no options of this program, 3 where the program of fixif or a file cannot be run or read.
"""


# ---- the exact response


def exact_response(filter_: Filter, words: list[list[int]]) -> list[list[Decimal]]:
    """The exact outputs in output steps, moment by moment, for the input words of each moment."""
    values: list[list[Decimal]] = []
    answer = []
    with localcontext(EXACT):
        for moment in range(len(words)):
            now: list[Decimal] = []
            values.append(now)
            for row in filter_.rows:
                now.append(sum((term.coefficient * read(term, moment, values, words) for term in row), Decimal(0)))
            answer.append([now[output.row] * filter_.scale(output) for output in filter_.outputs])
    return answer


def read(term: Term, moment: int, values: list[list[Decimal]], words: list[list[int]]) -> Decimal:
    """What a term reads at a moment; what lies before the first moment is 0."""
    if term.lag > moment:
        return Decimal(0)
    before = (words if term.kind == "u" else values)[moment - term.lag]
    return Decimal(before[term.source])


# ---- the frequency response


class Net(NamedTuple):
    """The rows of a filter or of code with doubles for coefficients, the row that is put out, and its steps in an input
    step."""

    rows: list[list[tuple[complex, str, int, int]]]
    row: int
    scale: float

    def gain(self, place: int, frequency: float) -> complex:
        """The output steps for an input step at the input of that place, at a part of the sampling rate."""
        delay = cmath.exp(-2j * math.pi * frequency)
        count = len(self.rows)
        matrix = [[complex(row == column) for column in range(count)] + [0j] for row in range(count)]
        for row, terms in enumerate(self.rows):
            for coefficient, kind, source, lag in terms:
                if kind == "v":
                    matrix[row][source] -= coefficient * delay**lag
                elif source == place:
                    matrix[row][count] += coefficient * delay**lag
        return solved(matrix)[self.row] * self.scale


def solved(matrix: list[list[complex]]) -> list[complex]:
    """The solution of linear equations, each a row of coefficients and the right side."""
    count = len(matrix)
    for place in range(count):
        best = max(range(place, count), key=lambda row: abs(matrix[row][place]))
        matrix[place], matrix[best] = matrix[best], matrix[place]
        pivot = matrix[place] = [entry / matrix[place][place] for entry in matrix[place]]
        for row in range(count):
            if row != place and matrix[row][place] != 0:
                factor = matrix[row][place]
                matrix[row] = [entry - factor * other for entry, other in zip(matrix[row], pivot)]
    return [row[count] for row in matrix]


def net_of_filter(filter_: Filter, output: int) -> Net:
    rows = [[(float(term.coefficient), term.kind, term.source, term.lag) for term in row] for row in filter_.rows]
    return Net(rows, filter_.outputs[output].row, float(filter_.scale(filter_.outputs[output])))


def net_of_code(code: Code, output: int) -> Net:
    """The code without its roundings: a row is its sum over the places that it drops."""
    rows = [[(math.ldexp(product.coefficient, product.left - row.shift), "u" if product.kind == "u" else "v",
              product.source, int(product.kind == "s")) for product in row.products] for row in code.rows]
    return Net(rows, code.outputs[output], 1.0)


def decibels(ratio: float) -> float:
    """20 log of the magnitude; that of 0 is below every scale."""
    return 20 * math.log10(ratio) if ratio > 0 else -math.inf


class Spectrum(NamedTuple):
    """The frequency responses of filter and code in dB, and the level of the accepted error."""

    frequencies: list[float]
    exact: list[float]
    code: list[float]
    error: float


def spectrum_of(exact: Net, code: Net, place: int, error: float) -> Spectrum:
    step = math.log10(HIGHEST / LOWEST) / (FREQUENCIES - 1)
    frequencies = [LOWEST * 10 ** (step * count) for count in range(FREQUENCIES)]
    levels = [[decibels(abs(net.gain(place, frequency))) for frequency in frequencies] for net in [exact, code]]
    return Spectrum(frequencies, *levels, decibels(error))


# ---- the code, from what the program puts


class Files(NamedTuple):
    """The program of fixif, and the three files that it judges."""

    fixif: Program
    filter: str
    code: str
    certificate: str

    def errors(self) -> list[Decimal]:
        """The accepted error of each output, in output steps, rounded up in the ninth place."""
        text = self.fixif.put("check", self.filter, self.code, self.certificate)
        return [Decimal(error) for error in re.findall(r"^error \d+ (\S+)$", text, re.MULTILINE)]

    def response(self, words: list[list[int]]) -> list[list[int]]:
        """The code's output words, moment by moment."""
        with tempfile.TemporaryDirectory() as folder:
            samples = Path(folder) / "samples.csv"
            samples.write_text("".join(",".join(map(str, moment)) + "\n" for moment in words), encoding="ascii")
            text = self.fixif.put("simulate", self.code, str(samples))
        return [[int(word) for word in line.split(",")] for line in text.splitlines()]


# ---- the picture


class Response(NamedTuple):
    """One response: its name, the exact one, the code's, and the error of the code that was accepted."""

    name: str
    exact: list[Decimal]
    code: list[int]
    error: Decimal

    def differences(self) -> list[Decimal]:
        with localcontext(EXACT):
            return [word - value for word, value in zip(self.code, self.exact)]


def ticks(low: float, high: float) -> list[float]:
    """About five round numbers from low to high: multiples of 1, 2 or 5 times a power of ten."""
    span = high - low
    power = 10.0 ** math.floor(math.log10(span / 5))
    step = next(step for step in [power, 2 * power, 5 * power, 10 * power] if span / step <= 6)
    return [step * count for count in range(math.ceil(low / step - 1e-9), math.floor(high / step + 1e-9) + 1)]


class Panel:
    """A diagram: a place on the page, and what it spans from left to right and from low to high."""

    WIDTH, HEIGHT = 380, 220

    def __init__(self, left: int, top: int, span: tuple[float, float], low: float, high: float, width: int = WIDTH):
        margin = 0.08 * (high - low) or 1.0
        self.left, self.top, self.width, self.span = left, top, width, span
        self.low, self.high = low - margin, high + margin

    def x(self, place: float) -> float:
        first, last = self.span
        return self.left + self.width * (place - first) / (last - first)

    def y(self, value: float) -> float:
        return self.top + self.HEIGHT * (self.high - value) / (self.high - self.low)

    def frame(self, title: str, across: str, upward: str, marks: list[tuple[float, str]]) -> list[str]:
        """The frame, its title, the titles of its axes, and its scales; the marks are those of the axis across."""
        bottom, middle = self.top + self.HEIGHT, self.left + self.width / 2
        turned = f'transform="translate({self.left - 54} {self.top + self.HEIGHT / 2:g}) rotate(-90)"'
        lines = [f'<text x="{self.left}" y="{self.top - 10}" class="title">{escape(title)}</text>',
                 f'<text x="{middle:g}" y="{bottom + 34}" text-anchor="middle">{escape(across)}</text>',
                 f'<text {turned} text-anchor="middle">{escape(upward)}</text>',
                 f'<rect x="{self.left}" y="{self.top}" width="{self.width}" height="{self.HEIGHT}" class="frame"/>']
        for value in ticks(self.low, self.high):
            y = self.y(value)
            lines.append(f'<path d="M{self.left} {y:.2f}h{self.width}" class="{"scale" if value else "zero"}"/>')
            lines.append(f'<text x="{self.left - 6}" y="{y + 4:.2f}" text-anchor="end">{value:g}</text>')
        for place, name in marks:
            lines.append(f'<text x="{self.x(place):.2f}" y="{bottom + 16}" text-anchor="middle">{name}</text>')
        return lines

    def holds(self, value: float) -> bool:
        return self.low <= value <= self.high

    def line(self, points: list[tuple[float, float]]) -> str:
        """The points within the scale, joined."""
        joined = " ".join(f"{self.x(place):.2f},{self.y(value):.2f}" for place, value in points if self.holds(value))
        return f'<polyline points="{joined}" class="exact"/>'

    def dots(self, points: list[tuple[float, float]]) -> list[str]:
        return [f'<circle cx="{self.x(place):.2f}" cy="{self.y(value):.2f}" r="1.8"/>'
                for place, value in points if self.holds(value)]

    def band(self, error: float) -> list[str]:
        """The values up to the error in magnitude, and the error on both sides."""
        above, below = self.y(error), self.y(-error)
        size = f'width="{self.width}" height="{below - above:.2f}"'
        sides = f"M{self.left} {above:.2f}h{self.width}M{self.left} {below:.2f}h{self.width}"
        return [f'<rect x="{self.left}" y="{above:.2f}" {size} class="band"/>', f'<path d="{sides}" class="side"/>']

    def level(self, value: float, name: str) -> list[str]:
        """A dashed line at a value, with its name above it."""
        y = self.y(value)
        return [f'<path d="M{self.left} {y:.2f}h{self.width}" class="side"/>',
                f'<text x="{self.left + 8}" y="{y - 6:.2f}">{escape(name)}</text>']


STYLE = """\
text { font: 12px sans-serif; fill: #333 } .head { font-size: 16px } .title { font-size: 13px }
.frame { fill: none; stroke: #999 } .scale { stroke: #eee } .zero { stroke: #999 } .band { fill: #dcebf7 }
.side { stroke: #3a7ebf; stroke-dasharray: 5 3; fill: none } .exact { stroke: #c0504d; fill: none; stroke-width: 1.4 }
circle { fill: #1f4e79 }"""


def spike_of(values: list[float]) -> int | None:
    """The one moment that is many times all others, which then get a scale of their own."""
    place = max(range(len(values)), key=lambda moment: abs(values[moment]))
    others = max((abs(value) for moment, value in enumerate(values) if moment != place), default=0)
    return place if 0 < SPIKE * others < abs(values[place]) else None


def moment_marks(count: int) -> list[tuple[float, str]]:
    return [(moment, f"{moment:g}") for moment in ticks(0, max(count - 1, 1))]


def response_panel(one: Response, left: int) -> list[str]:
    """The response of filter and code, moment by moment."""
    exact, code = list(map(float, one.exact)), list(map(float, one.code))
    spike = spike_of(exact)
    scaled = [value for values in [exact, code] for moment, value in enumerate(values) if moment != spike] + [0.0]
    panel = Panel(left, 80, (0, max(len(code) - 1, 1)), min(scaled), max(scaled))
    title = one.name
    if spike is not None:
        title += f"; beyond this scale at moment {spike}: {exact[spike]:.1f}, code {code[spike]:g}"
    body = panel.frame(title, "moment", "output steps", moment_marks(len(code)))
    return [*body, panel.line(list(enumerate(exact))), *panel.dots(list(enumerate(code)))]


def difference_panel(one: Response, left: int) -> list[str]:
    """What the code is beyond the filter, in the band of its error."""
    differences, error = list(map(float, one.differences())), float(one.error)
    extent = max(error, *map(abs, differences))
    panel = Panel(left, 380, (0, max(len(differences) - 1, 1)), -extent, extent)
    title = "code less filter; the band is the accepted error"
    frame = panel.frame(title, "moment", "output steps", moment_marks(len(differences)))
    return [*panel.band(error), *frame, *panel.dots(list(enumerate(differences)))]


def frequency_marks(rate: float | None) -> list[tuple[float, str]]:
    """The powers of ten of the axis, and its end."""
    unit = rate or 1.0
    powers = range(math.ceil(math.log10(LOWEST * unit) - 1e-9), math.ceil(math.log10(HIGHEST * unit)))
    places = [10.0**power for power in powers if 10.0**power < 0.7 * HIGHEST * unit] + [HIGHEST * unit]
    return [(math.log10(place / unit), f"{place:g}") for place in places]


def frequency_panel(spectrum: Spectrum, rate: float | None) -> list[str]:
    """The frequency responses of filter and code in dB, and the level of the error."""
    least = min(level for level in [spectrum.error, 0.0] if level > -math.inf) - BELOW_ERROR
    panel = Panel(70, 680, (math.log10(LOWEST), math.log10(HIGHEST)), least,
                  max(*spectrum.exact, *spectrum.code, least + 1), width=840)
    across = "frequency in Hz" if rate else "frequency, as a part of the sampling rate"
    places = list(map(math.log10, spectrum.frequencies))
    body = panel.frame("frequency response", across, "gain in dB", frequency_marks(rate))
    if panel.holds(spectrum.error):
        body += panel.level(spectrum.error, "the accepted error, against an input at its bound")
    dotted = list(zip(places, spectrum.code))[::DOT_EACH]
    return [*body, panel.line(list(zip(places, spectrum.exact))), *panel.dots(dotted)]


def picture(title: str, responses: list[Response], spectrum: Spectrum, rate: float | None) -> str:
    """The SVG: for each response a column, the response above and the difference below, and then the spectrum."""
    body = []
    for column, one in enumerate(responses):
        left = 70 + 460 * column
        body += response_panel(one, left) + difference_panel(one, left)
    body += frequency_panel(spectrum, rate)
    key = ('<path d="M70 44h24" class="exact"/><text x="100" y="48">filter, exactly</text>'
           '<circle cx="212" cy="44" r="2.5"/><text x="222" y="48">code</text>')
    return "\n".join(['<svg xmlns="http://www.w3.org/2000/svg" width="940" height="950" viewBox="0 0 940 950">',
                      f"<style>\n{STYLE}\n</style>", '<rect width="940" height="950" fill="#fff"/>',
                      f'<text x="70" y="26" class="head">{escape(title)}</text>', key, *body, "</svg>", ""])


# ---- the program


def options(words: list[str]) -> argparse.Namespace:
    parser = argparse.ArgumentParser(prog="picture", description=__doc__, epilog=HELP, allow_abbrev=False,
                                     formatter_class=argparse.RawDescriptionHelpFormatter)
    parser.add_argument("filter", help="the filter file")
    parser.add_argument("code", help="the code")
    parser.add_argument("certificate", help="its certificate")
    parser.add_argument("--to", help="the file of the picture")
    parser.add_argument("--title", help="the line above the picture; the name of the filter file")
    parser.add_argument("--moments", type=int, default=128, help=f"how many, 2 to {LONGEST}; 128")
    parser.add_argument("--input", type=int, default=0, help="the input of the impulse and the step; 0")
    parser.add_argument("--output", type=int, default=0, help="the output that is drawn; 0")
    parser.add_argument("--word", type=int, help="the word of the impulse and the step; the input's bound")
    parser.add_argument("--rate", type=float, metavar="HZ", help="the sampling rate, for the axis of the frequencies")
    parser.add_argument("--program", default=str(program.PROGRAM), help="the program of fixif")
    chosen = parser.parse_args(words)
    if chosen.rate is not None and not 0 < chosen.rate < math.inf:
        parser.error("--rate is above 0")
    if not 2 <= chosen.moments <= LONGEST:
        parser.error(f"--moments is 2 to {LONGEST}")
    return chosen


def excitation(filter_: Filter, chosen: argparse.Namespace, is_step: bool) -> list[list[int]]:
    """The input words of an impulse or a step at one input, which is 0 elsewhere."""
    if not (0 <= chosen.input < len(filter_.inputs) and 0 <= chosen.output < len(filter_.outputs)):
        raise Refused(2, f"the filter has {len(filter_.inputs)} inputs and {len(filter_.outputs)} outputs")
    bound = filter_.inputs[chosen.input].bound
    word = bound if chosen.word is None else chosen.word
    if abs(word) > bound:
        raise Refused(2, f"--word is beyond the input's bound {bound}, and the error is no claim about it")
    return [[word if index == chosen.input and (is_step or moment == 0) else 0 for index in range(len(filter_.inputs))]
            for moment in range(chosen.moments)]


def responses_of(files: Files, filter_: Filter, errors: list[Decimal], chosen: argparse.Namespace) -> list[Response]:
    """Both responses, of one input and output. Refused where a difference is beyond the accepted error."""
    answer = []
    for name, is_step in [("impulse response", False), ("step response", True)]:
        words = excitation(filter_, chosen, is_step)
        exact = [moment[chosen.output] for moment in exact_response(filter_, words)]
        code = [moment[chosen.output] for moment in files.response(words)]
        answer.append(Response(name, exact, code, errors[chosen.output]))
        largest = max(map(abs, answer[-1].differences()))
        said = f"{name}: the largest difference is {float(largest):.6f} steps, {errors[chosen.output]} is accepted"
        print(f"picture: {said}", file=sys.stderr)
        if largest > errors[chosen.output]:
            raise Refused(1, f"{name}: a difference is beyond the accepted error")
    return answer


def draw(chosen: argparse.Namespace) -> str:
    """The text of the picture."""
    files = Files(Program(chosen.program), chosen.filter, chosen.code, chosen.certificate)
    files.fixif.say_unproved("picture")
    errors = files.errors()
    filter_ = read_show(files.fixif.put("show", files.filter))
    responses = responses_of(files, filter_, errors, chosen)
    code = read_code(program.text_of(files.code))
    bound = filter_.inputs[chosen.input].bound
    level = float(errors[chosen.output]) / bound if bound else 0.0
    spectrum = spectrum_of(net_of_filter(filter_, chosen.output), net_of_code(code, chosen.output), chosen.input, level)
    return picture(chosen.title or Path(chosen.filter).stem, responses, spectrum, chosen.rate)


def main(words: list[str]) -> int:
    chosen = options(words)
    try:
        text = draw(chosen)
        if chosen.to is None:
            sys.stdout.write(text)
            sys.stdout.flush()
        else:
            Path(chosen.to).write_text(text, encoding="utf-8")
    except Refused as refused:
        print(f"picture: {refused}", file=sys.stderr)
        return refused.status
    except OSError as fault:
        print(f"picture: the picture cannot be written: {fault.strerror}", file=sys.stderr)
        # What is left in the buffer would fail once more at the end of the run.
        sys.stdout = None
        return 3
    return 0


if __name__ == "__main__":
    sys.exit(main(sys.argv[1:]))
