"""The program of fixif, for the tools: runs it, and reads what it puts and what code says."""

from __future__ import annotations

import re
import subprocess
import sys
from decimal import ROUND_HALF_EVEN, Context, Decimal, Inexact, InvalidOperation, Overflow
from pathlib import Path
from typing import NamedTuple

TOP = Path(__file__).resolve().parent.parent
PROGRAM = TOP / "crates" / "fixif" / "out" / "fixif"
# The scale of the sides of an inequality, and of the errors of a certificate.
SCALE = 2**64
# Nothing is rounded: what needs more digits than these ends the program.
EXACT = Context(prec=5_000_000, rounding=ROUND_HALF_EVEN, traps=[Inexact, InvalidOperation, Overflow])


class Refused(Exception):
    """The tool gives up, for the reason in words."""

    def __init__(self, status: int, reason: str):
        super().__init__(reason)
        self.status = status


# ---- runs


class Answer(NamedTuple):
    """The status that the program ended with, and the text that it put."""

    status: int
    text: str


class Program(NamedTuple):
    """The program at a path."""

    path: str

    def run(self, *words: str) -> Answer:
        """What the program answers to the words."""
        try:
            ran = subprocess.run([self.path, *words], stdin=subprocess.DEVNULL, stdout=subprocess.PIPE,
                                 stderr=subprocess.DEVNULL, text=True, check=False)
        except FileNotFoundError as fault:
            hint = ": './fixif --build' makes it" if self.path == str(PROGRAM) else ""
            raise Refused(3, f"{self.path} cannot be run: {fault.strerror}{hint}") from fault
        except OSError as fault:
            raise Refused(3, f"{self.path} cannot be run: {fault.strerror}") from fault
        return Answer(ran.returncode, ran.stdout)

    def put(self, *words: str) -> str:
        """The text that the program puts on the words, where it ends with 0."""
        answer = self.run(*words)
        if answer.status != 0:
            said = answer.text.strip() or "nothing"
            raise Refused(1 if answer.status == 1 else 3,
                          f"fixif {words[0]} ends with status {answer.status} and puts: {said}")
        return answer.text

    def standing(self) -> str:
        """`proved, TOOLCHAIN`, or `unproved: REASON`."""
        try:
            ran = subprocess.run([str(TOP / "tools" / "proved"), self.path], stdin=subprocess.DEVNULL,
                                 stdout=subprocess.PIPE, text=True, check=False)
        except OSError as fault:
            return f"unproved: tools/proved cannot be run: {fault.strerror}"
        return ran.stdout.strip() or "unproved: tools/proved said nothing"

    def say_unproved(self, tool: str) -> None:
        """Says on standard error that the program is not proved, where it is not."""
        standing = self.standing()
        if not standing.startswith("proved"):
            print(f"{tool}: {standing}", file=sys.stderr)


# ---- the filter, from what `show` puts


class Term(NamedTuple):
    """A summand of a row: the coefficient times an input ("u") or a row ("v"), `lag` moments before."""

    coefficient: Decimal
    kind: str
    source: int
    lag: int


class Input(NamedTuple):
    """The words of an input: bits, the power of two of its last place, the greatest magnitude."""

    width: int
    low: int
    bound: int


class Output(NamedTuple):
    """A row that is put out, the words' bits and last place, and the error that is wanted, in steps."""

    row: int
    width: int
    low: int
    error: Decimal


class Filter(NamedTuple):
    """The words of a filter file, by name, its inputs and outputs, and the rows of its equations."""

    words: dict[str, str]
    inputs: list[Input]
    outputs: list[Output]
    rows: list[list[Term]]

    def scale(self, output: Output) -> Decimal:
        """The output steps that an input step has."""
        return power_of_two(self.inputs[0].low - output.low)


def read_show(text: str) -> Filter:
    """The filter from the text of `show`."""
    words, inputs, outputs, rows = {}, [], [], []
    for line in text.splitlines():
        word, *rest = line.split(" ")
        if word == "input":
            inputs.append(Input(*(int(field(rest, key)) for key in ["width", "low", "bound"])))
        elif word == "output":
            numbers = (int(field(rest, key)) for key in ["row", "width", "low"])
            outputs.append(Output(*numbers, Decimal(field(rest, "error"))))
        elif word == "row":
            sums = line.split(": ", 1)[1]
            rows.append([] if sums == "0" else [read_term(term) for term in sums.split("; ")])
        else:
            words[word] = " ".join(rest)
    return Filter(words, inputs, outputs, rows)


def field(words: list[str], key: str) -> str:
    """The word behind the key."""
    return words[words.index(key) + 1]


def read_term(text: str) -> Term:
    coefficient, source, lag = text.split(" ")
    return Term(Decimal(coefficient), source[0], int(source[1:]), int(lag))


def power_of_two(power: int) -> Decimal:
    """The exact decimal of 2^power."""
    return Decimal(2**power) if power >= 0 else EXACT.multiply(Decimal(5**-power), Decimal(1).scaleb(power))


# ---- code


class Product(NamedTuple):
    """A summand of a row of code: the coefficient times a word, times 2^left. The word is that of an input ("u"), of an
    earlier row ("r"), or of a row at the moment before ("s")."""

    coefficient: int
    kind: str
    source: int
    left: int


class Row(NamedTuple):
    """A row of code: its products, the places that are dropped, and the bits that are kept."""

    products: list[Product]
    shift: int
    width: int


class Code(NamedTuple):
    """The rows of code, the bits of its accumulators, and the rows that are put out."""

    accumulator: int
    rows: list[Row]
    outputs: list[int]


ROW = re.compile(r"a=\d+;((?:a\+=MUL\([^)]*\);)*)r\d+=LOW\((?:SAR|FLR)\(a,(\d+)\),(\d+)\);")
PRODUCT = re.compile(r"MUL\((-?\d+),([rsu])(\d+),(\d+)\)")


def read_code(text: str) -> Code:
    """The rows of code that the program has read without a fault."""
    dense = re.sub(r"\s+", "", text)
    rows = [Row([Product(int(c), kind, int(source), int(left)) for c, kind, source, left in PRODUCT.findall(products)],
                int(shift), int(width)) for products, shift, width in ROW.findall(dense)]
    step = re.search(r"STEP\((\d+),", dense)
    return Code(int(step[1]) if step else 0, rows, [int(row) for row in re.findall(r"OUT\(\d+,r(\d+)\);", dense)])


# ---- files


def text_of(path: str) -> str:
    """The text of a file of the user."""
    try:
        return Path(path).read_text(encoding="utf-8")
    except OSError as fault:
        raise Refused(3, f"'{path}' cannot be read: {fault.strerror}") from fault
    except UnicodeDecodeError as fault:
        raise Refused(3, f"'{path}' is not UTF-8") from fault


def place(path: str, text: str) -> None:
    """Writes a file of the user."""
    try:
        Path(path).write_text(text, encoding="utf-8")
    except OSError as fault:
        raise Refused(3, f"'{path}' cannot be written: {fault.strerror}") from fault
