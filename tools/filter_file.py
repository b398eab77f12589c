#!/usr/bin/env python3
"""Writes a filter file of fixif from lists of coefficients, as scipy or a cookbook gives them."""

from __future__ import annotations

import argparse
import json
import math
import re
import sys
from decimal import Context, Decimal
from fractions import Fraction
from typing import NamedTuple

# The limits of filter files.
DIGITS = 18
PLACES = 28
MAGNITUDE = 2**24
ORDER = 12
SECTIONS = 8
STATES = 16
LATTICE = 11
PORTS = 4

# A quotient of decimals that is no short decimal is rounded to so many digits.
QUOTIENT_DIGITS = 17
LONGEST_NUMERAL = 1000
# The moments of an impulse response, where the gain is spread.
RESPONSE = 8192
LINE = 120

KEYS = {"tf": ["b", "a"], "sos": ["sections"], "ss": ["A", "B", "C", "D"], "lattice": ["k", "v"]}
STRUCTURES = {"tf": ["df1", "df2", "df2t", "fir", "lattice"], "sos": ["df1", "df2t"], "ss": ["ss"],
              "lattice": ["lattice"]}
NUMERAL = re.compile(r"[+-]?(?P<whole>[0-9]*)(?:\.(?P<part>[0-9]*))?(?:[eE](?P<power>[+-]?[0-9]+))?")
BEGINS_NEGATIVE = re.compile(r"-([0-9.]|inf|nan)", re.IGNORECASE)

HELP = """\
The coefficients come by one of --b, --sos, --ss, --lattice, or else as one JSON object on standard input, with the
keys b and a, or sos, or A B C D, or k and v. The file goes to standard output, words about it to standard error.

A list is numbers between blanks or commas, or a JSON list; rows of a matrix end with a semicolon:
    --b 0.25 0.5 0.25     --a=1,-0.5     --sos "1 2 1 1 -0.5 0.25; 1 0 0 1 0.1 0"     --ss "0.9" "1" "[[0.1]]" "0"

Numbers of JSON are doubles: one whose decimal expansion fits into 18 digits and 28 places is written exactly, each
other as the shortest text that gives the same double. Words of an option and quoted texts of JSON are decimals, and
are passed through. What is finer than 28 places, or longer than 18 digits, is rounded, and that is said.

From scipy:
    python3 -c "import json, scipy.signal as s; b, a = s.butter(2, 1000, fs=48000); \\
        print(json.dumps({'b': list(b), 'a': list(a)}))" | tools/filter_file.py --bound 16384 --error 2
    python3 -c "import json, scipy.signal as s; \\
        print(json.dumps({'sos': s.butter(8, 2000, fs=48000, output='sos').tolist()}))" \\
        | tools/filter_file.py --spread-gain --bound 16384 --error 4 --guards 4 8

The status is 0 where a file was written, 1 where the filter is refused or the output failed, 2 where the options are
no options of this program.
"""


class Refused(Exception):
    """A filter that no file can say, with the reason in words."""


class Coefficient(NamedTuple):
    """A number of the filter: its name in messages, the text that says it, its exact value, whether it is a double."""

    name: str
    text: str
    value: Fraction
    is_double: bool


# ---- numbers


def digits_and_power(text: str) -> tuple[str, int]:
    """The digits of a numeral without zeros at their ends, and the power of ten of the last one."""
    match = NUMERAL.fullmatch(text)
    whole, part = match["whole"], match["part"] or ""
    power = max(-9999, min(9999, int(match["power"] or "0"))) - len(part)
    digits = (whole + part).lstrip("0")
    short = digits.rstrip("0")
    return (short, power + len(digits) - len(short)) if short else ("", 0)


def is_numeral(text: str) -> bool:
    match = NUMERAL.fullmatch(text)
    return bool(match and (match["whole"] or match["part"]))


def value_of(text: str) -> Fraction:
    """The exact value of a numeral."""
    digits, power = digits_and_power(text)
    size = Fraction(10) ** power * int(digits or "0")
    return -size if text.startswith("-") else size


def fits(text: str) -> bool:
    """Whether a numeral has no more digits and places than a filter file may have."""
    digits, power = digits_and_power(text)
    return len(digits) <= DIGITS and power >= -PLACES


def text_of_double(number: float) -> str:
    """The exact decimal of a double where it fits, else the shortest text that gives the same double."""
    short = repr(number)
    exact = format(Decimal(number), "f")
    if value_of(short) != Fraction(number) and fits(exact):
        return exact
    return "0" if number == 0 else short[:-2] if short.endswith(".0") else short


def text_of_quotient(value: Fraction) -> str:
    """The exact decimal of a fraction where it fits, else the nearest decimal of 17 digits."""
    scaled = value * 10**PLACES
    if scaled.denominator == 1:
        exact = plain(scaled.numerator, -PLACES)
        if fits(exact):
            return exact
    rounded = Context(prec=QUOTIENT_DIGITS).divide(Decimal(value.numerator), Decimal(value.denominator))
    return str(rounded).replace("E", "e")


def plain(number: int, power: int) -> str:
    """The decimal of number times 10^power, for a power that is at most 0, without zeros at the end of its places."""
    text = str(abs(number)).rjust(1 - power, "0")
    whole, part = text[: len(text) + power], text[len(text) + power:].rstrip("0")
    return ("-" if number < 0 else "") + whole + ("." + part if part else "")


def coefficient(name: str, given: object) -> Coefficient:
    """A coefficient from an entry of a list: a double, a whole number, or the text of a decimal."""
    if isinstance(given, bool) or not isinstance(given, (int, float, str)):
        raise Refused(f"{name} is {kind_of(given)}, and has to be a number")
    if isinstance(given, str):
        return Coefficient(name, *decimal(name, given), False)
    if isinstance(given, float):
        if math.isnan(given):
            raise Refused(f"{name} is NaN, which is no number")
        if math.isinf(given):
            raise Refused(f"{name} is infinite")
        return Coefficient(name, text_of_double(given), Fraction(given), True)
    if abs(given) >= 10**LONGEST_NUMERAL:
        raise Refused(f"{name} has more than {LONGEST_NUMERAL} digits")
    return Coefficient(name, str(given), Fraction(given), False)


def decimal(name: str, given: str) -> tuple[str, Fraction]:
    """The text and the value of a decimal."""
    text = given.strip()
    if len(text) > LONGEST_NUMERAL:
        raise Refused(f"{name} has more than {LONGEST_NUMERAL} digits")
    if not is_numeral(text):
        word = text.lstrip("+-").lower()
        if word == "nan":
            raise Refused(f"{name} is NaN, which is no number")
        if word in ("inf", "infinity"):
            raise Refused(f"{name} is infinite")
        raise Refused(f"{name} is {shown(repr(given))}, which is no decimal number")
    return text, value_of(text)


def kind_of(given: object) -> str:
    if isinstance(given, list):
        return "a list"
    return "an object" if isinstance(given, dict) else shown(json.dumps(given))


def written(number: Coefficient) -> str:
    """The text of a coefficient in the file. What is rounded is said."""
    text = number.text
    in_range(number, number.value)
    if not fits(text):
        digits, power = digits_and_power(text)
        place = max(-PLACES, power + len(digits) - DIGITS)
        text = plain(round(number.value / Fraction(10) ** place), place)
        why = f"finer than {PLACES} places" if place == -PLACES else f"longer than {DIGITS} digits"
        say(f"{number.name}, {shown(number.text)}, is {why}: it is rounded to {text}")
        in_range(number, value_of(text))
    return text


def in_range(number: Coefficient, value: Fraction) -> None:
    if abs(value) >= MAGNITUDE:
        raise Refused(f"{number.name} is {shown(number.text)}, and a magnitude has to be below 2^24 = {MAGNITUDE}")


def shown(text: str) -> str:
    """A text for a message, cut where it is long."""
    return text if len(text) <= 60 else text[:57] + ".."


def say(words: str) -> None:
    print(f"filter_file: {words}", file=sys.stderr)


# ---- lists of coefficients


def numbers(name: str, given: object, least: int, most: int) -> list[Coefficient]:
    """The coefficients of a list, whose count is within the limits."""
    if not isinstance(given, list):
        raise Refused(f"{name} is {kind_of(given)}, and has to be a list of numbers")
    if not least <= len(given) <= most:
        raise Refused(f"{name} has {counted(len(given), 'coefficient')}, and may have {least} to {most}")
    return [coefficient(f"{name}[{place}]", entry) for place, entry in enumerate(given)]


def matrix(name: str, given: object, rows: int, columns: int) -> list[list[Coefficient]]:
    """The coefficients of a matrix of just so many rows and columns."""
    if not isinstance(given, list) or not all(isinstance(row, list) for row in given):
        raise Refused(f"{name} has to be a list of rows, each a list of numbers")
    if len(given) != rows:
        raise Refused(f"{name} has {counted(len(given), 'row')}, and {rows} are wanted")
    for place, row in enumerate(given):
        if len(row) != columns:
            raise Refused(f"row {place} of {name} has {counted(len(row), 'entry')}, and {columns} are wanted")
    return [[coefficient(f"{name}[{i}][{j}]", entry) for j, entry in enumerate(row)] for i, row in enumerate(given)]


def counted(count: int, word: str) -> str:
    many = word[:-1] + "ies" if word.endswith("y") else word + "s"
    return f"{count} {word if count == 1 else many}"


def monic(lists: list[list[Coefficient]], a0: Coefficient, divides: bool) -> list[list[Coefficient]]:
    """Lists of coefficients divided by their a0, where they have to be and where that was told."""
    if a0.value == 1:
        return lists
    if a0.value == 0:
        raise Refused(f"{a0.name}, which is a0, is 0: the equations do not give the output")
    if not divides:
        raise Refused(f"{a0.name}, which is a0, is {shown(a0.text)} and has to be 1: --normalise divides by it")
    say(f"divided by {a0.name} = {shown(a0.text)}")
    return [[quotient(number, a0) for number in one] for one in lists]


def quotient(number: Coefficient, divisor: Coefficient) -> Coefficient:
    """The quotient, rounded to a double where one of the two is one, else to 17 digits. What is rounded is told."""
    value = number.value / divisor.value
    if abs(value) >= MAGNITUDE:
        raise Refused(f"{number.name} becomes 2^24 = {MAGNITUDE} or more in magnitude")
    new = nearest(number.name, value, number.is_double or divisor.is_double)
    if new.value != value:
        say(f"{new.name} is rounded to {new.text}")
    return new


def nearest(name: str, value: Fraction, is_double: bool) -> Coefficient:
    """The nearest double, or the exact decimal where it fits and else the nearest of 17 digits."""
    if is_double:
        double = value.numerator / value.denominator
        return Coefficient(name, text_of_double(double), Fraction(double), True)
    text = text_of_quotient(value)
    return Coefficient(name, text, value_of(text), False)


class Shape(NamedTuple):
    """The form, the lines of its coefficients, and how many inputs and outputs it has."""

    form: str
    lines: list[str]
    inputs: int
    outputs: int


def transfer_function(given: dict, divides: bool) -> Shape:
    if "a" not in given:
        say("a is not given: it is 1, a filter without feedback")
    b = numbers("b", given["b"], 1, ORDER + 1)
    a = numbers("a", given.get("a", [1]), 1, ORDER + 1)
    b, a = monic([b, a], a[0], divides)
    return Shape("tf", [line_of("b", texts(b)), line_of("a", texts(a))], 1, 1)


def sections(given: dict, options: argparse.Namespace) -> Shape:
    rows = given["sections"]
    if isinstance(rows, list) and not 1 <= len(rows) <= SECTIONS:
        raise Refused(f"there are {counted(len(rows), 'section')}, and may be 1 to {SECTIONS}")
    table = matrix("sections", rows, len(rows) if isinstance(rows, list) else 0, 6)
    table = [monic([row], row[3], options.normalise)[0] for row in table]
    if options.spread_gain:
        table = with_gain_spread(table)
    return Shape("sos", [matrix_line("sections", table)], 1, 1)


def with_gain_spread(table: list[list[Coefficient]]) -> list[list[Coefficient]]:
    """The sections with numerators times powers of two, whose product is 1. The peak gain from the input to each
    section but the last, the sum of the magnitudes of its impulse response, is then above 1/2 and at most 1."""
    signal, before, powers = [1.0] + [0.0] * (RESPONSE - 1), 0, []
    for place, row in enumerate(table[:-1]):
        signal = response([nearly(number) for number in row], signal)
        total = sum(map(abs, signal))
        if not 0 < total < math.inf or max(map(abs, signal[-RESPONSE // 8:])) > total / (8 * RESPONSE):
            raise Refused(f"--spread-gain: the response up to section {place} is 0 or lasts for {RESPONSE} moments")
        now = -math.ceil(math.log2(total))
        powers.append(now - before)
        before = now
    powers.append(-before)
    say(f"numerators of the sections times {', '.join(f'2^{power}' for power in powers)}")
    factors = [Coefficient("", "", Fraction(2) ** -power, False) for power in powers]
    return [[quotient(number, factor) for number in row[:3]] + row[3:] for row, factor in zip(table, factors)]


def nearly(number: Coefficient) -> float:
    in_range(number, number.value)
    return float(number.value)


def response(section: list[float], signal: list[float]) -> list[float]:
    """What a section puts out, nearly."""
    b0, b1, b2, _, a1, a2 = section
    first = second = 0.0
    out = []
    for x in signal:
        y = b0 * x + first
        first, second = b1 * x - a1 * y + second, b2 * x - a2 * y
        out.append(y)
    return out


def state_space(given: dict) -> Shape:
    states, inputs, outputs = row_count(given["A"]), column_count(given["B"]), row_count(given["C"])
    for word, count, most in [("state", states, STATES), ("input", inputs, PORTS), ("output", outputs, PORTS)]:
        if not 1 <= count <= most:
            raise Refused(f"there are {counted(count, word)}, and may be 1 to {most}")
    shapes = {"A": (states, states), "B": (states, inputs), "C": (outputs, states), "D": (outputs, inputs)}
    lines = [matrix_line(key, matrix(key, given[key], *shape)) for key, shape in shapes.items()]
    return Shape("ss", lines, inputs, outputs)


def row_count(rows: object) -> int:
    return len(rows) if isinstance(rows, list) else 1


def column_count(rows: object) -> int:
    first = rows[0] if isinstance(rows, list) and rows else None
    return len(first) if isinstance(first, list) else 1


def lattice(given: dict) -> Shape:
    k = numbers("k", given["k"], 0, LATTICE)
    v = numbers("v", given["v"], 1, LATTICE + 1)
    if len(v) != len(k) + 1:
        raise Refused(f"v has {counted(len(v), 'tap')}, and has to have one more than k: {len(k) + 1}")
    return Shape("lattice", [line_of("k", texts(k)), line_of("v", texts(v))], 1, 1)


def shape_of(given: dict, options: argparse.Namespace) -> Shape:
    """The filter that the lists of coefficients mean."""
    form = form_of(given)
    if options.spread_gain and form != "sos":
        raise Refused("--spread-gain is for sections")
    if form == "tf":
        return transfer_function(given, options.normalise)
    if form == "sos":
        return sections(given, options)
    return state_space(given) if form == "ss" else lattice(given)


def form_of(given: dict) -> str:
    """The one form that the keys belong to, where all that it needs are there."""
    forms = [form for form, keys in KEYS.items() if any(key in given for key in keys)]
    unknown = [key for key in given if not any(key in keys for keys in KEYS.values())]
    if unknown:
        raise Refused(f"{shown(repr(unknown[0]))} is no list of coefficients: b and a, sos, A B C D, or k and v are")
    if not forms:
        raise Refused("there are no coefficients: b and a, sos, A B C D, or k and v are wanted")
    if len(forms) > 1:
        raise Refused(f"the forms are mixed: {' and '.join(given)} are there, and a filter file has one form")
    missing = [key for key in KEYS[forms[0]] if key not in given and key != "a"]
    if missing:
        raise Refused(f"{missing[0]} is missing")
    return forms[0]


# ---- the text of the file


def texts(row: list[Coefficient]) -> list[str]:
    return [f'"{written(number)}"' for number in row]


def line_of(key: str, entries: list[str]) -> str:
    """A list in one line where that is short enough, else with one entry a line."""
    line = f"{key} = [{', '.join(entries)}]"
    if len(line) <= LINE:
        return line
    return "\n".join([f"{key} = [", *(f"  {entry}," for entry in entries), "]"])


def matrix_line(key: str, rows: list[list[Coefficient]]) -> str:
    entries = [f"[{', '.join(texts(row))}]" for row in rows]
    if len(entries) == 1:
        return f"{key} = [{entries[0]}]"
    return "\n".join([f"{key} = [", *(f"  {entry}," for entry in entries), "]"])


def within(name: str, number: int, least: int, most: int) -> int:
    if not least <= number <= most:
        raise Refused(f"{name} is {number}, and may be {least} to {most}")
    return number


def one_for_each(name: str, given: list, count: int) -> list:
    """One value for each of so many inputs or outputs: just these, or one for all."""
    if len(given) == 1:
        return given * count
    if len(given) != count:
        raise Refused(f"{name} has {counted(len(given), 'value')}, and 1 or {count} are wanted")
    return given


def input_tables(options: argparse.Namespace, count: int) -> list[str]:
    widths = one_for_each("--width", options.width, count)
    bounds = one_for_each("--bound", options.bound or [None], count)
    tables = []
    for width, bound in zip(widths, bounds):
        fields = [f"width = {within('--width', width, 2, 32)}"]
        if bound is not None:
            fields.append(f"bound = {within('--bound', bound, 0, 2 ** (width - 1) - 1)}")
        tables.append("{ " + ", ".join(fields) + " }")
    return tables


def output_tables(options: argparse.Namespace, count: int) -> list[str]:
    widths = one_for_each("--output-width", options.output_width or [max(options.width)], count)
    lows = one_for_each("--output-low", options.output_low or [None], count)
    errors = one_for_each("--error", options.error, count)
    input_low = options.input_low or 0
    tables = []
    for width, low, error in zip(widths, lows, errors):
        fields = [f"width = {within('--output-width', width, 2, min(32, options.accumulator or 64))}"]
        if low is not None:
            within("--output-low", low, max(-64, input_low - 16), min(63, input_low + 16))
            fields.append(f"low = {low}")
        fields.append(f'error = "{error_text(error)}"')
        tables.append("{ " + ", ".join(fields) + " }")
    return tables


def error_text(given: str) -> str:
    text, value = decimal("--error", given)
    if not 0 <= value < MAGNITUDE or not fits(text):
        raise Refused(f"--error is {shown(text)}, and has to be 0 or more, below 2^24, within 18 digits and 28 places")
    return text


def setting_lines(options: argparse.Namespace, form: str) -> list[str]:
    """The lines of the settings that were given."""
    lines = []
    if options.structure:
        if options.structure not in STRUCTURES[form]:
            say(f"structure {options.structure} is none of those of form {form}: {', '.join(STRUCTURES[form])}")
        lines.append(f'structure = "{options.structure}"')
    if options.rounding:
        lines.append(f'rounding = "{options.rounding}"')
    if options.accumulator:
        lines.append(f"accumulator = {options.accumulator}")
    if options.word is not None:
        lines.append(f"word = {within('--word', options.word, 2, 32)}")
    for key, least, most in [("guards", 0, 16), ("fractions", 1, 40), ("lengths", 1, 4096)]:
        given = getattr(options, key)
        if given:
            within(f"the count of --{key}", len(given), 1, 8)
            lines.append(f"{key} = [{', '.join(str(within(f'--{key}', entry, least, most)) for entry in given)}]")
    return lines


def comment_lines(comments: list[str]) -> list[str]:
    lines = [line for comment in comments for line in comment.strip().split("\n")]
    for line in lines:
        if not all(letter.isprintable() or letter == "\t" for letter in line):
            raise Refused("a comment has a letter that TOML does not allow in one")
    return [f"# {line}".rstrip() for line in lines]


def file_text(given: dict, options: argparse.Namespace) -> str:
    """The text of the filter file."""
    shape = shape_of(given, options)
    lines = comment_lines(options.comment) + [f'form = "{shape.form}"'] + shape.lines
    if options.input_low is not None:
        lines.append(f"input_low = {within('--input-low', options.input_low, -64, 63)}")
    lines.append(f"inputs = [{', '.join(input_tables(options, shape.inputs))}]")
    lines.append(f"outputs = [{', '.join(output_tables(options, shape.outputs))}]")
    return "\n".join(lines + setting_lines(options, shape.form)) + "\n"


# ---- options and input


def list_of(name: str, text: str, nested: bool) -> list:
    """The list that an option's text says: JSON, or numbers between blanks and commas, with rows between semicolons."""
    if text.lstrip().startswith("["):
        return from_json(name, text)
    rows = [row.replace(",", " ").split() for row in text.split(";")]
    if nested:
        return rows if rows[-1] or len(rows) == 1 else rows[:-1]
    if len(rows) > 1:
        raise Refused(f"{name} is one list, and has no rows")
    return rows[0]


def from_json(name: str, text: str | bytes) -> object:
    try:
        return json.loads(text, object_pairs_hook=without_repeats)
    except (ValueError, RecursionError) as error:
        raise Refused(f"{name} is no JSON that can be read: {error}") from None


def without_repeats(pairs: list[tuple[str, object]]) -> dict:
    given = dict(pairs)
    if len(given) != len(pairs):
        raise Refused("a key stands twice in the JSON object")
    return given


def from_options(options: argparse.Namespace) -> dict:
    """The lists of coefficients that the options give."""
    given = {}
    for key in ["b", "a"]:
        words = once(f"--{key}", getattr(options, key))
        if words:
            given[key] = list_of(f"--{key}", " ".join(words), False)
    if options.sos:
        given["sections"] = list_of("--sos", ";".join(" ".join(words).rstrip(" ;") for words in options.sos), True)
    for name, keys, nested in [("ss", "ABCD", True), ("lattice", "kv", False)]:
        for key, word in zip(keys, once(f"--{name}", getattr(options, name))):
            given[key] = list_of(key, word, nested)
    return given


def once(name: str, given: list[list[str]] | None) -> list[str]:
    """The words of an option that may stand once."""
    if given and len(given) > 1:
        raise Refused(f"{name} stands twice")
    return given[0] if given else []


def from_input(source) -> dict:
    """The lists of coefficients of the JSON object on standard input."""
    if source is None or source.isatty():
        raise Refused("there are no coefficients: give --b, --sos, --ss or --lattice, or JSON on standard input")
    try:
        text = source.buffer.read()
    except OSError as reason:
        raise Refused(f"standard input cannot be read: {reason.strerror}") from None
    given = from_json("standard input", text)
    if not isinstance(given, dict):
        raise Refused("the JSON on standard input has to be an object, such as {\"b\": [1], \"a\": [1]}")
    if "sos" in given and "sections" not in given:
        given["sections"] = given.pop("sos")
    return given


def option_parser() -> argparse.ArgumentParser:
    parser = argparse.ArgumentParser(
        prog="filter_file.py", description=__doc__, epilog=HELP, allow_abbrev=False,
        formatter_class=argparse.RawDescriptionHelpFormatter)
    add_coefficients(parser.add_argument_group("coefficients"))
    add_words(parser.add_argument_group("words of inputs and outputs; one value for all, or one for each"))
    add_settings(parser.add_argument_group("for the making of code; what is absent is left to fixif"))
    return parser


def add_coefficients(lists) -> None:
    lists.add_argument("--b", nargs="+", action="append", metavar="B",
                       help=f"numerator of a transfer function, order up to {ORDER}")
    lists.add_argument("--a", nargs="+", action="append", metavar="A",
                       help="its denominator from a0 = 1 on; 1 where it is absent")
    lists.add_argument("--sos", nargs="+", action="append", metavar="ROWS",
                       help=f"up to {SECTIONS} sections b0 b1 b2 a0 a1 a2; it may stand once for each section")
    lists.add_argument("--ss", nargs=4, action="append", metavar=("A", "B", "C", "D"),
                       help=f"matrices of a state space, up to {STATES} states, {PORTS} inputs, {PORTS} outputs")
    lists.add_argument("--lattice", nargs=2, action="append", metavar=("K", "V"),
                       help=f"up to {LATTICE} reflection coefficients, and one tap more")
    lists.add_argument("--normalise", action="store_true",
                       help="divide by an a0 that is not 1: exactly, then rounded to the nearest double, or to "
                       "17 digits where no double is divided")
    lists.add_argument("--spread-gain", action="store_true",
                       help="multiply the numerators of sections by powers of two, whose product is 1, so that the "
                       "peak gain up to each section but the last is above 1/2 and at most 1; scipy puts the gain of "
                       "all sections into the first")


def add_words(group, needs_error: bool = True) -> None:
    group.add_argument("--width", nargs="+", type=int, default=[16], metavar="BITS", help="of inputs, 2 to 32; else 16")
    group.add_argument("--bound", nargs="+", type=int, metavar="N",
                       help="greatest magnitude of an input word; else 2^(width-1) - 1")
    group.add_argument("--error", nargs="+", required=needs_error, metavar="DECIMAL",
                       help="greatest error that is wanted, in output steps")
    group.add_argument("--output-width", nargs="+", type=int, metavar="BITS",
                       help="2 to 32; else the greatest width of an input")
    group.add_argument("--input-low", type=int, metavar="N", help="an input word counts steps of 2^N; else 0")
    group.add_argument("--output-low", nargs="+", type=int, metavar="N",
                       help="an output word counts steps of 2^N; else as the inputs")


def add_settings(group) -> None:
    words = sorted({word for listed in STRUCTURES.values() for word in listed})
    group.add_argument("--structure", choices=words)
    group.add_argument("--rounding", choices=["nearest", "floor"], help="how a row drops its places; else nearest")
    group.add_argument("--accumulator", type=int, choices=[16, 32, 64], help="bits of the accumulator")
    group.add_argument("--word", type=int, metavar="BITS", help="greatest width of an inner word")
    group.add_argument("--guards", nargs="+", type=int, metavar="BITS", help="guard bits to try, 0 to 16 each")
    group.add_argument("--fractions", nargs="+", type=int, metavar="BITS", help="coefficient bits to try, 1 to 40 each")
    group.add_argument("--lengths", nargs="+", type=int, metavar="MOMENTS", help="lengths to try, 1 to 4096 each")
    group.add_argument("--comment", action="append", default=[], metavar="TEXT", help="a line at the top of the file")


def shielded(words: list[str]) -> list[str]:
    """The words with a blank before each negative number, which keeps it from being taken for an option."""
    return [" " + word if BEGINS_NEGATIVE.match(word) else word for word in words]


def options_of(words: list[str]) -> argparse.Namespace:
    return option_parser().parse_args(shielded(words))


def main(words: list[str]) -> int:
    options = options_of(words)
    try:
        text = file_text(from_options(options) or from_input(sys.stdin), options)
    except Refused as reason:
        say(f"refused: {reason}")
        return 1
    try:
        sys.stdout.write(text)
        sys.stdout.flush()
    except OSError as reason:
        say(f"the file could not be written: {reason.strerror}")
        # What is left in the buffer would fail once more at the end of the run.
        sys.stdout = None
        return 1
    return 0


if __name__ == "__main__":
    sys.stdout.reconfigure(encoding="utf-8", newline="\n")
    sys.exit(main(sys.argv[1:]))
