#!/usr/bin/env python3
"""Tests of filter_file.py and of the example filters.

Where the environment names a folder in FILTER_FILES, each file that the tests have written is kept there, with the text
that `show` has to put beside it.
"""

from __future__ import annotations

import contextlib
import hashlib
import io
import json
import math
import os
import random
import re
import shutil
import subprocess
import sys
import unittest
from decimal import Decimal
from fractions import Fraction
from pathlib import Path
from unittest import mock

import example_filters
import filter_file

try:
    import tomllib
except ImportError:
    tomllib = None

TOOL = Path(__file__).resolve().with_name("filter_file.py")
EXAMPLES = TOOL.parent.parent / "examples" / "filters"
WORDS = ["--bound", "1000", "--error", "2"]
DEFAULTS = {"tf": "df1", "sos": "df2t", "ss": "ss", "lattice": "lattice"}


# ---- the text of `show`, from a table that tomllib has read


def decimal_text(numeral: object) -> str:
    """The exact decimal of a numeral."""
    value = Decimal(str(numeral))
    return format(value.normalize(), "f") if value else "0"


def negated(numeral: object) -> str:
    text = str(numeral)
    return text[1:] if text.startswith("-") else "-" + text.lstrip("+")


def direct_terms(b: list, a: list, source: str, row: int) -> list:
    """The terms of sum b_i x(k-i) - sum a_i y(k-i), i from 1 in the second sum."""
    return [(entry, source, lag) for lag, entry in enumerate(b)] + \
        [(negated(entry), f"v{row}", lag) for lag, entry in enumerate(a) if lag]


def space_rows(table: dict) -> list:
    rows = []
    for states, inputs in [(table["A"], table["B"]), (table["C"], table["D"])]:
        for own, given in zip(states, inputs):
            rows.append([(entry, f"v{j}", 1) for j, entry in enumerate(own)]
                        + [(entry, f"u{j}", 0) for j, entry in enumerate(given)])
    return rows


def lattice_rows(k: list, v: list) -> list:
    """The rows f_(N-1) .. f_0, g_1 .. g_N, y: f_i is row N - 1 - i, g_i is row N - 1 + i, and g_0 is f_0."""
    count = len(k)
    if count == 0:
        return [[(v[0], "u0", 0)]]
    rows = []
    for i in range(count - 1, -1, -1):
        before = "u0" if i == count - 1 else f"v{count - 2 - i}"
        rows.append([("1", before, 0), (negated(k[i]), f"v{count - 1 + i}", 1)])
    for i in range(count):
        rows.append([(k[i], f"v{count - 1 - i}", 0), ("1", f"v{count - 1 + i}", 1)])
    return rows + [[(tap, f"v{count - 1 + i}", 0) for i, tap in enumerate(v)]]


def equation_rows(table: dict) -> list:
    """The rows of the equations, each a list of coefficient, source and lag."""
    form = table["form"]
    if form == "tf":
        return [direct_terms(table["b"], table["a"], "u0", 0)]
    if form == "sos":
        return [direct_terms(section[:3], section[3:], f"v{row - 1}" if row else "u0", row)
                for row, section in enumerate(table["sections"])]
    return space_rows(table) if form == "ss" else lattice_rows(table["k"], table["v"])


def row_text(terms: list) -> str:
    written = [f"{decimal_text(entry)} {source} {lag}" for entry, source, lag in terms if Decimal(str(entry)) != 0]
    return "; ".join(written) or "0"


def show_text(table: dict) -> str:
    """What `show` has to put for the table."""
    low = table.get("input_low", 0)
    rows = equation_rows(table)
    lines = [f"form {table['form']}", f"structure {table.get('structure', DEFAULTS[table['form']])}",
             f"accumulator {table.get('accumulator', 64)}", f"word {table.get('word', 32)}"]
    for j, word in enumerate(table["inputs"]):
        width = word["width"]
        lines.append(f"input {j} width {width} low {low} bound {word.get('bound', 2 ** (width - 1) - 1)}")
    for j, word in enumerate(table["outputs"]):
        row = len(rows) - len(table["outputs"]) + j
        lines.append(f"output {j} row {row} width {word['width']} low {word.get('low', low)} "
                     f"error {decimal_text(word['error'])}")
    return "\n".join(lines + [f"row {i}: {row_text(terms)}" for i, terms in enumerate(rows)]) + "\n"


# ---- runs of the tool


def run(words: list, given: object = None) -> tuple:
    """Status, file and words of a run on the option words, with a JSON text or value on standard input."""
    text = given if isinstance(given, (str, bytes)) else json.dumps(given)
    data = text if isinstance(text, bytes) else text.encode()
    source = io.TextIOWrapper(io.BytesIO(data))
    out, said = io.StringIO(), io.StringIO()
    with mock.patch.object(sys, "stdin", source), contextlib.redirect_stdout(out), contextlib.redirect_stderr(said):
        try:
            status = filter_file.main(words)
        except SystemExit as end:
            status = end.code
    return status, out.getvalue(), said.getvalue()


def keep(text: str, table: dict) -> None:
    """Keeps a file that was written, where that is wanted."""
    folder = os.environ.get("FILTER_FILES")
    if folder:
        name = hashlib.sha256(text.encode()).hexdigest()[:16]
        Path(folder, name + ".toml").write_text(text, encoding="utf-8")
        Path(folder, name + ".txt").write_text(show_text(table), encoding="utf-8")


class ToolTest(unittest.TestCase):
    """What the tests have in common."""

    def made(self, words: list, given: object = None) -> tuple:
        """The table that is read from the file that was written, and the words."""
        status, text, said = run(words, given)
        self.assertEqual(status, 0, said)
        if tomllib is None:
            self.skipTest("this Python has no tomllib")
        table = tomllib.loads(text)
        keep(text, table)
        return table, said

    def quiet(self, words: list, given: object = None) -> dict:
        table, said = self.made(words, given)
        self.assertEqual(said, "")
        return table

    def refused(self, part: str, words: list, given: object = None, status: int = 1) -> None:
        """The run is refused with words that have the part in them, and writes nothing."""
        got, text, said = run(words, given)
        self.assertEqual((got, text), (status, ""), said)
        self.assertIn(part, said)


class Forms(ToolTest):
    """Each form is read back as it was given."""

    def test_transfer_function(self):
        given = {"b": [0.25, 0.5, 0.25], "a": [1.0, -1.2, 0.7]}
        table = self.quiet(WORDS, given)
        self.assertEqual(table, {
            "form": "tf", "b": ["0.25", "0.5", "0.25"], "a": ["1", "-1.2", "0.7"],
            "inputs": [{"width": 16, "bound": 1000}], "outputs": [{"width": 16, "error": "2"}]})

    def test_sections(self):
        rows = [[1, 2, 1, 1, -0.5, 0.25], [0.1, 0, 0, 1, -0.9, 0]]
        wanted = [["1", "2", "1", "1", "-0.5", "0.25"], ["0.1", "0", "0", "1", "-0.9", "0"]]
        for given in [{"sos": rows}, {"sections": rows}]:
            self.assertEqual(self.quiet(WORDS, given)["sections"], wanted)
        self.assertEqual(self.quiet(WORDS, {"sos": rows[:1]})["sections"], wanted[:1])

    def test_state_space(self):
        given = {"A": [[0.9, 0.1], [0, 0.8]], "B": [[0], [1]], "C": [[1, 0]], "D": [[0]]}
        table = self.quiet(WORDS, given)
        self.assertEqual(table["form"], "ss")
        self.assertEqual(table["A"], [["0.9", "0.1"], ["0", "0.8"]])
        self.assertEqual([table["B"], table["C"], table["D"]], [[["0"], ["1"]], [["1", "0"]], [["0"]]])

    def test_lattice(self):
        table = self.quiet(WORDS, {"k": [0.5, -0.25], "v": [1, 0.5, 0.125]})
        self.assertEqual((table["k"], table["v"]), (["0.5", "-0.25"], ["1", "0.5", "0.125"]))
        table = self.quiet(WORDS, {"k": [], "v": [0.5]})
        self.assertEqual((table["form"], table["k"], table["v"]), ("lattice", [], ["0.5"]))

    def test_options_give_the_same_as_json(self):
        nothing = ""
        self.assertEqual(self.quiet(["--b", "0.25", "-1e-3", "--a=1,-0.5"] + WORDS, nothing)["b"], ["0.25", "-1e-3"])
        self.assertEqual(self.quiet(["--b", "[0.25, -1e-3]", "--a", "1 -.5"] + WORDS, nothing)["a"], ["1", "-.5"])
        rows = [["1", "2", "1", "1", "-0.5", "0.25"], ["1", "0", "0", "1", "0.1", "0"]]
        for words in [["1 2 1 1 -0.5 0.25; 1 0 0 1 0.1 0;"], ["1 2 1 1 -0.5 0.25;", "1,0,0,1,0.1,0"],
                      ["[[1, 2, 1, 1, -0.5, 0.25], [1, 0, 0, 1, 0.1, 0]]"]]:
            self.assertEqual(self.quiet(["--sos", *words] + WORDS, nothing)["sections"], rows)
        words = ["--sos", "1", "2", "1", "1", "-0.5", "0.25", "--sos", "1 0 0 1 0.1 0;"]
        self.assertEqual(self.quiet(words + WORDS, nothing)["sections"], rows)
        table = self.quiet(["--ss", "0.9 0.1; 0 0.8", "0; 1", "-1,0", "-.5"] + WORDS, nothing)
        self.assertEqual([table["C"], table["D"]], [[["-1", "0"]], [["-.5"]]])
        self.assertEqual(self.quiet(["--lattice", "-0.5", "1 -2"] + WORDS, nothing)["v"], ["1", "-2"])
        self.assertEqual(self.quiet(["--lattice", "", "-2"] + WORDS, nothing)["k"], [])

    def test_denominator_that_is_absent(self):
        table, said = self.made(WORDS, {"b": [0.5, 0.5]})
        self.assertEqual(table["a"], ["1"])
        self.assertIn("a is not given: it is 1", said)

    def test_limits_are_reached(self):
        self.quiet(WORDS, {"b": [0.5] * 13, "a": [1] + [0.01] * 12})
        self.quiet(WORDS, {"sos": [[1, 0, 0, 1, 0, 0]] * 8})
        self.quiet(WORDS, {"k": [0.1] * 11, "v": [1] * 12})
        self.quiet(WORDS, {"A": [[0.01] * 16] * 16, "B": [[1] * 4] * 16, "C": [[1] * 16] * 4, "D": [[0] * 4] * 4})
        self.quiet(WORDS, {"b": [2**24 - 1, -(2**24) + 1], "a": [1]})


class Settings(ToolTest):
    """What stands beside the coefficients."""

    def test_all(self):
        words = ["--width", "12", "--bound", "256", "--output-width", "20", "--input-low", "-8", "--output-low", "-9",
                 "--error", "0.5", "--structure", "df2", "--accumulator", "32", "--word", "24", "--guards", "4", "8",
                 "--fractions", "20", "--lengths", "64", "4096", "--comment", "a low-pass", "--comment", "-3 dB\nat 5"]
        table = self.quiet(words, {"b": [1], "a": [1, -0.5]})
        self.assertEqual(table, {
            "form": "tf", "b": ["1"], "a": ["1", "-0.5"], "input_low": -8, "inputs": [{"width": 12, "bound": 256}],
            "outputs": [{"width": 20, "low": -9, "error": "0.5"}], "structure": "df2", "accumulator": 32, "word": 24,
            "guards": [4, 8], "fractions": [20], "lengths": [64, 4096]})
        self.assertTrue(run(words, {"b": [1], "a": [1]})[1].startswith("# a low-pass\n# -3 dB\n# at 5\nform"))

    def test_one_for_all_or_one_for_each(self):
        given = {"A": [[0.5]], "B": [[1, 2]], "C": [[1], [2]], "D": [[0, 0], [0, 0]]}
        table = self.quiet(["--width", "12", "14", "--bound", "100", "--error", "1", "2", "--output-low", "-1"], given)
        self.assertEqual(table["inputs"], [{"width": 12, "bound": 100}, {"width": 14, "bound": 100}])
        self.assertEqual(table["outputs"], [{"width": 14, "low": -1, "error": text} for text in "12"])
        self.refused("--width has 3 values, and 1 or 2 are wanted", ["--width", "9", "9", "9", "--error", "1"], given)

    def test_limits(self):
        given = {"b": [1], "a": [1]}
        for words in ["--width 33", "--width 1", "--bound 32768", "--bound -1", "--output-width 33", "--input-low 64",
                      "--output-low 17", "--error -1", "--error 1e9", "--error 0.12345678901234567891", "--word 33",
                      "--guards 17", "--guards " + "1 " * 9, "--fractions 0", "--lengths 4097", "--error nan",
                      "--output-width 20 --accumulator 16", "--comment \x01"]:
            self.refused("refused: ", ["--error", "1"] + words.split(" ")[:2] + words.split()[2:], given)
        self.refused("invalid choice", ["--error", "1", "--structure", "df3"], given, status=2)
        self.refused("--error", [], given, status=2)

    def test_structure_of_another_form(self):
        said = self.made(WORDS + ["--structure", "df2"], {"sos": [[1, 0, 0, 1, 0, 0]]})[1]
        self.assertIn("structure df2 is none of those of form sos: df1, df2t", said)


class Numbers(ToolTest):
    """What becomes of a number."""

    def written(self, number: object) -> str:
        return self.quiet(WORDS, {"b": [number], "a": [1]})["b"][0]

    def rounded(self, number: object) -> tuple:
        table, said = self.made(WORDS, {"b": [1, number], "a": [1]})
        self.assertIn("b[1]", said)
        return table["b"][1], said

    def test_short_texts(self):
        for number, text in [(1.0, "1"), (-0.0, "0"), (0.1, "0.1"), (100.0, "100"), (7, "7"), (-3, "-3"),
                             (2.0083365564211236e-02, "0.020083365564211236"), (1e-05, "1e-05"),
                             (16777215.5, "16777215.5"), ("+5.", "+5."), ("0.10", "0.10"), (" 12E-2 ", "12E-2")]:
            self.assertEqual(self.written(number), text)

    def test_same_double_and_exact_where_it_fits(self):
        draws = random.Random(1)
        for _ in range(2000):
            number = draws.uniform(-2, 2) * 10.0 ** draws.randint(-8, 6)
            text = filter_file.text_of_double(number)
            self.assertEqual(float(text), number)
            self.assertTrue(filter_file.fits(text))
        for _ in range(2000):
            number = draws.randint(-2**21, 2**21) / 2 ** draws.randint(0, 18)
            exact = filter_file.fits(format(Decimal(number), "f"))
            self.assertEqual(Fraction(filter_file.text_of_double(number)) == Fraction(number), exact)
        self.assertEqual(self.written(200001 / 2**18), "0.762943267822265625")

    def test_too_fine(self):
        text, said = self.rounded(1.2345678901234567e-13)
        self.assertEqual(text, "0.0000000000001234567890123457")
        self.assertIn("is finer than 28 places: it is rounded to", said)
        self.assertEqual(self.rounded(-1e-29)[0], "0")
        self.assertEqual(self.rounded("1e-99999")[0], "0")
        self.assertEqual(self.rounded("-0.00000000000000000000000000015")[0], "-0.0000000000000000000000000002")
        self.assertEqual(self.written(1e-28), "1e-28")

    def test_rounding_is_that_of_the_exact_double(self):
        draws = random.Random(2)
        for _ in range(500):
            number = draws.uniform(-1, 1) * 1e-13
            given = filter_file.coefficient("b[0]", number)
            with contextlib.redirect_stderr(io.StringIO()):
                text = filter_file.written(given)
            self.assertEqual(Fraction(text), Fraction("%.28f" % number) if not filter_file.fits(given.text)
                             else Fraction(given.text))

    def test_too_many_digits(self):
        text, said = self.rounded("-8.153410827045681012e-01")
        self.assertEqual(text, "-0.815341082704568101")
        self.assertIn("is longer than 18 digits: it is rounded to -0.815341082704568101", said)
        self.assertEqual(self.rounded("1234567.999999999999999")[0], "1234568")
        self.assertEqual(self.written("0.1000000000000000000000000"), "0.1000000000000000000000000")

    def test_refused_numbers(self):
        for text, part in [("NaN", "b[0] is NaN"), ("Infinity", "b[0] is infinite"), ("-Infinity", "b[0] is infinite"),
                           ("1e999", "b[0] is infinite"), ("true", "b[0] is true"), ("null", "b[0] is null"),
                           ("[1]", "b[0] is a list"), ('{"re": 1}', "b[0] is an object"), ('"nan"', "b[0] is NaN"),
                           ('"-inf"', "b[0] is infinite"), ('"1+2j"', "b[0] is '1+2j', which is no decimal number"),
                           ('"1_0"', "no decimal number"), ('"."', "no decimal number"), ('""', "no decimal number"),
                           ('"1e"', "no decimal number"), ('"\u0661"', "no decimal number"),
                           ("16777216", "below 2^24"), ("-16777216.0", "below 2^24"), ("1e300", "below 2^24"),
                           ('"16777215.99999999999"', "below 2^24"), ('"1e99999"', "below 2^24"),
                           ('"' + "1" * 1001 + '"', "more than 1000 digits"), ("1" * 1001, "more than 1000 digits")]:
            self.refused(part, WORDS, '{"b": [' + text + '], "a": [1]}')
        for word in ["nan", "-inf", "x", "1/3"]:
            self.refused("refused: b[1] is", ["--b", "1", word, "--a", "1"] + WORDS)


class Normalising(ToolTest):
    """An a0 that is not 1."""

    def test_it_is_told(self):
        self.refused("a[0], which is a0, is 2 and has to be 1: --normalise", WORDS, {"b": [1], "a": [2, 1]})
        self.refused("sections[1][3]", WORDS, {"sos": [[1, 0, 0, 1, 0, 0], [1, 0, 0, 0.5, 0, 0]]})
        self.refused("a[0], which is a0, is 0", WORDS + ["--normalise"], {"b": [1], "a": [0, 1]})
        self.refused("a[0]", WORDS, {"b": [1], "a": ["1.0000000000000001"]})

    def test_exactly(self):
        table, said = self.made(WORDS + ["--normalise"], {"b": [1, 3], "a": [4, -2]})
        self.assertEqual((table["b"], table["a"]), (["0.25", "0.75"], ["1", "-0.5"]))
        self.assertEqual(said, "filter_file: divided by a[0] = 4\n")

    def test_decimals_are_rounded_to_17_digits(self):
        table, said = self.made(WORDS + ["--normalise"], {"sos": [[1, 0, 0, 1, 0, 0], [1, 6, 0, 3, "-2e-6", 0]]})
        self.assertEqual(table["sections"][1], ["0.33333333333333333", "2", "0", "1", "-6.6666666666666667e-7", "0"])
        self.assertEqual(said, "".join(f"filter_file: {words}\n" for words in [
            "divided by sections[1][3] = 3", "sections[1][0] is rounded to 0.33333333333333333",
            "sections[1][4] is rounded to -6.6666666666666667e-7"]))

    def test_doubles_are_rounded_to_doubles(self):
        table, said = self.made(WORDS + ["--normalise"], {"b": [0.1, 0.3, 5e-324], "a": [2.0, 0.7]})
        self.assertEqual((table["b"], table["a"]), (["0.05", "0.15", "0"], ["1", "0.35"]))
        self.assertEqual(said, "filter_file: divided by a[0] = 2\nfilter_file: b[2] is rounded to 0\n")
        table, said = self.made(WORDS + ["--normalise"], {"b": [1.0], "a": [3]})
        self.assertEqual(table["b"], ["0.3333333333333333"])
        self.assertIn("filter_file: b[0] is rounded to 0.3333333333333333\n", said)

    def test_large_coefficients_become_small(self):
        self.assertEqual(self.made(WORDS + ["--normalise"], {"b": [1e9], "a": [2e9]})[0]["b"], ["0.5"])
        self.refused("b[0] becomes 2^24", WORDS + ["--normalise"], {"b": [1e300], "a": [1e-300]})

    def test_quotient_that_is_too_fine(self):
        table, said = self.made(WORDS + ["--normalise"], {"b": ["1e-13"], "a": [3]})
        self.assertEqual(table["b"], ["0.0000000000000333333333333333"])
        self.assertIn("b[0], 3.3333333333333333e-14, is finer than 28 places", said)

    def test_nothing_is_said_where_a0_is_one(self):
        self.assertEqual(self.quiet(WORDS + ["--normalise"], {"b": [0.1], "a": [1, 0.3]})["a"], ["1", "0.3"])


class Spreading(ToolTest):
    """Gain that is spread over sections."""

    ROWS = [[4.602025762591591e-08, 9.204051525183183e-08, 4.602025762591591e-08, 1.0, -1.54074088179, 0.5950923351],
            [1.0, 2.0, 1.0, 1.0, -1.5897394507841835, 0.6458193864550728],
            [1.0, 2.0, 1.0, 1.0, -1.8389951056313485, 0.9038678287508596]]

    def test_exactly_and_not_above_one(self):
        words = WORDS + ["--spread-gain"]
        table, said = self.made(words, {"sos": self.ROWS})
        self.assertIn("numerators of the sections times 2^18, 2^-6, 2^-12\n", said)
        product = Fraction(1)
        signal = [1.0] + [0.0] * 999
        for got, given in zip(table["sections"], self.ROWS):
            ratio = Fraction(float(got[0])) / Fraction(given[0])
            product *= ratio
            self.assertEqual([float(text) for text in got], [float(ratio) * x for x in given[:3]] + given[3:])
            signal = filter_file.response([float(text) for text in got], signal)
            if given is not self.ROWS[-1]:
                self.assertTrue(0.5 < sum(map(abs, signal)) <= 1)
        self.assertEqual(product, 1)

    def test_decimals_that_have_to_be_rounded(self):
        rows = [["0.12345678901234567", 0, 0, 1, 0, 0], ["0.12345678901234567", 0, 0, 1, 0, 0]]
        table, said = self.made(WORDS + ["--spread-gain"], {"sos": rows})
        self.assertEqual(table["sections"][1][0], "0.015432098626543209")
        self.assertIn("times 2^3, 2^-3\n", said)
        self.assertIn("sections[1][0] is rounded to 0.015432098626543209\n", said)

    def test_one_section_stays(self):
        self.assertEqual(self.made(WORDS + ["--spread-gain"], {"sos": self.ROWS[1:2]})[0]["sections"][0][:3],
                         ["1", "2", "1"])

    def test_refused(self):
        words = WORDS + ["--spread-gain"]
        self.refused("--spread-gain is for sections", words, {"b": [1], "a": [1]})
        for first in [[1, 0, 0, 1, -1, 0], [0, 0, 0, 1, 0, 0], [1, 0, 0, 1, -3, 0]]:
            self.refused("the response up to section 0 is 0 or lasts", words, {"sos": [first, self.ROWS[1]]})
        self.refused("below 2^24", words, {"sos": [["1e999", 0, 0, 1, 0, 0], self.ROWS[1]]})


class Refusals(ToolTest):
    """Lists that are no filter."""

    def test_counts(self):
        for given, part in [
                ({"b": [1] * 14, "a": [1]}, "b has 14 coefficients, and may have 1 to 13"),
                ({"b": [1], "a": [1] * 14}, "a has 14 coefficients"),
                ({"b": [], "a": [1]}, "b has 0 coefficients"),
                ({"sos": [[1, 0, 0, 1, 0, 0]] * 9}, "there are 9 sections, and may be 1 to 8"),
                ({"sos": []}, "there are 0 sections"),
                ({"k": [0] * 12, "v": [0] * 13}, "k has 12 coefficients, and may have 0 to 11"),
                ({"k": [0], "v": [1]}, "v has 1 tap, and has to have one more than k: 2"),
                ({"A": [[0] * 17] * 17, "B": [[1]] * 17, "C": [[1] * 17], "D": [[0]]}, "there are 17 states"),
                ({"A": [[0]], "B": [[1] * 5], "C": [[1]], "D": [[0] * 5]}, "there are 5 inputs"),
                ({"A": [[0]], "B": [[1]], "C": [[1]] * 5, "D": [[0]] * 5}, "there are 5 outputs"),
                ({"A": [], "B": [], "C": [], "D": []}, "there are 0 states")]:
            self.refused(part, WORDS, given)

    def test_ragged_matrices(self):
        whole = {"A": [[0, 1], [0, 0]], "B": [[1], [1]], "C": [[1, 0]], "D": [[0]]}
        for key, rows, part in [("A", [[0, 1], [0]], "row 1 of A has 1 entry, and 2 are wanted"),
                                ("B", [[1]], "B has 1 row, and 2 are wanted"),
                                ("B", [[1], [1, 1]], "row 1 of B has 2 entries, and 1 are wanted"),
                                ("C", [[1]], "row 0 of C has 1 entry, and 2 are wanted"),
                                ("D", [[0, 0]], "row 0 of D has 2 entries, and 1 are wanted"),
                                ("D", [0], "D has to be a list of rows"), ("A", 1, "A has to be a list of rows")]:
            self.refused(part, WORDS, {**whole, key: rows})
        self.refused("row 1 of sections has 5 entries, and 6", WORDS, {"sos": [[1, 0, 0, 1, 0, 0], [1, 0, 0, 1, 0]]})
        self.refused("sections has to be a list of rows", WORDS, {"sos": [1, 0, 0, 1, 0, 0]})
        self.refused("sections has to be a list of rows", WORDS, {"sos": 1})
        self.refused("b is 1, and has to be a list of numbers", WORDS, {"b": 1, "a": [1]})

    def test_mixed_forms(self):
        self.refused("the forms are mixed: b and a and k", WORDS, {"b": [1], "a": [1], "k": [1]})
        self.refused("the forms are mixed", ["--b", "1", "--sos", "1 0 0 1 0 0"] + WORDS)
        self.refused("the forms are mixed", ["--lattice", "0.5", "1 1", "--ss", "0", "0", "0", "0"] + WORDS)

    def test_what_is_missing_or_unknown(self):
        self.refused("b is missing", WORDS, {"a": [1]})
        self.refused("D is missing", WORDS, {"A": [[1]], "B": [[1]], "C": [[1]]})
        self.refused("v is missing", WORDS, {"k": [0.5]})
        self.refused("there are no coefficients", WORDS, {})
        self.refused("'fs' is no list of coefficients", WORDS, {"b": [1], "a": [1], "fs": 48000})
        self.refused("has to be an object", WORDS, [1, 2])

    def test_input_that_is_no_json(self):
        for text in ["", "{", "b = 1", b"\xff", "[" * 100000, '{"b": [' + "1" * 5000 + "]}"]:
            self.refused("refused: ", WORDS, text)
        self.refused("stands twice", WORDS, '{"b": [1], "b": [2], "a": [1]}')
        self.refused("is no JSON", ["--b", "[1,"] + WORDS)
        self.refused("--b is one list, and has no rows", ["--b", "1;2"] + WORDS)

    def test_options_that_stand_twice(self):
        for name, *words in [("--b", "1"), ("--a", "1"), ("--ss", "0", "0", "0", "0"), ("--lattice", "", "1")]:
            self.refused(f"{name} stands twice", [name, *words] * 2 + WORDS)

    def test_input_that_is_not_there(self):
        with mock.patch.object(sys, "stdin", None), contextlib.redirect_stderr(io.StringIO()) as said:
            self.assertEqual(filter_file.main(WORDS), 1)
        self.assertIn("there are no coefficients", said.getvalue())
        with open(os.devnull, "rb") as nothing:
            ran = subprocess.run([sys.executable, str(TOOL), *WORDS], stdin=nothing, capture_output=True, check=False)
        self.assertEqual((ran.returncode, ran.stdout), (1, b""))


def butterworth(order: int, corner: float) -> dict:
    """A Butterworth low-pass in doubles by the bilinear rule, its corner a share of the sampling rate."""
    warped = math.tan(math.pi * corner)
    b, a, gain = [1.0], [1.0 + 0j], 1.0
    for i in range(order):
        angle = math.pi * (2 * i + order + 1) / (2 * order)
        pole = warped * complex(math.cos(angle), math.sin(angle))
        root = (1 + pole) / (1 - pole)
        a = [x - root * y for x, y in zip(a + [0], [0] + a)]
        b = [x + y for x, y in zip(b + [0], [0] + b)]
    a = [entry.real for entry in a]
    gain = sum(a) / sum(b)
    return {"b": [gain * entry for entry in b], "a": a}


class Designs(ToolTest):
    """Filters as a design program gives them."""

    def test_butterworth(self):
        rounded = 0
        for order in range(1, 13):
            for corner in [0.45, 0.3, 0.2, 0.1, 0.05, 0.02, 0.01, 0.005]:
                given = butterworth(order, corner)
                table, said = self.made(WORDS, given)
                rounded += bool(said)
                for key in "ba":
                    for text, number in zip(table[key], given[key]):
                        self.assertLessEqual(abs(Fraction(text) - Fraction(number)), Fraction(1, 2 * 10**28)
                                             + Fraction(math.ulp(number)) / 2)
        self.assertGreater(rounded, 0)

    def test_pipe(self):
        line = "import json; print(json.dumps({'b': [0.25, 0.5, 0.25], 'a': [1.0, -1.2, 0.7]}))"
        made = subprocess.run([sys.executable, "-c", line], capture_output=True, check=True)
        ran = subprocess.run([sys.executable, str(TOOL), *WORDS], input=made.stdout, capture_output=True, check=False)
        self.assertEqual((ran.returncode, ran.stderr), (0, b""))
        self.assertIn(b'b = ["0.25", "0.5", "0.25"]\n', ran.stdout)
        ran = subprocess.run([sys.executable, str(TOOL), *WORDS], input=b"{}", capture_output=True, check=False)
        self.assertEqual((ran.returncode, ran.stdout), (1, b""))

    @unittest.skipUnless(os.path.exists("/dev/full"), "there is no /dev/full")
    def test_output_that_fails(self):
        with open("/dev/full", "wb") as full:
            ran = subprocess.run([sys.executable, str(TOOL), "--b", "1", "--a", "1", *WORDS], stdout=full,
                                 stderr=subprocess.PIPE, check=False)
        self.assertEqual(ran.returncode, 1)
        self.assertIn(b"filter_file: the file could not be written", ran.stderr)


class Page(unittest.TestCase):
    """The examples of filter_file.py in tools/README.md put what stands there; those with scipy hang on its version."""

    @unittest.skipUnless(shutil.which("bash"), "there is no bash")
    def test_examples(self):
        blocks = re.findall(r"```\n\$ (.*?)\n```", TOOL.with_name("README.md").read_text(encoding="utf-8"), re.DOTALL)
        ran = 0
        for block in blocks:
            command = re.match(r"(?:[^\n]*\\\n)*[^\n]*\n", block).group()
            if "filter_file.py" in command and "scipy" not in command:
                got = subprocess.run(["bash", "-c", command], cwd=TOOL.parent.parent, stdout=subprocess.PIPE,
                                     stderr=subprocess.STDOUT, check=False)
                self.assertEqual(got.stdout.decode(), block[len(command):] + "\n", command)
                ran += 1
        self.assertGreaterEqual(ran, 3)


@unittest.skipIf(tomllib is None, "this Python has no tomllib")
class Examples(ToolTest):
    """The filters of examples/filters."""

    def words_of(self, table: dict) -> list:
        """The options that say what stands beside the coefficients."""
        words = ["--width"] + [str(one["width"]) for one in table["inputs"]]
        if "bound" in table["inputs"][0]:
            words += ["--bound"] + [str(one["bound"]) for one in table["inputs"]]
        words += ["--error"] + [one["error"] for one in table["outputs"]]
        words += ["--output-width"] + [str(one["width"]) for one in table["outputs"]]
        if "low" in table["outputs"][0]:
            words += ["--output-low"] + [str(one["low"]) for one in table["outputs"]]
        for key in ["input_low", "structure", "accumulator", "word"]:
            words += [f"--{key.replace('_', '-')}", str(table[key])] if key in table else []
        for key in ["guards", "fractions", "lengths"]:
            words += [f"--{key}", *map(str, table[key])] if key in table else []
        return words

    def test_they_are_reproduced(self):
        files = sorted(EXAMPLES.glob("*.toml"))
        self.assertEqual(len(files), 21)
        for file in files:
            table = tomllib.loads(file.read_text(encoding="utf-8"))
            given = {key: table[key] for keys in filter_file.KEYS.values() for key in keys if key in table}
            made = self.quiet(self.words_of(table), given)
            self.assertEqual(show_text(made), show_text(table), file.name)
            settings = ["guards", "fractions", "lengths"]
            self.assertEqual([made.get(key) for key in settings], [table.get(key) for key in settings])

    def test_what_show_puts(self):
        for file in sorted(EXAMPLES.glob("*.toml")):
            table = tomllib.loads(file.read_text(encoding="utf-8"))
            self.assertEqual(file.with_suffix(".txt").read_text(encoding="utf-8"), show_text(table), file.name)

    def test_designs_are_those_of_the_files(self):
        for example in example_filters.examples():
            text = (EXAMPLES / f"{example.name}.toml").read_text(encoding="utf-8")
            self.assertEqual(example_filters.text_of(example), text, example.name)


if __name__ == "__main__":
    unittest.main()
