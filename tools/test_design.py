#!/usr/bin/env python3
"""Tests of design: the search over errors by a formula, and, where the program was built, six designs.

The numbers of scipy_designs.json are those that scipy 1.10.1 gave for the calls that stand beside them.
"""

from __future__ import annotations

import argparse
import contextlib
import io
import json
import unittest
from decimal import Decimal
from fractions import Fraction

import program
import testing

design = testing.tool("design")
NUMBERS = json.loads((testing.TOOLS / "scipy_designs.json").read_text(encoding="utf-8"))
SMOOTHER = '{"b": [0.25], "a": [1, -0.75]}'


def filter_of(error: str, bound: int = 16384, width: int = 16, low: int = 0) -> program.Filter:
    """A filter of one input and one output."""
    return program.Filter({"form": "tf", "word": "32", "accumulator": "64"}, [program.Input(16, 0, bound)],
                          [program.Output(0, width, low, Decimal(error))], [])


class FakeLaboratory:
    """Errors by a formula: a guard more halves the rounding, a place more the difference; sums of more bits than there
    are have no code."""

    REST = {64: 5, 256: 1, 1024: Fraction(1, 1000), 4096: 0}

    def __init__(self, accumulator: int = 64):
        self.accumulator, self.made = accumulator, 0

    def trials(self, designs: list) -> list:
        self.made += len(designs)
        return [self.trial(one) for one in designs]

    def trial(self, one) -> object:
        if 16 + one.guard + one.fraction > self.accumulator:
            return design.Trial(one, [], reason="over row 0 2 1")
        rounding = Fraction(1, 2) + Fraction(20, 2**one.guard)
        difference = Fraction(40000, 2**one.fraction)
        rest = Fraction(self.REST[one.length])
        parts = [[rounding, difference, rest, rounding + difference + rest]]
        return design.Trial(one, parts, 5, 16 + one.guard, 16 + one.guard + one.fraction)


class Searches(unittest.TestCase):
    def search(self, error: str, laboratory: FakeLaboratory, **lists) -> object:
        chosen = argparse.Namespace(**{**dict.fromkeys(["guards", "fractions", "lengths"]), **lists})
        return design.Search(laboratory, filter_of(error), "df1", chosen)

    def test_the_least_sum_that_passes(self):
        for error in ["0.51", "0.75", "1", "2", "30"]:
            laboratory = FakeLaboratory()
            found = self.search(error, laboratory).found
            costs = [guard + fraction for guard in range(17) for fraction in range(6, 41)
                     if laboratory.trial(design.Design("df1", guard, fraction, 1024)).passes(filter_of(error))]
            self.assertEqual(found.design.guard + found.design.fraction, min(costs), error)
            self.assertLess(laboratory.made, 40)

    def test_the_shortest_length(self):
        self.assertEqual(self.search("1", FakeLaboratory()).found.design.length, 1024)
        laboratory = FakeLaboratory()
        laboratory.REST = dict.fromkeys(laboratory.REST, 0)
        self.assertEqual(self.search("1", laboratory).found.design.length, 64)

    def test_short_accumulators(self):
        found = self.search("25", FakeLaboratory(32)).found
        self.assertTrue(found.passes(filter_of("25")) and found.sum <= 32)

    def test_listed_designs_alone(self):
        found = self.search("2", FakeLaboratory(), guards=[6, 8], fractions=[17, 20], lengths=[4096]).found
        self.assertEqual(found.design, ("df1", 6, 17, 4096))

    def test_nothing_passes(self):
        search = self.search("0.5", FakeLaboratory())
        self.assertIsNone(search.found)
        self.assertEqual(len(search.near()), 1)
        self.assertIn("the least error that was found is ", design.advice([search], filter_of("0.5")))
        search = self.search("1", FakeLaboratory(16))
        self.assertIn("there is no code: over row 0 2 1", design.advice([search], filter_of("1")))

    def test_the_table(self):
        search = self.search("2", FakeLaboratory())
        lines = design.table(search.near(), filter_of("2"), search.found).splitlines()
        self.assertEqual(lines[0].split(), [word for word in design.HEAD if word])
        self.assertTrue(lines[1].endswith("  taken"))
        self.assertTrue(all(line.endswith("  too much") for line in lines[2:]), lines)
        self.assertEqual(design.decimal(Fraction(1, 3)), "0.333334")


class Headroom(unittest.TestCase):
    def settle(self, filter_: program.Filter, steps: int, **given) -> list:
        chosen = argparse.Namespace(source=None, bound=None)
        vars(chosen).update(given)
        takes = 2 ** (filter_.outputs[0].width - 1) - 1
        return design.settle_bound(chosen, filter_, [design.Reach(0, Fraction(steps), takes)])

    def test_what_fits_stays(self):
        self.assertIsNone(self.settle(filter_of("1"), 32767))

    def test_a_bound_is_chosen(self):
        with contextlib.redirect_stderr(io.StringIO()) as said:
            self.assertEqual(self.settle(filter_of("1", 32767), 65534), [16300])
        self.assertIn("with 16300 output 0 fits its word", said.getvalue())

    def test_a_bound_that_was_given(self):
        with self.assertRaises(design.NoDesign) as raised:
            self.settle(filter_of("1", 30000), 74541, bound=[30000])
        self.assertEqual(str(raised.exception), "output 0 can reach 74541 steps; its word takes 32767: a bound of at "
                         "most 13187, or 18 bits, or a last place of 2^2")


class Sources(testing.InAFolder):
    def test_a_filter_file_without_its_lists(self):
        text = ('form = "tf"\nstructure = "df1" # old\nb = ["1"]\na = ["1"]\nguards = [\n  1, # one\n  2,\n]\n'
                'lengths = [3]\n[[inputs]]\nwidth = 16\n[[outputs]]\nwidth = 16\nerror = "2"\n')
        chosen = argparse.Namespace(source=str(self.file("a.toml", text)), error=["0.5"])
        source = design.source_of(chosen, {}, None)
        wanted = ('form = "tf"\nb = ["1"]\na = ["1"]\n[[inputs]]\nwidth = 16\n[[outputs]]\nwidth = 16\n'
                  'error = "0.5"\n')
        self.assertEqual(source.text, wanted)
        head = 'structure = "df2t"\nguards = [1]\nfractions = [2]\nlengths = [3]\n'
        self.assertEqual(source.with_design(design.Design("df2t", 1, 2, 3)), head + wanted)

    def test_words_that_are_wrong(self):
        files = [self.folder / name for name in "abc"]
        for words in [[], files, [*files, "--error", "1", "--jobs", "0"], [*files, "--structure", "df3"]]:
            self.assertEqual(testing.run(design, words, SMOOTHER)[0], 2, words)
        self.assertEqual(testing.run(design, ["--help"])[0], 0)
        status, put, said = testing.run(design, [*files, "--error", "1", "--guards", "17"], SMOOTHER)
        self.assertEqual((status, put), (1, ""))
        self.assertIn("--guards is 17, and may be 0 to 16", said)
        self.assertEqual(testing.run(design, [*files, "--error", "1"], "{")[0], 1)
        status, _, said = testing.run(design, [*files, "--from", self.folder / "absent"])
        self.assertEqual(status, 3, said)


@testing.needs_program
class FromNumbers(testing.InAFolder):
    """Each is one command, and `make` alone gives the same code."""

    def design(self, name: str, *words: str) -> str:
        files = [self.folder / f"{name}.{kind}" for kind in ["toml", "c", "txt"]]
        given = NUMBERS[name]
        status, put, said = testing.run(design, [*files, *given["words"].split(), *words],
                                        json.dumps(given["coefficients"]))
        self.assertEqual(status, 0, put + said)
        self.assertEqual(put.splitlines()[-2], "accepted")
        again = [str(self.folder / name) for name in ["again.c", "again.txt"]]
        program.Program(str(program.PROGRAM)).put("make", str(files[0]), *again)
        self.assertEqual((self.folder / "again.c").read_bytes(), files[1].read_bytes())
        return put

    def test_peaking(self):
        self.design("peaking")

    def test_high_pass(self):
        self.design("high_pass")

    def test_elliptic(self):
        self.design("elliptic")

    def test_notch(self):
        self.design("notch")

    def test_fir13(self):
        self.assertIn("\nfir ", self.design("fir13"))

    def test_dc_blocker(self):
        self.design("dc_blocker")

    def test_no_headroom(self):
        files = [self.folder / name for name in ["a.toml", "a.c", "a.txt"]]
        given = json.dumps(NUMBERS["fir13"]["coefficients"])
        status, put, _ = testing.run(design, [*files, "--error", "1", "--bound", "32767"], given)
        self.assertEqual(status, 1)
        self.assertIn("steps; its word takes 32767: a bound of at most ", put)
        self.assertFalse(files[0].exists())


if __name__ == "__main__":
    unittest.main()
