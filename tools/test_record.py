#!/usr/bin/env python3
"""Tests of record, over a program that puts what a test says, and, where the program was built, over an example."""

from __future__ import annotations

import hashlib
import json
import re
import unittest
from decimal import Decimal
from unittest import mock

import program
import testing

record = testing.tool("record")

SHOW = """\
form tf
structure df1
rounding floor
accumulator 64
word 32
input 0 width 16 low -15 bound 16384
output 0 row 0 width 16 low -15 error 2.5
row 0: 0.5 u0 0
"""
ROWS = "row 0 width 16 bound 8192 shift 1 spare 24575\n"
PARTS = "output 0 rounding 1.000000000 difference 0.000000000 rest 0.000000000 total 1.000000000 target 2.5\n"
ACCEPTED = ROWS + PARTS + "accepted\nerror 0 1.000000000\n"
REFUSED = ROWS + PARTS + "refused I3 row 0 2 1\n"
NAMES = ["filter", "code", "certificate"]


class Records(testing.InAFolder):
    def record(self, status: int, report: str, *words: str) -> tuple:
        """A run of the tool over a program that puts these."""
        files = [self.file(f"a.{name}", name) for name in NAMES]
        answers = {"report": program.Answer(status, report), "show": program.Answer(0, SHOW)}
        own = self.file("program", "a program")
        with mock.patch.object(program.Program, "run", lambda fixif, *asked: answers[asked[0]]), \
                mock.patch.object(program.Program, "standing", lambda fixif: "proved, a toolchain"):
            return testing.run(record, [*files, "--program", own, *words])

    def test_a_page(self):
        status, put, said = self.record(0, ACCEPTED)
        self.assertEqual((status, said), (0, ""))
        for line in ["verdict: accepted", "program: proved, a toolchain",
                     "formats: form tf, structure df1, rounding floor, accumulator 64, word 32",
                     "input 0: 16 bits, last place 2^-15, no word above 16384 in magnitude",
                     "  error at most 1.000000000 steps of 2^-15, the value 0.000030517578125, "
                     "90.3 dB below full scale",
                     "  error 0 1.000000000"]:
            self.assertIn(line + "\n", put)
        for name in NAMES:
            self.assertIn(f"  {hashlib.sha256(name.encode()).hexdigest()}  {name} ", put)
        self.assertRegex(put, r"\ncommit: [0-9a-f]{40}|\ncommit: unknown")

    def test_json(self):
        said = json.loads(self.record(0, ACCEPTED, "--json")[1])
        self.assertEqual((said["verdict"], said["proved"], said["words"]["rounding"]), ("accepted", True, "floor"))
        self.assertEqual(said["inputs"], [{"width": 16, "low": -15, "bound": 16384}])
        self.assertEqual(said["outputs"][0]["error_value"], "0.000030517578125")
        self.assertEqual(said["report"], ACCEPTED.splitlines())

    def test_a_file(self):
        place = self.folder / "record.txt"
        self.assertEqual(self.record(0, ACCEPTED, "--to", str(place))[:2], (0, ""))
        self.assertEqual(place.read_text(encoding="utf-8"), self.record(0, ACCEPTED)[1])
        self.assertEqual(self.record(0, ACCEPTED, "--to", str(self.folder / "absent" / "a"))[0], 3)

    def test_a_refusal_has_no_error(self):
        status, put, _ = self.record(1, REFUSED)
        self.assertEqual(status, 1)
        self.assertIn("verdict: refused I3 row 0 2 1\n", put)
        self.assertNotIn("error at most", put)

    def test_files_that_are_no_such_files(self):
        status, put, said = self.record(4, "bad code unexpected 0\n")
        self.assertEqual((status, put), (3, ""))
        self.assertIn("fixif report ends with status 4 and puts: bad code unexpected 0", said)

    def test_levels(self):
        output = program.Output(0, 16, 0, Decimal(2))
        for error, level in [("32768", "0.0"), ("1", "90.3"), ("0", "exact"), ("0.5", "96.3"), ("65536", "-6.1")]:
            self.assertEqual(record.below_full_scale(output, Decimal(error)), level)
        for value, text in [("0.500", "0.5"), ("1E+3", "1000"), ("0.000", "0"), ("20", "20")]:
            self.assertEqual(record.plain(Decimal(value)), text)

    def test_words_that_are_wrong(self):
        for words in [[], ["a"], ["a", "b", "c", "d"], ["a", "b", "c", "--page"]]:
            self.assertEqual(testing.run(record, words)[0], 2, words)
        self.assertEqual(testing.run(record, ["--help"])[0], 0)


@testing.needs_program
class OverTheProgram(unittest.TestCase):
    def test_an_example(self):
        files = [testing.EXAMPLES / name for name in ["filters/low_pass.toml", "low_pass/code.c", "low_pass/cert.txt"]]
        status, put, _ = testing.run(record, [*files, "--json"])
        said = json.loads(put)
        self.assertEqual((status, said["verdict"]), (0, "accepted"))
        self.assertEqual(said["outputs"][0]["error_steps"], "1.056796821")
        self.assertEqual(said["outputs"][0]["error_db_below_full_scale"], "89.8")
        self.assertTrue(re.fullmatch("[0-9a-f]{64}", said["sha256"]["program"]))
        refused = [*files[:2], testing.EXAMPLES / "low_pass" / "low_bound.txt"]
        self.assertEqual(testing.run(record, refused)[0], 1)


if __name__ == "__main__":
    unittest.main()
