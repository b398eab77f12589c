#!/usr/bin/env python3
"""Tests of certify: the search over bounds that can be had by hand, and, where the program was built, code by hand."""

from __future__ import annotations

import unittest

import program
import testing

certify = testing.tool("certify")
SCALE = program.SCALE

FILTER = """\
form = "tf"
b = ["0.00390625", "0.0078125", "0.00390625"]
a = ["1", "-1.8125", "0.828125"]
inputs = [{ width = 16, bound = 16384 }]
outputs = [{ width = 16, error = "40" }]
"""

# The filter as a device library has it: Q14, direct form I, the output is fed back as it was rounded.
BIQUAD = """\
#include "fixif.h"
STEP(64, 1, 4, 1)
{
  IN(u0, 16);
  a = 0;
  a += MUL(1, u0, 0);
  r0 = LOW(SAR(a, 0), 16);
  a = 0;
  a += MUL(1, s0, 0);
  r1 = LOW(SAR(a, 0), 16);
  a = 0;
  a += MUL(1, s3, 0);
  r2 = LOW(SAR(a, 0), 16);
  a = 8192;
  a += MUL(64, r0, 0);
  a += MUL(128, s0, 0);
  a += MUL(64, s1, 0);
  a += MUL(29696, s3, 0);
  a += MUL(-13568, s2, 0);
  r3 = LOW(SAR(a, 14), 16);
  OUT(0, r3);
  s0 = r0;
  s1 = r1;
  s2 = r2;
  s3 = r3;
}
"""

# A sum that is never taken down, and one that doubles.
SUM = """\
#include "fixif.h"
STEP(64, 1, 1, 1)
{
  IN(u0, 16);
  a = 0;
  a += MUL(1, u0, 0);
  a += MUL(1, s0, 0);
  r0 = LOW(SAR(a, 0), 16);
  OUT(0, r0);
  s0 = r0;
}
"""


class FakeJudge:
    """Refuses as `check` does, for rows that hold `own + share * (their own bound)`, two outputs, and two lengths."""

    def __init__(self, own: list, share: float, caps: list, errors: dict, wanted: int = SCALE):
        self.own, self.share, self.caps, self.errors, self.wanted, self.runs = own, share, caps, errors, wanted, 0

    def refusal(self, certificate):
        self.runs += 1
        if len(certificate.bounds) != len(self.own):
            return certify.Refusal("I1", ["rows"], len(certificate.bounds), len(self.own))
        totals = [int((own + self.share * bound) * SCALE) for own, bound in zip(self.own, certificate.bounds)]
        for row, (total, bound) in enumerate(zip(totals, certificate.bounds)):
            if total > bound * SCALE:
                return certify.Refusal("I3", ["row", str(row)], total, bound * SCALE)
        for row, (bound, cap) in enumerate(zip(certificate.bounds, self.caps)):
            if bound > cap:
                return certify.Refusal("I4", ["row", str(row)], bound, cap)
        error = self.errors[certificate.length]
        if certificate.errors[0] < error:
            return certify.Refusal("I6", ["output", "0"], error, certificate.errors[0])
        if certificate.errors[0] > self.wanted:
            return certify.Refusal("I7", ["output", "0"], certificate.errors[0], self.wanted)
        return None


CODE = program.read_code(SUM)
LENGTHS = [64, 256]


class Searches(unittest.TestCase):
    def found(self, judge):
        return certify.search(judge, CODE, LENGTHS)

    def test_bounds_of_rows_that_do_not_feed_back(self):
        judge = FakeJudge([100.0, 2.5, 7], 0, [999] * 3, {64: SCALE, 256: SCALE // 2})
        self.assertEqual(self.found(judge), certify.Certificate(64, [100, 3, 7], [SCALE]))
        self.assertLess(judge.runs, 12)

    def test_a_shorter_length_with_too_great_an_error(self):
        judge = FakeJudge([100.0], 0, [999], {64: SCALE + 1, 256: SCALE // 2})
        self.assertEqual(self.found(judge), certify.Certificate(256, [100], [SCALE // 2]))

    def test_feedback(self):
        for share in [0.5, 0.9, 0.99]:
            judge = FakeJudge([100.0], share, [20000], {64: 0, 256: 0})
            least = 100 / (1 - share)
            self.assertTrue(round(least) <= self.found(judge).bounds[0] <= 2.5 * least, share)
            self.assertLess(judge.runs, 40)

    def test_feedback_that_just_fits(self):
        self.assertEqual(self.found(FakeJudge([100.0], 0.9, [1000], {64: 0, 256: 0})).bounds, [1000])

    def test_refusals(self):
        errors = {64: SCALE, 256: 3 * SCALE // 2}
        for judge, reason in [(FakeJudge([100.0], 0, [99], errors), "row 0 can reach 100 steps, and "),
                              (FakeJudge([100.0], 0.9, [999], errors), "row 0 can reach 1000 steps"),
                              (FakeJudge([1.0], 1, [2**31], errors), "steps, and "),
                              (FakeJudge([1.0], 0, [9], errors), "output 0 can be 1.500000000 steps from that of the "
                               "filter, and the filter file wants at most 1.000000000")]:
            with self.assertRaises(certify.NoCertificate) as raised:
                self.found(judge)
            self.assertIn(reason, str(raised.exception))
            self.assertLessEqual(judge.runs, certify.MOST_RUNS)

    def test_lengths_of_a_file(self):
        self.assertEqual(certify.lengths_of("a = [1]\n  lengths = [ 8, # few\n 0x10,]\n"), [8, 16])
        self.assertEqual(certify.lengths_of("# lengths = [1]\n"), certify.LENGTHS)


@testing.needs_program
class HandWritten(testing.InAFolder):
    def certify(self, code: str, *words: str) -> tuple:
        self.certificate = self.folder / "cert.txt"
        files = [self.file("filter.toml", FILTER), self.file("code.c", code), self.certificate]
        return testing.run(certify, [*files, *words])

    def test_a_biquad(self):
        status, put, said = self.certify(BIQUAD, "--lengths", "64", "256")
        self.assertEqual(status, 0, put + said)
        self.assertTrue(put.startswith("accepted\nerror 0 "), put)
        self.assertIn("runs of check; certify is not trusted", said)
        self.assertTrue(self.certificate.read_text(encoding="ascii").startswith("fixif certificate 1\nlength 256\n"))

    def test_a_biquad_that_is_not_good_enough(self):
        status, put, _ = self.certify(BIQUAD.replace("29696", "29695"), "--lengths", "256")
        self.assertEqual(status, 1)
        self.assertTrue(put.startswith("no certificate: output 0 can be "), put)
        self.assertTrue(put.endswith("and the filter file wants at most 40.000000000\n"), put)

    def test_rows_that_cannot_be_bounded(self):
        status, put, _ = self.certify(SUM, "--lengths", "16")
        self.assertEqual((status, put.split(",")[0]), (1, put.split(",")[0]))
        self.assertIn("row 0 can reach ", put)
        status, put, _ = self.certify(SUM.replace("MUL(1, s0", "MUL(2, s0"), "--lengths", "256")
        self.assertEqual(status, 1)
        self.assertTrue(put.startswith("no certificate: numbers grow without end within 256 moments"), put)
        self.assertFalse(self.certificate.exists())

    def test_code_that_is_no_code(self):
        status, put, said = self.certify(BIQUAD.replace("a = 8192;", "/* Q14 */ a = 8192;"))
        self.assertEqual((status, put), (3, ""))
        self.assertIn("line 14, column 3", said)


class Options(testing.InAFolder):
    def test_words_that_are_wrong(self):
        for words in [[], ["a", "b"], ["a", "b", "c", "--lengths", "0"], ["a", "b", "c", "--lengths", "4097"]]:
            self.assertEqual(testing.run(certify, words)[0], 2, words)
        self.assertEqual(testing.run(certify, ["--help"])[0], 0)

    def test_files_that_are_absent(self):
        status, put, said = testing.run(certify, [self.folder / "a.toml", "b.c", "c.txt"])
        self.assertEqual((status, put), (3, ""))
        self.assertIn("a.toml' cannot be read: No such file or directory", said)


if __name__ == "__main__":
    unittest.main()
