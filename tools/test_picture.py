#!/usr/bin/env python3
"""Tests of picture.py, against responses that were computed by hand. The program of fixif is not needed."""

from __future__ import annotations

import contextlib
import io
import os
import subprocess
import sys
import tempfile
import unittest
from decimal import Decimal
from fractions import Fraction
from pathlib import Path
from xml.etree import ElementTree

import picture
import program

TOOL = Path(__file__).resolve().with_name("picture.py")
SVG = "{http://www.w3.org/2000/svg}"

HEAD = "form tf\nstructure df1\naccumulator 64\nword 32\n"
SMOOTHER = HEAD + """\
input 0 width 16 low 0 bound 64
output 0 row 0 width 16 low 0 error 2.5
row 0: 0.25 u0 0; 0.75 v0 1
"""

SMOOTHER_CODE = """\
#include "fixif.h"
STEP(64, 1, 1, 1)
{
  IN(u0, 16);
  a = 2;
  a += MUL(1, u0, 0);
  a += MUL(3, s0, 0);
  r0 = LOW(SAR(a, 2), 16);
  OUT(0, r0);
  s0 = r0;
}
"""

# Puts, in place of fixif, three texts that stand beside it.
PROGRAM = """\
#!{python}
import pathlib, sys
words = sys.argv[1:]
folder = pathlib.Path(__file__).parent
if words[0] == "simulate":
    count = len(pathlib.Path(words[2]).read_text().splitlines())
    is_step = pathlib.Path(words[2]).read_text().split()[1] != "0"
    text = (folder / ("step" if is_step else "impulse")).read_text()
    print("\\n".join(text.split()[:count]))
else:
    status, text = (folder / words[0]).read_text().split("\\n", 1)
    print(text, end="")
    sys.exit(int(status))
"""


def impulse(word: int, count: int) -> list:
    return [[word]] + [[0]] * (count - 1)


def responses(show: str, words: list) -> list:
    return [[str(value.normalize()) for value in moment]
            for moment in picture.exact_response(picture.read_show(show), words)]


class ExactResponses(unittest.TestCase):
    """64 goes through filters whose numbers can be had by hand."""

    def test_feedback(self):
        self.assertEqual(responses(SMOOTHER, impulse(64, 5)), [["16"], ["12"], ["9"], ["6.75"], ["5.0625"]])
        self.assertEqual(responses(SMOOTHER, [[64]] * 4), [["16"], ["28"], ["37"], ["43.75"]])

    def test_nothing_is_rounded(self):
        show = SMOOTHER.replace("0.25", "1").replace("0.75", "0.12345678901234567")
        got = picture.exact_response(picture.read_show(show), impulse(1, 60))
        self.assertEqual(Fraction(got[59][0]), Fraction(12345678901234567, 10**17)**59)

    def test_lags(self):
        show = SMOOTHER.replace("row 0: 0.25 u0 0; 0.75 v0 1", "row 0: 2 u0 2; -1 v0 3")
        got = responses(show, impulse(1, 9))
        self.assertEqual([moment[0] for moment in got], ["0", "0", "2", "0", "0", "-2", "0", "0", "2"])

    def test_rows_of_one_moment(self):
        show = HEAD + ("input 0 width 16 low 0 bound 64\noutput 0 row 1 width 16 low 0 error 1\n"
                       "row 0: 0.5 u0 0; 0.5 v0 1\nrow 1: 3 v0 0; -1 v0 1\n")
        self.assertEqual(responses(show, impulse(64, 4)), [["96"], ["16"], ["8"], ["4"]])

    def test_states_and_ports(self):
        """x(k+1) = x/2 + u0, y0 = x + u1, y1 = -u0; outputs in quarter and in double steps."""
        show = HEAD + ("input 0 width 16 low 0 bound 9\ninput 1 width 16 low 0 bound 9\n"
                       "output 0 row 1 width 16 low -2 error 1\noutput 1 row 2 width 16 low 1 error 1\n"
                       "row 0: 0.5 v0 1; 1 u0 0\nrow 1: 1 v0 1; 1 u1 0\nrow 2: -1 u0 0\n")
        got = responses(show, [[8, 0], [0, 0], [0, 3], [0, 0]])
        self.assertEqual(got, [["0", "-4"], ["32", "0"], ["28", "0"], ["8", "0"]])

    def test_a_row_of_nothing(self):
        self.assertEqual(responses(SMOOTHER.replace("0.25 u0 0; 0.75 v0 1", "0"), impulse(7, 2)), [["0"], ["0"]])

    def test_powers_of_two(self):
        for power in range(-16, 17):
            self.assertEqual(program.power_of_two(power) * 2**16, Decimal(2**(16 + power)))


class FrequencyResponses(unittest.TestCase):
    """Gains that can be had by hand."""

    def gains(self, show: str, *frequencies: float) -> list:
        net = picture.net_of_filter(picture.read_show(show), 0)
        return [net.gain(0, frequency) for frequency in frequencies]

    def test_a_filter(self):
        at_rest, at_half = self.gains(SMOOTHER, 0, 0.5)
        self.assertAlmostEqual(at_rest, 1)
        self.assertAlmostEqual(at_half, 0.25 / 1.75)

    def test_rows_and_steps(self):
        show = HEAD + ("input 0 width 16 low 0 bound 9\noutput 0 row 1 width 16 low -2 error 1\n"
                       "row 0: 0.5 u0 0; 0.5 v1 1\nrow 1: 1 v0 0; 1 u0 1\n")
        # y = u/2 + y(k-1)/2 + u(k-1), in quarter steps.
        at_rest, at_half = self.gains(show, 0, 0.5)
        self.assertAlmostEqual(at_rest, 4 * 1.5 / 0.5)
        self.assertAlmostEqual(at_half, 4 * (0.5 - 1) / 1.5)

    def test_code(self):
        for text in [SMOOTHER_CODE, SMOOTHER_CODE.replace("a = 2;", "a = 0;").replace("SAR", "FLR")]:
            net = picture.net_of_code(picture.read_code(text), 0)
            self.assertAlmostEqual(net.gain(0, 0), 1)
            self.assertAlmostEqual(net.gain(0, 0.5), 0.25 / 1.75)

    def test_levels(self):
        self.assertAlmostEqual(picture.decibels(10), 20)
        self.assertEqual(picture.decibels(0), -picture.math.inf)


class Scales(unittest.TestCase):
    def test_spikes(self):
        self.assertEqual(picture.spike_of([9.0, 1, -1]), 0)
        self.assertEqual(picture.spike_of([1, -90.0, 10]), 1)
        for values in [[8.0, 1, -1], [5.0, 0, 0], [0.0, 0], [-3.0]]:
            self.assertIsNone(picture.spike_of(values), values)

    def test_ticks(self):
        self.assertEqual(picture.ticks(-1, 1), [-1.0, -0.5, 0.0, 0.5, 1.0])
        self.assertEqual(picture.ticks(0, 127), [0.0, 50.0, 100.0])
        self.assertEqual(picture.ticks(-40, 980), [0.0, 200.0, 400.0, 600.0, 800.0])
        for low, high in [(-1e-6, 1e-6), (0, 1), (-3, 2e9), (0, 4095)]:
            self.assertTrue(2 <= len(picture.ticks(low, high)) <= 7, (low, high))


class Pictures(unittest.TestCase):
    """The whole tool, over a program that puts what a test says."""

    def setUp(self):
        folder = tempfile.TemporaryDirectory()
        self.addCleanup(folder.cleanup)
        self.folder = Path(folder.name)
        self.say(check="0\naccepted\nerror 0 2.000000001\n", show="0\n" + SMOOTHER,
                 impulse="16 12 9 7 5 4 3 2", step="16 28 37 44 49 53 56 58")
        program = self.folder / "program"
        program.write_text(PROGRAM.format(python=sys.executable), encoding="utf-8")
        program.chmod(0o755)
        (self.folder / "a.c").write_text(SMOOTHER_CODE, encoding="utf-8")
        self.unproved = f"picture: unproved: {program} is no program of this repository\n"
        self.words = ["a.toml", str(self.folder / "a.c"), "a.txt", "--program", str(program), "--moments", "8"]

    def say(self, **texts: str):
        for name, text in texts.items():
            (self.folder / name).write_text(text, encoding="utf-8")

    def run_tool(self, *words: str) -> tuple:
        put, said = io.StringIO(), io.StringIO()
        with contextlib.redirect_stdout(put), contextlib.redirect_stderr(said):
            try:
                status = picture.main([*self.words, *words])
            except SystemExit as end:
                status = end.code
        return status, put.getvalue(), said.getvalue()

    def test_what_is_drawn(self):
        status, put, said = self.run_tool("--title", "a < b & c")
        self.assertEqual(status, 0)
        self.assertIn("impulse response: the largest difference is 0.250000 steps, 2.000000001 is accepted", said)
        svg = ElementTree.fromstring(put)
        self.assertEqual(svg.find(f"{SVG}text").text, "a < b & c")
        spectrum = -(-picture.FREQUENCIES // picture.DOT_EACH)
        self.assertEqual(len(svg.findall(f"{SVG}circle")), 4 * 8 + spectrum + 1)
        self.assertEqual([len(line.get("points").split()) for line in svg.findall(f"{SVG}polyline")],
                         [8, 8, picture.FREQUENCIES])
        self.assertEqual(len([one for one in svg.findall(f"{SVG}rect") if one.get("class") == "band"]), 2)
        for one in svg.findall(f"{SVG}circle")[1:]:
            self.assertTrue(70 <= float(one.get("cx")) <= 910 and 80 <= float(one.get("cy")) <= 900)
        texts = [one.text for one in svg.findall(f"{SVG}text")]
        for wanted in ["moment", "output steps", "gain in dB", "frequency, as a part of the sampling rate", "0.01"]:
            self.assertIn(wanted, texts)

    def test_the_rate(self):
        texts = [one.text for one in ElementTree.fromstring(self.run_tool("--rate", "48000")[1]).findall(f"{SVG}text")]
        for wanted in ["frequency in Hz", "10", "1000", "24000"]:
            self.assertIn(wanted, texts)

    def test_a_file(self):
        file = self.folder / "a.svg"
        self.assertEqual(self.run_tool("--to", str(file))[:2], (0, ""))
        self.assertEqual(file.read_text(encoding="utf-8"), self.run_tool()[1])
        status, _, said = self.run_tool("--to", str(self.folder / "absent" / "a.svg"))
        self.assertEqual((status, said.splitlines()[-1]),
                         (3, "picture: the picture cannot be written: No such file or directory"))

    def test_refused_code(self):
        self.say(check="1\nrefused I5 row 2 1 0\n")
        wanted = "picture: fixif check ends with status 1 and puts: refused I5 row 2 1 0\n"
        self.assertEqual(self.run_tool(), (1, "", self.unproved + wanted))

    def test_a_difference_beyond_the_error(self):
        self.say(step="16 28 37 44 49 53 56 65")
        status, put, said = self.run_tool()
        self.assertEqual((status, put), (1, ""))
        self.assertIn("step response: a difference is beyond the accepted error", said)

    def test_files_that_are_not_read(self):
        self.say(show="8\n")
        wanted = "picture: fixif show ends with status 8 and puts: nothing\n"
        self.assertEqual(self.run_tool(), (3, "", self.unproved + wanted))

    def test_no_program(self):
        status, put, said = self.run_tool("--program", str(self.folder / "absent"))
        self.assertEqual((status, put), (3, ""))
        self.assertIn("absent cannot be run: No such file or directory", said)

    def test_options(self):
        for words in [["--moments", "1"], ["--moments", "4097"], ["--input", "1"], ["--output", "-1"],
                      ["--word", "65"], ["--word", "-65"], ["--height", "3"], ["--rate", "0"]]:
            self.assertEqual(self.run_tool(*words)[:2], (2, ""), words)

    @unittest.skipUnless(os.path.exists("/dev/full"), "there is no /dev/full")
    def test_output_that_fails(self):
        with open("/dev/full", "wb") as full:
            ran = subprocess.run([sys.executable, str(TOOL), *self.words], stdout=full, stderr=subprocess.PIPE,
                                 check=False)
        self.assertEqual(ran.returncode, 3)
        self.assertIn(b"the picture cannot be written", ran.stderr)


if __name__ == "__main__":
    unittest.main()
