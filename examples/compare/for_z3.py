#!/usr/bin/env python3
"""Writes the code of the low-pass for an SMT solver, unrolled over some moments from the start.

`for_z3.py MOMENTS LIMIT` asks whether inputs within the bound bring a word of row 2 above the limit at the last moment.
"""

import sys

count, limit = map(int, sys.argv[1:])
print("(set-logic QF_LIA)")
print("(define-fun before () Int 0)")


def name(letter: str, moment: int) -> str:
    return f"{letter}{moment}" if moment >= 0 else "before"


for k in range(count):
    print(f"(declare-const u{k} Int) (assert (<= (- 16384) u{k} 16384)) (declare-const r{k} Int)")
    words = f"(+ (* 65702 u{k}) (* 131403 {name('u', k - 1)}) (* 65702 {name('u', k - 2)}))"
    total = f"(+ 8388608 (* 64 {words}) (* 30456369 {name('r', k - 1)}) (* (- 13941960) {name('r', k - 2)}))"
    print(f"(assert (<= (* 16777216 r{k}) {total})) (assert (< {total} (+ (* 16777216 r{k}) 16777216)))")
print(f"(assert (> r{count - 1} {limit}))")
print("(check-sat)")
