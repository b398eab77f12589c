#!/usr/bin/env python3
"""Writes the low-pass and its code for gappa, unrolled over some moments from the start: `for_gappa.py MOMENTS`.

r is the word of row 2 of the code, m what the filter has in its place, 64 times the output, and z the row before it is
rounded. Asked are the greatest r and the greatest difference of r and m at the last moment.
"""

import sys

B, A = ["0.0039161266605473695", "0.007832253321094739", "0.0039161266605473695"], ["1.8153410827045681",
                                                                                    "-0.83100558934675755"]
CODE_B, CODE_A = [65702, 131403, 65702], [30456369, -13941960]


def of(coefficients: list, names: str, moment: int, first: int) -> str:
    """The sum of the coefficients times a name at this moment and before it; what lies before moment 0 is 0."""
    terms = [f"({c}) * {names}{moment - first - i}" for i, c in enumerate(coefficients) if moment - first - i >= 0]
    return " + ".join(terms) or "0"


count = int(sys.argv[1])
code_b, code_a = [f"{c}b-24" for c in CODE_B], [f"{c}b-24" for c in CODE_A]
differences_b = [f"{c} - ({b})" for c, b in zip(code_b, B)]
differences_a = [f"{c} - ({a})" for c, a in zip(code_a, A)]
hints = []
for k in range(count):
    print(f"z{k} = 64 * ({of(code_b, 'u', k, 0)}) + {of(code_a, 'r', k, 1)};")
    print(f"r{k} = fixed<0,nu>(z{k});")
    print(f"m{k} = 64 * ({of(B, 'u', k, 0)}) + {of(A, 'm', k, 1)};")
    fed_back = [f"({c}) * (r{k - 1 - i} - m{k - 1 - i})" for i, c in enumerate(code_a) if k - 1 - i >= 0]
    hints.append(f"r{k} - m{k} -> (r{k} - z{k}) + 64 * ({of(differences_b, 'u', k, 0)})"
                 f" + ({of(differences_a, 'm', k, 1)}) + ({' + '.join(fed_back) or '0'});")
inputs = " /\\ ".join(f"|u{k}| <= 16384 /\\ @FIX(u{k}, 0)" for k in range(count))
print(f"{{ {inputs} -> r{count - 1} in ? /\\ r{count - 1} - m{count - 1} in ? }}")
print("\n".join(hints))
