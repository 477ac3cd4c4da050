#!/usr/bin/env python3
"""The names that tools/snake_names.py did not reach, or cut wrongly.

usage: tools/snake_rest.py        at the top, once, after tools/snake_names.py
"""

import os
import re

TABLE = {
    "valuesInto": "values_into",
    "circuitWords": "circuit_words",
    "sumWords": "sum_words",
    "isConstant": "is_constant",
    "isIdentity": "is_identity",
    "isLagrange": "is_lagrange",
    "isEqXY": "is_eq_xy",
    "isPolynomial": "is_polynomial",
    "isChallenge": "is_challenge",
    "isNegated": "is_negated",
    "isSum": "is_sum",
    "isProduct": "is_product",
    "isPowers": "is_powers",
    "isItem": "is_item",
    "group_hat": "group_h_at",
    "lookup_hat": "lookup_h_at",
    "eq_xyop": "eq_xy_op",
}
NAME = re.compile(r"(?<![\w'-])(" + "|".join(map(re.escape, TABLE)) + r")(?![\w'-])")

for folder, dirs, names in os.walk("crates"):
    dirs[:] = sorted(d for d in dirs if d not in ("out", "data"))
    for n in names:
        if not n.endswith((".antt", ".rt", ".edit")):
            continue
        path = os.path.join(folder, n)
        with open(path, encoding="utf-8") as f:
            text = f.read()
        new = NAME.sub(lambda m: TABLE[m[1]], text)
        if new != text:
            with open(path, "w", encoding="utf-8") as f:
                f.write(new)
