#!/usr/bin/env python3
"""Writes pentium-1994.table beside this file, by the cell rule of tests/data/listing_model.py.

In each cell the allowed digit farthest from zero, 0 in a cell without a point; then 0 in the five cells that the
1994 Pentium is reported to have held as 0. The gate needs none of it: it compares the stored bytes with another model's.
"""
import os
import sys

here = os.path.dirname(os.path.abspath(__file__))
sys.path.insert(0, os.path.join(here, "..", "tests", "data"))
sys.dont_write_bytecode = True
from listing_model import Unit, witness  # noqa: E402

FIVE = [(1, 87), (4, 91), (7, 95), (10, 99), (13, 103)]


def farthest(r, c):
    allowed = [q for q in range(-2, 3) if witness(Unit(60), r, c, q) is None]
    return 0 if len(allowed) == 5 else max(allowed, key=abs)


table = bytearray(farthest(r, c) + 2 for r in range(16) for c in range(128))
for r, c in FIVE:
    assert table[128 * r + c] == 4
    table[128 * r + c] = 2
with open(os.path.join(here, "pentium-1994.table"), "wb") as f:
    f.write(table)
