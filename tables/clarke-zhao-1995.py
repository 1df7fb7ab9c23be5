#!/usr/bin/env python3
"""Writes clarke-zhao-1995.table beside this file: the quotient table that E. Clarke and X. Zhao print (Word Level Symbolic Model
Checking, CMU-CS-95-161, May 1995, Table 1), expanded to 2,048 bytes. docs/PRINTED-TABLE.md says how it was read.

A printed row is for the divisor's first four bits, 1.000 to 1.111; a printed column for the first five of the remainder's seven
bits, g7 g6 g5 g4 . g3, from 1010.0 (-6) to 0101.1 (5.5). A letter is a digit that depends on the last two, g2 and g1; -- is no digit.
"""
import os

ROWS = """
1.000   -- -- -- -- -- -2 -2 -2  A -1 -1  0   0  1  1  2  2  2 -- -- -- -- -- --
1.001   -- -- -- -- -- -2 -2 -2  B -1 -1  0   0  1  1  C  2  2  2 -- -- -- -- --
1.010   -- -- -- -- -2 -2 -2 -2 -1 -1  D  0   0  1  1  1  2  2  2  2 -- -- -- --
1.011   -- -- -- -2 -2 -2 -2  B -1 -1  D  0   0  1  1  1  2  2  2  2 -- -- -- --
1.100   -- -- -- -2 -2 -2 -2 -1 -1 -1  0  0   0  E  1  1  C  2  2  2  2 -- -- --
1.101   -- -- -2 -2 -2 -2 -2 -1 -1 -1  0  0   0  0  1  1  1  2  2  2  2  2 -- --
1.110   -- -2 -2 -2 -2 -2  B -1 -1 -1  0  0   0  0  1  1  1  2  2  2  2  2 -- --
1.111   -- -2 -2 -2 -2 -2 -1 -1 -1 -1  0  0   0  0  1  1  1  1  2  2  2  2  2 --
"""

LETTERS = {
    "A": lambda g2, g1: -(2 - g2 * g1),
    "B": lambda g2, g1: -(2 - g2),
    "C": lambda g2, g1: 1 + g2,
    "D": lambda g2, g1: -(1 - g2),
    "E": lambda g2, g1: g2,
    "--": lambda g2, g1: 0,  # ours: the digit of a cell without a point in the made table
}

FIRST = -6 * 8  # the estimate of the first printed column, in eighths
ONE = 8  # 1.0 in eighths

table = bytearray([2] * 2048)
for line in ROWS.split("\n")[1:-1]:
    divisor, *entries = line.split()
    assert len(entries) == 24
    eighth = int(divisor.replace(".", ""), 2) - ONE
    for column, entry in enumerate(entries):
        for g2, g1 in [(0, 0), (0, 1), (1, 0), (1, 1)]:
            t = FIRST + 4 * column + 2 * g2 + g1
            digit = LETTERS[entry](g2, g1) if entry in LETTERS else int(entry)
            for row in (2 * eighth, 2 * eighth + 1):  # a printed row is two of ours
                table[128 * row + t + 64] = digit + 2
with open(os.path.join(os.path.dirname(os.path.abspath(__file__)), "clarke-zhao-1995.table"), "wb") as f:
    f.write(table)
