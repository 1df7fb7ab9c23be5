#!/usr/bin/env python3
"""A second model of the cell rule and the listing, written from the specification alone, and the two files made with it.

    python3 listing_model.py          writes all-bad.table and all-bad.listing beside this file
    python3 listing_model.py --self   compares the model with an enumeration of every point, on a small unit

The gate needs neither: it compares with the stored files.

A point (D, P) of a cell that breaks a digit q is a whole-number point of one of two polygons, each given by
the sentences' own inequalities: D in the row, P in the column, -8D <= 3P <= 8D, and 3(P - qD) < -2D or > 2D.
The least D is looked for from the polygon's leftmost corner (exact fractions) upward, one D at a time.
"""
import os
import sys
from fractions import Fraction


class Unit:
    """The unit with D from 2^k to 2^(k+1) - 1 and words of k + 4 bits; the specification's has k = 60."""

    def __init__(self, k):
        self.k = k

    def row(self, r):
        return (16 + r) << (self.k - 4), ((17 + r) << (self.k - 4)) - 1

    def column(self, c):
        """The parts that P takes: t·2^(k-3) + e modulo 2^(k+4), read as signed; e from 0 to 3·2^(k-4) - 2."""
        low = (c - 64) << (self.k - 3)
        high = low + (3 << (self.k - 4)) - 2
        top = 1 << (self.k + 3)
        if high < top:
            return [(low, high)]
        return [(low, top - 1), (-top, high - 2 * top)]


def polygons(unit, r, c, q):
    """Each a list of (a, b, m), for a·D + b·P <= m."""
    d0, d1 = unit.row(r)
    for low, high in unit.column(c):
        common = [(-1, 0, -d0), (1, 0, d1), (0, -1, -low), (0, 1, high), (-8, -3, 0), (-8, 3, 0)]
        yield common + [(2 - 3 * q, 3, -1)]  # 3(P - qD) < -2D
        yield common + [(2 + 3 * q, -3, -1)]  # 3(P - qD) > 2D


def leftmost(lines):
    """The least D of a corner, None where there is no corner, thus no point: the polygon is bounded."""
    least = None
    for i, (a, b, m) in enumerate(lines):
        for a2, b2, m2 in lines[i + 1:]:
            det = a * b2 - a2 * b
            if det == 0:
                continue
            x, y = Fraction(m * b2 - m2 * b, det), Fraction(a * m2 - a2 * m, det)
            if all(u * x + v * y <= w for u, v, w in lines):
                least = x if least is None else min(least, x)
    return least


def least_p(lines, d):
    """The least P beside D = d, or None."""
    low, high = -(1 << 200), 1 << 200
    for a, b, m in lines:
        rest = m - a * d
        if b > 0:
            high = min(high, rest // b)
        elif b < 0:
            low = max(low, -(rest // -b))
        elif rest < 0:
            return None
    return low if low <= high else None


def witness(unit, r, c, q):
    """The least D and, for it, the least P of a point that breaks q; None where q is allowed."""
    found = []
    for lines in polygons(unit, r, c, q):
        corner = leftmost(lines)
        if corner is None:
            continue
        d = -(-corner.numerator // corner.denominator)
        last = unit.row(r)[1]
        for step in range(1000):
            if d + step > last:
                break
            p = least_p(lines, d + step)
            if p is not None:
                found.append((d + step, p))
                break
        else:
            sys.exit(f"no end in sight: row {r}, column {c}, digit {q}")
    return min(found) if found else None


def enumerated(unit, r, c, q):
    d0, d1 = unit.row(r)
    for d in range(d0, d1 + 1):
        for p in sorted(p for low, high in unit.column(c) for p in range(low, high + 1)):
            if -8 * d <= 3 * p <= 8 * d and not -2 * d <= 3 * (p - q * d) <= 2 * d:
                return d, p
    return None


def self_test():
    unit, different = Unit(7), 0
    for r in range(16):
        for c in range(128):
            for q in range(-2, 3):
                if witness(unit, r, c, q) != enumerated(unit, r, c, q):
                    print("differs:", r, c, q)
                    different += 1
    print(f"{16 * 128 * 5} cells and digits, {different} differ")


def write_files(folder):
    unit, table, lines = Unit(60), bytearray(), ["row column digit divisor remainder"]
    for r in range(16):
        for c in range(128):
            against = [(q, w) for q in range(-2, 3) for w in [witness(unit, r, c, q)] if w]
            if not against:
                table.append((r + c) % 5)  # no point: any digit
                continue
            q, (d, p) = against[(r + c) % len(against)]
            table.append(q + 2)
            lines.append(f"{r} {c} {q} {d} {p}")
    with open(os.path.join(folder, "all-bad.table"), "wb") as f:
        f.write(table)
    with open(os.path.join(folder, "all-bad.listing"), "w") as f:
        f.write("\n".join(lines) + "\n")
    print(len(lines) - 1, "bad cells")


if __name__ == "__main__":
    if sys.argv[1:] == ["--self"]:
        self_test()
    else:
        write_files(os.path.dirname(os.path.abspath(__file__)))
