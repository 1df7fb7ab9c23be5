"""python -m quendaric check [7|8] FILE

Checks a table of quotient digits, as tools/check.c does. 7 or 8 is the number of bits that the divider adds of each remainder word; without
it, 8. The last line is the verdict by the other number of bits. Status: 0 the table passed, 1 it has a bad cell, 2 it was refused for its form,
or could not be read, or the verdict could not be written."""

import os
import sys
from typing import List, Tuple

from . import TABLE_LENGTH, calls, check_table

_NAMES = {7: "seven", 8: "eight"}
PASSED, BAD, FAILED = range(3)


def _faults(table: bytes, bits: int) -> Tuple[int, int]:
    """How many bytes are above 4, and how many cells are bad."""
    digits = [(place, byte) for place, byte in enumerate(table) if byte <= 4]
    bad = sum(calls.check_cell_for(bits, place // 128, place % 128, byte).allowed == 0 for place, byte in digits)
    return len(table) - len(digits), bad


def _word(above: int, bad: int) -> str:
    return "refused" if above else "bad" if bad else "passed"


def verdict(table: bytes, bits: int) -> Tuple[List[str], int]:
    """The lines that are printed of a table of 2,048 bytes, and the status."""
    above, bad = _faults(table, bits)
    other = _faults(table, 15 - bits)
    lines = [_word(above, bad)] + ([f"bytes above 4: {above}"] if above else [])
    lines.append(f"bad cells{' by seven bits' if bits == 7 else ''}: {bad}")
    if bad and not above:
        first = check_table(table, bits)
        lines.append(f"first bad cell: row {first.row}, column {first.column}, digit {table[first.place] - 2}")
        lines.append(f"witness: divisor {first.divisor}, remainder {first.remainder}")
    lines.append(f"by {_NAMES[15 - bits]} bits: {_word(*other)}, bad cells: {other[1]}")
    return lines, FAILED if above else BAD if bad else PASSED


def _complain(text: str) -> int:
    if sys.stderr is not None:
        sys.stderr.write(text + "\n")
    return FAILED


def _write(text: bytes) -> bool:
    """Was all written? print() says nothing where there is no output."""
    try:
        return os.write(1, text) == len(text)
    except OSError:
        return False


def _check(bits: int, name: str) -> int:
    try:
        with open(name, "rb") as file:
            table = file.read(TABLE_LENGTH + 1)
    except OSError as fault:
        return _complain(f"{name}: {fault.strerror}")
    if len(table) != TABLE_LENGTH:
        more = " or more" if len(table) > TABLE_LENGTH else ""
        return _complain(f"{name}: refused (8): {len(table)} bytes{more}, not {TABLE_LENGTH}")
    lines, status = verdict(table, bits)
    if not _write("".join(line + "\n" for line in lines).encode()):
        return _complain("standard output: not all was written")
    if status == FAILED:
        place = next(place for place, byte in enumerate(table) if byte > 4)
        _complain(f"{name}: refused (9): the byte at {place} is above 4")
    return status


def main(arguments: List[str]) -> int:
    """The status of the program."""
    bits = {"7": 7, "8": 8}.get(arguments[1] if len(arguments) == 3 else "8")
    if len(arguments) not in (2, 3) or arguments[0] != "check" or bits is None:
        return _complain("usage: python -m quendaric check [7|8] FILE")
    return _check(bits, arguments[-1])


if __name__ == "__main__":
    sys.exit(main(sys.argv[1:]))
