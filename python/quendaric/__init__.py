"""Quendaric: check, make and repair tables of quotient digits, divide through them, and find the records that a wrong table made wrong.

    >>> import quendaric
    >>> with open("tables/pentium-1994.table", "rb") as file: table = file.read()
    >>> quendaric.check_table(table).count
    5

Lists are of float64 (numpy, Arrow, pandas, `array.array("d")`) and are lent, not copied. A list of whole numbers is refused where float64 is
wanted, since its bytes would be taken for other numbers. Lists that a function makes are numpy's where numpy is installed, else `array.array`
and `bytearray`. What the unit refuses raises Refused, with number and place; `quendaric.calls` has every call of the C header."""

from dataclasses import dataclass
from typing import Any, NamedTuple, Optional, Tuple

from . import calls
from .calls import Refused, double, pattern
from .exports import VERSION as __version__
from .lists import new_bytes, new_floats, new_whole
from .records import EstimateWarning, Rechecked, recheck

__all__ = [
    "DIVISION_BY_ZERO", "DOWNWARD", "EstimateWarning", "INEXACT", "INVALID", "NEAREST", "OVERFLOW", "Quotient", "Rechecked", "Refused",
    "Repaired", "Report", "TOWARD_ZERO", "UNDERFLOW", "UPWARD", "affected_samples", "average_windows", "calls", "check_table",
    "compare_ratios", "divide", "divide_samples", "divide_whole", "double", "make_table", "pattern", "recheck", "repair_table",
]  # fmt: skip

TABLE_LENGTH = 2048
NEAREST, TOWARD_ZERO, UPWARD, DOWNWARD = range(4)
INEXACT, UNDERFLOW, OVERFLOW, DIVISION_BY_ZERO, INVALID = 1, 2, 4, 8, 16
_BAD_CELL = 10


@dataclass(frozen=True)
class Report:
    """The check of a table. Where it did not pass: the number of bad cells, the index of the first, its row and column, and its witness."""

    passed: bool
    count: int
    place: int
    row: int
    column: int
    divisor: int
    remainder: int


@dataclass(frozen=True)
class Repaired:
    """A repaired table, a 1 for each byte that was changed, and their number."""

    table: bytes
    changed: bytes
    count: int


class Quotient(NamedTuple):
    """A quotient and its IEEE 754 flags."""

    value: float
    flags: int


def check_table(table: Any, estimate_bits: int = 8) -> Report:
    """Checks a table for a divider that adds so many bits of each remainder word. A table of another length, or with a byte above 4, is
    refused (8, 9)."""
    try:
        answer = calls.check_table_for(estimate_bits, table)
    except Refused as refused:
        if refused.number != _BAD_CELL:
            raise
        answer = refused.answer
    return Report(answer.refusal == 0, answer.count, answer.place, answer.row, answer.column, answer.divisor, answer.remainder)


def make_table(estimate_bits: int = 8) -> bytes:
    """A correct table for a divider that adds so many bits; by eight, the kept one."""
    table = bytearray(TABLE_LENGTH)
    calls.make_table_for(estimate_bits, table)
    return bytes(table)


def repair_table(table: Any, estimate_bits: int = 8) -> Repaired:
    """The table with a right digit for each bad cell and each byte above 4."""
    repaired, changed = bytearray(TABLE_LENGTH), bytearray(TABLE_LENGTH)
    count = calls.repair_table_for(estimate_bits, table, repaired, changed).count
    return Repaired(bytes(repaired), bytes(changed), count)


def divide(current: float, sensitivity: float, direction: int = NEAREST) -> Quotient:
    """One division through the kept table. Test that operands and value are finite, and the flags, before you take it for a reading."""
    answer = calls.divide_binary64_kept(float(current), float(sensitivity), direction)
    return Quotient(double(answer.pattern), answer.flags)


def divide_samples(
    currents: Any, sensitivities: Any, out: Optional[Any] = None, *, table: Optional[Any] = None, direction: int = NEAREST
) -> Tuple[Any, int]:
    """The quotients, and the flags that at least one of them raised. Without a table the kept one divides. They are written to out, if it
    is given."""
    out = new_floats(len(currents)) if out is None else out
    answer = calls.divide_samples(make_table() if table is None else table, currents, sensitivities, out, direction)
    return out, answer.flags


def affected_samples(estimate_bits: int, table: Any, currents: Any, sensitivities: Any, out: Optional[Any] = None) -> Tuple[Any, int]:
    """A mark for each sample, 1 where the burned table made it wrong, and their number. The estimate has no default: a divider that adds
    seven bits and one that adds eight read different cells."""
    out = new_bytes(len(currents)) if out is None else out
    return out, calls.affected_samples(estimate_bits, table, currents, sensitivities, out).count


def average_windows(readings: Any, width: int, newest_first: bool = False) -> Tuple[Any, Any]:
    """The mean of each window, rounded down, and the remainder of its sum. Readings are whole numbers below 2^40."""
    windows = max(len(readings) - width + 1, 0)
    means, remainders = new_whole(windows), new_whole(windows)
    calls.average_windows(readings, width, newest_first, means, remainders)
    return means, remainders


def divide_whole(a: int, b: int) -> Tuple[int, int]:
    """Quotient and remainder of whole numbers below 2^60."""
    answer = calls.divide_whole_kept(a, b)
    return answer.quotient, answer.remainder


def compare_ratios(a: int, b: int, c: int, d: int) -> int:
    """-1, 0 or 1 where a / b is less than, equal to or greater than c / d, of whole numbers below 2^60."""
    return int(calls.compare_ratios(a, b, c, d).order)
