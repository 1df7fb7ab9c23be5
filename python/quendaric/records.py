"""Which records of a season are wrong, and what is right? By the rules of docs/RECHECK.md; numbers in parentheses are those of the page.

Right values and marks are answers of the unit's calls. What was filed is compared here: in float64 where that is sure, else exactly."""

import math
import re
import warnings
from array import array
from collections import Counter
from contextlib import ExitStack
from decimal import Decimal
from fractions import Fraction
from typing import Any, Callable, Dict, Iterable, List, NamedTuple, Optional, Tuple, Union

from . import calls
from .lists import floats_of, new_bytes, new_floats, numpy

FULL = "full"
MOST_DECIMALS = 17
_PLAIN_DIGITS = 15
_LONGEST = 1023
_FAR = 5000  # a power of ten beyond every binary64 number and every text of that length
_DECIMAL = re.compile(r"([+-]?)(\d*)(?:\.(\d*))?(?:[eE]([+-]?\d+))?\Z", re.ASCII)
_WORD = re.compile(r"[+-]?(nan|inf|infinity)\Z", re.IGNORECASE | re.ASCII)
_NUMBER, _NOTHING, _IS_WORD, _NO_NUMBER = range(4)  # what was filed
_RIGHT, _WRONG, _UNREADABLE, _NOT_SURE = range(4)  # what is found
_TO_WHOLE = 1.5 * 2**52  # added and taken away, it leaves the nearest whole number of one below 2^51


class EstimateWarning(UserWarning):
    """What was filed fits a divider that adds the other number of bits better."""


class Rechecked(NamedTuple):
    """What recheck found, a place for each record. A record is right, wrong or unreadable."""

    right: Any
    """the right values; not a number where the record is unreadable"""
    wrong: Any
    """true where the record is wrong"""
    marked: Any
    """true where the table makes the division wrong, by the number of bits that was named"""
    other: Any
    """the same by the other number of bits"""
    unreadable: Any
    """true where an operand or the quotient is not finite, or what was filed is no number: such a record is not judged"""
    decimals: Union[int, str, None]
    """how many decimals were compared, "full", or None where nothing was filed"""
    counts: Dict[str, int]
    """the sums, by the names of recheck's JSON document"""

    def __str__(self) -> str:
        of = self.counts
        lines = [
            f"records: {of['records']} = {of['right']} right + {of['wrong']} wrong + {of['unreadable']} unreadable",
            f"marked: {of['marked']} = {of['marked'] - of['marked_right']} wrong + {of['marked_right']} right",
        ]
        if self.decimals is not None:
            lines.append(f"filed: decimals {self.decimals}; judged by the mark alone: {of['by_mark']}")
            lines.append(f"against this number of bits: {of['against']} records, against the other: {of['other_against']}")
        return "\n".join(lines)


class Written(NamedTuple):
    """A decimal number as it is written: its digits times a power of ten. It is plain if it has at most 15 digits and no exponent (15)."""

    negative: bool
    digits: int
    power: int
    plain: bool

    def value(self) -> Fraction:
        return (-1 if self.negative else 1) * Fraction(self.digits) * Fraction(10) ** self.power

    def stripped(self) -> Tuple[int, int]:
        """Digits without zeros at their end, and the power of ten."""
        digits, power = self.digits, self.power
        while digits and digits % 10 == 0:
            digits, power = digits // 10, power + 1
        return digits, power


def written(text: str) -> Optional[Written]:
    """The decimal number in a text (9), or None."""
    found = _DECIMAL.match(text)
    if not found or not (found[2] or found[3]):
        return None
    sign, whole, fraction, exponent = found[1], found[2], found[3] or "", found[4]
    far = _FAR if not (exponent or "").startswith("-") else -_FAR
    shift = 0 if exponent is None else int(exponent) if len(exponent.lstrip("+-0")) < 5 else far
    shift = max(-_FAR, min(_FAR, shift))
    digits = whole + fraction
    return Written(sign == "-", int(digits), shift - len(fraction), exponent is None and len(digits) <= _PLAIN_DIGITS)


def written_as(number: float) -> Written:
    """A finite float as it is usually written: by the fewest digits that give it, with a zero before a leading point and no exponent. A decimal
    number of at most 15 digits comes back as it was."""
    sign, digits, exponent = Decimal(repr(float(number))).as_tuple()
    one = Written(bool(sign), int("".join(map(str, digits))), int(exponent), False)
    short, power = one.stripped()
    length = len(str(short)) + power if power >= 0 else max(len(str(short)), 1 - power)
    return one._replace(plain=length <= _PLAIN_DIGITS)


def _near_ratio(filed: Written, a: Written, b: Written, decimals: int) -> bool:
    """Does the ratio a / b, as it is written, lie at most half a unit from the filed number (15)?"""
    if not (filed.plain and a.plain and b.plain):
        return False
    if filed.digits and filed.negative != (a.negative != b.negative):
        return False
    (top, up), (bottom, down) = a.stripped(), b.stripped()
    units = filed.digits * Fraction(10) ** (filed.power + decimals)
    ratio = top * 10 ** max(up - down, 0), bottom * 10 ** max(down - up, 0)
    if max(*ratio, 2 * units + 1) >= 1 << 60:
        return False
    twice = 2 * 10**decimals
    if calls.compare_ratios(*ratio, int(2 * units + 1), twice).order > 0:
        return False
    return units == 0 or calls.compare_ratios(*ratio, int(2 * units - 1), twice).order >= 0


def is_right(filed: Written, right: float, current: float, sensitivity: float, decimals: int) -> bool:
    """Is what was filed a whole number of units, at most half a unit from the right value or from the ratio as it is written (14)?"""
    units = filed.value() * 10**decimals
    if units.denominator != 1:
        return False
    if abs(units - Fraction(right) * 10**decimals) <= Fraction(1, 2):
        return True
    return _near_ratio(filed, written_as(current), written_as(sensitivity), decimals)


def _is_full(filed: Written, right: float) -> bool:
    """Is the nearest binary64 number of what was filed the right value? Out of range (9) it is not."""
    value = filed.value()
    try:
        nearest = float(value)
    except OverflowError:
        return False
    return nearest == right and (nearest != 0 or value == 0)


# ---- What was filed


class _Filed(NamedTuple):
    """What was filed, place by place: its kind, its number, and its text where it was text. The number of a text is that of a plain one, else not
    a number."""

    kinds: Any
    numbers: Any
    texts: Optional[List[str]]

    def written(self, place: int) -> Optional[Written]:
        return written_as(self.numbers[place]) if self.texts is None else written(self.texts[place])


def _nothing_filed(length: int) -> _Filed:
    return _Filed(bytes([_NOTHING]) * length, array("d", [math.nan]) * length, None)


def _from_floats(numbers: Any) -> _Filed:
    if numpy is None:
        kinds = bytes(_NOTHING if math.isnan(x) else _IS_WORD if math.isinf(x) else _NUMBER for x in numbers)
        return _Filed(kinds, numbers, None)
    kinds = numpy.select([numpy.isnan(numbers), numpy.isinf(numbers)], [_NOTHING, _IS_WORD], _NUMBER).astype("u1")
    return _Filed(kinds, numbers, None)


def _text(value: Any, fault: Exception) -> str:
    """What was filed, as text: an empty one for nothing."""
    if isinstance(value, str):
        return value.strip(" \t\r")
    if isinstance(value, Decimal):
        return format(value, "f") if value.is_finite() and abs(value.adjusted()) < _LONGEST else str(value)
    if value is None or (isinstance(value, float) and math.isnan(value)):
        return ""
    raise TypeError(f"filed: float64, text or Decimal is wanted, not {value!r} ({fault})")


def _kind_and_number(text: str) -> Tuple[int, float]:
    if text == "":
        return _NOTHING, math.nan
    if _WORD.match(text):
        return _IS_WORD, math.nan
    one = written(text) if len(text) <= _LONGEST else None
    if one is None:
        return _NO_NUMBER, math.nan
    return _NUMBER, float(text) if one.plain else math.nan


def _from_texts(values: Iterable[Any], fault: Exception) -> _Filed:
    texts = [_text(value, fault) for value in values]
    each = [_kind_and_number(text) for text in texts]
    return _Filed(bytes(kind for kind, _ in each), array("d", (number for _, number in each)), texts)


def _take_filed(filed: Any, lent: ExitStack) -> _Filed:
    """What was filed; a list of float64 is lent until the stack is closed."""
    try:
        return _from_floats(lent.enter_context(floats_of(filed, "filed")))
    except TypeError as fault:
        return _from_texts(filed, fault)


def _decimals_of(text: str) -> Optional[int]:
    """How many decimals a text shows, or None if it has to be compared in full (12)."""
    digits, _, decimals = text.lstrip("+-").partition(".")
    if "e" in text.lower() or len((digits + decimals).lstrip("0")) > _PLAIN_DIGITS or len(decimals) > MOST_DECIMALS:
        return None
    return len(decimals)


def _find_decimals(filed: _Filed) -> Union[int, str]:
    if filed.texts is None:
        raise TypeError('decimals: a number or "full" is wanted, since float64 does not show how many decimals were filed')
    shown = [_decimals_of(text) for text, kind in zip(filed.texts, filed.kinds) if kind == _NUMBER]
    known = [decimals for decimals in shown if decimals is not None]
    return max(known) if known and len(known) == len(shown) else FULL


def _test_decimals(decimals: Any) -> Union[int, str]:
    if decimals == FULL or (isinstance(decimals, int) and not isinstance(decimals, bool) and 0 <= decimals <= MOST_DECIMALS):
        return decimals  # type: ignore[no-any-return]
    raise ValueError(f'decimals: 0 to {MOST_DECIMALS}, or "full", is wanted, not {decimals!r}')


# ---- Right or wrong


def _surely(filed: Any, right: Any, decimals: Union[int, str]) -> Tuple[Any, Any]:
    """Is the filed number surely right, and is it surely wrong? Of floats, or of numpy's lists of them. Below 2^30 units the roundings of
    operands, quotient and products are together less than a millionth of a unit, for the ratio as it is written too."""
    if isinstance(decimals, str):
        return filed == right, (filed != right) & (filed == filed)
    ten = float(10**decimals)
    units, scaled = right * ten, filed * ten
    taken = scaled + _TO_WHOLE - _TO_WHOLE
    distance = abs(taken - units)
    small = abs(scaled) < 2**30
    return small & (distance < 0.5 - 1e-6) & (taken / ten == filed), small & (distance > 0.5 + 1e-6)


class _Records(NamedTuple):
    """All that is known of the records."""

    currents: Any
    sensitivities: Any
    right: Any
    marked: Any
    filed: _Filed
    decimals: Union[int, str]

    def judge(self, i: int) -> int:
        """Is the record right, wrong or unreadable (11, 14, 16)?"""
        a, b, right, kind = float(self.currents[i]), float(self.sensitivities[i]), float(self.right[i]), self.filed.kinds[i]
        if not (math.isfinite(a) and math.isfinite(b) and math.isfinite(right)) or kind == _NO_NUMBER:
            return _UNREADABLE
        if kind != _NUMBER:
            return int(self.marked[i]) if kind == _NOTHING else _WRONG
        surely_right, surely_wrong = _surely(float(self.filed.numbers[i]), right, self.decimals)
        if surely_right or surely_wrong:
            return _RIGHT if surely_right else _WRONG
        one = self.filed.written(i)
        assert one is not None
        good = _is_full(one, right) if isinstance(self.decimals, str) else is_right(one, right, a, b, self.decimals)
        return _RIGHT if good else _WRONG

    def judge_all(self) -> Any:
        """The same of every record."""
        if numpy is None:
            return bytearray(map(self.judge, range(len(self.right))))
        kinds = numpy.frombuffer(self.filed.kinds, "u1")
        with numpy.errstate(all="ignore"):
            finite = numpy.isfinite(self.currents) & numpy.isfinite(self.sensitivities) & numpy.isfinite(self.right)
            surely_right, surely_wrong = _surely(numpy.frombuffer(self.filed.numbers), self.right, self.decimals)
        found = numpy.full(len(self.right), _NOT_SURE, "u1")
        found[surely_wrong] = _WRONG
        found[surely_right] = _RIGHT
        found[kinds == _IS_WORD] = _WRONG
        numpy.copyto(found, self.marked, where=kinds == _NOTHING)
        found[~finite | (kinds == _NO_NUMBER)] = _UNREADABLE
        for i in numpy.flatnonzero(found == _NOT_SURE):
            found[i] = self.judge(int(i))
        return found


def _tally(found: Any, marked: Any, other: Any, kinds: Any) -> Dict[Tuple[int, int, int, bool], int]:
    """How many records there are of each sort: what was found, both marks, whether nothing was filed."""
    if numpy is None:
        return Counter((f, m, o, k == _NOTHING) for f, m, o, k in zip(found, marked, other, kinds))
    sorts = found + 3 * marked + 6 * other + 12 * (numpy.frombuffer(kinds, "u1") == _NOTHING).view("u1")
    return {(i % 3, i // 3 % 2, i // 6 % 2, i >= 12): count for i, count in enumerate(numpy.bincount(sorts).tolist())}


def _count(tally: Dict[Tuple[int, int, int, bool], int], in_full: bool) -> Dict[str, int]:
    """The sums (16, 17), by the names of recheck's JSON document."""

    def of(test: Callable[[int, Tuple[int, int], bool], bool]) -> int:
        return sum(count for (found, marked, other, nothing), count in tally.items() if test(found, (marked, other), nothing))

    counts = {
        "records": of(lambda found, marks, nothing: True),
        "right": of(lambda found, marks, nothing: found == _RIGHT),
        "wrong": of(lambda found, marks, nothing: found == _WRONG),
        "unreadable": of(lambda found, marks, nothing: found == _UNREADABLE),
        "by_mark": of(lambda found, marks, nothing: nothing and found != _UNREADABLE),
    }
    for i, prefix in enumerate(("", "other_")):
        counts[prefix + "marked"] = of(lambda found, marks, nothing: marks[i] == 1)
        counts[prefix + "marked_right"] = of(lambda found, marks, nothing: marks[i] == 1 and found == _RIGHT)
        counts[prefix + "wrong_unmarked"] = of(lambda found, marks, nothing: marks[i] == 0 and found == _WRONG)
        against = {(_WRONG, 0)} | ({(_RIGHT, 1)} if in_full else set())
        counts[prefix + "against"] = of(lambda found, marks, nothing: not nothing and (found, marks[i]) in against)
    return counts


def _flags(found: Any, wanted: int) -> Any:
    return bytearray(each == wanted for each in found) if numpy is None else found == wanted


def _divide_and_mark(current: Any, sensitivity: Any, table: Any, estimate_bits: int, direction: int) -> Tuple[Any, Any, Any]:
    """The right values, and the marks by both numbers of bits."""
    right, marked, other, kept = new_floats(len(current)), new_bytes(len(current)), new_bytes(len(current)), bytearray(2048)
    calls.affected_samples(estimate_bits, table, current, sensitivity, marked)
    calls.affected_samples(15 - estimate_bits, table, current, sensitivity, other)
    calls.make_table(kept)
    calls.divide_samples(kept, current, sensitivity, right, direction)
    return right, marked, other


def recheck(
    current: Any,
    sensitivity: Any,
    table: Any,
    estimate_bits: int,
    filed: Optional[Any] = None,
    decimals: Union[int, str, None] = None,
    *,
    direction: int = 0,
) -> Rechecked:
    """Judges the records of a season by the table that was burned into the monitor.

    current and sensitivity are lists of float64, table has 2,048 bytes, and estimate_bits is how many bits of each remainder word the divider
    adds, 7 or 8. Without filed, a record is wrong if it is marked. With it, a record is wrong if what was filed is not the right value, rounded
    to so many decimals (0 to 17) or "full"; a half may be rounded to either side.

    filed is a list of float64, for which decimals has to be given, or of text or Decimal, whose decimals are found if they are not given. Not a
    number among float64, None and empty text are nothing filed: the mark decides, and `by_mark` counts them. Words such as inf are wrong. direction is how the right values are rounded, 0 to 3 as in the header."""
    right, marked, other = _divide_and_mark(current, sensitivity, table, estimate_bits, direction)
    if filed is None and decimals is not None:
        raise ValueError("decimals: nothing was filed")
    with ExitStack() as lent:
        taken = _nothing_filed(len(right)) if filed is None else _take_filed(filed, lent)
        if len(taken.kinds) != len(right):
            raise ValueError(f"filed: {len(taken.kinds)} values for {len(right)} records")
        compared = None if filed is None else _find_decimals(taken) if decimals is None else _test_decimals(decimals)
        operands = lent.enter_context(floats_of(current, "current")), lent.enter_context(floats_of(sensitivity, "sensitivity"))
        found = _Records(*operands, right, marked, taken, FULL if compared is None else compared).judge_all()
    for i in (i for i, each in enumerate(found) if each == _UNREADABLE) if numpy is None else numpy.flatnonzero(found == _UNREADABLE):
        right[i], marked[i], other[i] = math.nan, 0, 0
    counts = _count(_tally(found, marked, other, taken.kinds), compared == FULL)
    if counts["other_against"] < counts["against"]:
        told = f"{counts['against']} records speak against {estimate_bits} bits, and {counts['other_against']} against {15 - estimate_bits}"
        warnings.warn(told, EstimateWarning, stacklevel=2)
    marks = (marked, other) if numpy is None else (marked.view(bool), other.view(bool))
    return Rechecked(right, _flags(found, _WRONG), *marks, _flags(found, _UNREADABLE), compared, counts)
