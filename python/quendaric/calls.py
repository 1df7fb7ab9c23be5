"""Every call of include/quendaric.h by its own name and arguments, from the list in exports.py: `calls.check_table_for(8, table)`.

A pointer and its length are one list (lent.py). An argument that has the bits of a binary64 number is a float, and a list of them one of
float64. The answer has the fields of C's. A refused call raises Refused. Before the call, numbers are tested to be in their range, and lists
to overlap nothing that is written. Python's lock is not held during a call."""

import ctypes
import inspect
import os
from ctypes import c_bool, c_int64, c_size_t, c_uint8, c_uint32, c_uint64, c_void_p
from struct import pack, unpack
from typing import TYPE_CHECKING, Any, Callable, Dict, List, Tuple

from .exports import ANSWERS, CALLS, REFUSALS, VERSION
from .lent import Lent

_TYPES: Dict[str, Any] = {"u8": c_uint8, "u32": c_uint32, "u64": c_uint64, "usize": c_size_t, "i64": c_int64, "bool": c_bool, "binary64": c_uint64}


class Refused(ValueError):
    """The unit refused the call. number and place are those of the specification, section 18; answer is all that was answered."""

    def __init__(self, call: str, answer: Any) -> None:
        self.call, self.answer = call, answer
        self.number, self.place = int(answer.refusal), int(answer.place)
        super().__init__(f"{call}: refusal {self.number}, place {self.place}: {REFUSALS.get(self.number, 'unknown')}")


def pattern(number: float) -> int:
    """The 64 bits of a float."""
    return int(unpack("<Q", pack("<d", number))[0])


def double(bits: int) -> float:
    """The float that has these 64 bits."""
    return float(unpack("<d", pack("<Q", bits))[0])


def _number(name: str, kind: str, value: Any) -> int:
    """A number as C has it. ctypes itself would take a whole number modulo 2^64."""
    if kind == "bool":
        if not isinstance(value, bool):
            raise TypeError(f"{name}: True or False is wanted")
        return value
    if kind == "binary64":
        if not isinstance(value, float):
            raise TypeError(f"{name}: a float is wanted, not {value!r} (double() makes one of 64 bits)")
        return pattern(value)
    if isinstance(value, bool) or not hasattr(value, "__index__"):
        raise TypeError(f"{name}: a whole number is wanted, not {value!r}")
    whole = int(value.__index__())
    if not 0 <= whole < 1 << 8 * ctypes.sizeof(_TYPES[kind]):
        raise OverflowError(f"{name}: {whole} is below 0, or does not fit into {8 * ctypes.sizeof(_TYPES[kind])} bits")
    return whole


def _list(argument: Tuple[str, str, str, int], value: Any, lent: List[Lent]) -> List[int]:
    """The pointer, and the length where C has one, of a list that is lent."""
    name, shape, kind, extent = argument
    one = Lent(value, name, kind, shape == "written")
    lent.append(one)
    if shape == "fixed" and one.length != extent:
        raise TypeError(f"{name}: {extent} items are wanted, not {one.length}")
    return [one.address] if shape == "fixed" else [one.address, one.length]


def _test_overlap(lent: List[Lent]) -> None:
    for one in lent:
        for other in lent:
            if one.written and one is not other and one.overlaps(other):
                raise ValueError(f"{one.name} is written, and overlaps {other.name}")


def _arguments(expected: List[Tuple[str, str, str, int]], values: Tuple[Any, ...], lent: List[Lent]) -> List[int]:
    """C's arguments. What is lent for them is put into the list."""
    passed: List[int] = []
    for argument, value in zip(expected, values):
        passed += [_number(argument[0], argument[2], value)] if argument[1] == "number" else _list(argument, value, lent)
    _test_overlap(lent)
    return passed


def _ordered(signature: inspect.Signature, values: Tuple[Any, ...], named: Dict[str, Any]) -> Tuple[Any, ...]:
    if not named and len(values) == len(signature.parameters):
        return values
    return signature.bind(*values, **named).args  # or a TypeError that says what is missing


def _call(name: str, function: Any) -> Callable[..., Any]:
    """The Python function that makes the call."""
    answer, comment, expected = CALLS[name]
    signature = inspect.Signature([inspect.Parameter(each[0], inspect.Parameter.POSITIONAL_OR_KEYWORD) for each in expected])

    def call(*values: Any, **named: Any) -> Any:
        lent: List[Lent] = []
        try:
            result = function(*_arguments(expected, _ordered(signature, values, named), lent))
        finally:
            for one in lent:
                one.release()
        if result.refusal != 0:
            raise Refused(name, result)
        return result

    call.__name__ = call.__qualname__ = name
    call.__doc__ = f"{comment}\n\nThe answer: {ANSWERS[answer][0]}"
    setattr(call, "__signature__", signature)
    return call


def _structs() -> Dict[str, Any]:
    """A struct of C for each answer."""
    made = {}
    for name, (comment, fields) in ANSWERS.items():
        of = [(field, _TYPES[kind] * extent if extent else _TYPES[kind]) for field, kind, extent in fields]
        made[name] = type(name, (ctypes.Structure,), {"_fields_": of, "__doc__": comment})
    return made


def _pointers(arguments: List[Tuple[str, str, str, int]]) -> List[Any]:
    types: List[Any] = []
    for _, shape, kind, _ in arguments:
        types += [_TYPES[kind]] if shape == "number" else [c_void_p] if shape == "fixed" else [c_void_p, c_size_t]
    return types


def _load() -> Dict[str, Callable[..., Any]]:
    """The calls of the library in this folder, or of the one that QUENDARIC_LIBRARY names."""
    path = os.environ.get("QUENDARIC_LIBRARY") or os.path.join(os.path.dirname(os.path.abspath(__file__)), "_unit.so")
    structs, made = _structs(), {}
    try:
        library = ctypes.CDLL(path)
        for name, (answer, _, arguments) in CALLS.items():
            function = getattr(library, "quendaric_" + name)
            function.restype, function.argtypes = structs[answer], _pointers(arguments)
            made[name] = _call(name, function)
    except (OSError, AttributeError) as fault:
        raise ImportError(f"the unit of version {VERSION} could not be loaded (`pip install ./python` builds it): {fault}") from None
    return made


if TYPE_CHECKING:

    def __getattr__(name: str) -> Callable[..., Any]: ...


globals().update(_load())
__all__ = ["Refused", "double", "pattern", *CALLS]
