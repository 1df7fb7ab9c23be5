"""Lists that are made here: numpy's where numpy is installed, else Python's own."""

import ctypes
from array import array
from contextlib import contextmanager
from typing import Any, Iterator

from .lent import Lent

try:
    import numpy as _numpy

    numpy: Any = _numpy
except ImportError:
    numpy = None


def new_floats(length: int) -> Any:
    return array("d", bytes(8 * length)) if numpy is None else numpy.empty(length)


def new_whole(length: int) -> Any:
    return array("Q", bytes(8 * length)) if numpy is None else numpy.empty(length, "u8")


def new_bytes(length: int) -> Any:
    return bytearray(length) if numpy is None else numpy.zeros(length, "u1")


@contextmanager
def floats_of(owner: Any, name: str) -> Iterator[Any]:
    """A list of float64 as one that can be read here, for as long as the block lasts."""
    lent = Lent(owner, name, "binary64", False)
    try:
        items = (ctypes.c_double * lent.length).from_address(lent.address) if lent.length else ()
        yield items if numpy is None else numpy.frombuffer(items) if lent.length else numpy.empty(0)
    finally:
        lent.release()
