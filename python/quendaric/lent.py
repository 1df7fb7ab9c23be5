"""Lists as they are lent to a call: nothing is copied.

A list is anything that lends its bytes (bytes, bytearray, array.array, memoryview, a numpy array), an Arrow array (Arrow's C data
interface), or a column that has one of these (pandas, by its to_numpy). What C cannot test is tested here: the type, order and alignment
of the items, that they stand one behind the other, that none is missing, and that what is written may be written."""

import ctypes
import sys
from ctypes import POINTER, byref, c_char_p, c_int, c_int64, c_ssize_t, c_void_p
from typing import Any, Tuple

# For each kind of item the formats that are taken, as Python's struct names them, and the bytes of an item. A whole number below zero is
# one of 2^63 or more to the unit, which refuses it.
FORMATS = {"u8": ("B", 1), "u32": ("IL", 4), "u64": ("QLql", 8), "binary64": ("d", 8)}
WORDS = {"u8": "bytes", "u32": "whole numbers of 32 bits", "u64": "whole numbers of 64 bits", "binary64": "float64"}


class _Buffer(ctypes.Structure):
    """Python's Py_buffer."""

    _fields_ = [
        ("buf", c_void_p),
        ("obj", c_void_p),
        ("len", c_ssize_t),
        ("itemsize", c_ssize_t),
        ("readonly", c_int),
        ("ndim", c_int),
        ("format", c_char_p),
        ("shape", c_void_p),
        ("strides", c_void_p),
        ("suboffsets", c_void_p),
        ("internal", c_void_p),
    ]


class _ArrowSchema(ctypes.Structure):
    _fields_ = [
        ("format", c_char_p),
        ("name", c_char_p),
        ("metadata", c_void_p),
        ("flags", c_int64),
        ("n_children", c_int64),
        ("children", c_void_p),
        ("dictionary", c_void_p),
        ("release", c_void_p),
        ("private_data", c_void_p),
    ]


class _ArrowArray(ctypes.Structure):
    _fields_ = [
        ("length", c_int64),
        ("null_count", c_int64),
        ("offset", c_int64),
        ("n_buffers", c_int64),
        ("n_children", c_int64),
        ("buffers", POINTER(c_void_p)),
        ("children", c_void_p),
        ("dictionary", c_void_p),
        ("release", c_void_p),
        ("private_data", c_void_p),
    ]


_python = ctypes.PyDLL(None, handle=ctypes.pythonapi._handle)  # its functions are not those whose types another package may have set
_python.PyObject_GetBuffer.argtypes = [ctypes.py_object, c_void_p, c_int]  # a fault becomes Python's own exception
_python.PyBuffer_Release.argtypes, _python.PyBuffer_Release.restype = [c_void_p], None
_python.PyCapsule_GetPointer.argtypes, _python.PyCapsule_GetPointer.restype = [ctypes.py_object, c_char_p], c_void_p
_WRITABLE, _FORMAT, _IN_ORDER = 0x1, 0x4, 0x38
# Arrow's letters, as Python's.
_ARROW = {b"C": "B", b"I": "I", b"L": "Q", b"l": "q", b"g": "d"}
_NATIVE = "@=<" if sys.byteorder == "little" else "@=>!"


def _lends(owner: Any) -> bool:
    """Does the object lend its bytes?"""
    try:
        memoryview(owner)
    except TypeError:
        return False
    except (BufferError, ValueError):
        pass  # it does, but not these
    return True


class Lent:
    """The items of a list, for as long as a call needs them."""

    def __init__(self, owner: Any, name: str, kind: str, written: bool) -> None:
        self.name, self.written = name, written
        self._view: Any = None
        self.address: int = 0
        self.bytes: int = 0
        if not written and hasattr(owner, "__arrow_c_array__"):
            form, size = self._take_arrow(owner)
        else:
            if not written and not _lends(owner) and hasattr(owner, "to_numpy"):
                owner = owner.to_numpy()
            form, size = self._take_buffer(owner)
        try:
            self._test(form, size, kind)
        except TypeError:
            self.release()
            raise

    def _take_buffer(self, owner: Any) -> Tuple[str, int]:
        view = _Buffer()
        if hasattr(owner, "mask"):  # numpy's masked arrays lend what is masked too
            raise TypeError(f"{self.name}: items may be masked")
        try:
            _python.PyObject_GetBuffer(owner, byref(view), _FORMAT | _IN_ORDER | (_WRITABLE if self.written else 0))
        except (BufferError, TypeError, ValueError) as fault:
            raise TypeError(f"{self.name}: {fault}") from None
        self._view = view
        self.address, self.bytes = view.buf or 0, view.len
        form = (view.format or b"B").decode()
        return (form[1:] if form[0] in _NATIVE else form) if view.ndim == 1 else f"{form} in {view.ndim} dimensions", view.itemsize

    def _take_arrow(self, owner: Any) -> Tuple[str, int]:
        self._view = owner.__arrow_c_array__()  # these two free the array when they are gone
        schema = _ArrowSchema.from_address(_python.PyCapsule_GetPointer(self._view[0], b"arrow_schema"))
        items = _ArrowArray.from_address(_python.PyCapsule_GetPointer(self._view[1], b"arrow_array"))
        form = _ARROW.get(schema.format)
        if form is None or schema.dictionary:
            return f"Arrow's {schema.format.decode()}", 0
        if items.null_count != 0 and items.buffers[0]:
            raise TypeError(f"{self.name}: an item is missing (null)")
        size = {"B": 1, "I": 4}.get(form, 8)
        self.address, self.bytes = (items.buffers[1] or 0) + items.offset * size, items.length * size
        return form, size

    def _test(self, form: str, size: int, kind: str) -> None:
        formats, wanted = FORMATS[kind]
        if len(form) != 1 or form not in formats or size != wanted:
            raise TypeError(f"{self.name}: a flat list of {WORDS[kind]} is wanted, and its items are {form!r}, of {size} bytes")
        if self.bytes and self.address % wanted:
            raise TypeError(f"{self.name}: its address is not a multiple of {wanted}")
        self.length = self.bytes // wanted

    def overlaps(self, other: "Lent") -> bool:
        """Has it a byte that the other has too?"""
        return self.address < other.address + other.bytes and other.address < self.address + self.bytes

    def release(self) -> None:
        """Gives the list back. Once more does nothing."""
        if isinstance(self._view, _Buffer):
            _python.PyBuffer_Release(byref(self._view))
        self._view = None
