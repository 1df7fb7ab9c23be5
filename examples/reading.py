# A reading from Python: the quotient of a current and a sensitivity, through the kept table.
#
#     python3 examples/reading.py LIBRARY CURRENT SENSITIVITY
#
# The current is in nA, the sensitivity in nA a ppm, and the reading in ppm.
# Status: 0 the reading was printed, 1 there is none, 2 the arguments are wrong or not all was written; what is wrong stands
# on standard error.
#
# ctypes loads a shared library, which gcc makes of the archive:
#     gcc -shared -Wl,--whole-archive target/staticlib/libquendaric.a -Wl,--no-whole-archive -o build/libquendaric.so
# A LIBRARY in the current folder is named with its path: ./libquendaric.so
import ctypes
import math
import os
import struct
import sys

NEAREST = 0
INEXACT, UNDERFLOW = 1, 2

# What the cell can be, in nA a ppm, and what it can read, in ppm. Put in the figures of yours.
LEAST_SENSITIVITY, MOST_SENSITIVITY = 10, 10000
LEAST, MOST = -5, 500


class Binary64(ctypes.Structure):
    _fields_ = [(name, ctypes.c_uint64) for name in ("refusal", "place", "pattern", "flags")]


def end(status, message):
    sys.stderr.write(message + "\n")
    sys.exit(status)


def number_of(word):
    """The number in a word, which has to be finite and in the range of a double."""
    number = float(word)
    significand = word.lower().partition("e")[0]
    if not math.isfinite(number) or number == 0 and any(digit in significand for digit in "123456789"):
        raise ValueError
    return number


def pattern(number):
    return struct.unpack("<Q", struct.pack("<d", number))[0]


def is_reading(answer, current, sensitivity, quotient):
    """The rule of quendaric_reading in the header, with the sensitivities of this cell."""
    return (
        answer.refusal == 0
        and math.isfinite(current)
        and LEAST_SENSITIVITY <= sensitivity <= MOST_SENSITIVITY
        and answer.flags & ~(INEXACT | UNDERFLOW) == 0
        and LEAST <= quotient <= MOST
    )


try:
    _, library, *words = sys.argv
    current, sensitivity = map(number_of, words)
except ValueError:
    end(2, "usage: reading.py LIBRARY CURRENT SENSITIVITY, the last two finite numbers in the range of a double")
try:
    divide = ctypes.CDLL(library).quendaric_divide_binary64_kept
except (OSError, AttributeError) as fault:
    end(2, str(fault))
divide.argtypes = [ctypes.c_uint64] * 3
divide.restype = Binary64  # without it ctypes takes the answer for an int

answer = divide(pattern(current), pattern(sensitivity), NEAREST)
reading = struct.unpack("<d", struct.pack("<Q", answer.pattern))[0]
if not is_reading(answer, current, sensitivity, reading):
    sys.stderr.write(f"no reading: refusal {answer.refusal}, flags {answer.flags}, quotient {reading:.17g}\n")
    end(1, f"this cell has {LEAST_SENSITIVITY} to {MOST_SENSITIVITY} nA a ppm and reads {LEAST} to {MOST}")
try:
    os.write(1, f"reading {reading:.17g}, flags {answer.flags}\n".encode())  # print() says nothing where there is no output
except OSError as fault:
    end(2, f"standard output: not all was written: {fault.strerror}")
