"""The calls of include/quendaric.h. tools/prototypes makes this file: do not edit it."""

VERSION = "3.6.0"

# What each refusal means.
REFUSALS = {
    1: """row above 15 or column above 127""",
    2: """number of digits 0 or above 28; of an affected run, 0 or above 31""",
    3: """D or N outside its span; of a step, D""",
    4: """a whole number is 2^60 or more""",
    5: """a divisor is 0""",
    6: """direction above 3""",
    7: """a lent buffer or list ends before the last place to write, a given place beyond its end included""",
    8: """the table's length is not 2,048""",
    9: """a byte of the table is above 4; a single cell's byte is; place: the first such index; of a single cell 128 * r + c""",
    10: """the table has a bad cell; place: the index of the first""",
    11: """the two input lists differ in length""",
    12: """a window's width is 0, or more than 4,096, or more than there are readings""",
    13: """a reading is 2^40 or more; place: the first such index, in the list as handed in""",
    14: """3P of a step is below -8D or above 8D""",
    15: """a half byte of a packed number is above 9; place: the first such byte, 0 to 7 in the dividend, 8 to 15 in the divisor""",
    16: """number of significant bits 0 or above 6""",
    17: """number of bits of the estimate neither 7 nor 8""",
}

# What each answer tells, and its fields: name, kind, and the length of an array or 0.
ANSWERS = {
    "cell": (
        """allowed is 1 where the digit may stand in the cell and 0 where it may not. Where it may not, divisor and remainder
are the least witness: a point of the cell, in units of 2^-60, from which the digit drives the remainder out of
range. Otherwise both are 0.""",
        [("refusal", "u64", 0), ("place", "u64", 0), ("allowed", "u64", 0), ("divisor", "u64", 0), ("remainder", "i64", 0)],
    ),
    "report": (
        """count is the number of bad cells. row and column are those of the first bad cell, and divisor and remainder are the
least witness against it. The table passed exactly when the refusal is 0. A count of 0 does not say so: with the
refusals 8 and 9 no cell was examined, and the count is 0 too.""",
        [("refusal", "u64", 0), ("place", "u64", 0), ("count", "u64", 0), ("row", "u64", 0), ("column", "u64", 0), ("divisor", "u64", 0), ("remainder", "i64", 0)],
    ),
    "limits": (
        """limits holds the columns at which the digits -2, -1, 0, 1, 2 and then 0 again begin.""",
        [("refusal", "u64", 0), ("place", "u64", 0), ("limits", "u8", 6)],
    ),
    "made": (
        """The table stands in the buffer.""",
        [("refusal", "u64", 0), ("place", "u64", 0)],
    ),
    "repaired": (
        """count is the number of cells that were changed.""",
        [("refusal", "u64", 0), ("place", "u64", 0), ("count", "u64", 0)],
    ),
    "ran": (
        """digits is the number of digits that were written.""",
        [("refusal", "u64", 0), ("place", "u64", 0), ("quotient", "u64", 0), ("remainder", "u64", 0), ("digits", "u64", 0)],
    ),
    "stepped": (
        """digit is from -2 to 2. sum and carry are the next two words.""",
        [("refusal", "u64", 0), ("place", "u64", 0), ("digit", "i64", 0), ("sum", "u64", 0), ("carry", "u64", 0)],
    ),
    "whole": (
        """a = quotient * b + remainder, with remainder < b.""",
        [("refusal", "u64", 0), ("place", "u64", 0), ("quotient", "u64", 0), ("remainder", "u64", 0)],
    ),
    "binary64": (
        """pattern is the 64 bits of the result.""",
        [("refusal", "u64", 0), ("place", "u64", 0), ("pattern", "u64", 0), ("flags", "u64", 0)],
    ),
    "samples": (
        """flags is the sum of the flags that at least one sample raised. count is the number of samples.""",
        [("refusal", "u64", 0), ("place", "u64", 0), ("flags", "u64", 0), ("count", "u64", 0)],
    ),
    "affected_count": (
        """count is the number of affected samples.""",
        [("refusal", "u64", 0), ("place", "u64", 0), ("count", "u64", 0)],
    ),
    "affected_mark": (
        """affected is 1 where the division went wrong, else 0.""",
        [("refusal", "u64", 0), ("place", "u64", 0), ("affected", "u64", 0)],
    ),
    "averages": (
        """The means and the remainders stand in the two lists.""",
        [("refusal", "u64", 0), ("place", "u64", 0)],
    ),
    "packed": (
        """quotient and remainder have sixteen decimal digits each, two in a byte.""",
        [("refusal", "u64", 0), ("place", "u64", 0), ("quotient", "u8", 8), ("remainder", "u8", 8)],
    ),
    "visits": (
        """The numbers of visits stand in the list.""",
        [("refusal", "u64", 0), ("place", "u64", 0)],
    ),
    "comparison": (
        """order is -1 where a / b is less than c / d, 0 where the two are equal, and 1 where a / b is greater.""",
        [("refusal", "u64", 0), ("place", "u64", 0), ("order", "i64", 0)],
    ),
    "root": (
        """remainder is a - root * root.""",
        [("refusal", "u64", 0), ("place", "u64", 0), ("root", "u64", 0), ("remainder", "u64", 0)],
    ),
    "linked": (
        """Nothing but that the archive has the version of the call's name.""",
        [("refusal", "u64", 0), ("place", "u64", 0)],
    ),
}

# The answer of each call, what it does, and its arguments: name, shape, kind, and the length of an array or 0.
CALLS = {
    "check_cell": (
        "cell",
        """Examines one cell for a divider that adds eight bits: may the digit byte - 2 stand in it? That it may not is an
ordinary answer, not a refusal. Writes nothing. Refuses 1, then 9 with the place 128 * row + column.""",
        [("row", "number", "u64", 0), ("column", "number", "u64", 0), ("byte", "number", "u8", 0)],
    ),
    "check_cell_for": (
        "cell",
        """Does the same for a divider that adds estimate_bits bits, 7 or 8. Refuses 17, 1, 9, in this order.""",
        [("estimate_bits", "number", "u64", 0), ("row", "number", "u64", 0), ("column", "number", "u64", 0), ("byte", "number", "u8", 0)],
    ),
    "check_table": (
        "report",
        """Checks a table for a divider that adds eight bits. The table passed exactly when the refusal is 0. It may still be bad
in a divider that adds seven: ask quendaric_check_table_for. Writes nothing. Refuses 8, 9, 10; with 10 alone the answer
also has count, row, column and witness.""",
        [("table", "read", "u8", 0)],
    ),
    "check_table_for": (
        "report",
        """Does the same for a divider that adds estimate_bits bits, 7 or 8. A table that passes for 7 passes for 8 too. Refuses
17, 8, 9, 10, in this order.""",
        [("estimate_bits", "number", "u64", 0), ("table", "read", "u8", 0)],
    ),
    "row_limits": (
        "limits",
        """Returns the six columns at which the digits of a row of the kept table change. Writes nothing. Refuses 1.""",
        [("row", "number", "u64", 0)],
    ),
    "row_limits_for": (
        "limits",
        """Does the same for a row of the table that quendaric_make_table_for writes. Refuses 17, 1, in this order.""",
        [("estimate_bits", "number", "u64", 0), ("row", "number", "u64", 0)],
    ),
    "make_table": (
        "made",
        """Writes the kept table: each cell gets the allowed digit that is nearest zero. It writes the first 2,048 bytes of the
buffer and leaves later bytes as they are. Do not burn this table into a divider that adds only the top seven bits of
each word: it is bad there. Refuses 7.""",
        [("buffer", "written", "u8", 0)],
    ),
    "make_table_for": (
        "made",
        """Writes the table for a divider that adds estimate_bits bits: 8 gives the kept table, 7 one that passes for either
divider. Refuses 17, 7, in this order.""",
        [("estimate_bits", "number", "u64", 0), ("buffer", "written", "u8", 0)],
    ),
    "repair_table": (
        "repaired",
        """Repairs a table that was read back from a device. A bad cell, or a byte above 4, gets the digit of the kept table;
every other byte is copied. The call writes the repaired table to the first 2,048 bytes of repaired and to those of
changed a 1 for each cell that it changed and a 0 for each other; it leaves later bytes as they are. The repaired
table passes the check, and no table that passes differs from the one read back in fewer cells. Both hold for a
divider that adds eight bits: for one that adds seven a repaired table may be bad. Neither buffer may overlap the
table or the other buffer, so a table cannot be repaired in place. Refuses 7, 8, and never 9 or 10.""",
        [("table", "read", "u8", 0), ("repaired", "written", "u8", 0), ("changed", "written", "u8", 0)],
    ),
    "repair_table_for": (
        "repaired",
        """Does the same for a divider that adds estimate_bits bits, 7 or 8: which cells are bad, the digit that a changed cell
gets, and that the repaired table passes with the fewest changes are all for that divider. The digit is that of the
table that quendaric_make_table_for writes. Refuses 17, 7, 8, in this order, and never 9 or 10.""",
        [("estimate_bits", "number", "u64", 0), ("table", "read", "u8", 0), ("repaired", "written", "u8", 0), ("changed", "written", "u8", 0)],
    ),
    "run": (
        "ran",
        """Divides digit by digit through the table: a run. It computes 1 to 28 quotient digits of dividend / divisor, such that
dividend * 4^(digits - 1) = quotient * divisor + remainder with remainder < divisor. The dividend is below 2^61, and
the divisor is 2^60 or more and below 2^61. The call writes the digits, each as q + 2 and the first digit first, to
buffer[place] to buffer[place + digits - 1] and writes no other byte. The buffer may not overlap the table. The call
checks the table each time. Refuses 2, 3, 7, 8, 9, 10.""",
        [("table", "read", "u8", 0), ("dividend", "number", "u64", 0), ("divisor", "number", "u64", 0), ("digits", "number", "usize", 0), ("buffer", "written", "u8", 0), ("place", "number", "usize", 0)],
    ),
    "run_kept": (
        "ran",
        """Does the same through the kept table. Refuses 2, 3, 7.""",
        [("dividend", "number", "u64", 0), ("divisor", "number", "u64", 0), ("digits", "number", "usize", 0), ("buffer", "written", "u8", 0), ("place", "number", "usize", 0)],
    ),
    "step": (
        "stepped",
        """Makes one step of a run from any two words. The remainder P is sum + carry modulo 2^64, read as signed; the next two
words add up to 4 * (P - digit * divisor). If you begin with sum = dividend and carry = 0 and pass each returned pair
back with the same divisor and table, you get the digits of the run. The divisor is 2^60 or more and below 2^61.
Writes nothing. The call checks the table each time. Refuses 3, 14, 8, 9, 10.""",
        [("sum", "number", "u64", 0), ("carry", "number", "u64", 0), ("divisor", "number", "u64", 0), ("table", "read", "u8", 0)],
    ),
    "divide_whole": (
        "whole",
        """Divides whole numbers below 2^60 through the table: a = quotient * b + remainder with remainder < b. Writes nothing.
The call checks the table each time. Refuses 4, 5, 8, 9, 10.""",
        [("table", "read", "u8", 0), ("a", "number", "u64", 0), ("b", "number", "u64", 0)],
    ),
    "divide_whole_kept": (
        "whole",
        """Does the same through the kept table. Refuses 4, 5.""",
        [("a", "number", "u64", 0), ("b", "number", "u64", 0)],
    ),
    "divide_binary64": (
        "binary64",
        """Divides two IEEE 754 binary64 numbers, given by their 64 bits, through the table and rounds once in the direction.
The flags are IEEE 754's, with tininess detected before rounding. A NaN operand gives 7FF8000000000000, and the flag
invalid exactly if an operand is a signalling NaN. Writes nothing. The call checks the table each time, whatever the
operands. Refuses 6, 8, 9, 10; the pattern is then 0, which reads as 0.0, so test the refusal first.""",
        [("table", "read", "u8", 0), ("a", "number", "binary64", 0), ("b", "number", "binary64", 0), ("direction", "number", "u64", 0)],
    ),
    "divide_binary64_kept": (
        "binary64",
        """Does the same through the kept table. Refuses 6, with the pattern 0.""",
        [("a", "number", "binary64", 0), ("b", "number", "binary64", 0), ("direction", "number", "u64", 0)],
    ),
    "divide_samples": (
        "samples",
        """Divides a run of samples through a table that it checks once, also where the run is empty. concentrations[j] becomes
the pattern that quendaric_divide_binary64 gives for currents[j] / sensitivities[j], for every j below
currents_length; later words keep their contents. concentrations may overlap neither the table nor another list.
Refuses 6, 11, 7, 8, 9, 10, in this order.""",
        [("table", "read", "u8", 0), ("currents", "read", "binary64", 0), ("sensitivities", "read", "binary64", 0), ("concentrations", "written", "binary64", 0), ("direction", "number", "u64", 0)],
    ),
    "affected_samples": (
        "affected_count",
        """Finds the records that a wrong table made wrong. The table is the one that was burned, with its bad cells: no byte of it
is refused. estimate_bits is how many bits of each remainder word the divider adds that filed the records, 7 or 8: the
two read different cells, so there is no default. The call writes affected[j] for every j below currents_length: 0 if
each byte that 28 steps of currents[j] / sensitivities[j] read in this table is 4 or less and the quotient and remainder
that these digits form are right, else 1. count is the number of ones. Where affected[j] is 0, the pattern and the flags
that are formed from the burned table's own digits are those of IEEE 754, in every direction. Where it is 1, the
quotient of the 28 digits is wrong, or a byte above 4 was read; rounded to a binary64 such a quotient may still be the
right one. A sample with a zero, an infinity or a NaN takes no digit, and its mark is 0. All this is said of a divider
that steps as this unit does and corrects by the sign of its last remainder. Later bytes of affected keep their
contents. affected may overlap nothing else. Beside a refusal nothing is written, and a count of 0 does not say that no
sample is affected. Refuses 17, 11, 7, 8, in this order.""",
        [("estimate_bits", "number", "u64", 0), ("table", "read", "u8", 0), ("currents", "read", "binary64", 0), ("sensitivities", "read", "binary64", 0), ("affected", "written", "u8", 0)],
    ),
    "affected_whole": (
        "affected_mark",
        """Does the same for one division of whole numbers below 2^60: affected is 1 exactly if the quotient or the remainder of
a / b, formed from the digits of the table as it was burned, is wrong, or a byte above 4 was read. This is for a divider
that shifts its operands left as quendaric_divide_whole does and takes exactly (d + 1) / 2 + 1 digits, the half rounded
down, where d is by how many bits a is longer than b, or 0 where it is not longer; for another one, as this unit was
before version 2.2.2, take quendaric_affected_run. Writes nothing. Refuses 17, 4, 5, 8.""",
        [("estimate_bits", "number", "u64", 0), ("table", "read", "u8", 0), ("a", "number", "u64", 0), ("b", "number", "u64", 0)],
    ),
    "affected_run": (
        "affected_mark",
        """Does the same for one run of 1 to 31 digits: affected is 0 exactly if each byte that its steps read in the table as it
was burned is 4 or less and the quotient and remainder that these digits form are those of
dividend * 4^(digits - 1) / divisor, else 1. Dividend and divisor are those with which the divider begins, as in
quendaric_run. Writes nothing. Refuses 17, then 2 where digits is 0 or above 31, then 3, 8.""",
        [("estimate_bits", "number", "u64", 0), ("table", "read", "u8", 0), ("dividend", "number", "u64", 0), ("divisor", "number", "u64", 0), ("digits", "number", "usize", 0)],
    ),
    "average_windows": (
        "averages",
        """Averages readings over a sliding window. The readings are parts per billion below 2^40. For every full window of
width readings the call writes the mean, rounded down, and what rounding left over: means[j] * width + remainders[j]
is the sum of the window's readings, with remainders[j] < width. The oldest window comes first, whichever way the
readings are ordered: where newest_first is false, window j begins at readings[j]; where it is true, window j ends at
readings[readings_length - 1 - j]. j goes from 0 to readings_length - width, and later words of both lists keep their
contents. With one reading a second, fifteen minutes are a width of 900. The call divides through the kept table.
means and remainders may overlap neither the readings nor each other: an average cannot replace its reading in place.
Refuses 12, 13, 7, in this order; the place of 13 is an index of readings.
Pass true or false for newest_first. C and C++ convert every number to one of the two, but another language can pass
any byte. No proof speaks of a byte above 1; this archive goes by its lowest bit, so that an odd byte is true.""",
        [("readings", "read", "u64", 0), ("width", "number", "usize", 0), ("newest_first", "number", "bool", 0), ("means", "written", "u64", 0), ("remainders", "written", "u64", 0)],
    ),
    "divide_packed": (
        "packed",
        """Divides packed decimal numbers: sixteen digits in eight bytes, two in a byte, the higher digit in the high four bits,
the first byte highest. dividend = quotient * divisor + remainder with remainder < divisor. Both pointers are valid
for eight bytes, at any address, and not NULL; they may be the same. Writes nothing. The call divides through the
kept table. Refuses 15 with the byte as its place, 0 to 7 in the dividend and 8 to 15 in the divisor; then 5.""",
        [("dividend", "fixed", "u8", 8), ("divisor", "fixed", "u8", 8)],
    ),
    "count_visits": (
        "visits",
        """Counts how often each cell is met. It takes all 4^(bits - 1) pairs of operands that have exactly `bits` significant
bits, 1 to 6, both with their leading one at bit 60, and runs `digits` digits, 1 to 28, of each pair through the
table. visits[128 * row + column] becomes the number of these digits that were taken at that cell. The call writes
the first 2,048 numbers, which add up to digits * 4^(bits - 1), and leaves later ones as they are. visits may not
overlap the table. The call checks the table once. Refuses 2, 16, 7, 8, 9, 10, in this order.""",
        [("table", "read", "u8", 0), ("bits", "number", "u64", 0), ("digits", "number", "usize", 0), ("visits", "written", "u32", 0)],
    ),
    "compare_ratios": (
        "comparison",
        """Compares a / b with c / d for whole numbers below 2^60: as a * d compares with c * b, with nothing rounded, so that
qsort may go by it. Writes nothing. The call divides through the kept table. Refuses 4, then 5 where b or d is 0.""",
        [("a", "number", "u64", 0), ("b", "number", "u64", 0), ("c", "number", "u64", 0), ("d", "number", "u64", 0)],
    ),
    "root_whole": (
        "root",
        """Returns the whole square root of a number below 2^60: root * root <= a < (root + 1) * (root + 1). Writes nothing and
uses no table. Refuses 4.""",
        [("a", "number", "u64", 0)],
    ),
    "root_binary64": (
        "binary64",
        """Returns the IEEE 754 binary64 square root of a pattern, rounded once in the direction. A zero gives itself with its
sign, and plus infinity gives itself. A number below zero, and minus infinity, gives 7FF8000000000000 and the flag
invalid. A NaN gives 7FF8000000000000, and the flag invalid where it is signalling. For all others inexact is the
only flag. Writes nothing and uses no table. Refuses 6, with the pattern 0.""",
        [("a", "number", "binary64", 0), ("direction", "number", "u64", 0)],
    ),
    "version_3_6_0": (
        "linked",
        """Does nothing, and refuses nothing. Its name has the version in it, and this header refers to it: a program that was
compiled with the header of another version is not linked with this archive.""",
        [],
    ),
}
