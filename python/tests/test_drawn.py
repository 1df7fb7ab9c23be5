"""recheck of the package against tools/recheck.c, on drawn files: every verdict, right value, mark, sum and number of decimals.

    PYTHONPATH=FOLDER python3 python/tests/test_drawn.py RECHECK FIRST LAST [without-numpy]

RECHECK is the program; a file for each seed from FIRST to LAST; from the project's root. What was filed goes to the package as text, as Decimal
where it can, and as float64. An operand is written without exponent, and by the fewest digits or by 17, since a float does not show more."""

import json
import math
import os
import random
import subprocess
import sys
import tempfile
import warnings
from array import array
from decimal import Decimal

if sys.argv[4:] == ["without-numpy"]:
    sys.modules["numpy"] = None
import quendaric as q
from quendaric import lists

if sys.argv[4:] and lists.numpy is not None:
    sys.exit("numpy is there")
RECHECK, FIRST, LAST = sys.argv[1], int(sys.argv[2]), int(sys.argv[3])
TABLES = ["tables/pentium-1994.table", "tables/kept.table", "tables/kept-seven-bits.table", "tests/data/all-bad.table"]
DIRECTIONS = ["nearest", "zero", "up", "down"]
# What drawn records hardly meet: halves by the ratio alone, close to a half, of the right value alone; signs of zero; 16 digits; large ratios.
HALVES = """5,1000,0.00 5,1000,0.01 5,1000,-0.00 -5,1000,-0.00 -5,1000,0 -5,1000,-0.01 5,1000,-0.01 995,1000,1.00 995,1000,0.99 995,1000,0.98
 995,1000,+1.0 1,8,0.12 1,8,0.13 1,8,0.11 -1,8,-.13 125.0000001,1000,0.12 125.0000001,1000,0.13 124.9999999,1000,0.13
 124.9999999,1000,0.12 0.30000000000000004,2.4000000000000004,0.12 0.30000000000000004,2.4000000000000004,0.13
 0.30000000000000004,2.4000000000000004,0.14 0.005000000000000001,1.0000000000000002,0.00 0.005000000000000001,1.0000000000000002,0.01
 0,1000,0.00 -0,1000,0 0,1000,0.01 0.995,1,1 99500,100000,1 999999999999.995,1,1000000000000 999999999999.995,1,999999999999.99
 999999999999995,1000,1000000000000 999999999999995,1000,999999999999.99 3175,1343,2.34 8400,700,12 1,3,0.33 2,3,.67 1,200,0.00 3,200,.02
 3,200,0.01 123456789012345,1000,123456789012.34 123456789012345,1000,123456789012.35 0.0000000000005,0.0000000001,0.01 0.000000000000005,0.000000000001,0.00""".split()
SIXTEEN = ["1,3,0.3333333333333333", "2,3,0.6666666666666666", "2,3,0.6666666666666667", "1,8,0.1250000000000000", "1,8,0.12"]
EDGES = [HALVES, SIXTEEN, SIXTEEN[3:], SIXTEEN[4:], HALVES[:16], ["1,3,0.33", "1,3,0.30"], ["1,3,0.30"], ["1,8,0.125", "1,8,0.12"], ["1,3,0.3e0"], ["1,3,"], ["1,3,0.000000000000000001"]]
drawn = random.Random()


def chance(part):
    return drawn.random() < part


def current():
    kind = drawn.randrange(20)
    if kind == 0:
        return drawn.choice(["0", "-0", "nan", "inf", "-Infinity", "1" + "0" * 200, "0." + "0" * 300 + "3", "9007199254740993"])
    if kind < 4:
        return repr(drawn.choice([1, -1]) * drawn.uniform(1e-3, 1e4))
    if kind < 8:
        return "%d.%s" % (drawn.randrange(5000), str(drawn.randrange(1, 1000)).rstrip("0"))
    if kind < 10:
        return "-%d" % drawn.randrange(1, 5000)
    return "3175" if kind < 13 else str(drawn.randrange(1, 5000))


def sensitivity():
    kind = drawn.randrange(20)
    if kind == 0:
        return drawn.choice(["0", "nan", "0." + "0" * 200 + "7", "-1000", "1" + "0" * 280])
    if kind < 3:
        return repr(drawn.uniform(600, 2200))
    return drawn.choice(["1343", "1000", "8", "640", "1250", "800", "0.5", "62.5", "2000", "0.001"])


def near(a, b, decimals):
    """A number near the quotient, rounded as a monitor may round."""
    try:
        quotient = float(a) / float(b)
    except ZeroDivisionError:
        quotient = 1.0
    if not abs(quotient) < 1e300:
        return "1"
    if decimals is None:
        return drawn.choice(["%.17g", "%.16g", "%.15g", "%.6f"]) % quotient
    if chance(0.3):  # halves away from zero, as firmware does
        return "%.*f" % (decimals, int(quotient * 10**decimals + math.copysign(0.5, quotient)) / 10**decimals)
    return "%.*f" % (decimals, quotient + drawn.choice([0, 0, 0, 0, 0.5, -0.5, 1, -1]) * 10.0**-decimals)


def filed(a, b, decimals):
    kind = drawn.randrange(40)
    if kind == 0:
        return ""
    if kind == 1:
        return drawn.choice(["nan", "inf", "-Infinity", "+nan", "1e999", "1e-999", "-1e-400", "1e5000", "-0", "0x10", "1e", ".", "n/a", "1_0"])
    text = near(a, b, decimals)
    if kind == 2:
        return drawn.choice(["+", "00"]) + text.lstrip("-")
    if kind == 3 and "." in text:
        return text + "0" if chance(0.5) else text.rstrip("0").rstrip(".") or "0"
    if kind == 4:
        return "%.*e" % (drawn.randrange(8), float(text))
    return text


def as_float(text):
    """As a reader of CSV has it: what cannot be read is not a number."""
    try:
        return float(text)
    except ValueError:
        return math.nan


def ask(place, records, table, bits, direction, decimals):
    """What the program says of the records."""
    with open(place, "w") as file:
        file.write("".join("%d,%s\n" % (i, ",".join(fields)) for i, fields in enumerate(records, 1)))
    given = [] if decimals == "find" else ["--decimals", str(decimals)]
    command = [RECHECK, "--json", "--numbers", "--estimate", str(bits), "--direction", DIRECTIONS[direction], *given, table, place]
    return json.loads(subprocess.run(command, stdout=subprocess.PIPE, stderr=subprocess.PIPE).stdout)


def differences(got, document, records):
    summary = document["summary"]
    for name, value in got.counts.items():
        if summary[name] != value:
            yield "%s: %r and not %r" % (name, value, summary[name])
    wrong = {one["line"] - 1: one for one in document["list"]}
    if [i for i, each in enumerate(got.wrong) if each] != sorted(wrong):
        yield "wrong: %r and not %r" % ([i for i, each in enumerate(got.wrong) if each], sorted(wrong))
    unreadable = [one["line"] - 1 for one in document["unreadable"]]
    if [i for i, each in enumerate(got.unreadable) if each] != unreadable:
        yield "unreadable: %r" % unreadable
    for i, one in wrong.items():
        if (bool(got.marked[i]), bool(got.other[i])) != (one["marked"], one["other"]):
            yield "marks of %r" % (records[i],)
        if got.decimals == "full" and float(one["right"]) != got.right[i]:
            yield "right value of %r" % (records[i],)
        if got.decimals != "full" and one["right"] != shown(got.right[i], got.decimals):
            yield "right value of %r: %r and not %r" % (records[i], shown(got.right[i], got.decimals), one["right"])


def shown(number, decimals):
    text = "%.*f" % (decimals, number)
    return text.lstrip("-") if not text.strip("-0.") else text


def forms(records):
    """What was filed in each form that shows all of it, and whether its decimals are to be found."""
    texts = [fields[2] for fields in records]
    yield "text", texts, True
    if not any(text.lower().lstrip("+-") in ("1e5000", ".", "n/a", "1_0", "0x10", "1e", "nan") or "e" in text.lower() for text in texts):
        yield "Decimal", [Decimal(text) if text else None for text in texts], True
        if all(len(text.lstrip("+-0.").replace(".", "")) <= 15 or text == repr(float(text)) for text in texts):
            yield "float64", array("d", map(as_float, texts)), False


def compare(seed, place):
    drawn.seed(seed)
    shape = drawn.choice([None, 0, 1, 2, 2, 2, 3, 6])
    records = [(a, b, filed(a, b, shape)) for a, b in ((current(), sensitivity()) for _ in range(drawn.choice([1, 5, 30, 60])))]
    if seed % 10 == 0:
        records = [tuple(one.split(",")) for one in EDGES[seed // 10 % len(EDGES)]]
        shape = drawn.choice([2, 2, 1, None])
    bits, direction, table = drawn.choice([7, 8]), drawn.choice([0, 0, 1, 2, 3]), drawn.choice(TABLES)
    decimals = drawn.choice(["find", "find", "full" if shape is None else shape, drawn.choice(["full", 0, 1, 2, 3, 17])])
    document = ask(place, records, table, bits, direction, decimals)
    with open(table, "rb") as file:
        burned = file.read()
    operands = [array("d", (as_float(fields[i]) for fields in records)) for i in (0, 1)]
    found = document["files"][0]["decimals"]
    found = "full" if found is None else found
    for name, values, finds in forms(records):
        with warnings.catch_warnings(record=True) as told:
            warnings.simplefilter("always")
            got = q.recheck(*operands, burned, bits, values, None if finds and decimals == "find" else found, direction=direction)
        for difference in differences(got, document, records):
            sys.exit("seed %d, %s: %s" % (seed, name, difference))
        if got.decimals != found:
            sys.exit("seed %d, %s: decimals %r and not %r" % (seed, name, got.decimals, found))
        if bool(told) != (got.counts["other_against"] < got.counts["against"]):
            sys.exit("seed %d, %s: the warning" % (seed, name))
        yield name, got.counts


totals = {}
with tempfile.TemporaryDirectory() as folder:
    for seed in range(FIRST, LAST + 1):
        for name, counts in compare(seed, os.path.join(folder, "drawn.csv")):
            of = totals.setdefault(name, dict.fromkeys(("files", "records", "wrong", "unreadable", "marked"), 0))
            of["files"] += 1
            for key in ("records", "wrong", "unreadable", "marked"):
                of[key] += counts[key]
for name, of in totals.items():
    print("  as %s: %s" % (name, ", ".join("%s %d" % pair for pair in of.items())))
if len(totals) < 3 or min(min(of.values()) for of in totals.values()) == 0:
    sys.exit("too little was drawn")
