"""Drawn files through recheck and through the model: every count, list, unreadable line, status, window, average and stretch.

    python3 tests/tools/draw.py RECHECK FIRST LAST [FOLDER]

A file, or several, and options for each seed from FIRST to LAST; run from the project's root. It writes to FOLDER (target/tests). The
gate takes 1 to 2000; 1 to 22500 are a million records."""

import csv
import io
import json
import os
import random
import subprocess
import sys
from types import SimpleNamespace

import model

TOOL, FIRST, LAST = sys.argv[1], int(sys.argv[2]), int(sys.argv[3])
FOLDER = sys.argv[4] if len(sys.argv) > 4 else "target/tests"
TABLES = ["tables/pentium-1994.table", "tables/kept.table", "tables/kept-seven-bits.table", "tests/data/all-bad.table"]
BYTES = {name: open(name, "rb").read() for name in TABLES}
ODD = """nan inf -inf -0 0 +0.0 1e999 1e-999 -1e-400 0x10 1e . + 1_000 1,000 5. .5 -.5e1 1e+2 1E-02 Infinity -Infinity +nan 1e5000 4.9e-324
 2e-324 2.4703282292062327e-324 2.4703282292062328e-324 1.7976931348623158e308 1.7976931348623159e308 00000000000000000012 1d5 -- n/a""".split()
drawn = random.Random()
calm = False  # a run without odd fields and lines


def chance(part):
    return drawn.random() < part


def oddly(part):
    return chance(part) and not calm


def number(comma):
    kind = drawn.randrange(calm, 24)
    if kind == 0:
        text = drawn.choice(ODD + [""])
    elif kind < 4:
        text = "%d.%03d" % (drawn.randrange(1, 20), drawn.randrange(1000))
    elif kind < 6:
        text = repr(drawn.choice([1, -1]) * drawn.random() * 10 ** drawn.randrange(-5, 6))
    elif kind == 6:
        text = "%.*e" % (drawn.randrange(20), drawn.random() * 10.0 ** drawn.randrange(-320, 308))
    elif kind == 7:
        text = drawn.choice("+-") + str(drawn.randrange(5000))
    elif kind == 8:
        text = str(drawn.randrange(1, 1 << 60))
    else:
        text = str(drawn.randrange(1, 5000))
    return text.replace(".", ",") if comma and not oddly(0.03) else text


def pattern():
    if oddly(0.05):
        return "%016X" % drawn.getrandbits(64)
    if chance(0.05):
        return "%016d" % drawn.randrange(10 ** drawn.randrange(1, 17))
    bits = model.pattern_of(drawn.choice([1, -1]) * drawn.randrange(not chance(0.03), 5000) / drawn.choice([1, 8, 1000, 1343]))
    return ("0x" if chance(0.2) else "") + drawn.choice(["%016X", "%016x"]) % bits


def pattern_for(a, b):
    """The pattern of the quotient, or of its neighbour, or another one."""
    operands = int(a[-16:], 16), int(b[-16:], 16)
    quotient = model.quotient(*operands, "nearest") if all(map(model.is_finite, operands)) else None
    if quotient is None or chance(0.1):
        return pattern()
    return "%016X" % (quotient + chance(0.1) if quotient % (1 << 63) else quotient ^ chance(0.5) << 63)


def filed_for(a, b, decimals, comma):
    """Something near the quotient, rounded as a monitor may round."""
    try:
        quotient = float(a.replace(",", ".") if comma else a) / float(b.replace(",", ".") if comma else b)
    except (ValueError, ZeroDivisionError, OverflowError):
        return number(comma)
    if decimals is None or oddly(0.02):
        text = drawn.choice(["%.17g", "%.16g", "%.15g"]) % quotient
    else:
        text = "%.*f" % (decimals, quotient + (drawn.choice([1, -1]) * 10.0**-decimals if chance(0.1) else 0))
        form = drawn.random()
        if form < 0.1:  # halves away from zero
            text = "%.*f" % (decimals, quotient + 0.5 * 10.0**-decimals * drawn.choice([1e-9, 1, -1]))
        elif form < 0.12 and not calm:
            text = "%.*e" % (drawn.randrange(decimals + 4), quotient)
        elif form < 0.2:
            text = drawn.choice(["+", "000"]) + text
        elif form < 0.25:
            text = text + ("0" if "." in text else ".0")
        elif form < 0.3 and "." in text:
            text = text.rstrip("0").rstrip(".") or "0"
    return text.replace(".", ",") if comma else text


def time_text(form, seconds):
    if form == "seconds":
        return str(seconds)
    shift, zone = 0, ""
    if form == "mixed":
        shift = drawn.choice([0, 0, 3600])
    elif form == "zone":
        shift, zone = drawn.choice([(0, "Z"), (0, "Z"), (0, "-0000"), (3600, "+01:00"), (7200, "+02"), (-5400, "-0130")])
    days, rest = divmod(seconds + shift, 86400)
    date = "2026-%02d-%02d" % (1 + days // 28 % 12, 1 + days % 28)
    clock = "%02d:%02d:%02d" % (rest // 3600, rest // 60 % 60, rest % 60)
    return date + drawn.choice("TTT ") + clock + drawn.choice(["", "", ".0", ".000"]) + zone


def operands(mode, comma):
    if mode == "patterns":
        return pattern(), pattern()
    if mode == "ties":
        return ("3175" if chance(0.2) else str(drawn.randrange(1, 5000))), drawn.choice(["1343", "1000", "8", "640", "1250", "0.5" if not comma else "0,5"])
    if mode == "digits":
        return "%016d" % drawn.randrange(1, 5000), "%016d" % drawn.choice([1343, 1000, 8])
    if chance(0.5):
        return drawn.choice(["3175", "8400"]), drawn.choice(["1343", "700"])
    return number(comma), number(comma)


def header(separator, columns):
    forms = [lambda name: name, str.upper, lambda name: name.title() + " (x)", lambda name: name + "_1"]
    forms += [lambda name: name + ", x"] if separator in ";\t" else []
    names = [drawn.choice(forms)(name) for name in columns]
    if oddly(0.1):
        names[drawn.randrange(len(names))] = drawn.choice(["current", "ppm", "H2S", "7x", "nan", "battery", "Current", "", ""])
    return separator.join(names)


def rows(wanted, steps, columns, mode, decimals, comma):
    """The fields of the records of a file."""
    clock = drawn.choice([0, 5, -10, 1763280000, 10**15 - 3000])
    form = drawn.choice(["seconds"] * 4 + ["local", "zone", "mixed"])
    if form != "seconds":
        clock = drawn.randrange(86400 * 100)
    order = drawn.choice([1, 1, 1, -1])
    monitors = ["A", "B 2", 'C"', "\u00e4"][: drawn.choice([1, 2, 4])]
    for _ in range(wanted):
        if not chance(0.3 if len(monitors) > 1 else 0.002 if calm else 0.02):
            clock += order * steps
        if chance(0.005 if calm else 0.03):
            clock += steps * drawn.randrange(-9, 30) + (drawn.randrange(3) == 0)
        if oddly(0.01):
            order = -order
        a, b = operands(mode, comma)
        time = time_text(form, clock) if not oddly(0.02) else drawn.choice(["x", "2026-02-29T10:00:00", "a b", '"q', "\u00fc", "1.5", "", "+7", "12:00", "2026-11-17T10:00:60", "2024-02-29T10:00:00+25:00"])
        filed = ""
        if chance(0.9):
            filed = pattern_for(a, b) if mode == "patterns" and chance(0.7) else filed_for(a, b, decimals, comma) if not oddly(0.03) else number(comma)
        values = {"time": time, "current": a, "sensitivity": b, "filed": filed, "monitor": drawn.choice(monitors) if not oddly(0.01) else ""}
        yield [values.get(column, drawn.choice(["", "17", "ok"])) for column in columns]


def draw_file(options, decimals, mode):
    comma = options.comma
    columns = ["time", "current", "sensitivity"] + (["filed"] if chance(0.85) else [])
    by_names = chance(0.5)
    if options.monitor is not None or (by_names and chance(0.4)):
        columns.insert(0 if options.monitor == "1" else drawn.randrange(len(columns) + 1), "monitor")
    if by_names and chance(0.3):
        columns.append("battery")
    if by_names and chance(0.3) and options.monitor != "1":
        drawn.shuffle(columns)
    separator = drawn.choice([";", ";", "\t", " "] if comma else [",", ",", ",", ";", "\t", " "])
    hard = oddly(0.3)
    out = []
    if by_names or chance(0.1):
        out.append(header(separator, columns))
    for fields in rows(drawn.choice([0, 1, 5, 20, 60, 120]), options.step, columns, mode, decimals, comma):
        if hard and chance(0.05):
            fields = fields[: drawn.randrange(len(fields) + 1)] + (["7"] if chance(0.3) else [])
        if chance(0.03):
            fields = ['"%s"' % field for field in fields]
        if hard and chance(0.02):
            fields.insert(drawn.randrange(len(fields) + 1), "1" * drawn.choice([900, 1000, 1010, 1020, 1030]))
        between = separator if separator in " \t" or chance(0.9) else " " + separator + " "
        out.append(between.join(fields) + drawn.choice(["", "", "", "", "\r", " " if separator != " " else ""]))
        if hard and separator != " " and chance(0.03):  # about as long as a line may be
            out[-1] = out[-1].rstrip("\r").ljust(drawn.choice([1022, 1023, 1024])) + drawn.choice(["", "\r"])
        if chance(0.02):
            out.append(out[-1])
        if chance(0.02):
            out.append(drawn.choice(["", " "] if calm else ["", " ", "\r", '""', "\t", ",", ";", "\x00", '"', " " * 1030]))
    data = "\n".join(out).encode()
    if chance(0.1):
        data = b"\xef\xbb\xbf" + data
    return data + (b"\n" if chance(0.9) else b"")


def draw_run():
    global calm
    calm = chance(0.6)
    decimals = drawn.choice([None, 0, 1, 2, 2, 3, 6, 17])
    given = chance(0.4)
    window = drawn.choice([0, 0, 0, 1, 2, 3, 5, 20, 50])
    unit = drawn.choice([3, 3, 0, 1, 2, 9])
    limit = drawn.choice([None, 0, 1, 2, 5]) if window else None
    options = SimpleNamespace(
        estimate=drawn.choice([7, 8]),
        direction=drawn.choice(["nearest", "nearest", "zero", "up", "down"]),
        decimals=decimals if given else "find",
        comma=chance(0.2),
        patterns=drawn.choice([None] * 8 + ([] if calm else [True, False])),
        window=window,
        step=drawn.choice([1, 1, 1, 10]),
        unit=unit,
        limit=None if limit is None else limit * 10**unit,
        monitor=drawn.choice([None] * 8 + ["1", "monitor"]),
        joined=chance(0.2),
    )
    mode = drawn.choice(["patterns", "ties", "ties", "any", "any"] + ([] if calm else ["digits"]) if chance(0.5) else ["ties"])
    files = []
    for i in range(drawn.choice([1, 1, 1, 1, 2, 3])):
        name = "%s/drawn%d.csv" % (FOLDER, i)
        files.append((name, draw_file(options, decimals, mode)))
        with open(name, "wb") as file:
            file.write(files[-1][1])
    arguments = ["--estimate", str(options.estimate), "--direction", options.direction]
    arguments += ["--decimals", "full" if decimals is None else str(decimals)] if given else []
    arguments += ["--comma"] if options.comma else []
    arguments += [] if options.patterns is None else ["--patterns" if options.patterns else "--numbers"]
    arguments += ["--monitor", options.monitor] if options.monitor else []
    arguments += ["--joined"] if options.joined else []
    if window:
        arguments += ["--window", str(window), "--step", str(options.step), "--unit", model.with_decimals(1, unit)]
        arguments += ["--averages", FOLDER + "/drawn.averages"] + (["--limit", str(limit)] if limit is not None else [])
    table = drawn.choice(TABLES)
    return options, files, arguments + [table] + [name for name, _ in files], BYTES[table]


def wanted_stretches(windows, options):
    def average(total):
        return (None, None) if total is None else (model.with_decimals(total // options.window, options.unit), total % options.window)

    for one in windows.stretches:
        highest = None
        if one["highest"]:
            start, right, filed = one["highest"]
            highest = dict(zip(("from", "mean", "remainder", "filed_mean", "filed_remainder"), (windows.text(start),) + average(right) + average(filed)))
        yield {**one, "from": windows.text(one["from"]), "to": windows.text(one["to"]), "highest": highest}


def wanted_lines(windows, options, named):
    for key, start, end, mean, remainder, filed, rest, wrong in windows.lines:
        shown = [model.with_decimals(x, options.unit) if x != "" else "" for x in (mean, filed)]
        shown = [x.replace(".", ",") for x in shown] if options.comma else shown
        line = [windows.text(start), windows.text(end), shown[0], str(remainder), shown[1], str(rest), str(wrong)]
        yield line + ([key or ""] if named else [])


def read_rows(text, options):
    return list(csv.reader(io.StringIO(text), delimiter=";" if options.comma else ","))


def differences(said, document, status, options, files, lists):
    """What recheck says otherwise than the model."""
    summary = document["summary"]
    for name, value in {**said["sums"], **said["times"], "status": said["status"]}.items():
        if summary[name] != value:
            yield "%s: %r, by the model %r" % (name, summary[name], value)
    if status != said["status"]:
        yield "status %d" % status
    names = ("file", "line", "monitor", "time", "current", "sensitivity", "right", "filed", "marked", "other")
    found = [[one[name] for name in names] for one in document["list"]]
    if [one[:7] + [one[7] or ""] + one[8:] for one in found] != said["list"]:
        yield "list"
    if [(one["file"], one["line"]) for one in document["unreadable"]] != said["unreadable"]:
        yield "unreadable lines"
    separators = {b"\t": "tab", b";": ";", b",": ",", b" ": " ", None: None}
    facts = [(name, separators[separator], "patterns" if patterns else "decimal", decimals, open_end) for name, separator, patterns, decimals, open_end in said["files"]]
    if [tuple(one.values()) for one in document["files"] if one["separator"]] != [fact for fact in facts if fact[1]]:
        yield "files: %r, by the model %r" % (document["files"], facts)
    if {one["name"]: [one["records"], one["wrong"]] for one in document["monitors"]} != said["monitors"]:
        yield "monitors"
    if options.window:
        yield from window_differences(said, summary["windows"], options, lists)
    if "list" in lists:
        named = len(files) > 1 or len(lists["list"][0]) == 8
        want = [[one[3], one[4], one[5], one[6], one[7], str(int(one[8])), str(int(one[9]))] + ([one[2] or ""] if named else []) for one in said["list"]]
        if lists["list"][1:] != want:
            yield "lines of the list"


def window_differences(said, found, options, lists):
    windows = said["windows"]
    wanted = {name: getattr(windows, name) for name in ("missing", "doubled", "back", "outside", "untimed", "large", "unfiled")}
    for name, value in {**wanted, **windows.counts}.items():
        if found[name] != value:
            yield "windows, %s: %r, by the model %r" % (name, found[name], value)

    def order(one):
        return one["kind"], one["monitor"] or "", one["from"], one["to"], one["count"], str(one)

    if sorted(found["list"], key=order) != sorted(wanted_stretches(windows, options), key=order):
        yield "stretches"
    if lists["averages"]:
        named = len(lists["averages"][0]) == 8
        if sorted(lists["averages"][1:]) != sorted(wanted_lines(windows, options, named)):
            yield "averages"


def compare(seed):
    drawn.seed(seed)
    options, files, arguments, table = draw_run()
    place = FOLDER + "/drawn.averages"
    if os.path.exists(place):
        os.remove(place)
    ran = subprocess.run([TOOL, "--json"] + arguments, capture_output=True)
    said = model.run(files, table, options)
    lists = {"averages": []}
    if options.window and not said["refused"]:
        with open(place, encoding="utf-8") as file:
            lists["averages"] = read_rows(file.read(), options)
    if seed % 4 == 0:
        again = subprocess.run([TOOL] + arguments, capture_output=True)
        lists["list"] = read_rows(again.stdout.decode(), options)
    for difference in differences(said, json.loads(ran.stdout), ran.returncode, options, files, lists):
        sys.exit("seed %d: %s\n  %s\n%s" % (seed, difference, " ".join([TOOL] + arguments), ran.stderr.decode()[-1500:]))
    return said


totals = {}
for seed in range(FIRST, LAST + 1):
    said = compare(seed)
    counts = {**{name: said["sums"][name] for name in ("records", "wrong", "unreadable", "repeated", "by_mark")}, **said["windows"].counts}
    counts["status %d" % said["status"]] = 1
    counts["files refused"] = said["refused"]
    for name, value in counts.items():
        totals[name] = totals.get(name, 0) + value
print("%d runs agree: %s" % (LAST - FIRST + 1, ", ".join("%s %d" % pair for pair in sorted(totals.items()))))
