# docs/ROM.md by other means, held against tools/rom.c: drawn images in every form and by every option, both ways, and damaged ones.
#
#     python3 tests/tools/rom_model.py ROM FOLDER SEED COUNT
#
# ROM is the program, FOLDER takes the files. An image is drawn as a table, options and a form; the model writes it in one of the many ways
# that the form has, `rom read` has to find the table, and `rom write` an image in which the model finds the same bytes. Then the file is
# damaged: `rom read` has to refuse it where the model does, and to find the same table where the model does not.
# Status 0: nothing differed. The last line has the numbers of images, of damaged ones, and of those that were refused.
import os
import random
import re
import subprocess
import sys

SIZE = 2048
ENDS = {"hex": ".hex", "bytes": ".bin", "c": ".h", "numbers": ".txt", "verilog": ".mem"}


class Refused(Exception):
    """The page calls this an error."""


# ---- From a file to the bytes of the ROM


def placed(pairs, offset):
    """The bytes in order, of pairs of an address and a byte."""
    pairs = list(pairs)
    found = dict(pairs)
    if len(found) != len(pairs) or sorted(found) != list(range(offset, offset + SIZE)):
        raise Refused
    return [found[offset + i] for i in range(SIZE)]


def hex_pairs(data):
    lines = [line[:-1] if line.endswith(b"\r") else line for line in data.split(b"\n")]
    lines = [line for line in lines if line]
    upper = 0
    for number, line in enumerate(lines):
        if not re.fullmatch(rb":([0-9A-Fa-f]{2})+", line):
            raise Refused
        record = bytes.fromhex(line[1:].decode())
        if len(record) < 5 or len(record) != record[0] + 5 or sum(record) % 256:
            raise Refused
        address, kind, held = record[1] * 256 + record[2], record[3], record[4:-1]
        value = int.from_bytes(held, "big")
        if kind == 0:
            if address + len(held) > 65536:
                raise Refused
            yield from ((upper + address + i, byte) for i, byte in enumerate(held))
        elif kind == 1 and not held:
            if number + 1 != len(lines):
                raise Refused
            return
        elif kind in (2, 4) and len(held) == 2:
            upper = value * (16 if kind == 2 else 65536)
        elif not (kind in (3, 5) and len(held) == 4):
            raise Refused
    raise Refused


def uncommented(data):
    """The text with a blank for each comment."""
    text = data.decode("latin-1")
    text = re.sub(r"/\*.*?\*/|//[^\n]*", " ", text, flags=re.S)
    if "/*" in text:
        raise Refused
    return text


def number(word):
    if not re.fullmatch(r"-?(0|[1-9][0-9]*|0[xX][0-9A-Fa-f]+)", word):
        raise Refused
    value = int(word, 0)
    if not -128 <= value <= 255:
        raise Refused
    return value % 256


BLANK = " \t\r\n\v\f"


def listed(text, parted):
    """The numbers of a list; parted: a comma stands between each two."""
    text = text.strip(BLANK)
    if text.endswith(","):
        text = text[:-1].strip(BLANK)
    if not text:
        return []
    words = re.split(f"[{BLANK}]*,[{BLANK}]*" if parted else f"[{BLANK}]*,[{BLANK}]*|[{BLANK}]+", text)
    return [number(word) for word in words]


def array(data):
    whole = re.fullmatch(r"[^{]*\{([^}]*)\}[ \t\r\n\v\f]*;?[ \t\r\n\v\f]*", uncommented(data))
    if not whole:
        raise Refused
    return listed(whole.group(1), True)


def verilog_pairs(data):
    address = 0
    for word in re.split(f"[{BLANK}]+", uncommented(data).strip(BLANK)):
        if re.fullmatch(r"@[0-9A-Fa-f]+", word) and int(word[1:], 16) < 2**32:
            address = int(word[1:], 16)
        elif re.fullmatch(r"[0-9A-Fa-f]{1,2}", word):
            yield address, int(word, 16)
            address += 1
        elif word:
            raise Refused


def image_of(form, data, offset=0):
    if form == "hex":
        return placed(hex_pairs(data), offset)
    if form == "verilog":
        return placed(verilog_pairs(data), offset)
    if form == "bytes":
        return placed(enumerate(data), 0)
    return placed(enumerate(array(data) if form == "c" else listed(uncommented(data), False)), 0)


# ---- The options


def table_of(image, halves, mask, base):
    table = [((byte & mask) - base + 2) % (mask + 1) for byte in image]
    return [table[i ^ 64] for i in range(SIZE)] if halves else table


def stored(table, halves, mask, base):
    table = [table[i ^ 64] for i in range(SIZE)] if halves else table
    return [(byte - 2 + base) % (mask + 1) | 255 & ~mask for byte in table]


# ---- From bytes to a file, in one of many ways


def record(kind, address, held):
    body = bytes([len(held), address >> 8 & 255, address & 255, kind]) + bytes(held)
    text = (body + bytes([-sum(body) % 256])).hex()
    return ":" + random.choice([text, text.upper()])


def drawn_hex(image, offset):
    """Runs of drawn length, by one kind of upper address or the other, and sometimes out of order."""
    runs, at = [], 0
    longest = random.choice([1, 16, 32, 255])
    while at < SIZE:
        address = offset + at
        size = min(random.randint(1, longest), SIZE - at, 65536 - address % 65536)
        runs.append((address, image[at : at + size]))
        at += size
    if random.random() < 0.3:
        random.shuffle(runs)
    lines, upper = [], 0
    for address, held in runs:
        wanted = address & ~0xFFFF
        segments = address < 2**20 and random.random() < 0.1
        if segments:
            wanted = (address & ~0xF) - 16 * random.randint(0, min(address >> 4, 9))
            if address - wanted + len(held) > 65536:
                wanted = address & ~0xF
            lines.append(record(2, 0, (wanted >> 4 & 0xFFFF).to_bytes(2, "big")))
            wanted = (wanted >> 4 & 0xFFFF) << 4
        elif wanted != upper:
            lines.append(record(4, 0, (wanted >> 16).to_bytes(2, "big")))
        upper = wanted
        lines.append(record(0, address - upper, held))
    if random.random() < 0.2:
        lines.insert(random.randint(0, len(lines)), record(random.choice([3, 5]), 0, b"\0\0\1\2"))
    lines.append(record(1, 0, b""))
    end = random.choice(["\n", "\r\n", "\n\n"])
    return (end.join(lines) + random.choice(["", end])).encode()


def blank():
    return random.choice([" ", "  ", "\n", "\t", "\r\n", " /* {3, 4} */ ", " // 5, 6\n", "/*\n*/", "/*/*/"])


def drawn_number(byte):
    forms = [str(byte), hex(byte), "0X%X" % byte] + ([str(byte - 256)] if byte >= 128 else [])
    return random.choice(forms)


def drawn_array(image):
    head = random.choice(["", "const unsigned char t[2048] =", "/* { */ static int x[] = // {\n"])
    inside = ("," + random.choice([" ", "", "\n"])).join(map(drawn_number, image))
    return (head + blank() + "{" + blank() + inside + random.choice(["", ",", " , "]) + "}" + random.choice(["", ";", " ;\n"])).encode()


def drawn_numbers(image):
    return (blank() + "".join(drawn_number(byte) + random.choice([",", " ", ", ", blank()]) for byte in image)).encode()


def drawn_verilog(image, offset):
    """Runs, sometimes out of order; where they are in order from address 0 on, without an address."""
    runs, at = [], 0
    longest = random.choice([16, 100, SIZE])
    while at < SIZE:
        size = random.randint(1, longest)
        runs.append((at, image[at : at + size]))
        at += size
    plain = offset == 0 and random.random() < 0.5
    if not plain:
        random.shuffle(runs)
    text = ""
    for at, held in runs:
        text += "" if plain else "@%x%s" % (offset + at, blank())
        text += "".join(random.choice(["%x", "%02x", "%02X"]) % byte + blank() for byte in held)
    return text.encode()


def drawn_file(form, image, offset):
    if form == "hex":
        return drawn_hex(image, offset)
    if form == "verilog":
        return drawn_verilog(image, offset)
    return {"bytes": bytes, "c": drawn_array, "numbers": drawn_numbers}[form](image)


def damaged(data):
    """One of the ways in which a file is damaged."""
    at = random.randrange(len(data))
    lines = data.split(b"\n")
    i, k = random.randrange(len(lines)), random.randrange(len(lines))
    ways = [
        data[:at],
        data[:at] + data[at + 1 :],
        data[:at] + bytes([random.choice(b"0123456789abcdef:@,{};/*- \n\r\0\xffxz_.")]) + data[at + 1 :],
        data[:at] + bytes([random.choice(b"0123456789abcdef:@,{};/*- \n\r")]) + data[at:],
        b"\n".join(lines[:i] + lines[i + 1 :]),
        b"\n".join(lines[:i] + [lines[k]] + lines[i:]),
        b"\n".join(lines[:i] + [lines[k]] + lines[i + 1 :]),
        data + bytes([random.choice(b"0123456789abcdef:@,{};/*- \n\r")]),
        data + data,
    ]
    return random.choice(ways)


# ---- The comparison


def main():
    rom, folder, seed, count = sys.argv[1], sys.argv[2], int(sys.argv[3]), int(sys.argv[4])
    random.seed(seed)
    tried = refused = 0

    def fail(what, words):
        print(f"rom_model: {what}: {' '.join(words)}")
        sys.exit(1)

    def run(*words):
        told = subprocess.run([rom, *words], stdout=subprocess.PIPE, stderr=subprocess.PIPE)
        if told.stdout or told.returncode not in (0, 2) or (told.returncode == 2 and not told.stderr):
            fail(f"status {told.returncode}, {told.stdout!r}, {told.stderr!r}", words)
        return told.returncode

    def put(name, data):
        with open(name, "wb") as file:
            file.write(data)

    def got(name):
        with open(name, "rb") as file:
            return file.read()

    for turn in range(count):
        form = random.choice(list(ENDS))
        halves, mask = random.random() < 0.5, random.choice([255, 255, 7, 15, 31, 63, 127])
        base = random.choice([2, 2, 0, random.randint(0, mask)])
        offset = random.choice([0, 0, 2048, 65535, random.randrange(2**20), 2**32 - SIZE]) if form in ("hex", "verilog") else 0
        table = [random.randint(0, 4 if turn % 3 else mask) for _ in range(SIZE)]
        words = ["--halves"] * halves + (["--mask", str(mask)] if mask != 255 else []) + (["--base", str(base)] if base != 2 else [])
        words += ["--offset", random.choice(["%d", "0x%x"]) % offset] if offset else []
        here = os.path.join(folder, "drawn" + ENDS[form])
        there = os.path.join(folder, "found.table")

        image = stored(table, halves, mask, base)
        if table_of(image, halves, mask, base) != table:
            fail("the model does not go back", words)
        data = drawn_file(form, image, offset)
        put(here, data)
        if run("read", *words, here, there) != 0 or list(got(there)) != table:
            fail("another table is read", words + [here])
        put(there, bytes(table))
        if run("write", *words, there, here) != 0 or image_of(form, got(here), offset) != image:
            fail("another image is written", words + [here])
        tried += 1

        for _ in range(2):
            hurt = damaged(data)
            try:
                wanted = table_of(image_of(form, hurt, offset), halves, mask, base)
            except Refused:
                wanted = None
            put(here, hurt)
            os.remove(there) if os.path.exists(there) else None
            status = run("read", *words, here, there)
            if (status == 0) != (wanted is not None) or os.path.exists(there) != (status == 0):
                fail("a damaged image is refused by one and not by the other", words + [here])
            if wanted is not None and list(got(there)) != wanted:
                fail("another table is read from a damaged image", words + [here])
            refused += wanted is None
    print(f"{tried} images both ways, {2 * tried} damaged ones, {refused} of them refused")


main()
