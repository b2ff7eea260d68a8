#!/usr/bin/env python3
"""A second model of the sheet format, written from docs/SHEET.md and not from the program.

    model.py                  reads a sheet from the standard input and prints the verdict
    model.py --random N SEED  prints N random cases, each a verdict, a tab and the escaped text
    model.py --table FILE     compares the verdicts of a table with the model's, and exits 1 where one differs
"""

import random
import re
import sys

COUNTS = {b"F": 16, b"L": 8, b"P": 2}
NUMBER = rb"(0|[1-9][0-9]{0,9})"
HEAD = re.compile(rb"([FLPDT]) " + NUMBER)
PAIR = re.compile(NUMBER + rb" " + NUMBER)
SINGLE = re.compile(NUMBER)


class Refused(Exception):
    pass


def verdict(data):
    try:
        return "accepted %d %d %d %d" % read(data)
    except Refused as refusal:
        return "refused %d %d" % refusal.args


def read(data):
    if len(data) > 256:
        raise Refused(1, 0)
    # what is not ended by a line feed is no line
    lines = data.split(b"\n")
    unended = lines.pop()
    place = 0

    def line(pattern, letters=None):
        nonlocal place
        place += 1
        if place > len(lines):
            raise Refused(2, place)
        match = pattern.fullmatch(lines[place - 1])
        if match is None or (letters is not None and match.group(1) not in letters):
            raise Refused(2, place)
        return match.groups()

    def in_range(low, text, high):
        if not low <= int(text) <= high:
            raise Refused(3, place)
        return int(text)

    def count(letter):
        return in_range(0, line(HEAD, [letter])[1], COUNTS[letter])

    flows = count(b"F")
    for _ in range(flows):
        weight, longest = line(PAIR)
        in_range(1, weight, 100)
        in_range(1, longest, 2048)
    lanes = count(b"L")
    for _ in range(lanes):
        in_range(1, line(SINGLE)[0], 32)
    slots, threshold, last = 1, 0, b""
    for _ in range(count(b"P")):
        letter, text = line(HEAD, [b"D", b"T"])
        if letter <= last:
            raise Refused(5, place)
        last = letter
        if letter == b"D":
            slots = in_range(1, text, 32)
        else:
            threshold = in_range(0, text, 1000000000)
    if place < len(lines) or unended:
        raise Refused(4, place + 1)
    return flows, lanes, slots, threshold


def escape(data):
    plain = {10: "\\n", 13: "\\r", 9: "\\t", 92: "\\\\"}
    return "".join(plain.get(b) or (chr(b) if 32 <= b < 127 else "\\x%02x" % b) for b in data)


def unescape(text):
    named = {"n": 10, "r": 13, "t": 9, "\\": 92}
    out, i = bytearray(), 0
    while i < len(text):
        if text[i] != "\\":
            out.append(ord(text[i]))
            i += 1
        elif text[i + 1] == "x":
            out.append(int(text[i + 2 : i + 4], 16))
            i += 4
        else:
            out.append(named[text[i + 1]])
            i += 2
    return bytes(out)


def table(path):
    with open(path, encoding="ascii") as lines:
        for number, line in enumerate(lines, 1):
            if line.strip() and not line.startswith("#"):
                want, text = line.rstrip("\n").split("\t")
                yield number, want, unescape(text)


def random_number(rng, low, high):
    return rng.choice([low, high, low - 1, high + 1, rng.randint(low, high), 2**32, 2**32 + low, 10**10 - 1, 10**10]
                      if rng.random() < 0.08 else [low, high, rng.randint(low, high)])


def random_sheet(rng):
    flows, lanes, params = rng.randint(0, 4), rng.randint(0, 4), rng.randint(0, 2)
    if rng.random() < 0.1:
        flows = random_number(rng, 0, 16)
    if rng.random() < 0.1:
        lanes = random_number(rng, 0, 8)
    lines = ["F %d" % flows]
    lines += ["%d %d" % (random_number(rng, 1, 100), random_number(rng, 1, 2048)) for _ in range(min(flows, 17))]
    lines += ["L %d" % lanes]
    lines += ["%d" % random_number(rng, 1, 32) for _ in range(min(lanes, 9))]
    letters = rng.choice(["DT", "DT", "DT", "TD", "DD", "TT"])[:params] if params == 2 else rng.choice("DT") * params
    lines += ["P %d" % params]
    lines += ["%s %d" % (x, random_number(rng, 1, 32) if x == "D" else random_number(rng, 0, 10**9)) for x in letters]
    return bytearray("".join(x + "\n" for x in lines), "ascii")


def random_case(rng):
    data = random_sheet(rng)
    for _ in range(rng.choice([0, 0, 0, 1, 1, 2])):
        i = rng.randint(0, len(data))
        what = rng.random()
        if what < 0.3:
            data[i:i + 1] = b""
        elif what < 0.6:
            data.insert(i, rng.choice(b"\n\n  0159FLPDT-+\r\t\x00\xff"))
        elif what < 0.9:
            data[i:i + 1] = bytes([rng.choice(b"\n 0159FLPDTflpdt.\r\t\x00\x80") if rng.random() < 0.9 else rng.randrange(256)])
        else:
            data[i:] = b""
    if rng.random() < 0.03:
        data += b"x" * (rng.choice([256, 257, 300]) - min(len(data), 256))
    return bytes(data)


def main(words):
    if words[:1] == ["--random"]:
        rng = random.Random(int(words[2]))
        for _ in range(int(words[1])):
            data = random_case(rng)
            print(verdict(data) + "\t" + escape(data))
    elif words[:1] == ["--table"]:
        wrong = [(n, w, verdict(d)) for n, w, d in table(words[1]) if verdict(d) != w]
        for number, want, got in wrong:
            print("%s:%d: the table has '%s', and the model '%s'" % (words[1], number, want, got))
        return 1 if wrong else 0
    else:
        print(verdict(sys.stdin.buffer.read()))
    return 0


if __name__ == "__main__":
    sys.exit(main(sys.argv[1:]))
