#!/usr/bin/env python3
"""Runs the examples of docs/RULES.md on the shared library: rules.py PAGE LIBRARY PROGRAM.

A block marked session has one call a line, `words -> answer`, with remarks after #. A block marked hex is a sketch file, and the block
marked text after it is what the program prints of it. Prints each line whose answer is another one, and exits 1 if there is any.
"""
import ctypes
import re
import subprocess
import sys

RECORD, DIMENSIONS, FREE = 8, 7, 65535
KINDS = {1: "record", 2: "face", 3: "law"}
ROWS = (13, 14)


def told(word):
    """an answer in words: accepted, or refused with its number and place"""
    number, kind, j, l, cell = word & 255, word >> 8 & 3, word >> 10 & 7, word >> 13 & 7, word >> 16
    if number == 0:
        return "accepted"
    place = {0: "", 1: " cell %d" % cell, 2: " cell %d j %d" % (cell, j), 3: " cell %d j %d l %d" % (cell, j, l)}[kind]
    return "refused %d" % number + (" " + KINDS[kind] if kind else "") + place + (" row %d" % cell if number in ROWS else "")


def without_zeros(numbers):
    """zeros at the end left out, but for the first number"""
    numbers = list(numbers)
    while len(numbers) > 1 and numbers[-1] == 0:
        numbers.pop()
    return " ".join(map(str, numbers))


class Session:
    """One table, and the calls on it by their names on the page; each answers what stands after ->."""

    def __init__(self, library):
        self.kernel = library

    def call(self, name, *rest):
        return getattr(self.kernel, "bt_" + name)(self.words, ctypes.c_size_t(len(self.words)), *rest)

    def lent(self, kind, values):
        values = list(values)
        buffer = (kind * len(values))(*values)
        return buffer, ctypes.c_size_t(len(values))

    def valued(self, name, kind, *rest):
        """a call that writes one value"""
        value = kind(0)
        word = self.call(name, *rest, ctypes.byref(value))
        return told(word) if word else str(value.value)

    def bits(self, cells):
        words = [0] * ((self.n + 63) // 64)
        for c in cells:
            words[c // 64] |= 1 << c % 64
        return words

    def table(self, n):
        self.n = int(n)
        self.words = (ctypes.c_uint16 * (RECORD * self.n))()
        return told(self.call("empty"))

    def put(self, cell, dimension, *faces):
        record = [int(dimension.rstrip(":"))] + [int(f) for f in faces]
        at = RECORD * int(cell)
        self.words[at:at + RECORD] = record + [FREE] * (RECORD - len(record))
        return "accepted"

    def cell(self, cell):
        record = [w for w in self.words[RECORD * int(cell):][:RECORD] if w != FREE]
        return "free" if not record else " ".join(["%d" % record[0] + (":" if record[1:] else "")] + [str(f) for f in record[1:]])

    def audit(self):
        return told(self.call("audit"))

    def cone(self, *cells):
        return self.valued("cone", ctypes.c_uint16, *self.lent(ctypes.c_uint64, self.bits(map(int, cells))))

    def merge(self, a, b):
        return self.valued("merge", ctypes.c_uint16, ctypes.c_uint16(int(a)), ctypes.c_uint16(int(b)))

    def weld(self, a, b):
        return self.valued("weld", ctypes.c_uint16, ctypes.c_uint16(int(a)), ctypes.c_uint16(int(b)))

    def compact(self):
        new, length = self.lent(ctypes.c_uint16, [0] * self.n)
        word = self.call("compact", new, length)
        return told(word) if word else " ".join("-" if x == FREE else str(x) for x in new)

    def incidence(self, cell, face):
        return self.valued("incidence", ctypes.c_int64, ctypes.c_uint16(int(cell)), ctypes.c_uint16(int(face)))

    def boundary(self, dimension, *terms):
        chain = [0] * self.n
        for term in terms:
            cell, coefficient = term.split(":")
            chain[int(cell)] = int(coefficient)
        result, length = self.lent(ctypes.c_int64, [0] * self.n)
        word = self.call("boundary", *self.lent(ctypes.c_int64, chain), ctypes.c_uint16(int(dimension)), result, length)
        return told(word) if word else " ".join("%d:%d" % (c, x) for c, x in enumerate(result) if x)

    def imported(self, *lines):
        text = ("\n".join(" ".join(lines).split(" / ")) + "\n").encode()
        buffer = (ctypes.c_uint8 * len(text)).from_buffer_copy(text)
        return told(self.call("import", buffer, ctypes.c_size_t(len(text))))

    def corner(self, cell, k):
        return self.valued("corner", ctypes.c_uint16, ctypes.c_uint16(int(cell)), ctypes.c_uint16(int(k)))

    def sheet(self):
        return {"0": "no", "1": "yes"}[self.valued("sheet", ctypes.c_uint8)]

    def made(self):
        """the reducer's evidence and its additions"""
        evidence, length = self.lent(ctypes.c_uint64, self.bits([]) * self.n)
        additions = (ctypes.c_uint64 * DIMENSIONS)()
        return self.call("reduce", evidence, length, additions), evidence, additions

    def reduce(self):
        word, _, additions = self.made()
        return told(word) if word else without_zeros(additions)

    def counted(self, evidence):
        cells, holes = (ctypes.c_uint16 * DIMENSIONS)(), (ctypes.c_uint16 * DIMENSIONS)()
        word = self.call("check", evidence, ctypes.c_size_t(len(evidence)), cells, holes)
        return told(word) if word else without_zeros(holes)

    def check(self, *rows):
        sets = re.findall(r"\{([^}]*)\}", " ".join(rows))
        return self.counted(self.lent(ctypes.c_uint64, sum((self.bits(map(int, row.split())) for row in sets), []))[0])

    def holes(self):
        return self.counted(self.made()[1])


def run_session(library, lines):
    """how many lines were run, and what differs"""
    session, wrong, count = Session(library), [], 0
    for line in lines:
        words, arrow, expected = line.split("#")[0].partition("->")
        if not words.strip():
            continue
        name, *rest = words.split()
        got = getattr(session, "imported" if name == "import" else name)(*rest)
        count += 1
        if got.split() != (expected.split() if arrow else ["accepted"]):
            wrong.append("%s: answers %s" % (line.split("#")[0].strip(), got))
    return count, wrong


def main():
    page, library, program = open(sys.argv[1], encoding="utf-8").read(), ctypes.CDLL(sys.argv[2]), sys.argv[3]
    count, wrong, printed = 0, [], None
    for kind, text in re.findall(r"^```(\w+)\n(.*?)^```$", page, re.M | re.S):
        if kind == "session":
            ran, differ = run_session(library, text.splitlines())
            count, wrong = count + ran, wrong + differ
        elif kind == "hex":
            file = bytes.fromhex(re.sub(r"#.*", "", text))
            printed = subprocess.run([program], input=file, stdout=subprocess.PIPE, check=True).stdout.decode()
            count += 1
            if "these %d bytes" % len(file) not in page:
                wrong.append("the file has %d bytes" % len(file))
        elif kind == "text" and printed is not None:
            wrong += [] if printed == text else ["the program prints %r" % printed]
    for line in wrong:
        print("rules: " + line)
    print("rules: %d lines, %d differences" % (count, len(wrong)))
    return 1 if wrong or count == 0 else 0


if __name__ == "__main__":
    sys.exit(main())
