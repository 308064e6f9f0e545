#!/usr/bin/env python3
"""Reads a body by document 01's text alone and gives its output line, without the Rust.

Use: read.py --check [SEED COUNT]             the replay list, and COUNT fresh cases of SEED
     read.py --lines < CASES                  each case's ledger in edition 1, or its refusal
     read.py --split WITHIN BEYOND < CASES    writes those that 30 refuses to BEYOND, the others to WITHIN

A second opinion on the oracle: the two share no code, so a line on which they differ is either
a fault of one of them or a place where document 01 and the Rust part.

`ledger` writes either edition (request S-18), and `body_as` gives the plain body or the kept body
from the body's own bits. The Rust knows edition 1 alone; edition 2 is held by editions.py.

The Rust does not know request S-23 either, by which an extension above 299 is refused (30). `Before` reads
as it was before that: so the Rust reads every case. What is read now is the same, or 30.
"""

import os
import sys

sys.dont_write_bytecode = True
sys.path.insert(0, os.path.dirname(os.path.abspath(__file__)))
from oracle import oracle, stored  # noqa: E402


LARGEST = 299
BY_30 = "R 30 "


class Refused(Exception):
    def __init__(self, number, need, have):
        super().__init__(f"R {number} {need} {have}")


class Body:
    """The bits of a body from a place on, and the ledger bytes written so far.

    Also noted: place and width of padding, the bytes of each plan from its start to its filler, and of each
    clock its kind, the place behind its extension, and the extension.
    """

    def __init__(self, data, edition=1):
        self.end, self.place, self.out = 8 * len(data), 0, bytearray()
        self.data, self.whole = data, int.from_bytes(data, "big")
        self.edition, self.padding, self.plans, self.met = edition, [], [], []

    def left(self):
        return max(0, self.end - self.place)

    def wants(self, number, bits):
        if self.left() < bits:
            raise Refused(number, bits, self.left())

    def take(self, width):
        """Bits of the body that are not copied to the ledger."""
        self.place += width
        if self.place > self.end:
            raise Refused(1, self.place, self.end)
        return self.whole >> self.end - self.place & (1 << width) - 1

    def field(self, width):
        value = self.take(width)
        size = 1 if width <= 8 else 2 if width <= 16 else 4 if width <= 32 else 8
        self.out += value.to_bytes(size, "big")
        return value

    def fields(self, *widths):
        for width in widths:
            self.field(width)

    def signed(self, width):
        value = self.take(width)
        value -= (value >> width - 1) << width
        self.out += value.to_bytes(4, "big", signed=True)

    def counted(self, part):
        """Bytes behind their 2-byte number."""
        self.out += len(part).to_bytes(2, "big") + part

    def clock(self, kind):
        self.fields(33, 6)
        extension = self.field(9)
        self.met.append((kind, self.place, extension))
        self.extension(kind, extension)

    def extension(self, kind, value):
        """S-23, right behind the extension. Wrong readings override this (extensions.py)."""
        if value > LARGEST:
            raise Refused(30, value, LARGEST)

    def clocks(self, *kinds):
        for kind in kinds:
            self.clock(kind)

    def stamp(self):
        self.fields(8, 7, 9, 32)


class Before(Body):
    """The reading before S-23: an extension is any number of 9 bits."""

    def extension(self, kind, value):
        pass


def satellite(b):
    b.fields(24, 7)
    if b.field(1):
        b.wants(4, 344)
        b.fields(8, 16, *[32] * 10)
    else:
        b.wants(3, 24)
        b.fields(16, 1, 7)


def fragment(b):
    b.field(32)
    first = b.field(1)
    b.field(1)
    if first:
        b.wants(5, 76)
        b.field(4)
        b.signed(18)
        b.field(5)
        b.signed(19)
        b.fields(24, 6)
    else:
        b.field(4)
    count = b.field(10)
    b.wants(6, count * 32)
    b.fields(*[32] * count)
    for number, name in ((7, "new"), (8, "obsolescent")):
        b.field(6)
        count = b.field(10)
        b.wants(number, count * 80)
        for i in range(count):
            b.field(32)
            b.clock(f"{name} system, {'later' if i else 'first'}")


def association(b):
    b.wants(9, 152)
    b.fields(*([1] * 4 if b.field(4) == 1 else [4]))
    b.clock("ncr")
    b.fields(64, 32)


def bitmap(b):
    b.wants(11, 32)
    b.field(1)
    size = b.field(15)
    b.fields(1, 15)
    b.wants(12, size)
    padding = -size % 8
    slots = b.take(size) << padding
    b.out += slots.to_bytes((size + padding) // 8, "big")
    b.padding.append((b.place, padding))
    b.take(padding)


def plan(b):
    start = b.place // 8
    b.fields(32, 4)
    end = 8 * (b.field(12) if b.edition == 2 else b.take(12))
    end += b.place
    b.field(6)
    mode = b.field(2)
    b.clocks(f"application, mode {mode}", f"cycle, mode {mode}")
    if mode == 0:
        b.wants(10, 96)
        b.clocks("dwell", "on time")
    elif mode == 1:
        bitmap(b)
    elif mode == 2:
        b.wants(13, 192)
        b.clocks("grid", "revisit", "sleep time", "sleep duration")
    else:
        raw = b.data[b.place // 8:end // 8] if end <= b.end else b""
        b.counted(raw)
        b.place += 8 * len(raw)
    if b.place > end:
        raise Refused(14, b.place - end, 0)
    b.plans.append((start, b.place // 8))
    if b.edition == 2:
        b.counted(b.data[b.place // 8:end // 8])
    b.place = end


def ephemeris(b):
    b.fields(24, 3)
    metadata, begin, stop, acceleration, covariance = [b.field(1) for _ in range(5)]
    if metadata:
        b.wants(16, 120)
        b.stamp()
        b.stamp()
        b.fields(1, 1, 3, 3)
        for number, flag in ((17, begin), (18, stop)):
            if flag:
                b.wants(number, 56)
                b.stamp()
    for _ in range(b.field(16)):
        b.wants(19, 344 if acceleration else 248)
        b.stamp()
        b.fields(*[32] * (9 if acceleration else 6))
    if covariance:
        b.wants(20, 728)
        b.stamp()
        b.fields(*[32] * 21)


ENTRIES = {0: (32, satellite), 1: (34, fragment), 3: (48, plan), 4: (32, ephemeris)}


def entries(b, least, one):
    """Entries while enough bits remain, with their number in front."""
    count, at = 0, len(b.out)
    while b.left() >= least:
        one(b)
        count += 1
    b.out[at:at] = count.to_bytes(2, "big")


def read_all(b, table_id):
    if len(b.data) > 4096:
        raise Refused(21, len(b.data), 4096)
    if not b.data and table_id in (2, 4):
        raise Refused(2, 1, 0)
    if table_id > 4:
        b.out += b.data
    elif table_id == 2:
        association(b)
    else:
        if table_id == 4:
            b.wants(15, 64)
            b.fields(4, 4)
            b.stamp()
        entries(b, *ENTRIES[table_id])


def reading(table_id, data, edition=1, body=Body):
    """The body after its last entry, with the fields' ledger bytes."""
    b = body(data, edition)
    read_all(b, table_id)
    return b


def clocks_met(table_id, data):
    """Kind, place behind the extension, and extension of each clock that the reading before S-23 came to."""
    b = Before(data)
    try:
        read_all(b, table_id)
    except Refused:
        pass
    return b.met


def ledger(table_id, data, edition=1, body=Body):
    rest = bytes([edition, table_id]) + reading(table_id, data, edition, body).out
    return len(rest).to_bytes(2, "big") + rest


def exact(body, start, end):
    """A plan that ends with its own fields, under the length that it then has."""
    length = end - start - 6
    lengths = bytes([body[start + 4] & 0xF0 | length >> 8, length & 0xFF])
    return body[start:start + 4] + lengths + body[start + 6:end]


def body_as(table_id, data, edition, body=Body):
    """The plain body (edition 1) or the kept body (edition 2) of an accepted body.

    Kept is the body itself without what stands behind the last entry, and padding 0; the plain body has
    of each plan there the part before its filler. No ledger is read for it.
    """
    b = reading(table_id, data, edition, body)
    if table_id > 4:
        return data
    bits = b.whole
    for place, width in b.padding:
        bits &= ~(((1 << width) - 1) << b.end - place - width)
    kept = bits.to_bytes(len(data), "big")[:b.place // 8]
    if table_id != 3 or edition == 2:
        return kept
    return b"".join(exact(kept, *span) for span in b.plans)


def whole(case, body=Body):
    """The output line of a case given as bytes, of any length."""
    if not case:
        return "no input"
    try:
        return ledger(case[0], case[1:], 1, body).hex()
    except Refused as refused:
        return str(refused)


def line(case, body=Body):
    """The same for a case in hexadecimal, of which the program takes 4,098 bytes."""
    return whole(bytes.fromhex(case)[:4098], body)


def first_beyond(case):
    """Kind and value of the first extension above 299 that the reading before S-23 came to, or None."""
    case = bytes.fromhex(case)
    found = clocks_met(case[0], case[1:]) if case else []
    return next(((kind, value) for kind, _, value in found if value > LARGEST), None)


def now_of(case, before):
    """The line that S-23 makes of the one before: 30 exactly if the reading came to such an extension."""
    found = first_beyond(case)
    return f"{BY_30}{found[1]} {LARGEST}" if found else before


def check(name, cases, lines, rust=None):
    """The lines as they are now, beside those before; these are the Rust's, if it was asked."""
    wrong = []
    for i, (case, given) in enumerate(zip(cases, lines)):
        before = line(case, Before)
        if given != line(case) or given != now_of(case, before) or rust and rust[i] != before:
            wrong.append(i)
    if not len(cases) == len(lines) == len(rust or lines):
        wrong.append(len(lines))
    for i in wrong[:10]:
        print(f"{name}, case {i + 1}: {cases[i][:60]}")
    refused = sum(given.startswith(BY_30) for given in lines)
    print(f"{name}: {len(cases)} cases, {refused} refused by 30 and all others read as before S-23"
          f"{', which is as the Rust reads all' if rust else ''}, {len(wrong)} differences")
    return len(wrong)


def check_all(numbers):
    wrong = check("replay list", stored("bodies.txt"), stored("ledgers.txt"))
    if numbers:
        cases = oracle("gen", *numbers)
        rust = oracle("ledger", lines=cases)
        wrong += check("fresh cases", cases, list(map(line, cases)), rust)
    sys.exit(1 if wrong else 0)


def split(within, beyond):
    """Each case of standard input to one of two files."""
    counts = [0, 0]
    with open(within, "w", encoding="ascii") as first, open(beyond, "w", encoding="ascii") as second:
        for case in map(str.strip, sys.stdin):
            refused = whole(bytes.fromhex(case)).startswith(BY_30)
            counts[refused] += 1
            print(case, file=(first, second)[refused])
    print(f"{sum(counts)} cases, {counts[1]} of them refused by 30")


def main():
    command, *rest = sys.argv[1:] or [None]
    if command == "--check" and len(rest) in (0, 2):
        check_all(rest)
    elif command == "--lines" and not rest:
        for case in map(str.strip, sys.stdin):
            print(whole(bytes.fromhex(case)))
    elif command == "--split" and len(rest) == 2:
        split(*rest)
    else:
        sys.exit(__doc__)


if __name__ == "__main__":
    main()
