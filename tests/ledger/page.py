#!/usr/bin/env python3
"""A reader of ledgers of both editions, written from docs/LEDGER.md alone, and a maker of damaged ledgers.

Use: page.py read < LEDGERS          one line of hexadecimal each; prints the table id and the body (the plain one from
                                     edition 1, the kept one from edition 2), or 'R number need have'
     page.py without < LEDGERS       the same of their copies without covariance, of which the body is laid out at once
     page.py damage SEED < LEDGERS   prints each ledger several times over, damaged in one place or two
"""

import random
import sys

WHOLE = {8: 1, 16: 2, 32: 4, 64: 8}


class Refused(Exception):
    pass


def size_of(width):
    return next(size for bits, size in WHOLE.items() if width <= bits)


class Page:
    """Goes through a ledger field by field and keeps the bits of the body as texts of 0 and 1.

    If it is asked to be bare, covariances are not among these, and their flags are 0.
    """

    def __init__(self, ledger, bare=False):
        self.ledger, self.at, self.bits = ledger, 4, []
        self.edition = ledger[2]
        self.in_last_entry, self.bare = False, bare

    def chunk(self, size):
        if len(self.ledger) - self.at < size:
            raise Refused(23, self.at, 0)
        part = self.ledger[self.at:self.at + size]
        self.at += size
        return part

    def lay(self, width, number):
        self.bits.append(format(number, f"0{width}b"))

    def u(self, *widths):
        """Unsigned fields; the last one's number."""
        number = 0
        for width in widths:
            place = self.at
            number = int.from_bytes(self.chunk(size_of(width)), "big")
            if number >= 1 << width:
                raise Refused(25, place, 0)
            self.lay(width, number)
        return number

    def s(self, width):
        place = self.at
        number = int.from_bytes(self.chunk(4), "big", signed=True)
        if not -(1 << width - 1) <= number < 1 << width - 1:
            raise Refused(25, place, 0)
        self.lay(width, number % (1 << width))

    def number(self):
        return int.from_bytes(self.chunk(2), "big")

    def counted_bytes(self):
        """Raw bytes or filler behind their number, which is no field of the body; the place of the first byte."""
        size = self.number()
        place = self.at
        for byte in self.chunk(size):
            self.lay(8, byte)
        return place

    def bytes_since(self, mark):
        """How many bytes of the body were laid out since self.bits had mark texts."""
        return sum(map(len, self.bits[mark:])) // 8

    def clock(self, times=1):
        for _ in range(times):
            self.u(33, 6, 9)

    def stamp(self, times=1):
        for _ in range(times):
            self.u(8, 7, 9, 32)

    # --- entries

    def entry_0(self):
        self.u(24, 7)
        if self.u(1) == 0:
            self.u(16, 1, 7)
        else:
            self.u(8, 16, *[32] * 10)

    def entry_1(self):
        self.u(32)
        first = self.u(1)
        self.u(1, 4)
        if first == 1:
            self.s(18)
            self.u(5)
            self.s(19)
            self.u(24, 6)
        for _ in range(self.u(10)):
            self.u(32)
        for _ in range(2):
            self.u(6)
            for _ in range(self.u(10)):
                self.u(32)
                self.clock()

    def sole_2(self):
        if self.u(4) == 1:
            self.u(1, 1, 1, 1)
        else:
            self.u(4)
        self.clock()
        self.u(64, 32)

    def slots(self, size):
        place = self.at
        packed = self.chunk((size + 7) // 8)
        text = "".join(format(byte, "08b") for byte in packed)
        if "1" in text[size:]:
            raise Refused(25, place, 0)
        self.bits.append(text)

    def mode_fields(self, mode):
        if mode == 0:
            self.clock(2)
        elif mode == 1:
            self.u(1)
            size = self.u(15)
            self.u(1, 15)
            self.slots(size)
        elif mode == 2:
            self.clock(4)
        else:
            self.counted_bytes()

    def filler(self, plan_length, mode, mark):
        """The filler of a plan whose part behind plan_length starts at mark; refused if no body has such a plan."""
        without_filler = self.bytes_since(mark)
        place = self.counted_bytes()
        there = self.bytes_since(mark)
        # raw bytes go up to the plan's end, so that none is left to be filler
        ends_within = there == plan_length and (mode != 3 or there == without_filler)
        # a plan of mode 3 that ends past the body's end has no raw bytes: 13 bytes stand in front of its filler
        ends_past = there < plan_length and self.in_last_entry and (mode != 3 or without_filler == 13)
        if not ends_within and not ends_past:
            raise Refused(28, place, 0)

    def entry_3(self):
        self.u(32, 4)
        # edition 1 has no such field: there the plan's own length is put in below, when the plan is laid out
        plan_length = self.u(12) if self.edition == 2 else None
        mark = len(self.bits)
        self.u(6)
        mode = self.u(2)
        self.clock(2)
        self.mode_fields(mode)
        if self.edition == 2:
            self.filler(plan_length, mode, mark)
        else:
            # a length of more than 12 bits only stands in a body that is over 4,096 bytes
            self.bits.insert(mark, format(self.bytes_since(mark), "b").zfill(12)[-12:])

    def entry_4(self):
        self.u(24, 3)
        meta, start, stop, accel, cov = (self.u(1) for _ in range(5))
        self.bits[-1] = "0" if self.bare else self.bits[-1]
        if meta == 1:
            self.stamp(2)
            self.u(1, 1, 3, 3)
            self.stamp(start + stop)
        for _ in range(self.u(16)):
            self.stamp()
            self.u(*[32] * (9 if accel else 6))
        mark = len(self.bits)
        if cov == 1:
            self.stamp()
            self.u(*[32] * 21)
        if self.bare:
            del self.bits[mark:]

    def content(self, table_id):
        if table_id == 2:
            self.sole_2()
        else:
            if table_id == 4:
                self.u(4, 4)
                self.stamp()
            entry = {0: self.entry_0, 1: self.entry_1, 3: self.entry_3, 4: self.entry_4}[table_id]
            entries = self.number()
            for index in range(entries):
                # the number of entries alone makes an entry the last, whether or not bytes follow
                self.in_last_entry = index == entries - 1
                entry()
        if self.at < len(self.ledger):
            raise Refused(23, self.at, 0)
        text = "".join(self.bits)
        return bytes(int(text[i:i + 8], 2) for i in range(0, len(text), 8))


def read(ledger):
    if len(ledger) < 4 or int.from_bytes(ledger[:2], "big") != len(ledger) - 2:
        raise Refused(23, 0, 0)
    if ledger[2] not in (1, 2):
        raise Refused(24, 2, 0)
    table_id = ledger[3]
    body = ledger[4:] if table_id > 4 else Page(ledger).content(table_id)
    if len(body) > 4096:
        raise Refused(26, len(body), 4096)
    return f"{table_id:02x}{body.hex()}"


def without(ledger):
    """The same of the copy without covariance: the faults are the ledger's own, and so is the body under other ids."""
    line = read(ledger)
    return f"04{Page(ledger, bare=True).content(4).hex()}" if ledger[3] == 4 else line


def answer(ledger, reading=read):
    try:
        return reading(ledger)
    except Refused as fault:
        return "R %d %d %d" % fault.args


def framed(ledger):
    """The same bytes with the length in front put right."""
    return (len(ledger) - 2).to_bytes(2, "big") + ledger[2:] if len(ledger) >= 2 else ledger


def damaged(rng, ledger):
    """Some ways to spoil a ledger: a byte changed, bytes cut or added, another id; mostly with the length put right."""
    way = rng.randrange(6)
    place = rng.randrange(len(ledger))
    if way == 0:
        spoilt = ledger[:place] + bytes([rng.randrange(256)]) + ledger[place + 1:]
    elif way == 1:
        spoilt = ledger[:place] + bytes([ledger[place] ^ 1 << rng.randrange(8)]) + ledger[place + 1:]
    elif way == 2:
        spoilt = framed(ledger[:place])
    elif way == 3:
        spoilt = framed(ledger + rng.randbytes(rng.randrange(1, 4)))
    elif way == 4:
        spoilt = framed(ledger[:place] + ledger[place + 1:])
    else:
        spoilt = framed(ledger[:3] + bytes([rng.randrange(6)]) + ledger[4:])
    return spoilt


def main():
    lines = (bytes.fromhex(line.strip()) for line in sys.stdin if not line.startswith(("R", "n")))
    readings = {"read": read, "without": without}
    if len(sys.argv) == 2 and sys.argv[1] in readings:
        for ledger in lines:
            print(answer(ledger, readings[sys.argv[1]]))
    elif len(sys.argv) == 3 and sys.argv[1] == "damage":
        rng = random.Random(int(sys.argv[2]))
        for ledger in lines:
            for _ in range(3):
                print(damaged(rng, ledger).hex())
    else:
        sys.exit(__doc__)


main()
