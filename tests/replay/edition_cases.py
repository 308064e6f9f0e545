"""Draws cases for the two editions: a table id byte and a body, most of them plans.

Plans come in all modes, with remarks behind their fields, with ends within, at and past the data, too short,
cut, and followed by leftover bytes. Most bodies are short; some have 4,096 bytes or a few more or less. In one
body of eight some clocks have an extension above 299, which S-23 refuses.
"""

import random

from ledgers import RAW

LARGEST, WIDEST = 299, 511


class Draw(random.Random):
    """Draws for one case after the other; what is drawn for extensions changes nothing else of a case."""

    def __init__(self, seed, any_extension=False):
        super().__init__(seed)
        self.side, self.any_extension, self.beyond = random.Random(seed), any_extension, 0

    def next_body(self):
        """Whether the next body may have extensions above 299, and then one clock in how many has."""
        self.beyond = self.side.choice((0, 0, 0, 0, 0, 0, 0, self.side.choice((2, 2, 4, 30))))

    def extension(self, drawn):
        """The extension for one that was drawn as 9 bits: 0 and 299, or 300 and 511, more often than others."""
        if self.any_extension:
            return drawn
        if self.beyond and self.side.randrange(self.beyond) == 0:
            return self.side.choice((LARGEST + 1, WIDEST, self.side.randint(LARGEST + 1, WIDEST)))
        return drawn if drawn <= LARGEST else drawn - (WIDEST - LARGEST)


def number(value):
    return value.to_bytes(2, "big")


def few(draw, most=40):
    """A number from 0 on, small for the most part."""
    return draw.choice((0, 0, 1, 2, 3, draw.randint(0, 8), draw.randint(0, most)))


def content(draw, size):
    """Bytes of any kind, now and then all alike, so that they can look like fields that are 0 or full."""
    kind = draw.randrange(8)
    return bytes(size) if kind == 0 else b"\xff" * size if kind == 1 else draw.randbytes(size)


def clocks(draw, size, first=0, every=6):
    """Content in which clocks of 6 bytes stand from a place on, one in so many bytes."""
    found = bytearray(content(draw, size))
    for end in range(first + 6, size + 1, every):
        last = found[end - 2:end]
        value = int.from_bytes(last, "big")
        found[end - 2:end] = number(value & ~WIDEST | draw.extension(value & WIDEST))
    return found


def bitmap(draw, size=None):
    """A bitmap's fields and slots; padding bits stay as they were drawn in two of three."""
    size = draw.choice((0, 1, 3, 7, 8, 9, 16, few(draw), few(draw, 300))) if size is None else size
    slots = bytearray(content(draw, (size + 7) // 8))
    if size % 8 and draw.randrange(3) == 0:
        slots[-1] &= 0xFF << 8 - size % 8 & 0xFF
    flags = [draw.getrandbits(1) << 15 for _ in range(2)]
    return number(flags[0] | size) + number(flags[1] | draw.getrandbits(15)) + slots


def own_bytes(draw, mode):
    """What a mode has behind the two clocks."""
    if mode == 1:
        return bitmap(draw)
    return content(draw, few(draw)) if mode == RAW else clocks(draw, 12 + 6 * mode)


def laid(draw, mode, behind, length):
    """A plan's bytes; `behind` is all behind its clocks, whatever the length says."""
    identifier = draw.choice((bytes(3) + draw.randbytes(1), draw.randbytes(4)))
    reserved = draw.choice((0, draw.getrandbits(4))), draw.choice((0, draw.getrandbits(6)))
    head = number(reserved[0] << 12 | length) + bytes([reserved[1] << 2 | mode])
    return identifier + head + clocks(draw, 12) + behind


def whole_plan(draw):
    """A plan that ends with its bytes, half of them with a remark."""
    mode = draw.randrange(4)
    behind = own_bytes(draw, mode)
    if mode != RAW and draw.getrandbits(1):
        behind += content(draw, few(draw) + 1)
    return laid(draw, mode, behind, 13 + len(behind))


def open_plan(draw):
    """A plan that ends past its bytes: by one, by some, or as far as a length goes."""
    mode = draw.randrange(4)
    behind = own_bytes(draw, mode)
    if mode != RAW and draw.getrandbits(1):
        behind += content(draw, few(draw) + 1)
    exact = 13 + len(behind)
    length = draw.choice((exact + 1, exact + 1, exact + 2, exact + draw.randint(1, 60), 4095))
    return laid(draw, mode, behind, length)


def short_plan(draw):
    """A plan whose length is below its fields, by one in half of them."""
    mode = draw.randrange(4)
    behind = own_bytes(draw, mode)
    fields = 13 if mode == RAW else 13 + len(behind)
    return laid(draw, mode, behind, draw.choice((fields - 1, draw.randrange(fields))))


def short_body(draw):
    parts = [whole_plan(draw) for _ in range(draw.choice((0, 0, 0, 1, 1, 2, few(draw, 6))))]
    kind = draw.randrange(20)
    if kind < 8:
        parts.append(open_plan(draw))
    elif kind < 17:
        parts += [whole_plan(draw), draw.randbytes(draw.choice((0, 0, draw.randint(1, 5))))]
    elif kind < 18:
        parts.insert(draw.randint(0, len(parts)), short_plan(draw))
    elif kind < 19:
        parts.insert(draw.randint(0, len(parts)), open_plan(draw))
    else:
        parts = [draw.randbytes(draw.randint(0, 8))]
    return b"".join(parts)


def filling_plan(draw, size):
    """A plan of so many bytes: a long remark, many slots or raw bytes, ending with them, before or past them."""
    mode = draw.randrange(4)
    behind = bitmap(draw, min(32767, 8 * (size - 23) - draw.randrange(8))) if mode == 1 else own_bytes(draw, mode)
    behind = (behind + draw.randbytes(size))[:size - 19]
    exact = size - 6
    length = draw.choice((exact, exact, exact + 1, exact - 1, exact - few(draw), 4095))
    return laid(draw, mode, behind, max(0, min(4095, length)))


def long_body(draw):
    """A body of about 4,096 bytes, of one long plan behind a few or of many plans."""
    wanted = draw.choice((4096, 4096, 4096, 4095, 4097, draw.randint(4080, 4096), draw.randint(4097, 4200)))
    body, most = b"", draw.choice((0, 200, wanted - 300))
    while len(body) < most:
        body += whole_plan(draw)
    body = body if wanted - len(body) >= 60 else b""
    return body + filling_plan(draw, wanted - len(body))


def satellites(draw):
    parts = [draw.randbytes(3) + bytes([draw.choice((0, draw.getrandbits(7))) << 1 | system])
             + content(draw, 43 if system else 3) for system in draw.choices((0, 1), k=few(draw, 6))]
    return b"".join(parts) + draw.randbytes(draw.randint(0, 3))


def fragment(draw):
    """One fragment: 15 bytes with a centre, 6 without, each ending with a count of 10 bits; then the lists."""
    first = draw.getrandbits(1)
    head = bytearray(content(draw, 15 if first else 6))
    head[4] = head[4] & 0x7F | first << 7
    parts = [head]
    for size in (4, 10, 10):
        count = draw.choice((0, 0, 1, few(draw, 5)))
        parts[-1][-2:] = number(draw.choice((0, draw.getrandbits(6))) << 10 | count)
        if size == 4 and not first:
            parts[-1][-2] &= 0x7F
        listed = content(draw, 4 * count) if size == 4 else clocks(draw, 10 * count, 4, 10)
        parts += [listed, bytearray(2)]
    return b"".join(parts[:-1])


def fragments(draw):
    return b"".join(fragment(draw) for _ in range(few(draw, 4))) + draw.randbytes(draw.randint(0, 4))


def association(draw):
    kind = draw.choice((0x10, 0x10, 0, draw.getrandbits(4) << 4))
    return bytes([kind | draw.getrandbits(4)]) + clocks(draw, 18, 0, 18) + draw.randbytes(few(draw))


def ephemeris(draw):
    flags = draw.getrandbits(5)
    metadata, begin, stop, acceleration, covariance = [flags >> place & 1 for place in (4, 3, 2, 1, 0)]
    size = metadata * (15 + 7 * (begin + stop))
    count = draw.choice((0, 1, few(draw, 4)))
    head = draw.randbytes(3) + bytes([draw.choice((0, draw.getrandbits(3))) << 5 | flags])
    rest = content(draw, count * (43 if acceleration else 31) + 91 * covariance)
    return head + content(draw, size) + number(count) + rest


def ephemerides(draw):
    parts = [content(draw, 8)] + [ephemeris(draw) for _ in range(few(draw, 3))]
    return b"".join(parts) + draw.randbytes(draw.randint(0, 3))


def raw_body(draw):
    return content(draw, draw.choice((0, few(draw), few(draw, 200), draw.randint(4090, 4098))))


OTHERS = {0: satellites, 1: fragments, 2: association, 4: ephemerides}


def marred(draw, body):
    """The body cut, or with a bit changed."""
    if draw.getrandbits(1):
        return body[:draw.randint(0, len(body))]
    body, place = bytearray(body), draw.randrange(max(1, 8 * len(body)))
    if body:
        body[place // 8] ^= 0x80 >> place % 8
    return bytes(body)


def case(draw):
    """One case as bytes."""
    draw.next_body()
    if draw.randrange(100) < 86:
        table_id, body = 3, long_body(draw) if draw.randrange(50) == 0 else short_body(draw)
    else:
        table_id = draw.choice((0, 1, 2, 4, 5, 255, draw.randint(5, 255)))
        body = OTHERS.get(table_id, raw_body)(draw)
    if draw.randrange(12) == 0:
        body = marred(draw, body)
    return bytes([table_id]) + body


def make(seed, count, any_extension=False):
    """The cases of a seed; with any extension as they were drawn before S-23, evenly over 9 bits."""
    draw = Draw(seed, any_extension)
    for _ in range(count):
        yield case(draw)
