"""Reads a ledger of either edition by document 01's result 2 and request S-18 alone.

`read_ledger` gives edition, table id and body: the plain body of an edition 1 ledger, the kept body of an
edition 2 ledger. What is a ledger in neither edition is refused by a `Fault` with the papers' numbers:
23, 24, 25, 28 and 26. Refusal 22 is about the buffer and is left to the caller.
"""

from collections import namedtuple

LONGEST = 4096
RAW = 3

# What can be wrong when a plan's length, raw bytes and filler do not go together (28).
FORMS = BELOW, MIXED, TOO_LONG, RAW_SHORT, NOT_RAW, TOO_SHORT = (
    "length below the fields", "raw bytes with filler", "filler too long", "raw length not the plan's",
    "filler where raw bytes would be", "filler too short before the last plan")

# A plan of edition 2: places in the ledger (its start, length, mode, mode fields, filler's count, filler),
# then the mode, the length named, and the numbers of mode bytes and of filler bytes.
Plan = namedtuple("Plan", "start length_at mode_at own_at count_at filler_at mode length own filler")


class Fault(Exception):
    """A refusal of a ledger by number, need and have; 28 also names its form."""

    def __init__(self, number, need, have=0, form=None):
        super().__init__(f"R {number} {need} {have}")
        self.number, self.form = number, form


def misfit(plan, last):
    """The form of 28 if no body has such a plan there, or None. Only the last may end past its data."""
    room = plan.length - 13 - plan.own
    raw_bytes = plan.mode == RAW and plan.own > 0
    if room < 0:
        return BELOW
    if raw_bytes and plan.filler:
        return MIXED
    if plan.filler > room:
        return TOO_LONG
    if raw_bytes and room:
        return RAW_SHORT
    if plan.mode == RAW and plan.filler == room > 0:
        return NOT_RAW
    return TOO_SHORT if plan.filler < room and not last else None


class Reader:
    """Takes fields from the ledger and lays each out in the body.

    The methods from `plan_length` on are S-18's rules. Each is a place where a reader can go astray, and a
    wrong reading is made by overriding one (slips.py).
    """

    def __init__(self, ledger):
        self.ledger, self.edition, self.at = ledger, ledger[2], 4
        self.body, self.held, self.bits = bytearray(), 0, 0
        self.to_come, self.plans = 0, []

    def take(self, size):
        if self.at + size > len(self.ledger):
            raise Fault(23, self.at)
        self.at += size
        return self.ledger[self.at - size:self.at]

    def put(self, width, value):
        self.held, self.bits = self.held << width | value, self.bits + width
        if self.bits % 8 == 0:
            self.body += self.held.to_bytes(self.bits // 8, "big")
            self.held = self.bits = 0

    def count(self):
        """A 2-byte number that the body does not have."""
        return int.from_bytes(self.take(2), "big")

    def field(self, width):
        size, place = 1 if width <= 8 else 2 if width <= 16 else 4 if width <= 32 else 8, self.at
        value = int.from_bytes(self.take(size), "big")
        if value >> width:
            raise Fault(25, place)
        self.put(width, value)
        return value

    def fields(self, *widths):
        for width in widths:
            self.field(width)

    def signed(self, width):
        place = self.at
        value = int.from_bytes(self.take(4), "big", signed=True)
        if not -(1 << width - 1) <= value < 1 << width - 1:
            raise Fault(25, place)
        self.put(width, value % (1 << width))

    def clocks(self, count):
        self.fields(*[33, 6, 9] * count)

    def stamp(self):
        self.fields(8, 7, 9, 32)

    def plan_length(self):
        return self.field(12)

    def is_last(self):
        """By the count in front, not by what is there."""
        return self.to_come == 0

    def misfit(self, plan):
        return misfit(plan, self.is_last())

    def misfit_place(self, plan):
        return plan.filler_at

    def fits(self, plan):
        form = self.misfit(plan)
        if form:
            raise Fault(28, self.misfit_place(plan), form=form)

    def filler(self, plan):
        """The filler's bytes, and only then 28."""
        self.body += self.take(plan.filler)
        self.fits(plan)

    def measured(self):
        """The length for 26: bytes that are there, not lengths that are named."""
        return len(self.body)


def satellite(r):
    r.fields(24, 7)
    if r.field(1):
        r.fields(8, 16, *[32] * 10)
    else:
        r.fields(16, 1, 7)


def fragment(r):
    r.field(32)
    first = r.field(1)
    r.fields(1, 4)
    if first:
        r.signed(18)
        r.field(5)
        r.signed(19)
        r.fields(24, 6)
    r.fields(*[32] * r.field(10))
    for _ in range(2):
        r.field(6)
        for _ in range(r.field(10)):
            r.field(32)
            r.clocks(1)


def association(r):
    r.fields(*([1] * 4 if r.field(4) == 1 else [4]))
    r.clocks(1)
    r.fields(64, 32)


def slots(r):
    r.field(1)
    size = r.field(15)
    r.fields(1, 15)
    place = r.at
    packed = r.take((size + 7) // 8)
    if size % 8 and packed[-1] & 0xFF >> size % 8:
        raise Fault(25, place)
    r.body += packed


def mode_fields(r, mode):
    if mode == 1:
        slots(r)
    elif mode == RAW:
        r.body += r.take(r.count())
    else:
        r.clocks(2 + mode)


def plan(r):
    start = r.at
    r.fields(32, 4)
    length_at = r.at
    length = r.plan_length() if r.edition == 2 else r.put(12, 0)
    begin, mode_at = len(r.body), r.at + 1
    r.field(6)
    mode = r.field(2)
    r.clocks(2)
    own_at = r.at
    mode_fields(r, mode)
    size, count_at = len(r.body) - begin, r.at
    if r.edition == 1:
        r.body[begin - 2] |= size >> 8 & 0x0F
        r.body[begin - 1] = size & 0xFF
        return
    filler = r.count()
    r.plans.append(Plan(start, length_at, mode_at, own_at, count_at, r.at, mode, length, size - 13, filler))
    r.filler(r.plans[-1])


def ephemeris(r):
    r.fields(24, 3)
    metadata, begin, stop, acceleration, covariance = [r.field(1) for _ in range(5)]
    if metadata:
        r.stamp()
        r.stamp()
        r.fields(1, 1, 3, 3)
        for _ in range(begin + stop):
            r.stamp()
    for _ in range(r.field(16)):
        r.stamp()
        r.fields(*[32] * (9 if acceleration else 6))
    if covariance:
        r.stamp()
        r.fields(*[32] * 21)


ENTRIES = {0: satellite, 1: fragment, 3: plan, 4: ephemeris}


def entries(r, one):
    r.to_come = r.count()
    while r.to_come:
        r.to_come -= 1
        one(r)


def opened(ledger, reader=Reader):
    """The reader behind the last field of a ledger without fault."""
    if len(ledger) < 4 or int.from_bytes(ledger[:2], "big") != len(ledger) - 2:
        raise Fault(23, 0)
    if ledger[2] not in (1, 2):
        raise Fault(24, 2)
    r, table_id = reader(ledger), ledger[3]
    if table_id == 4:
        r.fields(4, 4)
        r.stamp()
    if table_id > 4:
        r.body += r.take(len(ledger) - 4)
    elif table_id == 2:
        association(r)
    else:
        entries(r, ENTRIES[table_id])
    if r.at != len(ledger):
        raise Fault(23, r.at)
    if r.measured() > LONGEST:
        raise Fault(26, r.measured(), LONGEST)
    return r


def read_ledger(ledger, reader=Reader):
    """Edition, table id and body of a ledger."""
    r = opened(ledger, reader)
    return r.edition, ledger[3], bytes(r.body)


def answer(ledger, reader=Reader):
    """A line: two digits of the table id and the body, in hexadecimal, or the refusal."""
    try:
        _, table_id, body = read_ledger(ledger, reader)
        return f"{table_id:02x}{body.hex()}"
    except Fault as fault:
        return str(fault)
