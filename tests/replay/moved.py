"""A ledger in the edition wanted, by request S-19: taken apart into its fields, which are then written again.

Written from document 01's result 2 and requests S-18, S-19 and S-23, without ledgers.py and read.py: convert.py
holds it to these. Each table's fields stand once, as a generator that says what comes next and is told what came.
With the first edition's description a ledger is read, with the other's it is written.
"""

from collections import namedtuple

LONGEST = 4096
RAW = 3

# What comes next: its kind; its size in bits for numbers and slots, in bytes for bytes.
Step = namedtuple("Step", "kind size")
NUMBER, SIGNED, COUNT, BYTES, SLOTS = "number", "signed", "count", "bytes", "slots"
# These are in edition 2 alone.
LENGTH, FILLER_COUNT, FILLER = "plan_length", "filler's count", "filler"

# The length that a plan names, what its fields take behind that length, its number of filler bytes, its mode.
Plan = namedtuple("Plan", "length fields filler mode")


class Fault(Exception):
    """A refusal by number, need and have."""

    def __init__(self, number, need, have=0):
        super().__init__(f"R {number} {need} {have}")
        self.number = number


def numbers(*widths):
    """Unsigned fields; tells the last one's number."""
    value = None
    for width in widths:
        value = yield Step(NUMBER, width)
    return value


def clocks(count):
    yield from numbers(*[33, 6, 9] * count)


def stamps(count):
    yield from numbers(*[8, 7, 9, 32] * count)


def satellite(_):
    system = yield from numbers(24, 7, 1)
    yield from numbers(*([8, 16] + [32] * 10 if system else [16, 1, 7]))


def fragment(_):
    first = yield from numbers(32, 1)
    yield from numbers(1, 4)
    if first:
        yield Step(SIGNED, 18)
        yield from numbers(5)
        yield Step(SIGNED, 19)
        yield from numbers(24, 6)
    count = yield from numbers(10)
    yield from numbers(*[32] * count)
    for _ in range(2):
        count = yield from numbers(6, 10)
        yield from numbers(*[32, 33, 6, 9] * count)


def association():
    kind = yield from numbers(4)
    yield from numbers(*([1] * 4 if kind == 1 else [4]))
    yield from clocks(1)
    yield from numbers(64, 32)


def plan(edition):
    yield from numbers(32, 4)
    if edition == 2:
        yield Step(LENGTH, 12)
    mode = yield from numbers(6, 2)
    yield from clocks(2)
    if mode == 1:
        size = yield from numbers(1, 15)
        yield from numbers(1, 15)
        yield Step(SLOTS, size)
    elif mode == RAW:
        size = yield Step(COUNT, 16)
        yield Step(BYTES, size)
    else:
        yield from clocks(2 if mode == 0 else 4)
    if edition == 2:
        size = yield Step(FILLER_COUNT, 16)
        yield Step(FILLER, size)


def ephemeris(_):
    metadata = yield from numbers(24, 3, 1)
    begin = yield from numbers(1)
    stop = yield from numbers(1)
    acceleration = yield from numbers(1)
    covariance = yield from numbers(1)
    if metadata:
        yield from stamps(2)
        yield from numbers(1, 1, 3, 3)
        yield from stamps(begin + stop)
    count = yield from numbers(16)
    for _ in range(count):
        yield from stamps(1)
        yield from numbers(*[32] * (9 if acceleration else 6))
    if covariance:
        yield from stamps(1)
        yield from numbers(*[32] * 21)


def header():
    yield from numbers(4, 4)
    yield from stamps(1)


ENTRIES = {0: satellite, 1: fragment, 3: plan, 4: ephemeris}


def gone_through(steps, told):
    """Each step with what `told` says of it, which the description is told in turn."""
    found, value = [], None
    try:
        while True:
            step = steps.send(value)
            value = told(step)
            found.append((step, value))
    except StopIteration:
        return found


def size_of(step):
    """The bytes of a step in a ledger."""
    if step.kind in (BYTES, FILLER):
        return step.size
    if step.kind == SLOTS:
        return (step.size + 7) // 8
    return 4 if step.kind == SIGNED else next(size for size in (1, 2, 4, 8) if step.size <= 8 * size)


def bits_of(step):
    """The bits of a step in the body, slots with their padding."""
    if step.kind in (COUNT, FILLER_COUNT):
        return 0
    return 8 * size_of(step) if step.kind in (BYTES, FILLER, SLOTS) else step.size


def is_wide(step, value):
    if step.kind == SLOTS:
        return int.from_bytes(value, "big") % (1 << 8 * len(value) - step.size) != 0
    if step.kind == SIGNED:
        return not -(1 << step.size - 1) <= value < 1 << step.size - 1
    return step.kind in (NUMBER, LENGTH) and value >= 1 << step.size


def shared(entry):
    """What an entry has in both editions."""
    return [value for step, value in entry if step.kind not in (LENGTH, FILLER_COUNT, FILLER)]


def fields_of(entry):
    """The bytes that a plan's fields take in a body behind plan_length, by S-18's 13 + mode bytes."""
    values = shared(entry)
    mode, last = values[3], values[-1]
    return 13 + (12 if mode == 0 else 4 + len(last) if mode == 1 else 24 if mode == 2 else len(last))


def plan_of(entry):
    """A plan of an edition 2 ledger."""
    values = {step.kind: value for step, value in entry}
    return Plan(values[LENGTH], fields_of(entry), len(values[FILLER]), shared(entry)[3])


class Mover:
    """One ledger and the edition wanted. Methods from `own_faults` on are S-19's rules; a wrong reading overrides one
    (convert_slips.py)."""

    def __init__(self, data, wanted):
        self.data, self.wanted, self.at, self.bits = data, wanted, 4, 0
        self.head, self.entries = [], []

    def taken(self, step):
        """A field read: it is there before its value is looked at."""
        place, size = self.at, size_of(step)
        if place + size > len(self.data):
            raise Fault(23, place)
        self.at += size
        value = self.data[place:self.at]
        if step.kind not in (BYTES, FILLER, SLOTS):
            value = int.from_bytes(value, "big", signed=step.kind == SIGNED)
        if is_wide(step, value):
            raise Fault(25, place)
        self.bits += bits_of(step)
        return value

    def front(self):
        if len(self.data) < 4 or int.from_bytes(self.data[:2], "big") + 2 != len(self.data):
            raise Fault(23, 0)
        if self.data[2] not in (1, 2):
            raise Fault(24, 2)
        self.edition, self.table_id = self.data[2:4]

    def content(self):
        """All fields, left to right, and bytes over."""
        if self.table_id > 4:
            self.head = [(Step(BYTES, len(self.data) - 4), self.data[4:])]
            self.at, self.bits = len(self.data), 8 * len(self.data) - 32
        elif self.table_id == 2:
            self.head = gone_through(association(), self.taken)
        else:
            if self.table_id == 4:
                self.head = gone_through(header(), self.taken)
            count = self.taken(Step(COUNT, 16))
            for behind in reversed(range(count)):
                self.entry(behind == 0)
        if self.at < len(self.data):
            raise Fault(23, self.at)

    def entry(self, last):
        self.entries.append(gone_through(ENTRIES[self.table_id](self.edition), self.taken))
        if self.table_id == 3 and self.edition == 1:
            self.bits += 12
        elif self.table_id == 3:
            self.fits(plan_of(self.entries[-1]), last)

    def fits(self, p, last):
        """28, the place being just behind the filler's count."""
        ends = p.fields + p.filler
        raw_bytes = p.mode == RAW and p.fields > 13
        within = ends == p.length and not (p.mode == RAW and p.filler)
        past = ends < p.length and last and not raw_bytes
        if not within and not past:
            raise Fault(28, self.at - p.filler)

    def written(self):
        """The ledger in the edition wanted."""
        out = bytearray([self.wanted, self.table_id])
        for _, value in self.head if self.table_id > 4 else ():
            out += value
        if self.table_id == 2:
            self.write(out, association(), self.head)
        elif self.table_id == 4:
            self.write(out, header(), self.head)
        if self.table_id in ENTRIES:
            out += len(self.entries).to_bytes(2, "big")
        for entry in self.entries:
            self.write(out, ENTRIES[self.table_id](self.wanted), entry)
        return self.length_in_front(out) + out

    def write(self, out, steps, entry):
        """Writes an entry by a description; what is in one edition alone is made, all else is the entry's."""
        values = iter(shared(entry))

        def put(step):
            if step.kind in (LENGTH, FILLER_COUNT, FILLER):
                value = self.made(step, entry)
            else:
                value = next(values)
            if isinstance(value, int):
                out.extend(value.to_bytes(size_of(step), "big", signed=step.kind == SIGNED))
            else:
                out.extend(value)
            return value

        gone_through(steps, put)

    def own_faults(self):
        """The ledger's own faults, as the ledger reader gives them."""
        self.front()
        self.content()
        if self.measured() > LONGEST:
            raise Fault(26, self.measured(), LONGEST)

    def measured(self):
        """The length for 26, of the ledger handed in."""
        return self.bits // 8

    def loses(self, p):
        """Whether edition 1 would not give this plan back: filler, or a length that is not exact."""
        return p.filler > 0 or p.length != p.fields

    def losing(self):
        """The indices of all such plans, where the ledger goes from edition 2 to 1."""
        if self.table_id != 3 or self.edition == 1 or self.wanted == 2:
            return []
        return [i for i, entry in enumerate(self.entries) if self.loses(plan_of(entry))]

    def lost(self, indices):
        """29 for these."""
        return Fault(29, indices[0])

    def made(self, step, entry):
        """An exact length and no filler."""
        return fields_of(entry) if step.kind == LENGTH else 0 if step.kind == FILLER_COUNT else b""

    def length_in_front(self, out):
        return len(out).to_bytes(2, "big")

    def result(self):
        self.own_faults()
        if self.edition == self.wanted:
            return self.data
        losing = self.losing()
        if losing:
            raise self.lost(losing)
        return bytes(self.written())


def moved(data, wanted, mover=Mover):
    """The ledger in the edition wanted, copied if it is there already; or a Fault."""
    return mover(data, wanted).result()


def answer(data, wanted, room=None, mover=Mover):
    """A line: the ledger in hexadecimal, or the refusal, 22 the last."""
    try:
        found = moved(data, wanted, mover)
        if room is not None and len(found) > room:
            raise Fault(22, len(found), room)
        return found.hex()
    except Fault as fault:
        return str(fault)
