"""A ledger without covariance, by request S-31: taken apart into its fields, of which the others are written again.

Written from document 01's result 2 and S-31. The ledger is taken apart by moved.py, which has its own faults too;
redact.py holds the copy to another way, by the body, that has no step in common with this one.
"""

from collections import namedtuple

from moved import COUNT, Fault, Mover, Step, size_of

LISTED = 4

# A satellite's fields, a step and a value each: those in front of its covariance flag, the flag, the metadata, the
# count of ephemeris entries with these, and the covariance.
Parts = namedtuple("Parts", "front flag metadata ephemeris covariance")
# Where these flags stand among the values: metadata, usable start, usable stop, acceleration, covariance.
FLAGS = METADATA, BEGIN, STOP, ACCELERATION, COVARIANCE = range(2, 7)
STAMP = 4


def count_place(values):
    """Which of a satellite's fields is the count of ephemeris entries."""
    return COVARIANCE + 1 + values[METADATA] * (2 * STAMP + 4 + STAMP * (values[BEGIN] + values[STOP]))


def covariance_place(values):
    """Which of a satellite's fields is the first of the covariance, or would be."""
    at = count_place(values)
    return at + 1 + values[at] * (STAMP + (9 if values[ACCELERATION] else 6))


def parts_of(satellite):
    values = [value for _, value in satellite]
    count, end = count_place(values), covariance_place(values)
    return Parts(satellite[:COVARIANCE], satellite[COVARIANCE], satellite[COVARIANCE + 1:count], satellite[count:end],
                 satellite[end:])


def laid(fields):
    """The bytes of fields."""
    return b"".join(value if isinstance(value, bytes) else value.to_bytes(size_of(step), "big")
                    for step, value in fields)


class Copier(Mover):
    """One ledger. The methods are S-31's rules; a wrong reading overrides one (redact_slips.py)."""

    def __init__(self, data):
        super().__init__(data, None)

    def flag(self, flag):
        """The covariance flag: 0."""
        return flag[0], 0

    def kept(self, parts):
        """The fields of a satellite in the copy: the covariance is gone."""
        return [*parts.front, self.flag(parts.flag), *parts.metadata, *parts.ephemeris]

    def satellites(self):
        """The fields of each, all of them without covariance."""
        return [self.kept(parts_of(entry)) for entry in self.entries]

    def named(self):
        """The copy's edition and table id: the ledger's."""
        return self.edition, self.table_id

    def copied(self):
        """The copy of a ledger of id 4."""
        count = [(Step(COUNT, 16), len(self.entries))]
        out = bytes(self.named()) + laid(self.head) + laid(count) + b"".join(map(laid, self.satellites()))
        return self.length_in_front(out) + out

    def result(self):
        """The ledger's own faults come first; under other ids it is copied unaltered."""
        self.own_faults()
        return self.copied() if self.table_id == LISTED else self.data

    def in_room(self, found, room):
        """What a buffer of so many bytes gets: a fault as it is, 22 last of all, or the copy. None is room enough."""
        if isinstance(found, Fault) or room is None or len(found) <= room:
            return found
        return Fault(22, len(found), room)


class Noted(Copier):
    """Also keeps the values of the satellite that is being read, which tell where a fault lies."""

    def __init__(self, data):
        super().__init__(data)
        self.begun = None

    def entry(self, last):
        self.begun = []
        super().entry(last)
        self.begun = None

    def taken(self, step):
        value = super().taken(step)
        if self.begun is not None:
            self.begun.append(value)
        return value

    def in_satellite(self):
        return self.begun is not None and self.table_id == LISTED

    def at_flag(self):
        """Which of the flags comes next, or None."""
        return len(self.begun) if self.in_satellite() and len(self.begun) in FLAGS else None

    def in_covariance(self):
        """Whether a field of a covariance comes next."""
        v = self.begun
        if not self.in_satellite() or len(v) <= COVARIANCE or not v[COVARIANCE] or len(v) <= count_place(v):
            return False
        return len(v) >= covariance_place(v)


def copied(data, copier=Copier):
    """What a call gives: for a buffer of so many bytes a line, the copy in hexadecimal or the refusal."""
    one = copier(data)
    try:
        found = one.result()
    except Fault as fault:
        found = fault

    def line(room=None):
        given = one.in_room(found, room)
        return given.hex() if isinstance(given, bytes) else str(given)

    return line


def answer(data, room=None, copier=Copier):
    return copied(data, copier)(room)


def answers(data, rooms, copier=Copier):
    return list(map(copied(data, copier), rooms))
