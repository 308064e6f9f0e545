"""Wrong readings of S-19, each the right one with one rule changed.

A list of ledgers on which a slip gives the right answers would not show that mistake (convert.py --check).
"""

from moved import FILLER_COUNT, LENGTH, LONGEST, NUMBER, RAW, Fault, Mover, fields_of, plan_of, shared, size_of


def told_as(of_indices):
    """29 with other values."""
    class OtherValues(Mover):
        def lost(self, indices):
            return Fault(29, *of_indices(self, indices))
    return OtherValues


def losing_if(loses):
    """29 for other plans."""
    class OtherPlans(Mover):
        def loses(self, p):
            return loses(p)
    return OtherPlans


def lengths_of(made):
    """Another plan_length on the way to edition 2."""
    class OtherLength(Mover):
        def made(self, step, entry):
            return made(entry) if step.kind == LENGTH else super().made(step, entry)
    return OtherLength


def plan_place(mover, indices):
    """Where in the ledger the first such plan stands."""
    return 6 + sum(size_of(step) for entry in mover.entries[:indices[0]] for step, _ in entry), 0


def by_ledger_bytes(entry):
    """The bytes behind the first reserved field as the ledger has them, a clock with 11 of them."""
    return sum(size_of(step) for step, _ in entry[2:])


def by_whole_slots(entry):
    """Without the last byte of slots if that is not full."""
    values = shared(entry)
    return fields_of(entry) - (values[3] == 1 and values[11] % 8 > 0)


class MeasuredOnTheResult(Mover):
    """26 is of the body that the result would give, so without filler on the way to edition 1."""

    def measured(self):
        fillers = sum(plan_of(entry).filler for entry in self.entries) if self.goes_down() else 0
        return super().measured() - fillers

    def goes_down(self):
        return self.table_id == 3 and self.edition == 2 and self.wanted == 1


class BehindLost(Mover):
    """26 is of the ledger that came, but behind 29."""

    def measured(self):
        if self.losing():
            raise self.lost(self.losing())
        return super().measured()


class CopiedUnread(Mover):
    """A ledger in the edition wanted is copied as it is."""

    def result(self):
        return self.data if self.data[2:3] == bytes([self.wanted]) else super().result()


class CopiedByItsFront(Mover):
    """The same once length and version are tested."""

    def content(self):
        if self.edition != self.wanted:
            super().content()


class CopiedUnmeasured(Mover):
    """A ledger in the edition wanted is not measured for 26."""

    def measured(self):
        return 0 if self.edition == self.wanted else super().measured()


class Unmeasured(Mover):
    """No 26 at all."""

    def measured(self):
        return min(LONGEST, super().measured())


class MetOnTheWay(Mover):
    """29 where such a plan is met, before the faults behind it."""

    def entry(self, last):
        super().entry(last)
        if self.losing():
            raise self.lost(self.losing())


class AnyWay(Mover):
    """29 whatever edition is wanted."""

    def result(self):
        self.own_faults()
        losing = [i for i, entry in enumerate(self.entries) if self.has_lengths() and self.loses(plan_of(entry))]
        if losing:
            raise self.lost(losing)
        return Mover(self.data, self.wanted).result()

    def has_lengths(self):
        return self.table_id == 3 and self.edition == 2


class WrittenAnew(Mover):
    """A ledger in the edition wanted is written anew, its plans exact and without filler."""

    def result(self):
        self.own_faults()
        if self.edition != self.wanted and self.losing():
            raise self.lost(self.losing())
        return bytes(self.written())


class Unfitted(Mover):
    """28 is not asked where edition 1 is wanted."""

    def fits(self, p, last):
        if self.wanted == 2:
            super().fits(p, last)


class NoFillerCount(Mover):
    """No filler, so not its number either."""

    def made(self, step, entry):
        return b"" if step.kind == FILLER_COUNT else super().made(step, entry)


class OldLengthInFront(Mover):
    """The length in front as it came."""

    def length_in_front(self, out):
        return self.data[:2]


class VersionOfPlans(Mover):
    """The version byte is another under id 3 alone."""

    def written(self):
        out = bytearray(super().written())
        out[2] = self.wanted if self.table_id == 3 else self.edition
        return out


class SaysThirty(Mover):
    """Extensions are tested as the reading of bodies tests them."""

    def taken(self, step):
        value = super().taken(step)
        if step == (NUMBER, 9) and self.table_id != 4 and value > 299:
            raise Fault(30, value, 299)
        return value


SLIPS = {
    "29 counted from 1": told_as(lambda _, indices: (indices[0] + 1,)),
    "29 of the last such plan": told_as(lambda _, indices: (indices[-1],)),
    "29 with the number of such plans": told_as(lambda _, indices: (len(indices),)),
    "29 with the plan's id": told_as(lambda mover, indices: (mover.entries[indices[0]][0][1],)),
    "29 with the plan's place": told_as(plan_place),
    "29 with need and have exchanged": told_as(lambda _, indices: (0, indices[0])),
    "29 with the index alone twice": told_as(lambda _, indices: (indices[0], indices[0])),
    "29 never, filler dropped": losing_if(lambda p: False),
    "29 for the length alone, filler taken in": losing_if(lambda p: p.length != p.fields + p.filler),
    "29 for filler alone": losing_if(lambda p: p.filler > 0),
    "29 not for raw plans past the data": losing_if(lambda p: p.filler > 0 or p.mode != RAW and p.length != p.fields),
    "29 not for raw plans": losing_if(lambda p: p.mode != RAW and p.length != p.fields),
    "29 for all raw plans": losing_if(lambda p: p.mode == RAW or p.length != p.fields),
    "29 before the faults behind the plan": MetOnTheWay,
    "29 in edition 2 too": AnyWay,
    "26 of the result": MeasuredOnTheResult,
    "26 behind 29": BehindLost,
    "26 not in the edition wanted": CopiedUnmeasured,
    "26 never": Unmeasured,
    "28 not on the way to edition 1": Unfitted,
    "30 for an extension": SaysThirty,
    "copied unread": CopiedUnread,
    "copied once the front is tested": CopiedByItsFront,
    "written anew in the edition wanted": WrittenAnew,
    "lengths without the 13 bytes": lengths_of(lambda entry: fields_of(entry) - 13),
    "lengths of the whole plan": lengths_of(lambda entry: fields_of(entry) + 6),
    "lengths of 0": lengths_of(lambda entry: 0),
    "lengths in 8 bits": lengths_of(lambda entry: fields_of(entry) % 256),
    "lengths as the ledger's bytes": lengths_of(by_ledger_bytes),
    "lengths with full bytes of slots alone": lengths_of(by_whole_slots),
    "lengths with the number of raw bytes": lengths_of(lambda e: fields_of(e) + 2 * (shared(e)[3] == RAW)),
    "no number of filler bytes": NoFillerCount,
    "the length in front as it came": OldLengthInFront,
    "the version byte under id 3 alone": VersionOfPlans,
}
