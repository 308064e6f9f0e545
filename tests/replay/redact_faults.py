"""Wrong readings of S-31's refusals, and of what is copied whole; those of satellites are in redact_slips.py."""

from moved import BYTES, LONGEST, NUMBER, Fault, Mover, Step, size_of
from without import ACCELERATION, COVARIANCE, FLAGS, LISTED, Copier, Noted, parts_of

PART, PART_BODY = 92, 91


def results(result):
    """Another result for a ledger without fault: `result` is given the copier and the right copy."""
    class OtherResult(Copier):
        def result(self):
            return result(self, super().result())
    return OtherResult


def rooms(too_small, values):
    """Another test of the buffer, or other values of 22: each of the ledger's length, the copy's, and the buffer's."""
    class OtherRoom(Copier):
        def in_room(self, found, room):
            if isinstance(found, Fault) or room is None:
                return found
            sizes = len(self.data), len(found), room
            return Fault(22, *values(*sizes)) if too_small(*sizes) else found
    return OtherRoom


def smaller(ledger, copy, room):
    return room < copy


def right(ledger, copy, room):
    return copy, room


def covered(copier):
    """How many covariances stand in the satellites that were read."""
    if getattr(copier, "table_id", None) != LISTED:
        return 0
    return sum(bool(parts_of(entry).covariance) for entry in copier.entries)


def refused(*numbers):
    raise Fault(*numbers)


class MeasuredOnTheCopy(Copier):
    """26 is of the copy's body."""

    def measured(self):
        return super().measured() - PART_BODY * covered(self)


class NamesTheCopy(Copier):
    """26 names the length of the copy's body."""

    def own_faults(self):
        self.front()
        self.content()
        if self.measured() > LONGEST:
            raise Fault(26, self.measured() - PART_BODY * covered(self), LONGEST)


class Unmeasured(Copier):
    """No 26."""

    def measured(self):
        return min(LONGEST, super().measured())


class UnmeasuredElsewhere(Copier):
    """No 26 under other ids."""

    def measured(self):
        return super().measured() if self.table_id == LISTED else 0


class MeasuredLast(Unmeasured):
    """26 behind 22."""

    def in_room(self, found, room):
        found = super().in_room(found, room)
        size = Mover.measured(self)
        return Fault(26, size, LONGEST) if not isinstance(found, Fault) and size > LONGEST else found


class MeasuredFirst(Copier):
    """26 of the ledger's own bytes, before its fields are read."""

    def content(self):
        if len(self.data) > LONGEST:
            raise Fault(26, len(self.data), LONGEST)
        super().content()


class RoomFirst(Copier):
    """22 in front of the ledger's own faults."""

    def in_room(self, found, room):
        if isinstance(found, Fault) and room is not None and room < len(self.data):
            return Fault(22, len(self.data), room)
        return super().in_room(found, room)


class PlacesOfTheCopy(Copier):
    """Faults are looked for in the copy, where places are lower behind a covariance."""

    def own_faults(self):
        try:
            super().own_faults()
        except Fault as fault:
            if fault.number not in (23, 25) or not covered(self):
                raise
            raise Fault(fault.number, int(str(fault).split()[2]) - PART * covered(self)) from None


class Untested(Noted):
    """What is left out is not tested for its width."""

    def taken(self, step):
        if not self.in_covariance():
            return super().taken(step)
        self.bits += step.size - 8 * size_of(step)
        return super().taken(Step(BYTES, size_of(step)))


class ShortTaken(Noted):
    """What is left out need not be there."""

    def taken(self, step):
        try:
            return super().taken(step)
        except Fault as fault:
            if fault.number != 23 or not self.in_covariance():
                raise
            self.begun.append(0)
            self.at = len(self.data)
            return 0


class OverTaken(Copier):
    """Bytes behind the last satellite are no fault."""

    def content(self):
        try:
            super().content()
        except Fault as fault:
            all_read = len(self.data) > 15 and len(self.entries) == int.from_bytes(self.data[14:16], "big")
            if fault.number != 23 or self.table_id != LISTED or not all_read:
                raise


def flags_read(places, value):
    """These flags are not tested: `value` is asked what a byte of 2 or more is."""
    class AnyFlag(Noted):
        def taken(self, step):
            if self.at_flag() not in places or self.data[self.at:self.at + 1] < b"\2":
                return super().taken(step)
            super().taken(Step(NUMBER, 8))
            self.begun[-1] = value(self.data[self.at - 1])
            return self.begun[-1]
    return AnyFlag


class Unread(Copier):
    """Under other ids no fault but those of the front is looked for."""

    def own_faults(self):
        self.front()
        if self.table_id == LISTED:
            super().own_faults()


class UnreadFront(Copier):
    """Under other ids no fault at all is looked for."""

    def result(self):
        other = len(self.data) > 3 and self.data[3] != LISTED
        return self.data if other else super().result()


class Unfitted(Copier):
    """28 is not asked."""

    def fits(self, p, last):
        pass


class SaysThirty(Copier):
    """Extensions are tested as the reading of bodies tests them."""

    def taken(self, step):
        value = super().taken(step)
        if step == (NUMBER, 9) and self.table_id != LISTED and value > 299:
            raise Fault(30, value, 299)
        return value


class RawToo(Copier):
    """Raw bodies that read as the content of id 4 are copied as such."""

    def result(self):
        found = super().result()
        if self.table_id <= LISTED:
            return found
        try:
            copy = Copier(self.data[:3] + bytes([LISTED]) + self.data[4:]).result()
            return copy[:3] + self.data[3:4] + copy[4:]
        except Fault:
            return found


class HeldWithin(Copier):
    """A raw body that is a ledger is copied in its place."""

    def result(self):
        found = super().result()
        if self.table_id <= LISTED:
            return found
        try:
            inner = Copier(self.data[4:]).result()
            return (len(inner) + 2).to_bytes(2, "big") + self.data[2:4] + inner
        except Fault:
            return found


def other_edition(copier, found):
    return found[:2] + bytes([3 - copier.edition]) + found[3:]


def plans_unfilled(copier, found):
    """Plans of edition 2 without filler, their lengths exact."""
    if copier.table_id != 3 or copier.edition == 1:
        return found
    again = Mover(copier.data, 2)
    again.own_faults()
    return bytes(again.written())


def moved_to(edition):
    """Copies of one edition alone; a plan is refused where it can't be moved there."""
    return results(lambda copier, found: Mover(found, edition).result())


ROOMS = {
    "22 by the ledger's length, naming it": rooms(lambda ledger, copy, room: room < ledger,
                                                  lambda ledger, copy, room: (ledger, room)),
    "22 by the ledger's length, naming the copy's": rooms(lambda ledger, copy, room: room < ledger, right),
    "22 by the copy's length, naming the ledger's": rooms(smaller, lambda ledger, copy, room: (ledger, room)),
    "22 naming what is missing": rooms(smaller, lambda ledger, copy, room: (copy - room, room)),
    "22 with need and have exchanged": rooms(smaller, lambda ledger, copy, room: (room, copy)),
    "22 with 0 for the buffer": rooms(smaller, lambda ledger, copy, room: (copy, 0)),
    "22 a byte early": rooms(lambda ledger, copy, room: room <= copy, right),
    "22 a byte late": rooms(lambda ledger, copy, room: room + 1 < copy, right),
    "22 never": rooms(lambda ledger, copy, room: False, right),
    "22 in front of the ledger's own faults": RoomFirst,
}

FAULTS = {
    "26 of the copy": MeasuredOnTheCopy,
    "26 of the ledger, naming the copy's body": NamesTheCopy,
    "26 never": Unmeasured,
    "26 of the ledger's own bytes": MeasuredFirst,
    "26 not under other ids": UnmeasuredElsewhere,
    "26 behind 22": MeasuredLast,
    "places of faults as in the copy": PlacesOfTheCopy,
    "the covariance not tested for its width": Untested,
    "the covariance need not be there": ShortTaken,
    "bytes over left out": OverTaken,
    "a covariance flag of 2 is one": flags_read([COVARIANCE], lambda byte: 1),
    "a covariance flag of 2 is none": flags_read([COVARIANCE], lambda byte: 0),
    "a covariance flag's lowest bit alone": flags_read([COVARIANCE], lambda byte: byte % 2),
    "an acceleration flag of 2 is one": flags_read([ACCELERATION], lambda byte: 1),
    "any flag of 2 is one": flags_read(FLAGS, lambda byte: 1),
    "other ids unread behind the front": Unread,
    "other ids unread": UnreadFront,
    "28 never": Unfitted,
    "30 for an extension": SaysThirty,
    "other ids refused": results(lambda one, found: found if one.table_id == LISTED else refused(31, one.table_id)),
    "a ledger without covariance refused": results(lambda one, found: found if covered(one) else refused(31, 0)),
    "raw ids refused": results(lambda one, found: found if one.table_id <= LISTED else refused(27, one.table_id)),
}

WHOLE = {
    "raw bodies read as id 4's": RawToo,
    "a ledger in a raw body copied": HeldWithin,
    "all in the other edition": results(other_edition),
    "other ids in the other edition": results(lambda one, found: found if one.table_id == LISTED
                                              else other_edition(one, found)),
    "moved to edition 1": moved_to(1),
    "moved to edition 2": moved_to(2),
    "plans without filler": results(plans_unfilled),
    "nothing under other ids": results(lambda one, found: found if one.table_id == LISTED else b""),
}
