"""Wrong readings of S-18 and S-23, each the right one with one rule changed.

SLIPS read ledgers, BODY_SLIPS read bodies. A list of ledgers or bodies on which a slip gives the right answers
would not show that mistake (editions.py --check).
"""

from ledgers import BELOW, MIXED, NOT_RAW, RAW_SHORT, Fault, Reader, misfit
from read import LARGEST, Body, Refused


class FillerNotCounted(Reader):
    """26 measures the fields without the filler."""

    def measured(self):
        return len(self.body) - sum(plan.filler for plan in self.plans)


class NamedLengthCounted(Reader):
    """26 measures a last plan by the length that it names."""

    def measured(self):
        return len(self.body) + sum(plan.length - 13 - plan.own - plan.filler for plan in self.plans)


class PlaceBeforeCount(Reader):
    """28 returns the place of the filler's count."""

    def misfit_place(self, plan):
        return plan.count_at


class PlaceOfLength(Reader):
    """28 returns the place of plan_length if that is too small."""

    def misfit_place(self, plan):
        return plan.length_at if self.misfit(plan) == BELOW else plan.filler_at


class AnyPastTheData(Reader):
    """A plan before the last may end past the data too."""

    def is_last(self):
        return True


class NonePastTheData(Reader):
    """The last plan has to end with its bytes as well."""

    def is_last(self):
        return False


class LastPresent(Reader):
    """The last plan is the one behind which nothing stands, whatever the count says."""

    def is_last(self):
        return self.at == len(self.ledger)


class WideLength(Reader):
    """plan_length takes all 16 bits of its two bytes."""

    def plan_length(self):
        value = self.count()
        self.put(12, value & 0xFFF)
        return value


def by_other_modes(form):
    """The rule of this form left out: the raw bytes count as any mode's fields."""
    class RawRuleLeftOut(Reader):
        def misfit(self, plan):
            found = super().misfit(plan)
            return misfit(plan._replace(mode=0), self.is_last()) if found == form else found
    return RawRuleLeftOut


class TooShortLengthAllowed(Reader):
    """plan_length below the fields is let pass."""

    def misfit(self, plan):
        found = super().misfit(plan)
        return None if found == BELOW else found


class BeforeTheFiller(Reader):
    """28 is tested before the filler is there."""

    def filler(self, plan):
        self.fits(plan)
        self.body += self.take(plan.filler)


class AfterAllPlans(Reader):
    """28 is tested when all plans are read and no bytes are over."""

    late = None

    def fits(self, plan):
        try:
            super().fits(plan)
        except Fault as fault:
            self.late = self.late or fault

    def measured(self):
        if self.late:
            raise self.late
        return super().measured()


class Unheld(Reader):
    """Neither 28 nor 26: lays out the body that the fields name, if there is one or not."""

    def misfit(self, plan):
        return None

    def measured(self):
        return 0


class RefusesByThirty(Reader):
    """The ledger reader tests extensions as the reading of bodies does."""

    def clocks(self, count):
        for _ in range(count):
            self.fields(33, 6)
            extension = self.field(9)
            if extension > LARGEST:
                raise Fault(30, extension, LARGEST)


SLIPS = {
    "filler not counted for 26": FillerNotCounted,
    "named length counted for 26": NamedLengthCounted,
    "place of 28 before the count": PlaceBeforeCount,
    "place of 28 at plan_length": PlaceOfLength,
    "a plan in the middle may end past the data": AnyPastTheData,
    "no plan may end past the data": NonePastTheData,
    "last plan by what is there": LastPresent,
    "plan_length of 16 bits": WideLength,
    "raw bytes with filler accepted": by_other_modes(MIXED),
    "raw bytes up to the data's end accepted": by_other_modes(RAW_SHORT),
    "filler for raw bytes accepted": by_other_modes(NOT_RAW),
    "length below the fields accepted": TooShortLengthAllowed,
    "28 before the filler is there": BeforeTheFiller,
    "28 after all plans": AfterAllPlans,
    "30 from the ledger reader": RefusesByThirty,
}


def up_to(largest):
    """Another largest extension."""
    class OtherLargest(Body):
        def extension(self, kind, value):
            if value > largest:
                raise Refused(30, value, LARGEST)
    return OtherLargest


def untested(*kinds):
    """Clocks of these kinds left out."""
    class Untested(Body):
        def extension(self, kind, value):
            if kind not in kinds:
                super().extension(kind, value)
    return Untested


class BeforeTheSize(Body):
    """The clocks of a group, where they are there, before the group's size."""

    groups = {7: (32, 80), 8: (32, 80), 9: (8, 152), 10: (0, 48), 13: (0, 48)}

    def wants(self, number, bits):
        start, every = self.groups.get(number, (0, 0))
        place = self.place
        for at in range(place + start, place + bits, every) if every else ():
            if at + 48 <= self.end:
                self.extension("", self.whole >> self.end - at - 48 & 511)
        super().wants(number, bits)


class WithTheNextField(Body):
    """30 only when the next field is there as well."""

    kept = None

    def extension(self, kind, value):
        if value > LARGEST and self.kept is None:
            self.kept = value

    def take(self, width):
        kept, value = self.kept, super().take(width)
        if kept is not None:
            super().extension("", kept)
        return value


class ReservedToo(Body):
    """The reserved bits counted as part of the extension."""

    def extension(self, kind, value):
        super().extension(kind, self.whole >> self.end - self.place & 0x7FFF)


class Swapped(Body):
    """Need and have exchanged."""

    def extension(self, kind, value):
        if value > LARGEST:
            raise Refused(30, LARGEST, value)


KINDS = ["ncr", "dwell", "on time", "grid", "revisit", "sleep time", "sleep duration"]
KINDS += [f"{name} system, {which}" for name in ("new", "obsolescent") for which in ("first", "later")]
KINDS += [f"{name}, mode {mode}" for name in ("application", "cycle") for mode in range(4)]

BODY_SLIPS = {
    "300 accepted": up_to(300),
    "299 refused": up_to(298),
    "30 before the group's size": BeforeTheSize,
    "30 with the next field": WithTheNextField,
    "reserved bits in the extension": ReservedToo,
    "need and have exchanged": Swapped,
    "only the first new system tested": untested("new system, later"),
    "obsolescent systems untested": untested("obsolescent system, first", "obsolescent system, later"),
    **{f"untested: {kind}": untested(kind) for kind in KINDS},
}
