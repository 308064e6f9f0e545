"""Wrong readings of S-31, each the right one with one rule changed.

A list of ledgers on which a slip gives the right answers, in every buffer, would not show that mistake
(redact.py --check).
"""

from moved import BYTES, COUNT, Step
from redact_faults import FAULTS, PART, PART_BODY, ROOMS, WHOLE, covered, results
from without import ACCELERATION, BEGIN, FLAGS, LISTED, METADATA, STAMP, STOP, Copier, laid, parts_of


def off(flag):
    return flag[0], 0


def on(flag):
    return flag[0], 1


def keeping(kept):
    """Other fields of each satellite."""
    class OtherFields(Copier):
        def kept(self, p):
            return kept(p)
    return OtherFields


def ending(more):
    """The flag 0, and other fields behind the metadata."""
    return keeping(lambda p: [*p.front, off(p.flag), *p.metadata, *more(p)])


def fronted(front):
    """Other fields in front of the covariance flag."""
    return keeping(lambda p: [*front(p), off(p.flag), *p.metadata, *p.ephemeris])


def zeroed(*places):
    """These flags are 0 as well."""
    return fronted(lambda p: [(step, 0 if i in places else value) for i, (step, value) in enumerate(p.front)])


def cut_at(start):
    """The bytes of a covariance are cut out at another place of those behind the metadata."""
    def more(p):
        text, at = laid(p.ephemeris + p.covariance), start(p)
        left = text[:at] + text[at + PART:] if p.covariance else text
        return [(Step(BYTES, len(left)), left)]
    return ending(more)


def entries_of(p, size):
    """Where the covariance would be if each ephemeris entry had so many bytes."""
    return 2 + size * p.ephemeris[0][1]


def chosen(takes):
    """The covariances of some satellites alone: `takes` is asked with the index, their number, and the parts."""
    class Some(Copier):
        def satellites(self):
            parts = [parts_of(entry) for entry in self.entries]
            return [self.kept(p) if takes(i, len(parts), p) else entry
                    for i, (p, entry) in enumerate(zip(parts, self.entries))]
    return Some


def filtered(stays):
    """Some satellites alone, without covariance."""
    class Fewer(Copier):
        def own_faults(self):
            super().own_faults()
            if self.table_id == LISTED:
                self.entries = [entry for entry in self.entries if stays(parts_of(entry))]
    return Fewer


def fronts(length):
    """Another length in front of the copy."""
    class OtherLength(Copier):
        def length_in_front(self, out):
            return length(self, len(out)).to_bytes(2, "big")
    return OtherLength


def named(names):
    """Another edition or table id in the copy of a ledger of id 4."""
    class OtherNames(Copier):
        def named(self):
            return names(self.edition, self.table_id)
    return OtherNames


class NextCut(Copier):
    """One value too many: the id of the satellite behind a covariance."""

    def satellites(self):
        found, cut = [], False
        for entry in self.entries:
            p = parts_of(entry)
            found.append(self.kept(p)[1:] if cut else self.kept(p))
            cut = bool(p.covariance)
        return found


class EndCut(Copier):
    """So many bytes as the covariances have, from the ledger's end."""

    def copied(self):
        parts = [parts_of(entry) for entry in self.entries]
        whole = laid(self.head) + laid([(Step(COUNT, 16), len(parts))])
        whole += b"".join(laid([*p.front, off(p.flag), *p.metadata, *p.ephemeris, *p.covariance]) for p in parts)
        whole = whole[:len(whole) - PART * sum(bool(p.covariance) for p in parts)]
        out = bytes(self.named()) + whole
        return self.length_in_front(out) + out


FIELDS = {
    "the flag kept": keeping(lambda p: [*p.front, p.flag, *p.metadata, *p.ephemeris]),
    "the flag 1 for all": keeping(lambda p: [*p.front, on(p.flag), *p.metadata, *p.ephemeris]),
    "the flag turned": keeping(lambda p: [*p.front, (p.flag[0], 1 - p.flag[1]), *p.metadata, *p.ephemeris]),
    "the flag's byte gone": keeping(lambda p: [*p.front, *p.metadata, *p.ephemeris]),
    "the flag 0, the covariance kept": ending(lambda p: p.ephemeris + p.covariance),
    "the acceleration's flag 0, not the covariance's": keeping(
        lambda p: [*p.front[:-1], off(p.front[-1]), p.flag, *p.metadata, *p.ephemeris]),
    "the metadata's flag 0 too": zeroed(METADATA),
    "the usable start's flag 0 too": zeroed(BEGIN),
    "the usable stop's flag 0 too": zeroed(STOP),
    "the acceleration's flag 0 too": zeroed(ACCELERATION),
    "all five flags 0": zeroed(*FLAGS),
    "the reserved bits 0 too": zeroed(1),
    "flags of usable times without metadata 0 too": fronted(lambda p: [
        (step, 0 if i in (BEGIN, STOP) and not p.front[METADATA][1] else v) for i, (step, v) in enumerate(p.front)]),
    "the epoch kept": ending(lambda p: p.ephemeris + p.covariance[:STAMP]),
    "the epoch's year kept": ending(lambda p: p.ephemeris + p.covariance[:1]),
    "the 21 values kept": ending(lambda p: p.ephemeris + p.covariance[STAMP:]),
    "the last value kept": ending(lambda p: p.ephemeris + p.covariance[-1:]),
    "the epoch zeroed, not cut": ending(lambda p: p.ephemeris + [(step, 0) for step, _ in p.covariance[:STAMP]]),
    "the covariance zeroed, not cut": ending(lambda p: p.ephemeris + [(step, 0) for step, _ in p.covariance]),
    "one value too many, in front": ending(lambda p: p.ephemeris[:-1] if p.covariance else p.ephemeris),
    "one value too many, behind": NextCut,
    "the ephemeris entries gone too": ending(lambda p: [off(p.ephemeris[0])] if p.covariance else p.ephemeris),
    "the metadata gone too": keeping(lambda p: [*p.front, off(p.flag), *([] if p.covariance else p.metadata),
                                                *p.ephemeris]),
    "the usable times gone too": keeping(lambda p: [*p.front, off(p.flag), *p.metadata[:12], *p.ephemeris]),
}

PLACES = {
    "cut in front of the ephemeris entries' count": cut_at(lambda p: 0),
    "cut behind that count": cut_at(lambda p: 2),
    "cut in front of the metadata": keeping(lambda p: [
        *p.front, off(p.flag), (Step(BYTES, 0), laid([*p.metadata, *p.ephemeris, *p.covariance])[
            PART if p.covariance else 0:])]),
    "cut behind the first ephemeris entry": cut_at(
        lambda p: 2 + min(1, p.ephemeris[0][1]) * (44 if p.front[ACCELERATION][1] else 32)),
    "cut from the ledger's end": EndCut,
    "cut by entries of six values": cut_at(lambda p: entries_of(p, 32)),
    "cut by entries of nine values": cut_at(lambda p: entries_of(p, 44)),
    "cut a byte early": cut_at(lambda p: len(laid(p.ephemeris)) - 1),
    "cut a byte late": cut_at(lambda p: len(laid(p.ephemeris)) + 1),
}

SATELLITES = {
    "the first satellite's alone": chosen(lambda i, n, p: i == 0),
    "the last satellite's alone": chosen(lambda i, n, p: i == n - 1),
    "all but the first satellite's": chosen(lambda i, n, p: i > 0),
    "all but the last satellite's": chosen(lambda i, n, p: i < n - 1),
    "every second satellite's": chosen(lambda i, n, p: i % 2 == 0),
    "the first 256 satellites' alone": chosen(lambda i, n, p: i < 256),
    "with metadata alone": chosen(lambda i, n, p: p.metadata),
    "without metadata alone": chosen(lambda i, n, p: not p.metadata),
    "without acceleration alone": chosen(lambda i, n, p: not p.front[ACCELERATION][1]),
    "with acceleration alone": chosen(lambda i, n, p: p.front[ACCELERATION][1]),
    "with ephemeris entries alone": chosen(lambda i, n, p: p.ephemeris[0][1]),
    "without ephemeris entries alone": chosen(lambda i, n, p: not p.ephemeris[0][1]),
    "with one ephemeris entry at most": chosen(lambda i, n, p: p.ephemeris[0][1] < 2),
    "without usable times alone": chosen(lambda i, n, p: len(p.metadata) < 13),
    "covariances of other bits than 0 alone": chosen(lambda i, n, p: any(laid(p.covariance))),
    "in edition 1 alone": results(lambda copier, found: found if copier.edition == 1 else copier.data),
    "in edition 2 alone": results(lambda copier, found: found if copier.edition == 2 else copier.data),
    "satellites with a covariance gone": filtered(lambda p: not p.covariance),
    "satellites without covariance gone": filtered(lambda p: p.covariance),
}

FRONT = {
    "the length in front as it came": fronts(lambda one, out: len(one.data) - 2),
    "the low byte of the length alone": fronts(lambda one, out: (len(one.data) - 2) // 256 * 256 + out % 256),
    "the length of one covariance less alone": fronts(lambda one, out: len(one.data) - 2 - PART * (covered(one) > 0)),
    "the length less the flags too": fronts(lambda one, out: out - covered(one)),
    "the length less the body's bytes": fronts(lambda one, out: len(one.data) - 2 - PART_BODY * covered(one)),
    "the length of all bytes": fronts(lambda one, out: out + 2),
    "the copy in edition 1": named(lambda edition, table_id: (1, table_id)),
    "the copy in edition 2": named(lambda edition, table_id: (2, table_id)),
    "the copy under id 0": named(lambda edition, table_id: (edition, 0)),
    "the copy under id 5": named(lambda edition, table_id: (edition, 5)),
}

SLIPS = {**FIELDS, **PLACES, **SATELLITES, **FRONT, **ROOMS, **FAULTS, **WHOLE}
