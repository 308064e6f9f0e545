"""Damages ledgers, any ledger at random, and edition 2 plans where S-18's refusals lie.

A damaged ledger may be a ledger again; it is the reader that says so. For the aimed damage the ledger is read
and the places of each plan's fields are taken from the reader's notes (`Plan` in ledgers.py).
"""

import random

from ledgers import LONGEST, RAW, Fault, opened

VERSIONS = (0, 1, 2, 3, 255)


def number(value):
    return max(0, min(value, 65535)).to_bytes(2, "big")


def righted(ledger):
    """The ledger with the length that it has."""
    return ledger if len(ledger) < 2 else number(len(ledger) - 2) + ledger[2:]


def replaced(ledger, at, size, new):
    return ledger[:at] + new + ledger[at + size:]


def step(draw):
    """A small number from 1 on."""
    return draw.choice((1, 1, 2, draw.randint(1, 20)))


# Damage to any ledger.


def other_byte(draw, ledger):
    return replaced(ledger, draw.randrange(2, len(ledger)), 1, draw.choice((b"\0", b"\xff", draw.randbytes(1))))


def other_bit(draw, ledger):
    at = draw.randrange(2, len(ledger))
    return replaced(ledger, at, 1, bytes([ledger[at] ^ 1 << draw.randrange(8)]))


def cut(draw, ledger):
    return ledger[:max(1, draw.choice((draw.randrange(len(ledger)), len(ledger) - step(draw))))]


def added(draw, ledger):
    return ledger + draw.randbytes(step(draw))


def dropped(draw, ledger):
    return replaced(ledger, draw.randrange(2, len(ledger)), step(draw), b"")


def inserted(draw, ledger):
    return replaced(ledger, draw.randint(2, len(ledger)), 0, draw.randbytes(step(draw)))


def other_id(draw, ledger):
    return replaced(ledger, 3, 1, bytes([draw.choice((0, 1, 2, 3, 4, 5, 255, draw.randrange(256)))]))


def other_version(draw, ledger):
    return replaced(ledger, 2, 1, bytes([draw.choice(VERSIONS)]))


ANY = (other_byte, other_byte, other_bit, other_bit, cut, added, dropped, inserted, other_id, other_version)


def damaged(draw, ledger):
    """One random damage, with the length put right in nine of ten."""
    if len(ledger) < 4:
        return ledger + draw.randbytes(1)
    changed = draw.choice(ANY)(draw, ledger)
    return righted(changed) if draw.randrange(10) else changed


# Aimed damage to a plan `p` of an edition 2 ledger.


def with_length(ledger, p, length):
    return replaced(ledger, p.length_at, 2, number(length))


def length_below(draw, ledger, p):
    fields = 13 + p.own
    return with_length(ledger, p, draw.choice((fields - 1, fields - 1, 12, 0, draw.randrange(fields))))


def length_exact(draw, ledger, p):
    """The length without the filler, which then is too long."""
    return with_length(ledger, p, 13 + p.own)


def length_at_filler(draw, ledger, p):
    """The length up to the filler's end: for a raw plan the filler would be raw bytes."""
    return with_length(ledger, p, 13 + p.own + p.filler)


def length_raised(draw, ledger, p):
    return with_length(ledger, p, min(4095, draw.choice((p.length + step(draw), 4095))))


def length_wide(draw, ledger, p):
    return with_length(ledger, p, p.length % 4096 | draw.randint(1, 15) << 12)


def filler_longer(draw, ledger, p):
    more = step(draw)
    longer = replaced(ledger, p.filler_at + p.filler, 0, draw.randbytes(more))
    return replaced(longer, p.count_at, 2, number(p.filler + more))


def filler_shorter(draw, ledger, p):
    if not p.filler:
        return length_raised(draw, ledger, p)
    less = min(p.filler, step(draw))
    shorter = replaced(ledger, p.filler_at + p.filler - less, less, b"")
    return replaced(shorter, p.count_at, 2, number(p.filler - less))


def filler_count(draw, ledger, p):
    """The count alone, so that what follows is read from another place."""
    count = draw.choice((p.filler + step(draw), p.filler - step(draw), 65535, draw.getrandbits(16)))
    return replaced(ledger, p.count_at, 2, number(count))


def with_raw(ledger, p, raw, filler):
    """A raw plan with other raw bytes and other filler under its old length."""
    end = p.filler_at + p.filler
    return replaced(ledger, p.own_at, end - p.own_at, number(len(raw)) + raw + number(len(filler)) + filler)


def raw_split(draw, ledger, p):
    """The plan's bytes shared between raw bytes and filler in another way."""
    both = ledger[p.own_at + 2:p.count_at] + ledger[p.filler_at:p.filler_at + p.filler]
    part = draw.choice((0, len(both), draw.randint(0, len(both))))
    return with_raw(ledger, p, both[:part], both[part:])


def raw_changed(draw, ledger, p):
    """Raw bytes added or taken away under the old length, perhaps with filler behind."""
    raw = ledger[p.own_at + 2:p.count_at]
    raw = raw[:-step(draw)] if raw and draw.getrandbits(1) else raw + draw.randbytes(step(draw))
    return with_raw(ledger, p, raw, draw.choice((b"", ledger[p.filler_at:p.filler_at + p.filler])))


def raw_and_filler(draw, ledger, p):
    """Raw bytes and filler, with a length that takes in one or both."""
    raw, filler = draw.randbytes(step(draw)), draw.randbytes(step(draw))
    length = 13 + len(raw) + draw.choice((0, len(filler), len(filler) + 1))
    return with_length(with_raw(ledger, p, raw, filler), p, length)


def as_raw(draw, ledger, p):
    """The plan made a raw one of a few bytes, which then have a length of their own in front."""
    bytes_there = draw.randbytes(draw.choice((0, 1, 2, 5)))
    size = len(bytes_there)
    raw, filler = (bytes_there, b"") if draw.getrandbits(1) else (b"", bytes_there)
    changed = with_length(with_raw(ledger, p, raw, filler), p, 13 + draw.choice((size, size + 1, size + 1, size - 1)))
    return replaced(changed, p.mode_at, 1, bytes([RAW]))


def faults_together(draw, ledger, p):
    """A length below the fields, and behind it a field too wide or the end: these are met first."""
    changed = length_below(draw, ledger, p)
    if draw.getrandbits(1):
        return replaced(changed, draw.randrange(p.mode_at - 1, p.count_at), 1, b"\xff")
    return changed[:draw.randint(p.mode_at - 1, p.filler_at + p.filler)]


def entry_count(draw, ledger, p):
    count = int.from_bytes(ledger[4:6], "big")
    return replaced(ledger, 4, 2, number(draw.choice((count + 1, count + 2, count - 1, draw.randint(0, count)))))


def open_and_count(draw, ledger, p):
    """A plan that ends past its bytes, under another number of entries."""
    return entry_count(draw, length_raised(draw, ledger, p), p)


AIMED = (length_below, length_exact, length_at_filler, length_raised, length_raised, length_wide, filler_longer,
         filler_longer, filler_shorter, filler_shorter, filler_count, as_raw, as_raw, faults_together, entry_count,
         open_and_count)
AIMED_RAW = (raw_split, raw_split, raw_changed, raw_changed, raw_and_filler, raw_and_filler)


def grown(draw, ledger, kept):
    """The last plan's filler grown until the kept body has about 4,096 bytes, or the longest one can have."""
    p = opened(ledger).plans[-1]
    wanted = draw.choice((LONGEST - 1, LONGEST, LONGEST, LONGEST + 1, LONGEST + 1, LONGEST + 5))
    size = max(p.filler, p.filler + wanted - kept)
    longer = replaced(ledger, p.filler_at, p.filler, draw.randbytes(size))
    longer = replaced(longer, p.count_at, 2, number(size))
    return with_length(longer, p, min(4095, 13 + p.own + size + draw.choice((0, 1, 4095))))


def aimed(draw, ledger, reader):
    """One aimed damage to one of the plans; now and then a random one behind it."""
    if draw.randrange(150) == 0:
        return righted(grown(draw, ledger, len(reader.body)))
    p = draw.choice((reader.plans[-1], draw.choice(reader.plans)))
    changed = draw.choice(AIMED_RAW if p.mode == RAW and draw.getrandbits(1) else AIMED)(draw, ledger, p)
    changed = righted(changed)
    return damaged(draw, changed) if draw.randrange(12) == 0 else changed


def versions(draw, ledger, few=3):
    """A few damaged versions of a ledger; of plans in edition 2 as many aimed ones."""
    found = [damaged(draw, ledger) for _ in range(few)]
    try:
        reader = opened(ledger)
    except Fault:
        return found
    if reader.plans:
        found += [aimed(draw, ledger, reader) for _ in range(few)]
    return found


def damage(seed, ledgers):
    """All damaged versions of these ledgers, one by one."""
    draw = random.Random(seed)
    for ledger in ledgers:
        yield from versions(draw, ledger)
