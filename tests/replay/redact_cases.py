"""Draws ledgers of table id 4 for S-31, with covariances and without, others like them but for these, and damaged ones.

A ledger is put together here byte by byte: a satellite's 9 bytes up to its covariance flag, that flag, what stands
behind it, and its covariance, 92 bytes or none. In the body a covariance has 91. Most ledgers are short; some have a
body of about 4,096 bytes or more, with their covariances or without them.
"""

from collections import namedtuple

from edition_cases import content, few
from edition_damage import damaged, number, other_version, replaced, righted

LISTED, FIRST_AT = 4, 16
PART, PART_BODY = 92, 91
LONGEST = 4096
NO_FLAGS = [0, 0, 0, 0]

# The bytes in front of the covariance flag, those behind it up to the covariance, and the covariance.
Satellite = namedtuple("Satellite", "front fields covariance")
# Where a satellite starts in a ledger, where its covariance is or would be, and where the next one starts.
Span = namedtuple("Span", "start covariance end")


def stamp(draw):
    reserved, day = draw.choice((0, 127, draw.getrandbits(7))), draw.choice((0, 511, draw.getrandbits(9)))
    return draw.randbytes(1) + bytes([reserved]) + number(day) + content(draw, 4)


def covariance(draw):
    return stamp(draw) + content(draw, 84)


def metadata(draw, usable):
    stamps = [stamp(draw) for _ in range(2 + usable)]
    middle = bytes([draw.getrandbits(1), draw.getrandbits(1), draw.getrandbits(3), draw.getrandbits(3)])
    return stamps[0] + stamps[1] + middle + b"".join(stamps[2:])


def satellite(draw, flags=None, count=None, chance=2):
    """One with these four flags and so many ephemeris entries, or with drawn ones; in one of `chance` a covariance,
    in none for 0.
    """
    flags = [draw.getrandbits(1) for _ in range(4)] if flags is None else flags
    count = draw.choice((0, 1, 1, 2, few(draw, 5))) if count is None else count
    front = b"\0" + draw.randbytes(3) + bytes([draw.choice((0, 7, draw.getrandbits(3))), *flags])
    fields = metadata(draw, flags[1] + flags[2]) if flags[0] else b""
    fields += number(count) + b"".join(stamp(draw) + content(draw, 36 if flags[3] else 24) for _ in range(count))
    return Satellite(front, fields, covariance(draw) if chance and draw.randrange(chance) == 0 else b"")


def put_together(front, satellites):
    """The ledger of these behind its front, 14 bytes up to the number of entries."""
    parts = [s.front + bytes([s.covariance != b""]) + s.fields + s.covariance for s in satellites]
    return righted(front + number(len(satellites)) + b"".join(parts))


def spans(ledger):
    """Of each satellite of a ledger without fault."""
    found, at = [], FIRST_AT
    for _ in range(int.from_bytes(ledger[14:16], "big")):
        has, begin, stop, acceleration, flag = ledger[at + 5:at + 10]
        count_at = at + 10 + has * (20 + 8 * (begin + stop))
        count = int.from_bytes(ledger[count_at:count_at + 2], "big")
        end = count_at + 2 + count * (44 if acceleration else 32)
        found.append(Span(at, end, end + PART * flag))
        at = found[-1].end
    return found


def taken_apart(ledger):
    """The satellites of a ledger without fault."""
    return [Satellite(ledger[s.start:s.start + 9], ledger[s.start + 10:s.covariance], ledger[s.covariance:s.end])
            for s in spans(ledger)]


def body_length(satellites):
    """The bytes of a body with these: 6 each; with metadata 15, and 7 for each usable time; 31 or 43 for each entry."""
    size = 8
    for one in satellites:
        has, begin, stop, acceleration = one.front[5:]
        count_at = has * (20 + 8 * (begin + stop))
        count = int.from_bytes(one.fields[count_at:count_at + 2], "big")
        size += 6 + has * (15 + 7 * (begin + stop)) + count * (43 if acceleration else 31)
        size += PART_BODY if one.covariance else 0
    return size


def with_covariances(ledger, parts):
    """The ledger with these covariances, one a satellite, some of them empty."""
    together = zip(taken_apart(ledger), parts, strict=True)
    return put_together(ledger[:14], [one._replace(covariance=part) for one, part in together])


def like_it(draw, ledger):
    """A few ledgers that differ from this one in nothing but flags and parts of covariances: all, some, and one.

    Those that a length in front can't count are left out.
    """
    old = [one.covariance for one in taken_apart(ledger)]
    if not old:
        return []
    one = list(old)
    place = draw.randrange(len(old))
    one[place] = b"" if old[place] and draw.getrandbits(1) else covariance(draw)
    some = [draw.choice((b"", part, covariance(draw))) for part in old]
    found = [with_covariances(ledger, parts) for parts in ([covariance(draw) for _ in old], some, one)]
    return [other for other in found if len(other) <= 2 + 65535]


def bare(satellites):
    return [one._replace(covariance=b"") for one in satellites]


def filled(draw):
    """Satellites with a body of a wanted length near 4,096 bytes or above: with the covariances, or without them."""
    wanted = draw.choice((LONGEST, LONGEST, LONGEST - 1, LONGEST + 1, draw.randint(4080, 4120),
                          draw.randint(4097, 5000)))
    counted, most = draw.choice((list, bare)), draw.choice((0, 500, 1500, wanted - 1000))
    flags, count = draw.choice(((None, None), (NO_FLAGS, 0)))
    chance, found = draw.choice((1, 2, 10) if counted is list else (2, 4, 10)), []
    while body_length(counted(found)) < most:
        found.append(satellite(draw, flags, count, chance))
    # 37 bytes with an ephemeris entry, 6 without anything: so every length is met
    left = wanted - body_length(counted(found))
    found += [satellite(draw, NO_FLAGS, 1, 0) for _ in range(left % 6)]
    found += [satellite(draw, NO_FLAGS, 0, 0) for _ in range((left - 37 * (left % 6)) // 6)]
    if counted is bare:
        found[-1] = found[-1]._replace(covariance=covariance(draw))
    draw.shuffle(found)
    return found


def made(draw):
    """One ledger of id 4 that is well formed, though 26 may refuse it."""
    front = b"\0\0" + bytes([draw.choice((1, 2)), LISTED, draw.getrandbits(4), draw.getrandbits(4)]) + stamp(draw)
    if draw.randrange(40) == 0:
        return put_together(front, filled(draw))
    count = draw.choice((0, 1, 1, 1, 2, 2, 3, few(draw, 12)))
    return put_together(front, [satellite(draw) for _ in range(count)])


# Aimed damage to one satellite of a ledger; `s` is its span.


def flag_of_two(draw, ledger, s):
    return replaced(ledger, s.start + 9, 1, bytes([draw.choice((2, 2, 3, 128, 129, 255))]))


def other_flag_of_two(draw, ledger, s):
    return replaced(ledger, s.start + draw.randint(5, 8), 1, bytes([draw.choice((2, 3, 255))]))


def flag_turned(draw, ledger, s):
    """A covariance without its flag, or a flag without its covariance."""
    return replaced(ledger, s.start + 9, 1, bytes([1 - ledger[s.start + 9]]))


def wide_epoch(draw, ledger, s):
    """The covariance's reserved bits or day, or those of what stands there."""
    return replaced(ledger, s.covariance + draw.choice((1, 2)), 1, bytes([draw.choice((128, 255))]))


def cut_within(draw, ledger, s):
    return ledger[:draw.choice((s.covariance, draw.randint(s.covariance, s.end), max(s.covariance, s.end - 1)))]


def value_less(draw, ledger, s):
    return replaced(ledger, s.covariance, 4, b"") if s.end > s.covariance else flag_of_two(draw, ledger, s)


def value_more(draw, ledger, s):
    return replaced(ledger, s.covariance, 0, content(draw, 4))


def part_gone(draw, ledger, s):
    return replaced(ledger, s.covariance, s.end - s.covariance, b"")


def part_behind(draw, ledger, s):
    return ledger + covariance(draw)


def other_count(draw, ledger, s):
    count = int.from_bytes(ledger[14:16], "big")
    return replaced(ledger, 14, 2, number(max(0, count + draw.choice((-1, 1)))))


def as_raw(draw, ledger, s):
    """Another id, under which the same bytes are a raw body."""
    return replaced(ledger, 3, 1, bytes([draw.choice((5, 255, draw.randint(5, 255)))]))


def versioned(draw, ledger, s):
    return other_version(draw, ledger)


AIMED = (flag_of_two, flag_of_two, other_flag_of_two, flag_turned, flag_turned, wide_epoch, wide_epoch, cut_within,
         cut_within, value_less, value_more, part_gone, part_behind, other_count, as_raw, versioned)


def with_length_of_copy(ledger):
    """The length in front that the copy has."""
    gone = sum(s.end - s.covariance for s in spans(ledger))
    return number(len(ledger) - 2 - gone) + ledger[2:]


def aimed(draw, ledger):
    """Damage to one of the satellites, in one of four to another one too, so that two faults stand there."""
    found = spans(ledger)
    if draw.randrange(12) == 0:
        return with_length_of_copy(ledger)
    first, second = draw.choice(found), draw.choice(found)
    if draw.randrange(4) == 0 and first.start < second.start:
        ledger = draw.choice((flag_of_two, other_flag_of_two, wide_epoch))(draw, ledger, second)
    return righted(draw.choice(AIMED)(draw, ledger, first))


def versions(draw, ledger):
    """Damaged versions of a well formed ledger of id 4: three at random, and three aimed ones."""
    found = [damaged(draw, ledger) for _ in range(3)]
    if ledger[14:16] != b"\0\0":
        found += [aimed(draw, ledger) for _ in range(3)]
    return found
