"""Picked ledgers for S-31, with their copies without covariance, worked out by hand from documents 01 and 02.

PICKED: (name, ledger, its copy or a refusal); SAME is the ledger as it came. ROOMS: (name, ledger, a buffer's bytes,
the answer). In a ledger of id 4 the header is at 4 and the first satellite at 16: id 16, reserved 20, flags 21 to 25,
and without metadata the count of ephemeris entries at 26. Without these a covariance is at 28, its year 28, reserved
bits 29, day 30, fraction 32, values from 36 on; it has 92 bytes, 91 in the body, so a second satellite starts at 120.
A satellite without anything has 12 bytes, 6 in the body; an ephemeris entry has 32 or 44, and 31 or 43.
"""

from convert_samples import FIRST_0, OPEN, RAW_2, REMARK, SATELLITE
from convert_samples import plans_1 as first_plans
from samples import CLOCK, HEADER, P3_LINE, TIME, cell_listed, clocks_listed, listed
from samples_2 import DWELLS, EXACT, SAME, entry, plans

EPOCH = "1f 3d 0137 b2b3b4b5"
VALUES = "".join(f"{value:08x}" for value in range(601, 622))
COVARIANCE = EPOCH + VALUES
ZEROS, FULL = "00" * 92, "ff 7f 01ff" + "ff" * 88
SET_HEADER = "03 02 15 33 012d 12131415"
# Metadata with its start and stop, reserved bit, interpolation flag, type and degree; the usable times.
METADATA = "16 34 012e 22232425" "17 35 012f 32333435" "00 01 02 07"
START, STOP = "18 36 0130 42434445", "19 37 0131 52535455"
# An ephemeris entry, and one with acceleration.
ENTRY = "1a 38 0132 62636465" "86878889 96979899 a6a7a8a9 b6b7b8b9 c6c7c8c9 d6d7d8d9"
FASTER = "1b 39 0133 72737475" "1a1b1c1d 2a2b2c2d 3a3b3c3d 4a4b4c4d 5a5b5c5d 6a6b6c6d 7a7b7c7d 8a8b8c8d 9a9b9c9d"
# A satellite's id and reserved bits, and the number of ephemeris entries.
NAMED, NONE = "000a0b0c 05", "0000"
BARE, COVERED = NAMED + "00 00 00 00 00" + NONE, NAMED + "00 00 00 00 01" + NONE + COVARIANCE
# Shorter ones of zeros, for long ledgers: with nothing, with a covariance, with so many ephemeris entries.
LITTLE, LOADED = "00" * 12, "00" * 9 + "01" + NONE + ZEROS
SAID = f"{SET_HEADER} 0001" + NAMED


def filed(edition, *satellites, count=None):
    """A ledger of id 4; the number of its entries is their own unless another is given."""
    count = len(satellites) if count is None else count
    return listed(4, f"{SET_HEADER} {count:04x}" + "".join(satellites), edition)


def small(edition, *satellites):
    return listed(4, f"{HEADER} {len(satellites):04x}" + "".join(satellites), edition)


def observed(count):
    return "00" * 10 + f"{count:04x}" + "00" * 32 * count


def seen(metadata, start, stop, faster, covariance, count=1):
    """A satellite with these flags and what belongs to them."""
    behind = (METADATA + START * start + STOP * stop) * metadata
    behind += f"{count:04x}" + (FASTER if faster else ENTRY) * count
    return NAMED + f"{metadata:02x}{start:02x}{stop:02x}{faster:02x}{covariance:02x}" + behind + COVARIANCE * covariance


def both(name, given, copy):
    """A ledger and its copy in each edition, made of satellites."""
    return [(f"{name}, edition {edition}", filed(edition, *given), filed(edition, *copy)) for edition in (1, 2)]


def first(name, given, copy):
    return [(name, filed(1, *given), filed(1, *copy))]


def second(name, given, copy):
    return [(name, filed(2, *given), filed(2, *copy))]


def alike(name, ledger):
    """Copied unaltered."""
    return [(name, ledger, SAME)]


def kept(name, table_id, fields):
    """The same in each edition."""
    return [(f"{name}, edition {edition}", listed(table_id, fields, edition), SAME) for edition in (1, 2)]


def refused(name, ledger, refusal):
    return [(name, ledger, refusal)]


def with_length(ledger, length):
    return f"{length:04x}" + ledger[4:]


# Each combination of the four flags in front, with an ephemeris entry and a covariance; in turn of edition 1 and 2.
COMBINED = [((first, second)[bits & 1])(f"flags {bits:04b}", [seen(*flags, 1)], [seen(*flags, 0)])[0]
            for bits in range(16) for flags in [[bits >> place & 1 for place in (3, 2, 1, 0)]]]

# docs/LEDGER.md's example of three satellites, the last with a covariance.
EXAMPLE = ("011a010403021533012d121314150003000a0b0c0501010100001634012e2223"
           "24251735012f3233343500010207183601304243444519370131525354550001"
           "1a380132626364658687888996979899a6a7a8a9b6b7b8b9c6c7c8c9d6d7d8d9"
           "001a1b1c06000001010000011b390133727374751a1b1c1d2a2b2c2d3a3b3c3d"
           "4a4b4c4d5a5b5c5d6a6b6c6d7a7b7c7d8a8b8c8d9a9b9c9d002a2b2c0301000100")
EXAMPLE_END = "1c3a0134828384851d3b013592939495010005041e3c0136a2a3a4a50000"
EXAMPLES = [("three satellites", EXAMPLE + "01" + EXAMPLE_END + bytes.fromhex(COVARIANCE).hex(),
             "00be" + EXAMPLE[4:] + "00" + EXAMPLE_END)]

WITHIN = [
    # A fault in what the copy leaves out: a field missing, or a value too wide.
    *refused("no covariance", filed(1, NAMED + "00 00 00 00 01" + NONE), "R 23 28 0"),
    *refused("no covariance, the second", filed(2, COVERED, NAMED + "00 00 00 00 01" + NONE), "R 23 132 0"),
    *refused("year alone", listed(4, SAID + "00 00 00 00 01" + NONE + "1f"), "R 23 29 0"),
    *refused("half a day", listed(4, SAID + "00 00 00 00 01" + NONE + "1f 3d 01"), "R 23 30 0"),
    *refused("epoch alone", listed(4, SAID + "00 00 00 00 01" + NONE + EPOCH, 2), "R 23 36 0"),
    *refused("20 values", listed(4, SAID + "00 00 00 00 01" + NONE + EPOCH + VALUES[:160]), "R 23 116 0"),
    *refused("a byte less", listed(4, SAID + "00 00 00 00 01" + NONE + EPOCH + VALUES[:166], 2), "R 23 116 0"),
    *refused("reserved bits of 128", filed(1, BARE[:-6] + "01" + NONE + "1f 80 0137" + "00" * 88), "R 25 29 0"),
    *refused("day 512", filed(2, BARE[:-6] + "01" + NONE + "1f 3d 0200" + "00" * 88), "R 25 30 0"),
    *refused("day 65,535, the second", filed(1, COVERED, BARE[:-6] + "01" + NONE + "1f 3d ffff" + "00" * 88),
             "R 25 134 0"),
    *refused("day 512, and the values missing", filed(1, BARE[:-6] + "01" + NONE + "1f 3d 0200"), "R 25 30 0"),
    *refused("reserved bits of 128, then a flag of 2", filed(2, BARE[:-6] + "01" + NONE + "1f 80 0137" + "00" * 88,
                                                             NAMED + "00 00 00 00 02" + NONE), "R 25 29 0"),
]

FLAGS = [
    *refused("covariance flag 2, nothing behind", filed(1, NAMED + "00 00 00 00 02" + NONE), "R 25 25 0"),
    *refused("covariance flag 2, a covariance", filed(2, NAMED + "00 00 00 00 02" + NONE + COVARIANCE), "R 25 25 0"),
    *refused("covariance flag 3, a covariance", filed(1, NAMED + "00 00 00 00 03" + NONE + COVARIANCE), "R 25 25 0"),
    *refused("covariance flag 255, nothing behind", filed(2, NAMED + "00 00 00 00 ff" + NONE), "R 25 25 0"),
    *refused("covariance flag 2 of the second", filed(1, COVERED, NAMED + "00 00 00 00 02" + NONE), "R 25 129 0"),
    *refused("acceleration flag 2", filed(2, NAMED + "00 00 00 02 01" + NONE + COVARIANCE), "R 25 24 0"),
    *refused("usable stop flag 2", filed(1, NAMED + "00 00 02 00 01" + NONE + COVARIANCE), "R 25 23 0"),
    *refused("usable start flag 2", filed(2, NAMED + "00 02 00 00 01" + NONE + COVARIANCE), "R 25 22 0"),
    *refused("metadata flag 2", filed(1, NAMED + "02 00 00 00 01" + NONE + COVARIANCE), "R 25 21 0"),
    # A flag without its covariance: what comes next is read as one, here with a day of 0b0c, and there without fault.
    *refused("flag 1, then a satellite", filed(1, NAMED + "00 00 00 00 01" + NONE, COVERED), "R 25 30 0"),
    ("flag 1, then a satellite of zeros", small(2, "00" * 9 + "01" + NONE, LOADED), small(2, LITTLE, LITTLE)),
    *refused("flag 0, a covariance", filed(2, BARE + COVARIANCE, count=1), "R 23 28 0"),
]

BEHIND = [
    # A fault behind a covariance has its place in the ledger that came.
    *refused("a byte over", filed(1, COVERED + "00", count=1), "R 23 120 0"),
    *refused("a covariance over", filed(2, COVERED + COVARIANCE, count=1), "R 23 120 0"),
    *refused("a satellite over", filed(1, COVERED, BARE, count=1), "R 23 120 0"),
    *refused("a satellite is missing", filed(2, COVERED, count=2), "R 23 120 0"),
    *refused("half an id", filed(1, COVERED, "000a", count=2), "R 23 120 0"),
    *refused("an id of 25 bits", filed(2, COVERED, "01" + BARE[2:]), "R 25 120 0"),
    *refused("reserved bits of 8", filed(1, COVERED, BARE, "000a0b0c 08" + "00" * 7), "R 25 136 0"),
    *refused("no ephemeris entry", filed(2, COVERED, COVERED, NAMED + "00 00 00 00 00" + "0001"), "R 23 236 0"),
    *refused("an epoch's day of 512", filed(1, COVERED, NAMED + "00 00 00 00 01" + "0001" + "1a 38 0200" + "00" * 28
                                            + COVARIANCE), "R 25 134 0"),
]

FRONTS = [
    *refused("nothing", "", "R 23 0 0"),
    *refused("two bytes, right length", "0000", "R 23 0 0"),
    *refused("three bytes, right length", "000102", "R 23 0 0"),
    *refused("the copy's length", with_length(filed(1, COVERED), 26), "R 23 0 0"),
    *refused("the copy under its ledger's length", with_length(filed(2, BARE), 118), "R 23 0 0"),
    *refused("length one too small", with_length(filed(1, COVERED), 117), "R 23 0 0"),
    *refused("version 0", filed(0, COVERED), "R 24 2 0"),
    *refused("version 3", filed(3, COVERED), "R 24 2 0"),
    *refused("version 3, the copy's length", with_length(filed(3, COVERED), 26), "R 23 0 0"),
    *refused("version 255, a covariance flag of 2", filed(255, NAMED + "00 00 00 00 02" + NONE), "R 24 2 0"),
    *refused("no header", "00020104", "R 23 4 0"),
    *refused("header cut", "000802040302" "1533012d", "R 23 10 0"),
    *refused("no number of entries", listed(4, SET_HEADER), "R 23 14 0"),
    *refused("version of 16 in the header", listed(4, "10" + SET_HEADER[2:] + "0001" + COVERED), "R 25 4 0"),
]

# 43 × 97 and 8 are 4,179 in the body; of the copies 43 × 6 and 8 are 266.
LONG = [
    ("42 covariances: body 4,082", small(1, *[LOADED] * 42), small(1, *[LITTLE] * 42)),
    *refused("43 covariances: body 4,179, copy's 266", small(2, *[LOADED] * 43), "R 26 4179 4096"),
    ("body 4,096", small(2, *[LOADED, LITTLE] * 38, *[LITTLE] * 29), small(2, *[LITTLE] * 105)),
    *refused("body 4,097, copy's 548", small(1, *[LITTLE] * 51, *[LOADED] * 39), "R 26 4097 4096"),
    ("body 4,073 with 128 ephemeris entries", small(1, observed(128)[:18] + "01" + observed(128)[20:] + ZEROS),
     small(1, observed(128))),
    *refused("body 4,187, copy's 4,096", small(2, observed(128), LOADED, *[LITTLE] * 18), "R 26 4187 4096"),
    *refused("body 4,197, copy's 4,106", small(1, observed(132)[:18] + "01" + observed(132)[20:] + ZEROS),
             "R 26 4197 4096"),
    *refused("body 4,188, copy's 4,097", small(2, LOADED, observed(128), observed(1), *[LITTLE] * 12),
             "R 26 4188 4096"),
    *refused("body 4,106 without covariance", small(2, observed(132)), "R 26 4106 4096"),
    *refused("body 4,179, and a byte over", listed(4, HEADER + "002b" + LOADED * 43 + "00"), "R 23 4488 0"),
    ("257 satellites, a covariance in the last", small(2, *[LITTLE] * 256, LOADED), small(2, *[LITTLE] * 257)),
]

OTHERS = [
    # Under other ids every ledger is copied unaltered, whatever its bytes look like.
    *kept("id 0, empty", 0, "0000"),
    *alike("P3", P3_LINE),
    *kept("id 0, elements", 0, "0001 000a0b0c 05 01 1a 0140" + VALUES[:80]),
    *kept("id 1, empty", 1, "0000"),
    *kept("id 1, a cell", 1, "0001" + cell_listed([7], [8, 9])),
    *kept("id 1, first and last", 1, "0001 00000007 00 01 0f 0000 3f 0000 3f 0000"),
    *kept("id 1, 300 and 511", 1, "0001" + cell_listed([300], [511])),
    *kept("id 2, no flags", 2, "00 00" + CLOCK + TIME),
    *kept("id 2, flags", 2, "01 01 01 01 01" + CLOCK + TIME),
    *kept("id 2, 300", 2, "00 00" + clocks_listed(300) + TIME),
    *alike("id 3, edition 1", first_plans(2, FIRST_0, FIRST_0)),
    *alike("id 3, exact", plans(2, EXACT, RAW_2)),
    *alike("id 3, filler, and the last past the data", plans(2, REMARK, OPEN)),
    *alike("id 3, raw, past the data, filler", plans(1, entry(16, 3, "0000", "aabb"))),
    *alike("id 3, on time 511", plans(1, "00000000 00 0019 00 00" + clocks_listed(0, 0, 0, 511) + "0000")),
    *kept("id 5, empty", 5, ""),
    *kept("id 5 that holds a ledger", 5, filed(1, COVERED)),
    *kept("id 5 with the content of id 4", 5, SAID + "00 00 00 00 01" + NONE + COVARIANCE),
    *kept("id 255 with the content of id 4", 255, SAID + "00 00 00 00 01" + NONE + COVARIANCE),
    *kept("id 9, a flag of 2", 9, SAID + "00 00 00 00 02" + NONE),
    *refused("id 0, wide", listed(0, "0001 01" + SATELLITE[2:], 1), "R 25 6 0"),
    *refused("id 0, a byte over", listed(0, "0001" + SATELLITE + "00", 2), "R 23 16 0"),
    *refused("id 2, cut", listed(2, "00 00" + CLOCK, 1), "R 23 17 0"),
    *refused("id 3, slot bit", first_plans(1, "00000000 00 00 01" + CLOCK * 2 + "00 0003 00 0002 f0"), "R 25 41 0"),
    *refused("id 3, 24", plans(1, entry(24, 0, DWELLS)), "R 28 61 0"),
    *refused("id 3, 26, not the last", plans(2, OPEN, EXACT), "R 28 61 0"),
    *refused("id 3 under version 3", plans(1, EXACT)[:4] + "03" + plans(1, EXACT)[6:], "R 24 2 0"),
    *refused("id 3, kept 4,097", plans(1, entry(4091, 0, DWELLS, "5a" * 4066)), "R 26 4097 4096"),
]

PICKED = [
    *kept("header alone", 4, SET_HEADER + "0000"),
    *kept("header of zeros", 4, HEADER + "0000"),
    *kept("a satellite", 4, SAID + "00 00 00 00 00" + NONE),
    *kept("flags without metadata", 4, SAID + "00 01 01 01 00" + NONE),
    *both("covariance alone", [COVERED], [BARE]),
    *first("covariance of zeros", [BARE[:-6] + "01" + NONE + ZEROS], [BARE]),
    *second("covariance, all bits set", [BARE[:-6] + "01" + NONE + FULL], [BARE]),
    *first("all of zeros", [LOADED], [LITTLE]),
    *COMBINED,
    *second("metadata alone", [seen(1, 1, 1, 0, 1, 0)], [seen(1, 1, 1, 0, 0, 0)]),
    *first("all flags, no ephemeris entry", [seen(1, 1, 1, 1, 1, 0)], [seen(1, 1, 1, 1, 0, 0)]),
    *second("three ephemeris entries", [seen(0, 0, 0, 0, 1, 3)], [seen(0, 0, 0, 0, 0, 3)]),
    *first("three with acceleration", [seen(0, 0, 0, 1, 1, 3)], [seen(0, 0, 0, 1, 0, 3)]),
    *first("usable times, two ephemeris entries", [seen(1, 1, 1, 0, 1, 2)], [seen(1, 1, 1, 0, 0, 2)]),
    *second("everything, two ephemeris entries", [seen(1, 1, 1, 1, 1, 2)], [seen(1, 1, 1, 1, 0, 2)]),
    *first("everything but a covariance", [seen(1, 1, 1, 1, 0, 2)], [seen(1, 1, 1, 1, 0, 2)]),
    *EXAMPLES,
    # Several satellites, with covariances in some of them.
    *first("the first of two", [COVERED, BARE], [BARE, BARE]),
    *second("the second of two", [BARE, COVERED], [BARE, BARE]),
    *both("both of two", [COVERED, COVERED], [BARE, BARE]),
    *first("the second of three", [seen(1, 0, 0, 0, 0), COVERED, seen(0, 0, 0, 1, 0)],
           [seen(1, 0, 0, 0, 0), BARE, seen(0, 0, 0, 1, 0)]),
    *second("the first and the third of three", [COVERED, seen(1, 1, 0, 0, 0), seen(0, 0, 0, 1, 1)],
            [BARE, seen(1, 1, 0, 0, 0), seen(0, 0, 0, 1, 0)]),
    *first("three of three", [COVERED] * 3, [BARE] * 3),
    *second("four of five", [LOADED, LOADED, BARE, LOADED, COVERED], [LITTLE, LITTLE, BARE, LITTLE, BARE]),
    *WITHIN, *FLAGS, *BEHIND, *FRONTS, *LONG, *OTHERS,
]

# A buffer's bytes are tested last, and against the copy.
ROOMS = [
    ("the copy's length", filed(1, COVERED), 28, filed(1, BARE)),
    ("a byte less", filed(1, COVERED), 27, "R 22 28 27"),
    ("no buffer", filed(2, COVERED), 0, "R 22 28 0"),
    ("the ledger's length, less a byte", filed(2, COVERED), 119, filed(2, BARE)),
    ("no covariance", filed(1, BARE), 27, "R 22 28 27"),
    ("another covariance", filed(1, BARE[:-6] + "01" + NONE + FULL), 27, "R 22 28 27"),
    ("two, the first with one", filed(2, COVERED, BARE), 39, "R 22 40 39"),
    ("two, both with one", filed(2, COVERED, COVERED), 39, "R 22 40 39"),
    ("another id", P3_LINE, 15, "R 22 16 15"),
    ("id 5 with the content of id 4", listed(5, SAID + "00 00 00 00 01" + NONE + COVARIANCE), 119, "R 22 120 119"),
    ("42 covariances", small(1, *[LOADED] * 42), 519, "R 22 520 519"),
    ("a wide day, no buffer", filed(2, BARE[:-6] + "01" + NONE + "1f 3d 0200" + "00" * 88), 0, "R 25 30 0"),
    ("a flag of 2, no buffer", filed(1, NAMED + "00 00 00 00 02" + NONE), 0, "R 25 25 0"),
    ("a wrong length, no buffer", with_length(filed(1, COVERED), 26), 0, "R 23 0 0"),
    ("43 covariances, no buffer", small(2, *[LOADED] * 43), 0, "R 26 4179 4096"),
    ("43 covariances, the copy's length", small(2, *[LOADED] * 43), 532, "R 26 4179 4096"),
]
