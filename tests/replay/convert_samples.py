"""Picked ledgers for S-19, with what each edition's call gives, worked out by hand from documents 01 and 02.

PICKED: (name, ledger, in edition 1, in edition 2). An answer is a ledger or a refusal; SAME is the ledger as it came.
Numbers in the names are plan lengths. `plans_1` and `front` are of edition 1, `plans` and `entry` of edition 2.

Places are counted as in samples_2.py. A mode 0 plan has 55 bytes with its filler's count, so of plans in edition 2 a
second one starts at 61; a raw plan without bytes has 35. In edition 1 they have 51 and 31.
"""

from samples import CLOCK, HEADER, P3_LINE, P8_LINE, TIME, cell_listed, clocks_listed
from samples import listed as any_listed
from samples_2 import DWELLS, EXACT, GRIDS, NONE, OPEN, SAME, SET_CLOCKS, SLOTSES, TWO, entry, plans


def front(mode, own, table_id="00000000"):
    """A plan of zeros in edition 1."""
    return table_id + f"00 00 {mode:02x}" + CLOCK * 2 + own


def plans_1(count, *entries):
    return any_listed(3, f"{count:04x}" + "".join(entries), 1)


def named(length, mode, own, filler="", table_id="00000005"):
    """A plan of edition 2 under an id that is no index."""
    return table_id + entry(length, mode, own, filler)[8:]


def both(name, first, second):
    """Two ledgers that are each other's, with nothing lost."""
    return [(f"{name}, 1 to 2", first, SAME, second), (f"{name}, 2 to 1", second, first, SAME)]


def alike(name, ledger, refusal):
    """A ledger with a fault of its own, which both calls give."""
    return [(name, ledger, refusal, refusal)]


def kept(name, ledger, index):
    """A ledger of edition 2 that edition 1 would not give back."""
    return [(name, ledger, f"R 29 {index} 0", SAME)]


def versions(name, table_id, fields):
    """Any id but 3: the version byte alone is another."""
    return both(name, *(any_listed(table_id, fields, edition) for edition in (1, 2)))


P8 = "003b02030001" "00000000" "00" "0019" "00" "00" + "00" * 44 + "0000"
RAW_0, RAW_2 = entry(13, 3, NONE), entry(15, 3, TWO)
REMARK = entry(26, 0, DWELLS, "aa")
NINE, NO_SLOTS = "00 0009 00 7fff ff80", "00 0000 00 0000"
BELOW, WIDE = entry(24, 0, DWELLS), entry(4096, 0, DWELLS)
FIRST_0 = front(0, DWELLS)
SATELLITE = "00000007 00 00 0120 01 00"
LATE = clocks_listed(*[511] * 6)

PICKED = [
    # No entries, and the shortest of each id.
    *both("P1", "000401000000", "000402000000"),
    *both("id 1 empty", "000401010000", "000402010000"),
    *both("no plan", "000401030000", "000402030000"),
    *versions("id 4, header alone", 4, HEADER + "0000"),
    *both("P10", "00020105", "00020205"),
    *both("id 255 empty", "000201ff", "000202ff"),
    *both("id 5 that looks like an edition 1 ledger", "00080105000401030000", "00080205000401030000"),
    # Other ids: the version byte alone.
    *both("P3", P3_LINE, "000e0200000100000007000001200100"),
    *versions("id 1, a cell", 1, "0001" + cell_listed([7], [8, 9])),
    *versions("id 2, no flags", 2, "00 00" + CLOCK + TIME),
    *versions("id 2, flags", 2, "01 00 01 00 01" + CLOCK + TIME),
    *versions("id 4, flags without metadata", 4, HEADER + "0001 00000007 00 00 01 01 00 00 0000"),
    # A plan of each mode: 12 bytes behind the 13, 4 and its slots, 24, the raw bytes.
    *both("P8", P8_LINE, P8),
    *both("bitmap of 3", plans_1(1, front(1, SLOTSES)), plans(1, entry(18, 1, SLOTSES))),
    *both("bitmap of 9", plans_1(1, front(1, NINE)), plans(1, entry(19, 1, NINE))),
    *both("bitmap of none", plans_1(1, front(1, NO_SLOTS)), plans(1, entry(17, 1, NO_SLOTS))),
    *both("grid", plans_1(1, front(2, GRIDS)), plans(1, entry(37, 2, GRIDS))),
    *both("raw 2", plans_1(1, front(3, TWO)), plans(1, RAW_2)),
    *both("raw 0", plans_1(1, front(3, NONE)), plans(1, RAW_0)),
    *both("all fields set", any_listed(3, "0001 01020304 0a 2a 00" + SET_CLOCKS * 4),
          plans(1, "01020304 0a 0019 2a 00" + SET_CLOCKS * 4 + "0000")),
    # Several plans.
    *both("two", plans_1(2, FIRST_0, FIRST_0), plans(2, EXACT, EXACT)),
    *both("each mode", plans_1(4, FIRST_0, front(1, SLOTSES), front(2, GRIDS), front(3, TWO)),
          plans(4, EXACT, entry(18, 1, SLOTSES), entry(37, 2, GRIDS), RAW_2)),
    *both("raw 2, raw 0", plans_1(2, front(3, TWO), front(3, NONE)), plans(2, RAW_2, RAW_0)),
    # 29, each form alone: filler, an end past the data, both, raw plans past the data.
    *kept("26, filler of 1", plans(1, REMARK), 0),
    *kept("28, filler of 3", plans(1, named(28, 0, DWELLS, "ddeeff")), 0),
    *kept("26, filler of a zero", plans(1, entry(26, 0, DWELLS, "00")), 0),
    *kept("26, past the data", plans(1, OPEN), 0),
    *kept("4,095, past the data", plans(1, named(4095, 0, DWELLS)), 0),
    *kept("28, filler of 2, past the data", plans(1, entry(28, 0, DWELLS, "ddee")), 0),
    *kept("bitmap, filler", plans(1, entry(20, 1, SLOTSES, "ffff")), 0),
    *kept("bitmap, past the data", plans(1, entry(19, 1, SLOTSES)), 0),
    *kept("bitmap of none, filler", plans(1, entry(18, 1, NO_SLOTS, "00")), 0),
    *kept("grid, filler", plans(1, entry(38, 2, GRIDS, "00")), 0),
    *kept("grid, past the data", plans(1, entry(38, 2, GRIDS)), 0),
    *kept("raw, past the data, nothing there", plans(1, entry(14, 3, NONE)), 0),
    *kept("raw, past the data, 4,095", plans(1, named(4095, 3, NONE)), 0),
    *kept("raw, past the data, filler", plans(1, entry(16, 3, NONE, "aabb")), 0),
    # 29, the first such plan by its index.
    *kept("filler in the first of two", plans(2, REMARK, EXACT), 0),
    *kept("filler in both", plans(2, REMARK, named(26, 0, DWELLS, "bb")), 0),
    *kept("filler in the second", plans(2, EXACT, named(26, 0, DWELLS, "bb")), 1),
    *kept("filler in the second of three", plans(3, RAW_0, REMARK, RAW_0), 1),
    *kept("filler in the second and the third", plans(3, RAW_0, REMARK, REMARK), 1),
    *kept("filler in the fourth of four", plans(4, RAW_0, EXACT, RAW_2, entry(19, 1, SLOTSES, "ff")), 3),
    *kept("filler in the first, the last past the data", plans(2, REMARK, OPEN), 0),
    *kept("the last past the data", plans(3, EXACT, RAW_0, named(26, 0, DWELLS)), 2),
    *kept("the last raw and past the data", plans(3, RAW_2, RAW_2, entry(15, 3, NONE)), 2),
    *kept("one id, filler in the second", plans(2, named(25, 0, DWELLS), named(27, 0, DWELLS, "aabb")), 1),
    # Too short, wrong length, no such version: both calls say so.
    *alike("nothing", "", "R 23 0 0"),
    *alike("two bytes, right length", "0000", "R 23 0 0"),
    *alike("three bytes, right length, edition 1", "000101", "R 23 0 0"),
    *alike("three bytes, right length, edition 2", "000102", "R 23 0 0"),
    *alike("length one too large, edition 1", "000501030000", "R 23 0 0"),
    *alike("length one too small, edition 2", "000302030000", "R 23 0 0"),
    *alike("length of the other edition", P8_LINE.replace("003701", "003b01"), "R 23 0 0"),
    *alike("version 0", "000400030000", "R 24 2 0"),
    *alike("version 3", "000403050000", "R 24 2 0"),
    *alike("version 3 and a wrong length", "000503030000", "R 23 0 0"),
    # A field missing, bytes over, a wide value, in either edition.
    *alike("no count, edition 1", "00020103", "R 23 4 0"),
    *alike("no count, edition 2", "00020203", "R 23 4 0"),
    *alike("a plan is missing, edition 1", plans_1(2, FIRST_0), "R 23 57 0"),
    *alike("a byte over, edition 1", plans_1(1, FIRST_0, "00"), "R 23 57 0"),
    *alike("a byte over, edition 2", plans(1, EXACT, "00"), "R 23 61 0"),
    *alike("P8 of edition 2 under version 1", P8.replace("003b02", "003b01"), "R 25 12 0"),
    *alike("P8 of edition 1 under version 2", P8_LINE.replace("003701", "003702"), "R 23 57 0"),
    *alike("id 0, wide, edition 1", any_listed(0, "0001 01" + SATELLITE[2:], 1), "R 25 6 0"),
    *alike("id 0, wide, edition 2", any_listed(0, "0001 01" + SATELLITE[2:], 2), "R 25 6 0"),
    *alike("id 2, a byte over, edition 1", any_listed(2, "00 00" + CLOCK + TIME + "00", 1), "R 23 29 0"),
    *alike("unused slot bit, edition 1", plans_1(1, front(1, "00 0003 00 0002 f0")), "R 25 41 0"),
    *alike("unused slot bit, edition 2", plans(1, entry(18, 1, "00 0003 00 0002 f0")), "R 25 43 0"),
    *alike("plan_length wide", plans(1, WIDE), "R 25 11 0"),
    *alike("filler missing", plans(1, entry(26, 0, DWELLS, "", 1)), "R 23 61 0"),
    # 28, where 29 would be said of a plan that a body has.
    *alike("24", plans(1, BELOW), "R 28 61 0"),
    *alike("25 with filler", plans(1, entry(25, 0, DWELLS, "aa")), "R 28 61 0"),
    *alike("26 without filler, not the last", plans(2, OPEN, EXACT), "R 28 61 0"),
    *alike("raw 2, past the data", plans(1, entry(16, 3, TWO)), "R 28 43 0"),
    *alike("raw bytes as filler", plans(1, entry(15, 3, NONE, "aabb")), "R 28 41 0"),
    # A plan that is not exact, and behind it a fault: the fault is met.
    *alike("filler, then 24", plans(2, REMARK, BELOW), "R 28 117 0"),
    *alike("filler, then a wide length", plans(2, REMARK, WIDE), "R 25 67 0"),
    *alike("filler, then nothing", plans(2, REMARK), "R 23 62 0"),
    *alike("filler, then a byte over", plans(1, REMARK, "00"), "R 23 62 0"),
    *alike("past the data, then a byte over", plans(1, OPEN, "ff"), "R 23 61 0"),
    *alike("exact, filler, then mode 4", plans(3, EXACT, REMARK, entry(25, 4, DWELLS)), "R 25 125 0"),
    # 26 is of the ledger that came: its kept body, and its plain one in edition 1.
    *kept("kept 4,096, plain 31", plans(1, entry(4090, 0, DWELLS, "5a" * 4065)), 0),
    *alike("kept 4,097, plain 31", plans(1, entry(4091, 0, DWELLS, "5a" * 4066)), "R 26 4097 4096"),
    *alike("kept 4,100, plain 62", plans(2, EXACT, entry(4063, 0, DWELLS, "5a" * 4038)), "R 26 4100 4096"),
    *alike("raw 4,083 in edition 1: plain 4,102", plans_1(1, front(3, "0ff3" + "a5" * 4083)), "R 26 4102 4096"),
    *alike("id 9, 4,097 bytes, edition 1", any_listed(9, "00" * 4097, 1), "R 26 4097 4096"),
    ("raw 4,077: plain 4,096, 1 to 2", plans_1(1, front(3, "0fed" + "a5" * 4077)), SAME,
     plans(1, entry(4090, 3, "0fed" + "a5" * 4077))),
    # S-23: an extension above 299 moves as any other.
    *both("all 511", plans_1(1, "00000000 00 00 02" + LATE), plans(1, "00000000 00 0025 00 02" + LATE + "0000")),
    *both("raw, application 300", plans_1(1, "00000000 00 00 03" + clocks_listed(300, 0) + NONE),
          plans(1, "00000000 00 000d 00 03" + clocks_listed(300, 0) + "0000 0000")),
    *versions("id 1, 300 and 511", 1, "0001" + cell_listed([300], [511])),
    *versions("id 2, 300", 2, "00 00" + clocks_listed(300) + TIME),
    *kept("on time 300, filler", plans(1, "00000000 00 001a 00 00" + clocks_listed(0, 0, 0, 300) + "0001 aa"), 0),
    *alike("on time 512, edition 1", plans_1(1, "00000000 00 00 00" + clocks_listed(300, 0, 0, 512)), "R 25 55 0"),
]
