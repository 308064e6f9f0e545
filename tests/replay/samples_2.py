"""Picked bodies and ledgers of edition 2, with answers worked out by hand from document 01, S-18 and S-23.

BODIES: (name, table id, body, edition 2 ledger or refusal, kept body). LEDGERS: (name, ledger, answer), the
answer being the table id and the body, or the refusal. Numbers in the names are plan lengths.

In a ledger of plans the first one starts at 6: id 6, r4 10, plan_length 11, r6 13, mode 14, clocks 15 and 26,
the mode's fields 37. In mode 0 the filler's count is at 59 and the filler at 61, in mode 2 at 81 and 83; in
mode 1 the slots are at 43, in mode 3 the raw bytes' number is at 37 and they are at 39. A mode 0 plan without
filler has 55 bytes, so a second one starts at 61 and its filler is at 116.
"""

from samples import CLOCK, HEADER, P3, P3_LINE, P8_LINE, TIME, ZERO, associated, cell, cell_listed, centred
from samples import clocks_listed, fragment, timed, timed_listed
from samples import listed as any_listed
from samples import plan as any_plan

SAME = None

# What a mode has behind the clocks: in the body, and in the ledger. The bitmap has 3 slots, all on.
DWELL, DWELLS = "00" * 12, CLOCK * 2
GRID, GRIDS = "00" * 24, CLOCK * 4
SLOTS, SLOTSES = "00030002e0", "00 0003 00 0002 e0"
NONE, TWO = "0000", "0002 aabb"


def plan(length, mode, behind=""):
    """A plan of zeros in a body, with all the bytes behind its clocks."""
    behind = bytes.fromhex(behind)
    return any_plan(length, 19 + len(behind), mode, behind)


def entry(length, mode, own, filler="", count=None):
    """A plan of zeros in a ledger; the filler's count is its own unless another is given."""
    count = len(filler) // 2 if count is None else count
    fields = f"00000000 00 {length:04x} 00 {mode:02x}" + CLOCK * 2 + own + f"{count:04x}" + filler
    return bytes.fromhex(fields).hex()


def listed(table_id, fields, edition=2):
    return any_listed(table_id, fields, edition)


def plans(count, *entries):
    return listed(3, f"{count:04x}" + "".join(entries))


def body(table_id, data):
    return f"{table_id:02x}{data.hex()}"


EMPTY = "000402030000"
EXACT = entry(25, 0, DWELLS)
OPEN = entry(26, 0, DWELLS)
BELOW = entry(24, 0, DWELLS)
PLAN_IN_BYTES = plan(13, 3).hex()
# A clock with base 0x100000003, r6 63, ext 43, as the body and as the ledger has it.
SET_CLOCK, SET_CLOCKS = "80000001fe2b", "0000000100000003 3f 002b"
ASSOCIATION = CLOCK + TIME
# A plan of mode 0 in a ledger up to its clocks, and the clocks that its body has.
FRONT = "0001 00000000 00 0019 00 00"
LATE_ON_TIME = 299, 0, 0, 511

BODIES = [
    # Mode 0: exact, with a remark, past the data, too short.
    ("P8", 3, any_plan(25), "003b02030001" "00000000" "00" "0019" "00" "00" + "00" * 44 + "0000", SAME),
    ("P7: 24", 3, any_plan(24), "R 14 8 0", SAME),
    ("P9: 4,095", 3, any_plan(4095), plans(1, entry(4095, 0, DWELLS)), SAME),
    ("28, remark of 3", 3, plan(28, 0, DWELL + "ddeeff"), plans(1, entry(28, 0, DWELLS, "ddeeff")), SAME),
    ("26, nothing there", 3, plan(26, 0, DWELL), plans(1, OPEN), SAME),
    ("28, two bytes there", 3, plan(28, 0, DWELL + "aabb"), plans(1, entry(28, 0, DWELLS, "aabb")), SAME),
    ("4,095, two bytes there", 3, plan(4095, 0, DWELL + "aabb"), plans(1, entry(4095, 0, DWELLS, "aabb")), SAME),
    ("27, remark of 2, 5 left over", 3, plan(27, 0, DWELL + "aabb0102030405"),
     plans(1, entry(27, 0, DWELLS, "aabb")), plan(27, 0, DWELL + "aabb")),
    ("25, 6 bytes over", 3, plan(25, 0, DWELL + "000000000000"), "R 1 302 296", SAME),
    ("25, cut in the last clock", 3, plan(25, 0, DWELL[:-2]), "R 10 96 88", SAME),
    ("all fields set, remark", 3, bytes.fromhex("01020304" "a01c" "a8" + SET_CLOCK * 4 + "ddeeff"),
     plans(1, "01020304 0a 001c 2a 00" + SET_CLOCKS * 4 + "0003 ddeeff"), SAME),
    # Mode 1: padding and the remark behind it.
    ("18", 3, plan(18, 1, SLOTS), plans(1, entry(18, 1, SLOTSES)), SAME),
    ("18, padding set", 3, plan(18, 1, "00030002ff"), plans(1, entry(18, 1, SLOTSES)), plan(18, 1, SLOTS)),
    ("20, padding set, remark", 3, plan(20, 1, "00030002ffffff"),
     plans(1, entry(20, 1, SLOTSES, "ffff")), plan(20, 1, SLOTS + "ffff")),
    ("21, padding set, one of three bytes there", 3, plan(21, 1, "00030002bfff"),
     plans(1, entry(21, 1, "00 0003 00 0002 a0", "ff")), plan(21, 1, "00030002a0ff")),
    ("17, no slots", 3, plan(17, 1, "00000000"), plans(1, entry(17, 1, "00 0000 00 0000")), SAME),
    ("19, no slots, remark", 3, plan(19, 1, "800080000102"),
     plans(1, entry(19, 1, "01 0000 01 0000", "0102")), SAME),
    ("18, 8 slots", 3, plan(18, 1, "00080000ff"), plans(1, entry(18, 1, "00 0008 00 0000 ff")), SAME),
    ("19, 9 slots, 7 padding bits set", 3, plan(19, 1, "00097fffffff"),
     plans(1, entry(19, 1, "00 0009 00 7fff ff80")), plan(19, 1, "00097fffff80")),
    ("17", 3, plan(17, 1, SLOTS), "R 14 8 0", SAME),
    ("17, a byte behind the slots", 3, plan(17, 1, SLOTS + "ff"), "R 14 8 0", SAME),
    # Mode 2.
    ("37", 3, plan(37, 2, GRID), plans(1, entry(37, 2, GRIDS)), SAME),
    ("38, remark of 1", 3, plan(38, 2, GRID + "00"), plans(1, entry(38, 2, GRIDS, "00")), SAME),
    ("39, one of two bytes there", 3, plan(39, 2, GRID + "aa"), plans(1, entry(39, 2, GRIDS, "aa")), SAME),
    ("37, cut", 3, plan(37, 2, GRID[:-2]), "R 13 192 184", SAME),
    # Mode 3: raw bytes within the data, filler if its end is past them.
    ("13", 3, plan(13, 3), plans(1, entry(13, 3, NONE)), SAME),
    ("15, raw end at the data's end", 3, plan(15, 3, "aabb"), plans(1, entry(15, 3, TWO)), SAME),
    ("15, one left over", 3, plan(15, 3, "aabbcc"), plans(1, entry(15, 3, TWO)), plan(15, 3, "aabb")),
    ("16, raw end one byte further", 3, plan(16, 3, "aabb"), plans(1, entry(16, 3, NONE, "aabb")), SAME),
    ("4,095, two bytes there", 3, plan(4095, 3, "aabb"), plans(1, entry(4095, 3, NONE, "aabb")), SAME),
    ("14, nothing there", 3, plan(14, 3), plans(1, entry(14, 3, NONE)), SAME),
    ("12", 3, plan(12, 3, "aabb"), "R 14 8 0", SAME),
    ("0", 3, plan(0, 3), "R 14 104 0", SAME),
    # Several plans, and bytes that look like one.
    ("remark between two", 3, plan(27, 0, DWELL + "aabb") + plan(13, 3),
     plans(2, entry(27, 0, DWELLS, "aabb"), entry(13, 3, NONE)), SAME),
    ("remark behind both, the second open", 3, plan(26, 0, DWELL + "aa") + plan(28, 0, DWELL + "bb"),
     plans(2, entry(26, 0, DWELLS, "aa"), entry(28, 0, DWELLS, "bb")), SAME),
    ("raw bytes, then an open raw plan", 3, plan(14, 3, "aa") + plan(14, 3),
     plans(2, entry(14, 3, "0001 aa"), entry(14, 3, NONE)), SAME),
    ("padding set in the first of two, leftovers", 3, plan(18, 1, "00030002ff") + plan(13, 3, "0102"),
     plans(2, entry(18, 1, SLOTSES), entry(13, 3, NONE)), plan(18, 1, SLOTS) + plan(13, 3)),
    ("a plan's bytes as remark", 3, plan(4095, 0, DWELL + PLAN_IN_BYTES),
     plans(1, entry(4095, 0, DWELLS, PLAN_IN_BYTES)), SAME),
    ("a plan's bytes as raw bytes", 3, plan(32, 3, PLAN_IN_BYTES),
     plans(1, entry(32, 3, "0013" + PLAN_IN_BYTES)), SAME),
    ("a plan's bytes behind an open raw plan", 3, plan(33, 3, PLAN_IN_BYTES),
     plans(1, entry(33, 3, NONE, PLAN_IN_BYTES)), SAME),
    ("24 behind a remark", 3, plan(26, 0, DWELL + "aa") + plan(24, 0, DWELL), "R 14 8 0", SAME),
    ("no plan", 3, b"", EMPTY, SAME),
    ("5 bytes", 3, bytes.fromhex("0102030405"), EMPTY, b""),
    # Other ids: only the version byte is another.
    ("P1", 0, b"", "000402000000", SAME),
    ("P2", 0, bytes.fromhex("000007010120"), "R 4 344 16", SAME),
    ("P3", 0, P3, P3_LINE.replace("000e01", "000e02"), SAME),
    ("P4", 0, P3 + b"\xff", P3_LINE.replace("000e01", "000e02"), P3),
    ("P12", 1, fragment(0x1FFFF), centred("0001ffff", 2), SAME),
    ("id 1, 4 left over", 1, bytes(4), "000402010000", b""),
    ("P6", 2, b"", "R 2 1 0", SAME),
    ("id 2, a byte behind", 2, bytes(19) + b"\xff", listed(2, "00 00" + ASSOCIATION), bytes(19)),
    ("id 2, leap flags", 2, b"\x15" + bytes(18), listed(2, "01 00 01 00 01" + ASSOCIATION), SAME),
    ("id 4, 3 left over", 4, bytes(11), listed(4, HEADER + "0000"), bytes(8)),
    ("P10", 5, b"", "00020205", SAME),
    ("id 5, two bytes", 5, b"\xaa\xbb", "00040205aabb", SAME),
    ("id 255, one byte", 255, b"\x01", "000302ff01", SAME),
    # S-23: extensions above 299 in clocks, and bytes that look like them.
    ("299, remark full", 3, timed(27, 0, 299, 299, 299, 299, rest=b"\xff\xff"),
     plans(1, "00000000 00 001b 00 00" + clocks_listed(299, 299, 299, 299) + "0002 ffff"), SAME),
    ("application 300, remark", 3, timed(27, 0, 300, 0, 0, 0, rest=b"\0\0"), "R 30 300 299", SAME),
    ("on time 511, length 24", 3, timed(24, 0, *LATE_ON_TIME), "R 30 511 299", SAME),
    ("raw plan, cycle 300, past the data", 3, timed(16, 3, 0, 300, rest=b"\xaa\xbb"), "R 30 300 299", SAME),
    ("remark, then sleep duration 300", 3, plan(27, 0, DWELL + "aabb") + timed(37, 2, 0, 0, 0, 0, 0, 300),
     "R 30 300 299", SAME),
    ("a plan with 511 as remark", 3, plan(4095, 0, DWELL + timed(13, 3, 511, 511).hex()),
     plans(1, entry(4095, 0, DWELLS, timed(13, 3, 511, 511).hex())), SAME),
    ("id 1, second obsolescent system 300", 1, cell([299], [299, 300]), "R 30 300 299", SAME),
    ("id 1, 299", 1, cell([299], [299]), listed(1, "0001" + cell_listed([299], [299])), SAME),
    ("id 2, 300", 2, associated(300), "R 30 300 299", SAME),
    ("id 2, 300, 18 bytes", 2, associated(300, 0, 18), "R 9 152 144", SAME),
    # The limit.
    ("4,096 bytes with the remark", 3, plan(4090, 0, DWELL + "5a" * 4065),
     plans(1, entry(4090, 0, DWELLS, "5a" * 4065)), SAME),
    ("4,096 bytes, an open raw plan", 3, plan(4091, 3, "3c" * 4077), plans(1, entry(4091, 3, NONE, "3c" * 4077)), SAME),
    ("4,096 bytes, 5 left over", 3, plan(4085, 3, "a5" * 4072) + ZERO[:5],
     plans(1, entry(4085, 3, "0fe8" + "a5" * 4072)), plan(4085, 3, "a5" * 4072)),
    ("4,097 bytes with the remark", 3, plan(4091, 0, DWELL + "5a" * 4066), "R 21 4097 4096", SAME),
]

LEDGERS = [
    # The front.
    ("one byte", "00", "R 23 0 0"),
    ("two bytes, right length", "0000", "R 23 0 0"),
    ("three bytes, right length", "000102", "R 23 0 0"),
    ("length one too large", "000502030000", "R 23 0 0"),
    ("length one too small", "000302030000", "R 23 0 0"),
    ("version 0", "000400030000", "R 24 2 0"),
    ("version 3", "000403030000", "R 24 2 0"),
    ("version 255", "0004ff030000", "R 24 2 0"),
    ("version 3 and a wrong length", "000503030000", "R 23 0 0"),
    ("version 3 and a wide length", listed(3, "0001" + entry(4096, 0, DWELLS), 3), "R 24 2 0"),
    ("no count", "00020203", "R 23 4 0"),
    ("half a count", "0003020300", "R 23 4 0"),
    ("no plan", EMPTY, "03"),
    ("a plan is missing", "000402030001", "R 23 6 0"),
    ("a plan under count 0", plans(0, EXACT), "R 23 6 0"),
    # plan_length.
    ("plan_length missing", listed(3, "0001 00000000 00"), "R 23 11 0"),
    ("half of plan_length", listed(3, "0001 00000000 00 00"), "R 23 11 0"),
    ("plan_length wide", plans(1, entry(4096, 0, DWELLS)), "R 25 11 0"),
    ("plan_length wide, 25 in its lower bits", plans(1, entry(0x8019, 0, DWELLS)), "R 25 11 0"),
    ("plan_length wide, nothing behind it", listed(3, "0001 00000000 00 1000"), "R 25 11 0"),
    ("plan_length wide behind a wide r4", listed(3, "0001 00000000 10 1000"), "R 25 10 0"),
    ("plan_length wide in the second", plans(2, EXACT, entry(4096, 0, DWELLS)), "R 25 66 0"),
    ("4,095 names 4,101 bytes, 31 are there", plans(1, entry(4095, 0, DWELLS)), body(3, any_plan(4095))),
    # The filler is there before it is judged.
    ("filler's count missing", plans(1, EXACT[:-4]), "R 23 59 0"),
    ("half of the filler's count", plans(1, EXACT[:-2]), "R 23 59 0"),
    ("filler missing", plans(1, entry(26, 0, DWELLS, "", 1)), "R 23 61 0"),
    ("half of the filler", plans(1, entry(27, 0, DWELLS, "aa", 2)), "R 23 61 0"),
    ("filler of 65,535 missing", plans(1, entry(25, 0, DWELLS, "", 65535)), "R 23 61 0"),
    # 28 in mode 0.
    ("24, the place is the ledger's length", plans(1, BELOW), "R 28 61 0"),
    ("0", plans(1, entry(0, 0, DWELLS)), "R 28 61 0"),
    ("24 with filler", plans(1, entry(24, 0, DWELLS, "aa")), "R 28 61 0"),
    ("25 with filler", plans(1, entry(25, 0, DWELLS, "aa")), "R 28 61 0"),
    ("27 with filler of 3", plans(1, entry(27, 0, DWELLS, "ddeeff")), "R 28 61 0"),
    ("28 with filler of 2, last", plans(1, entry(28, 0, DWELLS, "ddee")), body(3, plan(28, 0, DWELL + "ddee"))),
    ("28 with filler of 2, not last", plans(2, entry(28, 0, DWELLS, "ddee"), EXACT), "R 28 61 0"),
    ("26 without filler, not last", plans(2, OPEN, EXACT), "R 28 61 0"),
    ("4,095 without filler, not last", plans(2, entry(4095, 0, DWELLS), EXACT), "R 28 61 0"),
    ("25 with filler, second", plans(2, EXACT, entry(25, 0, DWELLS, "aa")), "R 28 116 0"),
    ("24, second, behind a remark of 2", plans(2, entry(27, 0, DWELLS, "aabb"), BELOW), "R 28 118 0"),
    ("24 twice", plans(2, BELOW, BELOW), "R 28 61 0"),
    ("24, then a wide length", plans(2, BELOW, entry(4096, 0, DWELLS)), "R 28 61 0"),
    ("24, then nothing", plans(2, BELOW), "R 28 61 0"),
    ("24, then a byte over", plans(1, BELOW, "00"), "R 28 61 0"),
    # Later fields of the plan come before 28.
    ("24 and mode 4", plans(1, entry(24, 4, DWELLS)), "R 25 14 0"),
    ("24 and a wide cycle ext", listed(3, "0001 00000000 00 0018 00 00" + CLOCK + "0000000000000000 00 0200"
                                       + CLOCK * 2 + "0000"), "R 25 35 0"),
    ("24 and a wide on-time base", plans(1, entry(24, 0, CLOCK + "0000000200000000 00 0000")), "R 25 48 0"),
    ("24, cut before the cycle clock", listed(3, "0001 00000000 00 0018 00 00" + CLOCK), "R 23 26 0"),
    ("24, filler's count missing", plans(1, BELOW[:-4]), "R 23 59 0"),
    ("24, filler missing", plans(1, entry(24, 0, DWELLS, "", 1)), "R 23 61 0"),
    ("25, filler missing that would not fit", plans(1, entry(25, 0, DWELLS, "aa", 2)), "R 23 61 0"),
    # Mode 1.
    ("20, bitmap with remark", plans(1, entry(20, 1, SLOTSES, "ffff")), body(3, plan(20, 1, SLOTS + "ffff"))),
    ("17, bitmap", plans(1, entry(17, 1, SLOTSES)), "R 28 46 0"),
    ("20, bitmap, remark of 3", plans(1, entry(20, 1, SLOTSES, "ffffff")), "R 28 46 0"),
    ("18, unused slot bit", plans(1, entry(18, 1, "00 0003 00 0002 e1")), "R 25 43 0"),
    ("17, unused slot bit", plans(1, entry(17, 1, "00 0003 00 0002 f0")), "R 25 43 0"),
    ("18, slots missing", plans(1, entry(18, 1, SLOTSES)[:-6]), "R 23 43 0"),
    ("17, no slots", plans(1, entry(17, 1, "00 0000 00 0000")), body(3, plan(17, 1, "00000000"))),
    ("16, no slots", plans(1, entry(16, 1, "00 0000 00 0000")), "R 28 45 0"),
    ("18, 9 slots", plans(1, entry(18, 1, "00 0009 00 0000 ff80")), "R 28 47 0"),
    ("19, bitmap without remark, not last", plans(2, entry(19, 1, SLOTSES), EXACT), "R 28 46 0"),
    # Mode 2.
    ("36, grid", plans(1, entry(36, 2, GRIDS)), "R 28 83 0"),
    ("37, grid with filler", plans(1, entry(37, 2, GRIDS, "aa")), "R 28 83 0"),
    ("40, grid with filler of 1", plans(1, entry(40, 2, GRIDS, "aa")), body(3, plan(40, 2, GRID + "aa"))),
    ("40, grid with filler of 1, not last", plans(2, entry(40, 2, GRIDS, "aa"), EXACT), "R 28 83 0"),
    # Mode 3.
    ("15, raw 2", plans(1, entry(15, 3, TWO)), body(3, plan(15, 3, "aabb"))),
    ("15, raw 2, filler 1", plans(1, entry(15, 3, TWO, "cc")), "R 28 43 0"),
    ("16, raw 2, filler 1", plans(1, entry(16, 3, TWO, "cc")), "R 28 43 0"),
    ("17, raw 2, filler 1", plans(1, entry(17, 3, TWO, "cc")), "R 28 43 0"),
    ("16, raw 2, filler 1, not last", plans(2, entry(16, 3, TWO, "cc"), EXACT), "R 28 43 0"),
    ("16, raw 2", plans(1, entry(16, 3, TWO)), "R 28 43 0"),
    ("4,095, raw 2", plans(1, entry(4095, 3, TWO)), "R 28 43 0"),
    ("16, raw 2, not last", plans(2, entry(16, 3, TWO), EXACT), "R 28 43 0"),
    ("14, raw 2", plans(1, entry(14, 3, TWO)), "R 28 43 0"),
    ("15, raw 0, filler 2", plans(1, entry(15, 3, NONE, "aabb")), "R 28 41 0"),
    ("14, raw 0, filler 1", plans(1, entry(14, 3, NONE, "aa")), "R 28 41 0"),
    ("15, raw 0, filler 2, not last", plans(2, entry(15, 3, NONE, "aabb"), EXACT), "R 28 41 0"),
    ("15, raw 0, filler 1", plans(1, entry(15, 3, NONE, "aa")), body(3, plan(15, 3, "aa"))),
    ("15, raw 0", plans(1, entry(15, 3, NONE)), body(3, plan(15, 3))),
    ("15, raw 0, filler 1, not last", plans(2, entry(15, 3, NONE, "aa"), EXACT), "R 28 41 0"),
    ("15, raw 0, not last", plans(2, entry(15, 3, NONE), EXACT), "R 28 41 0"),
    ("15, raw 0, filler 3", plans(1, entry(15, 3, NONE, "aabbcc")), "R 28 41 0"),
    ("13, raw 0, filler 1", plans(1, entry(13, 3, NONE, "aa")), "R 28 41 0"),
    ("12, raw 0", plans(1, entry(12, 3, NONE)), "R 28 41 0"),
    ("13, raw number missing", plans(1, entry(13, 3, "")[:-4]), "R 23 37 0"),
    ("15, raw bytes missing", plans(1, entry(15, 3, "0002 aa")[:-4]), "R 23 39 0"),
    ("15, raw 2, filler's count missing", plans(1, entry(15, 3, TWO)[:-4]), "R 23 41 0"),
    ("13, raw 65,535 missing", plans(1, entry(13, 3, "ffff")), "R 23 39 0"),
    # The last plan is the last by the count.
    ("count 3, the second open and the third missing", plans(3, EXACT, OPEN), "R 28 116 0"),
    ("count 3, the third missing", plans(3, EXACT, EXACT), "R 23 116 0"),
    ("count 3, the second an open raw plan", plans(3, EXACT, entry(15, 3, NONE, "aa")), "R 28 96 0"),
    ("count 1, two plans, the first open", plans(1, OPEN, EXACT), "R 23 61 0"),
    ("count 1, two plans", plans(1, EXACT, EXACT), "R 23 61 0"),
    ("count 2, three plans, the second open", plans(2, EXACT, OPEN, EXACT), "R 23 116 0"),
    ("a byte over", plans(1, EXACT, "00"), "R 23 61 0"),
    ("a byte over behind an open plan", plans(1, OPEN, "aa"), "R 23 61 0"),
    # 26 counts the bytes there, the filler with them.
    ("kept 4,096, 4,101 named", plans(1, entry(4095, 0, DWELLS, "5a" * 4065)),
     body(3, plan(4095, 0, DWELL + "5a" * 4065))),
    ("kept 4,097", plans(1, entry(4091, 0, DWELLS, "5a" * 4066)), "R 26 4097 4096"),
    ("kept 4,101", plans(1, entry(4095, 0, DWELLS, "5a" * 4070)), "R 26 4101 4096"),
    ("kept 4,097 and a byte over", plans(1, entry(4091, 0, DWELLS, "5a" * 4066), "00"), "R 23 4127 0"),
    ("4,095, raw 4,083: kept 4,102", plans(1, entry(4095, 3, "0ff3" + "a5" * 4083)), "R 28 4124 0"),
    ("raw 4,083 in edition 1: plain 4,102",
     listed(3, "0001 00000000 00 00 03" + CLOCK * 2 + "0ff3" + "a5" * 4083, 1), "R 26 4102 4096"),
    ("id 9, 4,097 bytes", listed(9, "00" * 4097), "R 26 4097 4096"),
    # The other edition and other ids.
    ("P8, edition 1", P8_LINE, body(3, any_plan(25))),
    ("P8 of edition 1 under version 2", P8_LINE.replace("003701", "003702"), "R 23 57 0"),
    ("P8 of edition 2 under version 1", listed(3, "0001" + EXACT, 1), "R 25 12 0"),
    ("no plan, edition 1", "000401030000", "03"),
    ("P3", P3_LINE.replace("000e01", "000e02"), body(0, P3)),
    ("id 0, satellite_id wide", listed(0, "0001 01000007 00 00 0120 01 00"), "R 25 6 0"),
    ("id 0, system 2", listed(0, "0001 00000007 00 02 0120 01 00"), "R 25 11 0"),
    ("id 0, west_east missing", listed(0, "0001 00000007 00 00 0120"), "R 23 14 0"),
    ("id 1, latitude too low", centred("fffdffff", 2), "R 25 13 0"),
    ("id 2, leap flag 2", listed(2, "01 00 01 02 01" + ASSOCIATION), "R 25 7 0"),
    ("id 2, a byte over", listed(2, "00 00" + ASSOCIATION + "00"), "R 23 29 0"),
    ("id 4, header cut", listed(4, "00 00 00 00 0000"), "R 23 10 0"),
    ("id 5, empty", "00020205", "05"),
    ("id 255", "000402ffaabb", "ffaabb"),
    # S-23: the reader takes any extension of 9 bits, as before.
    ("299", listed(3, FRONT + clocks_listed(299, 299, 299, 299) + "0000"), body(3, timed(25, 0, 299, 299, 299, 299))),
    ("application 300", listed(3, FRONT + clocks_listed(300, 0, 0, 0) + "0000"), body(3, timed(25, 0, 300, 0, 0, 0))),
    ("on time 511", listed(3, FRONT + clocks_listed(*LATE_ON_TIME) + "0000"), body(3, timed(25, 0, *LATE_ON_TIME))),
    ("on time 512", listed(3, FRONT + clocks_listed(299, 0, 0, 512) + "0000"), "R 25 57 0"),
    ("application 300, cycle 512", listed(3, FRONT + clocks_listed(300, 512, 0, 0) + "0000"), "R 25 35 0"),
    ("application 300, 24", listed(3, "0001 00000000 00 0018 00 00" + clocks_listed(300, 0, 0, 0) + "0000"),
     "R 28 61 0"),
    ("all 511, edition 1", listed(3, "0001" + timed_listed(2, *[511] * 6), 1), body(3, timed(37, 2, *[511] * 6))),
    ("raw plan, cycle 300, edition 1", listed(3, "0001" + timed_listed(3, 0, 300, rest=TWO), 1),
     body(3, timed(15, 3, 0, 300, rest=b"\xaa\xbb"))),
    ("id 1, 300 and 511", listed(1, "0001" + cell_listed([0, 300], [511])), body(1, cell([0, 300], [511]))),
    ("id 1, 300 and 511, edition 1", listed(1, "0001" + cell_listed([0, 300], [511]), 1),
     body(1, cell([0, 300], [511]))),
    ("id 1, obsolescent system 512", listed(1, "0001" + cell_listed([], [512])), "R 25 34 0"),
    ("id 2, 300", listed(2, "00 00" + clocks_listed(300) + TIME), body(2, associated(300))),
    ("id 2, 511, edition 1", listed(2, "00 00" + clocks_listed(511) + TIME, 1), body(2, associated(511))),
    ("id 2, 512", listed(2, "00 00" + clocks_listed(512) + TIME), "R 25 15 0"),
]
