"""Document 01's samples, edges of its reading, of S-23 and of the places of S-11: (name, table id, body, output line).

The lines were worked out by hand from documents 01 and 02, not taken from the oracle.
"""

ZERO = bytes(4096)


def plan(length, size=31, mode=0, rest=b""):
    """A plan of zeros but for its length, its mode and the bytes behind the clocks."""
    head = bytes(4) + length.to_bytes(2, "big") + bytes([mode]) + bytes(12)
    return (head + rest + ZERO)[:size]


def fragment(latitude):
    """A fragment of zeros with a centre; its 18-bit latitude starts at bit 38."""
    value = 1 << (19 * 8 - 33) | latitude << (19 * 8 - 38 - 18)
    return value.to_bytes(19, "big")


def listed(table_id, fields, edition=1):
    """The output line for these ledger fields, given in hexadecimal."""
    rest = bytes([edition, table_id]) + bytes.fromhex(fields)
    return (len(rest).to_bytes(2, "big") + rest).hex()


def centred(latitude, edition=1):
    return listed(1, "0001 00000000 01 00 00" + latitude + "00 00000000 00000000 00"
                  "0000 00 0000 00 0000", edition)


def clock(extension):
    """A clock of zeros but for its extension, in the body."""
    return extension.to_bytes(6, "big")


def clocks(*extensions):
    return b"".join(map(clock, extensions))


def clocks_listed(*extensions):
    return "".join(f"0000000000000000 00 {extension:04x}" for extension in extensions)


def timed(length, mode, *extensions, rest=b""):
    """A plan of zeros but for its length, its mode and its clocks, with the bytes behind them."""
    return bytes(4) + length.to_bytes(2, "big") + bytes([mode]) + clocks(*extensions) + rest


def timed_listed(mode, *extensions, rest=""):
    return PLAN + f"{mode:02x}" + clocks_listed(*extensions) + rest


def systems(*extensions):
    """A list of new or obsolescent systems: r6, the count, and each with its id and its clock."""
    return len(extensions).to_bytes(2, "big") + b"".join(bytes(4) + clock(e) for e in extensions)


def systems_listed(*extensions):
    return f"00 {len(extensions):04x}" + "".join("00000000" + clocks_listed(e) for e in extensions)


def cell(new=(), old=()):
    """A fragment of zeros without centre and ids, with new and obsolescent systems."""
    return bytes(6) + systems(*new) + systems(*old)


def cell_listed(new=(), old=()):
    return "00000000 00 00 00 0000" + systems_listed(*new) + systems_listed(*old)


def associated(extension, first=0, size=19):
    """A time association of zeros but for its first byte and its clock."""
    return (bytes([first]) + clock(extension) + bytes(12))[:size]


CLOCK = clocks_listed(0)
PLAN = "00000000 00 00"
P3 = bytes.fromhex("00000700012080")
P3_LINE = "000e0100000100000007000001200100"
P8_LINE = listed(3, "0001" + PLAN + "00" + CLOCK * 4)
HEADER = "00 00 00 00 0000 00000000"

SAMPLES = [
    ("P1", 0, b"", "000401000000"),
    ("P2", 0, bytes.fromhex("000007010120"), "R 4 344 16"),
    ("P3", 0, P3, P3_LINE),
    ("P4", 0, P3 + b"\xff", P3_LINE),
    ("P5", 1, bytes(5), "R 1 48 40"),
    ("P6", 2, b"", "R 2 1 0"),
    ("P7", 3, plan(24), "R 14 8 0"),
    ("P8", 3, plan(25), P8_LINE),
    ("P9", 3, plan(4095), P8_LINE),
    ("P10", 5, b"", "00020105"),
    ("P11", 1, fragment(0x20000), centred("fffe0000")),
    ("P12", 1, fragment(0x1FFFF), centred("0001ffff")),
    ("Run: id 0, 3 bytes", 0, bytes(3), "000401000000"),
    ("Run: id 2, 18 bytes", 2, bytes(18), "R 9 152 144"),
    ("Run: id 3, 6 bytes", 3, bytes(6), "R 1 54 48"),
    ("Run: id 3, 19 bytes", 3, bytes(19), "R 10 96 0"),
    ("Run: id 4, 7 bytes", 4, bytes(7), "R 15 64 56"),
    ("Run: id 4, 12 bytes", 4, bytes(12), "R 1 112 96"),
    ("Run: id 9, 4,096 bytes", 9, ZERO, listed(9, ZERO.hex())),
    ("Run: id 9, 4,097 bytes", 9, bytes(4097), "R 21 4097 4096"),
    # Edges of the reading.
    ("id 4 empty", 4, b"", "R 2 1 0"),
    ("id 1 empty", 1, b"", "000401010000"),
    ("id 3 empty", 3, b"", "000401030000"),
    ("id 4, header alone", 4, bytes(8), listed(4, HEADER + "0000")),
    ("id 4, header and 3 bytes", 4, bytes(11), listed(4, HEADER + "0000")),
    ("usable flags without metadata", 4, bytes(10) + b"\x07\x0c" + bytes(2),
     listed(4, HEADER + "0001 00000007 00 00 01 01 00 00 0000")),
    ("raw end at the data's end", 3, plan(15, 21, 3, b"\xaa\xbb"),
     listed(3, "0001" + PLAN + "03" + CLOCK * 2 + "0002 aabb")),
    ("raw end one byte further", 3, plan(16, 21, 3, b"\xaa\xbb"),
     listed(3, "0001" + PLAN + "03" + CLOCK * 2 + "0000")),
    ("raw plan too short", 3, plan(12, 21, 3), "R 14 8 0"),
    ("padding set", 3, plan(18, 24, 1, b"\x00\x03\x00\x02\xff"),
     listed(3, "0001" + PLAN + "01" + CLOCK * 2 + "00 0003 00 0002 e0")),
    ("over the limit before empty list", 0, bytes(4097), "R 21 4097 4096"),
]

TIME = "0000000000000000 00000000"
FULL = b"\xff" * 6

# S-23: an extension above 299 is refused right where it stands, and what has no clock is not tested.
EXTENSIONS = [
    ("id 2, 299", 2, associated(299), listed(2, "00 00" + clocks_listed(299) + TIME)),
    ("id 2, 300", 2, associated(300), "R 30 300 299"),
    ("id 2, 511", 2, associated(511), "R 30 511 299"),
    ("id 2, 299, reserved bits set", 2, associated(63 << 9 | 299),
     listed(2, "00 00 0000000000000000 3f 012b" + TIME)),
    ("id 2, 300, leap flags", 2, associated(300, 0x15), "R 30 300 299"),
    ("id 2, 300, 18 bytes", 2, associated(300, 0, 18), "R 9 152 144"),
    ("id 2, 300, 4,097 bytes", 2, associated(300) + bytes(4078), "R 21 4097 4096"),
    ("id 2, bytes behind", 2, associated(0) + FULL, listed(2, "00 00" + CLOCK + TIME)),
    # Fragments: the size of a list is tested before its clocks.
    ("id 1, 299 in both lists", 1, cell([299, 299], [0, 299]), listed(1, "0001" + cell_listed([299, 299], [0, 299]))),
    ("new system, 300", 1, cell([300]), "R 30 300 299"),
    ("second new system, 511", 1, cell([299, 511]), "R 30 511 299"),
    ("third new system, 301", 1, cell([0, 0, 301, 302]), "R 30 301 299"),
    ("obsolescent system, 300", 1, cell([], [300]), "R 30 300 299"),
    ("second obsolescent system, 400", 1, cell([299], [0, 400]), "R 30 400 299"),
    ("new system, 300, the second missing", 1, bytes(6) + systems(300, 300)[:12], "R 7 160 80"),
    ("new system, 300, its last byte missing", 1, bytes(6) + systems(300)[:11], "R 7 80 72"),
    ("new system, 300, nothing behind", 1, bytes(6) + systems(300), "R 30 300 299"),
    ("new system, 299, nothing behind", 1, bytes(6) + systems(299), "R 1 150 144"),
    ("obsolescent system, 300, the second missing", 1, cell([0], [300, 300])[:-10], "R 8 160 80"),
    ("new system, 300, obsolescent ones missing", 1, cell([300], [300, 300])[:-10], "R 30 300 299"),
    ("new system, 300, then obsolescent 400", 1, cell([300], [400]), "R 30 300 299"),
    ("second fragment, 300", 1, cell([299]) + cell([], [300]), "R 30 300 299"),
    ("300, then half a fragment", 1, cell([300]) + bytes(5), "R 30 300 299"),
    ("ids missing, 300 among the bytes there", 1, bytes(5) + b"\x09" + systems(300), "R 6 288 96"),
    ("ids and leftovers full", 1, bytes(4) + b"\0\x02" + b"\xff" * 8 + systems(0) + systems() + FULL[:4],
     listed(1, "0001 00000000 00 00 00 0002 ffffffff ffffffff" + systems_listed(0) + systems_listed())),
    # Plans, mode 0.
    ("mode 0, 299", 3, timed(25, 0, 299, 299, 299, 299), listed(3, "0001" + timed_listed(0, 299, 299, 299, 299))),
    ("mode 0, application 300", 3, timed(25, 0, 300, 0, 0, 0), "R 30 300 299"),
    ("mode 0, cycle 301", 3, timed(25, 0, 299, 301, 0, 0), "R 30 301 299"),
    ("mode 0, dwell 302", 3, timed(25, 0, 299, 299, 302, 0), "R 30 302 299"),
    ("mode 0, on time 303", 3, timed(25, 0, 299, 299, 299, 303), "R 30 303 299"),
    ("mode 0, 511 and 300", 3, timed(25, 0, 0, 511, 300, 300), "R 30 511 299"),
    ("mode 0, dwell 300, a byte missing", 3, timed(25, 0, 0, 0, 300, 300)[:-1], "R 10 96 88"),
    ("mode 0, cycle 300, all behind missing", 3, timed(25, 0, 0, 300), "R 30 300 299"),
    ("application 300, a byte missing", 3, timed(25, 0, 300)[:-1], "R 1 104 96"),
    ("application 300, all behind missing", 3, timed(25, 0, 300), "R 30 300 299"),
    ("application 299, all behind missing", 3, timed(25, 0, 299), "R 1 137 104"),
    ("application 300, cycle cut", 3, timed(25, 0, 300, 300)[:-1], "R 30 300 299"),
    ("cycle 300, a byte missing", 3, timed(25, 0, 0, 300)[:-1], "R 1 152 144"),
    ("mode 0, length 24, on time 300", 3, timed(24, 0, 0, 0, 0, 300), "R 30 300 299"),
    ("mode 0, length 0, application 300", 3, timed(0, 0, 300, 0, 0, 0), "R 30 300 299"),
    # Mode 1.
    ("mode 1, 299", 3, timed(18, 1, 299, 299, rest=b"\0\x08\0\0\xff"),
     listed(3, "0001" + timed_listed(1, 299, 299, rest="00 0008 00 0000 ff"))),
    ("mode 1, application 300", 3, timed(18, 1, 300, 0, rest=b"\0\x08\0\0\xff"), "R 30 300 299"),
    ("mode 1, cycle 300, head missing", 3, timed(18, 1, 0, 300), "R 30 300 299"),
    ("mode 1, cycle 300, slots missing", 3, timed(18, 1, 0, 300, rest=b"\0\x08\0\0"), "R 30 300 299"),
    ("mode 1, all full behind the clocks", 3, timed(4095, 1, 0, 0, rest=b"\0\x30\xff\xff" + FULL),
     listed(3, "0001" + timed_listed(1, 0, 0, rest="00 0030 01 7fff ffffffffffff"))),
    # Mode 2.
    ("mode 2, 299", 3, timed(37, 2, *[299] * 6), listed(3, "0001" + timed_listed(2, *[299] * 6))),
    ("mode 2, application 300", 3, timed(37, 2, 300, 0, 0, 0, 0, 0), "R 30 300 299"),
    ("mode 2, cycle 300", 3, timed(37, 2, 0, 300, 0, 0, 0, 0), "R 30 300 299"),
    ("mode 2, grid 301", 3, timed(37, 2, 0, 0, 301, 0, 0, 0), "R 30 301 299"),
    ("mode 2, revisit 302", 3, timed(37, 2, 0, 0, 0, 302, 0, 0), "R 30 302 299"),
    ("mode 2, sleep time 303", 3, timed(37, 2, 0, 0, 0, 0, 303, 0), "R 30 303 299"),
    ("mode 2, sleep duration 304", 3, timed(37, 2, 0, 0, 0, 0, 0, 304), "R 30 304 299"),
    ("mode 2, grid 300, a byte missing", 3, timed(37, 2, 0, 0, 300, 0, 0, 0)[:-1], "R 13 192 184"),
    ("mode 2, length 36, sleep duration 511", 3, timed(36, 2, 0, 0, 0, 0, 0, 511), "R 30 511 299"),
    # Mode 3: both clocks, but not the raw bytes.
    ("mode 3, application 300", 3, timed(13, 3, 300, 0), "R 30 300 299"),
    ("mode 3, cycle 300", 3, timed(13, 3, 299, 300), "R 30 300 299"),
    ("mode 3, cycle 511, past the data", 3, timed(4095, 3, 0, 511), "R 30 511 299"),
    ("mode 3, length 12, cycle 300", 3, timed(12, 3, 0, 300), "R 30 300 299"),
    ("mode 3, 299, raw bytes full", 3, timed(25, 3, 299, 299, rest=FULL * 2),
     listed(3, "0001" + timed_listed(3, 299, 299, rest="000c" + "ff" * 12))),
    # Filler, leftovers, several plans.
    ("filler full", 3, timed(37, 0, 0, 0, 0, 0, rest=FULL * 2), P8_LINE),
    ("filler full, past the data", 3, timed(4095, 0, 0, 0, 0, 0, rest=FULL * 4), P8_LINE),
    ("5 left over, full", 3, timed(25, 0, 0, 0, 0, 0, rest=FULL[:5]), P8_LINE),
    ("second plan, application 300", 3, timed(25, 0, 0, 0, 0, 0) + timed(13, 3, 300, 0), "R 30 300 299"),
    ("second plan, cycle 511", 3, timed(13, 3, 299, 299) + timed(13, 3, 299, 511), "R 30 511 299"),
    ("length 24, then 300", 3, timed(24, 0, 0, 0, 0, 0) + timed(13, 3, 300, 0), "R 14 8 0"),
    ("cycle 300, then length 12", 3, timed(13, 3, 0, 300) + timed(12, 3, 0, 0), "R 30 300 299"),
    ("a plan with 300 within another's raw bytes", 3, timed(32, 3, 0, 0, rest=timed(13, 3, 300, 300)),
     listed(3, "0001" + timed_listed(3, 0, 0, rest="0013" + timed(13, 3, 300, 300).hex()))),
    # Long bodies, the last clock at fault.
    ("132 plans, the last on time 300", 3, timed(25, 0, 0, 0, 0, 0) * 131 + timed(25, 0, 0, 0, 0, 300), "R 30 300 299"),
    ("408 new systems, the last 511", 1, cell([299] * 407 + [511]), "R 30 511 299"),
    # No clocks.
    ("id 0, elements full", 0, b"\0\0\0\x01" + b"\xff" * 43, listed(0, "0001 00000000 00 01" + "ff" * 43)),
    ("id 4, day 511", 4, b"\0\0\x01\xff" + bytes(4), listed(4, "00 00 00 00 01ff 00000000 0000")),
    ("id 9, a plan with 511", 9, timed(13, 3, 511, 511), listed(9, timed(13, 3, 511, 511).hex())),
]
SAMPLES += EXTENSIONS

BYTES = bytes(range(256)) * 16


def filled(size):
    """A plan of mode 0 with filler up to this size."""
    return timed(size - 6, 0, 1, 2, 3, 4, rest=BYTES[:size - 31])


def slots(length, size):
    """A plan of mode 1 that names so many slots, and 4,073 bytes for them: 4,096 in all."""
    return timed(length, 1, 5, 6, rest=size.to_bytes(2, "big") + b"\x7f\x47" + BYTES[:4073])


def observed(count, ledger=False):
    """So many ephemeris entries without acceleration: 31 bytes each, or 32 in the ledger, where r7 has a byte."""
    reserved = b"\0" if ledger else b""
    return b"".join(bytes([i]) + reserved + i.to_bytes(2, "big") + BYTES[i:i + 28] for i in range(count))


def circling(count, ledger=False):
    """So many satellites with elements: 47 bytes each, or 49 in the ledger."""
    head = "000000{:02x} 00 01" if ledger else "0000{:02x} 01"
    return b"".join(bytes.fromhex(head.format(i)) + BYTES[i:i + 43] for i in range(count))


FILLED = timed_listed(0, 1, 2, 3, 4)
FOUR = bytes(4) + b"\0\x04" + BYTES[:16]
TURNS = [i % 300 for i in range(407)]

# S-11: places and sizes at the limits of what 16 bits hold. Most of these bodies have 4,096 bytes, 32,768 bits: fields
# end with the last of them or just miss it, a plan's end is as far as 65,528, and lists ask for more than 65,535.
PLACES = [
    # Plans: the last one in the last bytes, or one over the whole body.
    ("raw plan in the last 19 bytes, end at bit 65,424", 3, filled(4077) + timed(4095, 3, 299, 298),
     listed(3, "0002" + FILLED + timed_listed(3, 299, 298, rest="0000"))),
    ("raw plan in the last 21 bytes, end at bit 32,768", 3, filled(4075) + timed(15, 3, 299, 298, rest=b"\xaa\xbb"),
     listed(3, "0002" + FILLED + timed_listed(3, 299, 298, rest="0002 aabb"))),
    ("raw plan in the last 21 bytes, end at bit 32,776", 3, filled(4075) + timed(16, 3, 299, 298, rest=b"\xaa\xbb"),
     listed(3, "0002" + FILLED + timed_listed(3, 299, 298, rest="0000"))),
    ("raw plan in the last 19 bytes, too short", 3, filled(4077) + timed(12, 3, 299, 298), "R 14 8 0"),
    ("plan length in the last bits, end at bit 65,528", 3, filled(4090) + timed(4095, 3)[:6], "R 1 32774 32768"),
    ("application clock in the last bits", 3, filled(4083) + timed(4095, 3, 299), "R 1 32801 32768"),
    ("one plan of mode 0, end at bit 32,808", 3, timed(4095, 0, 1, 2, 3, 4, rest=BYTES[:4065]),
     listed(3, "0001" + FILLED)),
    ("one raw plan, end at bit 32,768", 3, timed(4090, 3, 5, 6, rest=BYTES[:4077]),
     listed(3, "0001" + timed_listed(3, 5, 6, rest=f"{4077:04x}" + BYTES[:4077].hex()))),
    ("32,584 slots, the last in the last bit", 3, slots(4090, 32584),
     listed(3, "0001" + timed_listed(1, 5, 6, rest="00 7f48 00 7f47" + BYTES[:4073].hex()))),
    ("32,585 slots, room for one less", 3, slots(4090, 32585), "R 12 32585 32584"),
    ("32,584 slots, plan length 0", 3, slots(0, 32584), "R 14 32720 0"),
    # Fragments: lists that are too long for the body, or for any, and lists that just fit.
    ("1,023 new systems, 150 bytes there", 1, bytes(6) + b"\x03\xff" + BYTES[:150], "R 7 81840 1200"),
    ("820 new systems, 64 bits above 65,536", 1, bytes(6) + b"\x03\x34" + BYTES[:4088], "R 7 65600 32704"),
    ("1,023 obsolescent systems", 1, bytes(8) + b"\x03\xff" + BYTES[:4086], "R 8 81840 32688"),
    ("1,023 ids, room for 1,022", 1, bytes(4) + b"\x03\xff" + BYTES[:4090], "R 6 32736 32720"),
    ("1,022 ids, count of new systems in the last bits", 1, bytes(4) + b"\x03\xfe" + BYTES[:4088] + bytes(2),
     "R 1 32774 32768"),
    ("407 obsolescent systems, the last clock in the last bits", 1, FOUR + systems() + systems(*TURNS),
     listed(1, "0001 00000000 00 00 00 0004" + BYTES[:16].hex() + systems_listed() + systems_listed(*TURNS))),
    ("408 obsolescent systems, room for 407", 1, FOUR + systems() + b"\x01\x98" + BYTES[:4070], "R 8 32640 32560"),
    # Satellites: as many as the body holds, or up to the one that is cut.
    ("65,535 ephemeris entries, five there and ten bytes", 4, bytes(12) + b"\xff\xff" + BYTES[:165], "R 19 248 80"),
    ("65,535 with acceleration, the 95th cut", 4, bytes(11) + b"\x02\xff\xff" + BYTES[:4082], "R 19 344 320"),
    ("131 ephemeris entries, a satellite's count in the last bits", 4,
     bytes(8) + b"\0\0\x01\x10" + bytes(15) + b"\0\x83" + observed(131) + b"\0\0\x02" + bytes(3),
     listed(4, HEADER + "0002 00000001 00 01 00 00 00 00" + "00" * 20 + "0083" + observed(131, True).hex()
            + "00000002 00 00 00 00 00 00 0000")),
    ("87 satellites with elements, one without in the last bits", 0, circling(87) + P3,
     listed(0, "0058" + circling(87, True).hex() + P3_LINE[12:])),
    ("88 satellites with elements, the last cut", 0, circling(87) + b"\0\0\x07\x01" + BYTES[:3], "R 4 344 24"),
    ("system 0 in the last bit", 0, P3 * 551 + circling(5) + P3[:4], "R 3 24 0"),
    # A byte more: nothing of the body counts.
    ("raw plan at the end of 4,097 bytes", 3, filled(4078) + timed(4095, 3, 299, 298), "R 21 4097 4096"),
]
SAMPLES += PLACES


def case_line(sample):
    return (bytes([sample[1]]) + sample[2]).hex()
