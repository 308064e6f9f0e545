#!/usr/bin/env python3
"""Lists the different ids of a body's entries, first met first, read by documents 01 and 02 (S-10) alone.

Use: ids.py [ROOM]        a line for each case of standard input: its ids, or its refusal
     ids.py --few SEED    the cases of standard input, with ids drawn from a small pool for each
     ids.py --check       the replay list, as it is stored and after `--few 1`

A case is a line of hexadecimal: the table id byte, then the body, of any length. ROOM is the number of
ids that the lent buffer holds; without it nothing is refused for want of room. The reading of each
entry is read.py's; the list, and the refusals before the first entry, are written a second time here.
"""

import os
import random
import sys

sys.dont_write_bytecode = True
sys.path.insert(0, os.path.dirname(os.path.abspath(__file__)))
from oracle import stored  # noqa: E402
from read import BY_30, ENTRIES, Body, Refused, association, line  # noqa: E402

# Bytes of an entry's id, by table id. The other tables have no ids.
WIDTH = {0: 3, 1: 4, 3: 4, 4: 3}


def places(table_id, data):
    """The first byte of each entry that has an id, one by one as they are read; then the refusal, if any."""
    if len(data) > 4096:
        raise Refused(21, len(data), 4096)
    if not data and table_id in (2, 4):
        raise Refused(2, 1, 0)
    b = Body(data)
    if table_id == 2:
        association(b)
    if table_id == 4:
        b.wants(15, 64)
        b.take(64)
    least, one = ENTRIES.get(table_id, (b.end + 1, None))
    while b.left() >= least:
        at, rest = divmod(b.place, 8)
        assert rest == 0
        one(b)
        yield at


def ids(table_id, data, room=None):
    """The different ids in the order of their first entries. The body is read to its end before any is kept."""
    starts, found = list(places(table_id, data)), []
    for at in starts:
        value = int.from_bytes(data[at:at + WIDTH[table_id]], "big")
        if value not in found:
            found.append(value)
    if room is not None and len(found) > room:
        raise Refused(22, len(found), room)
    return found


def answer(case, room=None):
    case = bytes.fromhex(case)
    if not case:
        return "no input"
    try:
        return " ".join(["ids", *map(str, ids(case[0], case[1:], room))])
    except Refused as refused:
        return str(refused)


def outcome(table_id, data):
    """The places of the entries that could be read, and the refusal behind them or None."""
    starts = []
    try:
        for at in places(table_id, data):
            starts.append(at)
    except Refused as refused:
        return starts, str(refused)
    return starts, None


def pool(draw, most, width):
    """From 1 to `most` different values of so many bytes."""
    bits, values = 8 * width, []
    size = draw.randint(1, most)
    while len(values) < size:
        kind = draw.randrange(6)
        value = draw.getrandbits(bits)
        if kind == 0:
            value = 0
        elif kind == 1:
            value = (1 << bits) - 1
        elif kind < 4 and values:
            value = draw.choice(values) ^ 1 << draw.randrange(bits)
        if value not in values:
            values.append(value)
    return values


def few(draw, case):
    """The case with other ids, and nothing else of it changed."""
    case = bytes.fromhex(case)
    if not case:
        return ""
    table_id, data = case[0], bytearray(case[1:])
    before = starts, _ = outcome(table_id, data)
    if starts:
        width = WIDTH[table_id]
        values = pool(draw, min(6, len(starts)), width)
        for at in starts:
            data[at:at + width] = draw.choice(values).to_bytes(width, "big")
    assert outcome(table_id, data) == before
    return (case[:1] + data).hex()


def fews(seed, cases):
    draw = random.Random(seed)
    return [few(draw, case) for case in cases]


def every(table_id, data):
    """Each entry's id, repeated ones too, from the ledger: there any id is an entry's first four bytes."""
    b, found = Body(data), []
    if table_id == 4:
        b.place = 64
    least, one = ENTRIES.get(table_id, (b.end + 1, None))
    while b.left() >= least:
        at = len(b.out)
        one(b)
        found.append(int.from_bytes(b.out[at:at + 4], "big"))
    return found


def counted(table_id, ledger):
    """The number of entries that a ledger names; 0 for the tables without ids."""
    at = 14 if table_id == 4 else 4
    return int.from_bytes(ledger[at:at + 2], "big") if table_id in ENTRIES else 0


def holds(result, given):
    """Whether this result is right for entries with the given ids."""
    return (all(i in result for i in given) and all(i in given for i in result)
            and all(result.count(i) == 1 for i in result)
            and all(given.index(i) < given.index(j) for i, j in zip(result, result[1:])))


def last_order(given):
    """The different ids by their last entry."""
    return [i for place, i in enumerate(given) if i not in given[place + 1:]]


def check(name, cases):
    repeated = turned = refused = by_30 = 0
    wrong = []
    for number, case in enumerate(cases, 1):
        mine, theirs = answer(case), line(case)
        if mine.startswith("R") or theirs.startswith("R"):
            refused += 1
            by_30 += mine.startswith(BY_30)
            good = mine == theirs
        else:
            data = bytes.fromhex(case)
            word, *result = mine.split(" ")
            result = [int(i) for i in result]
            given = every(data[0], data[1:])
            good = word == "ids" and holds(result, given)
            good = good and len(given) == counted(data[0], bytes.fromhex(theirs))
            repeated += any(given.count(i) > 1 for i in given)
            turned += result != last_order(given)
        if not good:
            wrong.append(number)
    if not (repeated and turned and by_30):
        wrong.append(1)  # such cases would show nothing of the order, or of S-23
    for number in wrong[:10]:
        print(f"{name}, case {number}: {cases[number - 1][:60]}")
    print(f"{name}: {len(cases)} cases, {repeated} bodies with a repeated id, {turned} where the last entries"
          f" stand in another order, {refused} refusals, {by_30} of them by 30, {len(wrong)} differences")
    return len(wrong)


def given_cases():
    return (case.strip() for case in sys.stdin)


def main():
    first, *rest = sys.argv[1:] or [None]
    if first == "--check" and not rest:
        cases = stored("bodies.txt")
        wrong = check("replay list", cases) + check("few ids", fews(1, cases))
        sys.exit(1 if wrong else 0)
    if first == "--few" and len(rest) == 1 and rest[0].isdecimal():
        for case in fews(int(rest[0]), given_cases()):
            print(case)
    elif not rest and (first is None or first.isdecimal()):
        room = None if first is None else int(first)
        for case in given_cases():
            print(answer(case, room))
    else:
        sys.exit(__doc__)


if __name__ == "__main__":
    main()
