#!/usr/bin/env python3
"""Clock extensions above 299 (request S-23): ledgers that hold one, and wrong readings of bodies.

Use: extensions.py --check                             stored.txt, and the slips on the replay list
     extensions.py --pick BODIES LEDGERS EDITION_2     writes stored.txt of the lists as they were before S-23

stored.txt has ledgers that were written before S-23 and hold an extension above 299, a line each: the ledger, the
table id and the body that the ledger reader gives, and how this body is refused now (`R,30,300,299`). They are
still read, and their bodies are not. editions.py --check makes both checks too.
"""

import os
import sys
from collections import Counter

sys.dont_write_bytecode = True
sys.path.insert(0, os.path.dirname(os.path.abspath(__file__)))
from ledgers import Fault, answer, read_ledger  # noqa: E402
from oracle import store, stored  # noqa: E402
from read import LARGEST, Before, Refused, body_as, first_beyond, ledger, line, whole  # noqa: E402
from slips import BODY_SLIPS, KINDS, SLIPS  # noqa: E402

NAME = "stored.txt"
EACH = 9
LONG = 3500
LEAST = 3
# Bodies of more digits are left out where every slip reads the list: the short ones are to show them all.
DIGITS = 1200


def stored_line(given):
    """A ledger with its body and the refusal of that, or None if 30 does not refuse it."""
    case = answer(given)
    refusal = whole(bytes.fromhex(case))
    return f"{given.hex()} {case} {refusal.replace(' ', ',')}" if first_beyond(case) else None


def problems_of(text):
    """What does not hold of a line: read back, the ledger of its body before S-23, and refused by 30 now."""
    given, case, refusal = text.split(" ")
    given, body = bytes.fromhex(given), bytes.fromhex(case)[1:]
    try:
        edition, table_id, found = read_ledger(given)
        kind, value = first_beyond(case)
        tests = {
            "the id and the body": (table_id, found) == (int(case[:2], 16), body),
            "the ledger of the body, before": ledger(table_id, body, edition, Before) == given,
            "the body of the body, before": body_as(table_id, body, edition, Before) == body,
            "an extension of 300 to 511": kind in KINDS and LARGEST < value < 512,
            "the stored refusal": refusal == f"R,30,{value},{LARGEST}",
            "the refusal now": whole(bytes.fromhex(case)) == refusal.replace(",", " "),
        }
    except (Fault, Refused, TypeError) as wrong:
        return [f"refused on the way: {wrong}"]
    return [name for name, holds in tests.items() if not holds]


def check_stored():
    """The name of the list, what was compared, and the problems: by line, by kind of clock, and by slip."""
    lines = stored(NAME)
    problems = [f"line {number}: {what}" for number, text in enumerate(lines, 1) for what in problems_of(text)]
    counts = Counter((int(text[4:6], 16), (first_beyond(text.split(" ")[1]) or ["none"])[0]) for text in lines)
    problems += [f"fewer than {LEAST} lines of edition {edition}: {kind}" for edition in (1, 2) for kind in KINDS
                 if counts[edition, kind] < LEAST]
    reader = SLIPS["30 from the ledger reader"]
    shown = sum(not answer(bytes.fromhex(text.split(" ")[0]), reader).startswith("R 30 ") for text in lines)
    problems += [f"{shown} lines do not show a ledger reader that says 30"] if shown else []
    parts = ", ".join(f"{sum(n for (e, _), n in counts.items() if e == edition)} of edition {edition}"
                      for edition in (1, 2))
    return NAME, f"{len(lines)} ledgers, {parts}, {len(KINDS)} kinds of clock in each", problems


def check_body_slips():
    """Slips of the reading of bodies that the replay list does not show; the number of bodies is printed for each."""
    cases = [case for case in stored("bodies.txt") if case[:2] in ("01", "02", "03") and len(case) <= DIGITS]
    right, problems = [line(case) for case in cases], []
    for name, rules in BODY_SLIPS.items():
        shown = sum(line(case, rules) != given for case, given in zip(cases, right))
        print(f"  shown by {shown} bodies: {name}")
        problems += [] if shown else [f"no body shows: {name}"]
    return "bodies.txt, S-23", f"{len(cases)} short bodies, {len(BODY_SLIPS)} wrong readings", problems


def ledgers_of(lines):
    """The ledgers among these words that hold such an extension: each with its edition, its kind and its body."""
    for text in lines:
        if not text.startswith(("R", "n")):
            edition, table_id, body = read_ledger(bytes.fromhex(text))
            found = first_beyond((bytes([table_id]) + body).hex())
            if found:
                yield edition, found[0], body, bytes.fromhex(text)


def second(case):
    """The edition 2 ledger that a case had before S-23."""
    case = bytes.fromhex(case)
    try:
        return ledger(case[0], case[1:], 2, Before).hex()
    except Refused as refused:
        return str(refused)


def picked(pool, more):
    """The shortest ledgers of every kind of clock, from the second pool where the first has too few."""
    for kind in KINDS:
        found = [sorted({g for _, k, _, g in part if k == kind}, key=lambda g: (len(g), g)) for part in (pool, more)]
        yield from dict.fromkeys((found[0] + found[1])[:EACH])


def long_ones(pool, place):
    """Of each table the longest ledger, or the one at another place by length."""
    for table_id in (1, 3):
        found = sorted({g for _, _, body, g in pool if len(body) >= LONG and g[3] == table_id}, key=len, reverse=True)
        yield found[place]


def pick(bodies, ledgers, edition_2):
    lists = [open(name, encoding="ascii").read().splitlines() for name in (bodies, ledgers, edition_2)]
    first = list(ledgers_of(lists[1]))
    kept = list(ledgers_of(text.split(" ")[1] for text in lists[2]))
    made = list(ledgers_of(map(second, lists[0])))
    found = [*picked(first, []), *long_ones(first, 0), *picked(kept, made), *long_ones(made, 1)]
    store(NAME, [stored_line(given) for given in dict.fromkeys(found)])


def main():
    command, *rest = sys.argv[1:] or [None]
    if command == "--check" and not rest:
        wrong = 0
        for name, compared, problems in (check_stored(), check_body_slips()):
            print("\n".join([*problems[:10], f"{name}: {compared}, {len(problems)} differences"]))
            wrong += len(problems)
        sys.exit(1 if wrong else 0)
    if command == "--pick" and len(rest) == 3:
        pick(*rest)
    else:
        sys.exit(__doc__)


if __name__ == "__main__":
    main()
