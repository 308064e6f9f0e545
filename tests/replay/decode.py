#!/usr/bin/env python3
"""Reads a ledger by document 01's result 2 and S-18 (ledgers.py) and lays its fields out as a plain or kept body.

Use: decode.py LEDGER-HEX               table id and plain body (kept body of an edition 2 ledger)
     decode.py --lines < LEDGERS        the same for each line; a line with a refusal as it is
     decode.py --read < LEDGERS         for each line the id in two digits and the body, or the refusal
     decode.py --check [SEED COUNT]     the replay list, and COUNT fresh cases of SEED

The check takes each accepted case and compares the plain body decoded here with the one that
the Rust's own writer gives, the ledger of that plain body with the ledger it came from, and the
ledger's length with its bound. Refusals are compared with document 01's table of needs and with S-23.

The Rust knows nothing of 30 (S-23), and the ledger reader never says it: ledgers with an extension above 299
are decoded like others. Of fresh cases, those that 30 refuses now stand for such stored ledgers.
"""

import os
import sys

sys.dont_write_bytecode = True
sys.path.insert(0, os.path.dirname(os.path.abspath(__file__)))
from ledgers import Fault, answer, read_ledger  # noqa: E402
from oracle import oracle, stored  # noqa: E402
from read import BY_30, LARGEST, now_of  # noqa: E402


def decode(ledger):
    """Table id and body of a ledger: the plain body in edition 1, the kept body in edition 2."""
    return read_ledger(ledger)[1:]


NEEDS = {3: [24], 4: [344], 5: [76], 9: [152], 10: [96], 11: [32], 13: [192], 15: [64],
         16: [120], 17: [56], 18: [56], 19: [248, 344], 20: [728]}
IDS = {1: (1, 3, 4), 2: (2, 4), 3: (0,), 4: (0,), 5: (1,), 6: (1,), 7: (1,), 8: (1,), 9: (2,), 30: (1, 2, 3)}


def refusal_fits(case, line):
    """Whether a refusal's numbers can stand in document 01's table, or behind S-23, for this case."""
    number, need, have = map(int, line.split()[1:])
    size, table_id = len(case) - 1, case[0]
    if number == 21:
        return size > 4096 and (need, have) == (min(size, 4097), 4096)
    ids = IDS.get(number, (3,) if number <= 14 else (4,))
    if size > 4096 or table_id not in ids or need <= have:
        return False
    if number == 1:
        return have == 8 * size
    if number == 2:
        return (size, need, have) == (0, 1, 0)
    if number == 30:
        return have == LARGEST and need < 512
    if number == 14:
        return have == 0 and need % 8 == 0
    if number in (6, 7, 8):
        return need % (32 if number == 6 else 80) == 0 and have < 8 * size
    return need in NEEDS.get(number, range(1, 1 << 15)) and have <= 8 * size


def check(name, cases, lines=None):
    """Prints what was compared; gives the number of differences."""
    lines = oracle("ledger", lines=cases) if lines is None else lines
    plains = oracle("plain", lines=cases)
    wrong, accepted, again = [], [], []
    for i, (case, line, plain) in enumerate(zip(cases, lines, plains)):
        raw = bytes.fromhex(case)
        if line.startswith("R"):
            wrong += [] if refusal_fits(raw, line) else [(i, line)]
            continue
        try:
            edition, table_id, body = read_ledger(bytes.fromhex(line))
        except Fault as fault:
            wrong.append((i, str(fault)))
            continue
        if (edition, table_id) != (1, raw[0]) or (body.hex() or "-") != plain:
            wrong.append((i, "plain body"))
        if table_id > 4 and body != raw[1:]:
            wrong.append((i, "raw body"))
        if len(line) // 2 > 6 + 2 * (len(raw) - 1) or len(body) > len(raw) - 1:
            wrong.append((i, "bound"))
        accepted.append((i, line))
        again.append((bytes([table_id]) + body).hex())
    for (i, line), back in zip(accepted, oracle("ledger", lines=again)):
        wrong += [] if back == line else [(i, "ledger of the plain body")]
    if not len(cases) == len(lines) == len(plains):
        wrong.append((len(lines), "number of lines"))
    for i, what in wrong[:10]:
        print(f"{name}, case {i + 1}: {what}")
    by_30 = sum(now_of(case, line).startswith(BY_30) for case, line in zip(cases, lines))
    print(f"{name}: {len(cases)} cases, {len(accepted)} accepted and decoded, "
          f"{len(cases) - len(accepted)} refused, {by_30} refused by 30 now, {len(wrong)} differences")
    return len(wrong)


def shown(ledger):
    table_id, body = decode(bytes.fromhex(ledger))
    return f"{table_id} {body.hex() or '-'}"


def main():
    arguments = sys.argv[1:]
    if arguments == ["--lines"]:
        for line in map(str.strip, sys.stdin):
            print(line if line.startswith("R") else shown(line))
    elif arguments == ["--read"]:
        for line in map(str.strip, sys.stdin):
            print(answer(bytes.fromhex(line)))
    elif len(arguments) == 1 and arguments[0] != "--check":
        print(shown(arguments[0]))
    elif arguments[:1] == ["--check"] and len(arguments) in (1, 3):
        wrong = check("replay list", stored("bodies.txt"), stored("ledgers.txt"))
        if len(arguments) == 3:
            wrong += check("fresh cases", oracle("gen", arguments[1], arguments[2]))
        sys.exit(1 if wrong else 0)
    else:
        sys.exit(__doc__)


if __name__ == "__main__":
    main()
