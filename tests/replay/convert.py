#!/usr/bin/env python3
"""Ledgers moved between the editions (request S-19): answers, the stored list, and what holds of them.

Use: convert.py EDITION [ROOM] < LEDGERS   each ledger in this edition, or its refusal, 22 for a buffer of ROOM bytes
     convert.py --check [SEED COUNT]       the stored list, all stored ledgers, and those of COUNT fresh cases of SEED
     convert.py --store                    writes converted.txt again

A ledger is a line of hexadecimal; a refusal is `R number need have`.

converted.txt has a ledger a line, what it gives in edition 1, and what in edition 2; a refusal has commas for spaces,
and `-` stands for no bytes. moved.py takes ledgers apart and writes their fields in the edition wanted. It is held to
another way, with no step in common: ledgers.py restores the body, and read.py writes that body's ledger in the
edition wanted, as before S-23, or finds in the body's bits which plan is not exact.
"""

import os
import random
import sys
from collections import Counter

sys.dont_write_bytecode = True
sys.path.insert(0, os.path.dirname(os.path.abspath(__file__)))
from convert_samples import PICKED  # noqa: E402
from convert_slips import SLIPS, MetOnTheWay  # noqa: E402
from edition_cases import make  # noqa: E402
from edition_damage import number, replaced, righted, step, versions, with_length  # noqa: E402
from editions import failed, is_refusal, outcome, report, stored_line, written  # noqa: E402
from ledgers import FORMS, RAW, Fault, opened, read_ledger  # noqa: E402
from ledgers import answer as read_answer  # noqa: E402
from moved import answer  # noqa: E402
from oracle import store, stored  # noqa: E402
from read import Before, Refused, body_as, first_beyond, ledger, reading  # noqa: E402

NAME = "converted.txt"
SEED = 20240619
SHORT, WIDER = 100, 190
LEAST = 3

BEHIND = "fault behind a plan that is not exact"
# How many drawn lines of each kind the list takes, behind the picked ones.
KEPT = {"1 to 2, a plan": 32, "1 to 2, plans": 16, "1 to 2, other ids": 24, "1 to 2, extension above 299": 12,
        "2 to 1, a plan": 56, "2 to 1, plans": 32, "2 to 1, other ids": 24, "2 to 1, extension above 299": 12,
        "29 at 0": 60, "29 at 1": 36, "29 further on": 25, "29, extension above 299": 10, BEHIND: 24,
        **{f"{what}, edition {edition}": count for edition in (1, 2) for what, count in (("23", 22), ("25", 20))},
        "24": 8, **dict.fromkeys(FORMS, 9)}
# Ledgers of these kinds have WIDER bytes at most, others SHORT.
MANY = "1 to 2, plans", "2 to 1, plans", "29 further on", BEHIND


def named_length(body, start):
    """The length that a body's plan names."""
    return int.from_bytes(body[start + 4:start + 6], "big") % 4096


def by_body(given, wanted):
    """The answer by way of the body: ledgers.py gives it, read.py files it or tells the first plan not exact."""
    try:
        _, table_id, body = read_ledger(given)
    except Fault as fault:
        return str(fault)
    if wanted == 1 and body_as(table_id, body, 1, Before) != body:
        spans = reading(table_id, body, 2, Before).plans
        index = next(i for i, (start, end) in enumerate(spans) if named_length(body, start) != end - start - 6)
        return f"R 29 {index} 0"
    return ledger(table_id, body, wanted, Before).hex()


def leading(given, plans, count):
    """A ledger of edition 2 with its first plans alone."""
    end = plans[count - 1].filler_at + plans[count - 1].filler if count else 6
    return righted(given[:4] + number(count) + given[6:end])


def lost_tests(given, line):
    """Of a refusal by 29: edition 2, id 3, and the index is that of the first plan with which nothing more is given."""
    _, said, index, have = line.split()
    index, plans = int(index), opened(given).plans
    return {
        "29 for plans of edition 2 alone": (said, have, given[2], given[3]) == ("29", "0", 2, 3) and index < len(plans),
        "the plans before the index accepted": not is_refusal(answer(leading(given, plans, index), 1)),
        "the plans up to the index refused": answer(leading(given, plans, index + 1), 1) == line,
    }


def moved_tests(given, line, edition, table_id, body):
    """Of a ledger that has moved: it is read, gives the same id and body, and comes back."""
    there, count = bytes.fromhex(line), int.from_bytes(given[4:6], "big") if table_id == 3 else 0
    return {
        "the id and the body there": read_ledger(there) == (3 - edition, table_id, body),
        "there and back": answer(there, edition) == given.hex() == by_body(there, edition),
        "four bytes a plan": len(there) == len(given) + (4 if edition == 1 else -4) * count,
        "the length's bound": len(there) <= 6 + 2 * len(body),
        "the version byte alone": table_id == 3 or there == given[:2] + bytes([3 - edition]) + given[3:],
    }


def problems_of(given):
    """What does not hold of any byte string in both calls."""
    first, second = (answer(given, wanted) for wanted in (1, 2))
    tests = {f"the answer by the body, edition {wanted}": by_body(given, wanted) == line
             for wanted, line in ((1, first), (2, second))}
    own = read_answer(given)
    if is_refusal(own):
        return failed({**tests, "its own fault in both": first == second == own})
    edition, table_id, body = read_ledger(given)
    copy, line = (first, second) if edition == 1 else (second, first)
    exact = body_as(table_id, body, 1, Before) == body
    tests["copied in its own edition"] = copy == given.hex()
    tests["2 to 1 exactly where the kept body is the plain one"] = is_refusal(line) == (edition == 2 and not exact)
    more = lost_tests(given, line) if is_refusal(line) else moved_tests(given, line, edition, table_id, body)
    return failed({**tests, **more})


def safely(holds, given):
    try:
        return holds(given)
    except (Fault, Refused, ValueError, IndexError, StopIteration) as fault:
        return [f"stopped on the way: {fault!r}"]


def kind_of(given):
    """What becomes of a ledger: moved, which way; 29, where; or its own fault."""
    own = outcome(given)
    if own not in ("accepted", "26") and answer(given, 1, None, MetOnTheWay).startswith("R 29 "):
        return BEHIND
    if own != "accepted":
        return f"{own}, edition {given[2]}" if own in ("23", "25") and given[2:3] in (b"\1", b"\2") else own
    edition, table_id, body = read_ledger(given)
    beyond = first_beyond(bytes([table_id, *body]).hex())
    line = answer(given, 3 - edition)
    if is_refusal(line):
        index = line.split()[2]
        return "29, extension above 299" if beyond else "29 further on" if index > "1" else f"29 at {index}"
    some = "a plan" if table_id == 3 and given[4:6] == b"\0\1" else "plans" if table_id == 3 and body else "other ids"
    return f"{edition} to {3 - edition}, {'extension above 299' if beyond else some}"


def line_of(given):
    return stored_line(given.hex(), answer(given, 1), answer(given, 2))


def picked_lines():
    """The picked ledgers with the answers that were worked out by hand."""
    for _, given, *answers in PICKED:
        yield stored_line(given, *(given if line is None else line for line in answers))


def all_stored():
    """Each ledger of the lists before S-19, moved or not."""
    for name, column in (("ledgers.txt", 0), ("edition_2.txt", 1), ("damaged_2.txt", 0), ("stored.txt", 0)):
        words = [line.split(" ")[column] for line in stored(name)]
        yield name, [bytes.fromhex(word) for word in words if not is_refusal(word)]


def touched(draw, given):
    """An exact ledger with filler in one or two of its plans, or its end past the data; and the first one's index."""
    plans, found = opened(given).plans, []
    if not plans:
        return None
    for index in sorted({draw.randrange(len(plans)), draw.randrange(len(plans))}, reverse=True):
        p, last = plans[index], index == len(plans) - 1
        more = 0 if last and draw.getrandbits(1) else step(draw)
        past = step(draw) if last and (more == 0 or draw.getrandbits(1)) else 0
        if p.mode == RAW and (p.own or not past) or p.length + more + past > 4095:
            continue
        given = replaced(given, p.filler_at, 0, draw.randbytes(more))
        given = with_length(replaced(given, p.count_at, 2, number(more)), p, p.length + more + past)
        found.append(index)
    return (righted(given), found[-1]) if found else None


def touched_problems(found):
    """The answer of a ledger made by `touched`, unless it has grown too long."""
    given, index = found
    own = read_answer(given)
    return failed({"the first plan touched": answer(given, 1) == (own if is_refusal(own) else f"R 29 {index} 0"),
                   "26 alone": not is_refusal(own) or own.startswith("R 26 ")})


def drawn(seed, count, any_extension=False):
    """Ledgers of fresh cases in both editions, as before S-23: as they are, exact ones, and damaged.

    Those that `touched` makes come with their index.
    """
    draw = random.Random(seed)
    for turn, case in enumerate(make(seed, count, any_extension)):
        lines = [written(case, edition, Before) for edition in (1, 2)]
        if is_refusal(lines[0]):
            continue
        first, second = map(bytes.fromhex, lines)
        exact = bytes.fromhex(by_body(first, 2))
        yield from dict.fromkeys((first, second, exact))
        found = touched(draw, exact) if case[0] == 3 else None
        if found:
            yield found
        yield from versions(draw, (first, second, exact)[turn % 3])


def mixed():
    """The ledgers of the lists in any order, and fresh ones between them and behind."""
    pool = [given for _, ledgers in all_stored() for given in ledgers]
    random.Random(SEED).shuffle(pool)
    for turn, found in enumerate(drawn(SEED, 9000, any_extension=True)):
        yield from pool[turn:turn + 1]
        yield found[0] if isinstance(found, tuple) else found


def store_list():
    lines, left = list(picked_lines()), Counter(KEPT)
    seen = set(lines)
    for given in mixed():
        line, kind = line_of(given), kind_of(given)
        if left[kind] and len(given) <= (WIDER if kind in MANY else SHORT) and line not in seen:
            seen.add(line)
            lines.append(line)
            left[kind] -= 1
        if not +left:
            return store(NAME, lines)
    raise ValueError(f"not enough lines drawn: {+left}")


def counted(counts):
    return ", ".join(f"{count} {name}" for name, count in sorted(counts.items()))


def check_list():
    lines, problems = stored(NAME), []
    picked = list(picked_lines())
    if lines[:len(picked)] != picked:
        problems.append("the picked ledgers do not stand in front with their answers")
    ledgers = [bytes.fromhex(line.split(" ")[0].strip("-")) for line in lines]
    for place, (line, given) in enumerate(zip(lines, ledgers), 1):
        found = failed({"the stored answers": line_of(given) == line}) + safely(problems_of, given)
        problems += [f"line {place}: {what}" for what in found]
    counts = Counter(map(kind_of, ledgers))
    problems += [f"fewer than {LEAST} lines: {kind}" for kind in [*KEPT, "26"] if counts[kind] < LEAST]
    problems += slip_problems(lines, ledgers)
    return report(NAME, f"{len(lines)} ledgers, {len(picked)} of them picked; {counted(counts)}", problems)


def slip_problems(lines, ledgers):
    """Slips that no line of the list shows; which lines show each is printed, the first of them."""
    problems = []
    for name, mover in SLIPS.items():
        shown = [place for place, (line, given) in enumerate(zip(lines, ledgers), 1)
                 if stored_line(given.hex(), *(answer(given, wanted, None, mover) for wanted in (1, 2))) != line]
        print(f"  shown by {len(shown)} lines ({', '.join(map(str, shown[:4]))}): {name}")
        problems += [] if shown else [f"no line shows: {name}"]
    return problems


def check_stored(name, ledgers):
    problems = [f"{given.hex()[:60]}: {what}" for given in ledgers for what in safely(problems_of, given)]
    return report(name, f"{len(ledgers)} ledgers; {counted(Counter(map(kind_of, ledgers)))}", problems)


def check_fresh(seed, count):
    problems, counts, made = [], Counter(), 0
    for found in drawn(seed, count):
        given = found
        if isinstance(found, tuple):
            given, made = found[0], made + 1
            problems += safely(touched_problems, found)
        problems += [f"{given.hex()[:60]}: {what}" for what in safely(problems_of, given)]
        counts[kind_of(given)] += 1
    for name, how_many in sorted(counts.items()):
        print(f"{how_many:9} {name}")
    return report("fresh cases", f"{count} cases, {sum(counts.values())} ledgers, {made} of them made not exact"
                  " at a known plan", problems)


def check(numbers):
    wrong = check_list() + sum(check_stored(*part) for part in all_stored())
    if numbers:
        wrong += check_fresh(*numbers)
    sys.exit(1 if wrong else 0)


def main():
    command, *rest = sys.argv[1:] or [None]
    if not all(part.isdecimal() for part in rest):
        sys.exit(__doc__)
    numbers = [int(part) for part in rest]
    if command in ("1", "2") and len(numbers) < 2:
        for line in map(str.strip, sys.stdin):
            print(answer(bytes.fromhex(line), int(command), *numbers))
    elif command == "--check" and len(numbers) in (0, 2):
        check(numbers)
    elif command == "--store" and not numbers:
        store_list()
    else:
        sys.exit(__doc__)


if __name__ == "__main__":
    main()
