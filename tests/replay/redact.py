#!/usr/bin/env python3
"""Ledgers without covariance (request S-31): copies, the stored list, and what holds of them.

Use: redact.py --copy [ROOM] < LEDGERS   each ledger's copy, or its refusal, 22 for a buffer of ROOM bytes
     redact.py --like SEED < LEDGERS     each with other covariances; one that has none, or is refused, as it came
     redact.py --make SEED COUNT         ledgers of COUNT cases, most of them of id 4, with damaged ones
     redact.py --check [SEED COUNT]      the stored list, all stored ledgers, and those of COUNT fresh cases of SEED
     redact.py --store                   writes redacted.txt again

A ledger is a line of hexadecimal; a refusal is `R number need have`.

redacted.txt has a ledger a line and its copy; a refusal has commas for spaces, and `-` stands for no bytes. without.py
takes ledgers apart and writes their fields. It is held to another way, with no step in common: ledgers.py restores the
body, the covariances' bits are cut out of that, and read.py writes the ledger of what is left, as before S-23.
"""

import os
import random
import sys
from collections import Counter

sys.dont_write_bytecode = True
sys.path.insert(0, os.path.dirname(os.path.abspath(__file__)))
from edition_cases import make  # noqa: E402
from edition_damage import versions as any_versions  # noqa: E402
from editions import failed, is_refusal, report, stored_line, written  # noqa: E402
from ledgers import Fault, read_ledger  # noqa: E402
from ledgers import answer as read_answer  # noqa: E402
from oracle import store, stored  # noqa: E402
from read import Before, Refused, first_beyond, ledger  # noqa: E402
from redact_cases import LISTED, LONGEST, PART, bare, body_length, like_it, made, taken_apart, versions  # noqa: E402
from redact_cases import with_covariances  # noqa: E402
from redact_samples import PICKED, ROOMS  # noqa: E402
from redact_slips import SLIPS  # noqa: E402
from without import COVARIANCE, Noted, answer, answers, copied  # noqa: E402
from without import Fault as OwnFault  # noqa: E402

NAME = "redacted.txt"
SEED = 20240631
SHORT, WIDER, LONG = 200, 330, 1000
WIDE = "some covariances", "every covariance", "behind a covariance"
LEAST, SHOWN = 3, 4

# How many drawn lines of each kind the list takes, behind the picked ones; those in two or more satellites are wider.
KEPT = {**{f"{what}, edition {edition}": count for edition in (1, 2) for what, count in (
            ("a covariance", 27), ("some covariances", 14), ("every covariance", 6), ("no covariance", 8),
            ("other ids", 14))},
        "other ids, extension above 299": 10, "raw, the content of id 4": 8,
        "23 at 0": 6, "24": 8, "25, a covariance flag": 14, "25, another flag": 10, "25 in a covariance": 14,
        "25 behind a covariance": 12, "25 elsewhere": 8, "23 in a covariance": 14, "23 behind a covariance": 12,
        "23 elsewhere": 8, "a fault under another id": 14}
PICKED_ALONE = "26, the copy would fit", "26, the copy would not"


def body_without(body):
    """A body of id 4 with its covariance flags 0 and the bits of its covariances cut out."""
    bits = "".join(f"{byte:08b}" for byte in body)
    left, at = [bits[:64]], 64
    while len(bits) - at >= 32:
        metadata, begin, stop, acceleration, covariance = (bit == "1" for bit in bits[at + 27:at + 32])
        end = at + 32 + metadata * (120 + 56 * (begin + stop))
        end += 16 + int(bits[end:end + 16], 2) * (344 if acceleration else 248)
        left += bits[at:at + 31], "0", bits[at + 32:end]
        at = end + 728 * covariance
    text = "".join(left)
    return int(text, 2).to_bytes(len(text) // 8, "big")


def by_body(given, rooms):
    """The answers by way of the body, in each of these buffers."""
    try:
        edition, table_id, body = read_ledger(given)
    except Fault as fault:
        return [str(fault)] * len(rooms)
    copy = ledger(table_id, body_without(body) if table_id == LISTED else body, edition, Before)
    return [copy.hex() if room is None or len(copy) <= room else f"R 22 {len(copy)} {room}" for room in rooms]


def rooms_of(given, line):
    """Buffers to try: large enough, none, and around the lengths of the copy and of the ledger."""
    sizes = {len(given)} if is_refusal(line) else {len(given), len(line) // 2}
    near = {size + more for size in sizes for more in (-1, 0, 1)}
    return [None, *sorted({0, *(room for room in near if room > 0)})]


def fits(given):
    return not is_refusal(read_answer(given))


def same_problems(given, line, rooms):
    """Ledgers that differ in nothing but covariances have one copy and one answer in every buffer."""
    others, problems = like_it(random.Random(given), given), []
    rooms = [*rooms, *(len(other) - 1 for other in others)]
    want = list(map(line, rooms))
    for other in others:
        size = body_length(taken_apart(other))
        if size > LONGEST:
            problems += failed({"26 alone": answer(other) == read_answer(other) == f"R 26 {size} {LONGEST}"})
        else:
            problems += failed({"one answer": answers(other, rooms) == want,
                                "one answer, by the body": by_body(other, rooms) == want})
    return problems


def listed_tests(given, there):
    """Of a copy under id 4: no covariance is left, and nothing else is lost."""
    satellites, body = taken_apart(given), read_ledger(there)[2]
    covariances = [one.covariance for one in satellites]
    turned = bytes([3 - given[2]])
    return {
        "no covariance is left": not any(one.covariance for one in taken_apart(there)),
        "all else kept": with_covariances(there, covariances) == given,
        "a covariance's bytes less for each": len(there) == len(given) - PART * sum(map(bool, covariances)),
        "the body's length": len(body) == body_length(bare(satellites)),
        "the ledger of a body that is accepted now": ledger(LISTED, body, there[2]) == there,
        "the length's bound": len(there) <= 6 + 2 * len(body),
        "the same in the other edition": answer(given[:2] + turned + given[3:])
                                         == (there[:2] + turned + there[3:]).hex(),
    }


def problems_of(given):
    """What does not hold of any byte string."""
    line, own = copied(given), read_answer(given)
    copy = line()
    rooms = rooms_of(given, copy)
    lines = list(map(line, rooms))
    tests = {"the answers by the body": lines == by_body(given, rooms)}
    if is_refusal(own):
        return failed({**tests, "its own fault in every buffer": set(lines) == {own}})
    if is_refusal(copy) or not fits(bytes.fromhex(copy)):
        return failed({**tests, "the copy is a ledger": False})
    there = bytes.fromhex(copy)
    tests["id and edition"] = there[2:4] == given[2:4]
    tests["a copy of the copy"] = answer(there) == copy
    tests["never longer"] = len(there) <= len(given)
    if given[3] != LISTED:
        return failed({**tests, "unaltered": there == given})
    return failed({**tests, **listed_tests(given, there)}) + same_problems(given, line, rooms)


def safely(given):
    try:
        return problems_of(given)
    except (Fault, OwnFault, Refused, ValueError, IndexError) as fault:
        return [f"stopped on the way: {fault!r}"]


def fault_kind(given, fault, reader):
    """Where a ledger's own fault lies."""
    number = str(fault.number)
    if number == "26" and given[3] == LISTED:
        fit = body_length(bare(taken_apart(given))) <= LONGEST
        return "26, the copy would fit" if fit else "26, the copy would not"
    if number == "24" or str(fault) == "R 23 0 0":
        return "24" if number == "24" else "23 at 0"
    if given[3] != LISTED:
        return "a fault under another id"
    if number == "25" and reader.at_flag():
        return "25, a covariance flag" if reader.at_flag() == COVARIANCE else "25, another flag"
    if reader.in_covariance():
        return f"{number} in a covariance"
    before = any(entry[COVARIANCE][1] for entry in reader.entries)
    return f"{number} {'behind a covariance' if before else 'elsewhere'}"


def kind_of(given):
    """What becomes of a ledger."""
    reader = Noted(given)
    try:
        reader.result()
    except OwnFault as fault:
        return fault_kind(given, fault, reader)
    if given[3] != LISTED:
        within = given[3] > LISTED and fits(given[:3] + bytes([LISTED]) + given[4:])
        beyond = first_beyond(read_answer(given))
        return "other ids, extension above 299" if beyond else "raw, the content of id 4" if within \
            else f"other ids, edition {given[2]}"
    has = [one.covariance != b"" for one in taken_apart(given)]
    some = "no covariance" if not any(has) else "a covariance" if len(has) == 1 else \
        "every covariance" if all(has) else "some covariances"
    return f"{some}, edition {given[2]}"


def flags_of(given):
    """The four flags in front of each covariance of an accepted ledger, and how many ephemeris entries, 2 for more."""
    if not fits(given) or given[3] != LISTED:
        return
    for one in taken_apart(given):
        if one.covariance:
            has, begin, stop = one.front[5:8]
            at = has * (20 + 8 * (begin + stop))
            yield tuple(one.front[5:]), min(2, int.from_bytes(one.fields[at:at + 2], "big"))


def line_of(given):
    return stored_line(given.hex(), answer(given))


def picked_lines():
    """The picked ledgers with the copies that were worked out by hand."""
    for _, given, copy in PICKED:
        yield stored_line(given, given if copy is None else copy)


def all_stored():
    """Each ledger of the lists before S-31."""
    for name, column in (("ledgers.txt", 0), ("edition_2.txt", 1), ("damaged_2.txt", 0), ("stored.txt", 0),
                         ("converted.txt", 0)):
        words = [line.split(" ")[column].strip("-") for line in stored(name)]
        yield name, [bytes.fromhex(word) for word in words if not is_refusal(word)]


def drawn(seed, count):
    """Ledgers of id 4 and damaged ones; with one case in three a ledger of another id, as before S-23, and damaged."""
    draw = random.Random(seed)
    for turn, case in enumerate(make(seed, count, any_extension=True)):
        given = made(draw)
        yield given
        yield from versions(draw, given)
        line = written(case, draw.choice((1, 2)), Before)
        if turn % 3 == 0 and not is_refusal(line):
            yield bytes.fromhex(line)
            yield from any_versions(draw, bytes.fromhex(line), 1)


def store_list():
    lines, left = list(picked_lines()), Counter(KEPT)
    seen = set(lines)
    for given in drawn(SEED, 9000):
        if len(given) > WIDER:
            continue
        line, kind = line_of(given), kind_of(given)
        short_enough = len(given) <= SHORT or any(word in kind for word in WIDE)
        if left[kind] and short_enough and line not in seen:
            seen.add(line)
            lines.append(line)
            left[kind] -= 1
        if not +left:
            return store(NAME, lines)
    raise ValueError(f"not enough lines drawn: {+left}")


def counted(counts):
    return ", ".join(f"{count} {name}" for name, count in sorted(counts.items()))


def room_problems():
    return [f"a buffer, {name}" for name, given, room, line in ROOMS if answer(bytes.fromhex(given), room) != line]


def kind_problems(ledgers, counts):
    """Kinds of lines, flags in front of a covariance, and numbers of ephemeris entries that are too few in the list."""
    found = Counter(part for given in ledgers for pair in flags_of(given) for part in pair)
    wanted = [tuple(bits >> place & 1 for place in (3, 2, 1, 0)) for bits in range(16)] + [0, 1, 2]
    return [f"fewer than {LEAST} lines: {kind}" for kind in [*KEPT, *PICKED_ALONE] if counts[kind] < LEAST] + \
        [f"fewer than {LEAST} covariances behind {what}" for what in wanted if found[what] < LEAST]


def check_list():
    lines, problems = stored(NAME), room_problems()
    picked = list(picked_lines())
    if lines[:len(picked)] != picked:
        problems.append("the picked ledgers do not stand in front with their copies")
    ledgers = [bytes.fromhex(line.split(" ")[0].strip("-")) for line in lines]
    for place, (line, given) in enumerate(zip(lines, ledgers), 1):
        found = failed({"the stored copy": line_of(given) == line}) + safely(given)
        problems += [f"line {place}: {what}" for what in found]
    counts = Counter(map(kind_of, ledgers))
    problems += kind_problems(ledgers, counts) + slip_problems(ledgers)
    return report(NAME, f"{len(lines)} ledgers, {len(picked)} of them picked, and {len(ROOMS)} buffers;"
                  f" {counted(counts)}", problems)


def shown_by(ledgers, slip):
    """The first lines, counted from 1, on which a slip goes wrong in some buffer; long ones where no short one does."""
    found = []
    for long in (False, True):
        for place, (given, rooms, lines) in enumerate(ledgers, 1):
            if len(found) < SHOWN and (len(given) > LONG) == long and answers(given, rooms, slip) != lines:
                found.append(place)
        if found:
            return found
    return found


def slip_problems(ledgers):
    """Slips that no line of the list shows; the first lines that show each are printed."""
    problems, tried = [], []
    for given in ledgers:
        rooms = rooms_of(given, answer(given))
        tried.append((given, rooms, answers(given, rooms)))
    for name, slip in SLIPS.items():
        found = shown_by(tried, slip)
        print(f"  shown by {', '.join(map(str, found))}{' ..' if len(found) == SHOWN else ''}: {name}")
        problems += [] if found else [f"no line shows: {name}"]
    return problems


def check_stored(name, ledgers):
    problems = [f"{given.hex()[:60]}: {what}" for given in ledgers for what in safely(given)]
    return report(name, f"{len(ledgers)} ledgers; {counted(Counter(map(kind_of, ledgers)))}", problems)


def check_fresh(seed, count):
    problems, counts = [], Counter()
    for given in drawn(seed, count):
        problems += [f"{given.hex()[:60]}: {what}" for what in safely(given)]
        counts[kind_of(given)] += 1
    for name, how_many in sorted(counts.items()):
        print(f"{how_many:9} {name}")
    return report("fresh cases", f"{count} cases, {sum(counts.values())} ledgers", problems)


def check(numbers):
    wrong = check_list() + sum(check_stored(*part) for part in all_stored())
    if numbers:
        wrong += check_fresh(*numbers)
    sys.exit(1 if wrong else 0)


def other(draw, given):
    """A ledger with other covariances that is accepted as well; what has none, or is refused, as it came."""
    if not fits(given) or given[3] != LISTED:
        return given
    found = list(filter(fits, like_it(draw, given)))
    return draw.choice(found) if found else bytes.fromhex(answer(given))


def lines_for(command, numbers):
    """The output lines of a command, or None if there is no such command."""
    given = (bytes.fromhex(line) for line in map(str.strip, sys.stdin))
    if command == "--copy" and len(numbers) < 2:
        return (answer(one, *numbers) for one in given)
    if command == "--like" and len(numbers) == 1:
        draw = random.Random(*numbers)
        return (other(draw, one).hex() for one in given)
    if command == "--make" and len(numbers) == 2:
        return (one.hex() for one in drawn(*numbers))
    return None


def main():
    command, *rest = sys.argv[1:] or [None]
    if not all(part.isdecimal() for part in rest):
        sys.exit(__doc__)
    numbers = [int(part) for part in rest]
    lines = lines_for(command, numbers)
    if lines is not None:
        for line in lines:
            print(line)
    elif command == "--check" and len(numbers) in (0, 2):
        check(numbers)
    elif command == "--store" and not numbers:
        store_list()
    else:
        sys.exit(__doc__)


if __name__ == "__main__":
    main()
