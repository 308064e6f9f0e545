#!/usr/bin/env python3
"""Both editions of the ledger (requests S-18 and S-23): cases, ledgers, bodies, damage, and the stored lists.

Use: editions.py --make SEED COUNT         COUNT cases, most of them plans
     editions.py --write EDITION < CASES   each case's ledger, or its refusal
     editions.py --before EDITION < CASES  the same as it was before S-23
     editions.py --body EDITION < CASES    each case's plain body (1) or kept body (2), or its refusal
     editions.py --damage SEED < LEDGERS   a few damaged versions of each ledger
     editions.py --forms < LEDGERS         how often the reader accepts, and refuses by each number and form
     editions.py --store                   writes edition_2.txt and damaged_2.txt again
     editions.py --check [SEED COUNT]      the stored lists, and COUNT fresh cases of SEED

A case is a line of hexadecimal: the table id byte, then the body, of any length. read.py writes the ledgers,
ledgers.py reads them; the two share no code, and the check holds one to the other by the papers' demands.
Ledgers that were written before S-23 are read as ever, though their bodies may now be refused by 30; so the
reader is held to the reading of bodies as it was before (`Before`). What the check does beyond S-18 is in
extensions.py.
"""

import os
import random
import sys
from collections import Counter

sys.dont_write_bytecode = True
sys.path.insert(0, os.path.dirname(os.path.abspath(__file__)))
from edition_cases import make  # noqa: E402
from edition_damage import damage, versions  # noqa: E402
from extensions import check_body_slips, check_stored  # noqa: E402
from ledgers import FORMS, RAW, Fault, answer, opened, read_ledger  # noqa: E402
from oracle import store, stored  # noqa: E402
from read import BY_30, Before, Body, Refused, body_as, ledger, now_of  # noqa: E402
from samples_2 import BODIES, DWELLS, EXACT, GRIDS, LEDGERS, SLOTSES, entry, plans  # noqa: E402
from slips import SLIPS, Unheld  # noqa: E402

SEED = 20240618
SHORT = 100
LEAST = 3

# How many drawn lines of each outcome the stored lists take, behind the picked ones.
CASES_KEPT = {"accepted": 275, "accepted, other id": 35, "refused": 35, "by 30": 40, "by 30, other id": 8}
LEDGERS_KEPT = {"accepted": 90, "23": 120, "24": 10, "25": 75, **dict.fromkeys(FORMS, 50)}


def written(case, edition, rules=Body):
    """The ledger of a case given as bytes, or its refusal."""
    try:
        return ledger(case[0], case[1:], edition, rules).hex() if case else "no input"
    except Refused as refused:
        return str(refused)


def body_line(case, edition, rules=Body):
    try:
        return body_as(case[0], case[1:], edition, rules).hex() or "-" if case else "no input"
    except Refused as refused:
        return str(refused)


def is_refusal(line):
    return line.startswith(("R", "n"))


def outcome(given):
    """What the reader makes of a ledger: `accepted`, the form of a 28, or another refusal's number."""
    try:
        opened(given)
        return "accepted"
    except Fault as fault:
        return fault.form or str(fault.number)


def without_edition_2(given):
    """The fields of an edition 2 ledger that edition 1 has too."""
    kept, at = given[4:6], 6
    for plan in opened(given).plans:
        kept += given[at:plan.length_at] + given[plan.length_at + 2:plan.count_at]
        at = plan.filler_at + plan.filler
    return kept


def failed(tests):
    return [name for name, holds in tests.items() if not holds]


def edition_problems(table_id, data, edition, rules):
    """What does not hold between an accepted body and its ledger in one edition."""
    made, body = ledger(table_id, data, edition, rules), body_as(table_id, data, edition, rules)
    name = f"edition {edition}: "
    return failed({
        name + "the ledger read back": read_ledger(made) == (edition, table_id, body),
        name + "the ledger of the body given back": ledger(table_id, body, edition, rules) == made,
        name + "the body of the body given back": body_as(table_id, body, edition, rules) == body,
        name + "the lengths": len(made) <= 6 + 2 * len(data) and len(body) <= len(data) <= 4096,
    })


def problems_by(case, rules):
    """What does not hold of a case that is read by these rules: in each edition, and between the two."""
    table_id, data = case[0], case[1:]
    lines = [written(case, edition, rules) for edition in (1, 2)]
    if any(map(is_refusal, lines)):
        bodies = [body_line(case, edition, rules) for edition in (1, 2)]
        return failed({"one refusal in both editions": len({*lines, *bodies}) == 1})
    first, second = map(bytes.fromhex, lines)
    plain, kept = (body_as(table_id, data, edition, rules) for edition in (1, 2))
    problems = [part for edition in (1, 2) for part in edition_problems(table_id, data, edition, rules)]
    if table_id == 3:
        same = without_edition_2(second) == first[4:]
    else:
        same = first[:2] + second[2:3] + first[3:] == second and plain == kept
    return problems + failed({
        "edition 1 in edition 2": same,
        "edition 1 of the kept body": ledger(table_id, kept, 1, rules) == first,
        "plain body of the kept body": body_as(table_id, kept, 1, rules) == plain,
        "kept body of the plain body": body_as(table_id, plain, 2, rules) == plain,
    })


def body_problems(case):
    """What does not hold of a case as it is read now, and as before S-23 if that is another reading."""
    now, before = written(case, 1), written(case, 1, Before)
    problems = failed({"30 at the first extension above 299 alone": now == now_of(case.hex(), before)})
    return problems + problems_by(case, Body) + (problems_by(case, Before) if now != before else [])


def has_body(given):
    """Whether this is the ledger of some body. If so, the body laid out from its fields has it; 28 is not asked."""
    try:
        edition, table_id, body = read_ledger(given, Unheld)
        return ledger(table_id, body, edition, Before) == given
    except (Fault, Refused):
        return False


def ledger_problems(given):
    """What does not hold of any byte string: it is accepted exactly if it is the ledger of the body it gives.

    The body may be one that was accepted before S-23; it then is refused by 30 now.
    """
    try:
        edition, table_id, body = read_ledger(given)
    except Fault:
        return failed({"refused, but a ledger": not has_body(given)})
    case = bytes([table_id]) + body
    return failed({"accepted, but not the ledger of the body given": written(case, edition, Before) == given.hex(),
                   "the body of the body given": body_as(table_id, body, edition, Before) == body,
                   "the body given, now": written(case, edition) == now_of(case.hex(), given.hex())})


def problems_of(holds, given):
    """The problems that one of the two functions above finds. A refusal where none may come is one too."""
    try:
        return holds(given)
    except (Fault, Refused) as refusal:
        return [f"refused on the way: {refusal}"]


def stored_line(*parts):
    return " ".join(part.replace(" ", ",") or "-" for part in parts)


def case_line(case):
    return stored_line(case.hex(), written(case, 2), body_line(case, 2))


def ledger_line(given):
    return stored_line(given.hex(), answer(given))


def picked_cases():
    """The picked bodies with the answers that were worked out by hand."""
    for _, table_id, data, line, kept in BODIES:
        kept = line if is_refusal(line) else (data if kept is None else kept).hex() or "-"
        yield stored_line((bytes([table_id]) + data).hex(), line, kept)


def picked_ledgers():
    for _, given, line in LEDGERS:
        yield stored_line(given, line)


def chosen(found, lines, kept, line_of):
    """Adds to `lines` those of `found`, an outcome and its bytes, that are short, new and still wanted."""
    left, seen = Counter(kept), set(lines)
    for name, given in found:
        line = line_of(given)
        if left[name] and len(given) <= SHORT and line not in seen:
            seen.add(line)
            lines.append(line)
            left[name] -= 1
        if not +left:
            return lines
    raise ValueError(f"not enough lines drawn: {+left}")


def drawn_cases():
    for case in make(SEED, 20000):
        line, other = written(case, 2), "" if case[0] == 3 else ", other id"
        if line.startswith(BY_30):
            yield "by 30" + other, case
        else:
            yield "refused" if is_refusal(line) else "accepted" + other, case


def drawn_ledgers():
    """Damaged ledgers of short cases, as they were written before S-23; one of six is of edition 1."""
    draw = random.Random(SEED)
    for number, case in enumerate(make(SEED + 1, 20000, any_extension=True)):
        line = written(case, 1 if number % 6 == 0 else 2, Before)
        if len(case) <= SHORT and not is_refusal(line):
            yield from ((outcome(given), given) for given in versions(draw, bytes.fromhex(line)))


def store_lists():
    store("edition_2.txt", chosen(drawn_cases(), list(picked_cases()), CASES_KEPT, case_line))
    store("damaged_2.txt", chosen(drawn_ledgers(), list(picked_ledgers()), LEDGERS_KEPT, ledger_line))


def report(name, compared, problems):
    """Prints what was compared and the first problems; gives their number."""
    for problem in problems[:10]:
        print(f"{name}, {problem}")
    print(f"{name}: {compared}, {len(problems)} differences")
    return len(problems)


def counted(counts):
    return ", ".join(f"{count} {name}" for name, count in sorted(counts.items()))


def check_cases(name="edition_2.txt"):
    lines, problems, counts = stored(name), [], Counter()
    picked = list(picked_cases())
    if lines[:len(picked)] != picked:
        problems.append("the picked bodies do not stand in front with their answers")
    for number, line in enumerate(lines, 1):
        case = bytes.fromhex(line.split(" ")[0])
        found = failed({"the stored answer": case_line(case) == line}) + problems_of(body_problems, case)
        problems += [f"line {number}: {what}" for what in found]
        given = written(case, 2)
        counts["refused by 30" if given.startswith(BY_30) else "refused" if is_refusal(given) else "accepted"] += 1
    return report(name, f"{len(lines)} cases, {len(picked)} of them picked; {counted(counts)}", problems)


def slip_problems(ledgers):
    """Slips that no ledger of the list shows; the number of ledgers that show each is printed."""
    right, problems = [answer(given) for given in ledgers], []
    for name, reader in SLIPS.items():
        shown = sum(answer(given, reader) != line for given, line in zip(ledgers, right))
        print(f"  shown by {shown} ledgers: {name}")
        problems += [] if shown else [f"no ledger shows: {name}"]
    return problems


def check_ledgers(name="damaged_2.txt"):
    lines, problems = stored(name), []
    picked = list(picked_ledgers())
    if lines[:len(picked)] != picked:
        problems.append("the picked ledgers do not stand in front with their answers")
    ledgers = [bytes.fromhex(line.split(" ")[0]) for line in lines]
    for number, (line, given) in enumerate(zip(lines, ledgers), 1):
        found = failed({"the stored answer": ledger_line(given) == line}) + problems_of(ledger_problems, given)
        problems += [f"line {number}: {what}" for what in found]
    counts = Counter(map(outcome, ledgers))
    problems += [f"fewer than {LEAST} lines: {form}" for form in FORMS if counts[form] < LEAST]
    problems += slip_problems(ledgers)
    return report(name, f"{len(lines)} ledgers, {len(picked)} of them picked; {counted(counts)}", problems)


def small_ledgers():
    """Every plan with a length, raw bytes and filler of a few bytes around the exact ones, last or not."""
    modes = [(0, 12, DWELLS), (1, 5, SLOTSES), (2, 24, GRIDS)]
    modes += [(RAW, size, f"{size:04x}" + "aa" * size) for size in range(5)]
    for mode, size, own in modes:
        for length in range(10 + size, 21 + size):
            for filler in range(7):
                plan = entry(length, mode, own, "bb" * filler)
                yield from (plans(1, plan), plans(2, plan, EXACT), plans(2, EXACT, plan))


def check_small():
    ledgers = [bytes.fromhex(line) for line in small_ledgers()]
    problems = [f"{given.hex()}: {what}" for given in ledgers for what in problems_of(ledger_problems, given)]
    return report("small plans", f"{len(ledgers)} ledgers; {counted(Counter(map(outcome, ledgers)))}", problems)


def check_bodies(name="bodies.txt"):
    """The replay list's bodies, which another generator made, in both editions."""
    cases = [bytes.fromhex(line) for line in stored(name)]
    problems = [f"line {number}: {what}" for number, case in enumerate(cases, 1)
                for what in problems_of(body_problems, case)]
    return report(name, f"{len(cases)} cases in both editions", problems)


def check_fresh(seed, count):
    """Cases of this seed, their ledgers in both editions, as before S-23, and damaged versions of these."""
    draw, problems, cases, ledgers = random.Random(seed), [], Counter(), Counter()
    for number, case in enumerate(make(seed, count), 1):
        found, now = problems_of(body_problems, case), written(case, 1)
        cases[f"refused by {now.split()[1]}" if is_refusal(now) else "accepted"] += 1
        for line in [written(case, edition, Before) for edition in (1, 2)]:
            for given in [] if is_refusal(line) else versions(draw, bytes.fromhex(line)):
                found += problems_of(ledger_problems, given)
                ledgers[outcome(given)] += 1
        problems += [f"case {number}: {what}" for what in found]
    print(f"  cases: {counted(cases)}")
    print(f"  ledgers: {counted(ledgers)}")
    return report("fresh cases", f"{count} cases, {sum(ledgers.values())} damaged ledgers", problems)


def print_forms(lines):
    counts = Counter(outcome(bytes.fromhex(line)) for line in lines if not is_refusal(line))
    for name in ("accepted", "23", "24", "25", "26", *FORMS):
        print(f"{counts[name]:9} {'28, ' if name in FORMS else ''}{name}")


def given_lines():
    return map(str.strip, sys.stdin)


def check(numbers):
    wrong = check_cases() + check_ledgers() + check_small() + check_bodies()
    wrong += report(*check_body_slips()) + report(*check_stored())
    if numbers:
        wrong += check_fresh(*numbers)
    sys.exit(1 if wrong else 0)


def run(command, numbers):
    """Gives the output lines of a command, or None if there is no such command."""
    if command in ("--write", "--before", "--body") and numbers in ([1], [2]):
        line_of, rules = body_line if command == "--body" else written, Before if command == "--before" else Body
        return (line_of(bytes.fromhex(case), *numbers, rules) for case in given_lines())
    if command == "--make" and len(numbers) == 2:
        return (case.hex() for case in make(*numbers))
    if command == "--damage" and len(numbers) == 1:
        ledgers = (bytes.fromhex(line) for line in given_lines() if not is_refusal(line))
        return (given.hex() for given in damage(*numbers, ledgers))
    return None


def main():
    command, *rest = sys.argv[1:] or [None]
    if not all(part.isdecimal() for part in rest):
        sys.exit(__doc__)
    numbers = [int(part) for part in rest]
    lines = run(command, numbers)
    if lines is not None:
        for line in lines:
            print(line)
    elif command == "--check" and len(numbers) in (0, 2):
        check(numbers)
    elif command == "--forms" and not numbers:
        print_forms(given_lines())
    elif command == "--store" and not numbers:
        store_lists()
    else:
        sys.exit(__doc__)


if __name__ == "__main__":
    main()
