#!/usr/bin/env python3
"""Orders two clock readings by request S-14 alone, after document 01's reduction of base and ext.

Use: clocks.py --make SEED COUNT   COUNT different cases, with this reading's answers
     clocks.py --check FILE        the cases of FILE, each answer held to two computations

A case is a line of five decimal numbers: base, ext, the other base, the other ext, and the answer for
the first reading against the other: 0 same, 1 earlier, 2 later, 3 opposite. Bases are of 64 bits and
extensions of 16, as a caller in C may give them. The first computation counts ticks and makes the
request's own tests; the second counts no ticks, and says which half of the circle a reading lies in.
Where both readings are shifted, the second starts from ticks too.
"""

import random
import sys

SAME, EARLIER, LATER, OPPOSITE = range(4)
EXCHANGED = (SAME, LATER, EARLIER, OPPOSITE)
TURN = 2_576_980_377_600
HALF = TURN // 2

# Values at the edges of the widths, and of the 300 ticks that one step of the base stands for.
BASES = (0, 1, 2**32 - 1, 2**32, 2**33 - 1, 2**33, 2**33 + 1, 2**63, 2**64 - 1)
EXTS = (0, 1, 299, 300, 301, 511, 512, 513, 65535)


def ticks(base, ext):
    return 300 * (base % 8_589_934_592) + ext % 512


def is_earlier(first, second):
    forward = (second - first) % TURN
    return forward >= 1 and 2 * forward < TURN


def by_request(first, second):
    """The answer for two counts of ticks; exactly one of the request's four tests has to hold."""
    tests = (first % TURN == second % TURN, is_earlier(first, second), is_earlier(second, first),
             2 * ((second - first) % TURN) == TURN)
    if sum(tests) != 1:
        raise ValueError(f"not one test but {sum(tests)} hold for ticks {first} and {second}")
    return tests.index(True)


def place(steps, rest):
    """Which half of the circle, and where in it: a turn has 2^33 steps of the base, so bit 32 is the half."""
    return steps >> 32 & 1, (steps & 0xFFFF_FFFF, rest)


def by_place(first, second):
    """The answer for two places. In different halves the one further from its half's start is earlier."""
    (half, into), (other_half, other_into) = first, second
    if into == other_into:
        return SAME if half == other_half else OPPOSITE
    return EARLIER if (into < other_into) == (half == other_half) else LATER


def carried(base, ext):
    """The place of a reading: an extension of 300 or more is one step and a rest."""
    ext &= 0x1FF
    return place(base + 1, ext - 300) if ext >= 300 else place(base, ext)


# Each computation, from a reading as it is given and from a count of ticks.
READINGS = {"ticks": lambda one, other: by_request(ticks(*one), ticks(*other)),
            "halves": lambda one, other: by_place(carried(*one), carried(*other))}
COUNTS = {"ticks": by_request,
          "halves": lambda one, other: by_place(place(*divmod(one, 300)), place(*divmod(other, 300)))}


def no_turn(one, other):
    """Document 01's order before the request: the smaller count is earlier."""
    first, second = ticks(*one), ticks(*other)
    return SAME if first == second else EARLIER if first < second else LATER


# Wrong orders. A list of cases on which one of them is right would not show that mistake.
WRONG = {
    "base first": lambda one, other: by_place(*(place(base, ext % 512) for base, ext in (one, other))),
    "no turn": no_turn,
    "ext not reduced": lambda one, other: by_request(*(300 * base + ext for base, ext in (one, other))),
    "base not reduced": lambda one, other: by_request(*((300 * base + ext % 512) % 2**64
                                                        for base, ext in (one, other))),
}


def shifts(first, second):
    """Amounts for both counts; the last two carry one reading alone over the turn, if the two differ."""
    low, high = sorted((first % TURN, second % TURN))
    return (1, -1, 299, -300, 512, HALF, -HALF, TURN, TURN + 1, -TURN - 1, 5 * TURN + 98765, -3 * TURN - 7,
            -first, HALF - second, TURN - high, -low - 1)


def given(draw):
    """A reading: listed values, any values, or a count close to the turn or to half of it."""
    if draw.random() < 0.3:
        return written(draw, draw.choice((0, HALF)) + draw.randint(-300, 300))
    base = draw.choice((draw.choice(BASES), draw.getrandbits(33), draw.getrandbits(64)))
    return base, draw.choice((draw.choice(EXTS), draw.getrandbits(9), draw.getrandbits(16)))


def written(draw, count):
    """One of the base and ext pairs that stand for this count, often not the shortest."""
    base, ext = divmod(count % TURN, 300)
    if ext < 212 and draw.random() < 0.5:
        base, ext = (base - 1) % 2**33, ext + 300
    if draw.random() < 0.3:
        base += draw.choice((1, 2**31 - 1, draw.getrandbits(31))) << 33
    if draw.random() < 0.3:
        ext += draw.choice((1, 127, draw.getrandbits(7))) << 9
    return base, ext


def pair(draw):
    """Two readings: a quarter the same, a quarter opposite, the others a few ticks from that or anywhere."""
    kind, one = draw.randrange(20), given(draw)
    if kind >= 18:
        return one, given(draw)
    few = draw.choice((1, 2, draw.randint(1, 20), draw.randint(1, 211), draw.randint(299, 301)))
    way = 0 if kind < 5 else HALF if kind < 10 else draw.randrange(TURN)
    if 10 <= kind < 17:
        way = draw.choice((few, -few, HALF - few, HALF + few))
    other = written(draw, ticks(*one) + way)
    return (one, other) if draw.random() < 0.5 else (other, one)


def make(seed, count):
    draw, lines = random.Random(seed), {}
    while len(lines) < count:
        one, other = pair(draw)
        lines[" ".join(map(str, (*one, *other, READINGS["ticks"](one, other))))] = True
    return list(lines)


def numbers(line):
    """The five numbers of a case, or a refusal of a line that a caller in C could not have given."""
    values = [int(part) for part in line.split(" ")]
    if len(values) != 5 or min(values) < 0 or " ".join(map(str, values)) != line:
        raise ValueError("not five decimal numbers")
    if any(value >= limit for value, limit in zip(values, (2**64, 2**16, 2**64, 2**16, 4))):
        raise ValueError("a number is too large")
    return values


def hold(one, other, answer):
    """Refuses an answer with which one of the two computations does not agree, however it is asked."""
    reduced = [(base % 2**33, ext % 2**9) for base, ext in (one, other)]
    asked = [("as given", READINGS, (one, other), answer), ("reduced", READINGS, reduced, answer),
             ("exchanged", READINGS, (other, one), EXCHANGED[answer])]
    first, second = ticks(*one), ticks(*other)
    asked += [(f"shifted by {amount}", COUNTS, (first + amount, second + amount), answer)
              for amount in shifts(first, second)]
    for what, orders, two, right in asked:
        for name, order in orders.items():
            if order(*two) != right:
                raise ValueError(f"{what}, by {name}: {order(*two)} and not {right}")


def check(name):
    with open(name, encoding="ascii") as file:
        lines = file.read().splitlines()
    wrong, seen, counts = [], set(), [0] * 4
    shown = {order: set() for order in WRONG}
    for number, line in enumerate(lines, 1):
        try:
            base, ext, other_base, other_ext, answer = numbers(line)
            one, other = (base, ext), (other_base, other_ext)
            if line in seen:
                raise ValueError("the line was there before")
            seen.add(line)
            hold(one, other, answer)
            for order, compare in WRONG.items():
                if compare(one, other) != answer:
                    shown[order].add(answer)
            counts[answer] += 1
        except ValueError as problem:
            wrong.append(f"{name}, line {number}: {line}: {problem}")
    wrong += [f"{name}: no case has the answer {answer}" for answer in range(4) if not counts[answer]]
    wrong += [f"{name}: '{order}' is right wherever the answer is {answer}"
              for order in WRONG for answer in range(4) if answer not in shown[order]]
    for problem in wrong[:10]:
        print(problem)
    print(f"{name}: {len(lines)} cases compared, {counts} of answers 0 to 3, {len(wrong)} differences")
    return len(wrong)


def main():
    first, *rest = sys.argv[1:] or [None]
    if first == "--check" and len(rest) == 1:
        sys.exit(1 if check(rest[0]) else 0)
    if first != "--make" or len(rest) != 2 or not all(part.isdecimal() for part in rest):
        sys.exit(__doc__)
    for line in make(*map(int, rest)):
        print(line)


if __name__ == "__main__":
    main()
