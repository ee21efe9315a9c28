#!/usr/bin/env python3
"""What the program `listings` must write by the rules (docs/RULES.md), with states, steps and conditions of its own.
No part of the gate, which compares what the program writes with its stdout file.

    tests/listings_model.py            writes the lines
    tests/listings_model.py --write    writes crates/listings/stdout

A case's lines: its title; code, place, used, readings, peak; the checksum of the slice's bytes; and of a slice of at most
256 bytes each eight bytes as one number in hex, and then the left-over bytes in decimal.
"""
import itertools
import os
import sys

from checks_model import CONDITIONS, SETS, SET_VARIABLES, VARIABLES


# ---- Rules 2.1 to 2.3: patterns as their bytes ----


def header(n, c, duration, edition=1, zero=0):
    return (edition << 60 | n << 56 | c << 48 | zero << 40 | duration).to_bytes(8, "big")


def condition(variable, attribute, operator, form, variable2=0, attribute2=0, constant=0):
    word = variable << 60 | attribute << 57 | operator << 54 | form << 53 | variable2 << 49 | attribute2 << 46 | constant
    return word.to_bytes(8, "big")


def pattern(sets, conditions, duration):
    """Sets as a list of lists of group flags; conditions as tuples."""
    variables = [(number << 4) | (group << 3) for number, flags in enumerate(sets, 1) for group in flags]
    return header(len(variables), len(conditions), duration) + bytes(variables) + b"".join(condition(*k) for k in conditions)


CORE, TYPE, CLASS, SLOT, AMOUNT, WAVE = range(6)
NOT_EQUAL = 5


def constant_is(variable, attribute, value):
    return (variable, attribute, 0, 0, 0, 0, value)


def same(variable, attribute, other):
    return (variable, attribute, 0, 1, other, attribute, 0)


BENCH = pattern(
    [[0, 1], [0]],
    [constant_is(0, CLASS, 0), constant_is(1, CLASS, 1), constant_is(2, CLASS, 2), same(0, CORE, 1), same(0, CORE, 2)],
    100,
)
assert BENCH.hex() == "130500000000006410182004000000000000001400000000000001240000000000000200220000000000000024000000000000"

# Example 2 of the paper: c, p+, d, then b; an event's kind is its class, a patient is a core
PAPER = pattern(
    [[0, 1, 0], [0]],
    [
        constant_is(0, CLASS, 1),
        constant_is(2, CLASS, 3),
        constant_is(1, CLASS, 2),
        constant_is(3, CLASS, 5),
        same(0, CORE, 1),
        same(0, CORE, 2),
        same(2, CORE, 3),
    ],
    264,
)

# 32 conditions, some of one variable twice
JOINS = [same(7 * i % VARIABLES, CORE, 5 * i % VARIABLES) for i in range(CONDITIONS)]

# the most steps: two sets of six group variables
LARGEST = pattern([[1] * SET_VARIABLES, [1] * SET_VARIABLES], JOINS, 1000)

# the most sets: eight, of two variables and of one
EIGHT_SETS = pattern([[1, 0], [0, 1], [1, 1], [0, 0], [1], [0], [1], [0]], JOINS, 50)

ONE = pattern([[0]], [], 0)
TWO = pattern([[0], [1]], [(1, AMOUNT, 1, 1, 1, SLOT, 0)], 7)
WAVES = pattern([[0], [1]], [constant_is(0, WAVE, 255), same(0, WAVE, 1), (1, WAVE, 3, 1, 1, AMOUNT, 0)], 7)
DIFFERENT = pattern(
    [[1], [0]],
    [(0, CORE, NOT_EQUAL, 0, 0, 0, 3), (0, CORE, NOT_EQUAL, 1, 1, CORE, 0), (1, SLOT, NOT_EQUAL, 1, 1, AMOUNT, 0)],
    7,
)
SMALL = header(2, 0, 7)

CASES = [
    ("bench: room for its seven steps", BENCH, 56),
    ("bench: four left-over bytes", BENCH, 60),
    ("bench: one number more, and seven bytes", BENCH, 71),
    ("bench: one byte too short", BENCH, 55),
    ("bench: room for six", BENCH, 48),
    ("bench: no room", BENCH, 0),
    ("paper: c, p+, d, then b", PAPER, 136),
    ("paper: one too short", PAPER, 135),
    ("one variable, no condition", ONE, 16),
    ("two sets of one, a condition of one variable twice", TWO, 40),
    ("two sets of one, three conditions on waves", WAVES, 24),
    ("two sets of one, three conditions with not equal", DIFFERENT, 24),
    ("largest: two sets of six group variables", LARGEST, 6144),
    ("largest: longer slice", LARGEST, 6151),
    ("largest: one too short", LARGEST, 6143),
    ("eight sets", EIGHT_SETS, 400),
    ("eight sets: a short slice", EIGHT_SETS, 100),
    ("refused 1: no bytes", b"", 20),
    ("refused 1: seven bytes", BENCH[:7], 20),
    ("refused 1: a byte more than the counts say", BENCH + b"\0", 20),
    ("refused 2: edition 2", header(1, 0, 0, edition=2) + b"\x10", 20),
    ("refused 2 before 1: thirteen variables", header(13, 0, 0), 20),
    ("refused 3: the second set is missing", SMALL + b"\x10\x30", 20),
    ("refused 3: a set of seven", header(7, 0, 7) + b"\x10" * 7, 20),
    ("refused 4: operator 6", pattern([[0], [0]], [(0, CORE, NOT_EQUAL, 0, 0, 0, 1), (1, CORE, 6, 0, 0, 0, 0)], 7), 20),
    ("refused 4: attribute 6", pattern([[0], [0]], [constant_is(0, WAVE, 1), constant_is(1, 6, 1)], 7), 20),
    ("refused 4: second attribute 6", pattern([[0], [0]], [same(0, WAVE, 1), (0, WAVE, 0, 1, 1, 6, 0)], 7), 20),
    ("refused 4 before 12: no such variable", pattern([[0], [0]], [(0, 0, 0, 1, 2, 0, 0)], 7), 3),
]


# ---- Rules 8.1 to 8.4, the check of a pattern; Rules 4.1 to 4.6, the automaton ----


def check(data):
    """Code, place, and the pattern as (sets, groups, conditions)."""
    if len(data) < 8:
        return 1, 0, None
    head = int.from_bytes(data[:8], "big")
    n, c = head >> 56 & 15, head >> 48 & 255
    if head >> 60 != 1 or not 1 <= n <= VARIABLES or c > CONDITIONS or head >> 40 & 255:
        return 2, 0, None
    if len(data) != 8 + n + 8 * c:
        return 1, 0, None
    sets, groups = [], []
    for v in range(n):
        byte = data[8 + v]
        number = byte >> 4
        allowed = [1] if not sets else [sets[-1], sets[-1] + 1]
        if number not in allowed or number > SETS or (sets + [number]).count(number) > SET_VARIABLES or byte & 7:
            return 3, v, None
        sets.append(number)
        groups.append(byte >> 3 & 1)
    conditions = []
    for i in range(c):
        word = int.from_bytes(data[8 + n + 8 * i : 16 + n + 8 * i], "big")
        first, attribute, operator = word >> 60, word >> 57 & 7, word >> 54 & 7
        form, second, attribute2 = word >> 53 & 1, word >> 49 & 15, word >> 46 & 7
        zero, value = word >> 32 & 0x3FFF, word & 0xFFFFFFFF
        rest = value or second >= n or attribute2 > WAVE if form else second or attribute2
        if first >= n or attribute > WAVE or operator > NOT_EQUAL or zero or rest:
            return 4, i, None
        conditions.append((first, second if form else None))
    return 0, 0, (sets, groups, conditions)


def steps(sets, groups, conditions):
    """The steps as numbers, rising: set by set, each part of it as a state with all of the earlier sets."""
    found = []
    for number in range(1, max(sets) + 1):
        earlier = {v for v, s in enumerate(sets) if s < number}
        own = [v for v, s in enumerate(sets) if s == number]
        for size in range(len(own) + 1):
            for part in itertools.combinations(own, size):
                state = earlier | set(part)
                for v in own:
                    if v in part and not groups[v]:
                        continue
                    mark = number > 1 and not part
                    carried = 0
                    for i, (first, second) in enumerate(conditions):
                        named = {first} if second is None else {first, second}
                        if v in named and named - {v} <= state:
                            carried |= 1 << i
                    found.append(sum(1 << u for u in state) << 52 | v << 48 | mark << 47 | carried)
    return sorted(found)


def listing(data, lent):
    """Code, place, used, and the slice after the call."""
    code, place, checked = check(data)
    if code:
        return code, place, 0, bytes(lent)
    found = steps(*checked)
    if lent // 8 < len(found):
        return 12, 0, 0, bytes(lent)
    written = b"".join(step.to_bytes(8, "big") for step in found)
    return 0, 0, len(found), written + bytes(lent - len(written))


def lines(title, data, lent):
    code, place, used, after = listing(data, lent)
    yield title
    yield f"{code} {place} {used} 0 0"
    total = 0
    for byte in after:
        total = (total * 31 + byte) % 65521
    yield f"checksum {total}"
    if lent <= 256:
        whole = lent // 8 * 8
        for at in range(0, whole, 8):
            yield after[at : at + 8].hex()
        for byte in after[whole:]:
            yield str(byte)


def main():
    here = os.path.dirname(os.path.abspath(__file__))
    text = "".join(line + "\n" for case in CASES for line in lines(*case))
    if sys.argv[1:] == ["--write"]:
        with open(os.path.join(here, "..", "crates", "listings", "stdout"), "w") as out:
            out.write(text)
    else:
        sys.stdout.write(text)


assert len(steps(*check(BENCH)[2])) == 7 and steps(*check(BENCH)[2])[-1] == 0x0032800000000014
assert len(steps(*check(PAPER)[2])) == 17
assert len(steps(*check(LARGEST)[2])) == 768

main()
