#!/usr/bin/env python3
"""What the checks of a block and of a pattern must answer by the rules (docs/RULES.md), and the table of cases that the
program `checks` is held to. No part of the gate, which compares what the program writes with its stdout file.

    tests/checks_model.py < crates/checks/stdin    reads a table and writes the line that each case must give
    tests/checks_model.py --write                  writes crates/checks/stdin (the table below) and crates/checks/stdout

crates/checks/src/main.rt says what a row of the table is; block_rows.rt and pattern_rows.rt there say what a line is.
"""
import os
import sys

# ---- Rules 1.2 and 2.1 to 2.3: fields, the highest bits first ----

RECORD = (2, 6, 8, 40, 32, 32, 8)  # kind, core, type, time, slot, amount, wave
HEADER = (4, 4, 8, 8, 40)  # edition, variables, conditions, zero, duration
VARIABLE = (4, 1, 3)  # set number, group flag, zero
CONDITION = (4, 3, 3, 1, 4, 3, 14, 32)  # variable, attribute, operator, form, second of both, zero, constant

# the most records of a block; variables, conditions and sets of a pattern; variables of a set
RECORDS, VARIABLES, CONDITIONS, SETS, SET_VARIABLES = 4096, 12, 32, 8, 6


def fields(data, widths):
    """The fields of the given widths that the bytes hold."""
    bits = "".join(f"{byte:08b}" for byte in data)
    assert len(bits) == sum(widths)
    found, at = [], 0
    for width in widths:
        found.append(int(bits[at : at + width], 2))
        at += width
    return found


# ---- Rules 8.1 to 8.7 and 8.14: the refusals ----


def check_block(block):
    """Code, place and used: the refusals 5 to 7, or the count of records."""
    if len(block) % 16 != 0 or len(block) // 16 > RECORDS:
        return 5, 0, 0
    kinds, times = [], []
    for i in range(len(block) // 16):
        kind, core, event_type, time, slot, amount, wave = fields(block[16 * i : 16 * i + 16], RECORD)
        if kind in (2, 3):
            return 6, i, 0
        if kind == 1 and not (core == event_type == amount == wave == 0 and slot >= 1):
            return 6, i, 0
        if times and (time < times[-1] or (time == times[-1] and 1 in (kind, kinds[-1]))):
            return 7, i, 0
        kinds.append(kind)
        times.append(time)
    return 0, 0, len(times)


def variable_keeps_rules(number, zero, before):
    """A variable's byte, judged with the set numbers before it."""
    starts = number == 1 if not before else before[-1] <= number <= before[-1] + 1
    return starts and number <= SETS and (before + [number]).count(number) <= SET_VARIABLES and zero == 0


def condition_keeps_rules(n, variable, attribute, operator, form, variable2, attribute2, zero, constant):
    if variable >= n or attribute in (6, 7) or operator in (6, 7) or zero != 0:
        return False
    if form == 0:
        return variable2 == 0 and attribute2 == 0
    return constant == 0 and variable2 < n and attribute2 not in (6, 7)


def check_pattern(pattern):
    """Code, place, duration, variables and conditions: the refusals 1 to 4 with all else empty, or the pattern."""

    def refused(code, place):
        return code, place, 0, [], []

    if len(pattern) < 8:
        return refused(1, 0)
    edition, n, c, zero, duration = fields(pattern[:8], HEADER)
    if edition != 1 or n not in range(1, VARIABLES + 1) or c not in range(0, CONDITIONS + 1) or zero != 0:
        return refused(2, 0)
    if len(pattern) != 8 + n + 8 * c:
        return refused(1, 0)
    variables = [fields(pattern[8 + v : 9 + v], VARIABLE) for v in range(n)]
    for v, (number, _, zero) in enumerate(variables):
        if not variable_keeps_rules(number, zero, [earlier[0] for earlier in variables[:v]]):
            return refused(3, v)
    conditions = [fields(pattern[8 + n + 8 * i : 16 + n + 8 * i], CONDITION) for i in range(c)]
    for i, condition in enumerate(conditions):
        if not condition_keeps_rules(n, *condition):
            return refused(4, i)
    return 0, 0, duration, variables, conditions


# ---- A row of the table, and its line ----


def events(n, extra=0, place=0, byte=0):
    """N events at the times 1, 2, .., then zero bytes; one byte of the whole is set."""
    block = bytearray(b"".join(bytes(2) + (i + 1).to_bytes(5, "big") + bytes(9) for i in range(n)) + bytes(extra))
    if place < len(block):
        block[place] = byte
    return bytes(block)


def block_line(block):
    return "%d %d %d" % check_block(block)


def pattern_line(pattern):
    code, place, duration, variables, conditions = check_pattern(pattern)
    line = f"{code} {place} {len(variables)} {len(conditions)} {duration} rest 0"
    if variables:
        line += ":"
    for number, group, _ in variables:
        line += f" {number}" + "+" * group
    for variable, attribute, operator, form, variable2, attribute2, _, constant in conditions:
        line += f"; {variable}.{attribute} {operator} {form} {variable2}.{attribute2} {constant}"
    return line


def line_of(row):
    word, *rest = row.split(" ")
    if word == "block":
        return block_line(bytes.fromhex("".join(rest)))
    if word == "events":
        return block_line(events(*map(int, rest)))
    if word == "pattern":
        return pattern_line(bytes.fromhex("".join(rest)))
    assert row == "" or row.startswith("#"), row
    return row


# ---- The table: what rows are made of ----


def event(time, core=0, event_type=0, slot=0, amount=0, kind=0, wave=0):
    return f"{kind << 6 | core:02x} {event_type:02x} {time:010x} {slot:08x} {amount:08x} {wave:02x}"


def gap(time, slot=1, **rest):
    return event(time, slot=slot, kind=1, **rest)


def block(*records):
    return "block " + "  ".join(records) if records else "block"


def condition(variable, attribute, operator, constant=0, second=None, form=None, zero=0):
    """Form 0 beside a constant, form 1 where a second variable and attribute are given, unless the form is given."""
    variable2, attribute2 = second or (0, 0)
    if form is None:
        form = 0 if second is None else 1
    high = 0
    for value, width in zip((variable, attribute, operator, form, variable2, attribute2, zero), CONDITION):
        high = high << width | value
    return f"{high:08x} {constant:08x}"


def pattern(variables, conditions=(), edition=1, n=None, c=None, zero=0, duration=100):
    """Variables as their bytes; counts as they are unless given."""
    n = len(variables) if n is None else n
    c = len(conditions) if c is None else c
    header = f"pattern {edition << 4 | n:02x} {c:02x} {zero:02x} {duration:010x}"
    variable_bytes = " ".join(f"{variable:02x}" for variable in variables)
    return "  ".join(filter(None, [header, variable_bytes, *conditions]))


# ---- The table: blocks ----

BENCH_BLOCK = block(
    event(10, 1, 3),
    event(20, 2, 17),
    event(30, 1, 17),
    event(40, 1, 17),
    event(50, 1, 33),
    event(60, 2, 3),
    gap(70, 9),
    event(80, 2, 33),
    event(90, 2, 17),
    event(100, 2, 3),
    event(110, 2, 17),
    event(120, 2, 33),
)

LAST_RECORD = 16 * (RECORDS - 1)

BLOCKS = [
    "# Blocks: code, place, used",
    "# The example block of the rules",
    BENCH_BLOCK,
    "# Lengths: 0, 1, 15, 16, 17, 31, 32 bytes",
    block(),
    block("00"),
    block("00" * 15),
    block(event(0)),
    block(event(0), "00"),
    block(event(0), "00" * 15),
    block(event(0), event(1)),
    "# 0, 1, 4,095, 4,096, 4,097 and 4,098 records",
    "events 0",
    "events 1",
    f"events {RECORDS - 1}",
    f"events {RECORDS}",
    f"events {RECORDS + 1}",
    f"events {RECORDS + 2}",
    "# 4,096 records and one byte, and fifteen; 4,095 records and fifteen bytes; 4,097 records and one byte",
    f"events {RECORDS} 1",
    f"events {RECORDS} 15",
    f"events {RECORDS - 1} 15",
    f"events {RECORDS + 1} 1",
    "# An event with every field as large as it can be: with wave 0, and with wave 255",
    block(event(2**40 - 1, 63, 255, 2**32 - 1, 2**32 - 1)),
    block(event(2**40 - 1, 63, 255, 2**32 - 1, 2**32 - 1, wave=0xFF)),
    "# Kind 2; kind 3; kind 2 in the second record",
    block(event(1, kind=2)),
    block(event(1, kind=3)),
    block(event(1), event(2, kind=2, slot=1)),
    "# Kinds 2 and 3 whatever the last byte is: 1 and 255, and with the slot of a gap",
    *[block(event(1, kind=kind, wave=wave)) for kind in (2, 3) for wave in (1, 0xFF)],
    *[block(event(1), event(2, kind=kind, slot=1, wave=0x80)) for kind in (2, 3)],
    "# Waves of events: lowest and highest bit, all bits; of the third record; each bit alone, then none",
    block(event(1, wave=1)),
    block(event(1, wave=0x80)),
    block(event(1, wave=0xFF)),
    block(event(1), event(2), event(3, wave=0xFF)),
    block(*[event(bit + 1, wave=1 << bit) for bit in range(8)], event(9)),
    "# Gaps with a wave: each bit alone, from the lowest, then all",
    *[block(gap(1, wave=wave)) for wave in (*[1 << bit for bit in range(8)], 0xFF)],
    "# Gaps with a wave and slot 0, a core, a type, an amount, the most entries lost",
    block(gap(1, 0, wave=1)),
    block(gap(1, core=1, wave=1)),
    block(gap(1, event_type=1, wave=1)),
    block(gap(1, amount=1, wave=1)),
    block(gap(1, 2**32 - 1, wave=0xFF)),
    "# Events and gaps: an event with a wave before a gap with one, before a gap with none, on both sides of that",
    block(event(1, wave=7), gap(2, wave=7)),
    block(event(1, wave=7), gap(2)),
    block(event(1, wave=7), gap(2), event(3, wave=0xFF)),
    "# The second gap and the third record with a wave; an event with a wave behind a gap with one",
    block(gap(1), gap(2, wave=0x80)),
    block(event(1), gap(2), gap(3, wave=0xFF), event(4)),
    block(gap(1, wave=1), event(2, wave=1)),
    "# Gaps in order: one entry lost, the most, two gaps beside each other",
    block(gap(1)),
    block(gap(1, 2**32 - 1)),
    block(event(1), gap(2, 7), gap(3, 256), event(4)),
    "# Gaps with slot 0, a core (1 and 63), a type (1 and 128), an amount (1 and the sign bit)",
    block(gap(1, 0)),
    block(gap(1, core=1)),
    block(gap(1, core=63)),
    block(gap(1, event_type=1)),
    block(gap(1, event_type=128)),
    block(gap(1, amount=1)),
    block(gap(1, amount=2**31)),
    "# Events with these fields, and slot 0, are in order",
    block(event(1, 1, 1, 0, 1), event(2, 63, 128, 0, 2**31)),
    "# Times: falling, falling to 0, falling in the highest byte, rising from the fourth byte into the highest",
    block(event(5), event(4)),
    block(event(1), event(0)),
    block(event(2**32), event(1)),
    block(event(2**32 - 1), event(2**32)),
    "# Events of one cycle: two, at the first time and at the last; three; two cycles of two; alike, and different in all",
    block(event(5), event(5)),
    block(event(0), event(0)),
    block(event(2**40 - 1), event(2**40 - 1)),
    block(event(5), event(5), event(5)),
    block(event(5), event(5), event(6), event(6)),
    block(event(5, 1, 2, 3, 4, wave=6), event(5, 1, 2, 3, 4, wave=6)),
    block(event(5, 1, 2, 3, 4, wave=6), event(5, 63, 255, 2**32 - 1, 2**31, wave=255)),
    "# A hundred events of one cycle, and a time below it behind them",
    block(*[event(7)] * 100),
    block(*[event(7)] * 100, event(6)),
    "# Times are not counted with waves: falling times with rising waves, rising times with falling waves",
    block(event(5, wave=1), event(4, wave=2)),
    block(event(5, wave=2), event(6, wave=1), event(7)),
    "# Times at a gap: the gap equal, the gap falling; the event after it equal, between the two, as the event before it",
    block(event(10), gap(10)),
    block(event(10), gap(9)),
    block(event(10), gap(20), event(20)),
    block(event(10), gap(20), event(15)),
    block(event(10), gap(20), event(10)),
    "# A gap in the cycle of two events, or between them; two gaps of one cycle, at the first time, with events around them",
    block(event(10), event(10), gap(10)),
    block(event(10), gap(10), event(10)),
    block(gap(0), gap(0)),
    block(event(10), gap(11), gap(11), event(12)),
    "# A gap with a cycle to itself between cycles of two events",
    block(event(10), event(10), gap(11), event(12), event(12)),
    "# An event in the cycle of a gap, then one a cycle later; the same with a second event in that cycle",
    block(gap(10), event(10), event(11)),
    block(gap(10), event(11), event(11), gap(11)),
    "# The last of 4,096 records: wave 1 and wave 255 of an event, kind 3, its time 0",
    f"events {RECORDS} 0 {LAST_RECORD + 15} 1",
    f"events {RECORDS} 0 {LAST_RECORD + 15} 255",
    f"events {RECORDS} 0 {LAST_RECORD} 192",
    f"events {RECORDS} 0 {LAST_RECORD + 5} 0",
    "# 5 before 6: a broken record, or a gap with a wave, and a byte too many; 4,097 records, the first broken",
    block(event(1, kind=3), "00"),
    block(gap(1, wave=1), "00"),
    f"events {RECORDS + 1} 0 0 192",
    "# 5 before 7: a late record and a byte too many, and 4,097 records of which the last is late",
    block(event(5), event(4), "00"),
    f"events {RECORDS + 1} 0 {LAST_RECORD + 16 + 5} 0",
    "# A record both broken and late: an event, a gap, a gap with a wave",
    block(event(5), event(4, kind=2)),
    block(event(5), gap(4, 0)),
    block(event(5), gap(5, wave=1)),
    "# The first bad record: late then broken, broken then late, two broken, two late",
    block(event(1), event(5), event(4), gap(6, wave=1)),
    block(event(1), event(5), gap(6, wave=1), event(2)),
    block(event(1), event(2, kind=3), event(3, kind=2)),
    block(event(5), event(4), event(3)),
    "# An event with a wave is no bad record: late before it, late behind it, two broken gaps behind it",
    block(event(1), event(5), event(4), event(6, wave=1)),
    block(event(1), event(5), event(6, wave=1), event(2)),
    block(event(1, wave=1), event(2, wave=2), gap(3, wave=3), gap(4, 0)),
]

# ---- The table: patterns ----

# Sets {0, 1+} and {2}
BENCH_VARIABLES = [0x10, 0x18, 0x20]
BENCH_CONDITIONS = [
    condition(0, 2, 0, 0),
    condition(1, 2, 0, 1),
    condition(2, 2, 0, 2),
    condition(0, 0, 0, second=(1, 0)),
    condition(0, 0, 0, second=(2, 0)),
]
BENCH_PATTERN = pattern(BENCH_VARIABLES, BENCH_CONDITIONS)

# Twelve variables in sets of 1, 2, 3 and 6, and 32 conditions in which no field is the same throughout
MOST_VARIABLES = [0x18, 0x20, 0x28, 0x30, 0x30, 0x38, 0x40, 0x40, 0x48, 0x40, 0x40, 0x48]
MOST_CONDITIONS = [
    condition(i % 12, i // 2 % 6, i // 4 % 6, second=((i + 5) % 12, i // 3 % 6))
    if i % 2
    else condition(i % 12, i // 2 % 6, i // 4 % 6, 2**32 - 1 - 3 * i)
    for i in range(32)
]


def one(*conditions, n=3):
    """A pattern of n variables in one set, with these conditions."""
    return pattern([0x10] * n, conditions)


GOOD = condition(0, 0, 0)

# Constants at the ends of what is read with a sign, and of what is read without one
EDGES = (0, 2**31 - 1, 2**31, 2**32 - 1)

PATTERNS = [
    "# Patterns: code, place, n, c, duration, rest 0 where all places beyond the counts are 0: set numbers, + for a group;",
    "# of each condition variable.attribute, operator, form, second variable.second attribute, constant",
    "# Under 8 bytes: 0, 1 and 7 bytes; 7 bytes of edition 2, 7 of n 0, 7 of a good header",
    "pattern",
    "pattern 11",
    "pattern 00 00 00 00 00 00 00",
    "pattern 21 00 00 00 00 00 00",
    "pattern 10 00 00 00 00 00 00",
    "pattern 11 00 00 00 00 00 00",
    "# The smallest pattern; durations 0 and the longest",
    pattern([0x10]),
    pattern([0x10], duration=0),
    pattern([0x18], duration=2**40 - 1),
    "# The example pattern of the rules, as made here and as printed there",
    BENCH_PATTERN,
    "pattern 13 05 00 00 00 00 00 64 10 18 20 04000000 00000000 14000000 00000001 24000000 00000002"
    " 00220000 00000000 00240000 00000000",
    "# The largest pattern: 12 variables and 32 conditions",
    pattern(MOST_VARIABLES, MOST_CONDITIONS),
    "# Edition 0, 2, 3, 9 and 15",
    *[pattern([0x10], edition=edition) for edition in (0, 2, 3, 9, 15)],
    "# n 0, 1, 12, 13 and 15, each with as many variables",
    pattern([]),
    pattern([0x10]),
    pattern([0x10] * 6 + [0x20] * 6),
    pattern([0x10] * 6 + [0x20] * 6 + [0x30]),
    pattern([0x10] * 6 + [0x20] * 6 + [0x30] * 3),
    "# c 32, 33 and 255, the first two with as many conditions",
    one(*[GOOD] * 32),
    one(*[GOOD] * 33),
    pattern([0x10], c=255),
    "# Header zero bits: lowest, highest, all",
    *[pattern([0x10], zero=zero) for zero in (1, 0x80, 0xFF)],
    "# Length: no variable byte, one too few, one too many; no condition, one byte too few, too many, a condition too many",
    pattern([], n=1),
    pattern([0x10] * 2, n=3),
    pattern([0x10] * 4, n=3),
    pattern([0x10], c=1),
    pattern([0x10], [GOOD[:-2]], c=1),
    pattern([0x10], [GOOD, "00"], c=1),
    pattern([0x10], [GOOD] * 2, c=1),
    "# A first set of 0, 2, 9 and 15",
    *[pattern([number << 4]) for number in (0, 2, 9, 15)],
    "# A set that falls: to 1, to 0, and by one at the last of 12 variables",
    pattern([0x10, 0x20, 0x10]),
    pattern([0x10, 0x00]),
    pattern([0x10] * 6 + [0x20] * 5 + [0x10]),
    "# A set that rises by two, at variable 1 and at variable 2",
    pattern([0x10, 0x30]),
    pattern([0x10, 0x20, 0x40]),
    "# Sets of 6 and of 7 variables: the first set, the second, with group variables among them",
    pattern([0x10] * 6),
    pattern([0x10] * 7),
    pattern([0x10] + [0x20] * 6),
    pattern([0x10] + [0x20] * 7),
    pattern([0x18] * 3 + [0x10] * 4),
    "# Set 8, and set 9",
    pattern([0x10, 0x20, 0x30, 0x40, 0x50, 0x60, 0x70, 0x80]),
    pattern([0x10, 0x20, 0x30, 0x40, 0x50, 0x60, 0x70, 0x80, 0x90]),
    "# Zero bits of a variable: each of the three, beside a group flag, at the last of three",
    pattern([0x11]),
    pattern([0x12]),
    pattern([0x14]),
    pattern([0x1F]),
    pattern([0x10, 0x18, 0x24]),
    "# Variables 1 and 2 both bad: both by their sets; 1 by zero bits and 2 by its set; 1 by its set and 2 beside that",
    pattern([0x10, 0x30, 0x50]),
    pattern([0x10, 0x12, 0x40]),
    pattern([0x10, 0x00, 0x10]),
    "# A condition's variable: n - 1, n and 15 of three; 11 and 12 of twelve",
    one(condition(2, 0, 0)),
    one(condition(3, 0, 0)),
    one(condition(15, 0, 0)),
    pattern(MOST_VARIABLES, [condition(11, 0, 0)]),
    pattern(MOST_VARIABLES, [condition(12, 0, 0)]),
    "# Attribute 4, 5, 6, 7",
    *[one(condition(0, attribute, 0)) for attribute in (4, 5, 6, 7)],
    "# Attribute 5, 6, 7 of the last variable, with the greatest operator and a constant; of form 1",
    *[one(condition(2, attribute, 5, 255)) for attribute in (5, 6, 7)],
    *[one(condition(0, attribute, 0, second=(1, 0))) for attribute in (5, 6, 7)],
    "# Operator 4, 5, 6, 7; the same beside wave; the same of form 1, beside core and beside wave",
    *[one(condition(0, 0, operator)) for operator in (4, 5, 6, 7)],
    *[one(condition(0, 5, operator)) for operator in (4, 5, 6, 7)],
    *[one(condition(0, 0, operator, second=(1, 0))) for operator in (4, 5, 6, 7)],
    *[one(condition(0, 5, operator, second=(1, 5))) for operator in (4, 5, 6, 7)],
    "# Operator 5 with each attribute: the constants 0, 2^31 - 1, 2^31 and the largest",
    *[one(*[condition(2, attribute, 5, constant) for constant in EDGES]) for attribute in range(6)],
    "# Operator 5 of form 1: each attribute on the first side, on the second, and on both sides of one variable",
    one(*[condition(0, attribute, 5, second=(2, 4)) for attribute in range(6)]),
    one(*[condition(2, 3, 5, second=(0, attribute)) for attribute in range(6)]),
    one(*[condition(1, attribute, 5, second=(1, attribute)) for attribute in range(6)]),
    "# Operator 5 saves no condition: variable n, second variable n, second attribute 6, a constant with form 1",
    one(condition(3, 0, 5)),
    one(condition(0, 0, 5, second=(3, 0))),
    one(condition(0, 0, 5, second=(1, 6))),
    one(condition(0, 0, 5, 1, second=(1, 0))),
    "# The same: with form 0 a second variable and a second attribute; the highest and the lowest of the zero bits",
    one(condition(0, 0, 5, second=(1, 0), form=0)),
    one(condition(0, 0, 5, second=(0, 1), form=0)),
    one(condition(0, 0, 5, zero=1 << 13)),
    one(condition(0, 0, 5, second=(1, 0), zero=1)),
    "# Constants: the largest beside core, the sign bit beside amount; beside wave 255, 256, 2^31 and the largest",
    one(condition(0, 0, 0, 2**32 - 1), condition(1, 4, 1, 2**31)),
    one(*[condition(0, 5, 1, constant) for constant in (255, 256, 2**31, 2**32 - 1)]),
    "# Form 0 with a second variable (1 and 8), with a second attribute (1 and 4), with both",
    one(condition(0, 0, 0, second=(1, 0), form=0)),
    one(condition(0, 0, 0, second=(8, 0), form=0)),
    one(condition(0, 0, 0, second=(0, 1), form=0)),
    one(condition(0, 0, 0, second=(0, 4), form=0)),
    one(condition(0, 0, 0, 7, second=(1, 1), form=0)),
    "# Form 0 with a second attribute of 5, 6 and 7; with 5 beside wave; beside wave with a second variable",
    *[one(condition(0, 0, 0, second=(0, attribute), form=0)) for attribute in (5, 6, 7)],
    one(condition(0, 5, 0, 7, second=(0, 5), form=0)),
    one(condition(0, 5, 0, 7, second=(1, 0), form=0)),
    "# Form 1 in order: second variable n - 1, second attribute 4, slot beside amount, one variable on both sides",
    one(condition(0, 3, 1, second=(2, 4)), condition(1, 4, 3, second=(1, 3))),
    "# Form 1 in order: wave beside wave of the last variable, beside each attribute, each attribute beside wave",
    one(condition(0, 5, 0, second=(2, 5))),
    one(*[condition(0, 5, 2, second=(1, attribute)) for attribute in range(6)]),
    one(*[condition(1, attribute, 2, second=(1, 5)) for attribute in range(6)]),
    "# Form 1 with a constant: lowest and highest bit; beside wave on either side",
    one(condition(0, 0, 0, 1, second=(1, 0))),
    one(condition(0, 0, 0, 2**31, second=(1, 0))),
    one(condition(0, 5, 0, 1, second=(1, 5))),
    one(condition(0, 5, 0, 2**31, second=(1, 0))),
    one(condition(0, 0, 0, 255, second=(1, 5))),
    "# Form 1 with second variable n, 15, and 12 of twelve",
    one(condition(0, 0, 0, second=(3, 0))),
    one(condition(0, 0, 0, second=(15, 0))),
    pattern(MOST_VARIABLES, [condition(0, 0, 0, second=(12, 0))]),
    "# Form 1 with second attribute 5, 6, 7",
    *[one(condition(0, 0, 0, second=(1, attribute))) for attribute in (5, 6, 7)],
    "# Form 1 with wave in front and second attribute 6, 7; with attribute 6, 7 and wave as second; with 6, 7 twice",
    *[one(condition(0, 5, 0, second=(1, attribute))) for attribute in (6, 7)],
    *[one(condition(0, attribute, 0, second=(1, 5))) for attribute in (6, 7)],
    *[one(condition(0, attribute, 0, second=(0, attribute))) for attribute in (6, 7)],
    "# Wave of a variable n, and beside a second variable n",
    one(condition(3, 5, 0)),
    one(condition(0, 5, 0, second=(3, 5))),
    "# Zero bits of a condition, from the highest to the lowest: each of the 14, two of form 1, two beside wave",
    *[one(condition(0, 0, 0, zero=1 << bit)) for bit in reversed(range(14))],
    one(condition(0, 0, 0, second=(1, 0), zero=1 << 13)),
    one(condition(0, 0, 0, second=(1, 0), zero=1)),
    one(condition(0, 5, 0, zero=1 << 13)),
    one(condition(0, 5, 0, second=(1, 5), zero=1)),
    "# Conditions 1 and 3 bad; the last of 32 bad, by operator 6, by attribute 6, by second attribute 6",
    one(GOOD, condition(0, 7, 0), GOOD, condition(0, 0, 7)),
    pattern(MOST_VARIABLES, MOST_CONDITIONS[:31] + [condition(0, 0, 6)]),
    pattern(MOST_VARIABLES, MOST_CONDITIONS[:31] + [condition(0, 6, 0)]),
    pattern(MOST_VARIABLES, MOST_CONDITIONS[:31] + [condition(0, 0, 0, second=(11, 6))]),
    "# The last of 32 good, with operator 5",
    pattern(MOST_VARIABLES, MOST_CONDITIONS[:31] + [condition(0, 0, 5)]),
    "# The first bad condition: attributes 4 to 7 in a row, on either side; 7 then 6; a good one behind a bad one",
    one(*[condition(0, attribute, 0) for attribute in (4, 5, 6, 7)]),
    one(*[condition(0, 5, 0, second=(1, attribute)) for attribute in (4, 5, 6, 7)]),
    one(condition(0, 5, 0), condition(0, 0, 0, second=(1, 7)), condition(0, 6, 0)),
    one(GOOD, condition(0, 6, 0), condition(0, 5, 0)),
    "# The first bad condition: operators 4 to 7 in a row, of either form; 7 then 6; a good one behind a bad one",
    one(*[condition(0, 0, operator) for operator in (4, 5, 6, 7)]),
    one(*[condition(0, 0, operator, second=(1, 0)) for operator in (4, 5, 6, 7)]),
    one(condition(0, 0, 5), condition(0, 0, 7), condition(0, 0, 6)),
    one(GOOD, condition(0, 0, 6), condition(0, 0, 5)),
    "# 2 before length: edition, n, c and zero bits broken, with a byte missing or too many",
    pattern([], n=1, edition=2),
    pattern([0x10] * 2, n=0),
    pattern([0x10], c=33),
    pattern([0x10] * 2, n=1, zero=1),
    "# 2 before 3 and 4: a good length, a broken variable and a broken condition; 2 before 4: attribute 6, operator 6",
    pattern([0x20], [condition(1, 0, 0)], edition=0),
    pattern([0x20], [condition(1, 0, 0)], zero=4),
    pattern([0x10], [condition(0, 6, 0)], edition=2),
    pattern([0x10], [condition(0, 0, 6)], edition=2),
    "# Length before 3: a broken variable, and a byte too many or missing",
    pattern([0x20, 0x10], n=1),
    pattern([0x10, 0x30], [GOOD[:-2]]),
    "# Length before 4: a broken condition, and a byte missing or too many",
    pattern([0x10], [condition(0, 7, 0)[:-2]]),
    pattern([0x10], [condition(0, 7, 0), "00"], c=1),
    "# The length behind a wave: a good condition, and a byte missing or too many",
    pattern([0x10], [condition(0, 5, 0)[:-2]]),
    pattern([0x10], [condition(0, 5, 0), "00"], c=1),
    "# 3 before 4: the last variable and the first condition bad, by variable, zero bits, attribute 6 on either side",
    pattern([0x10, 0x10, 0x30], [condition(3, 0, 0)]),
    pattern([0x10, 0x10, 0x11], [condition(0, 0, 0, zero=1)]),
    pattern([0x10, 0x10, 0x30], [condition(0, 6, 0)]),
    pattern([0x10, 0x10, 0x30], [condition(0, 5, 0, second=(1, 6))]),
    "# 3 before 4: the last variable bad, and the first condition by operator 6",
    pattern([0x10, 0x10, 0x30], [condition(0, 0, 6)]),
]

# ---- Writing ----


def write(folder):
    rows = BLOCKS + PATTERNS
    lines = [line_of(row) for row in rows]
    codes = [line.split(" ")[0] for row, line in zip(rows, lines) if not row.startswith("#")]
    assert all(codes.count(str(code)) >= 12 for code in range(8)), "each refusal at least twelve times"
    checked = [check_pattern(bytes.fromhex(row.removeprefix("pattern"))) for row in PATTERNS if not row.startswith("#")]
    operators = [operator for *_, conditions in checked for _, _, operator, *_ in conditions]
    assert all(operators.count(operator) >= 8 for operator in range(6)), "each operator taken at least eight times"
    table = "".join(row + "\n" for row in rows)
    assert len(table) <= 65536, "the program reads so much"
    for name, text in ("stdin", table), ("stdout", "".join(line + "\n" for line in lines)):
        with open(os.path.join(folder, name), "w", encoding="ascii") as file:
            file.write(text)


if __name__ == "__main__":
    if sys.argv[1:] == ["--write"]:
        write(os.path.join(os.path.dirname(os.path.abspath(__file__)), "..", "crates", "checks"))
    else:
        for row in sys.stdin:
            print(line_of(row.rstrip("\n")))
