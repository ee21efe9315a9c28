#!/usr/bin/env python3
"""What the two passes and measure must answer by the rules (docs/RULES.md), and the table of cases that the program
`passes` is held to. No part of the gate, which compares what the program writes with its stdout file.

    tests/passes_model.py < crates/passes/stdin    reads a table and writes the lines that each case must give
    tests/passes_model.py --write                  writes crates/passes/stdin (the table below) and crates/passes/stdout

crates/passes/src/main.rt says what a row of the table is; cases.rt there says what its lines are. The model goes record by
record over all live readings, and sorts what closed at the end; it knows nothing of starts, and nothing of slots.
"""
import os
import sys
from itertools import product

from checks_model import BENCH_BLOCK, BENCH_PATTERN, check_block, check_pattern, condition, event, fields, gap, RECORD

MOST_BINDINGS = 32
MOST_COUNTED = 4294967295
MOST_LIVE = 256
WORK_PER_READING = 160
PAST, END, GAP, GAP_COMPLETE = 1, 2, 3, 4

# how many bytes of a table the program reads, TABLE_ROOM there
TABLE_BYTES = 131072

# ---- Rules 3.1 to 6.3. A reading is a tuple of (variable, record), oldest first. ----


def value(record, attribute):
    kind, core, event_type, time, slot, amount, wave = record
    if attribute == 0:
        return core
    if attribute == 1:
        return event_type
    if attribute == 2:
        return sum(event_type >= least for least in (16, 32, 64, 96, 128))
    if attribute == 3:
        return slot
    if attribute == 4:
        return amount - 2**32 if amount >= 2**31 else amount
    return wave


def compare(operator, a, b):
    return (a == b, a < b, a <= b, a > b, a >= b, a != b)[operator]


def holds(condition, first, second):
    variable, attribute, operator, form, variable2, attribute2, zero, constant = condition
    if form == 1:
        return compare(operator, value(first, attribute), value(second, attribute2))
    signed = constant - 2**32 if attribute == 4 and constant >= 2**31 else constant
    return compare(operator, value(first, attribute), signed)


class Rule:
    def __init__(self, duration, variables, conditions, records):
        self.duration, self.variables, self.conditions, self.records = duration, variables, conditions, records
        self.sets = [number for number, group, zero in variables]

    def leaves(self, state, v):
        """Whether v leaves the state, and whether with the order mark."""
        bound_sets = {self.sets[u] for u in state}
        top = max(bound_sets, default=1)
        whole = {u for u in range(len(self.sets)) if self.sets[u] == top} <= state
        if v in state:
            return self.sets[v] == top and self.variables[v][1] == 1, False
        if self.sets[v] == top:
            return True, False
        return whole and self.sets[v] == top + 1, True

    def fires(self, reading, v, j):
        state = {u for u, _ in reading}
        leaves, marked = self.leaves(state, v)
        if not leaves:
            return False
        if marked and not all(self.records[i][3] < self.records[j][3] for _, i in reading):
            return False
        for condition in self.conditions:
            one, form, two = condition[0], condition[3], condition[4]
            named = {one} | ({two} if form == 1 else set())
            if v not in named or not named <= state | {v}:
                continue
            bound = lambda u: [j] if u == v else [i for w, i in reading if w == u]
            for a, b in product(bound(one), bound(two) if form == 1 else [j]):
                if not holds(condition, self.records[a], self.records[b]):
                    return False
        return True

    def gap_mark(self):
        last = [group for number, group, zero in self.variables if number == self.sets[-1]]
        return GAP if any(last) else GAP_COMPLETE

    def closed(self, readings, mark):
        """The lines of those readings that hold all variables."""
        return [(mark, reading) for reading in readings if {u for u, _ in reading} == set(range(len(self.sets)))]

    def history(self):
        """Of each record, and then of the end: the lines that close there, whether a reading would take a binding
        too many there, and how many readings are live after it."""
        live = []
        for j, record in enumerate(self.records):
            if record[0] == 1:
                yield self.closed(live, self.gap_mark()), False, 0
                live = []
                continue
            late = [reading for reading in live if record[3] - self.records[reading[0][1]][3] > self.duration]
            after, over = [], False
            for reading in [()] + [reading for reading in live if reading not in late]:
                firing = [v for v in range(len(self.sets)) if self.fires(reading, v, j)]
                if firing and len(reading) == MOST_BINDINGS:
                    over = True
                elif firing:
                    after += [reading + ((v, j),) for v in firing]
                elif reading:
                    after.append(reading)
            yield self.closed(late, PAST), over, len(after)
            live = after
        yield self.closed(live, END), False, 0


def pack(lines):
    """The numbers of a report: by first record, then by the variables."""
    numbers = []
    for mark, reading in sorted(lines, key=lambda line: (line[1][0][1], [v for v, _ in line[1]])):
        numbers += [mark * 4096 + len(reading)] + [v * 4096 + j for v, j in reading]
    return numbers


# ---- Rules 7.5 to 7.7 and 8.8 to 8.16: each call gives its answer, and a pass the numbers that it writes. ----


def refused(code, place):
    return (code, place, 0, 0, 0), []


def forward(rule, limit, work, room):
    """At one record 11 comes first, as closings do, then 9, then 10. (13 never arises: no step binds a record again.)"""
    if not 1 <= limit <= MOST_LIVE or work < WORK_PER_READING * limit:
        return refused(8, 0)
    lines, peak = [], 0
    for j, (closed, over, live) in enumerate(rule.history()):
        lines += closed
        if len(pack(lines)) > room:
            return refused(11, 0)
        if over:
            return refused(9, j)
        if live > limit:
            return refused(10, j)
        peak = max(peak, live)
    return (0, 0, len(pack(lines)), len(lines), peak), pack(lines)


def measure(rule):
    """9 over the whole block, at the least such record; never 11."""
    lines = []
    for j, (closed, over, _) in enumerate(rule.history()):
        if over:
            return refused(9, j)
        lines += closed
    return (0, 0, min(len(pack(lines)), MOST_COUNTED), min(len(lines), MOST_COUNTED), 0), pack(lines)


def start_by_start(rule, room):
    """As measure, and then 11."""
    answer, numbers = measure(rule)
    return refused(11, 0) if len(numbers) > room else (answer, numbers)


def answers(limit, work, lent, pattern, block):
    """What the forward pass, the start-by-start pass and measure give."""
    code, place, duration, variables, conditions = check_pattern(pattern)
    if code:
        return [refused(code, place)] * 3
    code, place, _ = check_block(block)
    if code:
        return [refused(code, place)] * 3
    records = [fields(block[i : i + 16], RECORD) for i in range(0, len(block), 16)]
    rule = Rule(duration, variables, conditions, records)
    return [forward(rule, limit, work, lent // 2), start_by_start(rule, lent // 2), measure(rule)]


def lines_of(row):
    if row.startswith("#"):
        return [row]
    limit, work, lent, pattern, block = row.split(" ")
    limit, work, lent = int(limit), int(work), int(lent)
    ahead, starts, measured = answers(limit, work, lent, bytes.fromhex(pattern), bytes.fromhex(block))

    def told(answer):
        return " ".join(map(str, answer))

    def result(numbers):
        padded = numbers + [0] * (lent // 2 - len(numbers))
        return " |" + "".join(f" {number}" for number in padded) + (" left 0" if lent % 2 else "")

    return [
        f"forward {told(ahead[0])}{result(ahead[1])} | work {work} 0",
        f"start by start {told(starts[0])}{result(starts[1])}",
        f"measure {told(measured[0])}",
    ]


# ---- The table ----

CORE, TYPE, CLASS, SLOT, AMOUNT, WAVE = range(6)
EQUAL, LESS, LESS_EQUAL, GREATER, GREATER_EQUAL, NOT_EQUAL = range(6)

# by attribute, the field of an event that it comes from
FIELDS = ("core", "event_type", "event_type", "slot", "amount", "wave")


def plain(*variables, conditions=(), duration=100):
    """A pattern by (set number, group flag) of each variable."""
    header = 1 << 60 | len(variables) << 56 | len(conditions) << 48 | duration
    return header.to_bytes(8, "big").hex() + "".join(f"{number << 4 | group << 3:02x}" for number, group in variables) + "".join(conditions)


def joined(digits):
    return digits.replace(" ", "")


def case(lent, pattern, records, limit=MOST_LIVE, work=None):
    """A row, with as much working memory as the limit needs unless it is given. The hex digits of the records stand
    together, as those of the pattern do."""
    work = WORK_PER_READING * limit if work is None else work
    assert limit < 100000 and work <= 65536 and lent <= 4096, "the program has so much room"
    return f"{limit} {work} {lent} {joined(pattern)} {joined(''.join(records))}"


def steps(n, **rest):
    return [event(10 + i, **rest) for i in range(n)]


BENCH = joined(BENCH_PATTERN.removeprefix("pattern"))
BENCH_RECORDS = joined(BENCH_BLOCK.removeprefix("block"))
P1 = [16388, 0, 4098, 4099, 8196, 8196, 4104, 9, 4106, 8203, 8195, 9, 4106, 8203]
GROUP = plain((1, 1), duration=1000)
TWO_GROUPS = plain((1, 1), (2, 0), conditions=(condition(0, 2, 0, 0), condition(1, 2, 0, 2)), duration=1000)
BINDS = [event(10 * i + 10) for i in range(MOST_BINDINGS)]
DRAW = event(500, event_type=33)
LATE_BIND = event(510)
LATE_DRAW = event(520, event_type=33)

THREE = plain((1, 0), (1, 0), (1, 0), conditions=(condition(0, 2, 0, 0), condition(1, 2, 0, 1), condition(2, 2, 0, 2)))
GREEDY = plain((1, 1), (2, 0), conditions=(condition(0, 2, 0, 1), condition(1, 2, 0, 2), condition(1, 0, 0, second=(0, 0))))
EDGES = (0, 1, 0x7FFFFFFF, 0x80000000, 0xFFFFFFFF)

ONE = plain((1, 0))
BENCH_DRAWS = BENCH[:20] + "28" + BENCH[22:]
BRIEF = plain((1, 0), duration=5)
BIND_DRAW = plain((1, 0), (2, 0), conditions=(condition(0, 2, 0, 0), condition(1, 2, 0, 2)))
BIND_DRAWS = plain((1, 0), (2, 1), conditions=(condition(0, 2, 0, 0), condition(1, 2, 0, 2)))
SPAN = [event(10, 1, 3), event(20, 1, 17), event(30, 1, 33)]
STAYS = [event(10), event(20, event_type=33), event(30, event_type=200), event(40, event_type=200), event(50)]
AGAIN = [event(10), gap(11)] + [event(20 + i) for i in range(MOST_BINDINGS + 1)]
THRICE = [event(10), event(20), event(30)]

# Variables of which no two can be bound together: each event begins four readings, and all stay live
APART = plain(*[(1, 0)] * 4, conditions=[condition(u, 3, 1, second=(v, 3)) for v in range(4) for u in range(v)])

# A user mark fires both variables, so that each live reading becomes two
BIND_OR_MARK = plain((1, 1), (1, 0), conditions=(condition(1, 2, 0, 5),))
MARK = event(60, event_type=200)

# At the last record the reading of core 5 closes, and that of core 6 would take a binding too many
CORES = plain((1, 0), (2, 1), conditions=(condition(0, 2, 0, 0), condition(1, 2, 0, 1), condition(1, 0, 0, second=(0, 0))))
CORE_5 = [event(10, 5), event(11, 5, 17)]
CORE_6 = [event(12, 6)] + [event(13 + i, 6, 17) for i in range(MOST_BINDINGS - 1)] + [event(111, 6, 17)]

# At record 2 the reading of record 0 closes, and four are live after it
CLOSE_FOUR = plain((1, 0), (1, 0), conditions=(condition(0, 2, 0, 0),), duration=5)
FOUR_LIVE = [event(10, event_type=17), event(11), event(16)]

ROWS = [
    "# P1 and P3: the bench block with L 5, a limit met exactly; its result is longer than it needs",
    case(60, BENCH, [BENCH_RECORDS], limit=5),
    "# P4: L 4 is 10 at record 5",
    case(60, BENCH, [BENCH_RECORDS], limit=4),
    "# P5: a result of 14 numbers fits",
    case(28, BENCH, [BENCH_RECORDS], limit=5),
    "# P6: 13 is 11",
    case(26, BENCH, [BENCH_RECORDS], limit=5),
    "# P7: no records",
    case(8, BENCH, []),
    "# P8: one event alone, with a duration of 0",
    case(8, plain((1, 0), duration=0), [event(10)], limit=1),
    "# P9: sets {0} and {1}, events at 10 and 110",
    case(8, plain((1, 0), (2, 0)), [event(10), event(110)]),
    "# P10: at 10 and 111",
    case(8, plain((1, 0), (2, 0)), [event(10), event(111)]),
]

LENT = [
    "# A result of odd length, whose left-over byte is 0: with one number too few, with enough, with far more, with no number",
    case(27, BENCH, [BENCH_RECORDS]),
    case(29, BENCH, [BENCH_RECORDS]),
    case(61, BENCH, [BENCH_RECORDS]),
    case(1, BENCH, [BENCH_RECORDS]),
    "# No result at all: too short for three readings, and enough for none",
    case(0, BENCH, [BENCH_RECORDS]),
    case(0, BENCH, SPAN[:2]),
    "# Working memory longer than L 5 needs: by one byte, and by 64,736",
    case(28, BENCH, [BENCH_RECORDS], limit=5, work=801),
    case(28, BENCH, [BENCH_RECORDS], limit=5, work=65536),
    "# Working memory longer than needed, with a refusal of the pass, and with one of the pattern",
    case(28, BENCH, [BENCH_RECORDS], limit=4, work=801),
    case(28, BENCH[:-2], [BENCH_RECORDS], limit=5, work=801),
    "# L 256 met exactly, by 64 events that begin four readings each; one event more is 10 at record 64",
    case(8, APART, steps(64), limit=256),
    case(8, APART, steps(65), limit=256),
    "# L 255 is 10 at record 63",
    case(8, APART, steps(64), limit=255),
]

REFUSED = [
    "# 1: no bytes, seven bytes, a byte too few",
    case(9, "", [BENCH_RECORDS]),
    case(9, BENCH[:14], [BENCH_RECORDS]),
    case(9, BENCH[:-2], [BENCH_RECORDS]),
    "# 2: edition 2, and the block broken too",
    case(6, "23" + BENCH[2:], [BENCH_RECORDS[:-2]]),
    "# 3 at variable 1: its set is 3",
    case(6, plain((1, 0), (3, 0)), THRICE),
    "# 4 at condition 2: its operator is 6, its operator is 7; at condition 1, of form 1: 6 and then 7, 7 and then 6",
    case(6, plain((1, 0), conditions=(condition(0, 0, 0), condition(0, 0, 5), condition(0, 0, 6))), THRICE),
    case(6, plain((1, 0), conditions=(condition(0, 0, 4), condition(0, 0, 5), condition(0, 0, 7))), THRICE),
    case(6, plain((1, 0), conditions=[condition(0, 0, operator, second=(0, 1)) for operator in (5, 6, 7)]), THRICE),
    case(6, plain((1, 0), conditions=[condition(0, 0, operator, second=(0, 1)) for operator in (5, 7, 6)]), THRICE),
    "# 4 at condition 1: its attribute is 6, and the block broken too; its second attribute is 6",
    case(6, plain((1, 0), conditions=(condition(0, 5, 0), condition(0, 6, 0))), [gap(10, wave=1)]),
    case(6, plain((1, 0), conditions=(condition(0, 5, 0), condition(0, 5, 0, second=(0, 6)))), THRICE),
    "# 5: a byte too few",
    case(6, BENCH, [BENCH_RECORDS[:-2]]),
    "# 6 at record 1: kind 2; the next record is late",
    case(5, BENCH, [event(10), event(20, kind=2), event(15)]),
    "# 6 at record 1, behind an event with a wave: a gap with one, kind 3 with one",
    case(5, ONE, [event(10, wave=9), gap(20, wave=9), event(15)]),
    case(5, ONE, [event(10, wave=9), event(20, kind=3, wave=9)]),
    "# 7 at record 1: a gap in the cycle of an event, an event in that of a gap, a time below; at record 2, a gap that falls",
    case(6, BENCH, [event(10), gap(10)]),
    case(6, BENCH, [gap(10), event(10)]),
    case(6, BENCH, [event(10), event(9)]),
    case(6, BENCH, [event(10), event(20), gap(15)]),
    "# 8: L 0 with working memory, L 0 with none, L 257, L 65,537 (its low 16 bits are 1)",
    case(28, BENCH, [BENCH_RECORDS], limit=0, work=40960),
    case(28, BENCH, [BENCH_RECORDS], limit=0),
    case(28, BENCH, [BENCH_RECORDS], limit=257),
    case(28, BENCH, [BENCH_RECORDS], limit=65537, work=65536),
    "# 8: working memory one byte short of L 5, of L 1 and of L 256; none at all",
    case(29, BENCH, [BENCH_RECORDS], limit=5, work=799),
    case(28, BENCH, [BENCH_RECORDS], limit=1, work=159),
    case(28, BENCH, [BENCH_RECORDS], limit=256, work=40959),
    case(28, BENCH, [BENCH_RECORDS], limit=5, work=0),
    "# 8 after 4, and after 7: pattern or block broken, L 257 and no working memory",
    case(6, plain((1, 0), conditions=(condition(0, 0, 6),)), THRICE, limit=257, work=0),
    case(6, BENCH, [event(10), gap(10)], limit=257, work=0),
    "# 8 before the pass: L 0 or working memory short, where the pass would give 9, 10 or 11",
    case(4, GROUP, steps(MOST_BINDINGS + 1), limit=0),
    case(28, BENCH, [BENCH_RECORDS], limit=4, work=639),
    case(0, BENCH, [BENCH_RECORDS], limit=5, work=799),
    f"# 9 at record {MOST_BINDINGS}, a binding too many; 10 at the record before it, with L {MOST_BINDINGS - 1}",
    case(40, GROUP, steps(MOST_BINDINGS + 1), limit=MOST_BINDINGS + 1),
    case(40, GROUP, steps(MOST_BINDINGS + 1), limit=MOST_BINDINGS - 1),
    f"# 9 before 10 at one record: a binding too many at record {MOST_BINDINGS}, and far more live than L; one bind fewer, and it is 10",
    case(40, BIND_OR_MARK, steps(MOST_BINDINGS) + [MARK], limit=MOST_BINDINGS),
    case(40, BIND_OR_MARK, steps(MOST_BINDINGS - 1) + [MARK], limit=MOST_BINDINGS),
    "# 10 at record 5 before an 11 at record 6, and 11 at record 6, a gap, with L 5",
    case(8, BENCH, [BENCH_RECORDS], limit=4),
    case(8, BENCH, [BENCH_RECORDS], limit=5),
    "# 11 at the end of the block: the last reading does not fit",
    case(20, BENCH, [BENCH_RECORDS], limit=5),
    "# 11 before a later 9: one number at a gap, then a binding too many; with two numbers, 9 at the last record",
    case(2, GROUP, AGAIN),
    case(4, GROUP, AGAIN),
    "# 11 before a later 10: one number at a gap, then two live with L 1; with two numbers, 10 at record 3",
    case(2, ONE, [event(10), gap(11), event(20), event(30)], limit=1),
    case(4, ONE, [event(10), gap(11), event(20), event(30)], limit=1),
    "# The same past the window and with no gap: 11, and 10 at record 2",
    case(2, BRIEF, [event(10), event(20), event(21)], limit=1),
    case(4, BRIEF, [event(10), event(20), event(21)], limit=1),
    "# 11 before 9 at one record, since closings come first; with room for what closes, 9 at the last record",
    case(4, CORES, CORE_5 + CORE_6),
    case(6, CORES, CORE_5 + CORE_6),
    "# 11 before 10 at one record; with room for what closes, 10 at record 2",
    case(4, CLOSE_FOUR, FOUR_LIVE, limit=3),
    case(6, CLOSE_FOUR, FOUR_LIVE, limit=3),
]

LIVE = [
    "# A full reading stays live across records that fire nothing: L 2 has room for the next start, L 1 is 10 at record 4",
    case(16, BIND_DRAW, STAYS, limit=2),
    case(16, BIND_DRAW, STAYS, limit=1),
    "# A full reading stays live and takes the next event of its group",
    case(16, BIND_DRAWS, STAYS[:4] + [event(50, event_type=33), event(60, event_type=200)], limit=1),
    "# Readings that close make room: 20 events, six of them within a duration of 5; L 5 is 10 at record 5",
    case(80, BRIEF, steps(20), limit=6),
    case(80, BRIEF, steps(20), limit=5),
    "# After a gap nothing is live: three events on each side, with L 3",
    case(40, ONE, THRICE + [gap(40), event(50), event(60), event(70)], limit=3),
    "# A gap past the window: mark 4, and 3 with a group variable in the last set; an event past it: mark 1; the end: mark 2",
    case(40, BENCH, SPAN + [gap(500)]),
    case(40, BENCH_DRAWS, SPAN + [gap(500)]),
    case(40, BENCH, SPAN + [event(500, 1, 200)]),
    case(40, BENCH, SPAN),
    "# Equal first records, in order of the variables: each event opens both",
    case(60, plain((1, 0), (1, 0)), THRICE),
    case(200, plain((1, 1), (1, 0)), THRICE),
]

RULE = [
    "# The bench block without its gap, and with a gap between all records",
    case(60, BENCH, [BENCH_RECORDS[: 6 * 32], BENCH_RECORDS[7 * 32 :]]),
    case(60, BENCH, [event(10, 1, 3), gap(15), event(20, 1, 17), gap(25), event(30, 1, 33)]),
    "# The same block before and after a gap is put in",
    case(40, BENCH, SPAN + [event(40, 1, 17)]),
    case(40, BENCH, SPAN + [gap(35), event(40, 1, 17)]),
    case(40, BENCH, SPAN[:2] + [gap(25), event(30, 1, 33), event(40, 1, 17)]),
    "# Gaps only",
    case(8, BENCH, [gap(10), gap(20, 9), gap(30)]),
    "# The window: the last record within it, and one past it that begins readings of its own",
    case(16, plain((1, 0), duration=0), [event(10), event(11), event(12)]),
    case(26, plain((1, 0), (1, 0), duration=5), [event(10), event(15), event(16)]),
    f"# A group variable at one event less than the {MOST_BINDINGS} bindings, at as many, and at more: from each event its own reading",
    case(1056, GROUP, steps(MOST_BINDINGS - 1)),
    case(1120, GROUP, steps(MOST_BINDINGS)),
    case(40, GROUP, steps(MOST_BINDINGS + 1)),
    case(2, GROUP, steps(MOST_BINDINGS + 8)),
    f"# {MOST_BINDINGS} bindings at the end of the first set, so that the second would take one too many; one less, and the second has room",
    case(41, TWO_GROUPS, BINDS + [DRAW]),
    case(1300, TWO_GROUPS, BINDS[1:] + [DRAW]),
    case(1300, TWO_GROUPS, BINDS[1:] + [DRAW, LATE_BIND, LATE_DRAW]),
    "# The start-by-start pass looks for 9 over the whole block, before 11; the least such record, of several starts",
    case(0, GROUP, steps(MOST_BINDINGS + 1)),
    case(0, GROUP, steps(MOST_BINDINGS)),
    case(4, TWO_GROUPS, [gap(5)] + BINDS + [DRAW, LATE_BIND]),
    "# A join that holds for one binding and not for another",
    case(60, plain((1, 1), (2, 0), conditions=(condition(0, 2, 0, 0), condition(1, 2, 0, 2), condition(1, 3, 4, second=(0, 3)))), [event(10, slot=5), event(20, slot=7), event(30, event_type=33, slot=6), event(40, event_type=33, slot=7)]),
    "# One automaton and not one for each ordering: of c p d p in {c, d, p} the first p is bound, so c d p is no reading",
    case(40, THREE, [event(10), event(20, event_type=33), event(30, event_type=17), event(40, event_type=33)]),
    "# A greedy loop is not backed out of: a group variable that joins no one takes the other core's events, and is lost",
    case(40, GREEDY, [event(10, 1, 17), event(20, 2, 17), event(30, 1, 33)]),
    case(40, GREEDY, [event(10, 1, 17), event(20, 1, 17), event(30, 1, 33)]),
    "# A variable without conditions takes any event",
    case(40, plain((1, 0), (2, 0), conditions=(condition(0, 2, 0, 0),)), [event(10), event(20, event_type=200)]),
    "# Amounts are signed, slots are not: amount < 0, amount >= -2^31, slot >= 2^31 and slot > amount, at their edges",
    *(case(20, plain((1, 0), duration=0, conditions=(condition(0, 4, 1, 0),)), [event(10, amount=a)]) for a in EDGES),
    *(case(20, plain((1, 0), duration=0, conditions=(condition(0, 4, 4, 0x80000000),)), [event(10, amount=a)]) for a in EDGES),
    *(case(20, plain((1, 0), duration=0, conditions=(condition(0, 3, 4, 0x80000000),)), [event(10, slot=a)]) for a in EDGES),
    *(case(20, plain((1, 0), duration=0, conditions=(condition(0, 3, 3, second=(0, 4)),)), [event(10, slot=0x7FFFFFFF, amount=a)]) for a in EDGES),
]

# The examples that the rules give beside their clauses: caption, pattern, records, and the lines that the rules state
BY_TYPE = (condition(0, 1, 0, 0), condition(1, 1, 0, 1))
BIND_THEN_DRAW = (condition(0, CLASS, EQUAL, 0), condition(1, CLASS, EQUAL, 2))
ONE_CORE = plain((1, 0), (1, 1), conditions=BY_TYPE + (condition(0, 0, 0, second=(1, 0)),))
OTHER_CORE, ITS_CORE = (
    plain((1, 1), (2, 0), conditions=BIND_THEN_DRAW + (condition(1, CORE, operator, second=(0, CORE)),))
    for operator in (NOT_EQUAL, EQUAL)
)
BINDS_AND_DRAWS = [event(10, 1), event(11, 2), event(12, 2, 33), event(13, 3, 33)]
EXAMPLES = [
    (
        "4.2, a merged state: 0 loops until 1 is bound",
        plain((1, 1), (2, 1), conditions=BY_TYPE),
        [event(10 + i, event_type=kind) for i, kind in enumerate((0, 0, 1, 0, 1))],
        ["2 0@0 0@1 1@2 1@4", "2 0@1 1@2 1@4", "2 0@3 1@4"],
    ),
    (
        "4.3, one cycle: the event of the next set is not taken in it",
        plain((1, 0), (2, 0), conditions=BY_TYPE),
        [event(10), event(10, event_type=1), event(11, event_type=1)],
        ["2 0@0 1@2"],
    ),
    (
        "4.3, one cycle: a loop in it",
        plain((1, 1), (2, 0), conditions=BY_TYPE),
        [event(10), event(11), event(11, event_type=1), event(12, event_type=1)],
        ["2 0@0 0@1 1@3", "2 0@1 1@3"],
    ),
    (
        "5.3, a loop: an event that fails with one binding",
        ONE_CORE,
        [event(10, 2, 0), event(11, 2, 1), event(12, 3, 1), event(13, 2, 1)],
        ["2 0@0 1@1 1@3"],
    ),
    ("5.3, a loop: two bindings that no event agrees with", ONE_CORE, [event(10, 2, 1), event(11, 3, 1), event(12, 2, 0)], []),
    (
        "5.3, one variable on both sides",
        plain((1, 1), conditions=(condition(0, 3, 0, second=(0, 4)),)),
        [event(10, slot=3, amount=3), event(11, slot=4, amount=4), event(12, slot=4, amount=3)],
        ["2 0@0 0@1", "2 0@1"],
    ),
    ("5.3, not equal: a bound core, another one", OTHER_CORE, BINDS_AND_DRAWS, ["2 0@0 0@1 1@3", "2 0@1 1@3"]),
    ("5.3, not equal: with = in its place", ITS_CORE, BINDS_AND_DRAWS, ["2 0@1 1@2"]),
    (
        "5.5, an event that must be bound",
        plain((1, 0), (1, 1), conditions=BY_TYPE),
        [event(10), event(11, event_type=1), event(12, event_type=1)],
        ["2 0@0 1@1 1@2"],
    ),
    ("5.5, two ways", plain((1, 1), (2, 0)), [event(10), event(11)], ["2 0@0 1@1"]),
    ("5.8, a gap past the window", ONE, [event(10), gap(500)], ["4 0@0"]),
    ("5.8, the same under a group variable", plain((1, 1)), [event(10), gap(500)], ["3 0@0"]),
]
EXAMPLE_ROWS = [
    row
    for caption, pattern, records, _ in EXAMPLES
    for row in (f"# Rule {caption}", case(40, pattern, records))
]

# ---- The table: waves ----


def constant(attribute, operator, number, values, met):
    """Events of these values, and which of them stand so to a constant: with duration 0 each one is a reading."""
    pattern = plain((1, 0), conditions=(condition(0, attribute, operator, number),), duration=0)
    lines = [f"{END if i == len(values) - 1 else PAST} 0@{i}" for i in met]
    return pattern, [event(10 + i, **{FIELDS[attribute]: value}) for i, value in enumerate(values)], lines


def own(conditions, events, lines):
    """A group variable, and conditions on two attributes of each of its events."""
    joins = [condition(0, first, operator, second=(0, second)) for first, operator, second in conditions]
    return plain((1, 1), conditions=joins), [event(10 + i, **one) for i, one in enumerate(events)], lines


def joined_to(first, operator, second, bind, draws, lines, left=0):
    """A bind, and the draw that it is joined to: the bind on the left of the operator, or with left 1 the draw."""
    sides = (0, first), (1, second)
    conditions = (*BIND_THEN_DRAW, condition(*sides[left], operator, second=sides[1 - left]))
    records = [event(10, **bind)] + [event(11 + i, event_type=33, **draw) for i, draw in enumerate(draws)]
    return plain((1, 0), (2, 0), conditions=conditions), records, lines


RISING_WAVE = plain((1, 0), (2, 0), conditions=(condition(0, WAVE, LESS, second=(1, WAVE)),))
ONE_WAVE = plain((1, 0), (1, 1), conditions=BY_TYPE + (condition(0, WAVE, EQUAL, second=(1, WAVE)),))
NO_LOWER = plain((1, 1), (2, 0), conditions=BY_TYPE + (condition(1, WAVE, GREATER_EQUAL, second=(0, WAVE)),))
NO_WAVE = plain((1, 1), conditions=(condition(0, WAVE, EQUAL, 0),))

# Amounts as their bits
MINUS_ONE, LEAST, GREATEST = 2**32 - 1, 2**31, 2**31 - 1


def captioned(table, lent):
    """The rows of a table: each caption, and then its cases."""
    return [
        row
        for caption, cases in table.items()
        for row in [f"# {caption}"] + [case(lent, pattern, records, limit=16) for pattern, records, _ in cases]
    ]


# Of each caption the cases: pattern, records, and the lines that must come of them, worked out by hand
WAVES = {
    "Waves beside a constant, at the edges of each operator; no constant has a sign there": [
        constant(WAVE, EQUAL, 255, [254, 255], [1]),
        constant(WAVE, EQUAL, 256, [0], []),
        constant(WAVE, EQUAL, 2**32 - 1, [255], []),
        constant(WAVE, LESS, 255, [254, 255], [0]),
        constant(WAVE, LESS, 256, [255], [0]),
        constant(WAVE, LESS, 2**31, [0, 255], [0, 1]),
        constant(WAVE, LESS_EQUAL, 128, [128, 129], [0]),
        constant(WAVE, LESS_EQUAL, 2**32 - 1, [0, 255], [0, 1]),
        constant(WAVE, GREATER, 127, [127, 128], [1]),
        constant(WAVE, GREATER, 2**32 - 1, [0, 255], []),
        constant(WAVE, GREATER_EQUAL, 255, [254, 255], [1]),
        constant(WAVE, GREATER_EQUAL, 256, [255], []),
        constant(WAVE, GREATER_EQUAL, 2**31, [0, 255], []),
    ],
    "Two events that differ in wave and time alone: the wave rises, and falls": [
        (RISING_WAVE, [event(10), event(11, wave=1)], ["2 0@0 1@1"]),
        (RISING_WAVE, [event(10, wave=1), event(11)], []),
    ],
    "A bind joined to a draw: wave = wave; wave < wave, from 127 to 128": [
        joined_to(WAVE, EQUAL, WAVE, {"wave": 7}, [{"wave": 8}, {"wave": 7}], ["2 0@0 1@2"]),
        joined_to(WAVE, LESS, WAVE, {"wave": 127}, [{"wave": 127}, {"wave": 128}], ["2 0@0 1@2"]),
    ],
    "Wave = slot, with a slot of the same low byte; wave < slot, with a slot of 2^31": [
        joined_to(WAVE, EQUAL, SLOT, {"wave": 200}, [{"slot": 456}, {"slot": 200}], ["2 0@0 1@2"]),
        joined_to(WAVE, LESS, SLOT, {"wave": 255}, [{"slot": 255}, {"slot": 2**31}], ["2 0@0 1@2"]),
    ],
    "Wave and amount: 0 > -1, 255 is not -1; amount and wave: -1 < 0": [
        joined_to(WAVE, GREATER, AMOUNT, {"wave": 0}, [{"amount": 0}, {"amount": MINUS_ONE}], ["2 0@0 1@2"]),
        joined_to(WAVE, EQUAL, AMOUNT, {"wave": 255}, [{"amount": MINUS_ONE}, {"amount": 255}], ["2 0@0 1@2"]),
        joined_to(AMOUNT, LESS, WAVE, {"amount": MINUS_ONE}, [{"wave": 0}], ["2 0@0 1@1"]),
    ],
    "One variable on both sides: wave = amount; amount < wave; slot = wave; wave < wave": [
        own(
            [(WAVE, EQUAL, AMOUNT)],
            [{"wave": 3, "amount": 3}, {"wave": 4, "amount": 4}, {"wave": 4, "amount": 3}],
            ["2 0@0 0@1", "2 0@1"],
        ),
        own([(AMOUNT, LESS, WAVE)], [{"amount": MINUS_ONE}, {"wave": 255, "amount": 255}], ["2 0@0"]),
        own([(SLOT, EQUAL, WAVE)], [{"wave": 255, "slot": 511}, {"wave": 255, "slot": 255}], ["2 0@1"]),
        own([(WAVE, LESS, WAVE)], [{"wave": 7}], []),
    ],
    "The same with core <= wave, wave < type and wave = class: all hold, then each fails alone": [
        own(
            [(CORE, LESS_EQUAL, WAVE), (WAVE, LESS, TYPE), (WAVE, EQUAL, CLASS)],
            [
                {"core": 2, "event_type": 33, "wave": 2},
                {"core": 3, "event_type": 33, "wave": 2},
                {"core": 0, "event_type": 0, "wave": 0},
                {"core": 2, "event_type": 33, "wave": 3},
            ],
            ["2 0@0"],
        ),
    ],
    "A group variable joined by its wave, in its set and to the set behind it": [
        (
            ONE_WAVE,
            [event(10, wave=2), *(event(11 + i, 0, 1, wave=wave) for i, wave in enumerate((2, 3, 2)))],
            ["2 0@0 1@1 1@3"],
        ),
        (ONE_WAVE, [event(10, 0, 1, wave=2), event(11, 0, 1, wave=3), event(12, wave=2)], []),
        (
            NO_LOWER,
            [event(10, wave=5), event(11, wave=7), event(12, 0, 1, wave=6), event(13, 0, 1, wave=7)],
            ["2 0@0 0@1 1@3", "2 0@1 1@3"],
        ),
    ],
    "A gap has no wave to be asked for": [
        (NO_WAVE, [event(10), gap(11), event(12)], ["3 0@0", "2 0@2"]),
    ],
}

# The example of the rules: with waves that it does not ask for, and with waves in place of cores
BENCH_LIST = [BENCH_RECORDS[at : at + 32] for at in range(0, len(BENCH_RECORDS), 32)]
BENCH_WITH_WAVES = [r if r.startswith("40") else r[:30] + f"{250 - i:02x}" for i, r in enumerate(BENCH_LIST)]
BENCH_WAVES = [r if r.startswith("40") else "00" + r[2:30] + r[:2] for r in BENCH_LIST]
BENCH_BY_WAVE = plain(
    (1, 0),
    (1, 1),
    (2, 0),
    conditions=(
        *(condition(v, CLASS, EQUAL, v) for v in range(3)),
        *(condition(0, WAVE, EQUAL, second=(v, WAVE)) for v in (1, 2)),
    ),
)
WAVE_ROWS = captioned(WAVES, 20) + [
    "# P1 with a wave in each event, which the pattern does not ask for; P1 with waves in place of cores",
    case(28, BENCH, BENCH_WITH_WAVES, limit=5),
    case(28, BENCH_BY_WAVE, BENCH_WAVES, limit=5),
]

# ---- The table: not equal ----


def differs(first, second, bind, draws, lines):
    """A bind, and the draw that differs from it: the bind on the left of the operator, and the draw."""
    return [joined_to(first, NOT_EQUAL, second, bind, draws, lines, left) for left in (0, 1)]


def gathered(operator, uploads, draws, lines):
    """A bind, a group of uploads, and the draw whose core stands so to the cores of all uploads, on either side. The
    bind is there so that no upload but the first begins a group."""
    records = [event(10)] + [event(11 + i, core, 17) for i, core in enumerate(uploads)]
    records += [event(20 + i, core, 33) for i, core in enumerate(draws)]
    by_class = tuple(condition(v, CLASS, EQUAL, v) for v in range(3))
    joins = condition(2, CORE, operator, second=(1, CORE)), condition(1, CORE, operator, second=(2, CORE))
    return [(plain((1, 0), (2, 1), (3, 0), conditions=by_class + (join,)), records, lines) for join in joins]


def of_cores(*variables_and_cores):
    """An event for each: of the type that BY_TYPE asks of the variable, and of the core."""
    return [event(10 + i, core, variable) for i, (variable, core) in enumerate(variables_and_cores)]


def all_different(*sets):
    """Variables of these sets, of which no two are bound to events of one core."""
    pairs = [(u, v) for v in range(len(sets)) for u in range(v)]
    joins = [condition(u, CORE, NOT_EQUAL, second=(v, CORE)) for u, v in pairs]
    return plain(*[(number, 0) for number in sets], conditions=joins)


NEITHER_CORE = plain((1, 0), conditions=[condition(0, CORE, NOT_EQUAL, core) for core in (1, 2)], duration=0)
CORES_APART = condition(0, CORE, NOT_EQUAL, second=(1, CORE))
ONE_AND_GROUP = plain((1, 0), (1, 1), conditions=BY_TYPE + (CORES_APART,))
GROUP_AND_GROUP = plain((1, 1), (1, 1), conditions=BY_TYPE + (CORES_APART,))

# As in WAVES: of each caption the cases, with their lines worked out by hand
DIFFERENT = {
    "Not equal beside a constant, one below it, the same and one above: of each attribute without a sign": [
        constant(CORE, NOT_EQUAL, 2, [1, 2, 3], [0, 2]),
        constant(TYPE, NOT_EQUAL, 33, [32, 33, 34], [0, 2]),
        constant(CLASS, NOT_EQUAL, 2, [31, 32, 63, 64], [0, 3]),
        constant(SLOT, NOT_EQUAL, 7, [6, 7, 8], [0, 2]),
        constant(WAVE, NOT_EQUAL, 128, [127, 128, 129], [0, 2]),
    ],
    "The same at the ends: slots beside 0, 2^31 and 2^32 - 1; beside a constant that no core, class or wave can be": [
        constant(SLOT, NOT_EQUAL, 0, [0, 1, 2**32 - 1], [1, 2]),
        constant(SLOT, NOT_EQUAL, 2**31, [2**31 - 1, 2**31, 2**31 + 1], [0, 2]),
        constant(SLOT, NOT_EQUAL, 2**32 - 1, [2**32 - 2, 2**32 - 1, 0], [0, 2]),
        constant(CORE, NOT_EQUAL, 64 + 5, [5, 63], [0, 1]),
        constant(CLASS, NOT_EQUAL, 6, [0, 255], [0, 1]),
        constant(WAVE, NOT_EQUAL, 256, [0, 255], [0, 1]),
    ],
    "Amounts beside 5, 0, -1, -2147483648 and 2147483647, and each of the last two beside the other": [
        constant(AMOUNT, NOT_EQUAL, 5, [4, 5, 6], [0, 2]),
        constant(AMOUNT, NOT_EQUAL, 0, [MINUS_ONE, 0, 1], [0, 2]),
        constant(AMOUNT, NOT_EQUAL, MINUS_ONE, [MINUS_ONE - 1, MINUS_ONE, 0], [0, 2]),
        constant(AMOUNT, NOT_EQUAL, LEAST, [GREATEST, LEAST, LEAST + 1], [0, 2]),
        constant(AMOUNT, NOT_EQUAL, GREATEST, [GREATEST - 1, GREATEST, LEAST], [0, 2]),
    ],
    "Two of them: any core but 1 and 2": [
        (NEITHER_CORE, [event(10 + core, core) for core in range(4)], ["1 0@0", "2 0@3"]),
    ],
    "A draw that differs from a bind, each on the left in turn: lower and higher in core, wave, slot and amount": [
        *differs(CORE, CORE, {"core": 2}, [{"core": 2}, {"core": 1}], ["2 0@0 1@2"]),
        *differs(CORE, CORE, {"core": 2}, [{"core": 2}, {"core": 3}], ["2 0@0 1@2"]),
        *differs(WAVE, WAVE, {"wave": 255}, [{"wave": 255}, {"wave": 0}], ["2 0@0 1@2"]),
        *differs(SLOT, SLOT, {"slot": 2**31}, [{"slot": 2**31}, {"slot": 2**32 - 1}], ["2 0@0 1@2"]),
        *differs(AMOUNT, AMOUNT, {"amount": MINUS_ONE}, [{"amount": MINUS_ONE}, {"amount": 1}], ["2 0@0 1@2"]),
        *differs(AMOUNT, AMOUNT, {"amount": GREATEST}, [{"amount": GREATEST}, {"amount": LEAST}], ["2 0@0 1@2"]),
    ],
    "The same of two attributes: class and core, core and type, which is 33": [
        *differs(CLASS, CORE, {}, [{"core": 0}, {"core": 1}], ["2 0@0 1@2"]),
        *differs(CORE, TYPE, {"core": 33}, [{}], []),
        *differs(CORE, TYPE, {"core": 32}, [{}], ["2 0@0 1@1"]),
    ],
    "Slot and amount: 4294967295 is not -1, 2147483648 is not -2147483648, 2147483647 is 2147483647": [
        *differs(SLOT, AMOUNT, {"slot": 2**32 - 1}, [{"amount": MINUS_ONE}], ["2 0@0 1@1"]),
        *differs(SLOT, AMOUNT, {"slot": 2**31}, [{"amount": LEAST}], ["2 0@0 1@1"]),
        *differs(SLOT, AMOUNT, {"slot": 2**31 - 1}, [{"amount": GREATEST}], []),
        *differs(AMOUNT, SLOT, {"amount": MINUS_ONE}, [{"slot": 2**32 - 1}], ["2 0@0 1@1"]),
        *differs(AMOUNT, SLOT, {"amount": LEAST}, [{"slot": 2**31}], ["2 0@0 1@1"]),
        *differs(AMOUNT, SLOT, {"amount": GREATEST}, [{"slot": 2**31 - 1}], []),
    ],
    "One variable on both sides: slot and amount, as above; type and class; an attribute is never other than itself": [
        own(
            [(SLOT, NOT_EQUAL, AMOUNT)],
            [{"slot": 2**32 - 1, "amount": MINUS_ONE}, {"slot": 2**31, "amount": LEAST}, {"slot": 3, "amount": 3}],
            ["2 0@0 0@1", "2 0@1"],
        ),
        own([(AMOUNT, NOT_EQUAL, SLOT)], [{"slot": 2**31 - 1, "amount": GREATEST}, {"amount": 1}], ["2 0@1"]),
        own([(TYPE, NOT_EQUAL, CLASS)], [{"event_type": 0}, {"event_type": 1}], ["2 0@1"]),
        *(own([(attribute, NOT_EQUAL, attribute)], [{"core": 1}, {"core": 2}], []) for attribute in (CORE, AMOUNT)),
    ],
    "Uploads of cores 1 and 2 in a group, and a draw of core 1: neither = nor != lets it in, nor one of core 2": [
        *gathered(EQUAL, [1, 2], [1], []),
        *gathered(NOT_EQUAL, [1, 2], [1], []),
        *gathered(EQUAL, [1, 2], [2], []),
        *gathered(NOT_EQUAL, [1, 2], [2], []),
    ],
    "A draw of core 3 there: != alone lets it in, also behind one of core 1 and one of core 2": [
        *gathered(EQUAL, [1, 2], [3], []),
        *gathered(NOT_EQUAL, [1, 2], [3], ["2 0@0 1@1 1@2 2@3"]),
        *gathered(EQUAL, [1, 2], [1, 2, 3], []),
        *gathered(NOT_EQUAL, [1, 2], [1, 2, 3], ["2 0@0 1@1 1@2 2@5"]),
    ],
    "Uploads of core 1 alone: a draw is let in by one of the two, of core 1 by = and of core 2 by !=": [
        *gathered(EQUAL, [1, 1], [1], ["2 0@0 1@1 1@2 2@3"]),
        *gathered(NOT_EQUAL, [1, 1], [1], []),
        *gathered(EQUAL, [1, 1], [2], []),
        *gathered(NOT_EQUAL, [1, 1], [2], ["2 0@0 1@1 1@2 2@3"]),
    ],
    "A loop: each new event of the group differs from the one bound; the one comes last, and differs from both": [
        (ONE_AND_GROUP, of_cores((0, 2), (1, 2), (1, 3), (1, 2), (1, 4)), ["2 0@0 1@2 1@4"]),
        (ONE_AND_GROUP, of_cores((1, 2), (1, 3), (0, 2), (0, 4)), ["2 1@0 1@1 0@3", "2 1@1 0@2"]),
    ],
    "Two groups that loop in turn: events of one group may share a core, and share none with the other group": [
        (
            GROUP_AND_GROUP,
            of_cores((0, 1), (1, 1), (1, 2), (0, 2), (0, 1)),
            ["2 0@0 1@2 0@4", "2 1@2 0@4"],
        ),
    ],
    "Variables of different cores: in three sets; in one set, where a pair comes once for each order": [
        (
            all_different(1, 2, 3),
            [event(10 + i, core) for i, core in enumerate((1, 1, 2, 1, 3))],
            ["2 0@0 1@2 2@4", "2 0@1 1@2 2@4", "2 0@2 1@3 2@4"],
        ),
        (
            all_different(1, 1),
            [event(10 + i, core) for i, core in enumerate((1, 1, 2))],
            ["2 0@0 1@2", "2 1@0 0@2", "2 0@1 1@2", "2 1@1 0@2"],
        ),
    ],
}

# As in WAVES: of each caption the cases, with their lines worked out by hand
BY_CLASS = (condition(0, 2, 0, 0), condition(1, 2, 0, 2))
BIND_AND_DRAW = [event(10), event(11, event_type=33)]
GAPS = {
    "A gap: mark 3 where the last set has a group variable, alone, beside a plain one on either side, or behind a set": [
        (plain((1, 1)), [event(10), gap(20)], ["3 0@0"]),
        (plain((1, 0), (1, 1), conditions=BY_CLASS), BIND_AND_DRAW + [gap(20)], ["3 0@0 1@1"]),
        (plain((1, 1), (1, 0), conditions=BY_CLASS), BIND_AND_DRAW + [gap(20)], ["3 0@0 1@1"]),
        (plain((1, 0), (2, 1), conditions=BY_CLASS), BIND_AND_DRAW + [gap(20)], ["3 0@0 1@1"]),
        (plain((1, 1), (2, 1), conditions=BY_CLASS), BIND_AND_DRAW + [gap(20)], ["3 0@0 1@1"]),
    ],
    "Mark 4 where it has none, whatever the sets before it have": [
        (ONE, [event(10), gap(20)], ["4 0@0"]),
        (plain((1, 0), (1, 0), conditions=BY_CLASS), BIND_AND_DRAW + [gap(20)], ["4 0@0 1@1"]),
        (plain((1, 0), (2, 0), conditions=BY_CLASS), BIND_AND_DRAW + [gap(20)], ["4 0@0 1@1"]),
        (plain((1, 1), (2, 0), conditions=BY_CLASS), BIND_AND_DRAW + [gap(20)], ["4 0@0 1@1"]),
    ],
    "The event that was lost, in the gap's place: a reading with mark 3 goes on, one with mark 4 is as it was": [
        (plain((1, 0), (2, 1), conditions=BY_CLASS), BIND_AND_DRAW + [event(20, event_type=33)], ["2 0@0 1@1 1@2"]),
        (plain((1, 0), (2, 0), conditions=BY_CLASS), BIND_AND_DRAW + [event(20, event_type=33)], ["2 0@0 1@1"]),
    ],
    "An event past the window before the gap: mark 1, with a group variable and without": [
        (plain((1, 1), duration=5), [event(10), event(16), gap(17)], ["1 0@0", "3 0@1"]),
        (plain((1, 0), duration=5), [event(10), event(16), gap(17)], ["1 0@0", "4 0@1"]),
    ],
    "Closed by the end, with a gap in front: mark 2": [
        (plain((1, 1)), [gap(5), event(10)], ["2 0@1"]),
        (plain((1, 0)), [gap(5), event(10)], ["2 0@1"]),
    ],
}


def types(*times_and_types):
    return [event(time, event_type=kind) for time, kind in times_and_types]


# As in WAVES: of each caption the cases, with their lines worked out by hand
IN_TURN = plain((1, 0), (2, 0), conditions=BY_TYPE)
GROUPS_IN_TURN = plain((1, 1), (2, 1), conditions=BY_TYPE)
ANY_ORDER = plain((1, 0), (1, 0), conditions=BY_TYPE)
THREE_SETS = plain((1, 0), (2, 0), (3, 0), conditions=[condition(v, TYPE, EQUAL, v) for v in range(3)])
PAIR_THEN_ONE = plain((1, 0), (1, 0), (2, 0), conditions=[condition(v, TYPE, EQUAL, v) for v in range(3)])
CYCLES = {
    "Two events of one cycle: a set takes both, in either order; the next set takes none of that cycle": [
        (ANY_ORDER, types((10, 0), (10, 1)), ["2 0@0 1@1"]),
        (ANY_ORDER, types((10, 1), (10, 0)), ["2 1@0 0@1"]),
        (IN_TURN, types((10, 0), (10, 1)), []),
        (IN_TURN, types((10, 1), (10, 0)), []),
        (IN_TURN, types((10, 0), (11, 1)), ["2 0@0 1@1"]),
    ],
    "An event of the next set in the cycle, and one a cycle later: that one is taken; and of two of its cycle the first": [
        (IN_TURN, types((10, 0), (10, 1), (11, 1)), ["2 0@0 1@2"]),
        (IN_TURN, types((10, 0), (10, 1), (10, 1), (11, 1), (11, 1)), ["2 0@0 1@3"]),
        (THREE_SETS, types((10, 0), (10, 1), (11, 1), (11, 2), (12, 2)), ["2 0@0 1@2 2@4"]),
        (THREE_SETS, types((10, 0), (11, 1), (11, 2), (11, 2)), []),
    ],
    "Later than everything bound, not than the first: a set of two that ends in the cycle of the third event": [
        (PAIR_THEN_ONE, types((10, 0), (11, 1), (11, 2)), []),
        (PAIR_THEN_ONE, types((10, 0), (11, 1), (11, 2), (12, 2)), ["2 0@0 1@1 2@3"]),
        (PAIR_THEN_ONE, types((10, 0), (10, 1), (11, 2)), ["2 0@0 1@1 2@2"]),
    ],
    "A loop in the cycle before the event of the next set keeps it out; behind it, it does not; once begun, the set goes on": [
        (GROUPS_IN_TURN, types((10, 0), (11, 0), (11, 1)), []),
        (GROUPS_IN_TURN, types((10, 0), (11, 1), (11, 0)), ["2 0@0 1@1"]),
        (GROUPS_IN_TURN, types((10, 0), (11, 1), (11, 1), (11, 1)), ["2 0@0 1@1 1@2 1@3"]),
        (plain((1, 1), (2, 0), conditions=BY_TYPE), types((10, 0), (11, 1), (11, 0)), ["2 0@0 1@1"]),
        (plain((1, 0), (2, 1), conditions=BY_TYPE), types((10, 0), (11, 1), (11, 1)), ["2 0@0 1@1 1@2"]),
    ],
    "One event for two sets: what takes it for the next set needs a later cycle": [
        (plain((1, 1), (2, 0)), [event(10), event(10)], []),
        (plain((1, 1), (2, 0)), [event(10), event(10), event(11)], ["2 0@0 0@1 1@2", "2 0@1 1@2"]),
    ],
    "The window: two events of its first cycle, and two of its last, which are both inside; a cycle later both are out": [
        (plain((1, 1), duration=5), [event(10), event(10), event(15), event(15)], ["2 0@0 0@1 0@2 0@3", "2 0@1 0@2 0@3", "2 0@2 0@3", "2 0@3"]),
        (plain((1, 0), duration=5), [event(10), event(10), event(16), event(16)], ["1 0@0", "1 0@1", "2 0@2", "2 0@3"]),
    ],
    "Duration 0: the events of one cycle, and no more": [
        (plain((1, 1), duration=0), [event(10), event(10), event(11)], ["1 0@0 0@1", "1 0@1", "2 0@2"]),
        (plain((1, 0), (1, 0), conditions=BY_TYPE, duration=0), types((10, 0), (10, 1)), ["2 0@0 1@1"]),
        (plain((1, 0), (2, 0), conditions=BY_TYPE, duration=0), types((10, 0), (10, 1), (11, 1)), []),
    ],
    "A gap a cycle behind two events of one cycle, and two more a cycle behind it": [
        (plain((1, 1)), [event(10), event(10), gap(11), event(12), event(12)], ["3 0@0 0@1", "3 0@1", "2 0@3 0@4", "2 0@4"]),
    ],
}

BY_RULE = ROWS + EXAMPLE_ROWS + LENT + REFUSED + LIVE + RULE
TABLE = BY_RULE + WAVE_ROWS + captioned(DIFFERENT, 24) + captioned(GAPS, 24) + captioned(CYCLES, 32)

# ---- Writing ----


def printed(numbers):
    """The lines of packed numbers, as the match program writes them (Rule 9.2)."""
    lines = []
    while numbers:
        mark, count = divmod(numbers[0], 4096)
        lines.append(" ".join([str(mark)] + [f"{n >> 12}@{n % 4096}" for n in numbers[1 : count + 1]]))
        numbers = numbers[count + 1 :]
    return lines


def result_of(pattern, records):
    """What the forward pass gives, with working memory for all that can be live and room for 20 numbers."""
    return answers(MOST_LIVE, 40960, 40, bytes.fromhex(joined(pattern)), bytes.fromhex(joined("".join(records))))[0]


def report_of(pattern, records):
    (code, *_), numbers = result_of(pattern, records)
    return f"refused {code}" if code else printed(numbers)


def write(folder):
    lines = [lines_of(row) for row in TABLE]
    for pattern, records in (BENCH, BENCH_LIST), (BENCH, BENCH_WITH_WAVES), (BENCH_BY_WAVE, BENCH_WAVES):
        assert result_of(pattern, records) == ((0, 0, 14, 3, 5), P1)
    for caption, pattern, records, stated in EXAMPLES:
        assert report_of(pattern, records) == stated, f"the rules state otherwise: {caption}"
    for caption, cases in [*WAVES.items(), *DIFFERENT.items(), *GAPS.items(), *CYCLES.items()]:
        for pattern, records, stated in cases:
            assert report_of(pattern, records) == stated, f"worked out otherwise: {caption}"
    codes = {told[0].split(" ")[1] for told in lines if len(told) == 3}
    assert codes == {str(code) for code in range(12)}, "the forward pass gives each refusal 1 to 11, and success"
    table = "".join(row + "\n" for row in TABLE)
    assert len(table) <= TABLE_BYTES, "the program reads so much"
    for name, text in ("stdin", table), ("stdout", "".join(line + "\n" for told in lines for line in told)):
        with open(os.path.join(folder, name), "w", encoding="ascii") as file:
            file.write(text)


if __name__ == "__main__":
    if sys.argv[1:] == ["--write"]:
        write(os.path.join(os.path.dirname(os.path.abspath(__file__)), "..", "crates", "passes"))
    else:
        for row in sys.stdin:
            print("\n".join(lines_of(row.rstrip("\n"))))
