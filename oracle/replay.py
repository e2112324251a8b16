"""Reads case files and says for each case what scope.py says."""

import struct

import scope
from cases.common import OMITTED, row, rows_bytes, u16s

PARTS = ["union_find", "reduction", "plan_check", "critical_sets", "roster", "search"]


class Case:
    """A record being read: first the input, then what is left is the Rust's answer."""

    def __init__(self, record):
        self.record, self.at = record, 0

    def numbers(self, letter, count):
        values = struct.unpack_from(f">{count}{letter}", self.record, self.at)
        self.at += struct.calcsize(f">{count}{letter}")
        return list(values)

    def byte(self):
        return self.numbers("B", 1)[0]

    def word(self):
        return self.numbers("H", 1)[0]

    def rows(self):
        return self.numbers("Q", self.word())

    def preferences(self, choices, choosers):
        return [self.numbers("H", choices) for _ in range(choosers)]

    def answer(self):
        return self.record[self.at:]


def records(content):
    at = 0
    while at < len(content):
        (length,) = struct.unpack_from(">I", content, at)
        yield content[at + 4: at + 4 + length]
        at += 4 + length


def union_find(case):
    elements, joins = case.byte(), case.word()
    flat = case.numbers("B", 2 * joins)
    parents, heights = [None] * elements, [0] * elements
    out = [scope.join(parents, heights, a, b) for a, b in zip(flat[::2], flat[1::2])]
    out += [scope.root(parents, element) for element in range(elements)]
    groups = scope.groups(parents)
    out.append(len(groups))
    for group in groups:
        out += [len(group)] + group
    return bytes(out + [255 if p is None else p for p in parents] + heights)


def reduction(case):
    choices, _, _ = case.numbers("B", 3)
    rows, clash, before = scope.reduced(choices, case.rows())
    over = before > scope.MOST_ROWS
    kept = [] if over else [row(*one) for one in rows]
    return struct.pack(">BIB", over, before, clash) + rows_bytes(kept)


def plan_check(case):
    choices, slots, choosers = case.numbers("B", 3)
    rows = case.rows()
    mins, maxs = case.numbers("H", choices), case.numbers("H", choices)
    optional, plan = case.numbers("B", choices), case.numbers("B", choices)
    return bytes([scope.is_feasible(slots, choosers, rows, mins, maxs, optional, plan)])


def set_bytes(sets):
    return u16s([len(sets)]) + b"".join(struct.pack(">HQ", *one) for one in sets)


def critical_sets(case):
    choices, slots, choosers, count = case.numbers("B", 4)
    mins, levels = case.numbers("H", choices), case.numbers("H", count)
    preferences = case.preferences(choices, choosers)
    asked, limit = case.byte(), case.word()
    before, kept, bound = scope.analysis(slots, mins, levels, preferences, asked)
    over = before > scope.MOST_SETS
    out = struct.pack(">BI", over, before)
    if over:
        return out
    lists = [scope.level_list(levels, kept, level) for level in levels + [limit]]
    return out + u16s([bound]) + set_bytes(kept) + b"".join(map(set_bytes, lists))


def roster(case):
    choices, slots, choosers, count = case.numbers("B", 4)
    rows, assignment_rows = case.rows(), case.rows()
    mins, maxs = case.numbers("H", choices), case.numbers("H", choices)
    case.numbers("H", count)
    preferences = case.preferences(choices, choosers)
    plan = case.numbers("B", choices)
    cells = [case.numbers("B", slots) for _ in range(choosers)]
    if any(c >= choices or plan[c] == OMITTED for line in cells for c in line):
        return struct.pack(">BH", 10, 0)
    passes = scope.roster_passes(rows, assignment_rows, mins, maxs, plan, cells)
    return struct.pack(">BH", passes, scope.highest_preference(preferences, cells))


def map_entries(case, choices, rows):
    kind = case.byte()
    if kind == 0:
        return [None] * choices, 0
    if kind == 1:
        own = scope.own_map(choices, rows)
        return own, sum(map(len, own))
    heads = [(case.byte(), case.word(), case.word()) for _ in range(choices)]
    numbers = case.numbers("H", case.word())
    return [numbers[a: a + n] if present else None for present, a, n in heads], 0


def search(case):
    choices, slots, choosers, count = case.numbers("B", 4)
    rows = case.rows()
    mins, maxs = case.numbers("H", choices), case.numbers("H", choices)
    optional, levels = case.numbers("B", choices), case.numbers("H", count)
    preferences = case.preferences(choices, choosers)
    asked, full = case.byte(), case.byte()
    entries, own_numbers = map_entries(case, choices, rows)
    orders = [case.numbers("B", choices) for _ in range(case.word())]
    draws = case.numbers("I", case.word())
    at_last = case.byte()
    budgets = case.numbers("Q", 2)
    if own_numbers > scope.MOST_MAP_NUMBERS:
        return struct.pack(">BQHH", 6, 0, 0, 0)
    before, kept, bound = scope.analysis(slots, mins, levels, preferences, asked)
    if before > scope.MOST_SETS:
        return struct.pack(">BQHH", 7, 0, 0, 0)
    day = (slots, choosers, rows, mins, maxs, optional)
    call = scope.Search(day, entries, full, orders, draws, budgets)
    start = levels[-1] if at_last else bound
    outcome, plan = call.run(levels, start, lambda limit: scope.level_list(levels, kept, limit))
    return struct.pack(">BQHH", outcome, call.turns, call.passes, call.limit) + bytes(plan or [])


def differing(part, content):
    """The cases where the scope's answer is not the Rust's: number, input, both answers."""
    for number, record in enumerate(records(content)):
        case = Case(record)
        said = globals()[part](case)
        if said != case.answer():
            yield number, record[: case.at], said, case.answer()
