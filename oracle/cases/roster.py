"""Cases of the roster check: days with a plan and a roster, made to fit, then often damaged."""

import struct

from cases.common import OMITTED, parts, random_row, row, rows_bytes, u16s
from cases.plan_check import fitting_row, random_plan
from cases.preferences import preference_bytes, random_levels, random_preferences

SEED = 1_005
FILE = "crates/replay_roster/data/cases"


class Sheet:
    """A day, its plan and its roster, as lists that can be changed before they are written."""

    def __init__(self, slots, plan, roster, levels=(0,), preferences=None):
        choices = len(plan)
        self.slots = slots
        self.plan = list(plan)
        self.roster = [list(cells) for cells in roster]
        self.levels = list(levels)
        self.preferences = preferences or [[0] * choices for _ in roster]
        self.mins = [0] * choices
        self.maxs = [65535] * choices
        self.scheduling = []
        self.assignment = []

    def body(self):
        assert len(self.plan) <= 64 and self.slots <= 24 and len(self.roster) <= 200
        counts = (len(self.plan), self.slots, len(self.roster), len(self.levels))
        columns = u16s(self.mins) + u16s(self.maxs)
        columns += preference_bytes(self.levels, self.preferences)
        cells = b"".join(bytes(cells) for cells in self.roster)
        rows = rows_bytes(self.scheduling) + rows_bytes(self.assignment)
        return struct.pack(">BBBB", *counts) + rows + columns + bytes(self.plan) + cells

    def seats(self, choice):
        return [h for h, cells in enumerate(self.roster) for cell in cells if cell == choice]


def random_roster(draws, plan, slots, choosers):
    """A row of cells a chooser: one choice of every slot, in any order of the slots."""
    by_slot = [[c for c, place in enumerate(plan) if place == s] for s in range(slots)]
    if not all(by_slot):
        return []
    roster = []
    for _ in range(choosers):
        if roster and draws.chance(0.3):
            roster.append(draws.shuffled(draws.pick(roster)))
        else:
            roster.append([draws.pick(by_slot[slot]) for slot in draws.shuffled(range(slots))])
    return roster


def keeps(sheet, one):
    """Whether the roster keeps a row of kinds 10 to 13; written from the scope's module 6."""
    kind, left, right, _ = parts(one)
    if kind == 10:
        apart = OMITTED in (sheet.plan[left], sheet.plan[right])
        return apart or sheet.seats(left) == sheet.seats(right)
    if kind == 11:
        return sheet.plan[right] == OMITTED or right in sheet.roster[left]
    if kind == 12:
        return right not in sheet.roster[left]
    return sorted(sheet.roster[left]) == sorted(sheet.roster[right])


def fitting_assignment_row(draws, sheet):
    choices, choosers = len(sheet.plan), len(sheet.roster)
    for _ in range(20):
        kind = draws.pick([10, 11, 12, 13] if choosers else [10])
        one = random_row(draws, kind, choices, sheet.slots, choosers)
        if kind == 11 and sheet.slots and draws.chance(0.7):
            left = parts(one)[1]
            one = row(11, left, draws.pick(sheet.roster[left]))
        if keeps(sheet, one):
            return [one]
    return []


def fit_seats(draws, sheet):
    for choice in range(len(sheet.plan)):
        seats = len(sheet.seats(choice))
        sheet.mins[choice] = draws.pick([seats, draws.between(0, seats)])
        sheet.maxs[choice] = draws.pick([seats, seats + draws.below(3), 65535])
        if sheet.plan[choice] == OMITTED and draws.chance(0.5):
            sheet.mins[choice], sheet.maxs[choice] = 3, 0


def random_sheet(draws, choices, slots, choosers, most_rows):
    plan = random_plan(draws, choices, slots)
    roster = random_roster(draws, plan, slots, choosers)
    levels = random_levels(draws, draws.between(1, 5))
    preferences = random_preferences(draws, choices, len(roster), levels)
    sheet = Sheet(slots, plan, roster, levels, preferences)
    fit_seats(draws, sheet)
    if choices:
        for _ in range(draws.below(most_rows)):
            sheet.scheduling += fitting_row(draws, plan, slots)
        for _ in range(draws.below(most_rows)):
            sheet.assignment += fitting_assignment_row(draws, sheet)
    return sheet


def damage(draws, sheet):
    """Changes one thing; the roster may or may not still pass."""
    choices, choosers = len(sheet.plan), len(sheet.roster)
    what = draws.below(6)
    if choices == 0:
        return
    choice = draws.below(choices)
    if what == 0:
        sheet.mins[choice] += 1
    elif what == 1:
        sheet.maxs[choice] = max(0, sheet.maxs[choice] - 1)
    elif what == 2 and choosers and sheet.slots:
        cells = draws.pick(sheet.roster)
        cells[draws.below(sheet.slots)] = draws.below(choices)
    elif what == 3:
        sheet.plan[choice] = draws.pick(list(range(sheet.slots)) + [OMITTED])
    elif what == 4 and choosers:
        kind = draws.pick([10, 11, 12, 13])
        sheet.assignment.append(random_row(draws, kind, choices, sheet.slots, choosers))
    elif sheet.slots:
        kind = draws.pick([1, 2, 3, 4, 5, 6])
        sheet.scheduling.append(random_row(draws, kind, choices, sheet.slots, choosers))


def spoil_cell(draws, sheet):
    """A cell that names no choice at all."""
    if sheet.roster and sheet.slots:
        cells = draws.pick(sheet.roster)
        cells[draws.below(sheet.slots)] = draws.pick([len(sheet.plan), 255, 64])


def random_case(draws):
    if draws.chance(0.01):
        sheet = random_sheet(draws, draws.between(12, 30), draws.between(4, 12), draws.between(5, 20), 8)
    else:
        choices = draws.between(0, 6)
        slots = draws.between(0, min(3, choices))
        sheet = random_sheet(draws, choices, slots, draws.between(0, 5), 4)
    for _ in range(draws.pick([0, 1, 1, 2, 3])):
        damage(draws, sheet)
    if draws.chance(0.03):
        spoil_cell(draws, sheet)
    return sheet.body()


def at_the_counts():
    """Empty rosters, all counts at their ends, preferences at their ends."""
    yield Sheet(0, [], []).body()
    yield Sheet(24, [], []).body()
    yield Sheet(0, [OMITTED] * 3, [[]] * 200).body()
    yield Sheet(1, [], [[255]]).body()
    yield Sheet(1, [OMITTED], [[0]]).body()
    yield Sheet(1, [0, OMITTED], [[1], [0]]).body()
    # An omitted mandatory choice isn't faulted; a scheduled one without seats can be.
    for least in [0, 1]:
        sheet = Sheet(1, [0, OMITTED, 0], [[0], [0]], [0, 65535], [[65535, 7, 0], [3, 7, 0]])
        sheet.mins = [2, 9, least]
        yield sheet.body()
    wide = Sheet(24, [c % 24 for c in range(64)], [[(h + s) % 24 for s in range(24)] for h in range(200)])
    wide.mins = [200] * 24 + [0] * 40
    wide.maxs = [200] * 24 + [0] * 40
    wide.preferences = [[0] * 64 for _ in range(200)]
    yield wide.body()


def rows_at_the_edge():
    """Each kind kept and broken by one seat; repeats are counted."""
    # A chooser twice in one choice: in the Rust the slot met twice fails it in the end.
    for roster in [[[0, 1], [1, 0]], [[0, 0], [1, 1]], [[0, 1], [0, 1]], [[0, 2], [2, 1]]]:
        for one in [row(10, 0, 1), row(10, 0, 2), row(10, 2, 2), row(11, 0, 0), row(11, 1, 2),
                    row(11, 0, 3), row(12, 0, 2), row(12, 1, 0), row(12, 0, 3), row(13, 0, 1)]:
            sheet = Sheet(2, [0, 1, 1, OMITTED], roster)
            sheet.assignment = [one]
            yield sheet.body()
    # Cells needn't stand at the index of their slot.
    for cells in [[0, 1], [1, 0], [0, 0], [1, 1]]:
        yield Sheet(2, [0, 1], [cells]).body()


def committed(draws):
    yield from at_the_counts()
    yield from rows_at_the_edge()
    for _ in range(1500):
        yield random_case(draws)
