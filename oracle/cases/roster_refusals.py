"""Cases of the roster check's refusals: good sheets with one or two things spoilt. The answers come from oracle/roster_refusals.py."""

import struct

from cases.common import row
from cases.roster import Sheet, random_sheet

SEED = 1_010
FILE = "crates/replay_roster/data/refusals"


class Lent:
    """What a call is lent: a sheet's counts and slices, each of which can be spoilt alone."""

    def __init__(self, sheet):
        self.counts = [len(sheet.plan), sheet.slots, len(sheet.roster), len(sheet.levels), len(sheet.scheduling), len(sheet.assignment)]
        self.slices = {
            "rows": list(sheet.scheduling), "assignment": list(sheet.assignment), "mins": list(sheet.mins), "maxs": list(sheet.maxs),
            "levels": list(sheet.levels), "preferences": [p for line in sheet.preferences for p in line],
            "plan": list(sheet.plan), "roster": [c for line in sheet.roster for c in line],
        }

    def add(self, place, more):
        """A count changed, as far as its two bytes go."""
        self.counts[place] = min(65535, max(0, self.counts[place] + more))

    def body(self):
        names = ["mins", "maxs", "levels", "preferences", "rows", "assignment", "plan", "roster"]
        letters = {"rows": "Q", "assignment": "Q", "plan": "B", "roster": "B"}
        head = struct.pack(">6H", *self.counts) + struct.pack(">8H", *(len(self.slices[name]) for name in names))
        return head + b"".join(struct.pack(f">{len(s)}{letters.get(name, 'H')}", *s) for name, s in self.slices.items())


def spoil(draws, lent):
    """One thing spoilt; each number has its way, and some ways leave the sheet good."""
    choices, slots, choosers = lent.counts[:3]
    s = lent.slices
    what = draws.below(9)
    if what == 0:
        place = draws.below(6)
        lent.counts[place] = draws.pick([65, 25, 201, 65, 1025, 1025][place:place + 1] + [65535] + ([0] if place == 3 else []))
    elif what == 1:
        name = draws.pick(list(s))
        s[name] = draws.pick([s[name][1:], s[name] + s[name][-1:], s[name] + [0]])
    elif what == 2:
        lent.add(draws.below(6), draws.pick([-1, 1]))
    elif what == 3 and len(s["levels"]) > 1:
        place = draws.below(len(s["levels"]) - 1)
        s["levels"][place + 1] = draws.pick([s["levels"][place], max(0, s["levels"][place] - 1)])
    elif what == 4 and s["preferences"] and s["levels"] and s["levels"][-1] < 65535:
        s["preferences"][draws.below(len(s["preferences"]))] = s["levels"][-1] + 1
    elif what in (5, 6):
        name = "rows" if what == 5 else "assignment"
        kind = draws.pick([0, 1, 6, 7, 9, 10, 13, 14, 16, 65535])
        bad = draws.pick([row(kind, 0, 0), row(1, choices, 0), row(5, 0, choices), row(6, slots, 1, 1), row(6, 0, 1, 0), row(10, choices, 0),
                          row(11, choosers, 0), row(12, 0, choices), row(13, 0, choosers), row(13, 0, 0, 1), row(11, choices, choosers)])
        s[name].insert(draws.below(len(s[name]) + 1), bad)
        lent.add(4 if what == 5 else 5, 1)
    elif what == 7 and s["plan"]:
        s["plan"][draws.below(len(s["plan"]))] = min(254, draws.pick([slots, 24, 254]))
    elif what == 8 and s["roster"]:
        omitted = [c for c, place in enumerate(s["plan"]) if place == 255]
        s["roster"][draws.below(len(s["roster"]))] = min(255, draws.pick([choices, 64, 255] + omitted))


def random_case(draws):
    choices = draws.between(0, 6)
    sheet = random_sheet(draws, choices, draws.between(0, min(3, choices)), draws.between(0, 5), 4)
    lent = Lent(sheet)
    for _ in range(draws.pick([0, 1, 1, 1, 2, 3])):
        spoil(draws, lent)
    return lent.body()


def at_the_counts(draws):
    """Every count at its limit, and one past it."""
    wide = Sheet(24, [c % 24 for c in range(64)], [[(h + s) % 24 for s in range(24)] for h in range(200)], list(range(64)))
    wide.preferences = [[(h + c) % 64 for c in range(64)] for h in range(200)]
    for scheduling, assignment in [(1024, 1024), (1025, 0), (0, 1025)]:
        wide.scheduling = [row(4, 0, 1)] * scheduling
        wide.assignment = [row(11, 0, 0)] * assignment
        yield Lent(wide).body()
    wide.assignment = []
    lent = Lent(wide)
    lent.slices["roster"][-1] = 63
    yield lent.body()
    lent.slices["preferences"][-1] = 64
    yield lent.body()
    for choices in [64, 65]:
        yield Lent(Sheet(1, [0] * choices, [])).body()
    for slots in [24, 25]:
        yield Lent(Sheet(slots, [], [])).body()
    for choosers in [200, 201]:
        yield Lent(Sheet(0, [0], [[]] * choosers)).body()
    for levels in [0, 1, 64, 65]:
        yield Lent(Sheet(0, [], [], list(range(levels)))).body()


def order(draws):
    """A bad row of the roster's list before a broken row of the search's: 5 counts over both lists; and a cell refused where a row fails."""
    for place in range(3):
        sheet = Sheet(1, [0, 255], [[0]])
        sheet.scheduling = [row(1, 0, 0), row(2, 0, 0)]
        sheet.assignment = [row(11, 0, 0)] * place + [row(1, 0, 0)]
        yield Lent(sheet).body()
        sheet.scheduling.append(row(10, 0, 0))
        yield Lent(sheet).body()
    sheet = Sheet(1, [0, 255], [[1]])
    sheet.scheduling = [row(2, 0, 0)]
    sheet.assignment = [row(12, 0, 1)]
    yield Lent(sheet).body()
    sheet.plan = [0, 1]
    yield Lent(sheet).body()


def committed(draws):
    yield from at_the_counts(draws)
    yield from order(draws)
    for _ in range(1000):
        yield random_case(draws)
