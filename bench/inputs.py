"""The benchmark's inputs: days of a training corridor, rows that expand, a file at its limits, days to list.

The records are as the oracle's README.md gives them, without answers.
"""

import sys
from functools import partial
from pathlib import Path

ROOT = Path(__file__).resolve().parent.parent
ORACLE = ROOT / "oracle"
EXAMPLES = ROOT / "examples"

sys.path[:0] = [str(ORACLE), str(ROOT / "scripts")]
sys.dont_write_bytecode = True
import day_bytes  # noqa: E402
import day_file  # noqa: E402
import scope  # noqa: E402
from cases import critical_sets, listing, plan_check, reduction, roster, search  # noqa: E402
from cases.common import Draws, parts, random_row, record, row  # noqa: E402

SEED = 2_001
PLANS = 200
LONG_PLANS = 20
REDUCTIONS = 20
ROSTERS = 10
SEARCHES = 12
TURNS = 4_000


# Plans: 10 to 20 stations, 3 to 6 blocks, 12 to 40 trainees, 20 rows.


def training_day(draws, kinds):
    """A day and a plan that keeps it, with 20 rows of the kinds."""
    day = plan_check.random_day(
        draws, draws.between(10, 20), draws.between(3, 6), draws.between(12, 40), 0
    )
    while len(day.rows) < 20:
        fitting = plan_check.fitting_row(draws, day.plan, day.slots)
        day.rows += [one for one in fitting if parts(one)[0] in kinds]
    return day


def passes(day):
    return scope.is_feasible(
        day.slots, day.choosers, day.rows, day.mins, day.maxs, day.optional, day.plan
    )


def feasible_plans(kinds):
    draws = Draws(SEED)
    return [training_day(draws, kinds).body() for _ in range(PLANS)]


def infeasible_plans():
    """Days whose plan was damaged at one place, so that it fails there."""
    draws = Draws(SEED + 1)
    bodies = []
    while len(bodies) < PLANS:
        day = training_day(draws, range(1, 7))
        plan_check.damage(draws, day)
        if not passes(day):
            bodies.append(day.body())
    return bodies


# Plans of 20 stations and 6 blocks with 1,000 rows of one kind: what each kind's row costs.


def long_day(draws, kind):
    """A day and a plan that keeps it, so that no side stops before the last row."""
    day = plan_check.random_day(draws, 20, 6, draws.between(12, 40), 0)
    while len(day.rows) < 1000:
        one = random_row(draws, kind, 20, day.slots, 0)
        one = plan_check.fitted(draws, one, day.plan)
        if plan_check.holds(one, day.plan):
            day.rows.append(one)
    return day


def long_plans(kind):
    draws = Draws(SEED + 4 + kind)
    return [long_day(draws, kind).body() for _ in range(LONG_PLANS)]


# Reductions: 128 rows that expand to about 1,000.


def one_group(draws):
    """A group of 42 choices, and rows that add nothing."""
    members = draws.shuffled(range(64))[:42]
    return reduction.chain(members) + reduction.fillers(87)


def chooser_lists(draws):
    """Nine choosers with 14 choices each."""
    choosers = draws.shuffled(range(200))[:9]
    return [row(11, h, c) for h in choosers for c in draws.shuffled(range(64))[:14]] + reduction.fillers(2)


def groups_and_choosers(draws):
    """Groups of 4 to 16 choices, and rows of kinds 11, 12, 14 and 15 on few choosers."""
    rows = []
    left = draws.shuffled(range(64))
    while len(left) > 16:
        size = draws.between(4, 16)
        rows += reduction.chain(left[:size])
        left = left[size:]
    while len(rows) < 128:
        chooser, choice = draws.below(40), draws.below(64)
        kind = draws.pick([11, 12, 14, 15])
        rows.append(row(kind, chooser, choice) if kind < 14 else row(kind, choice, chooser))
    return rows


def reductions(make):
    draws = Draws(SEED + 2)
    bodies = []
    while len(bodies) < REDUCTIONS:
        rows = draws.shuffled(make(draws))
        assert len(rows) == 128
        before_equals_are_dropped = scope.reduced(64, rows)[2]
        if 930 <= before_equals_are_dropped <= 1024:
            bodies.append(reduction.body(64, 24, 200, rows))
    return bodies


# Day files: every count at its limit, 26,827 bytes; and the examples' first, 27 bytes, and longest.


def example(name):
    return (EXAMPLES / name).read_bytes()


def full_file():
    """A day with every count at its limit."""
    draws = Draws(SEED + 3)
    choices, slots, choosers = 64, 24, 200
    levels = [100 * level for level in range(64)]
    stations = [(draws.below(9), draws.between(9, 40), draws.below(2)) for _ in range(choices)]
    preferences = [draws.pick(levels) for _ in range(choosers * choices)]
    rows = reduction.random_rows(draws, range(1, 16), 128, (choices, slots, choosers))
    file = day_bytes.file_of(slots, choosers, stations, levels, preferences, list(map(parts, rows)))
    assert len(file) == 26_827
    return file


# Listings: a day of which few starts become full, and one of which most do.


def few_full_starts():
    """Nine stations that fit anywhere, then two that need a whole block each: few starts have two left."""
    mins = [1, 2, 1, 0, 2, 1, 3, 1, 2, 40, 40]
    rows = [row(4, 0, 1), row(2, 3, 0), row(5, 2, 4, 1)]
    return listing.body(4, 40, rows, mins, [40] * 11, [0] * 8 + [1, 0, 0])


def many_full_starts():
    """Ten stations that fit nearly anywhere, three of them optional."""
    mins = [3, 5, 2, 4, 6, 1, 3, 2, 5, 4]
    rows = [row(4, 0, 1), row(2, 3, 0), row(3, 2, 6), row(5, 4, 5, 1), row(6, 1, 5, -2), row(4, 7, 8)]
    return listing.body(3, 24, rows, mins, [24] * 10, [0, 1, 0, 0, 1, 0, 0, 0, 0, 1])


# Critical sets: 200 choosers, 64 choices, 64 levels; 1,020 sets are kept, and most choosers' sets are covered.


def many_sets(analysis):
    rows = critical_sets.chains(1_020)
    preferences = [rows[chooser % len(rows)] for chooser in range(200)]
    return critical_sets.body(2, [0] * 64, list(range(64)), preferences, analysis, 31)


# Rosters that pass, of 20 stations, 6 blocks and 40 trainees and at the limits, with no rows, 20 rows of both lists, or 20 of one kind.


def wide_roster(draws, choices, slots, choosers):
    """A sheet whose plan omits nothing and has a choice in each slot, and whose roster passes."""
    plan = list(range(slots)) + [draws.below(slots) for _ in range(choices - slots)]
    cells = roster.random_roster(draws, plan, slots, choosers)
    levels = list(range(10))
    preferences = [[draws.below(10) for _ in range(choices)] for _ in range(choosers)]
    sheet = roster.Sheet(slots, plan, cells, levels, preferences)
    roster.fit_seats(draws, sheet)
    return sheet


def passing_rosters(size, kinds):
    draws = Draws(SEED + 20)
    bodies = []
    for _ in range(ROSTERS):
        sheet = wide_roster(draws, *size)
        # A chooser beside whom another has the same choices in another order, so that kind 13 has pairs to bind.
        sheet.roster[1] = draws.shuffled(sheet.roster[0])
        roster.fit_seats(draws, sheet)
        while kinds and len(sheet.scheduling) + len(sheet.assignment) < 20:
            kind = draws.pick(kinds)
            if kind < 10:
                fitting = plan_check.fitting_row(draws, sheet.plan, sheet.slots)
                sheet.scheduling += [one for one in fitting if parts(one)[0] == kind]
                continue
            one = {
                10: lambda: row(10, *[draws.below(size[0])] * 2),
                11: lambda: (lambda h: row(11, h, draws.pick(sheet.roster[h])))(draws.below(size[2])),
                12: lambda: row(12, draws.below(size[2]), draws.below(size[0])),
                13: lambda: row(13, 0, 1),
            }[kind]()
            if roster.keeps(sheet, one):
                sheet.assignment.append(one)
        bodies.append(sheet.body())
    return bodies


# Searches: hospital days that are hard to fill, so that a call takes thousands of turns; own map, four levels, both budgets.


def hospital_rows(draws, count, choices, slots):
    """Mostly choices that may not share a slot, some slots that a choice may not have, some limits of slots."""
    rows = []
    while len(rows) < count:
        kind = draws.pick([2, 2, 4, 4, 4, 4, 4, 4, 4, 6])
        if kind == 2:
            rows.append(row(2, draws.below(choices), draws.below(slots)))
        elif kind == 4:
            left, right = draws.shuffled(range(choices))[:2]
            rows.append(row(4, left, right))
        else:
            rows.append(row(6, draws.below(slots), draws.between(choices // slots + 1, choices), -2))
    return rows


def hospital_day(draws, choices, slots, rows):
    """Seats that hardly reach: every slot needs all choosers, and the sum of maximums is little more than that."""
    choosers = draws.between(12, 60)
    share = max(1, slots * choosers // choices)
    maxs = [draws.between(max(1, share - 1), share + 2) for _ in range(choices)]
    mins = [draws.between(most // 2, most) for most in maxs]
    call = search.Call(slots, choosers, mins, maxs, [int(draws.chance(0.25)) for _ in range(choices)])
    call.rows = hospital_rows(draws, rows, choices, slots)
    call.levels = [0, 1, 2, 3]
    call.preferences = [[draws.pick([0, 1, 1, 2, 3]) for _ in range(choices)] for _ in range(choosers)]
    call.draws = [draws.below(2**32) for _ in range(7)]
    call.orders = [draws.shuffled(range(choices)) for _ in range(4)]
    call.pass_budget, call.total_budget = TURNS // 4, TURNS
    return call


def searches(mode, analysis, sizes=None):
    """Days of any of the sizes, or of one."""
    draws = Draws(SEED + 30)
    bodies = []
    while len(bodies) < SEARCHES:
        size = sizes or (draws.between(10, 40), draws.between(3, 8), draws.between(20, 200))
        bodies.append(hospital_day(draws, *size).but(mode=mode, analysis=analysis).body())
    return bodies


def failing_searches():
    """Easy days but for a rule given twice, as the reduction leaves it: no plan has its choice in a slot, which only the check sees."""
    draws = Draws(SEED + 31)
    bodies = []
    while len(bodies) < SEARCHES:
        call = hospital_day(draws, draws.between(10, 40), draws.between(3, 8), draws.between(20, 60))
        room = [3 * most for most in call.maxs]
        call = call.but(mode=search.FULL, mins=[0] * len(room), maxs=room, optional=[0] * len(room))
        bodies.append(call.but(rows=call.rows + [row(4, 0, 0)]).body())
    return bodies


def example_search(name):
    """The search of an example day as the program `plan` asks for it: reduced rows, full, simplified sets, no orders or draws."""
    (choices, slots, choosers, _, _), stations, levels, preferences, given = day_file.read((EXAMPLES / name).read_bytes())
    rows, _, _ = scope.reduced(choices, [row(*columns) for columns in given])
    call = search.Call(slots, choosers, *zip(*stations))
    call.rows = [row(*columns) for columns in rows if columns[0] <= 6]
    call.levels = list(levels)
    call.preferences = [list(preferences[choices * h:choices * (h + 1)]) for h in range(choosers)]
    return call.but(mode=search.FULL, analysis=search.SIMPLIFIED, pass_budget=100_000, total_budget=1_000_000).body()


MODES = {"as the Rust": search.AS_THE_RUST, "full": search.FULL}
ANALYSES = {"no sets": search.OFF, "sets": search.ON, "simplified sets": search.SIMPLIFIED}
# One count after another changed, from 24 choices, 5 slots and 80 rows.
SIZES = [(24, 5, 80), (10, 5, 80), (16, 5, 80), (40, 5, 80), (24, 3, 80), (24, 8, 80), (24, 5, 20), (24, 5, 200)]


SMALL = (20, 6, 40)
LARGE = (64, 24, 200)


# Each set: the part that takes it, and what makes it.
SETS = {
    "plans that pass": ("plan_check", lambda: feasible_plans(range(1, 7))),
    "plans that pass, no size limits": ("plan_check", lambda: feasible_plans(range(1, 6))),
    "plans that fail": ("plan_check", infeasible_plans),
    **{f"1,000 rows of kind {kind}": ("plan_check", partial(long_plans, kind)) for kind in range(1, 7)},
    "rows, one group": ("reduction", lambda: reductions(one_group)),
    "rows, lists of choosers": ("reduction", lambda: reductions(chooser_lists)),
    "rows, groups and choosers": ("reduction", lambda: reductions(groups_and_choosers)),
    "a file of 26,827 bytes": ("day_file", lambda: [full_file()]),
    "the sample of 27 bytes": ("day_file", lambda: [example("sample.day")]),
    "a course day of 1,493 bytes": ("day_file", lambda: [example("course-day.day")]),
    "1,020 critical sets": ("critical_sets", lambda: [many_sets(critical_sets.ON)]),
    "1,020 critical sets, simplified": ("critical_sets", lambda: [many_sets(critical_sets.SIMPLIFIED)]),
    "a day with few full starts": ("listing", lambda: [few_full_starts()]),
    "a day with many full starts": ("listing", lambda: [many_full_starts()]),
    **{f"rosters of {size}, {what}": ("roster", partial(passing_rosters, size, kinds))
       for size in (SMALL, LARGE)
       for what, kinds in [("no rows", []), ("rows of all kinds", [1, 2, 3, 4, 5, 6, 10, 11, 12, 13])]
       + [(f"20 rows of kind {kind}", [kind]) for kind in (10, 11, 12, 13)]},
    **{f"searches {mode}, {analysis}": ("search", partial(searches, MODES[mode], ANALYSES[analysis]))
       for mode in MODES for analysis in ANALYSES},
    "full searches whose placements fail": ("search", failing_searches),
    **{f"the search of examples/{name}.day": ("search", partial(lambda name: [example_search(f"{name}.day")], name))
       for name in ("sample", "morning", "skills-day", "course-day")},
    **{f"full searches of {size}, {analysis}": ("search", partial(searches, search.FULL, ANALYSES[analysis], size))
       for size in SIZES for analysis in ("no sets", "sets")},
}


def write(name, path):
    path.write_bytes(b"".join(map(record, SETS[name][1]())))
