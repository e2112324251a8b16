"""Cases of the program `plans`: files with a first number, a room and a budget. The answers come from oracle/plans.py."""

import itertools
import struct

import day_bytes
import listing
import plans
import scope
from cases import day_file
from cases.common import OPS, parts, possible_kinds, random_row, row

SEED = 1_009
FILE = "crates/replay_plans/data/cases"
LAST = 2**64 - 1
ROOMS = [0, 1, 2, 100, 1_024, 1_025, LAST]


def body(file, first=0, room=100, budget=LAST):
    return struct.pack(">QQQI", first, room, budget, len(file)) + file


def input_length(case):
    """Where the answer of a record begins."""
    return 28 + struct.unpack_from(">I", case, 24)[0]


def file_of(slots, choosers, per_choice, rows=(), levels=(0,)):
    """A file in which every preference is the lowest one."""
    return day_bytes.file_of(slots, choosers, per_choice, levels, [0] * (choosers * len(per_choice)), rows)


def size_of(file):
    """How many plans a good file has, and how many nodes; none of both where nothing is listed."""
    choices, slots, choosers, data, given = listing.read_day_file(file)
    reduced, clash, before = scope.reduced(choices, [row(*one) for one in given])
    if clash or before > scope.MOST_ROWS:
        return 0, 1
    rows = [row(*one) for one in reduced if one[0] <= 6]
    mins, maxs, flags = ([line[i] for line in data] for i in range(3))
    plans, nodes = listing.walk(listing.Day(slots, choosers, rows, mins, maxs, flags))
    return len(plans), nodes


def settling(file, budget):
    """The budget, or one that is enough where the file is good and has more nodes: when turns run out isn't settled."""
    return LAST if plans.refusal(file) is None and size_of(file)[1] > budget else budget


def around(file):
    """First numbers, rooms and budgets from what the file has on, one of them changed at a time, and the two ends together."""
    total, nodes = size_of(file)
    for first in sorted({0, 1, total // 2, max(total, 1) - 1, total, total + 1, LAST}):
        yield body(file, first)
        yield body(file, first, 2)
    for room in ROOMS:
        yield body(file, 0, room)
        yield body(file, total // 2, room)
    for budget in sorted({nodes, nodes + 1, LAST}):
        yield body(file, budget=budget)
        yield body(file, room=0, budget=budget)
    yield body(file, LAST, 1_024, LAST)
    yield body(file, LAST, LAST, LAST)
    yield body(file, 0, 1_025, 0)


def two_of_two():
    """Three choices, one of them optional, two slots and one chooser: `out` among its plans."""
    return file_of(2, 1, [(0, 1, 0), (0, 1, 1), (1, 1, 0)])


def ends():
    """No choice, no slot, no chooser, and the most slots: an empty plan where the headcount allows it."""
    for slots, choosers in itertools.product([0, 1, 2, 24], [0, 1, 200]):
        yield body(file_of(slots, choosers, []))
    for flags in itertools.product([0, 1], repeat=2):
        for slots, choosers in itertools.product([0, 1, 2], [0, 3]):
            yield body(file_of(slots, choosers, [(0, 3, flag) for flag in flags]))


def many_slots():
    """Slots of one digit and of two."""
    yield body(file_of(24, 0, [(0, 0, 1)]))
    yield body(file_of(11, 0, [(0, 0, 0), (0, 0, 0)]), 95, 30)
    yield body(file_of(24, 0, [(0, 0, 0), (0, 0, 1)], [(5, 0, 1, 1)]))
    yield body(file_of(24, 0, [(0, 0, 1), (0, 0, 1)], [(8, 9, 0, 0), (7, 23, 1, 0)]))
    yield body(file_of(24, 0, [(0, 0, 0), (0, 0, 0)]), 570, 1_024)


def each_kind():
    """A row of each kind, and two that meet only in the reduction: three choices, three slots, two choosers."""
    per_choice = [(0, 2, 1), (0, 2, 0), (0, 2, 1)]
    rows = [(1, 0, 2, 0), (2, 1, 0, 0), (3, 0, 2, 0), (4, 1, 2, 0), (5, 0, 1, 1), (5, 2, 1, -1), (7, 2, 0, 0), (8, 0, 1, 0), (9, 1, 1, 0),
            (9, 0, 1, 0), (10, 0, 2, 0), (10, 1, 1, 0), (11, 1, 2, 0), (12, 1, 2, 0), (13, 0, 1, 0), (14, 2, 1, 0), (15, 2, 1, 0)]
    rows += [(6, 1, 1, op) for op in OPS.values()]
    for one in rows:
        yield file_of(3, 0, [(0, 0, flag) for _, _, flag in per_choice], [one]) if one[0] < 11 else file_of(2, 2, per_choice, [one])
    for pair in [[(11, 0, 0, 0), (11, 0, 2, 0)], [(14, 0, 1, 0), (11, 1, 2, 0)], [(14, 1, 0, 0), (14, 0, 0, 0)], [(10, 0, 1, 0), (10, 1, 2, 0)],
                 [(10, 0, 1, 0), (3, 0, 1, 0)], [(10, 2, 0, 0), (14, 0, 1, 0)], [(11, 0, 1, 0), (11, 1, 1, 0)], [(11, 1, 0, 0), (11, 1, 0, 0)]]:
        yield file_of(2, 2, per_choice, pair)


def clashes():
    """Kind 9 with two slots: a clash, whatever the turns; but a damaged file is refused, and a room too large is."""
    clash = file_of(2, 1, [(0, 1, 0), (0, 1, 0)], [(9, 0, 1, 0)])
    for first, room, budget in [(0, 100, LAST), (0, 0, 0), (LAST, 1_024, 0), (0, 1_025, 0)]:
        yield body(clash, first, room, budget)
    yield body(file_of(2, 1, [(0, 1, 0)], [(9, 0, 1, 0), (1, 0, 2, 0)]))
    yield body(file_of(2, 1, [(0, 1, 2)], [(9, 0, 1, 0)]))
    yield body(file_of(2, 1, [], [(9, 0, 1, 0)]))


def damaged(draws):
    """Each thing that can be wrong, with a room that holds and one that doesn't; starts of a file; counts over their limits."""
    good = day_file.random_day(draws, 3, 2, 4, 3, 4)
    for _, damage in day_file.damages(good):
        yield body(damage(good))
        yield body(damage(good), room=1_025)
    for end in [0, 1, 4, 10, 11, 26]:
        yield body(good[:end])
    for file in day_file.counts_over(draws):
        if len(file) < 2_000:
            yield body(file)


def joined(group, more=(), clash=()):
    """Choices of one group by rows of kind 10, no slot and all optional: one plan with every choice out, if the rows hold."""
    rows = [(10, choice, choice + 1, 0) for choice in range(group - 1)]
    return file_of(2 if clash else 0, 0, [(0, 0, 1)] * group, rows + list(more) + list(clash))


def reduced_rows():
    """At the most reduced rows, and one over it: 43 joins give 946 pairs."""
    yield body(joined(44, [(10, 0, 0, 0)] * 35))
    yield body(joined(44, [(10, 0, 0, 0)] * 36))
    yield body(joined(46, clash=[(9, 0, 1, 0)]), budget=0)


def largest():
    """The longest file, with no node but the empty one; and a byte more, of a wrong version and with a length that fits."""
    rows = [(1, 63, 23, 0), (2, 9, 9, 0), (7, 23, 63, 0), (8, 1, 2, 0), (9, 7, 7, 0), (12, 199, 63, 0), (13, 0, 199, 0), (15, 63, 199, 0)]
    good = file_of(24, 200, [(65535, 65535, 0)] * 64, rows * 16, range(64))
    assert len(good) == day_file.LARGEST
    yield body(good)
    yield body(day_bytes.with_length(b"\2" + good[5:] + b"\0"))


def long_texts():
    """Over 1,024 plans and no room for more; and plans of 64 places."""
    yield body(file_of(3, 0, [(0, 0, 1)] * 4 + [(0, 0, 0)] * 2), 1_000, 1_024)
    yield body(file_of(1, 1, [(1, 1, 1)] * 64), 50, 8)


def hidden_plan(draws, choices, slots):
    return [draws.pick(list(range(slots)) + [listing.OUT]) if slots else listing.OUT for _ in range(choices)]


def per_choice_of(draws, plan, choosers):
    """Minimums and maximums that the plan mostly keeps."""
    data = []
    for place in plan:
        inside = max(1, sum(1 for other in plan if other == place))
        least = draws.pick([0, 0, draws.below(choosers // inside + 1), draws.below(choosers + 2)])
        most = draws.pick([-(-choosers // inside), choosers, choosers + draws.below(3), draws.below(choosers + 1), 65535])
        data.append((least, most, 1 if place == listing.OUT else draws.below(2)))
    return data


def rows_of(draws, plan, slots, choosers, count):
    """Rows of every kind, most of them kept by the plan."""
    kinds = possible_kinds(range(1, 16), len(plan), slots, choosers)
    given = []
    for _ in range(count if kinds else 0):
        one = random_row(draws, draws.pick(kinds), len(plan), slots, choosers)
        reduced, clash, _ = scope.reduced(len(plan), given + [one])
        kept = not clash and all(listing.row_kept(row(*r), plan) for r in reduced if r[0] <= 6)
        if kept or draws.chance(0.08):
            given.append(one)
    return [parts(one) for one in given]


def random_file(draws):
    choices = draws.pick([0, 1, 2, 3, 3, 4, 4])
    slots = draws.between(0, 3)
    choosers = draws.pick([0, 1, 2, draws.below(7)])
    plan = hidden_plan(draws, choices, slots)
    rows = rows_of(draws, plan, slots, choosers, draws.pick([0, 1, 2, 4, 7]))
    levels = sorted({draws.below(1_000) for _ in range(draws.between(1, 3))})
    return file_of(slots, choosers, per_choice_of(draws, plan, choosers), rows, levels)


def random_case(draws):
    """A good file with numbers around what it has, or one with a byte or two changed."""
    file = random_file(draws)
    total, nodes = size_of(file)
    first = draws.pick([0, 0, 0, draws.below(total + 1), total // 2, max(total, 1) - 1, total, total + 1, LAST])
    room = draws.pick(ROOMS + [1, 2, 3, 4, 5, 6, 7, 8, draws.below(20)])
    budget = draws.pick([nodes, nodes, nodes, nodes, nodes + 1, LAST, LAST, 2_000_000])
    for _ in range(draws.pick([0, 0, 0, 0, 1, 2])):
        at = draws.below(len(file))
        file = file[:at] + bytes([draws.pick([0, 1, 2, 255, draws.below(256)])]) + file[at + 1:]
    return body(file, first, room, settling(file, budget))


def in_turns(budget, slots, choosers, stations, rows=()):
    """A day with fewer turns than nodes; its stations are mandatory but for those with a third number."""
    return body(file_of(slots, choosers, [(station + (0,))[:3] for station in stations], rows), budget=budget)


# Ten stations for three blocks of 12: by their maximums a block takes three at least.
TEN = [(3, most) for most in [4, 5, 4, 6, 4, 5, 4, 4, 5, 4]]


def kept_by_counts():
    """Limits that no count of a block keeps, and stations that a limit leaves no place in a block."""
    # More than three and at most three; not three and at most three. 1 start, and 16,052 if the two aren't compared.
    yield in_turns(50, 3, 12, TEN, [(6, 1, 3, OPS["Gt"]), (6, 1, 3, OPS["Leq"])])
    yield in_turns(50, 3, 12, TEN, [(6, 0, 3, OPS["Neq"]), (6, 0, 3, OPS["Leq"])])
    # The same with plans of two in the block: 1,178 starts, and 3,325.
    stations = [(6, 10), (7, 7), (4, 5), (3, 5), (4, 5), (4, 4), (4, 6), (5, 6), (2, 4), (4, 5)]
    yield in_turns(2_400, 3, 15, stations, [(6, 1, 3, OPS["Neq"]), (6, 1, 3, OPS["Leq"])])
    # Blocks of two, which leaves the small ones to the third, and these are too many: 1 start, and 22,114 if they stay.
    yield in_turns(50, 3, 12, [(3, 6)] * 4 + [(3, 3)] * 6, [(6, 0, 2, OPS["Leq"]), (6, 1, 3, OPS["Lt"])])
    # The same with plans: 118 starts, and 2,161; 355 starts, and 5,420.
    stations = [(6, 7, 1), (6, 6), (8, 8), (6, 6), (4, 5), (4, 5), (4, 4), (3, 4), (4, 5), (7, 8)]
    yield in_turns(300, 3, 16, stations, [(6, 0, 2, OPS["Leq"])])
    stations = [(2, 3), (2, 4), (2, 4, 1), (4, 4), (3, 4), (6, 7), (3, 3), (4, 4), (5, 5), (3, 3)]
    yield in_turns(800, 3, 12, stations, [(6, 0, 4, OPS["Lt"]), (6, 2, 3, OPS["Lt"])])


def kept_by_weights():
    """A block that must take more stations than fill it: so many, even the lightest, leave too little for the rest."""
    # 1 start, and 1,548 if the number isn't weighed.
    yield in_turns(50, 3, 12, [(3, 7), (3, 5), (3, 4), (3, 4)] + [(2, 3)] * 6, [(6, 0, 5, OPS["Geq"])])
    # With plans: 20 starts, 6,056, and 2,365 if it isn't weighed with a station put there; 27, 9,703 and 2,371.
    stations = [(2, 5), (3, 4), (2, 4), (4, 4), (5, 7), (4, 5), (3, 4), (5, 8), (4, 5), (4, 5)]
    yield in_turns(100, 3, 15, stations, [(6, 2, 5, OPS["Geq"])])
    stations = [(4, 5), (3, 4), (2, 4), (4, 4), (4, 7), (4, 4), (2, 5), (5, 8), (4, 5), (3, 5)]
    yield in_turns(100, 3, 15, stations, [(6, 0, 4, OPS["Gt"])])


def kept_by_twins():
    """Four blocks that are alike: a station that has no plan in one has none in the others."""
    # 107 starts, and 5,049 if each block is tried.
    stations = [(4, 4)] * 3 + [(5, 7), (3, 5), (7, 9), (3, 3), (3, 5), (4, 6), (3, 4), (5, 7), (3, 5)]
    yield in_turns(250, 4, 10, stations)
    # All but the last alike, with plans: 1,471 starts, and 8,516.
    stations = [(3, 7), (7, 7), (4, 4), (9, 9), (4, 4), (4, 4), (5, 5), (4, 5), (7, 8), (5, 5), (6, 8)]
    yield in_turns(3_000, 4, 15, stations, [(6, 3, 4, OPS["Eq"])])
    # An offset from the first station tells one block from the others, not all of them: 316 starts, and 1,594.
    stations = [(4, 4)] * 3 + [(5, 5), (3, 4), (3, 3), (2, 6), (2, 2), (2, 4), (7, 8), (3, 5), (2, 3)]
    yield in_turns(700, 4, 9, stations, [(5, 0, 9, 1)])


def kept_by_own_rows():
    """A row that joins a choice to itself, and leaves it omission alone."""
    # A mandatory one: 1 start, and 6,252 by kind 4, 10,501 by kind 5 if only whole plans are tested.
    yield in_turns(50, 3, 12, TEN, [(4, 6, 6, 0)])
    yield in_turns(50, 3, 12, TEN, [(5, 6, 6, 1)])
    # An optional one, with plans: 154 starts, and 1,668; 322 starts, and 3,568.
    stations = [(2, 3), (4, 4), (3, 3), (5, 5), (5, 5, 1), (3, 3), (3, 4), (4, 4), (2, 3), (7, 7)]
    yield in_turns(350, 3, 12, stations, [(5, 4, 4, -1)])
    stations = [(3, 3), (4, 4), (5, 5), (3, 3), (6, 6), (2, 3), (3, 3), (2, 3), (6, 6), (4, 4, 1)]
    yield in_turns(700, 3, 12, stations, [(4, 9, 9, 0), (6, 2, 4, OPS["Geq"])])


def kept_by_rules():
    """Days with fewer turns than nodes: about twice as many as the walk needs, and too few for one without the rule.
    How many starts it visits, with the rule and without it, stands beside each."""
    yield from kept_by_counts()
    yield from kept_by_weights()
    yield from kept_by_twins()
    yield from kept_by_own_rows()


def committed(draws):
    yield from around(day_file.sample())
    yield from around(two_of_two())
    yield from ends()
    yield from many_slots()
    yield from map(body, each_kind())
    yield from clashes()
    yield from damaged(draws)
    yield from reduced_rows()
    yield from largest()
    yield from long_texts()
    for _ in range(400):
        yield random_case(draws)
    yield from kept_by_rules()
