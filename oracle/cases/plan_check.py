"""Cases of the plan check: days with a plan, made to fit and then often damaged."""

import itertools
import struct

from cases.common import OMITTED, OPS, parts, possible_kinds, random_row, row, rows_bytes, u16s

SEED = 1_003
FILE = "crates/replay_plan_check/data/cases"
KINDS = [1, 2, 3, 4, 5, 6]


class Day:
    """A day and a plan, as lists that can be changed before they are written."""

    def __init__(self, slots, choosers, plan, rows=(), mins=None, maxs=None, optional=None):
        choices = len(plan)
        self.slots = slots
        self.choosers = choosers
        self.plan = list(plan)
        self.rows = list(rows)
        self.mins = list(mins) if mins is not None else [0] * choices
        self.maxs = list(maxs) if maxs is not None else [65535] * choices
        self.optional = list(optional) if optional is not None else [1] * choices

    def body(self):
        assert len(self.plan) <= 64 and self.slots <= 24 and self.choosers <= 200
        assert len(self.rows) <= 1024
        head = struct.pack(">BBB", len(self.plan), self.slots, self.choosers)
        columns = u16s(self.mins) + u16s(self.maxs) + bytes(self.optional)
        return head + rows_bytes(self.rows) + columns + bytes(self.plan)

    def members(self, slot):
        return [choice for choice, place in enumerate(self.plan) if place == slot]


def with_rows(slots, plan, rows):
    """No choosers and minimum 0: the sums pass, so the rows decide."""
    return Day(slots, 0, plan, rows).body()


def small_rows():
    """Every row of two choices and two slots, few limits and offsets."""
    for kind, choice, slot in itertools.product([1, 2], range(2), range(2)):
        yield row(kind, choice, slot)
    for kind, left, right in itertools.product([3, 4], range(2), range(2)):
        yield row(kind, left, right)
    for left, right, offset in itertools.product(range(2), range(2), range(-2, 3)):
        yield row(5, left, right, offset)
    for slot, limit, op in itertools.product(range(2), range(4), OPS.values()):
        yield row(6, slot, limit, op)


def every_small_row():
    places = [0, 1, OMITTED]
    for one, plan in itertools.product(small_rows(), itertools.product(places, repeat=2)):
        yield with_rows(2, plan, [one])


def every_small_sum():
    """One choice, one slot: every order of headcount, min and max."""
    columns = itertools.product(range(3), range(4), range(4), [0, 1], [0, OMITTED])
    for choosers, least, most, optional, place in columns:
        yield Day(1, choosers, [place], [], [least], [most], [optional]).body()


def without_slots():
    """No slot: only omission is left, and no sum is tested."""
    for choices in range(3):
        for choosers, flags in itertools.product([0, 1, 200], itertools.product([0, 1], repeat=choices)):
            plan = [OMITTED] * choices
            yield Day(0, choosers, plan, optional=flags, maxs=[0] * choices).body()
    for kind in [3, 4, 5]:
        yield Day(0, 5, [OMITTED] * 2, [row(kind, 0, 1)]).body()


def wide_sums():
    """Sums past 16 bits, where a narrow adder would come round to a small number."""
    for value in [32768, 65535]:
        for count in [2, 3, 64]:
            plan = [0] * count
            yield Day(1, 200, plan, mins=[value] * count).body()
            yield Day(1, 200, plan, maxs=[value] * count).body()
            yield Day(1, 0, plan, maxs=[value] * count, mins=[0] * count).body()
    yield Day(1, 0, [0] * 2, mins=[32768, 32768]).body()
    yield Day(1, 200, [0] * 4, maxs=[16384, 16384, 16384, 16384 + 199]).body()
    yield Day(1, 200, [0, OMITTED], mins=[200, 65535], maxs=[200, 0]).body()
    yield Day(1, 200, [0, OMITTED], mins=[201, 65535], maxs=[200, 0]).body()
    # A choice's min may exceed its max.
    yield Day(1, 9, [0, 0], mins=[9, 0], maxs=[0, 9]).body()
    yield Day(1, 9, [0, 0], mins=[10, 0], maxs=[0, 9]).body()


def at_the_counts():
    """64 choices, 24 slots, 200 choosers; limits and offsets at their ends."""
    spread = [choice % 24 for choice in range(64)]
    full = Day(24, 200, spread, mins=[66] * 64, maxs=[100] * 64, optional=[0] * 64)
    yield full.body()
    for choice, least in [(0, 68), (0, 69), (63, 100), (63, 68), (23, 200), (23, 0)]:
        near = Day(24, 200, spread, [], full.mins, full.maxs, full.optional)
        near.mins[choice] = least
        yield near.body()
    for choice, most in [(23, 0), (23, 99), (63, 0), (0, 65535)]:
        near = Day(24, 200, spread, [], full.mins, full.maxs, full.optional)
        near.maxs[choice] = most
        yield near.body()
    yield with_rows(24, [23] * 64, [row(6, 23, 64, 1)])
    for limit, op in itertools.product([63, 64, 65, 65535], OPS.values()):
        yield with_rows(24, [23] * 64, [row(6, 23, limit, op)])
        yield with_rows(24, [22] * 64, [row(6, 23, limit, op)])
    for offset in [23, -23, 24, -24, 32767, -32767, 22, 0]:
        yield with_rows(24, [0, 23], [row(5, 0, 1, offset)])
        yield with_rows(24, [23, 0], [row(5, 0, 1, offset)])
    for rows in [1023, 1024]:
        many = [row(2, i % 64, (i + 1) % 24) for i in range(rows) if i % 64 % 24 != (i + 1) % 24]
        many += [row(4, 0, 1)] * (rows - len(many))
        yield with_rows(24, spread, many)
        yield with_rows(24, spread, many[:-1] + [row(4, 0, 24)])


def holds(one, plan):
    """Whether the plan keeps a row; written from the scope's module 3."""
    kind, left, right, extra = parts(one)
    if kind == 1:
        return plan[left] == right
    if kind == 2:
        return plan[left] != right
    if kind == 3:
        return plan[left] == plan[right]
    if kind == 4:
        return plan[left] == OMITTED or plan[left] != plan[right]
    if kind == 5:
        if OMITTED in (plan[left], plan[right]):
            return plan[left] == plan[right]
        return plan[right] - plan[left] == extra
    count = plan.count(left)
    return {1: count == right, 2: count > right, 3: count >= right,
            -1: count != right, -2: count <= right, -3: count < right}[extra]


def fitted(draws, one, plan):
    """The row with its slot, offset or limit made to fit the plan, or nearly."""
    kind, left, right = parts(one)[:3]
    if kind == 1 and plan[left] != OMITTED:
        return row(1, left, plan[left])
    if kind == 5 and OMITTED not in (plan[left], plan[right]):
        return row(5, left, right, plan[right] - plan[left])
    if kind == 6:
        near = max(0, plan.count(left) + draws.between(-1, 1))
        return row(6, left, near, draws.pick(list(OPS.values())))
    return one


def fitting_row(draws, plan, slots):
    """A row that the plan keeps, often just so."""
    choices = len(plan)
    for _ in range(20):
        kinds = possible_kinds(KINDS, choices, slots, 0)
        kind = draws.pick(kinds)
        one = fitted(draws, random_row(draws, kind, choices, slots, 0), plan)
        if holds(one, plan):
            return [one]
    return []


def split(draws, total, members):
    """Numbers for the members that add up to the total."""
    cuts = sorted(draws.between(0, total) for _ in range(len(members) - 1))
    return [b - a for a, b in zip([0] + cuts, cuts + [total])]


def random_plan(draws, choices, slots):
    """A plan that leaves no slot empty if it can."""
    if slots == 0:
        return [OMITTED] * choices
    places = list(range(slots))[:choices]
    while len(places) < choices:
        places.append(OMITTED if draws.chance(0.25) else draws.below(slots))
    return draws.shuffled(places)


def fit_sums(draws, day):
    """Mins and maxs that fit the headcount, often with nothing to spare."""
    for slot in range(day.slots):
        members = day.members(slot)
        if not members:
            continue
        least = day.choosers if draws.chance(0.4) else draws.between(0, day.choosers)
        most = day.choosers if draws.chance(0.4) else day.choosers + draws.below(10)
        for choice, value in zip(members, split(draws, least, members)):
            day.mins[choice] = value
        for choice, value in zip(members, split(draws, most, members)):
            day.maxs[choice] = value
    for choice, place in enumerate(day.plan):
        if place == OMITTED:
            day.mins[choice] = draws.pick([0, 1, day.choosers, 65535])
            day.maxs[choice] = draws.pick([0, 1, day.choosers, 65535])


def damage(draws, day):
    """Changes one thing; the plan may or may not still fit."""
    choices = len(day.plan)
    if choices == 0:
        day.choosers = draws.pick([0, 1, 200])
        return
    choice = draws.below(choices)
    what = draws.below(7)
    if what == 0:
        day.mins[choice] = draws.pick([day.mins[choice] + 1, 65535, 0]) % 65536
    elif what == 1:
        day.maxs[choice] = draws.pick([max(0, day.maxs[choice] - 1), 0, 65535])
    elif what == 2:
        day.choosers = max(0, min(200, day.choosers + draws.pick([-1, 1])))
    elif what == 3:
        day.optional[choice] = 1 - day.optional[choice]
    elif what == 4:
        day.plan[choice] = draws.pick(list(range(day.slots)) + [OMITTED])
    elif day.rows and what == 5:
        damage_row(draws, day)
    else:
        kind = draws.pick(possible_kinds(KINDS, choices, day.slots, 0))
        day.rows.append(random_row(draws, kind, choices, day.slots, 0))


def damage_row(draws, day):
    place = draws.below(len(day.rows))
    kind, left, right, extra = parts(day.rows[place])
    if kind == 5:
        extra = max(-32767, min(32767, extra + draws.pick([-1, 1])))
    elif kind == 6 and draws.chance(0.5):
        right = max(0, min(65535, right + draws.pick([-1, 1])))
    elif kind == 6:
        extra = draws.pick(list(OPS.values()))
    elif kind < 3:
        kind = 3 - kind
    else:
        kind = 7 - kind
    day.rows[place] = row(kind, left, right, extra)


def random_day(draws, choices, slots, choosers, most_rows):
    day = Day(slots, choosers, random_plan(draws, choices, slots))
    fit_sums(draws, day)
    for choice, place in enumerate(day.plan):
        day.optional[choice] = 1 if place == OMITTED else draws.below(2)
    if choices > 0:
        for _ in range(draws.below(most_rows + 1)):
            day.rows += fitting_row(draws, day.plan, slots)
    return day


def random_case(draws):
    if draws.chance(0.01):
        day = random_day(draws, draws.between(24, 64), draws.between(12, 24), draws.between(0, 200), 40)
    else:
        choices = draws.between(0, 7)
        slots = draws.between(0, min(4, choices + (draws.below(8) == 0)))
        choosers = draws.pick([0, 1, 2, draws.between(0, 12), draws.between(0, 200)])
        day = random_day(draws, choices, slots, choosers, 5)
    for _ in range(draws.pick([0, 1, 1, 2, 3])):
        damage(draws, day)
    return day.body()


def committed(draws):
    yield from every_small_row()
    yield from every_small_sum()
    yield from without_slots()
    yield from wide_sums()
    yield from at_the_counts()
    for _ in range(1500):
        yield random_case(draws)
