"""Cases of the listing: days with all their plans. The answers come from oracle/listing.py."""

import itertools
import struct

from cases import plan_check
from listing import OUT, Day, walk
from cases.common import Draws, row, rows_bytes, u16s

SEED = 1_007
FILE = "crates/replay_listing/data/cases"
LIMIT_OPS = [1, 2, 3, -1, -2, -3]
# The days of `ruled` are drawn apart, by a seed with which two or more of them notice each slip of the rules.
RULED_SEED = 1_015


def body(slots, choosers, rows, mins, maxs, optional):
    head = struct.pack(">BBB", len(mins), slots, choosers)
    return head + rows_bytes(rows) + u16s(mins) + u16s(maxs) + bytes(optional)


def input_length(case):
    """Where the answer of a record begins."""
    choices, _, _, rows = struct.unpack_from(">BBBH", case)
    return 5 + 8 * rows + 5 * choices


def plain(slots, choosers, choices, least=0, most=65535, flag=0, rows=()):
    return body(slots, choosers, list(rows), [least] * choices, [most] * choices, [flag] * choices)


def examples():
    """The scope's sample day, and the ends of the counts."""
    yield body(2, 1, [], [0, 0], [1, 1], [0, 0])
    for choosers, slots in itertools.product([0, 1], [0, 1, 24]):
        yield body(slots, choosers, [], [], [], [])
    for slots, flag in itertools.product([0, 1, 24], [0, 1]):
        yield plain(slots, 0, 1, flag=flag)
        yield plain(slots, 200, 2, most=200, flag=flag)
    # Minimums far over the headcount: no node but the empty one, or omission alone.
    yield plain(3, 5, 4, least=6)
    yield plain(3, 5, 4, least=65535, flag=1)
    yield plain(2, 0, 4, least=32768, flag=1)
    # 64 choices that can only be omitted or stand in one slot by row.
    yield plain(1, 0, 64, flag=0)
    yield plain(0, 9, 64, flag=1)


def every_tiny():
    """One choice or two, one slot or two: every flag and every order of the sums."""
    for slots, choosers, flag in itertools.product([1, 2], [0, 1, 2], [0, 1]):
        for least, most in itertools.product(range(3), range(3)):
            yield body(slots, choosers, [], [least, 1], [most, 1], [flag, 1])


def each_row():
    """Three choices, two slots, a row of each kind and op."""
    rows = [row(1, 0, 1), row(2, 2, 0), row(3, 0, 2), row(4, 2, 1), row(4, 1, 1), row(5, 0, 1, 1),
            row(5, 2, 0, -1), row(5, 1, 1, 0), row(5, 1, 1, 1)]
    rows += [row(6, 1, limit, op) for limit in [0, 1, 2] for op in [1, 2, 3, -1, -2, -3]]
    for one, flags in itertools.product(rows, [[0, 0, 0], [1, 0, 1], [1, 1, 1]]):
        yield body(2, 0, [one], [0, 0, 0], [1, 1, 1], flags)


def many_plans():
    """Over a thousand plans: a long list to be read page by page."""
    yield plain(3, 1, 6, most=1, flag=1)
    yield body(4, 3, [row(4, 0, 1), row(5, 2, 3, 1)], [0] * 6, [3] * 6, [0, 0, 0, 0, 1, 0])


def random_case(draws):
    choices = draws.between(0, 5)
    slots = draws.between(0, min(3, choices + (draws.below(8) == 0)))
    choosers = draws.pick([0, 1, 2, draws.between(0, 9), draws.between(0, 200)])
    day = plan_check.random_day(draws, choices, slots, choosers, 3)
    for _ in range(draws.pick([0, 0, 1, 2])):
        plan_check.damage(draws, day)
    for choice in range(choices):
        # Wider sums than the one plan needs, so that there are often more plans.
        if draws.chance(0.7):
            day.mins[choice] = draws.below(day.mins[choice] + 1)
        if draws.chance(0.7):
            day.maxs[choice] = min(65535, day.maxs[choice] + draws.below(day.choosers + 2))
    return body(day.slots, day.choosers, day.rows, day.mins, day.maxs, day.optional)


def many_choices(draws):
    """Nine to eleven choices, so that a walk looks ahead: sums that hold or nearly hold, a few rows of each kind."""
    choices = draws.between(9, 11)
    slots = 2 if choices > 9 else draws.pick([2, 3, 3])
    choosers = draws.between(5, 14)
    share = choosers * slots / choices
    maxs = [max(1, int(share * draws.between(80, 170) / 100)) for _ in range(choices)]
    mins = [draws.below(int(most * draws.pick([1, 1, 0.5])) + 1) for most in maxs]
    if draws.chance(0.3):
        # The first two together just fill a block.
        mins = [choosers // 2, choosers - choosers // 2] + [0] * (choices - 2)
    optional = [int(draws.chance(0.2)) for _ in range(choices)]
    rows = []
    for _ in range(draws.pick([0, 1, 2, 3, 4])):
        one, other = draws.shuffled(range(choices))[:2]
        slot = draws.below(slots)
        rows.append(draws.pick([
            row(1, one, slot), row(2, one, slot), row(3, one, other), row(4, one, other), row(4, one, other),
            row(5, one, other, draws.pick([1, -1, 0])), row(5, one, other, 1),
            row(6, slot, draws.between(1, 5), draws.pick([1, 2, 3, -1, -2, -3]))]))
    return Day(slots, choosers, rows, mins, maxs, optional)


def looked_ahead(draws, count):
    """Days of many choices with few plans; one in four has none."""
    bare = 0
    while count:
        day = many_choices(draws)
        plans = len(walk(day)[0])
        if plans > 120 or (plans == 0 and bare * 4 > count):
            continue
        bare += plans == 0
        count -= 1
        yield body(*day)


# Days on which a walk that looks ahead may go wrong: counts and weights are one off, or blocks only look alike.


def uneven_day(draws, choices, slots):
    """Stations that just fill the blocks, of sizes so uneven that there are few plans; the first two are alike."""
    sizes = [draws.between(2, 30) for _ in range(choices)]
    mins = [size - draws.below(2) for size in sizes]
    sizes[1], mins[1] = sizes[0], mins[0]
    return Day(slots, (sum(sizes) - draws.below(2)) // slots, [], mins, sizes, [0] * choices)


def limit(draws, slots, most, op):
    return row(6, draws.below(slots), draws.between(1, most), op)


def limited_day(draws, op):
    """A limit with the op, of about as many stations as a block takes, and up to two with any op."""
    choices, slots = draws.pick([(11, 2), (10, 3), (11, 3)])
    ops = [op] + [draws.pick(LIMIT_OPS) for _ in range(draws.below(3))]
    day = uneven_day(draws, choices, slots)
    return day._replace(rows=[limit(draws, slots, choices // slots + 1, one) for one in ops])


def telling_row(draws, kind, early):
    """A limit, or a row that joins a late choice to a slot, to one of the first two choices or to one after them."""
    later = draws.between(3, 10)
    if kind == 6:
        return limit(draws, 3, 4, draws.pick(LIMIT_OPS))
    if kind in (1, 2):
        return row(kind, later, draws.below(3))
    one, other = draws.shuffled([draws.below(2) if early else draws.between(2, later - 1), later])
    return row(kind, one, other, draws.pick([1, -1]) if kind == 5 else 0)


def told_by_a_row(draws, kind, early):
    """Three blocks that one row tells apart."""
    day = uneven_day(draws, 11, 3)
    return day._replace(rows=[telling_row(draws, kind, early)])


def told_by_minimums(draws):
    """Each station fills a block alone, so that blocks with one differ by their minimums alone, which just fit."""
    sizes = [draws.between(2, 30) for _ in range(draws.between(11, 12))]
    return Day(2, (sum(sizes) + 1) // 2, [], sizes, [200] * len(sizes), [0] * len(sizes))


def told_by_maximums(draws):
    """The first station has no minimum, so that its block differs from an empty one by a maximum alone."""
    day = uneven_day(draws, 10, 3)
    return day._replace(mins=[0] + day.mins[1:])


def joined_to_itself(draws):
    """Three choices, each joined to itself by a row: optional, with no minimum, and the others fill the blocks."""
    day = uneven_day(draws, *draws.pick([(11, 2), (10, 3)]))
    choices = range(len(day.mins))
    own = draws.shuffled(choices)[:3]
    kinds = draws.shuffled([(3, 0), (4, 0), (5, 0), (5, 1), (5, -1)])
    rows = [row(kind, one, one, extra) for (kind, extra), one in zip(kinds, own)]
    choosers = sum(day.maxs[choice] for choice in choices if choice not in own) // day.slots
    mins = [0 if choice in own else day.mins[choice] for choice in choices]
    return Day(day.slots, choosers, rows, mins, day.maxs, [int(choice in own) for choice in choices])


def sums_in(day, start, amounts):
    """The amounts of those that stand in each block together."""
    return [sum(amounts[choice] for choice, place in enumerate(start) if place == slot) for slot in range(day.slots)]


def told_apart(day, plans):
    """Blocks that are no twins: of a start that a walk looks ahead at, one where the next choice has no plan and a
    later one where it has some. Whether their minimums are equal, and their maximums, cut at the headcount."""
    found = set()
    for start in {plan[:length] for plan in plans for length in range(len(day.mins) - 8)}:
        after = {plan[len(start)] for plan in plans if plan[:len(start)] == start}
        sums = sums_in(day, start, day.mins)
        fills = [min(most, day.choosers) for most in sums_in(day, start, day.maxs)]
        for later in after - {OUT}:
            found |= {(sums[slot] == sums[later], fills[slot] == fills[later]) for slot in set(range(later)) - after}
    return found


def with_plans(make, count, equal=None):
    """So many of the days made that have few plans, and two blocks told apart whose sums are equal as asked."""
    while count:
        day = make()
        plans = walk(day)[0]
        if 1 <= len(plans) <= 120 and (equal is None or equal in told_apart(day, plans)):
            count -= 1
            yield body(*day)


def ruled(draws):
    """Days with plans that a rule would lose if it went too far: limits, blocks told apart, rows of one choice."""
    for op in LIMIT_OPS:
        yield from with_plans(lambda: limited_day(draws, op), 2)
    for kind, early, count in [(1, 0, 4), (2, 0, 4), (3, 1, 4), (4, 1, 4), (5, 0, 4), (5, 1, 10), (6, 0, 4)]:
        yield from with_plans(lambda: told_by_a_row(draws, kind, early), count, (True, True))
    yield from with_plans(lambda: told_by_minimums(draws), 3, (False, True))
    yield from with_plans(lambda: told_by_maximums(draws), 5, (True, False))
    yield from with_plans(lambda: joined_to_itself(draws), 6)


def committed(draws):
    yield from examples()
    yield from every_tiny()
    yield from each_row()
    yield from many_plans()
    for _ in range(500):
        yield random_case(draws)
    yield from looked_ahead(draws, 60)
    yield from ruled(Draws(RULED_SEED))
