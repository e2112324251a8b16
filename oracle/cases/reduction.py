"""Cases of the reduction: rows, clash flag, rows before equals are dropped."""

import itertools
import struct

from cases.common import OPS, possible_kinds, random_row, row, rows_bytes

SEED = 1_002
FILE = "crates/replay_reduction/data/cases"
MOST_GIVEN = 128
# The kinds that make new rows or are turned, and the rest.
BUSY = [10, 11, 12, 14, 15]
CALM = [1, 2, 3, 4, 5, 6, 7, 8, 9, 13]


def body(choices, slots, choosers, rows):
    assert choices <= 64 and slots <= 24 and choosers <= 200 and len(rows) <= MOST_GIVEN
    return struct.pack(">BBB", choices, slots, choosers) + rows_bytes(rows)


def examples():
    """K1 to K4 of the scope."""
    yield body(3, 0, 1, [row(10, 0, 1), row(11, 0, 2), row(11, 0, 0)])
    yield body(2, 0, 1, [row(11, 0, 1), row(14, 1, 0)])
    yield body(0, 2, 0, [row(9, 0, 1)])
    yield body(0, 2, 0, [row(9, 1, 1)])


def every_row(choices, slots, choosers):
    """Every row of a small day, with few limits and offsets."""
    counts = (choices, slots, choosers)
    for kind in possible_kinds([1, 2, 7, 8], *counts):
        for choice, slot in itertools.product(range(choices), range(slots)):
            yield row(kind, choice, slot) if kind < 7 else row(kind, slot, choice)
    for kind in [3, 4, 10]:
        for left, right in itertools.product(range(choices), repeat=2):
            yield row(kind, left, right)
    for left, right in itertools.product(range(choices), repeat=2):
        for offset in [-32767, -1, 0, 1, 32767]:
            yield row(5, left, right, offset)
    for slot, limit in itertools.product(range(slots), [0, 1, 65535]):
        for op in OPS.values():
            yield row(6, slot, limit, op)
    for left, right in itertools.product(range(slots), repeat=2):
        yield row(9, left, right)
    for left, right in itertools.product(range(choosers), repeat=2):
        yield row(13, left, right)
    for chooser, choice in itertools.product(range(choosers), range(choices)):
        for kind in [11, 12]:
            yield row(kind, chooser, choice)
        for kind in [14, 15]:
            yield row(kind, choice, chooser)


def small_lists():
    """All single rows, all pairs of busy rows and all triples of a few."""
    for one in every_row(2, 2, 2):
        yield body(2, 2, 2, [one])
    busy = [r for r in every_row(3, 0, 1) if r >> 48 in (10, 11, 12, 14)]
    for two in itertools.product(busy, repeat=2):
        yield body(3, 0, 1, list(two))
    few = [row(10, 0, 1), row(10, 1, 0), row(11, 0, 0), row(14, 1, 0), row(12, 0, 1), row(9, 0, 1)]
    for three in itertools.product(few, repeat=3):
        yield body(2, 2, 1, list(three))


def sorting():
    """Rows that differ in one column only, given in falling and mixed order."""
    ops = [row(6, 0, 5, op) for op in OPS.values()]
    offsets = [row(5, 0, 1, offset) for offset in [3, -3, 0, 32767, -32767, 1, -1]]
    limits = [row(6, 0, limit, 1) for limit in [65535, 0, 256, 255, 1]]
    sides = [row(4, 3, 0), row(4, 0, 3), row(4, 1, 2), row(4, 2, 1), row(3, 3, 3)]
    for rows in [ops, offsets, limits, sides, ops + offsets + limits + sides]:
        yield body(4, 2, 1, rows)
        yield body(4, 2, 1, rows[::-1])
        yield body(4, 2, 1, rows + rows)


def chain(members):
    """Rows of kind 10 that put these choices in one group."""
    return [row(10, a, b) for a, b in zip(members, members[1:])]


def fillers(count):
    """Distinct rows that add nothing."""
    return [row(1, i % 64, i // 64) for i in range(count)]


def at_the_row_limit():
    """1,023 to 1,026 rows before equals are dropped, made in several ways:
    by a group's pairs (44 members: 43 + 946), by a chooser's pairs (44 rows:
    44 + 946), by rows for every member, by equal rows; kind 9 never counts."""
    group = chain(range(44))
    listed = [row(11, 7, choice) for choice in range(44)]
    spread = chain(range(20)) + [row(12, h, h % 20) for h in range(39)]
    twice = [row(11, 7, 3)] * 44
    same_slot = [row(9, 1, 1)] * 5
    for most in [1023, 1024, 1025, 1026]:
        yield body(64, 24, 200, group + fillers(most - 989))
        yield body(64, 24, 200, fillers(most - 990) + listed)
        yield body(64, 24, 200, twice + fillers(most - 990) + same_slot)
    for most in [1024, 1025]:
        # 19 + 190 pairs, 39 rows and 39 * 19 rows for the other members: 989.
        yield body(64, 24, 200, spread + fillers(most - 989) + same_slot)
        yield body(64, 24, 200, [row(9, 0, 23)] + fillers(most - 989) + spread)


def at_the_counts():
    """No choices, all choices, no rows, all rows, one group of everything."""
    yield body(0, 0, 0, [])
    yield body(64, 24, 200, [])
    yield body(0, 24, 200, [row(6, 23, 65535, -3), row(9, 23, 23), row(13, 199, 0)])
    yield body(64, 24, 200, fillers(MOST_GIVEN))
    yield body(64, 24, 200, [row(9, s % 24, s % 24) for s in range(MOST_GIVEN)])
    yield body(64, 24, 200, [row(9, s % 24, s % 24) for s in range(127)] + [row(9, 23, 22)])
    yield body(64, 24, 200, [row(1, 0, 0)] * MOST_GIVEN)
    yield body(64, 24, 200, [row(15, 63, h) for h in range(MOST_GIVEN)])
    yield body(64, 24, 200, [row(14, c, 199 - c) for c in range(64)] * 2)
    yield body(64, 24, 200, chain(range(64)))
    yield body(64, 24, 200, chain(range(64)) + [row(14, c, c) for c in range(64)])
    yield body(43, 1, 1, chain(range(43)))
    yield body(30, 1, 1, chain(range(29, -1, -1)) + [row(11, 0, 17), row(12, 0, 3)])
    yield body(64, 24, 200, chain(range(0, 64, 2)) + chain(range(63, 0, -2)))
    yield body(64, 24, 200, [row(10, 63, 63)] * 3 + [row(11, 199, 63)] * 3)


def random_rows(draws, kinds, count, counts):
    kinds = possible_kinds(kinds, *counts)
    rows = []
    for _ in range(count if kinds else 0):
        if rows and draws.chance(0.1):
            rows.append(draws.pick(rows))
        else:
            rows.append(random_row(draws, draws.pick(kinds), *counts))
    return rows


def random_case(draws):
    if draws.chance(0.02):
        return draws.pick([random_large, random_near_limit])(draws)
    counts = (draws.between(0, 7), draws.between(0, 3), draws.between(0, 3))
    kinds = draws.pick([BUSY, BUSY + CALM, BUSY + [9], CALM])
    return body(*counts, random_rows(draws, kinds, draws.below(12), counts))


def random_large(draws):
    """Many rows on many choices; a good part of them are over the limit of rows."""
    counts = (draws.between(40, 64), draws.between(1, 24), draws.between(1, 200))
    links = random_rows(draws, [10], draws.between(0, 64), counts)
    others = random_rows(draws, [11, 12, 14, 15] * 2 + CALM, draws.below(64), counts)
    return body(*counts, draws.shuffled(links + others))


def random_near_limit(draws):
    """A group of 43 or 44, some rows for its members, and fillers up to about 1,024."""
    members = draws.shuffled(range(64))[: draws.pick([43, 44])]
    size = len(members)
    rows = chain(members)
    count = size - 1 + size * (size - 1) // 2
    if size == 43 and draws.chance(0.5):
        # The row itself and the same row for every other member.
        rows.append(row(15, draws.pick(members), draws.below(200)))
        count += size
    rows += fillers(1024 + draws.between(-2, 2) - count)
    return body(64, 24, 200, draws.shuffled(rows))


def committed(draws):
    yield from examples()
    yield from small_lists()
    yield from sorting()
    yield from at_the_counts()
    yield from at_the_row_limit()
    for _ in range(600):
        yield random_case(draws)
