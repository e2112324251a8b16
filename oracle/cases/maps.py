"""Cases of own map and lookup: rows and maps, good and spoilt. The answers come from oracle/maps.py."""

import itertools
import struct

from cases.common import possible_kinds, random_row, row, u16s
from cases.search_refusals import BAD_ROWS, NO_ENTRY, NUMBERS

SEED = 1_012
FILE = "crates/replay_maps/data/cases"
KINDS = range(1, 7)


def own_map(counts, rows, lengths=None):
    """Counts C, S, H, rows; lengths of rows, starts, lengths, numbers."""
    lengths = lengths or (len(rows), 64, 64, NUMBERS)
    return struct.pack(">B4Q4H", 0, *counts, *lengths) + struct.pack(f">{len(rows)}Q", *rows)


def lookup(counts, choice, starts, sizes, numbers, whole, pool=NUMBERS):
    """Counts C, rows, map numbers; numbers not written are 0."""
    lengths = (len(starts), len(sizes), pool, len(whole), len(numbers))
    return struct.pack(">B3QH5H", 1, *counts, choice, *lengths) + u16s(starts) + u16s(sizes) + u16s(numbers) + u16s(whole)


def padded(values, value=0):
    return list(values) + [value] * (64 - len(values))


# The own map.


def every_small_row():
    """Each row of three choices and two slots alone: which entries it stands in."""
    for kind, left, right in itertools.product([1, 2], range(3), range(2)):
        yield own_map((3, 2, 1, 1), [row(kind, left, right)])
    for kind, left, right in itertools.product([3, 4, 5], range(3), range(3)):
        yield own_map((3, 2, 1, 1), [row(kind, left, right)])
    for slot, limit in itertools.product(range(2), range(3)):
        yield own_map((3, 2, 1, 1), [row(6, slot, limit, 1)])


def at_the_limits():
    """Counts and numbers at their limits and one past them; 10,240 numbers are 160 rows of kind 6 in 64 entries."""
    limits = [row(6, n % 24, n, -2) for n in range(1025)]
    for choices, count in [(64, 160), (64, 161), (63, 162), (63, 163), (10, 1024), (0, 1024), (64, 1024), (1, 1025), (65, 1), (64, 0)]:
        yield own_map((choices, 24, 200, count), limits[:count])
    # One row more that a single choice has: 10,240 exactly, and 10,241.
    for more in (1, 2):
        yield own_map((63, 24, 0, 162 + more + 32), limits[:162] + [row(1, n % 63, 0) for n in range(32 + more)])
    for place, value in itertools.product(range(4), [65, 25, 201, 1025, 2**16 + 1, 2**32 + 1, 2**64 - 1]):
        counts = [2, 1, 1, 1]
        counts[place] = value
        yield own_map(counts, [row(4, 0, 1)])
    for place, more in itertools.product(range(4), [-1, 1]):
        lengths = [2, 64, 64, NUMBERS]
        lengths[place] += more
        yield own_map((2, 1, 1, 2), [row(4, 0, 1)] * lengths[0], lengths)


def spoilt_own_map(draws):
    """Bad rows at any place, beside wrong lengths and counts too."""
    for make in BAD_ROWS:
        rows = random_rows(draws, 4, 3)
        rows.insert(draws.below(len(rows) + 1), make(4, 3))
        yield own_map((4, 3, 2, len(rows)), rows)
        yield own_map((4, 3, 2, len(rows)), rows + rows[-1:])
        yield own_map((4, 3, 201, len(rows)), rows)


def random_rows(draws, choices, slots, most=12):
    kinds = possible_kinds(KINDS, choices, slots, 0)
    return [random_row(draws, draws.pick(kinds), choices, slots, 0) for _ in range(draws.below(most + 1))] if kinds else []


def random_own_map(draws):
    choices, slots = draws.between(0, 8), draws.between(0, 4)
    rows = random_rows(draws, choices, slots)
    return own_map((choices, slots, draws.below(201), len(rows)), rows)


# The lookup.


def random_lookup(draws):
    """A map with entries that overlap, repeat and are missing; one thing spoilt in some."""
    choices, rows = draws.between(1, 6), draws.between(0, 6)
    numbers = [draws.below(rows) for _ in range(draws.below(9))] if rows else []
    count = len(numbers)
    starts, sizes = [], []
    for _ in range(choices):
        start = draws.below(count + 1)
        starts.append(start if draws.chance(0.7) else NO_ENTRY)
        sizes.append(draws.below(count - start + 1))
    starts, sizes, whole = padded(starts, NO_ENTRY), padded(sizes), list(range(rows))
    counts, choice, pool = [choices, rows, count], draws.below(choices), NUMBERS
    what = draws.below(16)
    if what == 0:
        choice = draws.pick([choices, 64, 65535])
    elif what == 1:
        place = draws.below(3)
        counts[place] = draws.pick([counts[place] + 2**16, 2**64 - 1, [65, 1025, 10_241][place]])
    elif what == 2:
        starts = draws.pick([starts[1:], starts + [0]])
    elif what == 3:
        sizes = draws.pick([sizes[1:], sizes + [0]])
    elif what == 4:
        pool += draws.pick([-1, 1])
    elif what == 5:
        whole = draws.pick([whole[1:], whole + [rows]])
    elif what == 6:
        at = draws.below(choices)
        starts[at], sizes[at] = draws.pick([(count, 1), (count + 1, 0), (0, count + 1), (65534, 65535)])
    elif what == 7 and count:
        numbers[draws.below(count)] = draws.pick([rows, 65535])
    elif what == 8 and rows:
        whole[draws.below(rows)] = draws.pick([rows, 65535])
    elif what == 9:
        numbers = numbers + [65535]
    elif what == 10:
        starts[63], sizes[63] = 65534, 65535
    if what in (11, 12):
        # Two faults: the lower number wins.
        starts[0], sizes[0] = count, 2
        if what == 11:
            sizes = sizes + [0]
        else:
            choice = choices
    return lookup(counts, choice, starts, sizes, numbers, whole, pool)


def lookups_at_the_limits():
    """64 choices, 1,024 rows, 10,240 numbers: the last entry ends with the numbers."""
    whole = list(range(1024))
    for choice, count in itertools.product([0, 62, 63, 64], [10_239, 10_240, 10_241]):
        starts, sizes = [n for n in range(62)] + [NO_ENTRY, 10_237], [n for n in range(62)] + [7, 3]
        yield lookup((64, 1024, count), choice, starts, sizes, [n % 1024 for n in range(100)], whole)
    for rows in [1024, 1025]:
        yield lookup((1, rows, 0), 0, padded([NO_ENTRY]), padded([0]), [], list(range(rows)))
    # No row: even a zero that no entry reaches names none.
    yield lookup((1, 0, 1), 0, padded([NO_ENTRY]), padded([0]), [], [])
    yield lookup((1, 0, 0), 0, padded([0]), padded([0]), [], [])
    yield lookup((0, 0, 0), 0, padded([]), padded([]), [], [])


def random_case(draws):
    return random_own_map(draws) if draws.chance(0.4) else random_lookup(draws)


def committed(draws):
    yield from every_small_row()
    yield from at_the_limits()
    yield from spoilt_own_map(draws)
    yield from lookups_at_the_limits()
    for _ in range(600):
        yield random_case(draws)
