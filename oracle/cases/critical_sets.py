"""Cases of the critical sets: sets kept, bound, each level's list."""

import itertools
import struct

from cases.common import u16s
from cases.preferences import preference_bytes, random_levels, random_preferences

SEED = 1_004
FILE = "crates/replay_critical_sets/data/cases"
OFF, ON, SIMPLIFIED = 0, 1, 2


def body(slots, mins, levels, preferences, analysis, limit):
    assert len(mins) <= 64 and slots <= 24 and len(preferences) <= 200
    assert 1 <= len(levels) <= 64 and levels == sorted(set(levels))
    head = struct.pack(">BBBB", len(mins), slots, len(preferences), len(levels))
    tail = struct.pack(">BH", analysis, limit)
    return head + u16s(mins) + preference_bytes(levels, preferences) + tail


def every_small():
    """Two choosers, two choices, two levels and every preference; three slots' worth of rules."""
    for numbers in itertools.product(range(3), repeat=4):
        preferences = [list(numbers[:2]), list(numbers[2:])]
        for slots, analysis in itertools.product([1, 2, 3], [ON, SIMPLIFIED]):
            yield body(slots, [0, 0], [1, 2], preferences, analysis, 0)


def sums_of_min():
    """The sum of min against H * (S - 1): below, equal, above, for S 0, 1, 2 and 24."""
    for slots, choosers in itertools.product([0, 1, 2, 24], [1, 2]):
        room = choosers * max(0, slots - 1)
        for total in [0, room - 1, room, room + 1, 65535]:
            if 0 <= total:
                mins = [total // 2, total - total // 2, 0]
                yield body(slots, mins, [0, 3], [[0, 3, 3]] * choosers, ON, 3)
    # Sums past 16 bits, where a narrow adder would come round to 0.
    yield body(24, [32768, 32768], [0], [[0, 0]] * 200, ON, 0)
    yield body(24, [65535] * 64, [0], [[0] * 64] * 2, ON, 0)


def counts_at_their_ends():
    for analysis in [OFF, ON, SIMPLIFIED]:
        yield body(0, [], [0], [], analysis, 0)
        yield body(0, [], [7], [[]], analysis, 7)
        yield body(24, [], [0, 65535], [[]] * 3, analysis, 65535)
        yield body(2, [0] * 64, [5], [], analysis, 5)
        yield body(1, [0], [1], [], analysis, 0)
        yield body(24, [0] * 64, list(range(64)), [list(range(64))], analysis, 63)
        yield body(3, [0] * 3, [2, 4], [[3, 3, 4], [2, 5 - 1, 3]], analysis, 3)
    yield body(3, [0] * 5, [1], [[1] * 5] * 200, SIMPLIFIED, 1)


def choosers_of(choices, sets):
    """A chooser for each set: preference 0 for its members, 9 for the others."""
    return [[0 if choice in members else 9 for choice in range(choices)] for members in sets]


def shrinking():
    """Sets of one level of which later ones are smaller: simplifying drops earlier ones
    and goes on at an index that the drop has shifted, so that a set is passed over."""
    nested = [range(size) for size in range(6, -1, -1)]
    singles = [{choice} for choice in range(6)]
    pairs = [{0, 1}, {2, 3}, {4, 5}]
    passed_over = [{0, 1}, {2, 3}, {0}, {2}]
    chains_apart = [{0, 1, 2}, {3, 4, 5}, {0, 1}, {3, 4}, {0}, {3}]
    for sets in [nested, nested[::-1], pairs + singles, pairs + singles[::-1], singles + pairs,
                 passed_over, chains_apart, [{0, 1}, {0, 1, 2}, {1, 2}, {0, 2}, {1}]]:
        for levels, analysis in itertools.product([[0, 9], [0, 5, 9]], [ON, SIMPLIFIED]):
            yield body(2, [0] * 6, levels, choosers_of(6, sets), analysis, 0)


def chains(sets):
    """Sets kept: exactly so many, between 1,010 and 1,072. Sixteen choosers whose sets
    grow by one choice a level, each from its own start, give 16 * 63 + 1; the last
    chooser's sets grow only at the upper levels."""
    rows = [[(choice - 4 * h) % 64 for choice in range(64)] for h in range(16)]
    flat = 63 - (sets - 1009)
    last = [(choice - 2) % 64 for choice in range(64)]
    rows.append([0 if place <= flat else place for place in last])
    return rows


def at_the_set_limit():
    levels = list(range(64))
    for sets, analysis in [(1024, ON), (1024, SIMPLIFIED), (1025, ON), (1025, SIMPLIFIED)]:
        yield body(2, [0] * 64, levels, chains(sets), analysis, 31)
    yield body(2, [0] * 64, levels, chains(1025), OFF, 31)


def random_case(draws):
    if draws.chance(0.01):
        return random_large(draws)
    choices, choosers = draws.between(0, 8), draws.between(0, 7)
    slots = draws.between(0, 4)
    levels = random_levels(draws, draws.between(1, 5))
    preferences = random_preferences(draws, choices, choosers, levels)
    most = draws.pick([0, 1, 1 + choosers * max(0, slots - 1) // (choices + 1), 3])
    mins = [draws.between(0, most) for _ in range(choices)]
    analysis = draws.pick([OFF, ON, ON, ON, SIMPLIFIED, SIMPLIFIED, SIMPLIFIED])
    limit = draws.pick([levels[0], levels[-1], 0, draws.below(levels[-1] + 1)])
    return body(slots, mins, levels, preferences, analysis, limit)


def random_large(draws):
    choices, choosers = draws.between(20, 64), draws.between(5, 40)
    levels = random_levels(draws, draws.pick([2, 4, 8]))
    preferences = random_preferences(draws, choices, choosers, levels)
    mins = [draws.between(0, draws.pick([1, 6])) for _ in range(choices)]
    return body(draws.between(2, 24), mins, levels, preferences, draws.pick([ON, SIMPLIFIED]), levels[0])


def committed(draws):
    yield from every_small()
    yield from sums_of_min()
    yield from counts_at_their_ends()
    yield from shrinking()
    yield from at_the_set_limit()
    for _ in range(700):
        yield random_case(draws)
