"""Cases of the search's refusals: good calls, calls with one thing spoilt in each way, and each two refusals together. The answers
come from oracle/search_refusals.py."""

import itertools
import struct

from cases import critical_sets, search
from cases.common import row
from cases.preferences import random_levels, random_preferences

SEED = 1_011
FILE = "crates/replay_search/data/refusals"
NUMBERS = 10_240
NO_ENTRY = 65535
LENGTHS = ["mins", "maxs", "optional", "levels", "preferences", "rows", "starts", "lengths", "numbers", "whole", "orders", "draws", "plan"]
SLICES = {"rows": "Q", "mins": "H", "maxs": "H", "levels": "H", "preferences": "H", "starts": "H", "lengths": "H", "numbers": "H",
          "whole": "H", "draws": "I", "optional": "B", "orders": "B"}
C, S, H, L, ROWS, COUNT = range(6)


class Lent:
    """What a call is lent: its counts, settings and slices, each of which can be spoilt alone. Numbers not written are 0."""

    def __init__(self, call):
        choices = len(call.mins)
        self.counts = [choices, call.slots, len(call.preferences), len(call.levels), len(call.rows), len(call.numbers)]
        self.settings = (call.mode, call.analysis, call.start_at_last, call.pass_budget, call.total_budget)
        entries = call.entries or [(0, 0, 0)] * choices
        past = [NO_ENTRY] * (64 - choices)
        self.slices = {
            "rows": list(call.rows), "mins": list(call.mins), "maxs": list(call.maxs), "levels": list(call.levels),
            "preferences": [p for line in call.preferences for p in line],
            "starts": [start if present else NO_ENTRY for present, start, _ in entries] + past,
            "lengths": [length for _, _, length in entries] + [0] * (64 - choices),
            "numbers": list(call.numbers), "whole": list(range(len(call.rows))), "draws": list(call.draws),
            "optional": list(call.optional), "orders": [c for order in call.orders for c in order],
        }
        self.pool = NUMBERS
        self.plan = choices

    def body(self):
        s = self.slices
        lengths = {**{name: len(s[name]) for name in s}, "numbers": self.pool, "plan": self.plan}
        head = struct.pack(">6Q", *self.counts) + struct.pack(">13H", *(lengths[name] for name in LENGTHS))
        head += struct.pack(">H3B2Q", len(s["numbers"]), *self.settings)
        return head + b"".join(struct.pack(f">{len(s[name])}{letter}", *s[name]) for name, letter in SLICES.items())


def good_call(draws):
    """A small call that has all that can be spoilt: choices, rows, levels, choosers, entries, numbers, orders."""
    call = search.random_day(draws, draws.between(2, 5), draws.between(1, 2), draws.between(1, 4))
    choices = len(call.mins)
    call.rows = call.rows + [row(4, 0, 1), row(2, 1, 0)]
    call.levels = random_levels(draws, 3)
    if call.levels[-1] == 65535:
        call.levels[-1] = call.levels[-2] + 1
    call.preferences = random_preferences(draws, choices, max(1, len(call.preferences)), call.levels)
    call.analysis, call.mode, call.start_at_last = draws.below(3), draws.below(2), draws.below(2)
    search.lend_map(draws, call)
    call.numbers.append(draws.below(len(call.rows)))
    call.entries[0] = (1, len(call.numbers) - 1, 1)
    call.orders = [draws.shuffled(range(choices)) for _ in range(draws.between(1, 3))]
    call.draws = [draws.below(2**32) for _ in range(draws.below(3))]
    call.pass_budget, call.total_budget = draws.pick([5, 40, 1_000]), draws.pick([9, 60, 5_000])
    return call


def call_of_many_sets(sets):
    """A call whose analysis keeps so many sets before simplifying."""
    call = search.Call(3, 0, [0] * 64, [3] * 64, [1] * 64).but(levels=list(range(64)), preferences=critical_sets.chains(sets))
    call = call.but(analysis=search.ON, rows=[row(4, 0, 1), row(2, 1, 0)], orders=[list(range(63, -1, -1))], numbers=[0, 1])
    return call.but(entries=[(1, 0, 1), (1, 1, 1)] + [(0, 0, 0)] * 62, total_budget=200)


# A way to spoil a call: what it changes of a Lent. Each number has its ways.


def counted(place, value):
    def spoil(draws, lent):
        lent.counts[place] = value

    return spoil


def widened(place, more):
    """A count that is good in its low bits."""
    def spoil(draws, lent):
        lent.counts[place] += more

    return spoil


def resized(name, more):
    """One entry less or more: the first goes, or the last stands twice."""
    def spoil(draws, lent):
        if name == "plan":
            lent.plan += more
        elif name == "numbers":
            lent.pool += more
        else:
            kept = lent.slices[name]
            lent.slices[name] = kept[1:] if more < 0 else kept + kept[-1:]

    return spoil


def levels_at(less):
    def spoil(draws, lent):
        levels = lent.slices["levels"]
        place = draws.below(len(levels) - 1)
        levels[place + 1] = max(0, levels[place] - less)

    return spoil


def preference_above(draws, lent):
    preferences = lent.slices["preferences"]
    preferences[draws.below(len(preferences))] = max(lent.slices["levels"]) + 1


def bad_row(make):
    """A bad row in the place of one; sometimes a second bad row after it."""
    def spoil(draws, lent):
        rows = lent.slices["rows"]
        place = draws.below(len(rows))
        bad = make(lent.counts[C] % 65536, lent.counts[S] % 65536)
        rows[place] = bad
        if draws.chance(0.3):
            rows[-1] = bad

    return spoil


def orders_cut(draws, lent):
    lent.slices["orders"].pop()


def orders_longer(draws, lent):
    lent.slices["orders"].append(0)


def order_repeats(draws, lent):
    orders, choices = lent.slices["orders"], lent.plan
    first = draws.below(len(orders) // choices) * choices
    orders[first + choices - 1] = orders[first]


def order_outside(value):
    def spoil(draws, lent):
        orders = lent.slices["orders"]
        orders[draws.below(len(orders))] = lent.plan if value is None else value

    return spoil


def flag(value):
    def spoil(draws, lent):
        optional = lent.slices["optional"]
        optional[draws.below(len(optional))] = value

    return spoil


def entry(start, length):
    """Choice 0's entry, its start counted from the end of the numbers."""
    def spoil(draws, lent):
        lent.slices["starts"][0] = len(lent.slices["numbers"]) + start
        lent.slices["lengths"][0] = length

    return spoil


def number_outside(more):
    def spoil(draws, lent):
        numbers = lent.slices["numbers"]
        numbers[draws.below(len(numbers))] = len(lent.slices["rows"]) + more

    return spoil


def whole_exchanged(draws, lent):
    whole = lent.slices["whole"]
    whole[-1], whole[-2] = whole[-2], whole[-1]


def whole_from_one(draws, lent):
    lent.slices["whole"] = [n + 1 for n in lent.slices["whole"]]


BAD_ROWS = [
    lambda c, s: row(0, 0, 0), lambda c, s: row(7, 0, 0), lambda c, s: row(9, 0, 0), lambda c, s: row(10, 0, 1), lambda c, s: row(11, 0, 0),
    lambda c, s: row(16, 0, 0), lambda c, s: row(65535, 0, 0), lambda c, s: row(1, c, 0), lambda c, s: row(1, 0, s), lambda c, s: row(2, c, 0),
    lambda c, s: row(2, 0, s), lambda c, s: row(3, 0, c), lambda c, s: row(4, c, 0), lambda c, s: row(5, 0, c, 1), lambda c, s: row(5, 0, 1, -32768),
    lambda c, s: row(6, s, 1, 1), lambda c, s: row(6, 0, 1, 0), lambda c, s: row(6, 0, 1, 4), lambda c, s: row(6, 0, 1, -4), lambda c, s: row(1, 0, 0, 1),
    lambda c, s: row(4, 0, 1, -1),
]
SIZED = ["mins", "maxs", "optional", "levels", "preferences", "rows", "starts", "lengths", "numbers", "whole", "plan"]
WAYS = {
    1: [counted(C, 65), counted(S, 25), counted(H, 201), counted(L, 65), counted(L, 0), counted(ROWS, 1025), counted(COUNT, 10_241)]
    + [counted(place, 2**64 - 1) for place in range(6)]
    + [widened(place, more) for place in range(6) for more in (2**16, 2**32)],
    2: [resized(name, more) for name in SIZED for more in (-1, 1)] + [widened(C, 1), widened(H, 1), widened(ROWS, 1), widened(L, 1)],
    3: [levels_at(0), levels_at(1)],
    4: [preference_above],
    5: [bad_row(make) for make in BAD_ROWS],
    8: [orders_cut, orders_longer, order_repeats, order_outside(None), order_outside(255)],
    13: [flag(2), flag(128), flag(255)],
    14: [entry(0, 1), entry(-1, 2), entry(1, 0), entry(-1, 65535), number_outside(0), number_outside(60_000), whole_exchanged, whole_from_one],
}


# What leaves a call good though it looks odd.


def number_past_the_count(draws, lent):
    lent.slices["numbers"].append(60_000)


def entry_past_the_choices(draws, lent):
    lent.slices["starts"][-1], lent.slices["lengths"][-1] = 60_000, 60_000


def length_without_entry(draws, lent):
    lent.slices["starts"][1], lent.slices["lengths"][1] = NO_ENTRY, 65535


def nothing_lent(draws, lent):
    lent.slices["orders"], lent.slices["draws"] = [], []


FINE = [lambda draws, lent: None, number_past_the_count, entry_past_the_choices, length_without_entry, nothing_lent, entry(0, 0)]


def spoilt(draws, call, ways):
    lent = Lent(call)
    for way in ways:
        way(draws, lent)
    return lent.body()


def each_alone(draws):
    for way in FINE + [way for ways in WAYS.values() for way in ways]:
        for _ in range(2):
            yield spoilt(draws, good_call(draws), [way])


def each_two(draws):
    for one, other in itertools.combinations(WAYS, 2):
        for _ in range(8):
            yield spoilt(draws, good_call(draws), [draws.pick(WAYS[one]), draws.pick(WAYS[other])])


def with_many_sets(draws):
    """7 alone, by one set; beside each other number; and not with analysis off."""
    yield spoilt(draws, call_of_many_sets(1024), [])
    yield spoilt(draws, call_of_many_sets(1025), [])
    yield spoilt(draws, call_of_many_sets(1025).but(analysis=search.SIMPLIFIED), [])
    yield spoilt(draws, call_of_many_sets(1025).but(analysis=search.OFF), [])
    for number in WAYS:
        yield spoilt(draws, call_of_many_sets(1025), [draws.pick(WAYS[number])])
    for number in (8, 13, 14):
        yield spoilt(draws, call_of_many_sets(1025).but(analysis=search.OFF), [draws.pick(WAYS[number])])


def at_the_counts(draws):
    """Each count at its limit and one past it, every slice at the length that the counts give."""
    for choices in [0, 64, 65]:
        call = search.Call(1, 1, [0] * choices, [1] * choices, [1] * choices).but(total_budget=300)
        lent = Lent(call.but(entries=[(0, 0, 0)] * choices))
        yield lent.body()
        lent.slices["orders"] = [0] * (choices == 0)
        yield lent.body()
    for slots in [24, 25]:
        yield Lent(search.Call(slots, 0, [0], [0], [1])).body()
    for choosers in [200, 201]:
        yield Lent(search.Call(1, choosers, [0, 0], [100, 101], [0, 0])).body()
    for levels in [0, 1, 64, 65]:
        yield Lent(search.Call(1, 0, [0], [0], [1]).but(levels=list(range(levels)))).body()
    for rows in [1024, 1025]:
        yield Lent(search.Call(2, 0, [0, 0], [0, 0], [0, 0]).but(rows=[row(4, 0, 1)] * rows)).body()
    for numbers in [10_239, 10_240, 10_241]:
        call = search.Call(2, 0, [0, 0], [0, 0], [0, 0]).but(rows=[row(4, 0, 1)], numbers=[], entries=[(1, 10_239, 1), (0, 0, 0)])
        lent = Lent(call)
        lent.counts[COUNT] = numbers
        yield lent.body()


def random_case(draws):
    numbers = [draws.pick(list(WAYS)) for _ in range(draws.pick([0, 0, 1, 1, 1, 2, 2, 3]))]
    ways = [draws.pick(WAYS[number]) for number in sorted(set(numbers), reverse=True)]
    return spoilt(draws, good_call(draws), ways + [draws.pick(FINE)])


def committed(draws):
    yield from at_the_counts(draws)
    yield from with_many_sets(draws)
    yield from each_alone(draws)
    yield from each_two(draws)
    for _ in range(400):
        yield random_case(draws)
