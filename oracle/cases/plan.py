"""Cases of the program `plan`: files alone. The answers come from oracle/plan.py."""

import itertools
import struct

import day_bytes
from cases import critical_sets, day_file, plans
from cases.preferences import random_levels, random_preferences

SEED = 1_012
FILE = "crates/replay_plan/data/cases"


def body(file):
    return struct.pack(">I", len(file)) + file


def input_length(case):
    """Where the answer of a record begins."""
    return 4 + struct.unpack_from(">I", case)[0]


def file_of(slots, per_choice, levels, preferences, rows=()):
    """A file; preferences a list a chooser."""
    flat = [wish for line in preferences for wish in line]
    return day_bytes.file_of(slots, len(preferences), per_choice, levels, flat, rows)


def counts_of_choices():
    """K11: 64 choices are taken, 65 give 1; each with a body that fits."""
    yield plans.file_of(1, 0, [(0, 0, 0)] * 64)
    yield plans.file_of(1, 1, [(0, 1, 1)] * 64)
    yield plans.file_of(1, 0, [(0, 0, 0)] * 65)


def small_days():
    """Found with `out`, none, and the ends: no choice, no slot, no chooser, the most slots."""
    yield plans.two_of_two()
    yield plans.file_of(1, 4, [(3, 3, 1), (2, 4, 0)])
    yield plans.file_of(2, 3, [(0, 3, 0)])
    for slots, choosers in itertools.product([0, 1, 2, 24], [0, 1, 200]):
        yield plans.file_of(slots, choosers, [])
    for flags in itertools.product([0, 1], repeat=2):
        for slots, choosers in itertools.product([0, 1, 2], [0, 3]):
            yield plans.file_of(slots, choosers, [(0, 3, flag) for flag in flags])
    yield plans.file_of(24, 0, [(0, 0, 0), (0, 0, 1)], [(5, 0, 1, 22)])
    yield plans.file_of(24, 0, [(0, 0, 1)] * 64, [(1, 63, 23, 0), (1, 9, 10, 0)])
    yield plans.file_of(1, 0, [(0, 0, 1)], levels=[0, 7, 300, 65535])


def limits_raised():
    """Passes at rising limits: the bound's pass has no plan, a later one has."""
    for rows in [[], [(2, 0, 0, 0)], [(4, 0, 1, 0)]]:
        yield file_of(2, [(0, 2, 0), (0, 2, 0), (0, 2, 1)], [1, 3, 9], [[1, 3, 9], [3, 1, 9], [9, 1, 1]], rows)
        yield file_of(2, [(1, 2, 0), (1, 2, 0), (0, 3, 1)], [0, 1, 2], [[0, 2, 1], [1, 0, 2]], rows)
    yield file_of(3, [(0, 0, 1)] * 3, [1, 2], [], [(1, 0, 0, 0), (1, 1, 0, 0)])


def clashes():
    """A clash comes after 6 of the reduction and before 7, and every refusal of the file before it."""
    yield plans.file_of(2, 1, [(0, 1, 0), (0, 1, 0)], [(9, 0, 1, 0)])
    yield plans.file_of(2, 1, [(0, 1, 0)], [(9, 0, 1, 0), (1, 0, 2, 0)])
    yield plans.file_of(2, 1, [(0, 1, 2)], [(9, 0, 1, 0)])
    yield plans.file_of(2, 1, [], [(9, 0, 1, 0)])
    yield plans.file_of(2, 1, [(0, 1, 0)], [(9, 1, 1, 0)])
    yield plans.joined(46, clash=[(9, 0, 1, 0)])
    yield plans.joined(44, [(10, 0, 0, 0)] * 34, [(9, 0, 1, 0)])
    yield many_sets(1_025, [(9, 0, 1, 0)])


def many_sets(sets, rows=()):
    """A day whose analysis keeps so many sets before simplifying; every choice may be out."""
    return file_of(3, [(0, 3, 1)] * 64, list(range(64)), critical_sets.chains(sets), rows)


def refused():
    """6 of the reduction beside the most rows, 7 beside the most sets; 6 of the own map can't be met by a file."""
    yield plans.joined(44, [(10, 0, 0, 0)] * 35)
    yield plans.joined(44, [(10, 0, 0, 0)] * 36)
    yield many_sets(1_024, [(1, 0, 0, 0), (1, 0, 1, 0)])
    yield many_sets(1_025)


def damaged(draws):
    """Each thing that can be wrong; starts of a file; counts over their limits."""
    good = day_file.random_day(draws, 3, 2, 4, 3, 4)
    for _, damage in day_file.damages(good):
        yield damage(good)
    for end in [0, 1, 4, 10, 11, 26]:
        yield good[:end]
    for file in day_file.counts_over(draws):
        if len(file) < 2_000:
            yield file


def out_of_turns():
    """1,000,000 turns at the last level; and 100,000 in a pass below it first."""
    never = [(6, 0, 64, 3)]
    yield plans.file_of(1, 0, [(0, 0, 1)] * 22, never)
    yield file_of(1, [(0, 1, 1)] * 22, [1, 2], [[1] * 11 + [2] * 11], never)


def at_turns():
    """A pass budget met and a plan found at the next level; and a none after many turns."""
    yield file_of(1, [(0, 1, 1)] * 17, [1, 2], [[1] * 9 + [2] * 8], [(6, 0, 17, 3)])
    yield plans.file_of(1, 0, [(0, 0, 1)] * 12, [(6, 0, 64, 3)])


def largest():
    """The longest file; and a byte more, of a wrong version and with a length that fits."""
    for case in plans.largest():
        yield case[28:]


def random_file(draws):
    """A day that mostly has a plan, of any of the kinds of row, with preferences of its own."""
    choices = draws.pick([0, 1, 2, 3, 4, 4, 5, 6])
    slots = draws.between(0, 3)
    choosers = draws.pick([0, 1, 2, draws.below(7)])
    plan = plans.hidden_plan(draws, choices, slots)
    rows = plans.rows_of(draws, plan, slots, choosers, draws.pick([0, 1, 2, 4, 7]))
    levels = random_levels(draws, draws.between(1, 4))
    preferences = random_preferences(draws, choices, choosers, levels)
    return file_of(slots, plans.per_choice_of(draws, plan, choosers), levels, preferences, rows)


def random_case(draws):
    """A good file, or one with a byte or two changed."""
    file = random_file(draws)
    for _ in range(draws.pick([0, 0, 0, 0, 1, 2])):
        at = draws.below(len(file))
        file = file[:at] + bytes([draws.pick([0, 1, 2, 255, draws.below(256)])]) + file[at + 1:]
    return body(file)


def committed(draws):
    yield body(day_file.sample())
    for files in [counts_of_choices(), small_days(), limits_raised(), plans.each_kind(), clashes(), refused(), damaged(draws), out_of_turns(),
                  at_turns(), largest()]:
        yield from map(body, files)
    for _ in range(400):
        yield random_case(draws)
