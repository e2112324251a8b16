"""Cases of the day file: good files at the limits and between, and damaged copies. The answers come from oracle/day_file.py."""

import itertools
import struct

from cases.common import parts, possible_kinds, random_row
from day_bytes import file_of, with_length

SEED = 1_008
FILE = "crates/replay_day_file/data/cases"
LARGEST = 26_827


def body(file):
    """The input of a case: the file's length, which its own first word may belie, and the file."""
    return struct.pack(">I", len(file)) + file


def input_length(case):
    """Where the answer of a record begins."""
    return 4 + struct.unpack_from(">I", case)[0]


def random_day(draws, choices, slots, choosers, levels, rows):
    """A good file of these counts."""
    per_choice = [(draws.pick([0, 1, draws.below(40), 65535]), draws.pick([0, draws.below(60), 65535]), draws.below(2)) for _ in range(choices)]
    steps = [draws.between(1, 1000) for _ in range(levels)]
    rising = [sum(steps[:i + 1]) - 1 for i in range(levels)]
    wishes = range(choices * choosers)
    preferences = [draws.pick([0, rising[-1], draws.between(0, rising[-1])]) for _ in wishes]
    kinds = possible_kinds(range(1, 16), choices, slots, choosers)
    given = [parts(random_row(draws, draws.pick(kinds), choices, slots, choosers)) for _ in range(rows)] if kinds else []
    return file_of(slots, choosers, per_choice, rising, preferences, given)


def sample():
    return bytes.fromhex("00000017 01020201 01000000 00000100 00000001 00000000 000000")


def at_limits(draws):
    """Each count at 0 and at its limit, and all of them at once."""
    yield sample()
    yield random_day(draws, 64, 24, 200, 64, 128)
    for counts in [(0, 0, 0, 1, 0), (64, 0, 0, 1, 0), (0, 24, 0, 1, 0), (0, 0, 200, 1, 0), (0, 0, 0, 64, 0), (1, 1, 1, 1, 128),
                   (64, 24, 3, 64, 128), (2, 24, 200, 2, 16), (1, 1, 200, 1, 1)]:
        yield random_day(draws, *counts)


def damages(good):
    """A name for each thing that can be wrong, and a file with it; of a day with two choices, levels, choosers and rows or more."""
    choices, levels, choosers = good[5], good[8], good[7]
    after_choices = 11 + 5 * choices
    preferences = after_choices + 2 * levels
    rows = preferences + 2 * choices * choosers

    def put(file, at, new):
        return file[:at] + new + file[at + len(new):]

    yield "length", lambda f: put(f, 0, struct.pack(">I", len(f) - 3))
    yield "version", lambda f: put(f, 4, b"\2")
    yield "count", lambda f: put(f, 6, bytes([25]))
    yield "body", lambda f: with_length(f[4:] + b"\0")
    yield "optional", lambda f: put(f, 15, b"\2")
    yield "levels", lambda f: put(f, after_choices + 2, f[after_choices:after_choices + 2])
    yield "preference", lambda f: put(f, preferences, b"\xff\xff")
    yield "row", lambda f: put(f, rows + 6, b"\0")


def damaged_pairs(draws):
    """Each damage alone, and each two together: the refusal that comes first."""
    good = random_day(draws, 3, 2, 4, 3, 4)
    every = list(damages(good))
    for (_, one), (_, other) in itertools.combinations(every, 2):
        yield other(one(good))
        yield one(other(good))
    for _, one in every:
        yield one(good)


def cut_short(draws):
    """Every start of a small file, with its length word as it was and with one that fits; and one byte more."""
    good = random_day(draws, 2, 2, 2, 2, 2)
    for end in range(len(good)):
        yield good[:end]
        if end >= 4:
            yield with_length(good[4:end])
    yield good + b"\0"
    yield with_length(good[4:] + b"\0")


def counts_over(draws):
    """Each count one over its limit, and the levels none, with a body that fits them."""
    for at, value in [(5, 65), (6, 25), (7, 201), (8, 65), (8, 0)]:
        counts = [1, 1, 1, 1]
        counts[at - 5] = value
        choices, slots, choosers, levels = counts
        yield file_of(slots, choosers, [(0, 0, 0)] * choices, range(levels), [0] * (choices * choosers), [])
    yield file_of(1, 1, [(0, 0, 0)], [0], [0], [(1, 0, 0, 0)] * 129)


def each_column(draws):
    """A row of each kind 0 to 17 with each column around its limits, as the second of two."""
    for kind in range(18):
        for left, right, extra in [(0, 0, 0), (1, 0, 0), (2, 0, 0), (3, 0, 0), (4, 0, 0), (0, 1, 0), (0, 2, 0), (0, 3, 0), (0, 4, 0), (0, 65535, 0),
                                   (255, 0, 0), (0, 0, 1), (0, 0, 4), (0, 0, -3), (0, 0, -4), (0, 0, 32767), (0, 0, -32767), (0, 0, -32768)]:
            rows = [(1, 0, 0, 0), (kind, left, right, extra)]
            yield file_of(3, 4, [(0, 9, 0), (1, 9, 1)], [0, 5], [0] * 8, rows)


def random_case(draws):
    """A good file, or one with a byte or two changed."""
    file = random_day(draws, draws.below(6), draws.below(4), draws.below(5), draws.between(1, 4), draws.below(6))
    for _ in range(draws.pick([0, 1, 1, 2])):
        at = draws.below(len(file))
        file = file[:at] + bytes([draws.pick([0, 1, 2, 255, draws.below(256)])]) + file[at + 1:]
    return body(file)


def committed(draws):
    for file in itertools.chain(at_limits(draws), damaged_pairs(draws), cut_short(draws), counts_over(draws), each_column(draws)):
        yield body(file)
    for _ in range(600):
        yield random_case(draws)
