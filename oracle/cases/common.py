"""What every case maker uses: rows, records and repeatable draws."""

import random
import struct

OMITTED = 255
BIAS = 32768
OPS = {"Eq": 1, "Gt": 2, "Geq": 3, "Neq": -1, "Leq": -2, "Lt": -3}

# What left and right name, by kind; the limit of kind 6 is any 16-bit number.
COLUMNS = {
    1: ("choice", "slot"),
    2: ("choice", "slot"),
    3: ("choice", "choice"),
    4: ("choice", "choice"),
    5: ("choice", "choice"),
    6: ("slot", "limit"),
    7: ("slot", "choice"),
    8: ("slot", "choice"),
    9: ("slot", "slot"),
    10: ("choice", "choice"),
    11: ("chooser", "choice"),
    12: ("chooser", "choice"),
    13: ("chooser", "chooser"),
    14: ("choice", "chooser"),
    15: ("choice", "chooser"),
}


class Draws:
    """Repeatable draws. Only random() is promised to stay the same between
    Python versions, so everything is made of it."""

    def __init__(self, seed):
        self._random = random.Random(seed).random

    def below(self, count):
        return int(self._random() * count)

    def between(self, low, high):
        return low + int(self._random() * (high - low + 1))

    def chance(self, share):
        return self._random() < share

    def pick(self, items):
        return items[int(self._random() * len(items))]

    def shuffled(self, items):
        items = list(items)
        for last in range(len(items) - 1, 0, -1):
            other = self.below(last + 1)
            items[last], items[other] = items[other], items[last]
        return items


def row(kind, left, right, extra=0):
    return (kind << 48) + (left << 32) + (right << 16) + (extra + BIAS)


def parts(number):
    """The kind, left, right and signed extra of a row's number."""
    return number >> 48, number >> 32 & 0xFFFF, number >> 16 & 0xFFFF, (number & 0xFFFF) - BIAS


def rows_bytes(rows):
    return struct.pack(f">H{len(rows)}Q", len(rows), *rows)


def u16s(values):
    return struct.pack(f">{len(values)}H", *values)


def record(body):
    return struct.pack(">I", len(body)) + body


def possible_kinds(kinds, choices, slots, choosers):
    """Those of the kinds whose columns have something to name."""
    counts = {"choice": choices, "slot": slots, "chooser": choosers, "limit": 1}
    return [k for k in kinds if all(counts[column] for column in COLUMNS[k])]


def random_row(draws, kind, choices, slots, choosers):
    counts = {"choice": choices, "slot": slots, "chooser": choosers}
    left, right = COLUMNS[kind]
    if kind == 6:
        limit = draws.pick([0, 1, 2, draws.below(8), 65535])
        return row(6, draws.below(slots), limit, draws.pick(list(OPS.values())))
    extra = 0
    if kind == 5:
        extra = draws.pick([0, 1, -1, draws.between(-4, 4), 32767, -32767])
    return row(kind, draws.below(counts[left]), draws.below(counts[right]), extra)
