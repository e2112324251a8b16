"""Own map and lookup as document 01 says them, with no word of the Rattle code: the answers of calls of any counts and lengths.

An own map's case: 0 (1); the counts C, S, H, rows (8 each); the lengths of rows, starts, lengths and numbers (2 each); the rows (8
each). The answer: 0, or 100 more than a refusal's number (1); how many numbers the map has, or the row that 5 carries (2); after 0
for each choice where its entry starts, then for each its length, then the numbers (2 each).

A lookup's case: 1 (1); the counts C, rows, map numbers (8 each); the choice (2); the lengths of starts, lengths, numbers and whole
list, and how many of the numbers are written, the rest being 0 (2 each); starts, lengths, numbers, whole list (2 each). The answer:
0, or 100 more than a refusal's number (1); how long the choice's part is, 0 for a refusal (2); the part (2 each).
"""

import struct

import scope
from cases.common import u16s
from day_file import Refused, refuse_if
from search_refusals import MOST_MAP_NUMBERS, NO_ENTRY, judge_rows, map_fits

OWN_MAP, LOOKUP = 0, 1


def own_map(body):
    """1, 2, 5, 6."""
    choices, slots, choosers, rows = struct.unpack_from(">4Q", body, 1)
    lengths = struct.unpack_from(">4H", body, 33)
    given = struct.unpack_from(f">{lengths[0]}Q", body, 41)
    refuse_if(choices > 64 or slots > 24 or choosers > 200 or rows > 1024, 1)
    refuse_if(lengths != (rows, 64, 64, MOST_MAP_NUMBERS), 2)
    judge_rows(given, {"choice": choices, "slot": slots, "chooser": choosers}, range(1, 7))
    entries = scope.own_map(choices, given)
    numbers = sum(entries, [])
    refuse_if(len(numbers) > MOST_MAP_NUMBERS, 6)
    starts = [sum(map(len, entries[:choice])) for choice in range(choices)]
    return struct.pack(">BH", 0, len(numbers)) + u16s(starts) + u16s([len(entry) for entry in entries]) + u16s(numbers)


def lookup(body):
    """1, 2, 14."""
    choices, rows, count = struct.unpack_from(">3Q", body, 1)
    (choice,) = struct.unpack_from(">H", body, 25)
    *lengths, written = struct.unpack_from(">5H", body, 27)
    at, slices = 37, []
    for length in (lengths[0], lengths[1], written, lengths[3]):
        slices.append(list(struct.unpack_from(f">{length}H", body, at)))
        at += 2 * length
    starts, sizes, numbers, whole = slices
    numbers += [0] * (lengths[2] - written)
    refuse_if(choices > 64 or rows > 1024 or count > MOST_MAP_NUMBERS or choice >= choices, 1)
    refuse_if(lengths != [64, 64, MOST_MAP_NUMBERS, rows], 2)
    refuse_if(not map_fits(choices, rows, count, starts, sizes, numbers, whole), 14)
    start = starts[choice]
    part = whole if start == NO_ENTRY else numbers[start: start + sizes[choice]]
    return struct.pack(">BH", 0, len(part)) + u16s(part)


def answer(body):
    try:
        return {OWN_MAP: own_map, LOOKUP: lookup}[body[0]](body)
    except Refused as why:
        number, *carried = why.args
        return struct.pack(">BH", 100 + number, *(carried or [0]))
