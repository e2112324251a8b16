"""The roster check's refusals as document 01 says them, with no word of the Rattle code: the answers of the refused rosters' cases.

A case: the counts C, S, H, L, rows, assignment rows (2 each); the lengths of mins, maxs, levels, preferences, rows, assignment
rows, plan, roster (2 each); then rows and assignment rows (8 each), mins, maxs, levels, preferences (2 each), plan and roster
(1 each). The answer: 0 failed, 1 passed, or 100 more than a refusal's number (1); the highest preference, the row that 5 carries
(its place in the two lists one after the other), or 0 (2).
"""

import struct

import scope
from cases.common import OMITTED, parts
from day_file import Refused, refuse_if, row_keeps

LETTERS = {"rows": "Q", "assignment": "Q", "mins": "H", "maxs": "H", "levels": "H", "preferences": "H", "plan": "B", "roster": "B"}
LENGTHS = ["mins", "maxs", "levels", "preferences", "rows", "assignment", "plan", "roster"]


def read(body):
    """The six counts, and the eight slices by their names."""
    counts = struct.unpack_from(">6H", body)
    lengths = dict(zip(LENGTHS, struct.unpack_from(">8H", body, 12)))
    slices, at = {}, 28
    for name, letter in LETTERS.items():
        form = f">{lengths[name]}{letter}"
        slices[name] = struct.unpack_from(form, body, at)
        at += struct.calcsize(form)
    return counts, slices


def judge(counts, s):
    """'Lowest number first': 1, 2, 3, 4, 5, 9, 10."""
    choices, slots, choosers, levels, rows, assignment = counts
    refuse_if(choices > 64 or slots > 24 or choosers > 200 or not 1 <= levels <= 64 or rows > 1024 or assignment > 1024, 1)
    given = {"mins": choices, "maxs": choices, "levels": levels, "preferences": choosers * choices, "rows": rows,
             "assignment": assignment, "plan": choices, "roster": choosers * slots}
    refuse_if(any(len(s[name]) != length for name, length in given.items()), 2)
    refuse_if(any(a >= b for a, b in zip(s["levels"], s["levels"][1:])), 3)
    refuse_if(any(p > s["levels"][-1] for p in s["preferences"]), 4)
    names = {"choice": choices, "slot": slots, "chooser": choosers}
    joined = [(one, range(1, 7)) for one in s["rows"]] + [(one, range(10, 14)) for one in s["assignment"]]
    for place, (one, kinds) in enumerate(joined):
        columns = parts(one)
        refuse_if(columns[0] not in kinds or not row_keeps(*columns, names), 5, place)
    refuse_if(any(cell >= slots and cell != OMITTED for cell in s["plan"]), 9)
    refuse_if(any(cell >= choices or s["plan"][cell] == OMITTED for cell in s["roster"]), 10)


def answer(body):
    counts, s = read(body)
    choices, slots, choosers = counts[:3]
    try:
        judge(counts, s)
    except Refused as why:
        number, *carried = why.args
        return struct.pack(">BH", 100 + number, *(carried or [0]))
    cells = [s["roster"][h * slots: (h + 1) * slots] for h in range(choosers)]
    preferences = [s["preferences"][h * choices: (h + 1) * choices] for h in range(choosers)]
    passes = scope.roster_passes(s["rows"], s["assignment"], s["mins"], s["maxs"], s["plan"], cells)
    return struct.pack(">BH", passes, scope.highest_preference(preferences, cells))
