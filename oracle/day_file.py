"""Reads day files as document 01 says, with no word of the Rattle code: the answers of the day file's cases.

A case is a file with its length (4 bytes) before it. The answer: 0 and the day, or the number of the refusal (1 byte), and for 5
the row (2 bytes). The day: C, S, H, L (1 each), row count (2), mins, maxs (2 each), optional bytes, levels, preferences (2 each),
rows (8 each, by their number).
"""

import struct

from cases.common import COLUMNS, OPS, row, u16s


class Refused(Exception):
    pass


def refuse_if(test, number, *carried):
    if test:
        raise Refused(number, *carried)


def row_keeps(kind, left, right, extra, counts):
    """01's table of kinds."""
    if kind not in COLUMNS:
        return False
    for name, value in zip(COLUMNS[kind], (left, right)):
        if name != "limit" and value >= counts[name]:
            return False
    if kind == 5:
        return -32767 <= extra
    return extra in OPS.values() if kind == 6 else extra == 0


def read(file):
    """The day in a file; 'a file goes 11, 12, 1, 11 for the counted body, 13, 3, 4, 5'."""
    refuse_if(len(file) < 11, 11)
    rest, version, choices, slots, choosers, levels, rows = struct.unpack_from(">IBBBBBH", file)
    refuse_if(rest != len(file) - 4, 11)
    refuse_if(version != 1, 12)
    refuse_if(choices > 64 or slots > 24 or choosers > 200 or not 1 <= levels <= 64 or rows > 128, 1)
    refuse_if(len(file) != 11 + 5 * choices + 2 * levels + 2 * choices * choosers + 6 * rows, 11)
    body = file[11:]
    per_choice = [struct.unpack_from(">HHB", body, 5 * c) for c in range(choices)]
    at = 5 * choices
    given_levels = struct.unpack_from(f">{levels}H", body, at)
    at += 2 * levels
    preferences = struct.unpack_from(f">{choices * choosers}H", body, at)
    at += 2 * choices * choosers
    given = [struct.unpack_from(">BBHh", body, at + 6 * r) for r in range(rows)]
    refuse_if(any(optional > 1 for _, _, optional in per_choice), 13)
    refuse_if(any(a >= b for a, b in zip(given_levels, given_levels[1:])), 3)
    refuse_if(any(p > given_levels[-1] for p in preferences), 4)
    counts = {"choice": choices, "slot": slots, "chooser": choosers}
    for number, columns in enumerate(given):
        refuse_if(not row_keeps(*columns, counts), 5, number)
    return (choices, slots, choosers, levels, rows), per_choice, given_levels, preferences, given


def answer(body):
    try:
        counts, per_choice, levels, preferences, given = read(body[4:])
    except Refused as why:
        return struct.pack(">BH", *why.args) if len(why.args) == 2 else struct.pack(">B", *why.args)
    return (struct.pack(">BBBBBH", 0, *counts)
            + u16s([c[0] for c in per_choice]) + u16s([c[1] for c in per_choice]) + bytes(c[2] for c in per_choice)
            + u16s(levels) + u16s(preferences) + struct.pack(f">{len(given)}Q", *(row(*columns) for columns in given)))
