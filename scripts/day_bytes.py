"""Writes a day file: the one place in Python that puts its bytes together. What reads a file to judge an
answer (oracle/day_file.py, oracle/listing.py) knows them by itself, so that a slip here is noticed there.

The format is document 01's 'Day file', told again in docs/RULES.md. All big-endian: the length of the rest
(4 bytes); version 1, C, S, H, L (1 each), the number of rows (2); for each choice min, max (2 each) and
optional (1); the levels (2 each); the preferences chooser by chooser (2 each); for each row kind, left (1
each), right, extra (2 each, extra in two's complement).
"""

import struct

VERSION = 1


def with_length(rest):
    """The length of the rest, and the rest; also of one that was damaged, so that its length fits."""
    return struct.pack(">I", len(rest)) + rest


def file_of(slots, choosers, choices, levels, preferences, rows):
    """The file of a day: choices as (min, max, optional), rows as (kind, left, right, extra), preferences as
    one list. Nothing is judged but the length of that list: any count may be over its limit."""
    assert len(preferences) == choosers * len(choices)
    rest = struct.pack(">BBBBBH", VERSION, len(choices), slots, choosers, len(levels), len(rows))
    rest += b"".join(struct.pack(">HHB", *choice) for choice in choices)
    rest += struct.pack(f">{len(levels)}H", *levels)
    rest += struct.pack(f">{len(preferences)}H", *preferences)
    rest += b"".join(struct.pack(">BBHh", *row) for row in rows)
    return with_length(rest)
