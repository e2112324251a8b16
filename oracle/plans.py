"""The whole text of the program `plans` for any file, as document 01 says, with no word of the Rattle code: the answers of the
plans' cases.

A case is first, room and budget (8 bytes each) and a file with its length (4 bytes) before it. The answer: the text with its
length (4 bytes) before it, or 0xFFFFFFFF where the room is over 1,024 and there is no text.

Every case has turns enough, so that the budget isn't looked at. Most have as many as their day has nodes, which
settles it. Those of `kept_by_rules` in cases/plans.py have fewer: 01 leaves it open whether they run out, but a walk
with all its rules keeps to them, and one that has lost a rule doesn't. The answer is request 03's list all the same.
"""

import struct

import day_file
import listing

MOST_ROOM = 1_024
LONGEST_FILE = 26_827
NO_TEXT = 0xFFFF_FFFF
MOST_TURNS = 2**64 - 1


def refusal(file):
    """The number that a file is refused with, or None; 'over 26,827 bytes: 11', whatever else is wrong."""
    if len(file) > LONGEST_FILE:
        return 11
    try:
        day_file.read(file)
    except day_file.Refused as why:
        return why.args[0]
    return None


def text(file, first, room):
    number = refusal(file)
    return listing.text(file, first, room, MOST_TURNS) if number is None else f"result refused {number}\n"


def answer(body):
    first, room, _, size = struct.unpack_from(">QQQI", body)
    file = body[28:]
    assert len(file) == size
    if room > MOST_ROOM:
        return struct.pack(">I", NO_TEXT)
    told = text(file, first, room).encode()
    return struct.pack(">I", len(told)) + told
