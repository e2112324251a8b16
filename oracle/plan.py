"""The whole text of the program `plan` for any file, as document 01 says, with no word of the Rattle code: the answers of the
plan's cases.

A case is a file with its length (4 bytes) before it. The answer: the text with its length (4 bytes) before it.
"""

import struct
import sys

import day_file
import plans
import scope
from cases.common import OMITTED, row
from search_refusals import preference_table

SIMPLIFIED, FULL = 2, 1
PASS_BUDGET, TOTAL_BUDGET = 100_000, 1_000_000
WORDS = ["none", "found", "turns"]


def choice_line(choice, place):
    return f"choice {choice} out\n" if place == OMITTED else f"choice {choice} slot {place}\n"


def searched(counts, per_choice, levels, preferences, rows):
    """'the full search with own map, analysis with simplifying, no orders or draws, start at the bound'; refused by 6, then by 7."""
    choices, slots, choosers = counts[:3]
    mins, maxs, optional = ([line[i] for line in per_choice] for i in range(3))
    entries = scope.own_map(choices, rows)
    if sum(map(len, entries)) > scope.MOST_MAP_NUMBERS:
        return "result refused 6\n"
    table = preference_table(choices, choosers, preferences)
    before, kept, bound = scope.analysis(slots, mins, levels, table, SIMPLIFIED)
    if before > scope.MOST_SETS:
        return "result refused 7\n"
    call = scope.Search((slots, choosers, rows, mins, maxs, optional), entries, FULL, [], [], (PASS_BUDGET, TOTAL_BUDGET))
    outcome, plan = call.run(levels, bound, lambda limit: scope.level_list(levels, kept, limit))
    lines = [f"result {WORDS[outcome]}\n", f"turns {call.turns}\n", f"passes {call.passes}\n", f"limit {call.limit}\n"]
    return "".join(lines + [choice_line(*one) for one in enumerate(plan or [])])


def text(file):
    number = plans.refusal(file)
    if number is not None:
        return f"result refused {number}\n"
    counts, per_choice, levels, preferences, given = day_file.read(file)
    reduced, clash, before = scope.reduced(counts[0], [row(*one) for one in given])
    if before > scope.MOST_ROWS:
        return "result refused 6\n"
    if clash:
        return "result clash\n"
    return searched(counts, per_choice, list(levels), list(preferences), [row(*one) for one in reduced if one[0] <= 6])


def answer(body):
    told = text(body[4:]).encode()
    return struct.pack(">I", len(told)) + told


if __name__ == "__main__":
    sys.stdout.write(text(sys.stdin.buffer.read()))
