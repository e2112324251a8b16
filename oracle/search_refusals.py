"""The search's refusals as document 01 says them, with no word of the Rattle code: the answers of calls of any counts and lengths.

A case: the counts C, S, H, L, rows, map numbers (8 each); the lengths of mins, maxs, optional bytes, levels, preferences, rows,
starts, lengths, numbers, whole list, orders, draws and plan (2 each), and how many of the numbers are written, the rest being 0
(2); 0 as the Rust or 1 full, analysis (0 off, 1 on, 2 simplified), start flag (1 each), pass budget, total budget (8 each); then
rows (8 each), mins, maxs, levels, preferences, starts, lengths, numbers, whole list (2 each), draws (4 each), optional bytes and
orders (1 each). A start of 65,535 says that a choice has no entry. The answer: 0 none, 1 found, 2 out of turns, or 100 more than
a refusal's number (1); turns, or the row that 5 carries (8); passes, limit (2 each); after found the plan (1 each).
"""

import struct

import scope
from cases.common import parts
from day_file import Refused, refuse_if, row_keeps

LENGTHS = ["mins", "maxs", "optional", "levels", "preferences", "rows", "starts", "lengths", "numbers", "whole", "orders", "draws", "plan"]
SLICES = {"rows": "Q", "mins": "H", "maxs": "H", "levels": "H", "preferences": "H", "starts": "H", "lengths": "H", "numbers": "H",
          "whole": "H", "draws": "I", "optional": "B", "orders": "B"}
NO_ENTRY = 65535
MOST_MAP_NUMBERS = 10_240


def read(body):
    """The six counts, the settings, and the slices by their names; of the plan its length."""
    counts = struct.unpack_from(">6Q", body)
    lengths = dict(zip(LENGTHS, struct.unpack_from(">13H", body, 48)))
    (written,) = struct.unpack_from(">H", body, 74)
    settings = struct.unpack_from(">3B2Q", body, 76)
    slices, at = {"plan": lengths["plan"]}, 95
    for name, letter in SLICES.items():
        form = f">{written if name == 'numbers' else lengths[name]}{letter}"
        slices[name] = list(struct.unpack_from(form, body, at))
        at += struct.calcsize(form)
    slices["numbers"] += [0] * (lengths["numbers"] - written)
    assert at == len(body)
    return counts, settings, slices


def are_orders(choices, orders):
    """Whole permutations of 0..C-1, one after another; none for C 0."""
    if choices == 0:
        return not orders
    each = [orders[at: at + choices] for at in range(0, len(orders), choices)]
    return all(sorted(one) == list(range(choices)) for one in each)


def map_fits(choices, rows, count, starts, lengths, numbers, whole):
    """Number 14: entries of the choices end within the counted numbers, each of which names a row; the whole list is 0, 1, 2 .."""
    ends = [start + length for start, length in zip(starts[:choices], lengths) if start != NO_ENTRY]
    return all(end <= count for end in ends) and all(n < rows for n in numbers[:count]) and whole == list(range(len(whole)))


def judge_rows(rows, names, kinds):
    for place, one in enumerate(rows):
        columns = parts(one)
        refuse_if(columns[0] not in kinds or not row_keeps(*columns, names), 5, place)


def preference_table(choices, choosers, preferences):
    return [preferences[h * choices: (h + 1) * choices] for h in range(choosers)]


def judge(counts, settings, s):
    """'Lowest number first': 1, 2, 3, 4, 5, 7, 8, 13, 14."""
    choices, slots, choosers, levels, rows, count = counts
    refuse_if(choices > 64 or slots > 24 or choosers > 200 or not 1 <= levels <= 64 or rows > 1024 or count > MOST_MAP_NUMBERS, 1)
    given = {"mins": choices, "maxs": choices, "optional": choices, "levels": levels, "preferences": choosers * choices,
             "rows": rows, "starts": 64, "lengths": 64, "numbers": MOST_MAP_NUMBERS, "whole": rows}
    refuse_if(s["plan"] != choices or any(len(s[name]) != length for name, length in given.items()), 2)
    refuse_if(any(a >= b for a, b in zip(s["levels"], s["levels"][1:])), 3)
    refuse_if(any(p > s["levels"][-1] for p in s["preferences"]), 4)
    judge_rows(s["rows"], {"choice": choices, "slot": slots, "chooser": choosers}, range(1, 7))
    table = preference_table(choices, choosers, s["preferences"])
    analysed = scope.analysis(slots, s["mins"], s["levels"], table, settings[1])
    refuse_if(analysed[0] > scope.MOST_SETS, 7)
    refuse_if(not are_orders(choices, s["orders"]), 8)
    refuse_if(any(flag > 1 for flag in s["optional"]), 13)
    refuse_if(not map_fits(choices, rows, count, s["starts"], s["lengths"], s["numbers"], s["whole"]), 14)
    return analysed


def searched(counts, settings, s, analysed):
    """A good call's answer, by scope.py."""
    choices, slots, choosers = counts[:3]
    full, _, at_last, pass_budget, total_budget = settings
    _, kept, bound = analysed
    entries = [None if start == NO_ENTRY else s["numbers"][start: start + length]
               for start, length in zip(s["starts"][:choices], s["lengths"])]
    orders = [s["orders"][at: at + choices] for at in range(0, len(s["orders"]), max(1, choices))]
    day = (slots, choosers, s["rows"], s["mins"], s["maxs"], s["optional"])
    call = scope.Search(day, entries, full, orders, s["draws"], (pass_budget, total_budget))
    start = s["levels"][-1] if at_last else bound
    outcome, plan = call.run(s["levels"], start, lambda limit: scope.level_list(s["levels"], kept, limit))
    return struct.pack(">BQHH", outcome, call.turns, call.passes, call.limit) + bytes(plan or [])


def answer(body):
    counts, settings, s = read(body)
    try:
        analysed = judge(counts, settings, s)
    except Refused as why:
        number, *carried = why.args
        return struct.pack(">BQHH", 100 + number, *(carried or [0]), 0, 0)
    return searched(counts, settings, s, analysed)
