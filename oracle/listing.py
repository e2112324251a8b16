#!/usr/bin/env python3
"""Every plan of a day by brute force, with a plan check of its own.

usage: oracle/listing.py DAYFILE [FIRST [ROOM [BUDGET]]]
                         what the program `plans` prints for a good day file
                         with no more nodes than the budget
       oracle/listing.py --check
                         holds this plan check against the Rust's, on every placement of
                         every committed day (oracle/build comes first)

As a module it answers listing cases. It shares no rule with scope.py but the
reduction, which a day file needs; the rules of a plan are told again here.
"""

import itertools
import struct
import subprocess
import sys
import tempfile
from collections import namedtuple
from pathlib import Path

HERE = Path(__file__).resolve().parent
ROOT = HERE.parent

sys.path.insert(0, str(HERE))
sys.dont_write_bytecode = True

OUT = 255

Day = namedtuple("Day", "slots choosers rows mins maxs optional")


def count_in(plan, slot):
    return sum(1 for place in plan if place == slot)


def size_fits(count, limit, op):
    if op == 1:
        return count == limit
    if op == 2:
        return count > limit
    if op == 3:
        return count >= limit
    if op == -1:
        return count != limit
    if op == -2:
        return count <= limit
    assert op == -3
    return count < limit


def row_kept(number, plan):
    kind, left, right = number >> 48, number >> 32 & 65535, number >> 16 & 65535
    extra = (number & 65535) - 32768
    if kind == 1:
        return plan[left] == right
    if kind == 2:
        return plan[left] != right
    if kind == 6:
        return size_fits(count_in(plan, left), right, extra)
    one, other = plan[left], plan[right]
    if one == OUT and other == OUT:
        return True
    if kind == 3:
        return one == other
    if kind == 4:
        return one != other
    assert kind == 5
    return one != OUT and other != OUT and other == one + extra


def passes(day, plan):
    """The plan check: omission, sums, rows."""
    for choice, place in enumerate(plan):
        if place == OUT and day.optional[choice] == 0:
            return False
    for slot in range(day.slots):
        inside = [choice for choice, place in enumerate(plan) if place == slot]
        if sum(day.mins[choice] for choice in inside) > day.choosers:
            return False
        if sum(day.maxs[choice] for choice in inside) < day.choosers:
            return False
    return all(row_kept(number, plan) for number in day.rows)


def places(day):
    """Slots before omission."""
    return list(range(day.slots)) + [OUT]


def placements(day, length):
    """All starts of this length in dictionary order; product goes the last one fastest."""
    return itertools.product(places(day), repeat=length)


def is_node(day, start):
    """No mandatory choice omitted and no slot's sum of minimums over the headcount."""
    sums = {}
    for choice, place in enumerate(start):
        if place == OUT:
            if not day.optional[choice]:
                return False
        else:
            sums[place] = sums.get(place, 0) + day.mins[choice]
    return all(total <= day.choosers for total in sums.values())


def brute(day):
    """All plans that pass, and the number of nodes, by looking at every placement."""
    choices = len(day.mins)
    plans = [plan for plan in placements(day, choices) if passes(day, plan)]
    nodes = sum(is_node(day, start) for n in range(choices + 1) for start in placements(day, n))
    return plans, nodes


def walk(day):
    """The same by going on from nodes only, for days with too many placements. What isn't
    a node has no node after it, and every plan that passes is one."""
    plans, nodes, choices = [], 0, len(day.mins)
    waiting = [()]
    while waiting:
        start = waiting.pop()
        if not is_node(day, start):
            continue
        nodes += 1
        if len(start) < choices:
            waiting += [start + (place,) for place in reversed(places(day))]
        elif passes(day, start):
            plans.append(start)
    return plans, nodes


# Cases.


def read_day(body):
    choices, slots, choosers, rows = struct.unpack_from(">BBBH", body)
    at = 5
    numbers = struct.unpack_from(f">{rows}Q", body, at)
    at += 8 * rows
    columns = struct.unpack_from(f">{2 * choices}H", body, at)
    at += 4 * choices
    flags = body[at: at + choices]
    assert len(body) == at + choices
    return Day(slots, choosers, numbers, columns[:choices], columns[choices:], flags)


def answer(body):
    """Total, nodes and all plans."""
    day = read_day(body)
    few = (day.slots + 1) ** len(day.mins) <= 5_000
    plans, nodes = brute(day) if few else walk(day)
    if few:
        assert walk(day) == (plans, nodes)
    return struct.pack(">QQ", len(plans), nodes) + b"".join(map(bytes, plans))


# Day files.


def read_day_file(content):
    """A good file; what a bad one gets is not told here."""
    length, version, choices, slots, choosers, levels, rows = struct.unpack_from(">IBBBBBH", content)
    assert version == 1 and length + 4 == len(content), "not a good day file"
    at = 11
    data = [struct.unpack_from(">HHB", content, at + 5 * choice) for choice in range(choices)]
    at += 5 * choices + 2 * levels + 2 * choosers * choices
    given = [struct.unpack_from(">BBHh", content, at + 6 * i) for i in range(rows)]
    assert at + 6 * rows == len(content), "not a good day file"
    return choices, slots, choosers, data, given


class Unsettled(Exception):
    """The day has more nodes than the budget: whether turns run out isn't settled."""


def head(total, first, room):
    """The line after `result listed`: the total where no plan comes after the page or no plan was asked for, else the plans met."""
    return f"total {total}" if room == 0 or total <= first + room else f"total at least {first + room + 1}"


def text(content, first, room, budget):
    """What `plans` prints."""
    import scope
    from cases.common import row

    choices, slots, choosers, data, given = read_day_file(content)
    reduced, clash, before = scope.reduced(choices, [row(*one) for one in given])
    if before > scope.MOST_ROWS:
        return "result refused 6\n"
    if clash:
        return "result clash\n"
    rows = [row(*one) for one in reduced if one[0] <= 6]
    mins, maxs, flags = ([line[i] for line in data] for i in range(3))
    plans, nodes = walk(Day(slots, choosers, rows, mins, maxs, flags))
    if nodes > budget:
        raise Unsettled
    lines = ["result listed", head(len(plans), first, room)]
    for number, plan in list(enumerate(plans))[first: first + room]:
        cells = ["out" if place == OUT else str(place) for place in plan]
        lines.append(" ".join(["plan", str(number)] + cells))
    return "\n".join(lines) + "\n"


# The Rust as judge of this plan check.


def check():
    """Every placement of every committed day, through the driver's plan check."""
    from cases import listing as maker
    from cases.common import record, rows_bytes, u16s
    from replay import records

    asked, expected = tempfile.TemporaryFile(), bytearray()
    for case in records((ROOT / maker.FILE).read_bytes()):
        day = read_day(case[: maker.input_length(case)])
        if (day.slots + 1) ** len(day.mins) > 5_000:
            continue
        head = struct.pack(">BBB", len(day.mins), day.slots, day.choosers)
        head += rows_bytes(day.rows) + u16s(day.mins + day.maxs) + bytes(day.optional)
        for plan in placements(day, len(day.mins)):
            asked.write(record(head + bytes(plan)))
            expected.append(passes(day, plan))
    asked.seek(0)
    driver = str(ROOT / "target" / "oracle" / "driver")
    run = subprocess.run([driver, "plan_check"], stdin=asked, stdout=subprocess.PIPE, check=True)
    differ = sum(case[-1] != mine for case, mine in zip(records(run.stdout), expected))
    print(f"plan check of the listing: {len(expected) - differ} agreed, {differ} differ")
    sys.exit(1 if differ else 0)


def main():
    arguments = sys.argv[1:]
    if arguments == ["--check"]:
        check()
    if not 1 <= len(arguments) <= 4:
        sys.exit(__doc__.strip())
    numbers = [int(word) for word in arguments[1:]]
    first, room, budget = numbers + [0, 100, 2_000_000][len(numbers):]
    try:
        sys.stdout.write(text(Path(arguments[0]).read_bytes(), first, room, budget))
    except Unsettled as why:
        sys.exit(why.__doc__)


if __name__ == "__main__":
    main()
