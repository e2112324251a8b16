#!/usr/bin/env python3
"""Makes day files as sites have them, from a seed.

usage: oracle/real_days.py OUT_DIR COUNT SEED [--small | --middle] [--limits]

Writes COUNT days of 10 to 40 stations and 3 to 10 blocks into OUT_DIR: two to four optional
stations, pairs that share a room, follow-ups, late teachers, limits on blocks; tight days
(no plan, or few) as well as loose ones. Half of them are made around a plan, so that tight
ones often have one. With --small at most 7 stations and 4 blocks,
a third of them wild: any rows, any sums. With --middle 8 to 18 stations and 3 to 6 blocks,
whose plans clasp can often list.

With --limits days of a second family, in each of these sizes, none of them wild: one to three
limits on the number of stations in a block, of any op, near the mean number or one or two off
it, so that some bind and some contradict each other; few blocks are named by a row, stations
are of a few close sizes, two to seven of them are optional (of small days up to three). Without
--small or --middle half of the days are a hospital's (10 to 30 stations, 3 to 8 blocks), half
scaled (20 to 40 stations, 6 to 10 blocks).

For each day NAME, which tells its number, C, S and H:
NAME.day    the day file
NAME.txt    what the listing is given, as text: a line `C S H R`, a line `min max optional`
            a station, a line `kind left right extra` a row; the rows are those of kinds 1
            to 6 after the reduction
NAME.plans  (--small) the total by brute force, then a line a plan of the first 200, in
            dictionary order, 255 for omitted
"""

import sys
from pathlib import Path

HERE = Path(__file__).resolve().parent

sys.path[:0] = [str(HERE), str(HERE.parent / "scripts")]
sys.dont_write_bytecode = True
import day_bytes  # noqa: E402
import listing  # noqa: E402
import scope  # noqa: E402
from cases.common import Draws, parts, possible_kinds, random_row, row  # noqa: E402

IN_SLOT, NOT_IN_SLOT, SAME_SLOT, NOT_SAME_SLOT, OFFSET, LIMIT = 1, 2, 3, 4, 5, 6
HOLDS, HOLDS_NOT, SAME_BLOCKS = 7, 8, 9
SAME_CHOOSERS, CHOOSER_IN, CHOOSER_NOT_IN, HAS_CHOOSER = 10, 11, 12, 14
EQ, GT, GEQ, NEQ, LEQ, LT = 1, 2, 3, -1, -2, -3

MOST_GIVEN = 128
PLANS_KEPT = 200
# A field of a packed sum: its top bit tells whether the sum keeps its bound.
FIELD = 24
TOP = 1 << (FIELD - 1)


class Made:
    """A day as it is made: stations as [min, max, optional], rows as (kind, left, right, extra)."""

    def __init__(self, slots, choosers, stations, rows):
        self.slots, self.choosers, self.stations, self.rows = slots, choosers, stations, rows


def day_file(draws, made):
    """The day's file, with levels and preferences drawn."""
    levels = draws.pick([[0, 1, 2], [0, 2, 5], [0, 1, 3, 7], [0, 10]])
    preferences = [draws.pick(levels) for _ in range(made.choosers * len(made.stations))]
    return day_bytes.file_of(made.slots, made.choosers, made.stations, levels, preferences, made.rows)


def listed_day(content):
    """What the listing is given of a good day file: the day with its reduced rows of kinds 1 to 6."""
    choices, slots, choosers, stations, given = listing.read_day_file(content)
    reduced, clash, before = scope.reduced(choices, [row(*one) for one in given])
    assert before <= scope.MOST_ROWS and not clash, "no day of the listing"
    rows = [row(*one) for one in reduced if one[0] <= LIMIT]
    mins, maxs, flags = ([station[i] for station in stations] for i in range(3))
    return listing.Day(slots, choosers, rows, mins, maxs, flags)


def day_text(day):
    """The plain text of what the listing is given."""
    lines = [(len(day.mins), day.slots, day.choosers, len(day.rows))]
    lines += list(zip(day.mins, day.maxs, day.optional))
    lines += [parts(number) for number in day.rows]
    return "".join(" ".join(map(str, line)) + "\n" for line in lines)


# Days of real sizes.


def counts(draws, size):
    """C, S and H: from two to five stations a block, small days also fewer or more."""
    fewest, most = (1.4, 7) if size == "small" else (2, 5)
    while True:
        if size == "small":
            choices, slots = draws.pick([draws.between(2, 7), 6, 7]), draws.pick([1, 2, 2, 3, 3, 4])
            choosers = draws.pick([draws.between(1, 6), draws.between(4, 24)])
        elif size == "middle":
            choices, slots, choosers = draws.between(8, 18), draws.between(3, 6), draws.between(8, 40)
        else:
            choices, slots, choosers = draws.between(10, 40), draws.between(3, 10), draws.between(12, 60)
        if fewest * slots <= choices <= most * slots:
            return choices, slots, choosers


def hidden_plan(draws, choices, slots):
    """A placement with about as many stations in each block; made days may be built around it."""
    return draws.shuffled([choice % slots for choice in range(choices)])


def tightness(draws, size):
    """The sum of all maximums over what the blocks need together; small days get more, or they'd have no plan."""
    if size == "small" and draws.chance(0.6):
        return draws.between(1300, 3000) / 1000
    return (draws.between(980, 1050) if draws.chance(0.2) else draws.between(1050, 1600)) / 1000


def split(draws, total, pieces):
    """The total in uneven pieces of at least 1, where it is enough."""
    weights = [draws.between(3, 9) for _ in range(pieces)]
    sizes = [max(1, total * weight // sum(weights)) for weight in weights]
    while sum(sizes) < total:
        sizes[draws.below(pieces)] += 1
    return sizes


def maximums_around(draws, plan, slots, choosers, ratio):
    """Maximums that fill each block of the plan, as tightly as asked."""
    maxs = [0] * len(plan)
    for slot in range(slots):
        inside = [choice for choice, place in enumerate(plan) if place == slot]
        room = max(choosers, int(choosers * ratio + draws.below(3)))
        for choice, size in zip(inside, split(draws, room, len(inside))):
            maxs[choice] = size
    return maxs


def maximums_by_size(draws, choices, slots, choosers, ratio):
    """Maximums of a few sizes of stations, as many people in all as asked."""
    mean = ratio * slots * choosers / choices
    sizes = [draws.between(60, 150) / 100 for _ in range(draws.between(1, 4))]
    drawn = [draws.pick(sizes) for _ in range(choices)]
    scale = mean * choices / sum(drawn)
    maxs = [max(1, int(size * scale)) for size in drawn]
    if len(sizes) > 1:
        while sum(maxs) < int(ratio * slots * choosers):
            maxs[draws.below(choices)] += 1
    return maxs


def minimums(draws, maxs, need):
    """Small ones, or as in the examples a share of the maximum, up to nine tenths of the need in all."""
    if draws.chance(0.6):
        most = draws.between(0, 4)
        return [min(size, draws.between(0, most)) for size in maxs]
    share = min(1, need * draws.between(30, 90) / 100 / sum(maxs))
    return [int(size * share) for size in maxs]


def rooms(draws, choices):
    """Pairs and triples that share a room."""
    for _ in range(draws.between(1, max(1, choices // 6))):
        members = draws.shuffled(range(choices))[:draws.pick([2, 2, 2, 3, 4])]
        yield [(NOT_SAME_SLOT, one, other, 0) for i, one in enumerate(members) for other in members[i + 1:]]


def follow_ups(draws, choices, slots):
    """Debriefs that come one block or two after their session."""
    for _ in range(draws.between(0, max(1, choices // 9))):
        one, other = draws.shuffled(range(choices))[:2]
        yield [(OFFSET, one, other, draws.pick([1, 1, 1, 2, min(3, slots - 1)]))]


def together(draws, choices):
    """Stations that run in the same block."""
    for _ in range(draws.pick([0, 0, 1, 1, 2])):
        one, other = draws.shuffled(range(choices))[:2]
        yield [(SAME_SLOT, one, other, 0)]


def late_teachers(draws, choices, slots):
    """Not in the first blocks, or not in the last ones."""
    for _ in range(draws.between(0, max(1, choices // 6))):
        choice, missed = draws.below(choices), draws.between(1, max(1, slots // 3))
        away = range(missed) if draws.chance(0.7) else range(slots - missed, slots)
        if draws.chance(0.8):
            yield [(NOT_IN_SLOT, choice, slot, 0) for slot in away]
        else:
            yield [(HOLDS_NOT, slot, choice, 0) for slot in away]


def fixed(draws, choices, slots, plan):
    """Stations tied to a block; on a few days most of them."""
    many = choices * 2 // 3 if draws.chance(0.08) else draws.between(0, 3)
    for choice in draws.shuffled(range(choices))[:many]:
        slot = plan[choice] if draws.chance(0.8) else draws.below(slots)
        yield [(IN_SLOT, choice, slot, 0) if draws.chance(0.8) else (HOLDS, slot, choice, 0)]


def limits(draws, choices, slots):
    """How many stations may or must run in a block."""
    even, above = choices // slots, -(-choices // slots)
    for slot in draws.shuffled(range(slots))[:draws.between(0, 3)]:
        op = draws.pick([LEQ, LEQ, LEQ, GEQ, GEQ, EQ, LT, GT, NEQ])
        limit = {LEQ: above + draws.below(2), LT: above + 1 + draws.below(2), GEQ: max(0, even - draws.below(2)),
                 GT: max(0, even - 1 - draws.below(2)), EQ: draws.pick([even, above]), NEQ: draws.pick([even, above])}[op]
        yield [(LIMIT, slot, limit, op)]


def of_people(draws, choices, choosers):
    """Rows about people; the reduction keeps some stations apart for them."""
    for _ in range(draws.pick([0, 0, 1])):
        one, other = draws.shuffled(range(choices))[:2]
        yield [(SAME_CHOOSERS, one, other, 0)]
    for _ in range(draws.pick([0, 0, 1, 2])):
        chooser = draws.below(choosers)
        members = draws.shuffled(range(choices))[:draws.between(1, 3)]
        yield [(CHOOSER_IN, chooser, choice, 0) if draws.chance(0.7) else (HAS_CHOOSER, choice, chooser, 0)
               for choice in members]
    for _ in range(draws.pick([0, 0, 1])):
        yield [(CHOOSER_NOT_IN, draws.below(choosers), draws.below(choices), 0)]


def wishes(draws, choices, slots, choosers, plan):
    """All that a site may ask, each a few rows that go together."""
    yield from rooms(draws, choices)
    yield from follow_ups(draws, choices, slots)
    yield from together(draws, choices)
    yield from late_teachers(draws, choices, slots)
    yield from fixed(draws, choices, slots, plan)
    yield from limits(draws, choices, slots)
    yield from of_people(draws, choices, choosers)


def kept_by(plan, rows):
    """Whether the plan keeps these rows, those about people by what the reduction makes of them."""
    reduced, clash, _ = scope.reduced(len(plan), [row(*one) for one in rows])
    return not clash and all(listing.row_kept(row(*one), plan) for one in reduced if one[0] <= LIMIT)


def real_day(draws, size):
    """A day as sites have them, around a hidden plan or free."""
    choices, slots, choosers = counts(draws, size)
    plan, ratio = hidden_plan(draws, choices, slots), tightness(draws, size)
    style = draws.pick(["around", "around", "around and more", "free", "free", "sizes around"])
    if style.startswith("around"):
        maxs = maximums_around(draws, plan, slots, choosers, ratio)
    else:
        maxs = maximums_by_size(draws, choices, slots, choosers, ratio)
    shuffled = draws.shuffled(range(choices))
    optional = shuffled[:draws.below(4) if size == "small" else draws.pick([0, 2, 2, 3, 3, 4, 4])]
    stations = [[least, most, int(choice in optional)]
                for choice, (least, most) in enumerate(zip(minimums(draws, maxs, slots * choosers), maxs))]
    rows = []
    for wish in wishes(draws, choices, slots, choosers, plan):
        more = style == "around and more" and draws.chance(0.15)
        if style == "free" or more or kept_by(plan, rows + wish):
            rows += wish
    return Made(slots, choosers, stations, draws.shuffled(rows)[:MOST_GIVEN])


# Days with limits on blocks.


def limited_bounds(draws, size):
    """The bounds of C, S and H; half of the days of real size are a hospital's, half scaled."""
    if size == "small":
        return (4, 7), (2, 4), (10, 24)
    if size == "middle":
        return (8, 18), (3, 6), (10, 40)
    return draws.pick([((10, 30), (3, 8), (10, 60)), ((20, 40), (6, 10), (10, 60))])


def limited_counts(draws, size):
    """C, S and H within their bounds, two to five stations a block."""
    bounds = limited_bounds(draws, size)
    while True:
        choices, slots, choosers = (draws.between(*pair) for pair in bounds)
        # Small days may be one station short of two a block, or none would have 4 blocks.
        if 2 * slots <= choices + (size == "small") and choices <= 5 * slots:
            return choices, slots, choosers


def close_maximums(draws, choices, need):
    """Maximums of a few close sizes, the biggest most often, together 1.1 to 1.8 times what the blocks need."""
    while True:
        sizes = [draws.between(85, 130) for _ in range(draws.between(2, 5))]
        drawn = [draws.pick(sizes + [max(sizes)]) for _ in range(choices)]
        scale = need * draws.between(110, 180) / 100 / sum(drawn)
        maxs = [round(size * scale) for size in drawn]
        if 110 * need <= 100 * sum(maxs) <= 180 * need:
            return maxs


def few_minimums(draws, maxs, need):
    """Minimums of a few values, 0 among them, together 0.15 to 0.35 of what the blocks need."""
    while True:
        values = [0, 1, 2, draws.between(4, 6)]
        drawn = [draws.pick(values) for _ in maxs]
        scale = need * draws.between(15, 35) / 100 / max(1, sum(drawn))
        mins = [min(size, round(value * scale)) for size, value in zip(maxs, drawn)]
        if 15 * need <= 100 * sum(mins) <= 35 * need:
            return mins


def filled_plan(draws, maxs, slots, choosers):
    """A placement that fills one block after the other, the biggest stations first, and has the rest anywhere."""
    plan, lacks = [0] * len(maxs), [choosers] * slots
    for choice in sorted(range(len(maxs)), key=lambda one: -maxs[one]):
        open_slots = [slot for slot in range(slots) if lacks[slot] > 0]
        plan[choice] = open_slots[0] if open_slots else draws.below(slots)
        lacks[plan[choice]] -= maxs[choice]
    names = draws.shuffled(range(slots))
    return [names[slot] for slot in plan]


def near_limit(draws, choices, slots, slot):
    """A limit of any op at the mean number of stations in a block, or one or two off it."""
    mean = draws.pick([choices // slots, -(-choices // slots)])
    limit = max(0, mean + draws.pick([-2, -1, -1, 0, 0, 0, 0, 0, 1, 1, 1, 2]))
    return LIMIT, slot, limit, draws.pick([EQ, NEQ, GT, LT, GEQ, LEQ])


def kept_limit(draws, choices, slots, slot, plan):
    """A limit near the mean; where a plan is given, one that it keeps."""
    while True:
        limit = near_limit(draws, choices, slots, slot)
        if plan is None or kept_by(plan, [limit]):
            return limit


def few_wishes(draws, choices, named):
    """A few rows of the kinds 1 to 5; those that name a block name one of these."""
    yield from [pair for room in rooms(draws, choices) for pair in room][:9]
    for _ in range(draws.pick([0, 0, 1])):
        yield (SAME_SLOT, *draws.shuffled(range(choices))[:2], 0)
    for _ in range(draws.pick([0, 0, 1, 1, 2])):
        yield (OFFSET, *draws.shuffled(range(choices))[:2], draws.pick([1, 1, 2]))
    for _ in range(draws.pick([0, 0, 1, 1, 2, 3])):
        yield (IN_SLOT, draws.below(choices), draws.pick(named), 0)
    for _ in range(draws.pick([0, 0, 1, 2, 3, draws.between(4, 7)])):
        yield (NOT_IN_SLOT, draws.below(choices), draws.pick(named), 0)


def limited_rows(draws, choices, slots, plan):
    """One to three limits on blocks and a few other rows; where a plan is given, such as it keeps."""
    named = [draws.below(slots) for _ in range(draws.between(1, 3))]
    rows = [kept_limit(draws, choices, slots, slot, plan) for slot in named]
    # The other rows name one block more at most, so that most blocks stay interchangeable.
    wished = few_wishes(draws, choices, named + [draws.below(slots)])
    return rows + [wish for wish in wished if plan is None or kept_by(plan, [wish])]


def limited_day(draws, size):
    """A day with limits on blocks; a third of them, of smaller ones two thirds, has rows that a drawn plan keeps."""
    choices, slots, choosers = limited_counts(draws, size)
    maxs = close_maximums(draws, choices, slots * choosers)
    mins = few_minimums(draws, maxs, slots * choosers)
    many = draws.below(4) if size == "small" else draws.between(2, min(7, choices // 3))
    optional = draws.shuffled(range(choices))[:many]
    stations = [[least, most, int(choice in optional)] for choice, (least, most) in enumerate(zip(mins, maxs))]
    around = draws.chance(0.33 if size == "real" else 0.67)
    plan = filled_plan(draws, maxs, slots, choosers) if around else None
    return Made(slots, choosers, stations, draws.shuffled(limited_rows(draws, choices, slots, plan)))


# Wild small days.


def wild_day(draws):
    """Any few rows of any kind that make no clash, any sums, nothing that has to make sense."""
    choices, slots = draws.pick([draws.between(0, 6), 4, 5, 6]), draws.pick([draws.between(0, 4), 1, 2, 3])
    choosers = draws.pick([0, 1, 2, draws.between(0, 9), draws.between(0, 200)])
    most = draws.pick([choosers, choosers + 2, 2 * choosers + 1])
    stations = []
    for _ in range(choices):
        least, size = draws.below(most // 3 + 1), draws.between(most // 3, most)
        stations.append([least if draws.chance(0.9) else size + 1, size if draws.chance(0.9) else 65535, draws.below(2)])
    kinds = [kind for kind in possible_kinds(range(1, 16), choices, slots, choosers) if kind != SAME_BLOCKS]
    rows = []
    for _ in range(draws.pick([0, 1, 1, 2, 3, 5]) if kinds else 0):
        rows.append(parts(random_row(draws, draws.pick(kinds), choices, slots, choosers)))
    if slots and draws.chance(0.1):
        rows.append((SAME_BLOCKS, 0, 0, 0))
    return Made(slots, choosers, stations, rows)


# Brute force.


def place_weights(day, choice):
    """What each place of a choice adds to the packed sums; two fields a slot, minimums and maximums."""
    weights = []
    for slot in range(day.slots):
        weights.append((day.maxs[choice] << FIELD) - day.mins[choice] << 2 * FIELD * slot)
    return weights + ([0] if day.optional[choice] else [])


def brute(day):
    """All plans in dictionary order: every placement's sums, and the rows of those whose sums fit."""
    least = sum((TOP + day.choosers) << 2 * FIELD * slot for slot in range(day.slots))
    most = sum((TOP - day.choosers) << (2 * slot + 1) * FIELD for slot in range(day.slots))
    mask = sum(TOP << FIELD * field for field in range(2 * day.slots))
    sums, places = [least + most], []
    for choice in range(len(day.mins)):
        weights = place_weights(day, choice)
        sums = [total + weight for total in sums for weight in weights]
        places.append(list(range(day.slots)) + ([listing.OUT] if day.optional[choice] else []))
    fitting = [index for index, total in enumerate(sums) if total & mask == mask]
    plans = (placement(index, places) for index in fitting)
    return [plan for plan in plans if all(listing.row_kept(number, plan) for number in day.rows)]


def nodes(day):
    """Request 03's nodes: starts with no mandatory choice omitted and no slot's sum of minimums over H."""
    mask = sum(TOP << FIELD * slot for slot in range(day.slots))
    sums = [sum((TOP + day.choosers) << FIELD * slot for slot in range(day.slots))]
    count = 1
    for least, optional in zip(day.mins, day.optional):
        weights = [least << FIELD * slot for slot in range(day.slots)] + [0] * optional
        sums = [rest - weight for rest in sums for weight in weights]
        sums = [rest for rest in sums if rest & mask == mask]
        count += len(sums)
    return count


def placement(index, places):
    """The placement with this number in dictionary order."""
    plan = []
    for allowed in reversed(places):
        index, place = divmod(index, len(allowed))
        plan.append(allowed[place])
    return tuple(reversed(plan))


def plans_text(plans):
    lines = [str(len(plans))] + [" ".join(map(str, plan)) for plan in plans[:PLANS_KEPT]]
    return "\n".join(lines) + "\n"


# Files.


def made_day(draws, size, limited=False):
    """The next day of this size as a day file, of the first family or of the one with limits."""
    if limited:
        return day_file(draws, limited_day(draws, size))
    wild = size == "small" and draws.chance(0.33)
    return day_file(draws, wild_day(draws) if wild else real_day(draws, size))


def write_day(folder, number, content, size):
    """The files of a day; the path of its day file."""
    day = listed_day(content)
    path = folder / f"{number:05}-{len(day.mins)}x{day.slots}-{day.choosers}.day"
    path.write_bytes(content)
    path.with_suffix(".txt").write_text(day_text(day))
    if size == "small":
        path.with_suffix(".plans").write_text(plans_text(brute(day)))
    return path


def main():
    arguments = [word for word in sys.argv[1:] if not word.startswith("--")]
    options = [word[2:] for word in sys.argv[1:] if word.startswith("--")]
    limited = "limits" in options
    sizes = [word for word in options if word != "limits"] or ["real"]
    if len(arguments) != 3 or sizes not in (["small"], ["middle"], ["real"]):
        sys.exit(__doc__.strip())
    folder, draws = Path(arguments[0]), Draws(int(arguments[2]))
    folder.mkdir(parents=True, exist_ok=True)
    for number in range(int(arguments[1])):
        write_day(folder, number, made_day(draws, sizes[0], limited), sizes[0])


if __name__ == "__main__":
    main()
