"""The scope's rules, written after its text; README.md names the few places where the
text points to the Rust or leaves something open, and the Rust's reading is taken.

`oracle/compare` holds these against the Rust's answers: where they part, the
scope and the Rust part. Nothing here makes an answer of a case file.
"""

from cases.common import OMITTED, parts

MOST_ROWS = 1024
MOST_SETS = 1024
MOST_MAP_NUMBERS = 10240


# Module 1: union-find.


def root(parents, element):
    return element if parents[element] is None else root(parents, parents[element])


def join(parents, heights, left, right):
    """Joins in place; the root that both then have."""
    low, high = root(parents, left), root(parents, right)
    if low == high:
        return high
    if heights[low] > heights[high]:
        low, high = high, low
    parents[low] = high
    heights[high] = max(heights[high], heights[low] + 1)
    return high


def groups(parents):
    """Groups by rising root, members rising."""
    members = {}
    for element in range(len(parents)):
        members.setdefault(root(parents, element), []).append(element)
    return [members[key] for key in sorted(members)]


# Module 2: reduction.

TURNED = {7: 1, 8: 2, 14: 11, 15: 12}


def turned_rows(given):
    """The given rows turned, without kind 9, and the clash flag."""
    rows, clash = [], False
    for one in given:
        kind, left, right, extra = parts(one)
        if kind == 9:
            clash = clash or left != right
        elif kind in TURNED:
            rows.append((TURNED[kind], right, left, extra))
        else:
            rows.append((kind, left, right, extra))
    return rows, clash


def pairs(members):
    for i, left in enumerate(members):
        for right in members[i + 1:]:
            yield (4, left, right, 0)


def reduced(choices, given):
    """Rows in order, the clash flag, and the count before equals are dropped."""
    rows, clash = turned_rows(given)
    parents, heights = [None] * choices, [0] * choices
    for kind, left, right, _ in rows:
        if kind == 10:
            join(parents, heights, left, right)
    same_choosers = groups(parents)
    added = [pair for group in same_choosers for pair in pairs(group)]
    for chooser in sorted({left for kind, left, _, _ in rows if kind == 11}):
        listed = [right for kind, left, right, _ in rows if (kind, left) == (11, chooser)]
        added += pairs(listed)
    for kind, left, right, _ in rows:
        if kind in (11, 12):
            group = next(group for group in same_choosers if right in group)
            added += [(kind, left, other, 0) for other in group if other != right]
    return sorted(set(rows + added)), clash, len(rows) + len(added)


# Module 3: plan check.


def compared(count, limit, op):
    return {1: count == limit, 2: count > limit, 3: count >= limit,
            -1: count != limit, -2: count <= limit, -3: count < limit}[op]


def keeps_row(plan, one):
    kind, left, right, extra = parts(one)
    if kind == 1:
        return plan[left] == right
    if kind == 2:
        return plan[left] != right
    if kind == 3:
        return plan[left] == plan[right]
    if kind == 4:
        return plan[left] == OMITTED or plan[left] != plan[right]
    if kind == 5:
        omitted = [plan[left], plan[right]].count(OMITTED)
        return omitted == 2 or (omitted == 0 and plan[right] - plan[left] == extra)
    return compared(plan.count(left), right, extra)


def is_feasible(slots, choosers, rows, mins, maxs, optional, plan):
    if any(place == OMITTED and not flag for place, flag in zip(plan, optional)):
        return False
    for slot in range(slots):
        members = [choice for choice, place in enumerate(plan) if place == slot]
        least = sum(mins[choice] for choice in members)
        most = sum(maxs[choice] for choice in members)
        if not least <= choosers <= most:
            return False
    return all(keeps_row(plan, one) for one in rows)


# Module 4: critical sets. A set is its level and its members as a mask.


def covers(kept, one):
    """Whether the kept set covers this one: level not higher, and a superset."""
    return one[0] <= kept[0] and one[1] & kept[1] == kept[1]


def kept_sets(slots, mins, levels, preferences):
    room = len(preferences) * (slots - 1) if slots else 0
    kept = []
    for level in reversed(levels):
        for row_of in preferences:
            members = [choice for choice, wish in enumerate(row_of) if wish <= level]
            one = (level, sum(1 << choice for choice in members))
            if sum(mins[choice] for choice in members) > room:
                continue
            if not any(covers(other, one) for other in kept):
                kept.append(one)
    return kept


def simplified(kept):
    kept, index = list(kept), 0
    while index < len(kept):
        here = kept[index]
        kept = [one for one in kept if one == here or not covers(here, one)]
        index += 1
    return kept


def size(one):
    return bin(one[1]).count("1")


def bound(slots, levels, kept):
    lowest = levels[-1]
    for level in levels:
        sizes = [size(one) for one in kept if one[0] >= level]
        if sizes and min(sizes) >= slots:
            lowest = min(lowest, level)
    return lowest


def level_list(levels, kept, limit):
    """Inclusion-minimal sets of that level or above, by size. Of one size, sets of a
    higher level come first, and of one level in the order they were kept."""
    if limit not in levels:
        return []
    above = [one for one in kept if one[0] >= limit]
    minimal = []
    for one in above:
        smaller = any(o[1] != one[1] and o[1] & one[1] == o[1] for o in above)
        first = all(o[1] != one[1] for o in minimal)
        if not smaller and first:
            minimal.append(one)
    return sorted(minimal, key=lambda one: (size(one), -one[0]))


def analysis(slots, mins, levels, preferences, asked):
    """Sets kept before simplifying, the sets, and the bound."""
    if asked == 0:
        return 0, [], 0
    kept = kept_sets(slots, mins, levels, preferences)
    before = len(kept)
    if before <= MOST_SETS:
        kept = simplified(kept) if asked == 2 else kept
    return before, kept, bound(slots, levels, kept)


# Module 5: search.


def concerns(one, choice):
    kind, left, right, _ = parts(one)
    return kind == 6 or left == choice or (kind in (3, 4, 5) and right == choice)


def own_map(choices, rows):
    return [[i for i, one in enumerate(rows) if concerns(one, choice)] for choice in range(choices)]


class OutOfTurns(Exception):
    pass


class PassOver(Exception):
    pass


class Search:
    """One call. `entries` gives each choice its row numbers, or None for the whole list."""

    def __init__(self, day, entries, full, orders, draws, budgets):
        self.slots, self.choosers, self.rows, self.mins, self.maxs, self.optional = day
        whole = list(range(len(self.rows)))
        self.lookup = [whole if entry is None else entry for entry in entries]
        self.parted = [[parts(self.rows[i]) for i in numbers] for numbers in self.lookup]
        self.limits = [p for p in map(parts, self.rows) if p[0] == 6]
        self.full = full
        self.orders, self.draws = orders, draws
        self.pass_budget, self.total_budget = budgets
        self.turns = self.passes = self.limit = self.draws_used = 0

    def run(self, levels, start, lists):
        """Passes from the start up. Outcome: 0 none, 1 found with the plan, 2 out of turns."""
        self.limit = start
        while True:
            self.passes += 1
            is_last = self.limit == levels[-1]
            try:
                plan = self.one_pass(lists(self.limit), is_last)
            except OutOfTurns:
                return 2, None
            except PassOver:
                plan = None
            if plan is not None:
                return 1, plan
            if is_last:
                return 0, None
            self.limit = min(level for level in levels if level > self.limit)

    def turn(self, is_last):
        if self.turns == self.total_budget:
            raise OutOfTurns
        if not is_last and self.pass_turns == self.pass_budget:
            raise PassOver
        self.turns += 1
        self.pass_turns += 1

    def one_pass(self, sets, is_last):
        choices = len(self.mins)
        order = self.orders[(self.passes - 1) % len(self.orders)] if self.orders else range(choices)
        self.order = sorted(order, key=lambda choice: -len(self.lookup[choice]))
        self.pass_turns = 0
        self.placed = {}
        buckets = []
        while True:
            depth = len(self.placed)
            if depth == choices:
                plan = [self.placed[choice] for choice in range(choices)]
                if self.passes_check(plan):
                    return plan if self.full or self.slots else None
                if not self.full or choices == 0:
                    return None
                self.turn(is_last)
                self.step_back()
                continue
            self.turn(is_last)
            if len(buckets) == depth:
                buckets.append(self.bucket(depth, sets))
            if buckets[depth]:
                self.placed[self.order[depth]] = buckets[depth].pop(0)
            elif depth == 0:
                return None
            else:
                buckets.pop()
                self.step_back()

    def step_back(self):
        del self.placed[self.order[len(self.placed) - 1]]

    def passes_check(self, plan):
        day = (self.slots, self.choosers, self.rows, self.mins, self.maxs, self.optional)
        return is_feasible(*day, plan)

    def total(self, column, slot):
        return sum(column[c] for c, place in self.placed.items() if place == slot)

    def bucket(self, depth, sets):
        choice = self.order[depth]
        remaining = sum(self.maxs[c] for c in self.order[depth:])
        maxs = [self.total(self.maxs, slot) for slot in range(self.slots)]
        if any(most + remaining < self.choosers for most in maxs):
            return []
        if any(self.uncoverable(one) for one in sets):
            return []
        without = remaining - self.maxs[choice]
        critical = [s for s in range(self.slots) if maxs[s] + without < self.choosers]
        if len(critical) > 1:
            return []
        if len(critical) == 1:
            return critical if self.rows_allow(choice, critical[0]) else []
        open_slots = [
            slot for slot in range(self.slots)
            if self.total(self.mins, slot) + self.mins[choice] <= self.choosers
            and self.rows_allow(choice, slot)
        ]
        open_slots.sort(key=lambda slot: (maxs[slot], slot))
        if self.optional[choice] and self.rows_allow(choice, OMITTED):
            draw = self.draws[self.draws_used % len(self.draws)] if self.draws else 0
            self.draws_used += 1
            open_slots.insert(draw % (len(open_slots) + 1), OMITTED)
        return open_slots

    def uncoverable(self, one):
        members = [c for c in range(len(self.mins)) if one[1] >> c & 1]
        covered = {self.placed[c] for c in members if c in self.placed} - {OMITTED}
        undecided = sum(1 for c in members if c not in self.placed)
        return len(covered) + undecided < self.slots

    def rows_allow(self, choice, place):
        if not all(self.row_allows(one, choice, place) for one in self.parted[choice]):
            return False
        if len(self.placed) + 1 < len(self.mins):
            return True
        places = list(self.placed.values()) + [place]
        return all(compared(places.count(left), limit, op) for _, left, limit, op in self.limits)

    def row_allows(self, one, choice, place):
        kind, left, right, extra = one
        if kind == 1:
            return place == right
        if kind == 2:
            return place != right
        if kind == 6:
            if place != left or extra not in (1, -2, -3):
                return True
            count = sum(1 for other in self.placed.values() if other == left)
            return count + 1 <= (right - 1 if extra == -3 else right)
        other = right if left == choice else left
        if other not in self.placed:
            return True
        there = self.placed[other]
        if kind == 3:
            return place == there
        if kind == 4:
            return place == OMITTED or place != there
        if OMITTED in (place, there):
            return place == there
        # This choice stands for the end that the other one isn't.
        return (there - place if left == choice else place - there) == extra


# Module 6: roster check.


def keeps_assignment_row(plan, roster, one):
    kind, left, right, _ = parts(one)
    if kind == 10:
        def seated(choice):
            return [h for h, cells in enumerate(roster) for cell in cells if cell == choice]

        return OMITTED in (plan[left], plan[right]) or seated(left) == seated(right)
    if kind == 11:
        return plan[right] == OMITTED or right in roster[left]
    if kind == 12:
        return right not in roster[left]
    return sorted(roster[left]) == sorted(roster[right])


def roster_passes(rows, assignment_rows, mins, maxs, plan, roster):
    for cells in roster:
        if len({plan[cell] for cell in cells}) < len(cells):
            return False
    seats = [cell for cells in roster for cell in cells]
    for choice, place in enumerate(plan):
        if place != OMITTED and not mins[choice] <= seats.count(choice) <= maxs[choice]:
            return False
    return all(keeps_row(plan, one) for one in rows) and all(
        keeps_assignment_row(plan, roster, one) for one in assignment_rows
    )


def highest_preference(preferences, roster):
    return max((preferences[h][cell] for h, cells in enumerate(roster) for cell in cells), default=0)
