"""Cases of the search: a day, what is lent to the call, and the two budgets."""

import itertools
import struct

from cases import critical_sets, plan_check
from cases.common import parts, random_row, row, rows_bytes, u16s
from cases.preferences import preference_bytes, random_levels, random_preferences

SEED = 1_006
FILE = "crates/replay_search/data/cases"
OFF, ON, SIMPLIFIED = 0, 1, 2
AS_THE_RUST, FULL = 0, 1
NO_MAP, OWN_MAP, LENT_MAP = 0, 1, 2
UNBOUNDED = 2**64 - 1


class Call:
    """A day and what is lent to one call; each part can be changed before it is written."""

    def __init__(self, slots, choosers, mins, maxs, optional):
        self.slots = slots
        self.mins, self.maxs, self.optional = list(mins), list(maxs), list(optional)
        self.rows = []
        self.levels = [0]
        self.preferences = [[0] * len(self.mins) for _ in range(choosers)]
        self.analysis = OFF
        self.mode = AS_THE_RUST
        self.map = OWN_MAP
        self.entries, self.numbers = [], []
        self.orders, self.draws = [], []
        self.start_at_last = 0
        self.pass_budget = self.total_budget = 100_000

    def but(self, **changes):
        """This call with some parts changed."""
        copy = Call(self.slots, 0, [], [], [])
        copy.__dict__.update(self.__dict__)
        copy.__dict__.update(changes)
        return copy

    def map_bytes(self):
        if self.map != LENT_MAP:
            return bytes([self.map])
        entries = b"".join(struct.pack(">BHH", *entry) for entry in self.entries)
        return bytes([self.map]) + entries + u16s([len(self.numbers)]) + u16s(self.numbers)

    def body(self):
        choices, choosers = len(self.mins), len(self.preferences)
        assert choices <= 64 and self.slots <= 24 and choosers <= 200
        assert len(self.rows) <= 1024 and 1 <= len(self.levels) <= 64
        head = struct.pack(">BBBB", choices, self.slots, choosers, len(self.levels))
        columns = u16s(self.mins) + u16s(self.maxs) + bytes(self.optional)
        columns += preference_bytes(self.levels, self.preferences)
        orders = u16s([len(self.orders)]) + b"".join(bytes(order) for order in self.orders)
        draws = struct.pack(f">H{len(self.draws)}I", len(self.draws), *self.draws)
        budgets = struct.pack(">BQQ", self.start_at_last, self.pass_budget, self.total_budget)
        how = bytes([self.analysis, self.mode]) + self.map_bytes()
        return head + rows_bytes(self.rows) + columns + how + orders + draws + budgets


def examples():
    """K9 and K10 of the scope, and the sample day of its plan program."""
    nine = Call(1, 4, [3, 2], [3, 4], [1, 0]).but(draws=[1])
    sample = Call(2, 1, [0, 0], [1, 1], [0, 0])
    for mode in [AS_THE_RUST, FULL]:
        yield nine.but(mode=mode).body()
        yield sample.but(mode=mode, analysis=SIMPLIFIED, total_budget=1_000_000).body()
        for choosers in [0, 1]:
            yield Call(1, choosers, [], [], []).but(mode=mode).body()


def one_slot_analysis():
    """Analysis is as asked for every S; the smallest day where the Rust's preparation,
    which switches it off for S <= 1, would begin at another limit."""
    for slots, analysis in itertools.product([0, 1, 2], [OFF, ON, SIMPLIFIED]):
        yield Call(slots, 0, [0], [0], [0]).but(levels=[1], analysis=analysis).body()


def without_slots_or_choices():
    for mode, choices, choosers in itertools.product([AS_THE_RUST, FULL], range(3), [0, 2]):
        for slots, optional in itertools.product([0, 1, 24], [0, 1]):
            columns = ([0] * choices, [1] * choices, [optional] * choices)
            call = Call(slots, choosers, *columns).but(mode=mode, levels=[1, 4])
            yield call.but(preferences=[[4] * choices] * choosers).body()


def budgets_around_the_need():
    """One day, every pass and total budget around what its passes need."""
    day = Call(2, 2, [2, 2, 0], [2, 2, 1], [0, 0, 1])
    day = day.but(levels=[1, 2, 3], preferences=[[1, 3, 2], [2, 3, 1]], rows=[row(3, 0, 2), row(2, 2, 1)])
    for mode, analysis in itertools.product([AS_THE_RUST, FULL], [OFF, ON]):
        call = day.but(mode=mode, analysis=analysis)
        for budget in range(12):
            yield call.but(total_budget=budget).body()
            yield call.but(pass_budget=budget).body()
            yield call.but(pass_budget=budget, total_budget=2 * budget + 1).body()
        yield call.but(pass_budget=UNBOUNDED, total_budget=UNBOUNDED).body()


def every_tiny_day():
    """Two choices, one or two slots: every flag, a few sums, a row of each kind."""
    rows = [[], [row(1, 0, 0)], [row(2, 1, 0)], [row(3, 0, 1)], [row(4, 1, 0)], [row(4, 0, 0)],
            [row(5, 1, 0, 1)], [row(6, 0, 1, -3)], [row(6, 0, 2, 3)], [row(6, 0, 1, -1)]]
    sums = [([0, 0], [1, 1]), ([1, 1], [1, 2]), ([2, 0], [1, 1])]
    for slots, flags, columns, given in itertools.product(
        [1, 2], itertools.product([0, 1], repeat=2), sums, rows
    ):
        call = Call(slots, 1, *columns, flags).but(rows=given, draws=[1])
        yield call.but(mode=FULL if sum(flags) % 2 else AS_THE_RUST).body()
        yield call.but(map=NO_MAP).body()


def at_the_counts():
    """64 choices, 24 slots, 200 choosers, 1,024 rows, 64 levels; map and sets at their limits."""
    wide = Call(24, 200, [66] * 64, [100] * 64, [0] * 64).but(total_budget=3_000)
    yield wide.body()
    small = Call(24, 3, [0] * 64, [3] * 64, [1] * 64).but(total_budget=2_000, pass_budget=500)
    levels = list(range(0, 128, 2))
    preferences = [[(7 * c + 3 * h) % 127 for c in range(64)] for h in range(3)]
    busy = small.but(levels=levels, preferences=preferences, draws=[4294967295, 7, 3, 0])
    for analysis in [OFF, ON, SIMPLIFIED]:
        yield busy.but(analysis=analysis, orders=[list(range(63, -1, -1))]).body()
    limits = [row(6, i % 24, 3 + i % 60, -2) for i in range(161)]
    for count in [160, 161]:
        # Every row of kind 6 stands in every entry: 64 * 160 is 10,240.
        yield small.but(rows=limits[:count]).body()
    apart = [row(4, a, b) for a, b in itertools.combinations(range(46), 2)][:1024]
    yield small.but(rows=apart).body()
    yield small.but(rows=apart, mode=FULL, start_at_last=1).body()
    for sets, analysis in [(1024, ON), (1025, ON), (1025, OFF), (1025, SIMPLIFIED)]:
        many = small.but(slots=3, levels=list(range(64)), preferences=critical_sets.chains(sets))
        yield many.but(analysis=analysis).body()


def random_day(draws, choices, slots, choosers):
    """A day that has a plan, often damaged."""
    day = plan_check.random_day(draws, choices, slots, choosers, 5)
    for _ in range(draws.pick([0, 0, 1, 2])):
        plan_check.damage(draws, day)
    call = Call(day.slots, day.choosers, day.mins, day.maxs, day.optional)
    call.rows = day.rows
    return call


def lend_map(draws, call):
    """Entries that overlap and repeat, or an own-like map with some entries missing."""
    choices, rows = len(call.mins), len(call.rows)
    if draws.chance(0.5):
        call.numbers = [draws.below(rows) for _ in range(draws.below(3 * rows + 1))]
        for _ in range(choices):
            first = draws.below(len(call.numbers) + 1)
            length = draws.below(len(call.numbers) - first + 1)
            call.entries.append((int(draws.chance(0.7)), first, length))
        return
    for choice in range(choices):
        own = [i for i, one in enumerate(call.rows) if concerns(one, choice)]
        call.entries.append((int(draws.chance(0.8)), len(call.numbers), len(own)))
        call.numbers += own


def concerns(one, choice):
    kind, left, right, _ = parts(one)
    return kind == 6 or left == choice or (kind in (3, 4, 5) and right == choice)


def lend(draws, call):
    choices = len(call.mins)
    call.analysis = draws.pick([OFF, ON, ON, SIMPLIFIED])
    call.mode = draws.pick([AS_THE_RUST, AS_THE_RUST, FULL])
    call.map = draws.pick([NO_MAP, OWN_MAP, OWN_MAP, LENT_MAP])
    if call.map == LENT_MAP:
        lend_map(draws, call)
    if choices:
        call.orders = [draws.shuffled(range(choices)) for _ in range(draws.below(4))]
    call.draws = [draws.pick([draws.below(8), draws.below(2**32)]) for _ in range(draws.below(5))]
    call.start_at_last = int(draws.chance(0.2))
    call.pass_budget = draws.pick([draws.below(12), draws.below(60), 1_000, UNBOUNDED])
    call.total_budget = draws.pick([draws.below(40), draws.below(200), 20_000, 20_000, 20_000])


def random_tight(draws):
    """Sums with little to spare, so that the walk goes back often before it finds a plan
    or gives up."""
    slots, choices = draws.between(2, 4), draws.between(7, 11)
    choosers = draws.between(8, 30)
    maxs = plan_check.split(draws, slots * choosers + draws.below(6), range(choices))
    mins = [most - min(most, draws.below(5)) for most in maxs]
    optional = [int(draws.chance(0.15)) for _ in range(choices)]
    call = Call(slots, choosers, mins, maxs, optional)
    kinds = [draws.pick([2, 3, 4, 4, 5, 6]) for _ in range(draws.below(4))]
    call.rows = [random_row(draws, kind, choices, slots, choosers) for kind in kinds]
    return call


def finished(draws, call, **fixed):
    """The call with levels, preferences and all that is lent, but for what is fixed."""
    choices, choosers = len(call.mins), len(call.preferences)
    call.levels = random_levels(draws, draws.between(1, 4))
    call.preferences = random_preferences(draws, choices, choosers, call.levels)
    lend(draws, call)
    return call.but(**fixed).body()


def random_call(draws):
    """A day of any of the sizes, or a tight one."""
    if draws.chance(0.06):
        return random_tight(draws)
    return random_day(draws, *random_sizes(draws))


def random_sizes(draws):
    if draws.chance(0.005):
        return draws.between(12, 40), draws.between(3, 12), draws.between(0, 12)
    choices = draws.between(0, 7)
    slots = draws.between(0, min(4, choices + (draws.below(8) == 0)))
    return choices, slots, draws.pick([0, 1, 2, draws.between(0, 9)])


def random_case(draws):
    return finished(draws, random_call(draws))


def random_as_the_rust(draws):
    return finished(draws, random_call(draws), mode=AS_THE_RUST)


def random_full(draws):
    return finished(draws, random_call(draws), mode=FULL)


def random_full_own(draws):
    """A full search with the own map: the one that finds a plan if there is one."""
    return finished(draws, random_call(draws), mode=FULL, map=OWN_MAP)


def committed(draws):
    yield from examples()
    yield from one_slot_analysis()
    yield from without_slots_or_choices()
    yield from budgets_around_the_need()
    yield from every_tiny_day()
    yield from at_the_counts()
    for _ in range(1500):
        yield random_case(draws)
    for _ in range(400):
        yield random_full_own(draws)
