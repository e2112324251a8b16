"""Cases of the search's budgets: one day after another with every pass and total budget from 0 to what it needs and 1 more."""

import struct

import replay
from cases.preferences import random_levels, random_preferences
from cases.search import UNBOUNDED, random_call

MOST_TURNS = 60
PAIRED_TURNS = 10


def turns_needed(call):
    """The turns of the whole call where neither budget ends anything."""
    body = call.but(pass_budget=UNBOUNDED, total_budget=20_000).body()
    return struct.unpack_from(">Q", replay.search(replay.Case(body)), 1)[0]


def random_budget_call(draws):
    """A call with both budgets open that needs some turns, but not too many to try them all."""
    while True:
        call = random_call(draws)
        choices, choosers = len(call.mins), len(call.preferences)
        call.levels = random_levels(draws, draws.between(1, 4))
        call.preferences = random_preferences(draws, choices, choosers, call.levels)
        call.analysis, call.mode = draws.below(3), draws.below(2)
        call.orders = [draws.shuffled(range(choices)) for _ in range(draws.below(3))] if choices else []
        call.draws = [draws.below(8) for _ in range(draws.below(4))]
        call.start_at_last = int(draws.chance(0.15))
        needed = turns_needed(call)
        if 0 < needed <= MOST_TURNS:
            return call, needed


def bodies_of_a_day(draws):
    call, needed = random_budget_call(draws)
    for budget in range(needed + 2):
        yield call.but(pass_budget=UNBOUNDED, total_budget=budget).body()
        yield call.but(pass_budget=budget, total_budget=UNBOUNDED).body()
    if needed <= PAIRED_TURNS:
        for budget in range(needed + 2):
            for total in range(needed + 2):
                yield call.but(pass_budget=budget, total_budget=total).body()
