"""Levels and preferences, as the critical sets, the search and the roster take them."""

from cases.common import u16s


def random_levels(draws, count):
    """So many levels, rising strictly, mostly close together."""
    gaps = [1, 1, 2, draws.pick([1, 300])]
    levels = [draws.pick([0, 0, 1, 2, 5])]
    while len(levels) < count:
        levels.append(levels[-1] + draws.pick(gaps))
    if draws.chance(0.05):
        levels[-1] = 65535
    return levels


def random_preferences(draws, choices, choosers, levels):
    """A row of preferences a chooser: levels mostly, else any number up to the last."""
    def one():
        if draws.chance(0.85):
            return draws.pick(levels)
        return draws.below(levels[-1] + 1)

    rows = []
    for _ in range(choosers):
        # Repeated choosers meet covered sets and equal lists.
        if rows and draws.chance(0.15):
            rows.append(list(draws.pick(rows)))
        else:
            rows.append([one() for _ in range(choices)])
    return rows


def preference_bytes(levels, preferences):
    return u16s(levels) + b"".join(u16s(row) for row in preferences)
