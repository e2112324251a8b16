"""Cases of joins and groups."""

import itertools
import struct

SEED = 1_001
FILE = "crates/replay_union_find/data/cases"


def body(elements, joins):
    flat = [number for join in joins for number in join]
    return struct.pack(">BH", elements, len(joins)) + bytes(flat)


def all_sequences(elements, length):
    """Every sequence of that many joins, joins with itself included."""
    pairs = list(itertools.product(range(elements), repeat=2))
    for joins in itertools.product(pairs, repeat=length):
        yield body(elements, joins)


def doubling(elements, swapped):
    """Joins equals with equals, so that heights grow as far as they can."""
    width = 1
    while width < elements:
        for start in range(0, elements - width, 2 * width):
            join = (start, start + width)
            yield join[::-1] if swapped else join
        width *= 2


def shapes(elements):
    """Chains, stars, doublings, repeats and joins with itself."""
    rising = [(i, i + 1) for i in range(elements - 1)]
    falling = [(i + 1, i) for i in range(elements - 1)]
    star = [(0, i) for i in range(1, elements)]
    rays = [(i, 0) for i in range(1, elements)]
    itself = [(i, i) for i in range(elements)]
    for joins in [rising, falling, star, rays, itself]:
        yield joins
        yield joins[::-1]
        yield joins + joins
    for swapped in [False, True]:
        yield list(doubling(elements, swapped))
    yield rising[::2] + rising[1::2]
    yield list(doubling(elements, False)) + falling


def random_joins(draws, elements, count):
    return [(draws.below(elements), draws.below(elements)) for _ in range(count)]


def random_case(draws):
    elements = draws.pick([0, 1, 2, 3, 5, 8, 13, 32, 63, 64, draws.between(1, 64)])
    if elements == 0:
        return body(0, [])
    count = draws.below(draws.pick([elements, 2 * elements]) + 1)
    joins = random_joins(draws, elements, count)
    if joins and draws.chance(0.2):
        joins = draws.shuffled(joins + joins[: draws.below(len(joins)) + 1])
    return body(elements, joins)


def committed(draws):
    yield body(0, [])
    for elements, longest in [(1, 3), (2, 4), (3, 3), (4, 3)]:
        for length in range(longest + 1):
            yield from all_sequences(elements, length)
    for elements in [2, 5, 8, 63, 64]:
        for joins in shapes(elements):
            yield body(elements, joins)
    for count in [255, 256, 300, 1024]:
        yield body(64, random_joins(draws, 64, count))
    for _ in range(400):
        yield random_case(draws)
