"""The cases of additions. Every run makes the same."""
from additions import (ADD_LEAF, ADD_OUTPUT, ADD_WEIGHT, INDEX_COUNT, LEAF_COUNT, LEG_AT, LEG_COUNT_AT, OUTPUT_AT, OUTPUT_COUNT, WEIGHT_AT)
from file_cases import SMALL, Draws, largest, random_contents


def additions_of(contents):
    return ([(ADD_WEIGHT, weight) for weight in contents.weights] + [(ADD_LEAF, leaf) for leaf in contents.leaves]
            + [(ADD_OUTPUT, index) for index in contents.outputs])


def refused_additions(contents):
    """One of each kind that every network refuses, and repeats where there is something to repeat."""
    m = len(contents.weights)
    yield from ((ADD_WEIGHT, 9), (ADD_WEIGHT, 255), (ADD_LEAF, [m]), (ADD_LEAF, [65535]), (ADD_LEAF, [0] * 33), (ADD_OUTPUT, m), (ADD_OUTPUT, 65535))
    if m:
        yield from ((ADD_LEAF, [m - 1, m - 1]), (ADD_LEAF, [m, m]), (ADD_LEAF, [0] * 32))
    if m > 1:
        yield from ((ADD_LEAF, [0, 1, 0]), (ADD_LEAF, [0, 0, 1]), (ADD_LEAF, [1, 0, 1, 0]))
    if contents.outputs:
        yield ADD_OUTPUT, contents.outputs[-1]


def mixed(draws, contents):
    """The additions of a network in any order, refused ones among them."""
    turns = additions_of(contents) + list(refused_additions(contents))
    return draws.some(turns, len(turns))


def record_of(contents):
    """The same network, put place by place."""
    yield INDEX_COUNT, len(contents.weights)
    yield LEAF_COUNT, len(contents.leaves)
    yield OUTPUT_COUNT, len(contents.outputs)
    for k, weight in enumerate(contents.weights):
        yield WEIGHT_AT, (k, weight)
    for i, leaf in enumerate(contents.leaves):
        yield LEG_COUNT_AT, (i, len(leaf))
        for k, index in enumerate(leaf):
            yield LEG_AT, (32 * i + k, index)
    for k, index in enumerate(contents.outputs):
        yield OUTPUT_AT, (k, index)


def faults(contents):
    """Counts and contents at their limits and past them, at places within the counts and past them."""
    m, n, o = len(contents.weights), len(contents.leaves), len(contents.outputs)
    for kind, limit in ((INDEX_COUNT, 256), (LEAF_COUNT, 128), (OUTPUT_COUNT, 32)):
        for value in (0, 1, limit - 1, limit, limit + 1, 65536, 2 ** 32 - 1):
            yield kind, value
    for place in sorted({0, max(m, 1) - 1, min(m, 255), 255}):
        yield from ((WEIGHT_AT, (place, 8)), (WEIGHT_AT, (place, 9)), (WEIGHT_AT, (place, 255)))
    for leaf in sorted({0, max(n, 1) - 1, min(n, 127), 127}):
        yield from ((LEG_COUNT_AT, (leaf, 0)), (LEG_COUNT_AT, (leaf, 32)), (LEG_COUNT_AT, (leaf, 33)), (LEG_COUNT_AT, (leaf, 255)))
        yield from ((LEG_AT, (32 * leaf, m)), (LEG_AT, (32 * leaf, 65535)), (LEG_AT, (32 * leaf + 1, max(m, 1) - 1)), (LEG_AT, (32 * leaf + 31, 65535)))
    for place in sorted({0, max(o, 1) - 1, min(o, 31)}):
        yield from ((OUTPUT_AT, (place, m)), (OUTPUT_AT, (place, max(m, 1) - 1)))


def after_damage(contents):
    """Additions to a record, whatever it is."""
    m = len(contents.weights)
    return [(ADD_WEIGHT, 3), (ADD_LEAF, list(range(min(m, 3)))), (ADD_OUTPUT, max(m, 1) - 1), (ADD_WEIGHT, 9), (ADD_LEAF, []), (ADD_OUTPUT, 65535)]


def past_the_counts(contents):
    """Refused additions, and then counts one higher: what a refusal leaves past the counts is seen."""
    m, n, o = len(contents.weights), len(contents.leaves), len(contents.outputs)
    return [(ADD_WEIGHT, 9), (ADD_LEAF, [m]), (ADD_OUTPUT, m), (INDEX_COUNT, m + 1), (LEAF_COUNT, n + 1), (OUTPUT_COUNT, o + 1)]


def damaged(draws):
    for name in ("sample", "flagged", "two", "empty"):
        contents = SMALL[name]
        base, wrong = list(record_of(contents)), list(faults(contents))
        yield base + past_the_counts(contents)
        for fault in wrong:
            yield base + [fault]
            yield base + [fault] + after_damage(contents)
        for _ in range(120):
            yield base + draws.some(wrong, 2 + draws.below(3)) + draws.some(after_damage(contents), draws.below(4))


def all_additions():
    draws = Draws(20_260_117)
    contents = list(SMALL.values()) + [random_contents(draws, draws.below(9), draws.below(7), 4) for _ in range(40)]
    contents += [random_contents(draws, 20 + draws.below(109), 20 + draws.below(237), 6) for _ in range(3)] + [largest()]
    made = [[]]
    for one in contents:
        made += [additions_of(one) + list(refused_additions(one)), mixed(draws, one)]
    for one in contents[:30] + [largest()]:
        made.append(list(record_of(one)) + list(refused_additions(one)))
    return made + list(damaged(draws))
