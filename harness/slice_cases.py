"""The stored questions on slicing by itself: a network, a tree, whether to improve, a target. Every run makes the same ones."""
from dataclasses import dataclass

from file_cases import Draws, SMALL, comb, largest, random_contents, random_tree
from greedy_plan import greedy
from network_file import Contents
from pedigree import strain
from plan_cases import closed, few_leaves, grid, pair_of, ring
from price_list import BEYOND, Network, price

MOST_TARGET = 65535


@dataclass
class Question:
    label: str
    contents: Contents
    children: list
    improving: bool
    target: int


def bare(contents):
    """The network alone."""
    return Contents(contents.weights, contents.leaves, contents.outputs)


def each_way(label, contents, children, targets):
    for improving in (False, True):
        for target in targets:
            word = "improving, " if improving else ""
            yield Question(f"{label}, {word}target {target}", bare(contents), list(children), improving, target)


def about_widest(contents, children):
    """Above the widest table, at it, below it, and the least and the largest target."""
    widest = price(Network(contents), children).widest or 0
    return sorted({0, max(widest - 3, 0), max(widest - 1, 0), widest, widest + 1, MOST_TARGET})


def few():
    for label, contents in few_leaves():
        yield from each_way(label, contents, comb(len(contents.leaves)), (0,))
    yield from each_way("one leaf of two indices", Contents([1, 1], [[0, 1]], []), [], (0, 1, 2))
    yield from each_way("no leaves", Contents([1, 2], [], [0]), [], (MOST_TARGET,))


def shaped(draws):
    """Networks of known shapes, on a comb or a random tree."""
    shapes = {
        "sample's network": SMALL["sample"],
        "ring": ring(9, 2),
        "grid": grid(3, 4, 1),
        "heavy grid": grid(3, 3, 3),
        "one index in every leaf": Contents([3, 1], [[0, 1]] * 7, [1]),
        "small strain": strain(3, 6, 5),
    }
    for name, contents in shapes.items():
        count = len(contents.leaves)
        for word, children in (("comb", comb(count)), ("random tree", random_tree(draws, count))):
            yield from each_way(f"{name}, {word}", contents, children, about_widest(contents, children)[::2 if word == "comb" else 1])


def lighter(contents, children):
    """Weights halved until the total is not beyond."""
    while price(Network(contents), children).total >= BEYOND:
        contents.weights = [weight // 2 for weight in contents.weights]
    return contents


def at_random(draws):
    """Random networks: one in four maybe with a loose index, one in ten of them beyond as it may be."""
    for number in range(120):
        contents = random_contents(draws, 2 + draws.below(13), 2 + draws.below(16), 5)
        contents.outputs = contents.outputs[:draws.below(4)]
        if number % 4:
            contents = closed(contents)
        children = random_tree(draws, len(contents.leaves))
        if number % 10:
            contents = lighter(contents, children)
        widest = price(Network(contents), children).widest
        yield Question(f"random {number}", bare(contents), children, number % 3 > 0, max(widest - draws.below(8), 0))


def strains():
    for founders, families in ((2, 5), (4, 12), (6, 22), (8, 41)):
        contents = strain(founders, families, 1)
        children = greedy(Network(contents))
        widest = price(Network(contents), children).widest
        yield from each_way(f"{families} families", contents, children, (widest - 2, widest))
    yield from each_way("ring of 20", ring(20, 1), comb(20), (1,))
    yield Question("ring of 128", ring(128, 1), comb(128), False, 1)


def refused():
    """Trees that are not valid, totals from 2^53 on, loose indices, and more than one of these."""
    sample, pair = SMALL["sample"], pair_of(53, False)
    broken = ([], [0, 1], [0, 1, 3], [0, 1, 3, 2, 4], [0, 1, 3, 3], [0, 1, 4, 2], [0, 1, 3, 5], [0, 0, 3, 2], [4, 1, 3, 2], [0, 1, 3, 255])
    for children in broken:
        yield from each_way(f"tree {children}", sample, children, (2,))
    yield from each_way("children of no leaves", Contents([1], [], []), [0, 0], (0,))
    yield from each_way("children of one leaf", Contents([1], [[0], ], [0]), [0, 0], (0,))
    for bits in (52, 53):
        whole = pair_of(bits, False)
        yield from each_way(f"{bits} bits of work", whole, [1, 0], (0, 30, MOST_TARGET))
    yield from each_way("beyond, and not valid", pair, [0, 0], (0,))
    yield from each_way("loose", Contents([1, 1, 0], [[0], [2], [1]], []), [1, 2, 3, 0], (0, MOST_TARGET))
    yield from each_way("loose, of weight 0", Contents([1, 0], [[0], [0, 1]], []), [0, 1], (0, 5))
    yield from each_way("loose and beyond", Contents([8] * 8, [list(range(8)), list(range(7))], []), [0, 1], (9,))
    yield from each_way("at every limit", largest(), comb(128), (60,))


def all_questions():
    draws = Draws(2463534242)
    return list(few()) + list(shaped(draws)) + list(strains()) + list(refused()) + list(at_random(draws))
