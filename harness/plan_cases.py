"""The stored inputs of the program `plan`: samples, networks of every kind with each ending of a file, and files that each refusal comes of.
Every run makes the same cases."""
from file_cases import Draws, SMALL, comb, damaged_fields, join, largest, long_cases, random_contents, random_tree
from network_file import Contents, LEAF_TAG, OUTPUTS_TAG, WEIGHTS_TAG, fields_of, one_field, write
from pedigree import strain

SAMPLE = SMALL["sample"]


def with_target(contents, target):
    return Contents(contents.weights, contents.leaves, contents.outputs, contents.tree, None, target)


def samples():
    """The files of `samples`, by name."""
    return {
        "sample": SAMPLE,
        "strain-22": strain(6, 22, 1),
        "strain-22-sliced": with_target(strain(6, 22, 1), 6),
        "strain-41": strain(8, 41, 1),
        "strain-41-sliced": with_target(strain(8, 41, 1), 8),
    }


def closed(contents):
    """The same without indices that just one leaf names and that are no outputs: such an index becomes one of up to three outputs, or goes."""
    for index in range(len(contents.weights)):
        named = [leaf for leaf in contents.leaves if index in leaf]
        if len(named) == 1 and index not in contents.outputs:
            if len(contents.outputs) < 3:
                contents.outputs.append(index)
            else:
                named[0].remove(index)
    return contents


def endings(draws, contents):
    """With and without a tree; plain, with flags, with flags that may be of outputs, with a target."""
    count, index_count = len(contents.leaves), len(contents.weights)
    inner = [int(index not in contents.outputs and any(index in leaf for leaf in contents.leaves) and draws.below(3) == 0) for index in range(index_count)]
    any_flags = [draws.below(2) for _ in range(draws.below(index_count + 1))]
    for tree in (None, random_tree(draws, count)):
        for flags, target in ((None, None), (inner, None), (any_flags, None), (None, draws.below(9)), (None, 9 + draws.below(20))):
            yield Contents(contents.weights, contents.leaves, contents.outputs, tree, flags, target)


def ring(count, bits):
    """Each leaf shares an index with the next, the last with the first."""
    return Contents([bits] * count, [[leaf, (leaf + 1) % count] for leaf in range(count)], [])


def grid(rows, columns, bits):
    """Leaves on a grid, an index between neighbours."""
    edges = [((r, c), (r, c + 1)) for r in range(rows) for c in range(columns - 1)] + [((r, c), (r + 1, c)) for r in range(rows - 1) for c in range(columns)]
    leaves = [[number for number, edge in enumerate(edges) if (r, c) in edge] for r in range(rows) for c in range(columns)]
    return Contents([bits] * len(edges), leaves, [])


def shaped(draws):
    """Networks of known shapes, with each ending."""
    shapes = {
        "sample's network": Contents(SAMPLE.weights, SAMPLE.leaves, SAMPLE.outputs),
        "ring": ring(9, 2),
        "grid": grid(3, 4, 1),
        "heavy grid": grid(3, 3, 3),
        "one index in every leaf": Contents([3, 1], [[0, 1]] * 7, [1]),
        "small strain": strain(3, 6, 5),
    }
    for name, contents in shapes.items():
        for number, whole in enumerate(endings(draws, contents)):
            yield f"{name}, ending {number}", whole


def few_leaves():
    yield "no leaves, no index", Contents()
    yield "no leaves, a target", Contents([1, 2], [], [0], target=0)
    yield "no leaves, all flagged", Contents([1, 2], [], [0], [], [1, 1])
    yield "one empty leaf", Contents([], [[]], [])
    yield "one leaf of outputs, a target", Contents([3, 4], [[0, 1]], [0, 1], target=1)
    yield "one leaf, loose", Contents([1, 1], [[0, 1]], [], target=1)
    yield "two leaves", Contents([2], [[0], [0]], [])
    yield "two leaves, a target of 0", Contents([2], [[0], [0]], [], target=0)
    yield "two leaves that share nothing", Contents([2, 3], [[0], [1]], [0, 1], target=0)
    yield "three empty leaves", Contents([], [[], [], []], [], comb(3))
    yield "weights of 0", Contents([0, 0, 0], [[0, 1], [1, 2], [2, 0], [0, 1, 2]], [0], target=0)


def pair_of(bits, output):
    """Two leaves that name the same indices, of so many bits in all, outputs or not."""
    weights = [8] * (bits // 8) + [bits % 8]
    return Contents(weights, [list(range(len(weights)))] * 2, list(range(len(weights))) if output else [])


def edges():
    """About 40 bits, and about totals of 2^53."""
    for bits in (40, 41):
        yield f"two leaves of {bits} bits", pair_of(bits, True)
        yield f"two leaves of {bits} bits, own tree", Contents(pair_of(bits, False).weights, pair_of(bits, False).leaves, [], [1, 0])
    for bits in (52, 53):
        whole = pair_of(bits, True)
        yield f"own tree, {bits} bits of work", Contents(whole.weights, whole.leaves, whole.outputs, [0, 1])
        yield f"own tree, {bits} bits of work, a flag", Contents(whole.weights, whole.leaves, whole.outputs, [0, 1], [1])
        yield f"own tree, {bits} bits of work, a target", Contents(pair_of(bits, False).weights, pair_of(bits, False).leaves, [], [0, 1], None, 30)
    yield "at every limit", largest()
    yield "128 empty leaves", Contents([], [[] for _ in range(128)], [])
    yield "ring of 128", ring(128, 1)
    yield "ring of 20, a target of 1", with_target(ring(20, 1), 1)
    yield "loose index, no target", Contents([1, 1, 0], [[0], [2], [1]], [], [1, 2, 3, 0])
    yield "loose index of weight 0", Contents([1, 0], [[0], [0, 1]], [], target=5)
    yield "loose and beyond", Contents([8] * 8, [list(range(8)), list(range(7))], [], [0, 1])


def refused_files():
    """Damaged files: each refusal of the reader, and bytes past the last field."""
    start = join([(WEIGHTS_TAG, b"\1\2")])
    yield "nothing at all", b""
    yield "a stray byte", write(SAMPLE) + b"\0"
    yield "three stray bytes", write(SAMPLE) + b"\0\0\0"
    yield "a weight of 9", join([(WEIGHTS_TAG, b"\11"), (OUTPUTS_TAG, b"")])
    yield "33 legs", join([(WEIGHTS_TAG, bytes(40)), (LEAF_TAG, bytes(range(33))), (OUTPUTS_TAG, b"")])
    yield "an index out of range", start + join([(LEAF_TAG, b"\2"), (OUTPUTS_TAG, b"")])
    yield "an index twice", start + join([(LEAF_TAG, b"\1\1"), (OUTPUTS_TAG, b"")])
    yield "a flag of 2", write(Contents([1], [], [], None, [2]))
    yield "more flags than indices", write(Contents([1], [], [], None, [1, 1]))
    yield "129 leaves", start + one_field(LEAF_TAG, b"") * 129 + one_field(OUTPUTS_TAG, b"")
    yield from list(damaged_fields("flagged", fields_of(SMALL["flagged"])))[::4]
    for case in long_cases():
        if len(case.data) > 1000:
            yield case.label, case.data
    yield "131,072 bytes", write(SAMPLE) + bytes(131072 - len(write(SAMPLE)))


def random_files(count, seed):
    """Network files at random: up to 50 leaves, one in ten maybe with a loose index, one in 25 a strain."""
    draws, files = Draws(seed), []
    for number in range(count):
        leaf_count = draws.below(20) if number % 4 else 20 + draws.below(30)
        contents = random_contents(draws, leaf_count, 1 + draws.below(24), 2 + draws.below(5))
        if draws.below(3):
            contents.weights = [weight % 3 for weight in contents.weights]
        if number % 10:
            contents = closed(contents)
        if number % 25 == 0:
            contents = strain(2 + draws.below(6), 5 + draws.below(30), 1 + draws.below(10 ** 6))
        if contents.target is not None or number % 50 == 0:
            contents = with_target(contents, draws.below(12))
        files.append(write(contents))
    return files


def all_cases():
    draws = Draws(88172645463325252)
    made = list(samples().items()) + list(few_leaves()) + list(edges()) + list(shaped(draws))
    for number in range(40):
        made.append((f"random {number}", closed(random_contents(draws, 2 + draws.below(11), 1 + draws.below(12), 4))))
    for number in range(10):
        made.append((f"random, maybe loose {number}", random_contents(draws, 2 + draws.below(6), 1 + draws.below(8), 3)))
    return [(label, write(contents)) for label, contents in made] + list(refused_files())
