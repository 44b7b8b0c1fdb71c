"""The cases of the network file: accepted files of many shapes, and damaged copies of some. Every run makes the same cases."""
from dataclasses import dataclass

from network_file import (Contents, FLAGS_TAG, LEAF_TAG, OUTPUTS_TAG, TARGET_TAG, TREE_TAG, WEIGHTS_TAG, fields_of, one_field, write)

MOST_PLACES = 300


@dataclass
class Case:
    label: str
    tree_places: int
    flag_places: int
    data: bytes


class Draws:
    """Marsaglia's xorshift64, so that every version of Python makes the same cases."""

    def __init__(self, seed):
        self.state = seed

    def word(self):
        x = self.state
        x ^= x << 13 & (1 << 64) - 1
        x ^= x >> 7
        x ^= x << 17 & (1 << 64) - 1
        self.state = x
        return x >> 16

    def below(self, n):
        return self.word() % n

    def some(self, items, count):
        """So many different ones of the items, in any order."""
        rest = list(items)
        return [rest.pop(self.below(len(rest))) for _ in range(min(count, len(rest)))]


def join(fields):
    return b"".join(one_field(tag, payload) for tag, payload in fields)


def random_tree(draws, leaf_count):
    """A valid tree: random pairs are joined, and the internal nodes but the root are numbered in any order."""
    inner = leaf_count - 1
    if inner < 1:
        return []
    numbers = [leaf_count + k for k in draws.some(range(inner - 1), inner - 1)] + [leaf_count + inner - 1]
    children, open_nodes = [0] * (2 * inner), list(range(leaf_count))
    for number in numbers:
        place = 2 * (number - leaf_count)
        for side in (0, 1):
            children[place + side] = open_nodes.pop(draws.below(len(open_nodes)))
        open_nodes.append(number)
    return children


def random_contents(draws, leaf_count, index_count, most_legs):
    """An accepted network of so many leaves and indices, with or without a tree, flags, a target."""
    kind = draws.below(4)
    weights = [(draws.below(9), 2, 8, draws.below(2))[kind] for _ in range(index_count)]
    leaves = [draws.some(range(index_count), draws.below(most_legs + 1)) for _ in range(leaf_count)]
    contents = Contents(weights, leaves, draws.some(range(index_count), draws.below(33) if kind else 0))
    if draws.below(2):
        contents.tree = random_tree(draws, leaf_count)
    ask = draws.below(4)
    if ask == 1:
        contents.target = draws.below(256)
    elif ask > 1:
        count = index_count if ask == 2 else draws.below(index_count + 1)
        contents.flags = [draws.below(2) for _ in range(count)]
    return contents


def largest():
    """A network at every limit."""
    leaves = [[(5 * i + 7 * j) % 256 for j in range(32)] for i in range(128)]
    tree = comb(128)
    return Contents([8] * 256, leaves, list(range(224, 256)), tree, [k % 2 for k in range(256)])


def comb(leaf_count):
    """The children of the tree that joins the leaves one after the other."""
    children = []
    for j in range(leaf_count - 1):
        children += [leaf_count + j - 1 if j else 0, j + 1]
    return children


# small files, each byte of which is damaged
SMALL = {
    "sample": Contents([1, 2, 1], [[0, 1], [1, 2], [2]], [0], target=2),
    "flagged": Contents([1, 8], [[0], [1, 0], []], [1], tree=[0, 1, 3, 2], flags=[1, 0]),
    "renumbered": Contents([3], [[], [0], [], [0]], [], tree=[5, 3, 0, 1, 4, 2], target=255),
    "two": Contents([0, 0, 5], [[2], [2, 0]], [1], tree=[1, 0], flags=[1]),
    "one": Contents([4], [[0]], [], tree=[], flags=[]),
    "empty": Contents([], [], []),
}


def every_small_ending(contents):
    """The same network with each kind of what may follow the outputs."""
    tree = comb(len(contents.leaves))
    for with_tree in (None, tree):
        for flags, target in ((None, None), ([], None), ([1] * len(contents.weights), None), (None, 0), (None, 200)):
            yield Contents(contents.weights, contents.leaves, contents.outputs, with_tree, flags, target)


def accepted_contents(draws):
    for name, contents in SMALL.items():
        for k, whole in enumerate(every_small_ending(contents)):
            yield f"{name}, ending {k}", whole
        yield name, contents
    for children in ([0, 1, 3, 2], [2, 3, 0, 1], [2, 3, 1, 0], [1, 2, 0, 3]):
        yield f"three leaves, {children}", Contents([1], [[0], [], [0]], [], children)
    yield "largest", largest()
    yield "128 empty leaves", Contents([], [[] for _ in range(128)], [], comb(128))
    yield "256 indices, no leaf", Contents([8] * 256, [], list(range(32)), [], [])
    yield "32 legs", Contents([0] * 32, [list(range(31, -1, -1))], list(range(32)))
    for k in range(60):
        yield f"small {k}", random_contents(draws, draws.below(9), draws.below(7), 4)
    for k in range(24):
        yield f"middle {k}", random_contents(draws, 9 + draws.below(30), draws.below(60), 6)
    for k in range(8):
        yield f"large {k}", random_contents(draws, 100 + draws.below(29), 100 + draws.below(157), 6)


def needed(contents):
    """The places that a reader needs of the two lent lists."""
    tree = len(contents.tree) if contents.tree is not None else 0
    flags = len(contents.weights) if contents.flags is not None else 0
    return tree, flags


def accepted_cases(draws):
    for label, contents in accepted_contents(draws):
        tree, flags = needed(contents)
        data = write(contents)
        yield Case(label + ", lists to spare", tree + draws.below(4), flags + draws.below(4), data)
        yield Case(label + ", lists just right", tree, flags, data)
        if tree:
            yield Case(label + ", tree list short by one", tree - 1, flags, data)
            yield Case(label + ", no tree list", 0, flags, data)
        if flags:
            yield Case(label + ", flag list short by one", tree, flags - 1, data)
            yield Case(label + ", flag list as long as the flags given", tree, len(contents.flags), data)


def damaged_bytes(name, data):
    """Each byte changed, and left out or doubled; each length cut; bytes added at the end."""
    for at, byte in enumerate(data):
        for value in sorted({(byte + 1) % 256, (byte - 1) % 256, 0, 9 if at % 2 else 255} - {byte}):
            yield f"{name}, byte {at} made {value}", data[:at] + bytes([value]) + data[at + 1:]
        if at % 2:
            yield f"{name}, byte {at} left out", data[:at] + data[at + 1:]
        else:
            yield f"{name}, byte {at} doubled", data[:at + 1] + data[at:]
        yield f"{name}, cut to {at}", data[:at]
    for tail in (b"\0", b"\1", b"\xff", b"\4\0", b"\xff\xff", b"\0\0\0", b"\2\0\0", b"\3\0\0", b"\4\0\0", b"\5\0\0", b"\6\0\0", b"\6\0\1",
                 b"\6\0\1\7", b"\6\0\2\7\7", b"\xff\0\0", b"\4\0\1\0", b"\4\0\2\0\1", b"\5\0\1\2", b"\5\1\0\0"):
        yield f"{name}, then {tail.hex()}", data + tail


def damaged_fields(name, fields):
    """Each field doubled, left out, made empty, made longer, under another tag, and swapped with the next."""
    for k, (tag, payload) in enumerate(fields):
        yield f"{name}, field {k} doubled", join(fields[:k + 1] + fields[k:])
        yield f"{name}, field {k} left out", join(fields[:k] + fields[k + 1:])
        yield f"{name}, field {k} empty", join(fields[:k] + [(tag, b"")] + fields[k + 1:])
        yield f"{name}, field {k} of one byte more", join(fields[:k] + [(tag, payload + b"\0")] + fields[k + 1:])
        for other in range(8) if k % 2 else (1, 3, 5):
            if other != tag:
                yield f"{name}, field {k} under tag {other}", join(fields[:k] + [(other, payload)] + fields[k + 1:])
    for k in range(len(fields) - 1):
        swapped = fields[:k] + [fields[k + 1], fields[k]] + fields[k + 2:]
        yield f"{name}, fields {k} and {k + 1} swapped", join(swapped)


def damaged_cases():
    for name, contents in SMALL.items():
        tree, flags = needed(contents)
        made = list(damaged_bytes(name, write(contents))) + list(damaged_fields(name, fields_of(contents)))
        for k, (label, data) in enumerate(made):
            yield Case(label, tree + 2 * (k % 2) + 4, flags + k % 3 + 1, data)


def sampled_damage(draws):
    """Single bytes of larger files changed, cut, and left out, at random places."""
    for k in range(14):
        contents = largest() if k == 0 else random_contents(draws, 9 + draws.below(60), 9 + draws.below(120), 6)
        data, (tree, flags) = write(contents), needed(contents)
        for _ in range(12):
            at, value = draws.below(len(data)), draws.below(256)
            if draws.below(2):
                at, value = at % len(contents.weights), draws.below(12)
            kind = draws.below(4)
            changed = data[:at] if kind == 0 else data[:at] + (b"" if kind == 1 else bytes([value])) + data[at + 1:]
            yield Case(f"larger {k}, damage {kind} at {at}", tree, flags, changed)


def tree_cases(draws):
    """Trees that are not valid, over a few leaves."""
    def case(label, leaf_count, children, extra=b""):
        payload = bytes(children) + extra
        fields = [(WEIGHTS_TAG, b"")] + [(LEAF_TAG, b"")] * leaf_count + [(OUTPUTS_TAG, b""), (TREE_TAG, payload)]
        return Case(f"{leaf_count} leaves, {label}{children}", len(children), 0, join(fields))
    for leaf_count in range(4):
        for children in ([], [0, 0], [0, 1], [1, 0], [0, 2], [2, 0], [1, 1], [0, 3], [0, 255], [1, 128], [0, 1, 3, 2], [4, 1, 3, 2],
                         [3, 1, 0, 2], [0, 1, 2, 3], [0, 1, 0, 2], [0, 1, 3, 5], [2, 4, 0, 1], [0, 1, 3, 2, 4, 0]):
            yield case("", leaf_count, children)
        yield case("odd length ", leaf_count, comb(leaf_count), b"\0")
    for k in range(60):
        leaf_count = 2 + draws.below(7)
        children = random_tree(draws, leaf_count)
        children[draws.below(len(children))] = draws.below(2 * leaf_count + 1)
        yield case(f"damaged {k} ", leaf_count, children)


def limit_fields():
    """Each limit just kept and just passed, alone and before, beside or after other damage."""
    weights, outputs, leaf = (WEIGHTS_TAG, bytes(256)), (OUTPUTS_TAG, b""), (LEAF_TAG, b"")
    rows = {
        "256 weights": [weights, outputs], "257 weights": [(WEIGHTS_TAG, bytes(257)), outputs],
        "257 weights, the last of 9": [(WEIGHTS_TAG, bytes(256) + b"\t"), outputs],
        "weight 8": [(WEIGHTS_TAG, b"\0\x08"), outputs], "weight 9": [(WEIGHTS_TAG, b"\0\t"), outputs],
        "weight 9, then a wrong tag": [(WEIGHTS_TAG, b"\t"), (7, b"")],
        "33 legs": [weights, (LEAF_TAG, bytes(range(33))), outputs], "33 equal legs": [weights, (LEAF_TAG, bytes(33)), outputs],
        "33 unknown legs": [(WEIGHTS_TAG, b""), (LEAF_TAG, bytes(range(33))), outputs],
        "32 outputs": [weights, (OUTPUTS_TAG, bytes(range(32)))], "33 outputs": [weights, (OUTPUTS_TAG, bytes(range(33)))],
        "128 leaves": [weights] + [leaf] * 128 + [outputs], "129 leaves": [weights] + [leaf] * 129 + [outputs],
        "129 leaves, the last with a repeat": [weights] + [leaf] * 128 + [(LEAF_TAG, b"\1\1"), outputs],
        "129 leaves, the 128th with a repeat": [weights] + [leaf] * 127 + [(LEAF_TAG, b"\1\1"), leaf, outputs],
        "index 255": [weights, (LEAF_TAG, b"\xff"), outputs], "index 255 of 255": [(WEIGHTS_TAG, bytes(255)), (LEAF_TAG, b"\xff"), outputs],
        "an output that is no index": [(WEIGHTS_TAG, b"\1"), (OUTPUTS_TAG, b"\1")],
        "an output twice": [(WEIGHTS_TAG, b"\1\1"), (OUTPUTS_TAG, b"\1\0\1")],
        "a repeat, then no index": [(WEIGHTS_TAG, b"\0"), (LEAF_TAG, b"\0\0\5"), outputs],
        "no index, then a repeat": [(WEIGHTS_TAG, b"\0"), (LEAF_TAG, b"\5\0\0"), outputs],
        "a repeat far apart": [weights, (LEAF_TAG, bytes(range(31)) + b"\0"), outputs],
        "as many flags": [(WEIGHTS_TAG, b"\1\1"), outputs, (FLAGS_TAG, b"\0\1")],
        "a flag too many": [(WEIGHTS_TAG, b"\1\1"), outputs, (FLAGS_TAG, b"\0\1\0")],
        "a flag too many, of 2": [(WEIGHTS_TAG, b"\1\1"), outputs, (FLAGS_TAG, b"\2\1\0")],
        "a flag of 2": [(WEIGHTS_TAG, b"\1\1"), outputs, (FLAGS_TAG, b"\0\2")],
        "an empty target": [weights, outputs, (TARGET_TAG, b"")], "a target of two bytes": [weights, outputs, (TARGET_TAG, b"\1\1")],
        "flags and target": [weights, outputs, (FLAGS_TAG, b""), (TARGET_TAG, b"\1")],
        "target and flags": [weights, outputs, (TARGET_TAG, b"\1"), (FLAGS_TAG, b"")],
        "two trees": [weights, leaf, outputs, (TREE_TAG, b""), (TREE_TAG, b"")],
        "flags, then a tree": [weights, leaf, outputs, (FLAGS_TAG, b""), (TREE_TAG, b"")],
        "a wrong tree, then a wrong flag": [weights, leaf, outputs, (TREE_TAG, b"\0\0"), (FLAGS_TAG, b"\2")],
        "no weights": [outputs], "no outputs": [weights, leaf], "outputs first": [outputs, weights],
    }
    return rows


def long_cases():
    """Lengths up to 65,535: of the payload that is there, and one byte less."""
    start = join([(WEIGHTS_TAG, b"\1")])
    ended = join([(WEIGHTS_TAG, b"\1"), (OUTPUTS_TAG, b"")])
    for before, tag, size in ((b"", WEIGHTS_TAG, 65535), (start, LEAF_TAG, 256), (start, OUTPUTS_TAG, 33), (ended, TREE_TAG, 65534),
                              (ended, TREE_TAG, 255), (ended, FLAGS_TAG, 257), (ended, TARGET_TAG, 256), (ended, 7, 300)):
        data = before + one_field(tag, bytes(size))
        yield Case(f"tag {tag}, {size} bytes", MOST_PLACES, MOST_PLACES, data)
        if size < 1000:
            yield Case(f"tag {tag}, {size} bytes, one missing", MOST_PLACES, MOST_PLACES, data[:-1])
            yield Case(f"tag {tag}, {size} bytes, header alone", MOST_PLACES, MOST_PLACES, data[:len(before) + 3])


def limit_cases():
    for label, fields in limit_fields().items():
        data = join(fields)
        yield Case(label, 0, 0, data)
        yield Case(label + ", lists to spare", MOST_PLACES, MOST_PLACES, data)
        yield Case(label + ", last byte missing", MOST_PLACES, MOST_PLACES, data[:-1])
        yield Case(label + ", stray byte", MOST_PLACES, 0, data + b"\7")
        yield Case(label + ", three stray bytes", 0, MOST_PLACES, data + b"\7\7\7")


def all_cases():
    draws = Draws(88172645463325252)
    made = [*accepted_cases(draws), *damaged_cases(), *sampled_damage(draws), *tree_cases(draws), *limit_cases(), *long_cases()]
    seen, cases = set(), []
    for case in made:
        key = (case.tree_places, case.flag_places, case.data)
        if key not in seen:
            seen.add(key)
            cases.append(case)
    return cases
