"""The price list of a tree, in whole numbers, as the scope document says: what each node lists, size bits, work bits, total, widest, slice bits.

Sets of indices are whole numbers, bit i for index i. A tree is a list of children, left and right of each internal node."""
from dataclasses import dataclass

BEYOND = 2 ** 53


def set_of(indices):
    return sum(1 << index for index in indices)


def members(index_set):
    """The indices of a set, rising."""
    found, index = [], 0
    while index_set:
        if index_set & 1:
            found.append(index)
        index_set >>= 1
        index += 1
    return found


class Network:
    """A network whose flagged indices weigh nothing."""

    def __init__(self, contents, flags=()):
        self.leaves = [set_of(leaf) for leaf in contents.leaves]
        self.outputs = set_of(contents.outputs)
        self.whole_weights = list(contents.weights)
        self.flags = [index < len(flags) and flags[index] != 0 for index in range(len(contents.weights))]
        self.weights = [0 if flagged else weight for weight, flagged in zip(self.whole_weights, self.flags)]
        self.unsliced = set_of(index for index, flagged in enumerate(self.flags) if not flagged)
        self.known = {}

    def bits(self, index_set):
        """The weights of a set, added up."""
        if index_set not in self.known:
            self.known[index_set] = sum(self.weights[index] for index in members(index_set))
        return self.known[index_set]

    def dangling(self):
        """Whether a non-output index stands in just one leaf."""
        named = [sum(leaf >> index & 1 for leaf in self.leaves) for index in range(len(self.weights))]
        return any(count == 1 and not self.outputs >> index & 1 for index, count in enumerate(named))


@dataclass
class PriceList:
    order: list
    lists: list
    sizes: list
    works: list
    total: int
    widest: int
    slice_bits: int

    def beyond(self):
        return self.total >= BEYOND


def step_order(leaf_count, children):
    """Left child, right child, node."""
    order = []

    def walk(node):
        if node >= leaf_count:
            place = 2 * (node - leaf_count)
            walk(children[place])
            walk(children[place + 1])
            order.append(node)

    if leaf_count > 1:
        walk(2 * leaf_count - 2)
    return order


def price(network, children):
    """The price list of a valid tree; `widest` is None without leaves."""
    count = len(network.leaves)
    order = step_order(count, children)
    pair = {node: (children[2 * (node - count)], children[2 * (node - count) + 1]) for node in order}
    below = {leaf: {leaf} for leaf in range(count)}
    for node in order:
        below[node] = below[pair[node][0]] | below[pair[node][1]]
    nodes = range(count + len(order))
    lists = [network.leaves[node] if node < count else listed(network, below[node]) for node in nodes]
    sizes = [network.bits(kept) for kept in lists]
    works = [0 if node < count else network.bits(lists[pair[node][0]] | lists[pair[node][1]]) for node in nodes]
    flagged = [weight for weight, flag in zip(network.whole_weights, network.flags) if flag]
    return PriceList(order, lists, sizes, works, sum(2 ** works[node] for node in order), max(sizes, default=None), sum(flagged))


def listed(network, leaves_below):
    """Each index below a node that is an output or also occurs in a leaf outside."""
    inside, outside = 0, network.outputs
    for leaf, indices in enumerate(network.leaves):
        if leaf in leaves_below:
            inside |= indices
        else:
            outside |= indices
    return inside & outside
