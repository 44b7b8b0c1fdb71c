"""Improvement, as the scope document says: each node's frontier is opened, all trees over it are searched, and a cheaper one replaces what was there.

Costs are whole numbers; the comparison that decides a rebuild is in f64, as Python's floats are."""
from dataclasses import dataclass

from price_list import BEYOND, price

LOCALS = 128


@dataclass
class Improved:
    children: list
    rebuilt: int
    tried: int


class Region:
    """The part of a tree that a rebuild may replace: the nodes opened, the first one first, and the members of the frontier."""

    def __init__(self, network, children, prices, top, most):
        self.network, self.children, self.prices, self.top = network, children, prices, top
        self.count = len(network.leaves)
        self.opened, self.members = [], [top]
        while len(self.members) < most:
            inner = [place for place, node in enumerate(self.members) if node >= self.count]
            if not inner:
                break
            place = min(inner, key=lambda at: (-prices.works[self.members[at]], at))
            node = self.members[place]
            self.members[place] = self.members[-1]
            self.members.pop()
            self.opened.append(node)
            self.members += children[2 * (node - self.count):2 * (node - self.count) + 2]

    def search(self, limit):
        """The least cost over all members or None, the left part of each subset, and how many splits were tried. None: left as it is."""
        network = self.network
        tables = [self.prices.lists[member] & network.unsliced for member in self.members]
        external = self.prices.lists[self.top] & network.unsliced
        full = (1 << len(tables)) - 1
        union = [0] * (full + 1)
        for subset in range(1, full + 1):
            low = subset & -subset
            union[subset] = union[subset ^ low] | tables[low.bit_length() - 1]
        if bin(union[full]).count("1") > LOCALS:
            return None
        kept = [union[subset] & (external | union[full ^ subset]) for subset in range(full + 1)]
        cost, part, tried = [None] * (full + 1), [0] * (full + 1), 0
        for subset in range(1, full + 1):
            low = subset & -subset
            if subset == low:
                cost[subset] = 0
                continue
            if subset != full and limit is not None and network.bits(kept[subset]) > limit:
                continue
            rest = subset ^ low
            sub = (rest - 1) & rest
            while True:
                tried += 1
                left, right = sub | low, rest ^ sub
                if cost[left] is not None and cost[right] is not None:
                    found = cost[left] + cost[right] + 2 ** network.bits(kept[left] | kept[right])
                    # sums from 2^53 on count as infinite
                    if found < BEYOND and (cost[subset] is None or found < cost[subset]):
                        cost[subset], part[subset] = found, left
                if sub == 0:
                    break
                sub = (sub - 1) & rest
        return cost[full], part, tried

    def build(self, part, subset, free):
        """Left, right, node; the numbers of the opened nodes are taken from the end."""
        if subset & (subset - 1) == 0:
            return self.members[subset.bit_length() - 1]
        left = self.build(part, part[subset], free)
        right = self.build(part, subset ^ part[subset], free)
        node = free.pop()
        self.children[2 * (node - self.count):2 * (node - self.count) + 2] = [left, right]
        return node


def visit(network, children, prices, node, most, limit):
    """Whether the node's region was rebuilt, and the splits tried."""
    region = Region(network, children, prices, node, most)
    if len(region.members) < 3:
        return False, 0
    found = region.search(limit)
    if found is None:
        return False, 0
    best, part, tried = found
    old = sum(2 ** prices.works[opened] for opened in region.opened)
    if best is None or not float(best) < float(old) * (1 - 1e-9):
        return False, tried
    free = list(region.opened)
    top = region.build(part, (1 << len(region.members)) - 1, free)
    assert top == node and free == []
    return True, tried


def improve(network, children, most, passes, limit):
    """Passes over the nodes by falling work, until one rebuilds nothing."""
    done = Improved(list(children), 0, 0)
    for _ in range(passes):
        before = done.rebuilt
        prices = price(network, done.children)
        for node in sorted(prices.order, key=lambda inner: -prices.works[inner]):
            rebuilt, tried = visit(network, done.children, prices, node, most, limit)
            done.tried += tried
            if rebuilt:
                done.rebuilt += 1
                prices = price(network, done.children)
        if done.rebuilt == before:
            break
    return done
