"""Slicing to a target, as the scope document says: index after index is flagged; with improvement on, a pass of it follows each choice."""
from dataclasses import dataclass

from improvement import improve
from price_list import Network, members, price


@dataclass
class Sliced:
    children: list
    flags: list
    rebuilt: int
    tried: int


def candidates(network, prices, target):
    """Non-output, unsliced, weight over 0, in a table above the target."""
    above = 0
    for indices, size in zip(prices.lists, prices.sizes):
        if size > target:
            above |= indices
    return [index for index in members(above & ~network.outputs) if network.weights[index] > 0]


def rank(network, children, prices, target, index):
    """Least d(T - S) + S, then largest summed size of the tables above the target that list it, then lowest index."""
    count = len(network.leaves)
    touching = 0
    for node in prices.order:
        left, right = children[2 * (node - count)], children[2 * (node - count) + 1]
        if (prices.lists[left] | prices.lists[right]) >> index & 1:
            touching += 2 ** prices.works[node]
    cost = 2 ** network.weights[index] * (prices.total - touching) + touching
    touched = sum(size for indices, size in zip(prices.lists, prices.sizes) if size > target and indices >> index & 1)
    return cost, -touched, index


def slice_tree(contents, children, target, improving):
    """A valid tree whose total is not beyond, sliced."""
    done = Sliced(list(children), [0] * len(contents.weights), 0, 0)
    while True:
        network = Network(contents, done.flags)
        prices = price(network, done.children)
        if prices.widest is None or prices.widest <= target:
            return done
        found = candidates(network, prices, target)
        if not found:
            return done
        done.flags[min(rank(network, done.children, prices, target, index) for index in found)[2]] = 1
        if improving:
            improve_once(contents, done, target)


def improve_once(contents, done, target):
    """One pass with k = 8 that makes no table wider than the widest is, or than the target."""
    network = Network(contents, done.flags)
    limit = max(price(network, done.children).widest, target)
    improved = improve(network, done.children, 8, 1, limit)
    done.children = improved.children
    done.rebuilt += improved.rebuilt
    done.tried += improved.tried
