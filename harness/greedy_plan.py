"""Greedy's tree, as the scope document says: of all pairs of tables that share an index the one of least 2^merged - 2^left - 2^right is joined first."""
from network_file import refuse_if
from price_list import listed

TABLE_TOO_WIDE = 12
MOST_BITS = 40


class Table:
    def __init__(self, network, node, leaves):
        self.node, self.leaves = node, leaves
        self.indices = network.leaves[node] if node < len(network.leaves) else listed(network, leaves)
        self.size = network.bits(self.indices)


def scored(network, first_slot, first, second_slot, second):
    """A pair's key: its score, its first slot, its second slot."""
    merged = network.bits(listed(network, first.leaves | second.leaves))
    refuse_if(max(first.size, second.size, merged) > MOST_BITS, TABLE_TOO_WIDE)
    return 2 ** merged - 2 ** first.size - 2 ** second.size, first_slot, second_slot


def greedy(network):
    """The children of greedy's tree; raises Refused."""
    count, children = len(network.leaves), []
    live = {leaf: Table(network, leaf, {leaf}) for leaf in range(count)}
    keys = [scored(network, x, live[x], y, live[y]) for x in range(count) for y in range(x + 1, count) if live[x].indices & live[y].indices]
    next_slot = count
    while keys:
        _, first, second = min(keys)
        left, right = live.pop(first), live.pop(second)
        children += [left.node, right.node]
        made = Table(network, count + len(children) // 2 - 1, left.leaves | right.leaves)
        keys = [key for key in keys if key[1] in live and key[2] in live]
        # a new table's pairs put it first
        keys += [scored(network, next_slot, made, slot, table) for slot, table in live.items() if table.indices & made.indices]
        live[next_slot] = made
        next_slot += 1
    # the unconnected rest by size, stable, joined left to right
    rest = sorted((live[slot] for slot in sorted(live)), key=lambda table: table.size)
    for number, table in enumerate(rest):
        if number == 0:
            top = table.node
        else:
            children += [top, table.node]
            top = count + len(children) // 2 - 1
    return children
