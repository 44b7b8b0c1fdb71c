"""The program `plan`, as the scope document says: from a network file's bytes to the text that it prints; and the line of a question on slicing."""
from greedy_plan import greedy
from improvement import improve
from network_file import INVALID_TREE, Refused, is_valid, parse, refuse_if
from price_list import Network, members, price
from slicing import slice_tree

TOTAL_BEYOND, DANGLING_INDEX = 10, 11


def planned(contents):
    """The tree, the flags and the two counts of the plan; raises Refused."""
    children = greedy(Network(contents)) if contents.tree is None else contents.tree
    flags = contents.flags or []
    network = Network(contents, flags)
    refuse_if(price(network, children).beyond(), TOTAL_BEYOND)
    refuse_if(network.dangling(), DANGLING_INDEX)
    improved = improve(network, children, 8, 4, None)
    if contents.target is None:
        return improved.children, flags, improved.rebuilt, improved.tried
    refuse_if(price(Network(contents), improved.children).beyond(), TOTAL_BEYOND)
    sliced = slice_tree(contents, improved.children, contents.target, True)
    return sliced.children, sliced.flags, improved.rebuilt + sliced.rebuilt, improved.tried + sliced.tried


def plan_lines(contents):
    children, flags, rebuilt, tried = planned(contents)
    network = Network(contents, flags)
    prices = price(network, children)
    count = len(contents.leaves)
    lines = [f"plan {count} {len(contents.weights)}"]
    for node in prices.order:
        numbers = [node, *children[2 * (node - count):2 * (node - count) + 2], prices.works[node], prices.sizes[node], *members(prices.lists[node])]
        lines.append("step " + " ".join(str(number) for number in numbers))
    lines += [f"total {prices.total}", f"widest {'-' if prices.widest is None else prices.widest}"]
    lines += [f"slice {index}" for index, flagged in enumerate(network.flags) if flagged]
    return lines + [f"bits {prices.slice_bits}", f"improved {rebuilt}", f"splits {tried}"]


def plan_text(data):
    """What the program prints for a file's bytes."""
    try:
        lines = plan_lines(parse(data))
    except Refused as refused:
        lines = [f"refused {refused.number}"]
    return "".join(line + "\n" for line in lines)


def sliced(contents, children, improving, target):
    """Slicing by itself, its refusals first; raises Refused."""
    refuse_if(not is_valid(len(contents.leaves), children), INVALID_TREE)
    network = Network(contents)
    refuse_if(price(network, children).beyond(), TOTAL_BEYOND)
    refuse_if(improving and network.dangling(), DANGLING_INDEX)
    return slice_tree(contents, children, target, improving)


def slice_line(question):
    try:
        answer = sliced(question.contents, question.children, question.improving, question.target)
    except Refused as refused:
        return f"refused {refused.number}\n"
    flagged = [index for index, flag in enumerate(answer.flags) if flag]
    words = ["sliced", answer.rebuilt, answer.tried, *answer.children, "flags", *flagged]
    return " ".join(str(word) for word in words) + "\n"
