"""The network file, read and written as the scope document says. Independent of every other part of this repository.

A file is a row of fields: a tag byte, a two-byte length (high byte first), a payload. Each field is checked in this order: its header is there
(else 1), its tag is allowed at its place (else 2), its payload is there (else 1), its length and the leaf count, its bytes left to right, and a
tree's validity as its field ends. What the lent lists lack (7) is told at the file's end."""
from dataclasses import dataclass, field

LEAVES, INDICES, LEGS, OUTPUTS, WEIGHT = 128, 256, 32, 32, 8
WEIGHTS_TAG, LEAF_TAG, OUTPUTS_TAG, TREE_TAG, FLAGS_TAG, TARGET_TAG = 1, 2, 3, 4, 5, 6
TRUNCATED, WRONG_TAG, TOO_LARGE, OVERWEIGHT, OUT_OF_RANGE, REPEATED, SHORT_BUFFER, INVALID_TREE, INVALID_FLAGS = range(1, 10)

# the tags that may follow each tag
NEXT = {
    None: (WEIGHTS_TAG,),
    WEIGHTS_TAG: (LEAF_TAG, OUTPUTS_TAG),
    LEAF_TAG: (LEAF_TAG, OUTPUTS_TAG),
    OUTPUTS_TAG: (TREE_TAG, FLAGS_TAG, TARGET_TAG),
    TREE_TAG: (FLAGS_TAG, TARGET_TAG),
    FLAGS_TAG: (),
    TARGET_TAG: (),
}


class Refused(Exception):
    def __init__(self, number):
        super().__init__(number)
        self.number = number


@dataclass
class Contents:
    """What a file says. A tree, flags or a target that the file does not have is None, which is not an empty one."""
    weights: list = field(default_factory=list)
    leaves: list = field(default_factory=list)
    outputs: list = field(default_factory=list)
    tree: list = None
    flags: list = None
    target: int = None


def refuse_if(condition, number):
    if condition:
        raise Refused(number)


def index_list(payload, index_count):
    """The indices of a leaf or of the outputs, byte by byte."""
    seen = []
    for byte in payload:
        refuse_if(byte >= index_count, OUT_OF_RANGE)
        refuse_if(byte in seen, REPEATED)
        seen.append(byte)
    return seen


def is_valid(leaf_count, children):
    """Whether a list of children, left and right of each internal node, is a tree over so many leaves."""
    if leaf_count == 0:
        return children == []
    if len(children) != 2 * (leaf_count - 1):
        return False
    root = 2 * leaf_count - 2
    met, ahead = set(), [root]
    while ahead:
        node = ahead.pop()
        if node > root or node in met:
            return False
        met.add(node)
        if node >= leaf_count:
            place = 2 * (node - leaf_count)
            ahead += children[place:place + 2]
    return len(met) == root + 1


def take_payload(contents, tag, payload):
    """One field whose header, tag and payload are in order."""
    size, index_count = len(payload), len(contents.weights)
    if tag == WEIGHTS_TAG:
        refuse_if(size > INDICES, TOO_LARGE)
        refuse_if(any(weight > WEIGHT for weight in payload), OVERWEIGHT)
        contents.weights = list(payload)
    elif tag == LEAF_TAG:
        refuse_if(size > LEGS or len(contents.leaves) == LEAVES, TOO_LARGE)
        contents.leaves.append(index_list(payload, index_count))
    elif tag == OUTPUTS_TAG:
        refuse_if(size > OUTPUTS, TOO_LARGE)
        contents.outputs = index_list(payload, index_count)
    elif tag == TREE_TAG:
        refuse_if(size % 2 == 1, INVALID_TREE)
        refuse_if(not is_valid(len(contents.leaves), list(payload)), INVALID_TREE)
        contents.tree = list(payload)
    elif tag == FLAGS_TAG:
        refuse_if(size > index_count, INVALID_FLAGS)
        refuse_if(any(flag > 1 for flag in payload), INVALID_FLAGS)
        contents.flags = list(payload)
    else:
        refuse_if(size != 1, TOO_LARGE)
        contents.target = payload[0]


def parse(data):
    """The contents of a file's bytes; raises Refused."""
    contents, before, at = Contents(), None, 0
    while at < len(data) or before in (None, WEIGHTS_TAG, LEAF_TAG):
        refuse_if(len(data) - at < 3, TRUNCATED)
        tag, size = data[at], 256 * data[at + 1] + data[at + 2]
        refuse_if(tag not in NEXT[before], WRONG_TAG)
        at += 3
        refuse_if(len(data) - at < size, TRUNCATED)
        take_payload(contents, tag, data[at:at + size])
        before, at = tag, at + size
    return contents


def read(data, tree_list, flag_list):
    """The contents, and the two lent lists afterwards; raises Refused, and then the lists stay as they are."""
    contents = parse(data)
    tree_after, flags_after = list(tree_list), list(flag_list)
    if contents.tree is not None:
        refuse_if(len(tree_list) < len(contents.tree), SHORT_BUFFER)
        tree_after[:len(contents.tree)] = contents.tree
    if contents.flags is not None:
        index_count = len(contents.weights)
        refuse_if(len(flag_list) < index_count, SHORT_BUFFER)
        flags_after[:index_count] = contents.flags + [0] * (index_count - len(contents.flags))
    return contents, tree_after, flags_after


def one_field(tag, payload):
    return bytes([tag, len(payload) // 256, len(payload) % 256]) + bytes(payload)


def fields_of(contents):
    """The fields of a file with these contents: pairs of a tag and a payload."""
    fields = [(WEIGHTS_TAG, bytes(contents.weights))]
    fields += [(LEAF_TAG, bytes(leaf)) for leaf in contents.leaves]
    fields.append((OUTPUTS_TAG, bytes(contents.outputs)))
    if contents.tree is not None:
        fields.append((TREE_TAG, bytes(contents.tree)))
    if contents.flags is not None:
        fields.append((FLAGS_TAG, bytes(contents.flags)))
    if contents.target is not None:
        fields.append((TARGET_TAG, bytes([contents.target])))
    return fields


def write(contents):
    return b"".join(one_field(tag, payload) for tag, payload in fields_of(contents))
