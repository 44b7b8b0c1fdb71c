"""Networks made by additions, and the check of any record, as the scope document says: the cases that follow those of the files in crates/files/stdin.

The input: a 4-byte count; then, for each case, a 4-byte count of turns; each turn is two 4-byte numbers, a kind and a value V. It starts with the
empty network. The kinds:

  0  one weight more, V      1  one leaf more, of V indices that follow, 4 bytes each      2  one output more, V
  3  V indices               4  V leaves                                                   5  V outputs
  6  weights                 7  leg counts                                                 8  legs                      9  outputs

3 to 5 put a count of the record, 6 to 9 the place V / 65536 of a list to V modulo 65536, whatever comes of it. 0 to 2 are additions.

The output, one line a case:

  added K .. check K sum S

K is 0 or the number of the refusal: of each addition in turn, then of the check. S is a sum as in files.py, over the record afterwards: leaf count,
index count, output count; the weights, for each leaf its leg count and so many legs, and the outputs, as far as there are places for the counts.

The legs of leaf i stand from place 32 i on; a leg past the last place is 0. Weights and leg counts are at most 255, and a leaf that is added has at most 40 indices."""
from network_file import (INDICES, LEAVES, LEGS, OUT_OF_RANGE, OUTPUTS, OVERWEIGHT, REPEATED, TOO_LARGE, WEIGHT)

(ADD_WEIGHT, ADD_LEAF, ADD_OUTPUT, INDEX_COUNT, LEAF_COUNT, OUTPUT_COUNT, WEIGHT_AT, LEG_COUNT_AT, LEG_AT, OUTPUT_AT) = range(10)
ACCEPTED = 0


class Record:
    """Counts, and lists of fixed lengths. What stands past the counts is no part of the network."""

    def __init__(self):
        self.counts = {INDEX_COUNT: 0, LEAF_COUNT: 0, OUTPUT_COUNT: 0}
        self.lists = {WEIGHT_AT: [0] * INDICES, LEG_COUNT_AT: [0] * LEAVES, LEG_AT: [0] * (LEAVES * LEGS), OUTPUT_AT: [0] * OUTPUTS}

    def copy(self):
        other = Record()
        other.counts = dict(self.counts)
        other.lists = {kind: list(places) for kind, places in self.lists.items()}
        return other

    def row(self, leaf):
        places = self.lists[LEG_AT] + [0] * 256
        return places[LEGS * leaf:LEGS * leaf + self.lists[LEG_COUNT_AT][leaf]]

    def check(self):
        """The number of the refusal, or 0."""
        m, n, o = (self.counts[kind] for kind in (INDEX_COUNT, LEAF_COUNT, OUTPUT_COUNT))
        if m > INDICES or n > LEAVES or o > OUTPUTS or any(k > LEGS for k in self.lists[LEG_COUNT_AT][:n]):
            return TOO_LARGE
        if any(weight > WEIGHT for weight in self.lists[WEIGHT_AT][:m]):
            return OVERWEIGHT
        rows = [self.row(leaf) for leaf in range(n)] + [self.lists[OUTPUT_AT][:o]]
        if any(index >= m for row in rows for index in row):
            return OUT_OF_RANGE
        return REPEATED if any(len(set(row)) < len(row) for row in rows) else ACCEPTED

    def numbers(self):
        """What the sum goes over."""
        m, n, o = (self.counts[kind] for kind in (INDEX_COUNT, LEAF_COUNT, OUTPUT_COUNT))
        rows = [[self.lists[LEG_COUNT_AT][leaf], *self.row(leaf)] for leaf in range(min(n, LEAVES))]
        return [n, m, o, *self.lists[WEIGHT_AT][:m], *(x for row in rows for x in row), *self.lists[OUTPUT_AT][:o]]


def with_addition(record, kind, value):
    """The record with the addition, or None if there is no place for it."""
    after = record.copy()
    count_kind = {ADD_WEIGHT: INDEX_COUNT, ADD_LEAF: LEAF_COUNT, ADD_OUTPUT: OUTPUT_COUNT}[kind]
    at = record.counts[count_kind]
    if at >= {ADD_WEIGHT: INDICES, ADD_LEAF: LEAVES, ADD_OUTPUT: OUTPUTS}[kind]:
        return None
    after.counts[count_kind] = at + 1
    if kind == ADD_LEAF:
        if len(value) > LEGS:
            return None
        after.lists[LEG_COUNT_AT][at] = len(value)
        after.lists[LEG_AT][LEGS * at:LEGS * at + len(value)] = value
    else:
        after.lists[WEIGHT_AT if kind == ADD_WEIGHT else OUTPUT_AT][at] = value
    return after


def turned(record, kind, value):
    """The record after a turn, and what an addition answers, None for other turns."""
    after = record.copy()
    if kind in record.counts:
        after.counts[kind] = value
        return after, None
    if kind in record.lists:
        place, content = value
        after.lists[kind][place] = content
        return after, None
    after = with_addition(record, kind, value)
    refusal = TOO_LARGE if after is None else after.check()
    return (record if refusal else after), refusal


def answers(turns):
    """The record at the end, and what the additions answer."""
    record, told = Record(), []
    for kind, value in turns:
        record, refusal = turned(record, kind, value)
        told += [] if refusal is None else [refusal]
    return record, told


def encoded_turn(kind, value):
    if kind == ADD_LEAF:
        assert len(value) <= 40
        numbers = [kind, len(value), *value]
    elif kind in (WEIGHT_AT, LEG_COUNT_AT, LEG_AT, OUTPUT_AT):
        numbers = [kind, 65536 * value[0] + value[1]]
    else:
        numbers = [kind, value]
    return b"".join(number.to_bytes(4, "big") for number in numbers)
