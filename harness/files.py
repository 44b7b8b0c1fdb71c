#!/usr/bin/env python3
"""files.py: makes the stored cases of the program `files`, crates/files/stdin and crates/files/stdout.

  files.py           writes both files
  files.py --check   fails if they are not what it makes
  files.py --show K  prints case K, counted from 1, as line K of the output

The input: a 4-byte count; then, for each case, the places of the tree list and of the flag list (2 bytes each), a 4-byte length, and so many
bytes of a network file. All numbers high byte first.

Before a case, place i of the tree list holds 50000 + i mod 1000, and place i of the flag list holds 100 + i mod 100.

The output, one line a case:

  refused K sum S
  read L I O tree P flags F target T sum S room R written same

L leaves, I indices, O outputs; P places of the tree list, F flags, T the target, each `-` if the file has none. R is the writer's refusal where
the buffer ends one byte early. `same` says that the writer gives back the file's bytes and touches no other byte of the buffer.

S is a sum over everything read and both lists afterwards. It starts with 0, and each number x takes it to (S * 65599 + x + 1) modulo 2^32. The
numbers: leaf count, index count, output count; the weights; for each leaf the count of its indices and the indices; the outputs; every place of
the tree list; every place of the flag list. After a refusal the network is empty.

Cases of additions follow, in the input and in the output: additions.py states their form."""
import collections
import os
import sys

sys.dont_write_bytecode = True
from addition_cases import all_additions  # noqa: E402
from additions import answers, encoded_turn  # noqa: E402
from file_cases import MOST_PLACES, all_cases  # noqa: E402
from network_file import Contents, Refused, read, write  # noqa: E402

FOLDER = os.path.join(os.path.dirname(os.path.dirname(os.path.abspath(__file__))), "crates", "files")
MOST_BYTES = 131072


def number(value, size):
    return value.to_bytes(size, "big")


def encoded(cases):
    parts = [number(len(cases), 4)]
    for case in cases:
        assert case.tree_places <= MOST_PLACES and case.flag_places <= MOST_PLACES and len(case.data) <= MOST_BYTES, case.label
        parts += [number(case.tree_places, 2), number(case.flag_places, 2), number(len(case.data), 4), case.data]
    return b"".join(parts)


def encoded_additions(cases):
    parts = [number(len(cases), 4)]
    for turns in cases:
        parts += [number(len(turns), 4), *(encoded_turn(kind, value) for kind, value in turns)]
    return b"".join(parts)


def sum_over(numbers):
    total = 0
    for x in numbers:
        total = (total * 65599 + x + 1) % 2 ** 32
    return total


def sum_of(contents, tree_list, flag_list):
    numbers = [len(contents.leaves), len(contents.weights), len(contents.outputs), *contents.weights]
    for leaf in contents.leaves:
        numbers += [len(leaf), *leaf]
    return sum_over(numbers + [*contents.outputs, *tree_list, *flag_list])


def size_or_dash(items):
    return "-" if items is None else str(len(items))


def line(case):
    tree_list = [50000 + i % 1000 for i in range(case.tree_places)]
    flag_list = [100 + i % 100 for i in range(case.flag_places)]
    try:
        contents, tree_after, flags_after = read(case.data, tree_list, flag_list)
    except Refused as refused:
        return f"refused {refused.number} sum {sum_of(Contents(), tree_list, flag_list)}"
    assert write(contents) == case.data, case.label
    target = "-" if contents.target is None else contents.target
    return (f"read {len(contents.leaves)} {len(contents.weights)} {len(contents.outputs)} tree {size_or_dash(contents.tree)}"
            f" flags {size_or_dash(contents.flags)} target {target} sum {sum_of(contents, tree_after, flags_after)} room 7 written same")


def addition_line(turns):
    record, told = answers(turns)
    return " ".join(["added", *map(str, told), "check", str(record.check()), "sum", str(sum_over(record.numbers()))])


def show(cases, additions, k):
    if k > len(cases):
        turns = additions[k - len(cases) - 1]
        return print(f"{k}: {turns}\n{addition_line(turns)}")
    case = cases[k - 1]
    print(f"{k}: {case.label}\nplaces: tree {case.tree_places}, flags {case.flag_places}\n{case.data.hex(' ')}\n{line(case)}")


def summary(lines):
    counts = collections.Counter("refused " + words[1] if words[0] == "refused" else "read" for words in (text.split() for text in lines))
    assert set(counts) == {"read"} | {f"refused {k}" for k in range(1, 10)}
    return ", ".join(f"{name}: {counts[name]}" for name in sorted(counts))


def addition_summary(lines):
    """Each refusal of an addition, and each of the check, is among the cases."""
    told = collections.Counter(word for text in lines for word in text.split()[1:-4])
    checked = collections.Counter(text.split()[-3] for text in lines)
    assert set(told) == set(checked) == set("03456")
    return f"{sum(told.values())} additions, {sum(told.values()) - told['0']} refused; {checked['0']} records accepted, {len(lines) - checked['0']} refused"


def main():
    cases, additions = all_cases(), all_additions()
    if sys.argv[1:2] == ["--show"]:
        return show(cases, additions, int(sys.argv[2]))
    lines, added = [line(case) for case in cases], [addition_line(turns) for turns in additions]
    made = {"stdin": encoded(cases) + encoded_additions(additions), "stdout": "".join(text + "\n" for text in lines + added).encode()}
    os.makedirs(FOLDER, exist_ok=True)
    for name, data in made.items():
        path = os.path.join(FOLDER, name)
        if sys.argv[1:] == ["--check"]:
            with open(path, "rb") as stored:
                if stored.read() != data:
                    sys.exit(f"files.py: crates/files/{name} is not what the cases make")
        else:
            with open(path, "wb") as stored:
                stored.write(data)
    print(f"files.py: {len(cases)} files; {summary(lines)}")
    print(f"files.py: {len(additions)} cases of additions; {addition_summary(added)}")


main()
