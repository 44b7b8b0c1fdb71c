#!/usr/bin/env python3
"""plan.py: makes the stored inputs of the program `plan`, stored questions on slicing, and what must be printed, by a reading of the scope document in whole numbers.

  plan.py           writes samples, crates/plan/stdin and stdout, crates/planruns/stdin and stdout
  plan.py --check   fails if they are not what it makes
  plan.py --show K  prints input K in hex, counted from 1, and what is printed of it
  plan.py --slice K prints question K on slicing, counted from 1, and its line
  plan.py FILE      prints the plan of a network file
  plan.py --beside N [SEED]   holds the built program crates/planruns/out/planruns to this reading on N files at random

`samples` has each sample's network file (NAME.net) and its plan (NAME.plan). crates/plan runs on the document's sample. The input of crates/planruns: a 4-byte count;
then, for each case, a 4-byte length and so many bytes of a network file, all numbers high byte first. Its output, for each case: the line `case K`, K counted
from 1, and then what `plan` prints.

After these cases come questions on slicing by itself: a 4-byte count; then, for each question, two bytes of 1 for improving or 0, two bytes of the target, a
4-byte length and so many bytes of a network file, a 4-byte number of places and so many bytes of a tree. Its output, a line a question: `sliced`, the rebuild count,
the split count, the left and the right child of each node, `flags` and the flagged indices; or `refused K`."""
import collections
import os
import subprocess
import sys

sys.dont_write_bytecode = True
from network_file import write  # noqa: E402
from plan_cases import all_cases, random_files, samples  # noqa: E402
from plan_text import plan_text, slice_line  # noqa: E402
from slice_cases import all_questions  # noqa: E402

TOP = os.path.dirname(os.path.dirname(os.path.abspath(__file__)))
MOST_BYTES = 131072


def number(value):
    return value.to_bytes(4, "big")


def runs_input(cases):
    assert all(len(data) <= MOST_BYTES for data in cases)
    return number(len(cases)) + b"".join(number(len(data)) + data for data in cases)


def questions_input(questions):
    parts = [number(len(questions))]
    for question in questions:
        data = write(question.contents)
        parts += [number(65536 * question.improving + question.target), number(len(data)), data, number(len(question.children)), bytes(question.children)]
    return b"".join(parts)


def runs_output(texts):
    return "".join(f"case {k}\n{text}" for k, text in enumerate(texts, 1)).encode()


def made_files():
    """Every stored file by its path, the texts of the cases, and the lines of the questions."""
    cases = [data for _, data in all_cases()]
    texts = [plan_text(data) for data in cases]
    questions = all_questions()
    lines = [slice_line(question) for question in questions]
    files = {"crates/planruns/stdin": runs_input(cases) + questions_input(questions), "crates/planruns/stdout": runs_output(texts) + "".join(lines).encode()}
    for name, contents in samples().items():
        files[f"samples/{name}.net"] = write(contents)
        files[f"samples/{name}.plan"] = plan_text(write(contents)).encode()
    files["crates/plan/stdin"] = files["samples/sample.net"]
    files["crates/plan/stdout"] = files["samples/sample.plan"]
    return files, texts, lines


def summary(texts):
    """How many plans there are, how many with sliced indices and with rebuilds, and how many refusals of each number."""
    counts = collections.Counter(text.strip() if text.startswith("refused") else "plan" for text in texts)
    plans = [text for text in texts if text.startswith("plan")]
    parts = [f"{len(plans)} plans", f"{sum(chr(10) + 'slice ' in text for text in plans)} of them sliced"]
    parts.append(f"{sum(chr(10) + 'improved 0' + chr(10) not in text for text in plans)} rebuilt")
    return ", ".join(parts + [f"refused {k}: {counts[f'refused {k}']}" for k in range(1, 14) if f"refused {k}" in counts])


def slice_summary(lines):
    answers = [line.split() for line in lines if line.startswith("sliced")]
    counts = collections.Counter(line.strip() for line in lines if line.startswith("refused"))
    parts = [f"{len(answers)} answers", f"{sum(words[-1] != 'flags' for words in answers)} with flags", f"{sum(words[1] != '0' for words in answers)} rebuilt"]
    return ", ".join(parts + [f"refused {k}: {counts[f'refused {k}']}" for k in (8, 10, 11)])


def show_question(k):
    question = all_questions()[k - 1]
    print(f"{k}: {question.label}\n{write(question.contents).hex(' ')}\ntree {question.children}\n{slice_line(question)}", end="")


def show(k):
    label, data = all_cases()[k - 1]
    print(f"{k}: {label}\n{data.hex(' ')}\n{plan_text(data)}", end="")


def beside(count, seed):
    cases = random_files(count, seed)
    texts = [plan_text(data) for data in cases]
    run = subprocess.run([os.path.join(TOP, "crates/planruns/out/planruns")], input=runs_input(cases), capture_output=True, check=True)
    if run.stdout != runs_output(texts):
        wrong = [k for k, (one, other) in enumerate(zip(run.stdout.decode().split("case ")[1:], texts)) if one.split("\n", 1)[1] != other]
        sys.exit(f"plan.py: {len(wrong)} of {count} differ, first {cases[wrong[0]].hex(' ')}")
    print(f"plan.py: {count} files, no difference; {summary(texts)}")


def main():
    words = sys.argv[1:]
    if words[:1] == ["--beside"]:
        return beside(int(words[1]), int(words[2]) if words[2:] else 1)
    if words[:1] == ["--show"]:
        return show(int(words[1]))
    if words[:1] == ["--slice"]:
        return show_question(int(words[1]))
    if words and words != ["--check"]:
        with open(words[0], "rb") as file:
            return print(plan_text(file.read()), end="")
    files, texts, lines = made_files()
    assert {text.strip() for text in texts if text.startswith("refused")} == {f"refused {k}" for k in (1, 2, 3, 4, 5, 6, 8, 9, 10, 11, 12)}
    assert {line.strip() for line in lines if line.startswith("refused")} == {f"refused {k}" for k in (8, 10, 11)}
    for path, data in files.items():
        full = os.path.join(TOP, path)
        if words:
            with open(full, "rb") as stored:
                if stored.read() != data:
                    sys.exit(f"plan.py: {path} is not what it makes")
        else:
            os.makedirs(os.path.dirname(full), exist_ok=True)
            with open(full, "wb") as stored:
                stored.write(data)
    print(f"plan.py: {len(texts)} cases, {len(lines)} questions on slicing, {len(files['crates/planruns/stdin'])} bytes; {summary(texts)}")
    print(f"plan.py: slicing: {slice_summary(lines)}")


main()
