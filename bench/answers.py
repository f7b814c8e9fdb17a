#!/usr/bin/env python3
"""How long it takes to parse, write and read the answer to a page of many todos, and how that grows.

    (cd crates/answer_benches && rt run)
    bench/answers.py --bin crates/answer_benches/out/answer_benches [--instructions]

The page asks for the todos by fragments and for one todo by a variable; each text has 200 letters, and all todos
have one author. The forms are `json` (parsing the bytes as JSON alone), `answer` (parsing them as an answer with its errors),
`write` (finding the writes of the parsed answer) and `read` (reading the whole answer from the base of a
store). Each is measured at 200, 2,000 and 20,000 todos. The growth is what a turn takes beside a turn with a
tenth of the todos; a linear form has about 10, and at most 12 is wanted of `write` and `read`. The last column
is what a turn takes beside one of `json` with as many todos. What a run does once is left out: a turn is what
more turns take, beside a run of one.

Times are the processor's. They also grow where the values outgrow its caches, as they do for `json`, and more
so beside other work on the machine. With --instructions, valgrind counts instructions in their place, which
depend on the program alone.
"""

import argparse
import os
import re
import subprocess

from processor_time import least_of_three

FORMS = ("json", "answer", "write", "read")
JUDGED = ("write", "read")
TODOS = (200, 2_000, 20_000)
GROWTH = 12


def milliseconds(words):
    """The least processor time of three runs."""
    return least_of_three(words) * 1e3


def millions(words):
    """The millions of instructions of a run."""
    tool = ["valgrind", "--tool=callgrind", "--callgrind-out-file=/dev/null"]
    told = subprocess.run(tool + words, stdout=subprocess.DEVNULL, stderr=subprocess.PIPE, text=True)
    counted = re.search(r"Collected : (\d+)", told.stderr)
    if told.returncode != 0 or not counted:
        raise SystemExit("not the wanted answer: %s" % " ".join(words))
    return int(counted[1]) / 1e6


def turn(program, form, todos, instructions):
    """What one turn takes."""
    taken = millions if instructions else milliseconds
    turns = 1 if instructions else max(5, 100_000 // todos)
    words = [program, form, str(todos)]
    return (taken(words + [str(turns + 1)]) - taken(words + ["1"])) / turns


def main():
    parser = argparse.ArgumentParser()
    parser.add_argument("--bin", required=True)
    parser.add_argument("--instructions", action="store_true")
    options = parser.parse_args()
    program = os.path.abspath(options.bin)
    unit = "millions" if options.instructions else "ms"
    print("%-7s %7s  %12s  %8s  %8s" % ("form", "todos", unit, "growth", "of json"))
    alone, steep = {}, []
    for form in FORMS:
        before = None
        for todos in TODOS:
            taken = turn(program, form, todos, options.instructions)
            alone.setdefault(todos, taken)
            growth = taken / before if before else None
            if growth and growth > GROWTH and form in JUDGED:
                steep.append("%s at %d" % (form, todos))
            told = "%.2f" % growth if growth else ""
            print("%-7s %7d  %12.3f  %8s  %8.2f" % (form, todos, taken, told, taken / alone[todos]), flush=True)
            before = taken
    if steep:
        raise SystemExit("grows more than %d times: %s" % (GROWTH, ", ".join(steep)))


if __name__ == "__main__":
    main()
