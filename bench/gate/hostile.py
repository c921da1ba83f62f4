#!/usr/bin/env python3
"""Refuses each request for memory of each call in turn, and compares how calls end with the table of docs/internal/REFUSED.md.

    bench/gate/hostile.py             compares, and fails if anything differs
    bench/gate/hostile.py --found     prints the rows as they are found, with no comparison

The program typst_hostile builds what a call needs, makes K requests of its own, and then makes the call.
`rt try --fail-alloc N` refuses the Nth request of a run.

The first round asks, by the word `spare`, how many requests were granted before the refused one. If K is that number,
the refusal hits the call's first request. If K is one less, it hits the second request, and so on. The second round
begins with K one more than that number, where the run still ends before the call. It goes down past all requests of the
call, to passes in which none of them is refused. These passes must be whole.

A pass in which memory was refused must say so by the errors of the table, and leave what the call borrowed as it was.
It may also be whole, where the call can do without the memory. A list that grows by less than it first asked for is
such a case.
"""
import re
import sys
import tempfile
from collections import Counter
from pathlib import Path

sys.path.insert(0, str(Path(__file__).resolve().parents[1]))
from common import TOP, ended, parser, ran

CRATE = TOP / "crates/typst_hostile"
TABLE = TOP / "docs/internal/REFUSED.md"
# Which request of a run is refused: one after all that any call needs and makes. A drawing asks for memory with each of its words.
REFUSED = 4000
# How many passes there are past the requests of a call, and how many there are for --found.
PAST, MOST = 4, 60
ENDS = ("AllocError", "Memory", "NoMemory", "whole")


def calls():
    """The names of all calls, from the lines that the program is tested on with ample memory."""
    return [line.rsplit(" ", 1)[0] for line in (CRATE / "stdin").read_text().splitlines()]


def table():
    """The errors of each call, by name: a row is `| name | 2 Memory, 1 NoMemory |`, or `none` for a call without requests."""
    rows = re.findall(r"^\| `([^`]+)` \| (none|[\w ,]+) \|$", TABLE.read_text(), re.M)
    told = {}
    for name, errors in rows:
        words = [] if errors == "none" else [it.split() for it in errors.split(", ")]
        told[name] = Counter({error: int(count) for count, error in words})
    return told


def written(errors):
    return ", ".join(f"{errors[it]} {it}" for it in ENDS if errors[it]) or "none"


def ends_asked(asked):
    """How these calls end, by name and number of requests. Each has a run of its own, and all use one build."""
    with tempfile.TemporaryDirectory() as room:
        for index, (name, requests) in enumerate(asked):
            Path(room, f"{index:05}").write_text(f"{name} {requests}\n")
        done = ran(["rt", "try", "--fail-alloc", REFUSED, "--cases", room], cwd=CRATE, text=True)
    said = done.stdout + done.stderr
    ends = {(name, requests): end for name, requests, end in re.findall(r"^(.+) (\d+|spare) (\w+)$", said, re.M)}
    missing = [it for it in asked if (it[0], str(it[1])) not in ends]
    if missing or done.returncode:
        sys.exit(f"no answer for {missing[:3]} and {len(missing)} in all; rt try ended with {done.returncode}:\n{said[-2000:]}")
    return ends


def spare_requests(names):
    """How many requests are granted before the refused one in the place of each call. A call that can't be made has none."""
    ends = ends_asked([(name, "spare") for name in names])
    told = {name: ends[name, "spare"] for name in names}
    return {name: int(end) for name, end in told.items() if end.isdigit()}


def digits(count):
    """A number as wide as the word `spare`: a longer line may take one request more to be read."""
    return f"{count:05}"


def ends_of(first, passes):
    """How each call ends in so many passes, after one that ends before the call."""
    return ends_asked([(name, digits(first[name] + 1 - it)) for name, count in passes.items() for it in range(count + 1)])


def judged(name, ends, first, passes):
    """The ends of a call's passes up to the last one that isn't whole, and what is wrong with them."""
    words = [ends[name, digits(first - it)] for it in range(passes)]
    wrong = []
    if ends[name, digits(first + 1)] != "early":
        wrong.append(f"{name}: one request more should hit none of the call's, and ends {ends[name, digits(first + 1)]}")
    if set(words[-PAST:]) != {"whole"}:
        wrong.append(f"{name}: with ample memory, in the last passes, it ends {words[-PAST:]}, and not whole")
    for at, word in enumerate(words):
        if word not in ENDS:
            wrong.append(f"{name}: request {at + 1} refused, and the call ends {word}")
    while words and words[-1] == "whole":
        words.pop()
    return Counter(words), wrong


def main():
    names, found = calls(), parser(__doc__, "--found").parse_args().found
    told = {} if found else table()
    wrong = [] if found else [f"{it}: only in {TABLE} or only in {CRATE}/stdin" for it in sorted(set(names) ^ set(told))]
    asked = [name for name in names if found or name in told]
    first = spare_requests(asked)
    wrong += [f"{it}: with ample memory the call isn't made, because what it needs can't be built" for it in asked if it not in first]
    passes = {name: MOST if found else sum(told[name].values()) + PAST for name in first}
    ends = ends_of(first, passes)
    count = 0
    for name in first:
        errors, more = judged(name, ends, first[name], passes[name])
        count += sum(errors.values())
        wrong += more
        if found:
            print(f"| `{name}` | {written(errors)} |")
        elif errors != told[name]:
            wrong.append(f"{name}: {written(errors)}, and {TABLE.name} says {written(told[name])}")
    return ended(wrong, f"{len(first)} calls, {count} requests refused in turn, {len(wrong)} differences")


if __name__ == "__main__":
    sys.exit(main())
