#!/usr/bin/env python3
"""Times the library's operations, alone or in turns with another build, and prints the tables of docs/PERFORMANCE.md. A row has the
time of a step: the least of its turns, their median, and by how many percent the slowest turn is above the fastest.

    bench/speed.py                      times the proved build of crates/typst_bench, and makes it if it isn't there
    bench/speed.py OTHER                takes turns with another program, such as an older commit's crates/typst_bench/out/typst_bench
    bench/speed.py --build PROGRAM      times PROGRAM in place of the proved build, such as one of bench/unproved.py
    bench/speed.py --only WORD          times the rows whose operation has this word; the option may be repeated
    bench/speed.py --turns N            takes N turns instead of 7
    bench/speed.py --document           also writes what it prints into docs/PERFORMANCE.md, after the heading of the figures
    bench/speed.py --check              times nothing, and compares crates/typst_bench/stdout with what is worked out here
    bench/speed.py --wanted             writes that file

The other program must read and print the same lines. It gets the argument `time` and a line `OPERATION SIZE ROUNDS` on standard input.
It prints that line again with a check sum and the nanoseconds of processor time that all rounds took. If it doesn't have the operation,
it ends with another status, and its part of the row stays empty.

Each turn of a row is a process of its own, first of this build, then of the other one. The script compares each check sum with one that
it works out itself, from what the tree or the text of the row is. A build that isn't proved needs a larger stack for the chain of 50,000
nodes: `ulimit -s unlimited`.

What an operation needs is built, copied or parsed before, in memory that the process hasn't had before, and isn't timed. malloc is told
to keep what is given back, so that later rounds take that memory.

A document has paragraphs `some words *bold*.`, fifty in a section. Leaves are `ab`. Places are spread over the tree, and are the same in
each run. A text has paragraphs of a heading, a line with strong and emphasized words, an item with raw text, and an empty line. A list
has items with raw text. Edits are made in the middle and taken back. A replacement includes making the new leaf and testing that its path and range fit.
"""
import argparse
import os
import statistics
import subprocess
import sys
import tempfile
from bisect import bisect_right
from dataclasses import dataclass
from functools import cache
from itertools import accumulate
from pathlib import Path

from common import TOP, ran

CRATE = TOP / "crates/typst_bench"
PROGRAM = CRATE / "out/typst_bench"
TURNS = 7
DOCUMENT, FIGURES = TOP / "docs/PERFORMANCE.md", "\n## The figures\n"
# With these malloc keeps what a program gives back, so rounds after the first take memory that the process has had before.
KEEPING = {"MALLOC_MMAP_THRESHOLD_": str(1 << 32), "MALLOC_TRIM_THRESHOLD_": str(1 << 34)}
# A document of paragraphs `some words *bold*.` with two line ends, fifty in a section: where the nodes of a paragraph begin.
PARAGRAPH, PARAGRAPHS = 20, 50
INNER, LEAF, TRIVIA = range(3)
PARTS = [(0, INNER), (0, LEAF), (4, TRIVIA), (5, LEAF), (10, TRIVIA), (11, INNER)]
PARTS += [(11, LEAF), (12, INNER), (12, LEAF), (16, LEAF), (17, LEAF), (18, TRIVIA)]
# How many of its leaves a walk from leaf to leaf visits. The walk passes over blanks and line ends.
SOLID = sum(sort == LEAF for _, sort in PARTS)
# The line of a text that is one block between `_`, an item of a list without blank lines, and a paragraph of four lines.
LINE = "Some *strong* words, no emphasis and a line.\n"
ITEM = "- an item with `raw text`\n"
LINES = "= A heading\nSome *strong* words, _emphasis_ and a line.\n- an item with `raw text`\n\n"
# The second line of a paragraph, and its last block: an item with the empty line after it.
SECOND, LAST = LINES.splitlines(keepends=True)[1], ITEM + "\n"


def place(turn, size):
    """Which of `size` places the program takes in this turn."""
    return ((turn * 0x9E3779B97F4A7C15) % 2**64 >> 32) % size


def nodes(shape, size):
    """How many nodes a tree has."""
    if shape == "ten":
        return 1 + size // 10 * 11
    if shape == "document":
        return 1 + size // PARAGRAPHS * (1 + PARAGRAPHS * len(PARTS))
    return size + 1


def length(shape, size):
    """How many bytes its text has."""
    each = {"document": PARAGRAPH, "long": 30}.get(shape, 2)
    return 2 if shape == "chain" else each * size


def starts(shape, size):
    """Where each node begins, in preorder, and its sort."""
    if shape == "chain":
        return [(0, INNER)] * size + [(0, LEAF)]
    all_nodes = [(0, INNER)]
    if shape == "ten":
        for ten in range(0, 2 * size, 20):
            all_nodes += [(ten, INNER), *((ten + 2 * leaf, LEAF) for leaf in range(10))]
    elif shape == "document":
        for paragraph in range(size):
            begin = PARAGRAPH * paragraph
            all_nodes += [(begin, INNER)] if paragraph % PARAGRAPHS == 0 else []
            all_nodes += [(begin + part, sort) for part, sort in PARTS]
    else:
        all_nodes += [(2 * leaf, LEAF) for leaf in range(size)]
    return all_nodes


def begins(shape, size, *sorts):
    """Where the nodes of these sorts begin."""
    return [begin for begin, sort in starts(shape, size) if sort in sorts]


def found(shape, size, rounds):
    """The sum of where the nodes of drawn numbers begin."""
    of_all = begins(shape, size, INNER, LEAF, TRIVIA)
    return sum(of_all[place(turn, len(of_all))] for turn in range(rounds))


def leaf_at(shape, size, rounds):
    """The sum of where the leaves of drawn bytes begin."""
    of_leaves = begins(shape, size, LEAF, TRIVIA)
    drawn = (place(turn, length(shape, size)) for turn in range(rounds))
    return sum(of_leaves[bisect_right(of_leaves, byte) - 1] for byte in drawn)


def replaced(shape, size, rounds):
    """The sum of the lengths after each replacement by a leaf of the same length, and of the new leaves that are there at the end."""
    drawn = {
        "wide": lambda turn: place(turn, size),
        "ten": lambda turn: (place(turn, size // 10), turn % 10),
        "document": lambda turn: (place(turn, size // PARAGRAPHS), turn % PARAGRAPHS),
        "chain": lambda turn: 0,
    }[shape]
    return rounds * length(shape, size) + len({drawn(turn) for turn in range(rounds)})


def resized(_shape, size, rounds):
    """The same with new leaves of one byte and of three bytes in turns."""
    come, total, lengths = {}, 2 * size, 0
    for turn in range(rounds):
        at, new = place(turn, size), 1 if turn % 2 == 0 else 3
        total += new - come.get(at, 2)
        come[at] = new
        lengths += total
    return lengths + len(come)


# A function as in a package for Typst, and an equation as in a textbook.
FUNCTION = """#let entry(title, page, fill: 1fr) = {
  // The page stands at the right margin.
  let width = measure(title).width + 2em
  if width > page.width {
    return par(hanging-indent: 1em, title)
  }
  box(width: fill, stroke: none, title)
}

"""
EQUATION = '$ sum_(k = 1)^n k^2 = (n (n + 1) (2 n + 1)) / 6 quad "for all" n in NN $\n\n'
# Texts of the same piece again and again: how many bytes the beginning, the piece and the end have.
REPEATS = {"code": (0, len(FUNCTION), 0), "equations": (0, len(EQUATION), 0), "stars": (0, 1, 0), "nested": (0, 2, 0), "round": (1, 1, 0),
           "square": (1, 1, 0), "curly": (1, 1, 0), "dollars": (0, 1, 0), "minus": (2, 2, 0), "fields": (2, 2, 0), "calls": (1, 2, 0),
           "items": (0, 2, 0), "keys": (2, 9, 1)}

def parsed(shape, size, rounds):
    """How many bytes the trees of a text have in all rounds."""
    head, each, end = {"": (0, len(LINES) / 4, 0), "block": (1, len(LINE), 1), "list": (0, len(ITEM), 0), **REPEATS}[shape]
    return rounds * int(head + size * each + end)


def letter(shape, _size, rounds):
    """How many bytes a pair of edits parses: the line with a letter more, and then the line without it."""
    return rounds * (2 * len(ITEM if shape == "list" else SECOND) + 1)


def paragraph(_shape, _size, rounds):
    """The same of a paragraph that comes and goes. The block before it is parsed, too, since it depends on the heading."""
    return rounds * (2 * len(LAST) + len(LINES))


def delimiter(_shape, _size, rounds):
    """The same of a star that is open to the end of the paragraph."""
    return rounds * (2 * len(LINES) + 1)


def byte_to_line(_shape, size, rounds):
    """The sum of the lines of bytes that are spread over a text."""
    text = LINES * (size // 4)
    return sum(text.count("\n", 0, place(turn, len(text))) for turn in range(rounds))


def line_column_to_byte(_shape, size, rounds):
    """The sum of the bytes where lines begin that are spread over a text."""
    lines = (LINES * (size // 4)).split("\n")
    begins = [0, *accumulate(len(line) + 1 for line in lines)]
    return sum(begins[place(turn, len(lines))] for turn in range(rounds))


def walk_over(*sorts):
    """The sum of the places where the nodes begin that a walk visits."""
    return lambda shape, size, rounds: rounds * sum(begins(shape, size, *sorts))


def per_node(shape, size, rounds):
    return rounds * nodes(shape, size)


# What each operation's check sum is, by the shape, the size and the rounds.
CHECKS = {
    **{verb: per_node for verb in ("build", "drop", "clone", "number", "synthesize", "spanless_eq")},
    "full_text": lambda shape, size, rounds: rounds * length(shape, size),
    "errors_and_warnings": lambda _shape, size, rounds: rounds * -(-size // 10),
    **{verb: walk_over(LEAF) for verb in ("next_leaf", "prev_leaf")},
    **{verb: walk_over(INNER, LEAF, TRIVIA) for verb in ("children", "preorder")},
    "find": found,
    "leaf_at": leaf_at,
    "replace": replaced,
    "reconcile": replaced,
    "resize": resized,
    "insert_front": lambda _shape, size, rounds: sum(2 * (size + turn + 1) for turn in range(rounds)) + rounds,
    "insert_end": lambda _shape, size, rounds: rounds * (2 * (size + 1) + 2 * size),
    "replace_equal": lambda shape, size, rounds: rounds * length(shape, size),
    "exprs": lambda _shape, size, rounds: rounds * 2 * size,
    "str": lambda _shape, size, rounds: rounds * len("abc") * size,
    **{verb: lambda _shape, size, rounds: rounds * size for verb in ("items", "arg_items", "math_shorthand", "binary")},
    "parse": parsed,
    "letter": letter,
    "paragraph": paragraph,
    "delimiter": delimiter,
    "lines": lambda _shape, size, _rounds: size // 4 * 4 + 1,
    "byte_to_line": byte_to_line,
    "line_column_to_byte": line_column_to_byte,
    "place_of": lambda _shape, _size, rounds: rounds,
    "door": letter,
}


@cache
def wanted(line):
    """The check sum of a line, or `right` for calls on large input."""
    if line.startswith("large "):
        return "right"
    *operation, size, rounds = line.split()
    verb, shape = (*operation, "")[:2]
    return CHECKS[verb](shape, int(size), int(rounds))


@dataclass(frozen=True)
class Row:
    """A row of a table: its name, the line that is run, and the number of steps in a round. The row has the time of one step."""

    name: str
    line: str
    steps: int = 1


def over(name, verb, shape, size, rounds):
    """A row of an operation that goes over all nodes. A step is a node."""
    return Row(name, f"{verb} {shape} {size} {rounds}", nodes(shape, size))


def typing(name, verb, rounds):
    """Rows of edits of texts. A round makes the edit and takes it back."""
    return [Row(f"{name} {lines:,} lines", f"{verb} {lines} {rounds}", 2) for lines in (1_000, 10_000, 100_000, 1_000_000)]


# How many paragraphs a document of about so many nodes has.
HUNDRED_THOUSAND, MILLION = 8_300, 83_000
TABLES = {
    "An edit": [
        *typing("a letter in a text of", "letter", 1_000),
        *typing("a paragraph in a text of", "paragraph", 200),
        *typing("a delimiter in a text of", "delimiter", 50),
        Row("a letter in a list of 10,000 items without a blank line", "letter list 10000 1000", 2),
        Row("a letter, followed by the lines of a text of 100,000", "lines letter 100000 2000", 2),
        Row("a paragraph, followed by them", "lines paragraph 100000 200", 2),
        Row("a letter in 1,000 lines, by a handle of the C interface", "door 1000 1000", 2),
        Row("a leaf by one of the same length, in a document of 10^5 nodes", f"replace document {HUNDRED_THOUSAND} 20000"),
        Row("the same, of 10^5 leaves, ten a node", "replace ten 100000 20000"),
        Row("the same, of 10^5 leaves in one node", "replace wide 100000 20000"),
        Row("the same by one of another length", "resize wide 100000 20000"),
        Row("a leaf before 10^5 in one node", "insert_front wide 100000 300"),
        Row("a leaf after 10^5 in one node, which is then removed", "insert_end wide 100000 50000"),
        Row("all nodes of a paragraph by equal ones, in the document", f"replace_equal document {HUNDRED_THOUSAND} 5000"),
        Row("the leaf under forty nodes, one in another", "replace chain 40 20000"),
        *[Row(f"the leaf under {deep} nodes, by a new node in place of all of them", f"reconcile chain {deep} 5000") for deep in (10, 30, 100)],
    ],
    "A search": [
        Row("a node by its number, in the document", f"find document {HUNDRED_THOUSAND} 50000"),
        Row("the same, of 10^5 leaves in one node", "find wide 100000 50000"),
        Row("the leaf at a byte, in the document", f"leaf_at document {HUNDRED_THOUSAND} 50000"),
        Row("the same, of 10^5 leaves, ten a node", "leaf_at ten 100000 50000"),
        Row("the same, of 10^5 leaves in one node", "leaf_at wide 100000 50000"),
    ],
    "A walk and a reading": [
        Row("next leaf, in the document", f"next_leaf document {HUNDRED_THOUSAND} 5", SOLID * HUNDRED_THOUSAND),
        Row("previous leaf", f"prev_leaf document {HUNDRED_THOUSAND} 5", SOLID * HUNDRED_THOUSAND),
        over("all nodes in preorder, a node", "preorder", "document", HUNDRED_THOUSAND, 5),
        over("linked children of all nodes, a node", "children", "document", HUNDRED_THOUSAND, 5),
        over("`spanless_eq` of two documents of 10^6 nodes, a node", "spanless_eq", "document", MILLION, 3),
        over("`full_text` of one, a node", "full_text", "document", MILLION, 3),
        Row("errors of 10^5 leaves, a tenth of them errors, a leaf", "errors_and_warnings errors 100000 20", 100_000),
        Row("`Markup::exprs`, a child", "exprs 50000 30", 100_000),
        Row("`Args::items`, an argument", "items 50000 30", 50_000),
        Row("`MathArgs::arg_items`, an argument", "arg_items 50000 30", 50_000),
        Row("`Binary`: operator and both sides", "binary 50000 30", 50_000),
        Row("`Str::get` of three letters", "str 50000 30", 50_000),
        Row("`MathShorthand::get`", "math_shorthand 50000 30", 50_000),
    ],
    "Building": [
        Row("parse a text of 1,000 lines, a line", "parse 1000 50", 1_000),
        Row("parse a text of 100,000 lines, a line", "parse 100000 1", 100_000),
        Row("parse 100 functions of code, a byte", "parse code 100 50", 100 * len(FUNCTION)),
        Row("parse 300 equations, a byte", "parse equations 300 50", 300 * len(EQUATION)),
        over("a node of 10^6 leaves, a node", "build", "wide", 1_000_000, 4),
        over("10^6 leaves, ten a node, a node", "build", "ten", 1_000_000, 3),
        over("a document of 10^6 nodes, a node", "build", "document", MILLION, 3),
        over("a chain of 50,000 nodes, a node", "build", "chain", 50_000, 30),
        over("drop the document, a node", "drop", "document", MILLION, 3),
        over("clone the document, a node", "clone", "document", MILLION, 3),
        over("number 10^6 leaves in one node, a node", "number", "wide", 1_000_000, 5),
        over("number 10^6 leaves, ten a node, a node", "number", "ten", 1_000_000, 5),
        over("number the document, a node", "number", "document", MILLION, 5),
        over("number the chain, a node", "number", "chain", 50_000, 30),
        over("`synthesize` of the document, a node", "synthesize", "document", MILLION, 5),
    ],
}
# The trees whose memory is measured: a row's name, and the shape and the size of the larger tree. The smaller one has half that size.
WEIGHED = [
    ("a leaf `ab` in one node of 4 times 10^6", "wide", 4_000_000),
    ("a leaf of 30 bytes in one node of 10^6", "long", 1_000_000),
    ("a node of 4 times 10^6 leaves, ten a node", "ten", 4_000_000),
    ("a node of a document of 2 times 10^6", "document", 2 * MILLION),
]


def run(program, line, settings):
    """The nanoseconds of all rounds of a line, and the peak memory of the process in bytes; None if it has no such operation. The
    process gets the settings in its environment."""
    with tempfile.TemporaryFile("w+") as asked, tempfile.TemporaryFile("w+") as told:
        asked.write(line + "\n")
        asked.seek(0)
        child = subprocess.Popen([program, "time"], stdin=asked, stdout=told, stderr=subprocess.DEVNULL, env={**os.environ, **settings})
        _, status, used = os.wait4(child.pid, 0)
        child.returncode = os.waitstatus_to_exitcode(status)
        told.seek(0)
        words = told.read().split()
    if child.returncode:
        return None
    if words[:-1] != [*line.split(), str(wanted(line))]:
        sys.exit(f"speed: {program}: {line!r} gave {' '.join(words)!r}, but its check sum is {wanted(line)}")
    return int(words[-1]), used.ru_maxrss * 1024


def timed(row, programs, turns):
    """For each program, the nanoseconds of a step in each turn; None if it has no such operation."""
    runs = [[run(program, row.line, KEEPING) for program in programs] for _ in range(turns)]
    rounds = int(row.line.split()[-1])
    return [[ran[0] / (rounds * row.steps) for ran in of_one] if all(of_one) else None for of_one in zip(*runs)]


def weighed(shape, size, program):
    """The bytes that a node adds to the peak memory of a process: the difference between a tree and one of half its size, by the node.

    The system counts the memory of this script as a peak of each process that it starts. Both trees are far above that."""
    large, small = (run(program, f"build {shape} {part} 1", {}) for part in (size, size // 2))
    if not large or not small:
        return None
    return (large[1] - small[1]) / (nodes(shape, size) - nodes(shape, size // 2))


def digits(number):
    """A number with three digits or more."""
    return f"{number:,.0f}" if number >= 100 else f"{number:.3g}"


def cells(here, other=None):
    """The least, the median and the spread of this build. With another build also its least and median, and the ratio of the leasts."""
    of_here = [digits(min(here)), digits(statistics.median(here)), f"{100 * (max(here) / min(here) - 1):.0f} %"]
    if other is None:
        return of_here
    return [*of_here, digits(min(other)), digits(statistics.median(other)), f"{min(other) / min(here):.2f}"]


def lined(words):
    """A line of a table."""
    return f"| {' | '.join(words)} |"


def head(words):
    """The head of a table."""
    return f"\n{lined(words)}\n|{'---|' * len(words)}"


def table(name, rows, programs, turns):
    """A table. Each row comes as soon as it is measured."""
    heads = [name, "ns", "median", "spread", *(["other", "median", "ratio"] if len(programs) > 1 else [])]
    yield head(heads)
    for row in rows:
        here, *others = timed(row, programs, turns)
        if here is None:
            sys.exit(f"speed: {programs[0]} doesn't do {row.line!r}")
        written = [row.name, *cells(here, others[0] if others else None)]
        yield lined(written + [""] * (len(heads) - len(written)))


def memory(programs):
    """The table of memory, by the node."""
    yield head(["Memory", "bytes", *(["other", "ratio"] if len(programs) > 1 else [])])
    for name, shape, size in WEIGHED:
        here, *others = (weighed(shape, size, program) for program in programs)
        written = [name, f"{here:.0f}"]
        if others:
            written += [f"{others[0]:.0f}", f"{others[0] / here:.2f}"] if others[0] else ["", ""]
        yield lined(written)


def measured(programs, turns, only):
    """A line that says what was measured and where, and all tables, or only the rows whose operation has one of these words."""
    yield f"{timed_build(programs[0])}, {turns} turns a row, load {os.getloadavg()[0]:.1f} at the beginning, {processor()}."
    for name, rows in TABLES.items():
        chosen = [row for row in rows if not only or any(word in row.line for word in only)]
        if chosen:
            yield from table(name, chosen, programs, turns)
    if not only:
        yield from memory(programs)


def timed_build(program):
    """What is timed: the commit of the proved build, or the program that takes its place."""
    if program != PROGRAM:
        return str(program)
    commit = ran(["git", "rev-parse", "--short", "HEAD"], cwd=TOP, text=True)
    return f"Commit {commit.stdout.strip()}"


def processor():
    """The name of the processor."""
    with open("/proc/cpuinfo", encoding="utf-8") as lines:
        return next((line.partition(":")[2].strip() for line in lines if line.startswith("model name")), "unknown processor")


def small():
    """The lines that `rt ci` runs the crate on, with their check sums."""
    return "".join(f"{line} {wanted(line)}\n" for line in (CRATE / "stdin").read_text().splitlines())


def is_current():
    """Whether there is a proved build and no source is newer than it. `rt run` would prove all libraries again after an `rt ci`."""
    return ran([TOP / "bench/start", "--is-current", CRATE.name]).returncode == 0


def proved():
    """The proved build. It is made if it isn't up to date, which takes as long as the proofs of all libraries."""
    if is_current():
        return PROGRAM
    print(f"speed: there is no current build of {CRATE.name}, so rt proves it and its libraries", file=sys.stderr, flush=True)
    made = ran(["rt", "run"], cwd=CRATE, input=(CRATE / "stdin").read_text(), text=True)
    if made.returncode or not PROGRAM.exists():
        sys.exit(f"speed: `rt run` in {CRATE} failed: {made.stdout[-500:]}{made.stderr[-500:]}")
    return PROGRAM


def asked():
    words = argparse.ArgumentParser(description="Times the library's operations.")
    words.add_argument("other", nargs="?", type=Path, metavar="OTHER")
    words.add_argument("--build", type=Path, metavar="PROGRAM")
    words.add_argument("--only", action="append", default=[], metavar="WORD")
    words.add_argument("--turns", type=int, default=TURNS, metavar="N")
    words.add_argument("--document", action="store_true")
    words.add_argument("--check", action="store_true")
    words.add_argument("--wanted", action="store_true")
    asked_for = words.parse_args()
    if asked_for.document and asked_for.build:
        words.error("the document has figures of the proved build: give --document without --build")
    return asked_for


def main():
    words = asked()
    if words.wanted:
        (CRATE / "stdout").write_text(small())
        return 0
    if words.check:
        is_right = (CRATE / "stdout").read_text() == small()
        said = "the check sums are right" if is_right else "crates/typst_bench/stdout is out of date: run bench/speed.py --wanted"
        print(f"speed: {said}")
        return 0 if is_right else 1
    programs = [words.build.resolve() if words.build else proved(), *([words.other.resolve()] if words.other else [])]
    said = []
    for line in measured(programs, words.turns, words.only):
        print(line, flush=True)
        said.append(line)
    if words.document:
        kept, heading, _ = DOCUMENT.read_text().partition(FIGURES)
        DOCUMENT.write_text(kept + heading + "\n" + "\n".join(said) + "\n")
    return 0


if __name__ == "__main__":
    sys.exit(main())
