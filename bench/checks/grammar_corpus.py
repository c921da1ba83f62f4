#!/usr/bin/env python3
"""Tries the table of the whole syntax on texts, by a plain lexer and a plain machine.

    bench/checks/grammar_corpus.py
    bench/checks/grammar_corpus.py --write FOLDER COUNT [SEED]    writes COUNT valid texts and COUNT soups by chance, each as NAME.typ
                                                                  with NAME.tree, and tries nothing

It fails if the tree of a text in crates/typst_language_tests/data isn't the one beside it, with a few exceptions that have errors and that
bench/grammar/texts.py names; if there is a row without which all those trees stay the same, and with no more looks at tokens; if a row could take the end of the text, or
rows could go round without a token; if a text of the grammar has an error, or a byte of any text is lost; or if the work isn't linear.
"""
import random
import sys
from pathlib import Path

sys.path.insert(0, str(Path(__file__).resolve().parents[1]))
from common import TOP
from grammar.checks import faults
from grammar.machine import Machine, Refused, Rows, parse
from grammar.nodes import Node, lines_of
from grammar.table import TABLE, Table
from grammar.texts import DATA, OTHERS, soup, valid_text

# What work has to be linear in: a beginning, what comes behind it again and again, and how often.
REPEATED = [
    ("#", "(", 10_000), ("", "[", 10_000), ("#", "{", 10_000), ("", "$", 10_000), ("#{", " -a", 10_000), ("#a", ".b", 10_000),
    ("#", "f(", 10_000), ("", "- ", 10_000), ("", "- a\n", 1_000), ("", "#[", 1_000), ("", "*a _b ", 1_000), ("$", "(", 1_000),
    ("$", "f(", 1_000), ("$", "x_", 1_000), ("$", "a/", 1_000), ("#", "(a,", 1_000), ("#", "(a:", 1_000), ("#{", "a = ", 1_000),
]  # fmt: skip
MOST_WORK = 20  # looks for each
VALID, SOUPS = 200, 400
SHORTCUTS = []  # the lines of the rows without which all trees are the same, and tokens are looked at more often


def rows_of(table):
    """The lines of all rows."""
    states = [row[3] for state in table.states.values() if not state.is_rest for row in state.rows]
    return states + [row.line for it in table.maps.values() for row in it.rows]


def needed(rows, line, users):
    """What a row is needed for, by the machines that used it: a tree, or fewer looks at tokens. Without either it isn't."""
    rows.left_out, looks = line, 0
    try:
        for user in users:
            machine = Machine(rows, user.lexer, True)
            if machine.run() != user.nodes:
                return "tree"
            looks += machine.looks - user.looks
        return "looks" if looks > 0 else ""
    except Refused:
        return "tree"
    finally:
        rows.left_out = 0


def corpus(rows):
    """What is wrong with the trees of the texts, and with the rows."""
    machines = {path.stem: parse(rows, path.read_bytes().decode()) for path in sorted(DATA.glob("*.typ"))}
    for name, machine in machines.items():
        is_same = list(lines_of(Node("Markup", children=tuple(machine.nodes)))) == (DATA / f"{name}.tree").read_text().splitlines()
        if is_same == (name in OTHERS):
            yield f"{name}.tree is {'the tree of the rows now: take it from the exceptions' if is_same else 'another tree'}"
        if name in OTHERS and not has_error(machine):
            yield f"{name}: no error"
    source = TABLE.read_text().splitlines()
    for line in rows_of(rows.table):
        need = needed(rows, line, [machine for machine in machines.values() if line in machine.used])
        if not need:
            yield f"{TABLE.name}:{line}: no tree needs this row: {source[line - 1].strip()}"
        elif need == "looks":
            SHORTCUTS.append(line)


def has_error(machine):
    todo = list(machine.nodes)
    while todo:
        node = todo.pop()
        if node.kind == "Error":
            return True
        todo += node.children or ()
    return False


def texts_of_all(rows):
    """What is wrong with texts that are made by chance."""
    for seed in range(VALID):
        text = valid_text(random.Random(seed))
        machine = parse(rows, text)
        if has_error(machine):
            yield f"an error in the valid text {seed}: {text!r}"
        if Node("Markup", children=tuple(machine.nodes)).full_text() != text:
            yield f"the text {seed} of the tree is another one: {text!r}"
    for seed in range(SOUPS):
        text = soup(random.Random(seed))
        if Node("Markup", children=tuple(parse(rows, text).nodes)).full_text() != text:
            yield f"the text of the tree is another one: {text!r}"


def linear(rows):
    """The texts that take more work than they may."""
    for start, piece, count in REPEATED:
        machine = parse(rows, start + piece * count)
        if machine.looks > MOST_WORK * count:
            yield f"{machine.looks} looks for {start + piece!r}, the end {count:,} times"


def write(rows, folder, count, seed=0):
    """Writes texts by chance, with their trees by the plain machine."""
    Path(folder).mkdir(parents=True, exist_ok=True)
    for number in range(int(seed), int(seed) + int(count)):
        for name, make in (("valid", valid_text), ("soup", soup)):
            text, file = make(random.Random(number)), Path(folder, f"{name}-{number}.typ")
            file.write_bytes(text.encode())
            tree = Node("Markup", children=tuple(parse(rows, text).nodes))
            file.with_suffix(".tree").write_text("\n".join(lines_of(tree)) + "\n")


def main():
    sys.setrecursionlimit(10_000)
    table = Table(TABLE)
    rows = Rows(table)
    if sys.argv[1:2] == ["--write"]:
        return write(rows, *sys.argv[2:])
    wrong = [*faults(table), *corpus(rows), *texts_of_all(rows), *linear(rows)]
    if wrong:
        sys.exit("\n".join(wrong))
    trees = len(list(DATA.glob("*.tree")))
    print(f"the rows of {TABLE.relative_to(TOP)} make {trees - len(OTHERS)} of {trees} trees, and each of the {len(rows_of(table))} is needed")
    print(f"for fewer looks at tokens, and for no tree: the rows of the lines {', '.join(map(str, SHORTCUTS))}")


if __name__ == "__main__":
    main()
