#!/usr/bin/env python3
"""Says whether the pages have what crates/typst_run/stdout has: docs/SCRIPT.md a form for each accessor of each view, and
docs/internal/GATE.md how many lines each mark has.

    bench/checks/look.py
"""
import re
import sys
from collections import Counter
from pathlib import Path

TOP = Path(__file__).resolve().parents[2]
PAGE = TOP / "docs/SCRIPT.md"
COUNTS = TOP / "docs/internal/GATE.md"
WANTED = TOP / "crates/typst_run/stdout"
# Lines of answers that are no accessor of a view: of each expression or pattern, and of what an accessor answers.
OTHERS = {"hash", "is_literal", "bindings"}


def forms(page):
    """The accessors that the page's rows name, by view."""
    block = next(it for it in re.findall(r"```text\n(.*?)```", page, re.S) if "\nHeading: " in it)
    rows = (line.split(": ") for line in block.splitlines())
    return {view: {"own" if word.endswith("=own") else word.split("=")[0] for word in words.split()} for view, words in rows}


def answered(lines):
    """The accessors that lines of answers name, by view."""
    found = {}
    for line in lines:
        it = re.match(r"\S+ ([A-Z]\w*)\.(\w+) ", line)
        if it and it[2] not in OTHERS:
            found.setdefault(it[1], set()).add(it[2])
    return found


def counted(lines):
    """How many lines each word of a mark has, the marks included."""
    count, mark = Counter(), ""
    for line in lines:
        it = re.match(r"#(\w+)", line)
        mark = it[1] if it else mark
        count[mark] += 1
    return count


def faults():
    page, lines = COUNTS.read_text(), WANTED.read_text().split("\n")[:-1]
    told, has = forms(PAGE.read_text()), answered(lines)
    for view in sorted(told.keys() | has.keys()):
        for name in sorted(told.get(view, set()) ^ has.get(view, set())):
            yield f"{view}.{name} is in {'a row of the page' if name in told.get(view, ()) else 'stdout'} alone"
    total = re.search(r"([\d,]+) lines", page[page.index("/stdin` builds ") :])[1]
    if total != f"{len(lines):,}":
        yield f"the page tells {total} lines, and stdout has {len(lines):,}"
    for mark, number in counted(lines).items():
        row = re.search(rf"^\| `{mark}` \|.*\| ([\d,]+) \|$", page, re.M)
        if not row or row[1] != f"{number:,}":
            yield f"the row of {mark} tells {row[1] if row else 'nothing'}, and stdout has {number:,} lines"


def main():
    found = [f"look: {it}" for it in faults()]
    print("\n".join(found) or "docs/SCRIPT.md has the accessors, and docs/internal/GATE.md the lines, of crates/typst_run/stdout")
    return 1 if found else 0


if __name__ == "__main__":
    sys.exit(main())
