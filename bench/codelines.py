#!/usr/bin/env python3
"""Counts the lines of code of crates, those by hand and those that bench/kinds.py writes.

    bench/codelines.py              counts the six libraries under `typst_tree`, and it
    bench/codelines.py CRATE..      counts these crates
    bench/codelines.py --files      also prints each file's count

A line of code isn't empty, isn't a comment, and belongs to no clause and no ghost item: these are for the proof alone.
"""
import re
import sys

from common import TOP, parser

SIX = "typst_base typst_node typst_linked typst_atoms typst_ast typst_tree".split()
FOR_PROOF = re.compile(r"(?:requires|ensures|ghost|invariant|decreases)\b")
STRING = re.compile(r'"(?:[^"\\]|\\.)*"')
OPENING, CLOSING = "([{", ")]}"


def depth(line):
    """How many brackets the line leaves open."""
    bare = STRING.sub('""', line)
    return sum(bare.count(it) for it in OPENING) - sum(bare.count(it) for it in CLOSING)


def code_lines(text):
    count = open_brackets = 0
    for line in text.splitlines():
        line = line.strip()
        if open_brackets > 0:
            open_brackets += depth(line)
        elif FOR_PROOF.match(line):
            open_brackets = max(0, depth(line))
        elif line and not line.startswith("//"):
            count += 1
    return count


def main():
    words = parser(__doc__, "--files")
    words.add_argument("crates", nargs="*", default=SIX)
    given = words.parse_args()
    all_by_hand = all_written = 0
    for crate in given.crates:
        by_hand = written = 0
        for file in sorted((TOP / "crates" / crate / "src").rglob("*.rt")):
            text = file.read_text()
            count = code_lines(text)
            is_written = "bench/kinds.py" in text[:300]
            by_hand, written = by_hand + count * (not is_written), written + count * is_written
            if given.files:
                print(f"  {count:5}  {file.relative_to(TOP)}{'  written by bench/kinds.py' * is_written}")
        print(f"{by_hand + written:6}  {crate}: {by_hand} by hand, {written} written by bench/kinds.py")
        all_by_hand, all_written = all_by_hand + by_hand, all_written + written
    print(f"{all_by_hand + all_written:6}  in all: {all_by_hand} by hand, {all_written} written by bench/kinds.py")


if __name__ == "__main__":
    sys.exit(main())
