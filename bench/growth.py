#!/usr/bin/env python3
"""Counts the instructions of calls on trees and texts of two sizes, and fails if a call takes more than it may.

So it finds work in proportion to a whole where a part was asked for. It needs no clock.

    bench/growth.py             compares with the bounds below
    bench/growth.py --found     prints what is found, with no comparison

It runs the proved builds that `rt ci` makes (`rt run` in crates/typst_run and crates/typst_bench) under valgrind's
callgrind, which counts the same instructions in each run of a build. It makes one run with calls and one with none. The
difference, divided by the number of calls, is a call's count. What a call asks of memory is counted in the same way, in
bytes. Where there is no valgrind it says so and compares nothing.
"""
import re
import shutil
import sys

from common import ended, parser, proved, ran

# The two numbers of children or of lines, and how often each call is made.
SIZES, CALLS = (1_000, 16_000), 32
# The most instructions of a call at each size.
BOUNDS = {
    "find": (970, 1_050),
    "leaf_at": (1_360, 1_710),
    "errors_and_warnings": (105, 105),
    "replace": (990, 990),
    "insert": (2_800, 3_800),
    "run": (2_070, 2_150),
    "script: run": (670, 670),
    "script: find, run": (1_900, 1_900),
    "script: replace, run": (4_700, 4_800),
    # Texts. An edit is made and taken back: in the middle, or in turns at both ends, with the blocks between them.
    "text: letter": (42_500, 109_500),
    "text: letter far": (48_600, 205_500),
    "text: letter list": (32_300, 116_500),
    "text: lines letter": (1_850, 3_550),
    "text: byte_to_line": (210, 250),
    "text: line_column_to_byte": (130, 130),
    "text: place_of": (490, 520),
}
# The most instructions for each line of a text that is parsed: of paragraphs, of one block, and of items without blank lines.
PER_LINE = {"text: parse": (9_000, 9_000), "text: parse block": (10_950, 10_800), "text: parse list": (11_300, 11_300)}
# The same for each piece of a text of one line that repeats it: brackets that nothing closes, operators, fields, calls, names.
PER_PIECE = {
    "text: parse round": (2_900, 2_800),
    "text: parse square": (800, 790),
    "text: parse curly": (2_700, 2_570),
    "text: parse dollars": (2_280, 2_260),
    "text: parse minus": (55, 45),
    "text: parse fields": (3_880, 3_870),
    "text: parse calls": (37_200, 38_100),
    "text: parse items": (1_340, 1_100),
    "text: parse keys": (8_300, 8_450),
}
# The same for each function of code and for each equation: of so many.
PIECES, PER_LONG_PIECE = (100, 1_600), {"text: parse code": (116_500, 117_000), "text: parse equations": (58_500, 59_500)}
# The most instructions for each level of a chain, whose leaf a reconciliation changes: at so many levels.
LEVELS, PER_LEVEL = (30, 480), {"text: reconcile chain": (1_500, 1_210)}
# The most bytes of memory that a call may ask for.
BYTES = {"text: letter": (9_400, 31_000)}


INSTRUCTIONS = ["--tool=callgrind", "--callgrind-out-file=/dev/null"], r"Collected : (\d+)"
ASKED = ["--tool=memcheck", "--undef-value-errors=no"], r"frees, ([\d,]+) bytes allocated"


def counted(words, lines, what=INSTRUCTIONS):
    """How many instructions a program takes on these lines, or how many bytes it asks for."""
    tool, told = what
    done = ran(["valgrind", *tool, *words], input=lines.encode())
    said = done.stderr.decode(errors="replace")
    found = re.search(told, said)
    if done.returncode or not found or b"wrong" in done.stdout:
        sys.exit(f"growth: {words[0].name} on {lines[:60]!r}: status {done.returncode}, {done.stdout[-200:]!r}, {said[-500:]}")
    return int(found[1].replace(",", ""))


def script(size, words, calls):
    """A script that makes a tree of so many leaves, and then asks by these words so often."""
    lines = {"run": "run\n", "find": "find 1 1000\n", "replace": "leaf 6 cd\nreplace - {0} {1} 1\n"}
    asked = "".join(lines[word] for word in words).format(size // 2, size // 2 + 1)
    return "leaf 6 ab\n" * size + f"inner 5 {size}\nroot\nnumber 1 2 140737488355328\nrun\n" + asked * calls


def of_call(name, size, calls=CALLS, what=INSTRUCTIONS):
    """What a call takes in a tree or a text of this size."""
    kind, _, words = name.rpartition(": ")
    if kind == "script":
        few, many = (counted([proved("typst_run"), "script"], script(size, words.split(", "), often), what) for often in (0, calls))
    else:
        line = words if kind == "text" else f"large {words}"
        few, many = (counted([proved("typst_bench")], f"{line} {size} {often}\n", what) for often in (0, calls))
    return (many - few) // calls


def rows():
    """Each name with what is counted, at which sizes, its bounds, and what is found at each size."""
    for name, bounds in BOUNDS.items():
        yield name, "instructions", SIZES, bounds, [of_call(name, size) for size in SIZES]
    for sizes, unit, group in ((SIZES, "line", PER_LINE), (SIZES, "piece", PER_PIECE), (PIECES, "piece", PER_LONG_PIECE)):
        for name, bounds in group.items():
            yield name, f"instructions a {unit}", sizes, bounds, [of_call(name, size, 2) // size for size in sizes]
    for name, bounds in PER_LEVEL.items():
        yield name, "instructions a level", LEVELS, bounds, [of_call(name, size) // size for size in LEVELS]
    for name, bounds in BYTES.items():
        yield name, "bytes of memory", SIZES, bounds, [of_call(name, size, CALLS, ASKED) for size in SIZES]


def main():
    is_asked = parser(__doc__, "--found").parse_args().found
    if not shutil.which("valgrind"):
        print("growth: no valgrind, so no instructions are counted")
        return 0
    wrong, count = [], 0
    for name, what, sizes, bounds, found in rows():
        count += 1
        if is_asked:
            print(f"{name}: {found} {what}")
            continue
        for size, taken, most in zip(sizes, found, bounds):
            if taken > most:
                wrong.append(f"{name}: {taken} {what} at the size {size}, and {most} are the most")
    return ended(wrong, f"{count} rows counted at two sizes, {len(wrong)} of the figures above their bound")


if __name__ == "__main__":
    sys.exit(main())
