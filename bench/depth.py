#!/usr/bin/env python3
"""Looks for the depth of a chain of nodes that each call reaches in a stack of 8 MB, and prints a table.

    bench/depth.py              the rows of the table in docs/MEMORY.md
    bench/depth.py CALL ..      those of these calls

Each node of the chain is inside the one before. The script runs the proved builds of crates/typst_bench and, for `show`,
of crates/typst_run (`rt run` in the crate's folder makes each), once for each depth that it tries. It halves the
distance between a depth that a call returns from and one at which a signal ends the process.
"""
import resource
import subprocess
import sys

from common import proved, ran

STACK = 8 << 20
# The calls of typst_bench in the table. Each is asked for as `large clone deep`. The last is one of scripts.
CALLS = ("build", "drop", "number", "is_numbered", "replace", "find", "clone", "compare", "hash", "full_text", "errors_and_warnings")
SHOW = "show"
# The depth that no call is tried beyond, and how near the two depths come to each other, as a part of the lower one.
MOST, NEARNESS = 4_000_000, 200


def limit():
    resource.setrlimit(resource.RLIMIT_STACK, (STACK, STACK))


def called(name, depth):
    """How a run of one call ends."""
    asked = f"large {name} deep {depth} 1"
    done = ran([proved("typst_bench")], input=f"{asked}\n".encode(), preexec_fn=limit)
    return done.returncode, done.stdout.decode() == f"{asked} right\n"


def shown(depth):
    """How a script that shows a chain ends, by the last line that it prints: the program drops its tree thereafter."""
    script = b"leaf 6 a\n" + b"inner 5 1\n" * depth + b"root\nshow\n"
    wanted = b"\n" + b" " * (2 * depth) + b"6 1 2 1 a\n"
    begun = subprocess.Popen([proved("typst_run"), "script"], stdin=subprocess.PIPE, stdout=subprocess.PIPE, preexec_fn=limit)
    last = subprocess.Popen(["tail", "-c", str(len(wanted))], stdin=begun.stdout, stdout=subprocess.PIPE)
    begun.stdout.close()
    begun.stdin.write(script)
    begun.stdin.close()
    is_whole = last.communicate()[0] == wanted
    return (0 if is_whole else begun.wait()), is_whole


def returns(name, depth):
    """Whether a call returns at this depth; anything but that and the end of the stack ends the program."""
    status, is_right = shown(depth) if name == SHOW else called(name, depth)
    if status >= 0 and not is_right:
        sys.exit(f"{name} {depth}: status {status}")
    return status == 0


def reached(name):
    """The depth that a call reaches, and whether the stack ends there."""
    low, high = 0, 1000
    while returns(name, high):
        if high == MOST:
            return high, False
        low, high = high, min(high * 2, MOST)
    while high - low > max(1, low // NEARNESS):
        middle = (low + high) // 2
        low, high = (middle, high) if returns(name, middle) else (low, middle)
    return low, True


def main():
    for name in sys.argv[1:] or (*CALLS, SHOW):
        depth, is_end = reached(name)
        print(f"| `{name}` | {f'{depth:,}' if is_end else f'more than {depth:,}'} |", flush=True)
    return 0


if __name__ == "__main__":
    sys.exit(main())
