#!/usr/bin/env python3
"""Says which functions of a crate took the prover longest.

    bench/dearest.py CRATE [N]     the first N (20) functions of crates/CRATE, after `rt check --jobs 1` there

A check keeps each module that it has checked as a file. With one job, the time from one file to the next is what the later module
took, if one check from nothing wrote them all. After several checks, or after a pause, some modules get too much. A gap of over five
minutes isn't counted. `bench/bodies.py --times` prints the same of the checks of wrong bodies, without what earlier checks kept.
"""
import re
import sys
from collections import Counter
from itertools import pairwise

from common import TOP

BORROWS = ("Lts", "Tie")  # that the borrows are right
PROOF = ("Proof", "Answers")  # that the goals hold
PART = re.compile(r"\.(Lts|Tie|Proof|Answers|Goals|Given|Reads|Layout|Mir|Code|Kinds|Named|Statement|Met|Invariants|Symbol|TheLink)\b.*")
GAP = 300  # in seconds; no module takes that long


def seconds_of(kept, since=0):
    """The seconds that the modules in a folder took which were written after a time: by function, and by function and part."""
    files = sorted((it.stat().st_mtime, it.name) for it in kept.rglob("*.oantt"))
    functions, parts = Counter(), Counter()
    for (before, _), (at, name) in pairwise(it for it in files if it[0] > since):
        module = name.removesuffix(".oantt").removesuffix(".decls").partition("-proofs.")[2]
        if module and at - before < GAP:
            part, function = PART.search(module), PART.sub("", module)
            functions[function] += at - before
            parts[function, part[1] if part else ""] += at - before
    return functions, parts


def table(functions, parts, count):
    """The dearest functions, each with its seconds, those for its borrows and those for its goals."""
    rows = [f"{'seconds':>9}{'borrows':>9}{'goals':>9}  function, of {sum(functions.values()):.0f} seconds in all"]
    for function, seconds in functions.most_common(count):
        borrows, goals = (sum(parts[function, it] for it in some) for some in (BORROWS, PROOF))
        rows.append(f"{seconds:9.1f}{borrows:9.1f}{goals:9.1f}  {function.replace('.', '::')}")
    return "\n".join(rows)


def main(name, count="20"):
    kept = TOP / "crates" / name / "out/incremental"
    if not kept.is_dir():
        sys.exit(f"{kept.relative_to(TOP)} isn't there: run `rt check --jobs 1` in crates/{name} first")
    print(table(*seconds_of(kept), int(count)))


if __name__ == "__main__":
    if len(sys.argv) not in (2, 3):
        sys.exit("usage: bench/dearest.py CRATE [N]")
    main(*sys.argv[1:])
