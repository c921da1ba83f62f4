#!/usr/bin/env python3
"""Runs a command, and says where the prover's processor time went, by crate and by part.

    bench/minutes.py ./gate

Each second it reads what every `rattle` process has used so far. So it doesn't see a part that lasts less than a
second. The folder in which a process runs says what it proves. It is a crate's own folder (the crate's proof, or with
--test that of its tests) or one of bench/bodies.py.
"""
import os
import subprocess
import sys
import time
from pathlib import Path

TICKS = os.sysconf("SC_CLK_TCK")


def kind(folder, words):
    """The part that a process works for."""
    if "/bodies-" in folder or "/made-up-" in folder:
        return "judge"
    return "tests" if "--test" in words else "proof"


def sampled(used):
    """Notes what each process of the prover that no other one started has used, with its own ended processes."""
    for entry in Path("/proc").iterdir():
        if not entry.name.isdigit():
            continue
        try:
            words = (entry / "cmdline").read_bytes().decode(errors="replace").split("\0")
            if not words[0].endswith("/rattle") or "--crate-name" not in words:
                continue
            stat = (entry / "stat").read_text().rpartition(")")[2].split()
            parent = (Path("/proc") / stat[1] / "cmdline").read_bytes().decode(errors="replace").split("\0")[0]
            if parent.endswith("/rattle"):
                continue
            crate = words[words.index("--crate-name") + 1]
            used[entry.name, stat[19]] = (kind(os.readlink(entry / "cwd"), words), crate, sum(map(int, stat[11:15])) / TICKS)
        except (OSError, IndexError, ValueError):
            continue


def table(used):
    """The minutes of each crate, and of each part."""
    parts, sums = ["proof", "tests", "judge"], {}
    for part, crate, seconds in used.values():
        for key in ((crate, part), (crate, "all"), ("all", part), ("all", "all")):
            sums[key] = sums.get(key, 0) + seconds
    crates = sorted({it for it, _ in sums} - {"all"}, key=lambda it: -sums[it, "all"])
    rows = [["processor minutes", *parts, "all"]]
    rows += [[it, *(f"{sums.get((it, part), 0) / 60:.1f}" for part in [*parts, "all"])] for it in [*crates, "all"]]
    return "\n".join(f"{row[0]:<22}" + "".join(f"{it:>11}" for it in row[1:]) for row in rows)


def main():
    began, used = time.monotonic(), {}
    with subprocess.Popen(sys.argv[1:]) as ran:
        while ran.poll() is None:
            sampled(used)
            time.sleep(1)
    print(table(used), file=sys.stderr)
    print(f"{(time.monotonic() - began) / 60:.0f} minutes by the clock", file=sys.stderr)
    return ran.returncode


if __name__ == "__main__":
    sys.exit(main() if len(sys.argv) > 1 else "usage: bench/minutes.py COMMAND ..")
