#!/usr/bin/env python3
"""Runs what tells most in a few minutes and needs no proof: ./gate --quick.

    bench/quick.py

It works in a clean clone, four parts at a time, the longest first:

- the checks of bench/seconds;
- the tests of each crate that has some, by `rt try --test`;
- the programs of examples/README.md, by `rt try`, and the trees of texts in typst_language_tests, which takes some 130,000 edits: each must
  print its `stdout`. One that reads files is a build of which nothing is tested;
- the scripts and the looks in examples/ by ./run and ./look, and the text with a mistake and its edit by ./show: each must print its
  `NAME.stdout`.

`rt try` builds without a proof, and tests while a program runs what the proof would show. It tests no contract. ./run, ./look and
./show make builds of which nothing is tested or proved, as they do for a user (bench/start).

The last line is 'N passed, M failed'. Each check, each test and each program, script or look counts.
"""
import os
import re
import shlex
import sys
import tempfile
import time
from concurrent.futures import ThreadPoolExecutor, as_completed
from pathlib import Path

import unproved
from common import TOP, first_other, parser, ran

CRATES, EXAMPLES = TOP / "crates", TOP / "examples"
LANES = min(4, len(os.sched_getaffinity(0)))
# `rt try` as it is called here. Where a machine has much to do, a program may take longer than the minute that it gets otherwise.
TRY = ["rt", "try", "--seconds", "600"]
# What the names of tests begin with that `rt try` can't run: they take all memory, and its allocator keeps some for itself.
WITH_ALL_MEMORY = "memory::refused::"
# The program that compares trees of texts.
AGREEMENT = "typst_language_tests"
# The starters of the programs that read scripts and looks.
STARTERS = {".script": "./run", ".look": "./look"}
LEFT_OUT = """Left out, and in ./gate: every proof, and so whether contracts hold; the wrong bodies that the prover must refuse; the tests that take
all memory; the answers of typst_run; words, pages and inputs of ./show; refused memory and failing reads; the C header and the Rust
crate; bounds of work."""


def told(done):
    """The end of what a command printed, for a part that failed."""
    return (done.stdout + done.stderr).decode(errors="replace").strip()[-2000:]


def check(words):
    """A check of bench/seconds."""
    done = ran(shlex.split(words), cwd=TOP)
    return int(done.returncode == 0), int(done.returncode != 0), told(done)


def tests(name):
    """The tests of a crate. If they can't be built or don't end, that counts as one that failed."""
    done = ran([*TRY, "--test"], cwd=CRATES / name)
    said = done.stdout.decode(errors="replace")
    ends = [(test, end) for test, end in re.findall(r"^test (\S+) \.\.\. (\w+)$", said, re.M) if not test.startswith(WITH_ALL_MEMORY)]
    failed = [test for test, end in ends if end != "ok"]
    is_whole = ends and re.search(r"^test result: ", said, re.M)
    shown = [it for it in re.split(r"^(?=test )", said, flags=re.M) if any(it.startswith(f"test {test} ") for test in failed)]
    return len(ends) - len(failed), len(failed) or int(not is_whole), "".join(shown) or told(done)


def program(name):
    """A program that gets the words of its `args`, and must print its `stdout` and end with its `status`. If it reads files, it runs in
    the folder `data`. `rt try` runs none there, so of such a program nothing is tested."""
    folder = CRATES / name
    given = (folder / "stdin").read_bytes() if (folder / "stdin").exists() else b""
    words = (folder / "args").read_text().split() if (folder / "args").exists() else []
    status = int((folder / "status").read_text()) if (folder / "status").exists() else 0
    if not (folder / "data").is_dir():
        return compared(ran([*TRY, "--", *words], cwd=folder, input=given), folder / "stdout", status)
    with tempfile.TemporaryDirectory() as room:
        made = Path(room, name)
        try:
            unproved.build(folder, made)
        except unproved.Unbuilt as error:
            return 0, 1, str(error)
        return compared(ran([made, *words], cwd=folder / "data", input=given), folder / "stdout", status)


def compared(done, wanted, status=0):
    """Whether a command has printed what is in a file, and ended with this status."""
    text = wanted.read_bytes()
    is_right = done.stdout == text and done.returncode == status
    how = f"{wanted.relative_to(TOP)}: {first_other(done.stdout, text)}; the status is {done.returncode}, and should be {status}"
    return int(is_right), int(not is_right), f"{how}\n{told(done)}"


def scripts(ending):
    """The scripts or the looks of examples/, one by one. The first makes the build."""
    done = [compared(ran([STARTERS[ending], it], cwd=TOP), it.with_suffix(".stdout")) for it in sorted(EXAMPLES.glob(f"*{ending}"))]
    return sum(it[0] for it in done), sum(it[1] for it in done) or int(not done), "".join(it[2] for it in done if it[1])


def mistake():
    """The text with a mistake and the edit that mends it, by ./show."""
    done = ran(["./show", "examples/mistake.typ", "--edits", "examples/mistake.edits"], cwd=TOP)
    return compared(done, EXAMPLES / "mistake.stdout")


def parts():
    """What is run, the longest first: a name, a call, and its arguments."""
    yield AGREEMENT, program, AGREEMENT
    for file in sorted(CRATES.glob("*/src"), key=lambda it: -sum(source.stat().st_size for source in it.rglob("*.rt"))):
        if any("#[test]" in source.read_text() for source in file.rglob("*.rt")):
            yield f"tests of {file.parent.name}", tests, file.parent.name
    yield "the mistake by ./show", mistake
    for ending in STARTERS:
        yield f"examples/*{ending}", scripts, ending
    for name in sorted(it.name for it in CRATES.glob("example_*")):
        yield name, program, name
    for words in ran(["bench/seconds", "--list"], cwd=TOP).stdout.decode().splitlines() or ["bench/seconds --list"]:
        yield words, check, words


def timed(call, given):
    """What a part gives, and how many seconds it took."""
    began = time.monotonic()
    return (*call(*given), time.monotonic() - began)


def main():
    parser(__doc__).parse_args()
    began, passed, failed, lost = time.monotonic(), 0, 0, []
    with ThreadPoolExecutor(LANES) as pool:
        running = {pool.submit(timed, call, given): name for name, call, *given in parts()}
        for it in as_completed(running):
            name = running[it]
            good, bad, text, seconds = it.result()
            passed, failed = passed + good, failed + bad
            print(f"{name}: {good} passed, {bad} failed, {seconds:.0f} seconds", flush=True)
            if bad:
                print(text, flush=True)
            lost += [name] * bool(bad)
    print(LEFT_OUT)
    for name in lost:
        print(f"failed: {name}")
    print(f"this took {time.monotonic() - began:.0f} seconds on {LANES} processors")
    print(f"{passed} passed, {failed} failed")
    return 1 if failed else 0


if __name__ == "__main__":
    sys.exit(main())
