"""A copy of a crate in which edits are checked, over the libraries that are proved."""
import os
import re
import shutil
import sys
import threading
import time
from collections import Counter
from pathlib import Path

from common import TOP, crates, ran
from dearest import seconds_of
from judge.sources import Hunk, placed

SAID = re.compile(r"fn (\S+): (.*)")
ERRORS = re.compile(r"^\./proofs/(\S+?\.antt):\d+:\d+: error: (.*)", re.M)
REACHED = re.compile(r"^(?:logic=(?:not-)?proved|only=\d)", re.M)
GOAL = "`search` did not prove `"
NOTE = re.compile(r"note: src/\S+?:\d+:\d+: .*?\(`([^`]+)`\)(.*gave up at one of its limits)?")  # a goal that is left
GOES = re.compile(r"^pub \S+-clause-goes :.*?\n(?=\n|\Z)", re.M | re.S)  # an answer for what a copy of a trait's method doesn't owe
# What an emptied function has for a proof: it is refused at once, so that the prover doesn't search for its goal.
EMPTIED = """use {module}.Goals as goal

pub unreachable-requires : goal.unreachable-requires
unreachable-requires = unnamed
"""
# What is added to the proof of a function that is judged: something that is refused. The prover searches for the function's goals as
# before and prints those that are left. It leaves out its second run, in which it would offer answers for them.
MARK = """
judged : unnamed
judged = unnamed
"""


def needs_of(top):
    """What each crate of crates.txt uses."""
    return {name: uses for name, (_, uses) in crates(top).items()}


def below(name, needs):
    """The crates of the repository below this one, in any number of steps."""
    found, todo = set(), [name]
    while todo:
        new = {it for it in needs[todo.pop()] if it in needs} - found
        found |= new
        todo += new
    return found


def stamp(place, names):
    """Marks the libraries as built from the sources next to them, as `rt check` marks its own: `rt ci` has just made them."""
    sys.path.insert(0, str(Path(shutil.which("rt")).resolve().parent))
    import rtlib  # of the toolchain

    for it in rtlib.crates_below(str(place)):
        if it.name in names:
            Path(it.folder, "out/rlib/stamp").write_text(it.stamp())


class Room:
    """A copy of a crate and of the crates below it, in which batches are checked."""

    def __init__(self, top, name, place, jobs, proved=None, nice=0):
        self.source, self.crate, self.jobs, self.checks = top / "crates" / name, Path(place) / "crates" / name, jobs, 0
        self.nice, self.proved, self.times = nice, proved, (Counter(), Counter())
        needs = needs_of(top)
        kept = below(name, needs)
        for it in kept:
            leaves_out = shutil.ignore_patterns("out" if proved else "incremental", "*.o")
            shutil.copytree(top / "crates" / it, Path(place) / "crates" / it, ignore=leaves_out)
            if proved:
                shutil.copytree(proved.place / it, Path(place) / "crates" / it / "out/rlib")
        listed = [f"{what}: {' '.join(uses)}\n" for it, (what, uses) in crates(top).items() if it in kept | {name}]
        (Path(place) / "crates.txt").write_text("".join(listed))
        shutil.copy(top / "HANDLES", place)
        if proved:
            shutil.copytree(self.source / "src", self.crate / "src")  # rt reads no crate without one
            stamp(place, kept)

    def folder(self, path):
        """The folder of the proof of the function with this path."""
        return self.crate.joinpath("proofs", *path.split("::")[1:])

    def prove_nothing(self, function, paths):
        """Replaces the proof of an emptied function by one that is refused at once."""
        for folder in function.proof_folders(self.crate / "proofs"):
            shutil.rmtree(folder)
        for path in paths:
            folder = self.folder(path)
            if not folder.exists():  # else it may be the proof of another
                folder.mkdir(parents=True)
                module = path.replace("::", ".proofs.", 1).replace("::", ".")
                (folder / "Answers.antt").write_text(EMPTIED.format(module=f"Rattle.{module}"))

    def mark(self, function, paths, recurs):
        """Adds something that is refused to the proof of a function or of its cycle. If the function calls itself, its proof is in a
        folder whose name begins with `+`. A file next to that folder stops a check, and one file too many in it doesn't."""
        name, proofs = f"{'+' * recurs}{function.name}", self.crate / "proofs"
        folders = [it for it in function.proof_folders(proofs) if it.name == name]
        folders = folders or [self.folder(path).with_name(name) for path in paths]
        for folder in proofs.glob(f"**/+{function.cycle}") if function.cycle else folders:
            if not (folder / "Proof.antt").exists():
                folder.mkdir(parents=True, exist_ok=True)
                with (folder / "Answers.antt").open("a") as file:
                    file.write(MARK)

    def prove_copies(self, copies):
        """Gives copies of functions the proofs of the originals. The copy of a trait's method is a method of the type."""
        for made, original in copies.items():
            for folder in original.proof_folders(self.crate / "proofs"):
                home = folder.parent.with_name(made.subject.replace("::", "+")) if original.trait else folder.parent
                old, new = (".".join(it.relative_to(self.crate).parts) for it in (folder, home / made.name))
                for file in shutil.copytree(folder, home / made.name).glob("*.antt"):
                    text = GOES.sub("", file.read_text()) if original.trait else file.read_text()
                    file.write_text(text.replace(f".{old}.", f".{new}."))

    def checked(self, hunks, copies, emptied, marked, only=()):
        """What the check says of each function, and the errors in the files below proofs/. Both are empty if the prover wasn't reached.

        Copies have the proofs of their originals. An emptied function has the body `unreachable!()` and a proof that is refused at
        once; it comes with the paths that it may have. Of a marked function the check says at which goals it fails, and never that it
        is proved. With paths in `only` the check covers these functions and those that they call, and no others."""
        for part in ("src", "specs", "proofs"):
            shutil.rmtree(self.crate / part, ignore_errors=True)
            if (self.source / part).is_dir():
                shutil.copytree(self.source / part, self.crate / part)
        if (self.source / "out/incremental").is_dir():  # what is kept of right bodies, also after a check of wrong ones
            shutil.rmtree(self.crate / "out/incremental", ignore_errors=True)
            shutil.copytree(self.source / "out/incremental", self.crate / "out/incremental")
        self.prove_copies(copies)
        for function, paths in emptied.items():
            self.prove_nothing(function, paths)
        for function, (paths, recurs) in marked.items():
            self.mark(function, paths, recurs)
        hunks = [*hunks, *(Hunk(it.file, it.body, it.end - 1, " unreachable!() ") for it in emptied)]
        for file in {it.file for it in hunks}:
            text = (self.crate / file).read_text()
            (self.crate / file).write_text(placed(text, [it for it in hunks if it.file == file]))
        self.checks += 1
        wait_for_memory()
        jobs = 1 if self.proved and not self.proved.is_over else max(1, min(self.jobs, idle_processors()))
        words = ["nice", "-n", str(self.nice), "rt", "check", "--jobs", str(jobs)]
        words += [word for it in only for word in ("--only", it)]
        began = time.time()
        done = ran(words, cwd=self.crate, text=True)
        for sums, new in zip(self.times, seconds_of(self.crate / "out/incremental", began)):
            sums.update(new)
        self.text = done.stdout + done.stderr
        reached = REACHED.search(self.text)
        errors = [(file, text) for file, text in ERRORS.findall(self.text) if not text.startswith("`judged`")]
        return (said_in(self.text), errors) if reached else ({}, [])


def idle_processors():
    """How many processors are idle, without this process. Two jobs of one check take a quarter more processor time than one job, so
    beside a run of `rt ci`, which has a use for each processor, a check gets one."""
    running = int(Path("/proc/loadavg").read_text().split()[3].partition("/")[0])
    return len(os.sched_getaffinity(0)) + 1 - running


def wait_for_memory():
    """Waits until there is memory for a check, which takes 1 to 3 GB, or ten minutes."""
    for _ in range(300):
        available = re.search(r"MemAvailable:\s+(\d+) kB", Path("/proc/meminfo").read_text())
        if int(available[1]) > 4_000_000:
            break
        time.sleep(2)


def said_in(text):
    """What a check says of each function, with the goals that are left. Notes before a function's line name these goals."""
    said, left = {}, ""
    for line in text.split("\n"):
        if note := NOTE.match(line):
            left += f"; {GOAL}{note[1]}{' at a limit' * bool(note[2])}`"
        elif function := SAID.match(line):
            path, words = function.groups()
            said[path], left = words.partition(GOAL)[0] + left if left else words, ""
    return said


class Proved:
    """The libraries that a run of `rt ci` has proved so far or kept from an earlier run. Each is copied as soon as the log names it,
    until the `with` statement ends."""

    def __init__(self, log, place):
        self.log, self.place, self.names, self.lost, self.is_over = Path(log), Path(place), set(), set(), False
        self.left, self.watcher = threading.Event(), threading.Thread(target=self.watch, daemon=True)
        self.watcher.start()

    def __enter__(self):
        return self

    def __exit__(self, *_):
        self.left.set()
        self.watcher.join()

    def watch(self):
        while not self.is_over and not self.left.is_set():
            text = self.log.read_text(errors="replace") if self.log.exists() else ""
            ended = re.search(r"^\d+ passed, \d+ failed$", text, re.M)
            for name in re.findall(r"^rt: (\w+) (?:proved$|is kept: )", text, re.M):
                made = TOP / "crates" / name / "out/rlib"
                if name not in self.names and made.is_dir():
                    shutil.copytree(made, self.place / name)
                    self.names.add(name)
            self.lost |= set(re.findall(r"^rt: (\w+) NOT PROVED", text, re.M))
            self.is_over = bool(ended)
            self.left.wait(2)

    def is_decided(self, names):
        """Whether these are proved, or can't be any more."""
        return names <= self.names or bool(names & self.lost) or self.is_over

    def has(self, names):
        """Waits until these are proved or can't be any more, and returns whether they are."""
        while not self.is_decided(names):
            time.sleep(2)
        return names <= self.names
