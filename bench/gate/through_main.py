#!/usr/bin/env python3
"""Runs scripts and looks through the `main` of crates/typst_run, and compares standard output, standard error and the status.

    bench/gate/through_main.py [NAME ..]

It takes the vectors of crates/typst_script_tests with these names, or else all of these:

- one vector for each status of a script that fails. Tests of the library see everything except what `main` adds: the
  text on standard error, and the status. (`rt ci` runs a script that succeeds.)
- each example: `examples/NAME.script` by `./run`, and `examples/NAME.look` by `./look`, must print
  `examples/NAME.stdout`.
- several scripts at once, and several looks: the program takes them one by one, and ends with the first fault.
- words that ask neither for scripts nor for looks: they are refused.

Then it makes reads and writes fail. It runs a script of edits, and one that is longer than the buffers,

- with an input that fails after N bytes, for each N (in the long script for each N near the end of a buffer, and for
  some others). It fails once, and then says that it has ended;
- with an output that takes N bytes and then fails, for each N (in the long answer for some, as above). So the last
  write that does anything takes a part of what it is given;
- with one byte for each read, which must give the whole answer;
- with a closed input, a folder as input, a closed output, a pipe that nobody reads, and an output that takes nothing.

Where a read or a write fails, the program must say `cannot read` or `cannot write` in one line, and end with status 1.
What it wrote must be a beginning of the whole answer. An output that takes N bytes must get all of them. `./run` on a
folder, or on a file that isn't there, must say so in one line.

Only the proved build counts. `rt ci` makes it, and so does `rt run` in crates/typst_run.
"""
import os
import resource
import socket
import sys
import tempfile
import threading
from pathlib import Path

sys.path.insert(0, str(Path(__file__).resolve().parents[1]))
from common import TOP, ended, proved, ran

VECTORS = TOP / "crates/typst_script_tests/vectors"
EXAMPLES = TOP / "examples"
FAILING = ["a_new_tree_isnt_numbered", "no_utf_8"]
# For each task a file that fails in its second line, and what it prints.
BAD = {"script": ("leaf 6 a\nroots\nroot\nshow\n", b""), "look": ("mark bad\nroot\nmark after\n", b"#bad\n#after\n")}
# Words that ask for no task, and what the program says of them.
NO_TASK = [], [""], ["scripts"], ["examples/text.look", "look"]
REFUSED = b"write `script` or `look` first, and then the files to carry out, or none for standard input\n"
# What ./run and ./look say in a line of their own, of the proved build and of any.
PROVED, OWN = b"run: the proved build\n", b"run: "
# Replacements and searches, of which some are refused and some don't fit, and the tree at the end.
EDITED = b"""leaf 55 *
leaf 6 b
inner 5 1
leaf 55 *
inner 13 3
leaf 6 c
inner 5 2
root
number 1 2 30
leaf 6 x
leaf 6 y
inner 5 2
replace 0 1 2 1
find 1 15
leaf 6 x
leaf 6 y
replace 0.1 0 1 2
replace 5 0 0 0
run
show
"""
EDITED_SHOWN = b"""done window 0..3 tried 2
found 1 offset 4
refused
misfit
5 3 30 5
  13 4 14 4
    55 5 6 1 *
    5 6 9 2
      6 7 8 1 x
      6 8 9 1 y
    55 9 10 1 *
  6 15 16 1 c
"""
# A tree of many leaves that is shown, edited and shown again.
LEAVES, EDITS = 700, 100
LONG = "".join(
    [
        *(f"leaf 6 text {it}\n" for it in range(LEAVES)),
        f"inner 5 {LEAVES}\nroot\nnumber 1 2 100000\nshow\n",
        *(f"leaf 6 new {it}\nreplace - {it} {it + it % 2} 1\nfind 1 {40 + it}\n" for it in range(EDITS)),
        "run\nshow\n",
    ]
).encode()
# The size of the buffers, and the distance between the places that are tried elsewhere in a long script.
BUFFER, STEP = 8192, 191


def compared(name, done, stdout, stderr=b"", status=0):
    """What differs between what a program did and what it should do."""
    got = {"stdout": (done.stdout, stdout), "stderr": (done.stderr, stderr), "status": (done.returncode, status)}
    return [f"{name}: {part} is {it!r}, and should be {wanted!r}" for part, (it, wanted) in got.items() if it != wanted]


def through(starter, file):
    """A run by ./run or ./look, without the line that says which build it is, and whether it is the proved one."""
    done = ran([TOP / starter, file])
    lines = done.stderr.splitlines(keepends=True)
    done.stderr = b"".join(line for line in lines if not line.startswith(OWN))
    return done, PROVED in lines


def differences(name, starter, file, **wanted):
    done, is_proved = through(starter, file)
    unproved = [] if is_proved else [f"{name}: ./{starter} ran no proved build"]
    return unproved + compared(name, done, **wanted)


def vector(name):
    def read(part):
        return (VECTORS / f"{name}.{part}").read_bytes()

    wanted = {"stdout": read("stdout"), "stderr": read("stderr"), "status": int(read("status"))}
    return differences(name, "run", VECTORS / f"{name}.script", **wanted)


def answer(example):
    return example.with_suffix(".stdout").read_bytes()


def example(file):
    starter = {".script": "run", ".look": "look"}[file.suffix]
    return differences(f"examples/{file.name}", starter, file, stdout=answer(file))


def several(task):
    """What differs if the program gets all examples of a task, and if it gets one that fails between two."""
    files = sorted(EXAMPLES.glob(f"*.{task}"))
    (bad, printed), program = BAD[task], proved("typst_run")
    with tempfile.TemporaryDirectory() as room:
        failing = Path(room, f"bad.{task}")
        failing.write_text(bad)
        whole = ran([program, task, *files])
        # The last file isn't taken: the one before it fails.
        cut = ran([program, task, files[0], failing, files[-1]])
    told = compared(f"several {task}s", whole, b"".join(answer(it) for it in files))
    fault = {"stdout": answer(files[0]) + printed, "stderr": b"line 2: bad command\n", "status": 2}
    return told + compared(f"a {task} that fails between two", cut, **fault)


def refused(words):
    return compared(f"the words {words}", ran([proved("typst_run"), *words]), stdout=b"", stderr=REFUSED, status=2)


def places(text):
    """The numbers of bytes after which a read or a write fails: all in a short text, some in a long one."""
    if len(text) < BUFFER:
        return range(len(text))
    near = {at + it for at in range(0, len(text), BUFFER) for it in (-1, 0, 1)}
    return sorted({*near, *range(0, len(text), STEP), len(text) - 1} & {*range(len(text))})


def run(**how):
    """A run of a script, which standard input gives."""
    return ran([proved("typst_run"), "script"], timeout=60, **how)


def after_reading(script, count):
    """A run whose input gives so many bytes of the script, then fails once, and then ends."""
    ours, theirs = socket.socketpair()
    # What we leave unread makes our end's closing an error of theirs, told once, after all that was sent.
    theirs.send(b"unread")
    ours.setsockopt(socket.SOL_SOCKET, socket.SO_SNDBUF, 1 << 20)
    ours.sendall(script[:count])
    ours.close()
    with theirs:
        return run(stdin=theirs)


def after_writing(script, count):
    """A run whose output takes this many bytes and then fails, and the bytes that it took."""
    with tempfile.TemporaryFile() as lines, tempfile.TemporaryFile() as taken:
        lines.write(script)
        lines.seek(0)

        def limit():
            resource.setrlimit(resource.RLIMIT_FSIZE, (count, count))

        # Python ignores the signal of a file that grows too long, and so does what it starts where it restores none.
        done = run(stdin=lines, stdout=taken, restore_signals=False, preexec_fn=limit)
        taken.seek(0)
        return done, taken.read()


def byte_by_byte(script):
    """A run in which each read gives one byte."""
    ours, theirs = socket.socketpair(socket.AF_UNIX, socket.SOCK_SEQPACKET)

    def feed():
        with ours:
            for at in range(len(script)):
                ours.send(script[at : at + 1])

    feeding = threading.Thread(target=feed, daemon=True)
    feeding.start()
    with theirs:
        return run(stdin=theirs)


def unlike(name, done, fault):
    """What differs between the end of a run and this fault."""
    return compared(name, done, done.stdout, f"{fault}\n".encode(), 1)


def swept(script, answer):
    """What is wrong with the runs of a script, whose whole answer is given."""
    wrong, count = [], 0
    done = byte_by_byte(script)
    if done.returncode or done.stdout != answer:
        wrong.append(f"a byte a read: status {done.returncode}, {len(done.stdout)} bytes written, {done.stderr!r}")
    for at in [*places(script), len(script)]:
        done, count = after_reading(script, at), count + 1
        wrong += unlike(f"a read after {at} bytes", done, "cannot read")
        if not answer.startswith(done.stdout):
            wrong.append(f"a read after {at} bytes: no beginning of the answer, {done.stdout[-80:]!r}")
    for at in places(answer):
        (done, taken), count = after_writing(script, at), count + 1
        wrong += unlike(f"a write after {at} bytes", done, "cannot write")
        if taken != answer[:at]:
            wrong.append(f"a write after {at} bytes: {len(taken)} bytes taken, {taken[-80:]!r}")
    done, taken = after_writing(script, len(answer))
    if done.returncode or taken != answer:
        wrong.append(f"an output that takes all: status {done.returncode}, {len(taken)} bytes taken, {done.stderr!r}")
    return wrong, count


def spoiled():
    """What is wrong with runs whose input or output can't be used at all."""
    wrong = []
    with tempfile.TemporaryDirectory() as room:
        script = Path(room, "script")
        script.write_bytes(EDITED)
        folder = os.open(room, os.O_RDONLY)
        with open("/dev/full", "wb") as full, script.open("rb") as lines:
            wrong += unlike("a full output", run(stdin=lines, stdout=full), "cannot write")
        with script.open("rb") as lines:
            wrong += unlike("a closed output", run(stdin=lines, preexec_fn=lambda: os.close(1)), "cannot write")
        reader, unread = os.pipe()
        os.close(reader)
        with script.open("rb") as lines:
            wrong += unlike("a pipe that nobody reads", run(stdin=lines, stdout=unread), "cannot write")
        os.close(unread)
        for name, how in (("a folder", {"stdin": folder}), ("a closed input", {"preexec_fn": lambda: os.close(0)})):
            done = run(**how)
            wrong += unlike(name, done, "cannot read") + [f"{name}: {it!r} written" for it in [done.stdout] if it]
        os.close(folder)
        wrong += unlike("./run on a folder", ran([TOP / "run", room]), f"cannot read: {room} is a folder")
        wrong += unlike("./run on no file", ran([TOP / "run", f"{room}/none"]), f"cannot read: there is no file {room}/none")
    return wrong


def failing():
    """How many reads and writes were made to fail, and what is wrong with these runs."""
    whole = run(input=LONG)
    wrong, count = compared("the long script", whole, whole.stdout) + spoiled(), 0
    for script, answer in ((EDITED, EDITED_SHOWN), (LONG, whole.stdout)):
        more, runs = swept(script, answer)
        wrong, count = wrong + more, count + runs
    return count, wrong


def main():
    found, (count, wrong) = [vector(name) for name in sys.argv[1:] or FAILING], (0, [])
    if not sys.argv[1:]:
        for task in BAD:
            found += [example(it) for it in sorted(EXAMPLES.glob(f"*.{task}"))]
            found.append(several(task))
        found += [refused(words) for words in NO_TASK]
        count, wrong = failing()
    wrong += [line for lines in found for line in lines]
    return ended(wrong, f"{len(found)} runs through main, {count} reads and writes that fail, {len(wrong)} differences")


if __name__ == "__main__":
    sys.exit(main())
