#!/usr/bin/env python3
"""Builds a program without its proof: for `bench/start`, and for `bench/speed.py` to time a commit whose proof would take hours.

    bench/unproved.py FOLDER PROGRAM    builds the crate in FOLDER, such as crates/typst_show, into PROGRAM

`rt try` compiles a crate with tests of what a proof would show, and runs it. This script takes LLVM's module from there and
ends `rt try`. It drops the tests from the module, compiles it at -O3, as a proved crate is compiled, and links it. Nothing is
proved of such a program, and nothing is tested while it runs. It has no limits on time or output, which `rt try` has.

The program is made beside PROGRAM and then renamed, so a build that ends early leaves nothing, and several at once don't harm
each other. Its time is that of the beginning, so a source that changes meanwhile is newer. While it works, standard error shows
a clock, where that is a terminal. The status is 126 if it can't be built.
"""
import argparse
import os
import re
import shutil
import signal
import subprocess
import sys
import tempfile
import threading
import time
from contextlib import suppress
from pathlib import Path

from common import TOP, ran

NO_RT = "there is no command rt: install the Rattle kit that README.md names, and put the folder of rt into PATH"
# A test is a call of one of these functions, which stop the program if what a proof would show doesn't hold.
NAME = r"rattle-(?:llvm-checks::\w+|try::site-\d+)"
TEST = re.compile(rf'^(define internal void @"{NAME}"\([^\n]*\{{)\n.*?^\}}$', re.MULTILINE | re.DOTALL)
TESTS = b"rattle-llvm-checks"
# `rt try` also fills each local that has no value yet.
FILL = re.compile(r"^  call void @llvm\.memset\.p0\.i64\(ptr %r\d+, i8 -86, [^\n]*\n", re.MULTILINE)
# The notes that `rt try` adds to what it says of a crate.
NOTES = re.compile(r"^(checked: |run=|rt: |compiled: |interpreted: |interpreter: )")
TARGET = "x86_64-unknown-linux-gnu"


class Unbuilt(Exception):
    """Why a program can't be built, and what to do."""


def kit():
    """The folder of the kit."""
    rt = shutil.which("rt")
    if not rt:
        raise Unbuilt(NO_RT)
    return Path(rt).resolve().parent.parent


def run(*words):
    """Runs a command of the kit."""
    done = ran(words, text=True)
    if done.returncode:
        raise Unbuilt(ended(words[0].name, done.returncode, done.stdout[-500:] + done.stderr[-500:]))


def ended(name, status, said):
    """Why a command ended."""
    if status == -signal.SIGKILL:
        return f"{name} was killed, as where memory runs out: a build takes up to 3 GB"
    return f"{said.strip()}\n{name} ended with status {status}{other_kit()}"


def other_kit():
    """What is said where this isn't the kit that README.md names."""
    here = ran(["rt", "version"], text=True).stdout.split(" ")[0].strip()
    named = re.search(r"rattle-kit-\w+", (TOP / "README.md").read_text())
    return f"; this is {here}, and README.md names {named[0]}" if named and named[0] != here else ""


def module(folder, room):
    """The module of the crate, as soon as `rt try` begins to compile it."""
    settings, said = {**os.environ, "TMPDIR": str(room)}, room / "said"
    with open(said, "wb") as errors:
        tried = subprocess.Popen(
            ["rt", "try"], cwd=folder, stdin=subprocess.DEVNULL, stdout=subprocess.DEVNULL, stderr=errors, env=settings, start_new_session=True
        )
    try:
        while tried.poll() is None:
            # `rt try` may remove a folder while it is read: then the next look finds what is there.
            with suppress(FileNotFoundError):
                for machine in room.glob("*/*/module*.o*"):
                    made = (machine.parent / "module.bc").read_bytes()
                    # `rt try` also makes a small module, without tests.
                    if TESTS in made:
                        (room / "module.bc").write_bytes(made)
                        return room / "module.bc"
            time.sleep(0.05)
    finally:
        # By this signal `rt` ends what it has begun.
        tried.terminate()
        tried.wait()
    lines = said.read_text(errors="replace").splitlines(keepends=True)
    raise Unbuilt(ended("rt try", tried.returncode, "".join(it for it in lines if not NOTES.match(it))))


def without_tests(text):
    """The module's text with tests that do nothing, and without fills."""
    text, tests = TEST.subn(r"\1\nstart:\n  ret void\n}", text)
    text, fills = FILL.subn("", text)
    if not tests or not fills:
        raise Unbuilt(f"the module has no tests, which this kit writes in another way{other_kit()}")
    return text


def build(folder, program):
    """Builds the crate in a folder into a program."""
    began, own = time.time(), kit()
    clang = [own / "toolchain/bin/clang", f"--target={TARGET}", "--no-default-config", "-x", "ir"]
    libraries = [own / "c" / name for name in ("libos_c.a", "liblibc_c.a")]
    program.parent.mkdir(exist_ok=True)
    with tempfile.TemporaryDirectory(prefix="unproved-") as name, tempfile.TemporaryDirectory(dir=program.parent) as beside:
        room, made = Path(name), Path(beside, program.name)
        text, bare, machine = room / "module.ll", room / "bare.ll", room / "module.o"
        run(*clang, "-S", "-emit-llvm", "-O0", "-Xclang", "-disable-llvm-passes", module(folder, room), "-o", text)
        bare.write_text(without_tests(text.read_text()))
        run(*clang, "-c", "-O3", "-march=x86-64-v2", "-fPIE", bare, "-o", machine)
        run(own / "bin/rattle-link", "--target", TARGET, "--toolchain", own / "toolchain", "-o", made, machine, *libraries)
        made.chmod(0o755)
        os.utime(made, (began, began))
        made.rename(program)


def ticks(is_done):
    """Shows the seconds until it is done."""
    began = time.monotonic()
    while not is_done.wait(1):
        sys.stderr.write(f"\r{time.monotonic() - began:.0f} s ")
        sys.stderr.flush()
    sys.stderr.write("\r        \r")


def main():
    words = argparse.ArgumentParser(description="Builds a program without its proof.")
    words.add_argument("folder", type=Path, metavar="FOLDER")
    words.add_argument("program", type=Path, metavar="PROGRAM")
    asked = words.parse_args()
    # So that what is begun is ended, and what is made is removed.
    signal.signal(signal.SIGTERM, lambda *_: sys.exit(143))
    is_done = threading.Event()
    clock = threading.Thread(target=ticks, args=[is_done]) if sys.stderr.isatty() else None
    if clock:
        clock.start()
    status, problem = 126, ""
    try:
        build(asked.folder, asked.program.absolute())
        status = 0
    except Unbuilt as error:
        problem = str(error)
    except OSError as error:
        problem = f"{error}: make room, or change its rights"
    except KeyboardInterrupt:
        status = 130
    finally:
        is_done.set()
        if clock:
            clock.join()
    if problem:
        print(f"{asked.folder.name} can't be built without a proof: {problem}", file=sys.stderr)
    return status


if __name__ == "__main__":
    sys.exit(main())
