#!/usr/bin/env python3
"""Runs ./show, ./run and ./look where nothing is built, with a stand-in for the kit, and compares what they do.

    bench/checks/unbuilt.py

The scripts and bench/unproved.py stand in a folder of their own, with crates that have no code. The stand-in for `rt try` makes a
module, and that for the linker a program that tells its words. Each case is a list of calls, each with what is wanted of it: how many
builds it begins, its status, and what it says. After each case no folder of a build may be left.
"""
import os
import pty
import re
import subprocess
import sys
import tempfile
import time
from pathlib import Path

TOP = Path(__file__).resolve().parents[2]
SCRIPTS = ["show", "run", "look", "bench/start", "bench/unproved.py", "bench/common.py", "crates.txt", "README.md"]
BUILT, KEPT, PROVED = "build: {0} without a proof, which is kept; this takes a minute or two\n", "run: a build without a proof (for the proved one: rt run, in crates/{0})\n", "run: the proved build\n"
NO_RT = "there is no command rt: install the Rattle kit that README.md names, and put the folder of rt into PATH\n"
# The kit. `rt try` would run for a minute once it has made the module, so it must be ended.
RT = """#!/usr/bin/env python3
import os, signal, sys, time
from pathlib import Path
if sys.argv[1] == "version":
    sys.exit(print("rattle-kit-0 logic"))
with open("{kit}/begun", "a") as begun:
    print(Path.cwd().name, file=begun)
if os.environ.get("BROKEN") == "killed":
    os.kill(os.getpid(), signal.SIGKILL)
if "BROKEN" in os.environ:
    sys.exit("error: it doesn't compile\\nrun=none proved=no")
time.sleep(float(os.environ.get("SLOW", 0)))
signal.signal(signal.SIGTERM, lambda *_: sys.exit(Path("{kit}/ended").touch()))
for name, module in (("first", "options"), ("second", "rattle-llvm-checks")):
    room = Path(os.environ["TMPDIR"], "try", name)
    room.mkdir(parents=True)
    (room / "module.bc").write_text(module)
    (room / "module.o.tmp").write_text("")
    time.sleep(0.2)
time.sleep(60)
"""
CLANG = """#!/usr/bin/env python3
import sys
from pathlib import Path
*words, out = sys.argv[1:]
if "-S" in words:
    module = Path(words[-2]).read_text()
    "llvm-checks" in module or sys.exit(f"the module is {module}")
    test = 'define internal void @"rattle-llvm-checks::add"(i64 %a) {\\nstart:\\n  call void @stop()\\n}\\n'
    Path(out).write_text(test + "  call void @llvm.memset.p0.i64(ptr %r1, i8 -86, i64 8, i1 false)\\n")
else:
    given = next(Path(it) for it in words if it.endswith(".ll"))
    sys.exit("tests are left" if "stop" in given.read_text() or "memset" in given.read_text() else Path(out).write_text("") and 0)
"""
LINK = """#!/usr/bin/env python3
import sys
from pathlib import Path
made = Path(sys.argv[sys.argv.index("-o") + 1])
made.write_text('#!/bin/sh\\nprintf "%s\\\\n" "$@"\\ncat\\nexit 7\\n')
"""


class Place:
    """A folder with the scripts and no builds, one in which the words name files, and the stand-in for the kit."""

    def __init__(self, room):
        self.top, self.work, self.kit, self.kept = (room / it for it in ("top", "work", "kit", "kept"))
        for script in SCRIPTS:
            (self.top / script).parent.mkdir(parents=True, exist_ok=True)
            (self.top / script).write_bytes((TOP / script).read_bytes())
            (self.top / script).chmod(0o755)
        for line in (TOP / "crates.txt").read_text().splitlines():
            if ":" in line and not line.startswith("#"):
                (self.source(line.split(":")[0].split(" ")[0])).parent.mkdir(parents=True)
        for folder in (self.work / "folder", self.kept, self.kit / "bin", self.kit / "toolchain/bin"):
            folder.mkdir(parents=True)
        (self.work / "text.typ").write_text("= A\n")
        for name, script in (("bin/rt", RT.format(kit=self.kit)), ("toolchain/bin/clang", CLANG), ("bin/rattle-link", LINK)):
            (self.kit / name).write_text(script)
            (self.kit / name).chmod(0o755)
        self.settings = {**os.environ, "PATH": f"{self.kit / 'bin'}:{os.environ['PATH']}", "TMPDIR": str(self.kept)}

    def source(self, crate):
        return self.top / "crates" / crate / "src/main.rt"

    def begins(self, words, **settings):
        """A call that has begun."""
        pipes = {"stdin": subprocess.PIPE, "stdout": subprocess.PIPE, "stderr": subprocess.PIPE}
        return subprocess.Popen([self.top / words[0], *words[1:]], cwd=self.work, env=self.settings | settings, text=True, **pipes)

    def begun(self):
        """How many builds have begun, since this was asked last."""
        file = self.kit / "begun"
        lines = file.read_text().splitlines() if file.exists() else []
        file.unlink(missing_ok=True)
        return len(lines)

    def left(self):
        """What builds have left that isn't a program."""
        return [*self.kept.iterdir(), *(it for it in self.top.glob("crates/*/out/*") if it.is_dir())]


def does(place, words, builds, status, said, printed="", **settings):
    """What differs between a call and what is wanted of it."""
    call = place.begins(words, **settings)
    out, error = call.communicate("given")
    got = (place.begun(), call.returncode, error, out)
    wanted = (builds, status, said, printed)
    return [] if got == wanted else [f"{words} {settings}: {got}, and should be {wanted}"]


def told(*words):
    """What the program that the stand-in makes prints: its words and its standard input."""
    return "\n".join([*words, "given"]) if words else "\ngiven"


SHOW = ["show", "text.typ"]
FIRST, LATER = BUILT.format("typst_show") + KEPT.format("typst_show"), KEPT.format("typst_show")
SHOWN = told("text.typ")


def is_kept(place):
    yield from does(place, SHOW, 1, 7, FIRST, SHOWN)
    yield from [] if (place.kit / "ended").exists() else ["rt try isn't ended by a signal that it can act on"]
    yield from does(place, [*SHOW, "--views", "--edits=a b"], 0, 7, LATER, told("text.typ", "--views", "--edits=a b"))
    yield from does(place, ["run"], 1, 7, FIRST.replace("typst_show", "typst_run"), told("script"))
    yield from does(place, ["look", "-"], 0, 7, LATER.replace("typst_show", "typst_run"), told("look"))
    yield from does(place, ["run", "text.typ"], 0, 7, LATER.replace("typst_show", "typst_run"), "script\n= A\n")


def follows_sources(place):
    yield from does(place, SHOW, 1, 7, FIRST, SHOWN)
    place.source("typst_c").write_text("")
    yield from does(place, SHOW, 0, 7, LATER, SHOWN)
    place.source("typst_base").write_text("")
    yield from does(place, SHOW, 1, 7, FIRST, SHOWN)
    # A source that changes while a build is made isn't in it.
    place.source("typst_show").write_text("")
    call = place.begins(SHOW, SLOW="1")
    while not (place.kit / "begun").exists():
        time.sleep(0.01)
    place.source("typst_node").write_text("")
    yield from [] if call.communicate("given")[0] == SHOWN and place.begun() == 1 else ["a build with a source that changes fails"]
    yield from does(place, SHOW, 1, 7, FIRST, SHOWN)


def proved_comes_first(place):
    yield from does(place, SHOW, 1, 7, FIRST, SHOWN)
    proved = place.top / "crates/typst_show/out/typst_show"
    proved.write_text("#!/bin/sh\necho proved\n")
    proved.chmod(0o755)
    yield from does(place, SHOW, 0, 0, PROVED, "proved\n")
    place.source("typst_show").write_text("")
    yield from does(place, SHOW, 1, 7, FIRST, SHOWN)


def two_at_once(place):
    calls = [place.begins(SHOW, SLOW="1") for _ in range(2)]
    for call in calls:
        if (call.communicate("given"), call.returncode) != ((SHOWN, FIRST), 7):
            yield f"one of two calls at once ends with {call.returncode}"
    place.begun()
    yield from does(place, SHOW, 0, 7, LATER, SHOWN)


def fails(place):
    broken = "typst_show can't be built without a proof: error: it doesn't compile\nrt try ended with status 1; this is rattle-kit-0, and README.md names "
    call = place.begins(SHOW, BROKEN="yes")
    out, error = call.communicate("given")
    if (out, call.returncode) != ("", 126) or not error.startswith(BUILT.format("typst_show") + broken):
        yield f"a build that fails: {call.returncode}, {out!r}, {error!r}"
    place.begun()
    killed = "typst_show can't be built without a proof: rt try was killed, as where memory runs out: a build takes up to 3 GB\n"
    yield from does(place, SHOW, 1, 126, BUILT.format("typst_show") + killed, BROKEN="killed")
    call = place.begins(SHOW, SLOW="60")
    while not (place.kit / "begun").exists():
        time.sleep(0.01)
    subprocess.run(["pkill", "-TERM", "-P", str(call.pid)], check=True)
    yield from [] if call.wait() == 143 and not place.left() else [f"a build that is ended: {call.returncode}, {place.left()} is left"]
    place.begun()
    yield from does(place, SHOW, 1, 7, FIRST, SHOWN)
    # What is kept of an older source isn't run.
    place.source("typst_show").write_text("")
    yield from does(place, SHOW, 1, 126, BUILT.format("typst_show") + killed, BROKEN="killed")


def needs_no_build(place):
    yield from does(place, ["show", "none.typ"], 0, 3, "none.typ: there is no such file\n")
    yield from does(place, ["show", "folder"], 0, 3, "folder: this is a folder: name a file\n")
    yield from does(place, ["show", "text.typ", "--edits", "none"], 0, 3, "none: there is no such file\n")
    yield from does(place, ["run", "none"], 0, 1, "cannot read: there is no file none\n")
    yield from does(place, ["look", "folder"], 0, 1, "cannot read: folder is a folder\n")
    yield from does(place, ["run", "--help"], 0, 0, "", "usage: ./run [SCRIPT]\n")
    without = ":".join(it for it in os.environ["PATH"].split(":") if not Path(it, "rt").exists())
    yield from does(place, SHOW, 0, 127, NO_RT, PATH=without)
    # A file that is written needn't be there.
    yield from does(place, [*SHOW, "--page", "none.html"], 1, 7, FIRST, told("text.typ", "--page", "none.html"))


def has_a_clock(place):
    """On a terminal the seconds are shown, and then taken away."""
    ours, theirs = pty.openpty()
    call = subprocess.Popen([place.top / SHOW[0], *SHOW[1:]], cwd=place.work, env=place.settings | {"SLOW": "3"}, stdin=subprocess.DEVNULL, stdout=subprocess.DEVNULL, stderr=theirs)
    call.wait()
    told = os.read(ours, 10_000).decode().replace("\r\n", "\n")
    os.close(ours)
    os.close(theirs)
    wanted = BUILT.format("typst_show") + r"(\r\d+ s )+\r +\r" + re.escape(KEPT.format("typst_show"))
    yield from [] if re.fullmatch(wanted, told) else [f"on a terminal it says {told!r}"]


CASES = [has_a_clock, is_kept, follows_sources, proved_comes_first, two_at_once, fails, needs_no_build]


def main():
    found = []
    for case in CASES:
        with tempfile.TemporaryDirectory(prefix="unbuilt-") as name:
            place = Place(Path(name))
            found += [f"{case.__name__}: {it}" for it in case(place)]
            found += [f"{case.__name__} leaves {it}" for it in place.left()]
    for difference in found:
        print(f"unbuilt: {difference}")
    print(f"unbuilt: {len(CASES)} cases of programs without a proved build, {len(found)} differences")
    return 1 if found else 0


if __name__ == "__main__":
    sys.exit(main())
