"""What the programs of bench/ share: words, crates and proved programs, commands, what they say, and files that they write."""
import argparse
import os
import subprocess
import sys
from itertools import zip_longest
from pathlib import Path

TOP = Path(__file__).resolve().parent.parent


def parser(doc, *flags):
    """A parser of the words of a program. It knows these flags, and its help is the text at the head of the program."""
    words = argparse.ArgumentParser(description=doc, formatter_class=argparse.RawDescriptionHelpFormatter)
    for flag in flags:
        words.add_argument(flag, action="store_true")
    return words


def crates(top=TOP):
    """What each crate of crates.txt is, as `typst_c staticlib`, and what it uses."""
    lines = [line.partition("#")[0].partition(":") for line in (top / "crates.txt").read_text().split("\n")]
    return {name.split()[0]: (name.strip(), uses.split()) for name, _, uses in lines if name.strip()}


def proved(name):
    """The proved build of a program, which `rt ci` makes, and so does `rt run` in the folder of the crate."""
    program = TOP / "crates" / name / "out" / name
    if not program.exists():
        sys.exit(f"{program} isn't there: `rt run` in crates/{name} makes it")
    return program


def chosen(doc, name):
    """The program that the word --program names, or else the proved build with this name; and whether it is the proved one."""
    words = parser(doc)
    words.add_argument("--program", type=Path, metavar="FILE")
    given = words.parse_args().program
    return (given.resolve(), False) if given else (proved(name), True)


def ran(words, **how):
    """A command that has ended, with its status and what it printed: bytes, or with `text=True` a text. Its standard input is empty, unless
    one is given."""
    streams = {"stdout": subprocess.PIPE, "stderr": subprocess.PIPE} | ({} if "input" in how else {"stdin": subprocess.DEVNULL})
    return subprocess.run([str(word) for word in words], check=False, **streams | how)


def ended(wrong, said):
    """Prints what is wrong, and a last line. Returns the status of a program that ends so."""
    print("\n".join([*wrong, said]))
    return 1 if wrong else 0


def first_other(got, wanted):
    """The first line in which a text, or bytes, differs from what is wanted."""
    end = b"\n" if isinstance(got, bytes) else "\n"
    pairs = enumerate(zip_longest(got.split(end), wanted.split(end)), 1)
    return next((f"line {at} is {it!r}, and should be {other!r}" for at, (it, other) in pairs if it != other), "all lines are right")


def write(files, source, check):
    """Writes the files that have other texts than these, which are made of a source. To check it only names them, and ends the program."""
    differing = [(path, text) for path, text in files if not path.is_file() or path.read_text() != text]
    for path, text in differing:
        if not check:
            path.parent.mkdir(parents=True, exist_ok=True)
            path.write_text(text)
        print(f"{os.path.relpath(path, TOP)} {'differs from' if check else 'written from'} {source}")
    if check and differing:
        sys.exit(f"change {source}, and run {os.path.relpath(sys.argv[0], TOP)}")
