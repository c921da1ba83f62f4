#!/usr/bin/env python3
"""Says whether each example in the pages and in the crates' own documents is taken from what the gate runs.

    bench/checks/guide.py

Pages are README.md, docs/GUIDE.md and examples/README.md, and the code in C and Rust of docs/C.md and docs/RUST.md. The
documents of a crate are what `//!` and `///` say in its sources. An example is the text between fences, or in a page the
text that is indented by four blanks. It is one of these:

- code: its lines follow one another in a test of `crates/*_tests`, in `crates/example_*`, in another program or in what
  the programs of ./show share, however far they are indented there. A line `..` means lines that are left out. The
  pieces between the fences of a page come only from the guide's tests or an example program. That may be one of
  `bindings/`, which `bench/gate/door.py` runs.
- imports, in a page: each name is imported in one of these sources too.
- a script, a look or an answer: its lines follow one another in `examples/NAME.script`, `NAME.look` or `NAME.stdout`,
  which `bench/gate/through_main.py` compares. All those of one document of a crate come from one such NAME.
- commands, in a page: each begins with `./`, and names files that are there. The file after `--page` is one that it
  writes.
- the windows in README.md: the numbers before and after are those of `examples/inserted.stdout`.
"""
import re
import sys
from pathlib import Path

TOP = Path(__file__).resolve().parents[2]
PAGES = ("README.md", "docs/GUIDE.md", "examples/README.md")
OF_BINDINGS = ("docs/C.md", "docs/RUST.md")
GUIDE = ("crates/typst_tree_tests/src/guide/*.rt", "crates/example_*/src/*.rt", "bindings/*/examples/*.c", "bindings/*/examples/*.rs")
SHARED = ("crates/typst_shown/src/*.rt", "crates/typst_page/src/*.rt")
FENCED = re.compile(r"^```\w*\n(.*?)^```$", re.M | re.S)
IN_C_OR_RUST = re.compile(r"^```(?:c|rust)\n(.*?)^```$", re.M | re.S)
INDENTED = re.compile(r"(?:(?<=\n\n)|\A)((?: {4,}.*\n|\n(?= {4}))+)")
DOCUMENT = re.compile(r"(?:^[ \t]*//[/!].*\n)+", re.M)


def lines_of(text):
    return [line.strip() for line in text.splitlines()]


def code_of(text):
    return [line for line in lines_of(text) if not line.startswith(("//!", "///"))]


def after(part, lines, start):
    """The index after the first place, from `start` on, at which the lines of a part follow one another; or None."""
    ends = range(start + len(part), len(lines) + 1)
    return next((end for end in ends if lines[end - len(part) : end] == part), None)


def stands_in(piece, lines):
    """Whether these lines have the parts of a piece in order. The lines `..` of the piece divide it into parts."""
    end = 0
    for part in re.split(r"^\s*\.\.$\n?", piece, flags=re.M):
        end = after(lines_of(part), lines, end)
        if end is None:
            return False
    return True


def stands_in_any(piece, sources):
    return any(stands_in(piece, lines) for lines in sources)


def imports(lines):
    """The names that `use` items import, each with its path."""
    names = set()
    for path, group in re.findall(r"\buse ([\w:]+?)(?:::\{([^{}]*)\})?;", " ".join(lines)):
        names |= {path} if not group else {f"{path}::{it.strip()}" for it in group.split(",") if it.strip()}
    # A name of a module that is imported as `self` is the module's own.
    return {it.removesuffix("::self") for it in names}


def is_imported(piece, sources):
    asked = imports(lines_of(piece))
    is_all = all(line.startswith("use ") for line in lines_of(piece))
    return is_all and asked <= set().union(*(imports(lines) for lines in sources))


def are_commands(piece):
    commands = [re.match(r"\./\S+(?: \S+)*(?=  |$)", line) for line in lines_of(piece)]
    if not all(commands):
        return False
    words = [re.sub(r" --page \S+", "", it[0]).split() for it in commands]
    return all((TOP / word).exists() for it in words for word in it if not word.startswith("--"))


def are_windows(piece, numbers):
    """Whether it draws windows, and its first and last line are the numbered leaves before and after the insertion."""
    drawn = lines_of(piece)
    ends = [re.findall(r"(\d+) (\w)\b", line) for line in (drawn[0], drawn[-1])]
    return [drawn[0][:6], drawn[-1][:5]] == ["before", "after"] and ends == numbers


def examples():
    """The lines of each example's files, by its name."""
    stems = {it.stem for it in (TOP / "examples").glob("*.stdout")}
    return {stem: [lines_of(it.read_text()) for it in sorted((TOP / "examples").glob(f"{stem}.*"))] for stem in stems}


def leaves(example):
    """The numbers and texts of the leaves that an example of two trees shows, before and after."""
    shown = (TOP / "examples" / f"{example}.stdout").read_text()
    return [re.findall(r"^  \d+ (\d+) \d+ \d+ (\w)$", tree, re.M) for tree in re.split(r"^done .*$", shown, flags=re.M)]


def of_page(name, guide, answers):
    """The examples of a page, and those that are taken from nowhere."""
    text = (TOP / name).read_text()
    fenced, indented = FENCED.findall(text), INDENTED.findall(FENCED.sub("", text))
    files = [lines for each in answers.values() for lines in each]
    strange = [piece for piece in fenced if not stands_in_any(piece, guide)]
    for piece in indented:
        taken = stands_in_any(piece, files) or is_imported(piece, guide) or are_commands(piece)
        if not taken and not are_windows(piece, leaves("inserted")):
            strange.append(piece)
    return fenced + indented, strange


def of_bindings(name, guide):
    """The code in C and Rust of a page, and what of it is taken from nowhere."""
    pieces = IN_C_OR_RUST.findall((TOP / name).read_text())
    return pieces, [piece for piece in pieces if not stands_in_any(piece, guide)]


def of_source(text, sources, answers):
    """The examples in the documents of a source, and those that are taken from nowhere."""
    documents = "".join(re.sub(r"^[ \t]*//[/!] ?", "", it, flags=re.M) + "\n" for it in DOCUMENT.findall(text))
    pieces = FENCED.findall(documents)
    loose = [piece for piece in pieces if not stands_in_any(piece, sources)]
    left = [[piece for piece in loose if not stands_in_any(piece, files)] for files in answers.values()]
    return pieces, min(left, key=len)


def main():
    guide = [lines_of(it.read_text()) for pattern in GUIDE for it in sorted(TOP.glob(pattern))]
    tests = {it for it in TOP.glob("crates/*_tests/src/**/*.rt")}
    programs = {it for main in TOP.glob("crates/*/src/main.rt") for it in main.parent.glob("**/*.rt")}
    shared = {it for pattern in SHARED for it in TOP.glob(pattern)}
    sources = [code_of(it.read_text()) for it in sorted(tests | programs | shared)]
    answers = examples()
    told = {name: of_page(name, guide, answers) for name in PAGES} | {name: of_bindings(name, guide) for name in OF_BINDINGS}
    for file in sorted(TOP.glob("crates/*/src/**/*.rt")):
        pieces, strange = of_source(file.read_text(), sources, answers)
        if pieces:
            told[str(file.relative_to(TOP))] = (pieces, strange)
    for name, (_, strange) in told.items():
        for piece in strange:
            print(f"{name}: this is in no program, no test and no example:\n{piece}")
    count, lost = (sum(len(it[part]) for it in told.values()) for part in (0, 1))
    is_well = not lost and all(told[name][0] for name in (*PAGES, *OF_BINDINGS))
    print(f"{count} examples in {len(told)} pages and sources, {lost} of them found nowhere else")
    return 0 if is_well else 1


if __name__ == "__main__":
    sys.exit(main())
