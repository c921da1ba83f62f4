#!/usr/bin/env python3
"""Says whether each clause, test, wrong body, function and file that the documents name exists.

    bench/checks/names.py

In docs/PROVED.md and docs/internal/CLAUSES.md a name in code is a function (`name`, `Type::name`), a type, a variant, a
definition, a file or a test. In parentheses, a name in small letters is a clause of a function that the same paragraph
names. In the tables of theorems, the last cell names clauses of the functions that the row names, and in the one on runs
of edits also of `session::run`. After a colon it names definitions. A row of the table of wrong bodies names those first,
then the functions that they change, then clauses of these. They are judged in every turn (bench/bodies.py).

In docs/internal/WORKED.md the second cell of a row names tests by their modules. A name alone is in the module of the name
before it. A name in capitals is a table of that module. A name in quotes is a row, which is in that module as a text.
The names after "look" are trees of crates/typst_run/stdin and, after a colon, what `stdout` says about them.

In every page, a name in code occurs in a file that isn't a page, and what looks like a file or a folder is there. The
script leaves out placeholders, which are in capitals, commands of the kit, and pages that name things elsewhere. Each link
of a page leads to a file, and to a heading of that page if it names one. README.md has the version of the file VERSION,
and docs/internal/ARCHITECTURE.md each crate.
"""
import os
import re
import sys
from functools import cache
from pathlib import Path

sys.path.insert(0, str(Path(__file__).resolve().parents[1]))
from common import TOP
from judge.sources import blanked, edit_files, edits_of, functions, is_in_every_turn

PROVED = ("docs/PROVED.md", "docs/internal/CLAUSES.md")
CRATES = sorted(it.parent.name for it in (TOP / "crates").glob("*/src"))
TESTS = {
    "typst_linked_tests": ("base", "node", "linked"),
    "typst_ast_tests": ("atoms", "ast"),
    "typst_tree_tests": ("tree", "memory"),
    "typst_script_tests": ("script",),
}
# The tables of theorems, by how their sections begin, and the crates whose functions they name.
HOLDERS = {
    "Ten theorems": CRATES,
    "What holds over any run": ["typst_tree"],
    "What holds of a text": ["typst_source"],
    "What holds of the lines": ["typst_lines"],
}
LISTED = set(re.findall(r"\w+", (TOP / "crates.txt").read_text()))  # crates, those of the kit among them
OF_TRAITS = {"goes", "steps"}  # clauses that a method has by its trait in std
SPAN = re.compile(r"`([^`\n]+)`")
CLAUSE = re.compile(r"\b(?:ensures|requires)\*? (\w+) \{")
WORD = re.compile(r"[A-Za-z_]\w*")
# Pages that name things of the Rust crate or of Typst; docs/API.md is compared whole.
ELSEWHERE = ("docs/API.md", "docs/DIFFERENCES.md", "docs/KINDS.md", "docs/SYNTAX.md")
OUTSIDE = {"FIRST_PROOFS.md", "SHORTER_PROOFS.md", "Send"}  # names of the kit and of Rust
UNTRACKED = {".git", "out", "target", "__pycache__"}
FENCED = re.compile(r"^```.*?^```$", re.M | re.S)
PLACEHOLDER = re.compile(r"\b(?:[A-Z]{3,}|WHAT_IT_DOES)\b|_NAME\b|\*|\.\.|<|\{|^/proc/|\bout/")
FILE = re.compile(r"[\w./+-]*\w(?:/[\w./+-]*|\.(?:py|md|rt|antt|script|look|stdout|rs|c|h|a|txt))")
TOKEN = re.compile(r"`([^`\n]+)`|\"([^\"\n]+)\"|\b(look|numbering)\b|([;:])")


@cache
def sources(crate):
    return "\n".join(it.read_text() for it in sorted((TOP / "crates" / crate / "src").rglob("*.rt")))


@cache
def specs(crate):
    return "\n".join(it.read_text() for it in sorted((TOP / "crates" / crate / "specs").glob("*.antt")))


@cache
def callables(crate):
    """The crate's functions with the names of their clauses. Each is named by what may come before its name, and by its name."""
    found = []
    for it in functions(TOP / "crates" / crate):
        text = blanked((TOP / "crates" / crate / it.file).read_text())
        if it.name:
            near = {it.subject.split("::")[-1] or (it.modules or (crate,))[-1], crate}
            found.append((near, it.name, set(CLAUSE.findall(text[it.start : it.body]))))
    return found


def named(name, crates):
    """The functions of these crates that a name means."""
    near, _, name = name.rpartition("::")
    near = near.split("::")[-1]
    return [it for crate in crates for it in callables(crate) if it[1] == name and (not near or near in it[0])]


def stands(name):
    """Whether a name in code names something in the repository."""
    if " " in name or not re.search(r"[A-Za-z]", name):  # an expression
        return True
    if "/" in name or name.endswith((".py", ".md", ".script")):
        here = [TOP / name, *(TOP / "crates" / it / f"{name}{end}" for it in CRATES for end in ("", ".antt"))]
        return any(it.exists() for it in here)
    if name in CRATES or (TOP / "crates" / name).exists():
        return True
    if named(name, CRATES):
        return True
    words = WORD.findall(name)
    everything = "\n".join([sources(it) for it in CRATES] + [specs(it) for it in CRATES] + [(TOP / "crates.txt").read_text()])
    return all(re.search(rf"\b{word}\b", everything) for word in words)


def paragraphs(text):
    """The parts of a text that are read by themselves: a paragraph, an item of a list, a row of a table."""
    part = []
    for line in [*text.splitlines(), ""]:
        if part and (not line.strip() or re.match(r"\s*- |\|", line)):
            yield "\n".join(part)
            part = []
        if line.strip():
            part.append(line)


def of_proved(page, wrong):
    seen = 0
    for section in re.split(r"^## ", page.read_text(), flags=re.M)[1:]:
        title, _, text = section.partition("\n")
        crates = CRATES
        for part in paragraphs(text):
            spans = SPAN.findall(part)
            seen += len(spans)
            if title.startswith("What refuses"):
                of_bodies(page, part, wrong)
                continue
            wrong += [f"{page.name}: `{it}` isn't anywhere" for it in spans if not stands(it)]
            bold = re.match(r"- \*\*`(\w+)`\*\*", part)
            crates = [bold[1]] if bold else crates
            holder = next((it for start, it in HOLDERS.items() if title.startswith(start)), None)
            owners = [found for it in spans for found in named(it, holder or crates)]
            groups = re.findall(r"\(([^()]*)\)", part)
            if holder:
                owners += named("session::run", ["typst_tree"]) if holder == ["typst_tree"] else []
                groups = [re.split(r"[:,] its fields|: ", it)[0] for it in part.split("|")[2:-1][-1:]]
            clauses = set().union(*(it[2] for it in owners))
            for group in groups:
                for it in SPAN.findall(group.replace("\n", " ")):
                    if re.fullmatch(r"[a-z_]+", it) and it not in clauses | LISTED and not any(it == at[1] for at in owners):
                        wrong.append(f"{page.name}: `{it}` is no clause of a function that its paragraph names: {part[:60]!r}")
    return seen


@cache
def bodies():
    """Of each wrong body the names of the functions that it changes."""
    found = {}
    for crate in CRATES:
        folder = TOP / "crates" / crate
        if any(folder.glob("wrong-bodies/**/*.edit")) or any(folder.glob("must-fail/*.edit")):
            bad = []
            for it in edits_of(folder, functions(folder), bad):
                found[it.name.split("/")[-1]] = {at.name for at in it.functions}
    return found


@cache
def of_every_turn():
    """The names of the wrong bodies that are judged in every turn."""
    return {it.stem for crate in CRATES for it in edit_files(TOP / "crates" / crate) if is_in_every_turn(it)}


def of_bodies(page, row, wrong):
    cells = row.split("|")[1:-1]
    if len(cells) != 3:
        wrong += [f"{page.name}: `{it}` isn't anywhere" for it in SPAN.findall(row) if not stands(it)]
        return
    wrong += [f"{page.name}: `{it}` isn't anywhere" for it in SPAN.findall(cells[1] + cells[2]) if not stands(it)]
    owners = [it for name in SPAN.findall(cells[1]) for it in named(name, CRATES)]
    clauses = set().union(*(it[2] for it in owners))
    for name in SPAN.findall(cells[2]):
        if name not in clauses | OF_TRAITS and not any(re.search(rf"^  pub {name} :", specs(it), re.M) for it in CRATES):
            wrong.append(f"{page.name}: `{name}` is no clause of {cells[1].strip()}, and no field of a definition")
    for name in SPAN.findall(cells[0]):
        changed = bodies().get(name)
        if changed is None:
            wrong.append(f"{page.name}: `{name}` is no wrong body")
        elif name not in of_every_turn():
            wrong.append(f"{page.name}: `{name}` isn't judged in every turn")
        elif not changed & {it[1] for it in owners}:
            wrong.append(f"{page.name}: `{name}` changes {sorted(changed)}, and not {cells[1].strip()}")


def file_of(module):
    """The source of a module of tests, as `node::numbering`."""
    for crate, tops in TESTS.items():
        top, _, rest = module.partition("::")
        if top in tops:
            path = TOP / "crates" / crate / "src" / (rest if top == "script" else module.replace("::", "/"))
            return path.with_suffix(".rt")
    return None


def of_worked(wrong):
    page = TOP / "docs/internal/WORKED.md"
    trees = (TOP / "crates/typst_run/stdin").read_bytes().decode(errors="replace")
    told = (TOP / "crates/typst_run/stdout").read_bytes().decode(errors="replace")
    marks = set(re.findall(r"^mark (.*?)(?: \d+)?$", trees, re.M)) | {"hollow"}
    vectors = sources("typst_script_tests")
    seen, usual = 0, ""
    for part in paragraphs(page.read_text()):
        if not part.startswith("|"):
            paths = [it for it in SPAN.findall(part) if "::" in it]
            usual = paths[0].rpartition("::")[0] if paths and file_of(paths[0].rpartition("::")[0]) else usual
            continue
        cells = part.split("|")
        if len(cells) < 4 or set(cells[1].strip()) <= {"-"}:
            continue
        module, rows, looks, is_told = usual, "", False, False
        for code, quote, word, stop in TOKEN.findall("|".join(cells[2:-1])):
            source = file_of(rows or module)
            text = source.read_text() if source and source.exists() else ""
            if stop:
                looks, is_told = looks and stop != ";", looks and stop == ":"
                rows = rows if stop == ":" else ""
            elif word == "look":
                looks, is_told = True, False
            elif word:
                rows = f"node::{word}"
            elif quote:
                seen += 1
                if f'"{quote}"' not in text:
                    wrong.append(f'{page.name}: no row "{quote}" in {rows or module}')
            elif looks and not is_told:
                seen += 1
                if code not in marks:
                    wrong.append(f"{page.name}: no tree `{code}` to look at")
            elif looks:
                seen += 1
                if not all(re.search(rf"\b{re.escape(it)}\b", told) for it in code.replace("own ", "").split()):
                    wrong.append(f"{page.name}: `{code}` is told nowhere")
            elif code.startswith("--") or code == "Debug":
                continue
            elif "/" in code:
                seen += 1
                if not (TOP / code).exists():
                    wrong.append(f"{page.name}: no file `{code}`")
            elif "::" in code:
                seen += 1
                module, _, name = code.rpartition("::")
                source = file_of(module)
                if not source or not source.exists() or not re.search(rf"\bfn {name}\b", source.read_text()):
                    wrong.append(f"{page.name}: no test `{code}`")
            else:
                seen += 1
                if not re.search(rf"\b(?:fn|const) {code}\b", text) and f'"{code}"' not in vectors and not stands(code):
                    wrong.append(f"{page.name}: no `{code}` in {module}")
    return seen


@cache
def files():
    """The files of the repository, and its folders, each with a slash before it."""
    found, folders = set(), set()
    for folder, inner, names in os.walk(TOP):
        inner[:] = [it for it in inner if it not in UNTRACKED]
        near = f"/{Path(folder).relative_to(TOP)}".removesuffix("/.")
        folders.add(near)
        found |= {f"{near}/{it}" for it in names}
    return found, folders


@cache
def vocabulary():
    """All names that occur in files that aren't pages, or as their names."""
    words = set()
    for it in files()[0]:
        if not it.endswith(".md"):
            words |= set(WORD.findall(it)) | set(WORD.findall((TOP / it[1:]).read_bytes().decode(errors="replace")))
    return words


def is_known(name):
    """Whether a name in code in any page names something that exists."""
    if name in OUTSIDE or " " in name and not name.startswith(("./", "bench/")) or PLACEHOLDER.search(name):
        return True
    if name.startswith(("./", "bench/")):
        name = name.split()[0]
    if FILE.fullmatch(name) and "://" not in name:
        end = "/" + name.removeprefix("./").strip("/")
        found, folders = files()
        return any(it.endswith((end, end + ".antt")) for it in found) or any(it.endswith(end) for it in folders)
    return all(len(word) == 1 or word in vocabulary() for word in WORD.findall(name))


@cache
def anchors(page):
    """What links may name in a page: its headings, as browsers of Markdown spell them."""
    headings = re.findall(r"^#+ (.*)$", FENCED.sub("", page.read_text()), re.M)
    return {re.sub(r"[^\w -]", "", it).strip().lower().replace(" ", "-") for it in headings}


def of_links(page, wrong):
    for name, _, anchor in re.findall(r"\]\(([^()#\s:]*)(#([^()\s]+))?\)", FENCED.sub("", page.read_text())):
        to = page.parent / name if name else page
        if not to.exists() or anchor and anchor not in anchors(to):
            wrong.append(f"{page.name}: the link to {name}{anchor and '#'}{anchor} leads nowhere")


def of_pages(wrong):
    pages = [TOP / it for it in ("README.md", "CHANGELOG.md", "CONTRIBUTING.md", "examples/README.md")] + sorted((TOP / "docs").rglob("*.md"))
    seen, version = 0, (TOP / "VERSION").read_text().strip()
    if f"**Version {version}**" not in pages[0].read_text():
        wrong.append(f"{pages[0].name}: it doesn't say **Version {version}**, as the file VERSION does")
    chart = (TOP / "docs/internal/ARCHITECTURE.md").read_text()
    wrong += [f"ARCHITECTURE.md: there is no `{it}`" for it in CRATES if f"`{it}`" not in chart]
    for page in pages:
        of_links(page, wrong)
        if str(page.relative_to(TOP)) not in ELSEWHERE:
            spans = SPAN.findall(FENCED.sub("", page.read_text()))
            seen += len(spans)
            wrong += [f"{page.name}: `{it}` isn't anywhere" for it in sorted(set(spans)) if not is_known(it)]
    return seen


def main():
    wrong = []
    proved = [of_proved(TOP / it, wrong) for it in PROVED]
    worked, all_pages = of_worked(wrong), of_pages(wrong)
    print(*wrong, sep="\n", end="\n" if wrong else "")
    told = ", ".join(f"{count} in {page}" for count, page in zip((*proved, worked, all_pages), (*PROVED, "docs/internal/WORKED.md", "all pages")))
    print(f"names: {told}; {len(wrong)} of them wrong")
    return 0 if all(proved) and worked and all_pages and not wrong else 1


if __name__ == "__main__":
    sys.exit(main())
