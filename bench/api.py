#!/usr/bin/env python3
"""Writes docs/API.md: every public name of the libraries with the first sentence of its doc comment. Writes into
docs/internal/DEFINITIONS.md, after its last heading, each file of specs/ with the first sentence of its comment.

    bench/api.py            writes the pages
    bench/api.py --check    says whether the pages are what it would write

The names are those that a crate's `lib.rt` gives out by `pub use`, and for the facade `typst_tree` also those of its
modules. The rows of a type are its public fields, functions and constants. A trait has rows for its own, and an enum has
rows for its variants too. A function is written as `name(arguments) -> result`, without the types of its arguments. A
`Result` or an `Option` shows what it holds. What docs/KINDS.md says of each kind isn't said again.
"""
import re
from collections import defaultdict

from common import TOP, crates, parser, write

PAGE = TOP / "docs/API.md"
KINDS = TOP / "docs/KINDS.md"
DEFINITIONS, FILES = TOP / "docs/internal/DEFINITIONS.md", "\n## Each file of `specs/`\n"
CRATES = ("typst_tree", "typst_source", "typst_language", "typst_lines", "typst_session")
BELOW = ("typst_base", "typst_node", "typst_linked", "typst_atoms", "typst_ast")
ITEM = re.compile(r"^( *)pub (?:const )?(struct|enum|trait|fn|const|type) (\w+)")
IMPL = re.compile(r"^impl(?:<.*?>)? (?:(\w+)(?:<.*?>)? for )?(\w+)")
FIELD = re.compile(r"^    pub (\w+): (.*?),?$")
VARIANT = re.compile(r"^    ([A-Z]\w*)\b")
IN_TRAIT = re.compile(r"^    fn (\w+)")
HEAD = """# API

This page has a line for every public name of five crates: `typst_tree`, `typst_source`, `typst_language`, `typst_lines` and
`typst_session`. `bench/api.py` writes it from the doc comments, and the gate compares it. The sources say more: each function's
contract, what it costs, and when each error comes. [`GUIDE.md`](GUIDE.md) shows the calls in use.

A name is in the crate of its heading. Arguments are shown without `self`. `alloc` is the allocator, as `rt.alloc()`.
"""


class Item:
    """A public name: what it is, how it is written, and its first sentence."""

    def __init__(self, name, kind, text, doc):
        self.name, self.kind, self.text, self.doc, self.rows = name, kind, text, doc, []


def sentence(doc):
    """The first sentence of a doc comment."""
    paragraph = " ".join("\n".join(doc).split("\n\n")[0].split())
    found = re.match(r"(.*?[.?!])(?= [A-Z`\[]|$)", paragraph)
    text = found[1] if found else paragraph
    return re.sub(r"\[(`[^`]*`)\](?:\([^)]*\))?", r"\1", re.sub(r":$", ".", text))


def signature(lines, at):
    """The text of a function up to its contract or its body."""
    text = ""
    for line in lines[at : at + 30]:
        if text and re.match(r"\s*(requires|ensures|\{|where)\b|\s*\{", line):
            break
        text += " " + line.split(" {")[0].strip() if "{" in line and "->" not in line.split("{")[0] else " " + re.sub(r" \{.*$", "", line.strip())
        if line.rstrip().endswith("{") or line.rstrip().endswith(";"):
            break
    return " ".join(text.split())


def split_args(text):
    """The arguments between the outer parentheses, which follow the type parameters, and what comes after them."""
    start, angles = 0, 0
    while text[start] != "(" or angles:
        angles += (text[start] == "<") - (text[start] == ">" and text[start - 1] != "-")
        start += 1
    depth, args, last = 0, [], start + 1
    for at in range(start, len(text)):
        depth += text[at] in "([<{"
        depth -= text[at] in ")]}" or (text[at] == ">" and text[at - 1] != "-")
        if depth == 1 and text[at] == "," or depth == 0:
            args.append(text[last:at].strip())
            last = at + 1
        if depth == 0:
            return [it for it in args if it], text[at + 1 :].strip()
    return args, ""


def shown(text):
    """A function as `name(arguments) -> result`."""
    name = re.search(r"fn (\w+)", text)[1]
    args, rest = split_args(text[text.index(name) + len(name) :])
    names = [it.split(":")[0].removeprefix("mut ").strip("_ ") for it in args if not re.fullmatch(r"&?(?:'\w+ )?(?:mut )?self", it)]
    result = re.match(r"-> (.*?);?$", rest)
    return f"{name}({', '.join(names)})" + (f" -> {result[1]}" if result else "")


def items_of(path):
    """The public names of a source file: the items, and the rows of each type."""
    lines, items, rows = path.read_text().split("\n"), {}, defaultdict(list)
    doc, owner, variants, struct = [], None, None, None
    for at, line in enumerate(lines):
        stripped = line.strip()
        if stripped.startswith("///"):
            doc.append(stripped[3:].strip())
            continue
        if stripped.startswith("#[") or stripped.startswith("//"):
            continue
        if line.startswith("impl"):
            found = IMPL.match(line)
            owner = found[2] if found and not found[1] else None
        elif line.startswith("}"):
            owner = variants = struct = None
        item = ITEM.match(line)
        if item and not item[1]:
            text = shown(signature(lines, at)) if item[2] == "fn" else item[3]
            items[item[3]] = Item(item[3], item[2], text, sentence(doc))
            variants = item[3] if item[2] in ("enum", "trait") else None
            struct = item[3] if item[2] == "struct" and line.endswith("{") else None
        elif struct and (found := FIELD.match(line)):
            rows[struct].append((f"{found[1]}: {found[2]}", sentence(doc)))
        elif item and owner and len(item[1]) == 4:
            text = shown(signature(lines, at)) if item[2] == "fn" else item[3]
            rows[owner].append((text, sentence(doc)))
        elif variants and items[variants].kind == "enum" and (found := VARIANT.match(line)):
            rows[variants].append((found[1], sentence(doc)))
        elif variants and items[variants].kind == "trait" and (found := IN_TRAIT.match(line)):
            rows[variants].append((shown(signature(lines, at)), sentence(doc)))
        doc = []
    return items, rows


def names_of(path):
    """The names that a file gives out by `pub use`, in order."""
    found = {}
    for use in re.findall(r"^pub use (.*?);", path.read_text(), re.M | re.S):
        head, _, listed = use.partition("{")
        names = re.findall(r"\w+", listed) if listed else [use.split("::")[-1]]
        found |= dict.fromkeys(names)
    return list(found)


def table(rows):
    """A table of names and sentences."""
    lines = ["| | |", "|---|---|"]
    lines += [f"| `{text}` | {doc} |".replace("||", "\\|\\|") for text, doc in rows]
    return lines


def named_in(crates):
    """The public items of crates, and the rows of each type."""
    items, rows = {}, defaultdict(list)
    for crate in crates:
        for path in sorted((TOP / "crates" / crate / "src").rglob("*.rt")):
            here, there = items_of(path)
            items |= {name: it for name, it in here.items() if name not in items}
            for owner, more in there.items():
                rows[owner] += more
    return items, rows


def of_kinds(names, items, rows):
    """Leaves out what docs/KINDS.md says: the variants that are kinds, and what a view's kind is. Returns the views that have no rows."""
    kinds = dict(re.findall(r"^\| \d+ \| `(\w+)` .*\| (.*?) \|$", KINDS.read_text(), re.M))
    for it in ("SyntaxKind", "Expr"):
        if it in names and it in items and any(text in kinds for text, _ in rows[it]):
            rows[it] = [row for row in rows[it] if row[0] not in kinds]
            items[it].doc += " Its variants are kinds of [`KINDS.md`](KINDS.md)."
    for it in names:
        if it in kinds and it in items and kinds[it].startswith(items[it].doc):
            items[it].doc = ""
    return [it for it in names if it in kinds and it in items and not rows[it]]


def page():
    """The whole page."""
    lines = [HEAD]
    for crate in CRATES:
        items, rows = named_in((*BELOW, crate) if crate == "typst_tree" else (crate,))
        places = [(crate, TOP / "crates" / crate / "src/lib.rt")]
        if crate == "typst_tree":
            places += [("typst_tree::ast", TOP / "crates/typst_tree/src/ast.rt")]
        for title, path in places:
            names = names_of(path)
            lines += [f"## {title}", ""]
            if title == "typst_tree::ast":
                lines += ["Views of nodes. A view is made by `from_untyped(node)`, of `AstNode`, and reads its node. A view of one kind has"]
                lines += ["the name of the kind; [`KINDS.md`](KINDS.md) says what it is.", ""]
            bare = of_kinds(names, items, rows)
            if bare:
                lines += [f"Without accessors: {', '.join(f'`{it}`' for it in bare)}.", ""]
            plain = [(items[it].text, items[it].doc) for it in names if it in items and not rows[it] and it not in bare]
            if plain:
                lines += [*table(plain), ""]
            for it in names:
                if it in items and rows[it]:
                    lines += [f"### {it}", "", *([items[it].doc, ""] if items[it].doc else []), *table(rows[it]), ""]
        if crate == "typst_tree":
            here, there = items_of(TOP / "crates/typst_tree/src/session.rt")
            lines += ["## typst_tree::session", "", *table([(it.text, it.doc) for it in here.values() if not there[it.name]]), ""]
            for name, it in here.items():
                if there[name]:
                    lines += [f"### {name}", "", it.doc, "", *table(there[name]), ""]
    return "\n".join(lines).rstrip() + "\n"


def defined(path):
    """What a file of specs/ defines: the first sentence of its comment."""
    lines = [it[3:] for it in path.read_text().split("\nuse ")[0].split("\n\n")[0].split("\n") if it.startswith("-- ")]
    return sentence([it for it in lines if not it.startswith("Written by ")])


def definitions():
    """The page of definitions, with the table of all files of specs/ after its last heading."""
    lines = []
    for crate in crates():
        files = sorted(it for it in (TOP / "crates" / crate / "specs").glob("*.antt") if it.stem != "Lib")
        rows = "".join(f"| `{it.stem}` | {defined(it)} |\n" for it in files)
        lines += [f"\n`{crate}`:\n\n| | |\n|---|---|\n{rows}"] if files else []
    head, heading, _ = DEFINITIONS.read_text().partition(FILES)
    return head + heading + "".join(lines)


def main():
    made = {PAGE: page(), DEFINITIONS: definitions()}
    write(made.items(), "the sources", parser(__doc__, "--check").parse_args().check)
    for path, text in made.items():
        print(f"{path.relative_to(TOP)}: {text.count(chr(10) + '| `')} names")


if __name__ == "__main__":
    main()
