#!/usr/bin/env python3
"""Writes docs/CHILDREN.md from crates/children.txt: the children of each kind, in order.

    bench/children.py                      writes it, and says whether it changed
    bench/children.py --check              says whether it is what would be written, and compares the lines with trees and views
    bench/children.py --parsed [PROGRAM]   compares the trees of texts by chance, as the program behind ./show makes them

- Each inner node without errors in the trees of crates/typst_language_tests/data, which were worked out apart from the
  library, must have the children that its kind's line says. Each name in a line must be needed by one of them.
- A line gives children to accessors. The definition that the contract of the accessor cites, in typst_accessors/specs, must
  give the same children of each of these nodes.

With --parsed the texts are those of bench/grammar/texts.py: valid ones, and pieces in any order. Each is an edit of the one before it.

- The tree of each text must be that of the plain machine (bench/grammar/machine.py), with its errors.
- The tree of a valid text must have no error.
- Each inner node must have the children that its kind's line says, unless an error is among them or directly before the node. So the
  accessors of its view find what they ask for, and return no placeholder. (Where an error is last, no further one tells what is missing.)
"""
import random
import re
import sys
from functools import cache
from pathlib import Path

import grammar.nodes
import grammar.table
from common import TOP, ended, proved, ran, write
from grammar.machine import Rows, parse
from grammar.texts import DATA, soup, valid_text
from kinds import TABLE, Table
from shown.trees import beginning, quoted_of, tree_of

CLASSES = ("pattern", "arg", "array_item", "dict_item", "param", "destructuring_item", "import_item")
LINES, PAGE = TOP / "crates/children.txt", TOP / "docs/CHILDREN.md"
COMMENTS = ("LineComment", "BlockComment", "Shebang")
WHITE = (*COMMENTS, "Space", "Parbreak")
# How many texts of each sort are made.
TEXTS = 5_000
# A row of a tree that ./show draws, and an error below it.
ROW = re.compile(r'((?:│  |   )*(?:├─ |└─ )?)(\w+) (\d+)\.\.(\d+) #\d+(?: new| moved)?  "')
ERROR = re.compile(r"error: (.*)")
HEAD = """<!-- Written by bench/children.py from crates/children.txt: change that and run it. -->
# The children of each kind

A view reads the children of its node. This page says which children a node of each kind has, in order, as in the trees of valid
texts. Build a tree by hand in this way, and its views return what they would return of a parsed text. A kind that isn't here is that
of a leaf. [`KINDS.md`](KINDS.md) says with an example what each kind is.

A name is a kind, or a class of kinds in small letters. `body:Markup` is a child of the kind `Markup`, which the accessor `body` of the
view returns. `?` may be missing, `*` comes any number of times, and `/` stands between alternatives. Comments may be between any two
children, with white space after them, and in math and code white space, too. In math, a `Hash` may be before an expression, and a
`Semicolon` after it.

The classes `expr` and `block` are those of [`KINDS.md`](KINDS.md). The others:

"""


class Form:
    """What children a kind has: the name of a kind or class, a sequence, a choice, or one form that may be missing or come again.
    A label is the accessor that returns the child."""

    def __init__(self, what, inner, label=""):
        self.what, self.inner, self.label = what, inner, label

    def names(self):
        return [self] if self.what == "name" else [it for one in self.inner for it in one.names()]


class Reader:
    """Reads the form of a line."""

    def __init__(self, text):
        self.words, self.at = re.findall(r"[()/?*]|\w+:|\w+", text), 0

    def next(self):
        return self.words[self.at] if self.at < len(self.words) else ")"

    def word(self):
        self.at += 1
        return self.words[self.at - 1]

    def choice(self, label=""):
        found = [self.sequence(label)]
        while self.next() == "/":
            self.word()
            found.append(self.sequence(label))
        return Form("choice", found)

    def sequence(self, label):
        found = []
        while self.next() not in ")/":
            own = self.word()[:-1] if self.next().endswith(":") else label
            if self.next() == "(":
                self.word()
                one = self.choice(own)
                self.word()
            else:
                one = Form("name", self.word(), own)
            found.append(Form(self.word(), [one]) if self.next() in "?*" else one)
        return Form("sequence", found)


def matches(form, kids, at, classes):
    """Each way in which the children from `at` on have a form: where it ends, and the names with their children."""
    if form.what == "name":
        if at < len(kids) and kids[at].kind in classes.get(form.inner, {form.inner}):
            yield at + 1, [(form, kids[at])]
    elif form.what == "choice":
        for one in form.inner:
            yield from matches(one, kids, at, classes)
    elif form.what == "sequence":
        yield from in_order(form.inner, kids, at, classes)
    else:
        for end, found in matches(form.inner[0], kids, at, classes):
            rest = matches(form, kids, end, classes) if form.what == "*" and end > at else [(end, [])]
            yield from ((last, found + more) for last, more in rest)
        yield at, []


def in_order(forms, kids, at, classes):
    if not forms:
        yield at, []
    else:
        for end, found in matches(forms[0], kids, at, classes):
            yield from ((last, found + more) for last, more in in_order(forms[1:], kids, end, classes))


# The definitions of contracts. A node is a node or None, a list a list, a kind its name, and a class a function.
SPECS = ("typst_node/specs/Children", "typst_atoms/specs/Kinds", "typst_atoms/specs/Classes", "typst_ast/specs/Kinds",
         "typst_ast/specs/Closures", "typst_ast/specs/Imports", "typst_ast/specs/LetBindings", *(f"typst_accessors/specs/{it}" for it in (
             "Markup", "Math", "Code", "Control", "Modules", "Lists")))  # fmt: skip
TABLES = ("markup_node", "math_node", "code_node", "control_node", "module_node", "nodes_answered")


def item(index):
    return lambda nodes: next(iter(nodes[index:][:1]), None)


def behind_first(of_class):
    return lambda nodes: next((nodes[at + 1 :] for at, it in enumerate(nodes) if of_class(it.kind)), [])


def before_last(of_class):
    return lambda nodes: next((nodes[:at] for at in reversed(range(len(nodes))) if of_class(nodes[at].kind)), [])


# What has several equations, or stands in std.
PLAIN = {
    "children_in": lambda node: node.children or [] if node else [],
    "all_in": lambda of_class: lambda nodes: [it for it in nodes if of_class(it.kind)],
    "first_of": item(0), "second_of": item(1), "third_of": item(2), "last_of": lambda nodes: nodes[-1] if nodes else None,
    "behind_first": behind_first, "before_last": before_last,
    "of_class": lambda of_class: lambda node: node if node and of_class(node.kind) else None,
    "is_kind": lambda kind: lambda other: kind == other,
    "kind_or": lambda kind: lambda node: node.kind if node else kind,
    "cond": lambda test: lambda yes: lambda no: yes if test else no,
}  # fmt: skip


@cache
def equations():
    """The definitions with one equation, and those of accessors: their arguments and what they are, by name."""
    found = {}
    for file in SPECS:
        text = re.sub(r"=\n +", "= ", (TOP / f"crates/{file}.antt").read_text())
        for name, arguments, value in re.findall(r"^(\w+)((?: \w+)+) = (.*)$", text, re.M):
            first, *rest = arguments.split()
            name, arguments = (first, rest) if name in TABLES else (name, [first, *rest])
            found[name] = (arguments, re.findall(r"[()]|\|\||[\w.]+", value))
    return found


def value(words, known):
    """The value of an expression, whose words it takes from the front of the list."""
    found = applied(words, known)
    while words and words[0] == "||":
        words.pop(0)
        other = applied(words, known)
        found = found or other
    return found


def applied(words, known):
    found = None
    while words and words[0] not in (")", "||"):
        word = words.pop(0)
        if word == "(":
            one = value(words, known)
            words.pop(0)
        else:
            one = known[word] if word in known else defined(word)
        found = one if found is None else found(one)
    return found


def defined(word):
    if word.startswith("kinds."):
        return word.removeprefix("kinds.")
    if word in PLAIN:
        return PLAIN[word]
    if word == "is_expr_kind":
        return lambda kind: kind in classes()["expr"]
    arguments, words = equations()[word]

    def given(known, left):
        return lambda it: value(list(words), {**known, left[0]: it}) if len(left) == 1 else given({**known, left[0]: it}, left[1:])

    return given({}, arguments)


def called(kind, accessor):
    """What definitions call an accessor."""
    return kind + accessor.title().replace("_", "")


def returned(kind, accessor, node):
    """The children that an accessor returns, by its definition; no deeper node."""
    found = defined(called(kind, accessor))(node)
    found = found if isinstance(found, list) else [found]
    return [it for it in found if any(it is child for child in node.children)]


@cache
def classes():
    """The kinds of each class that a line may name."""
    table = Table((TOP / TABLE).read_text())
    found = {word: {it.name for it in table.of(word)} for word in table.classes}
    for name in CLASSES:
        found[name] = set().union(*(found.get(it, {it}) for it in of_class(name)))
    return found


def of_class(name):
    """The kinds and classes that the definition of a class names."""
    words = re.findall(r"\bkinds\.(\w+)|\bis_(?!kind\b)(\w+)_kind\b", " ".join(equations()[f"is_{name}_kind"][1]))
    return [kind or other for kind, other in words]


@cache
def lines():
    """The line of each kind, by the parts of the language that the file names."""
    parts = re.split(r"^\[(.*)\]$", LINES.read_text(), flags=re.M)[1:]
    return {part: dict(re.findall(r"^(\w+): (.*)$", text, re.M)) for part, text in zip(parts[::2], parts[1::2])}


def page():
    text = HEAD
    for name in CLASSES:
        text += f"- `{name}`: {', '.join(f'`{it}`' for it in of_class(name))}.\n"
    for part, kinds in lines().items():
        rows = "".join(f"| `{kind}` | `{line}` |\n" for kind, line in kinds.items())
        text += f"\n## {part.capitalize()}\n\n| kind | its children |\n|---|---|\n{rows}"
    return text


def children_of(node, form):
    """The children of a node without those that a form may leave out."""
    out = set(COMMENTS)
    if node.kind in lines()["math and code"]:
        out |= {"Space", "Parbreak", "Hash", "Semicolon"} - {it.inner for it in form.names()}
    before = [None, *node.children[:-1]]
    return [it for it, last in zip(node.children, before) if it.kind not in out and not (it.kind == "Space" and last and last.kind in COMMENTS)]


def faults():
    forms = {kind: Reader(line).choice() for part in lines().values() for kind, line in part.items()}
    named = [(kind, it.label) for kind, form in forms.items() for it in form.names() if it.label]
    unknown = {it for it in named if called(*it) not in equations()}
    yield from (f"{kind}: there is no accessor {accessor} with a definition" for kind, accessor in sorted(unknown))
    used, seen = set(), 0
    for file in sorted(DATA.glob("*.tree")):
        for _, node in tree_of(file.read_bytes().decode()).preorder():
            if not node.children or any(it.kind == "Error" for it in node.children):
                continue
            form = forms.get(node.kind)
            kids = children_of(node, form) if form else []
            found = next((it for end, it in matches(form, kids, 0, classes()) if end == len(kids)), None) if form else None
            if found is None:
                yield f"{file.name}: the line of {node.kind} doesn't fit {' '.join(it.kind for it in node.children)}"
                continue
            seen += 1
            used |= {id(name) for name, _ in found}
            for accessor in {label for kind, label in named if kind == node.kind and (kind, label) not in unknown}:
                given = [child for name, child in found if name.label == accessor]
                if list(map(id, given)) != list(map(id, returned(node.kind, accessor, node))):
                    yield f"{file.name}: of {' '.join(it.kind for it in node.children)} {node.kind}.{accessor} returns other children"
    for kind, form in forms.items():
        yield from (f"{kind}: no tree needs {it.inner} in its line" for it in form.names() if id(it) not in used)
    if not seen:
        yield f"there is no tree in {DATA}"


class Drawn:
    """A node of a drawn tree: its kind, where it begins and ends, and its children. That of the plain machine has the same."""

    def __init__(self, kind, start, end):
        self.kind, self.start, self.end, self.children = kind, start, end, []

    def rows(self, depth=0):
        yield depth, self
        for child in self.children:
            yield from child.rows(depth + 1)


def drawn(program, texts):
    """The trees of some texts with the messages of their errors, as the program draws them. Each text is put in place of the one
    before it."""
    edits, before = "", 0
    for text in texts:
        edits += f"0..{before} {beginning(quoted_of(text))}\n"
        before = len(text.encode())
    done = ran([program, "/dev/null", "--edits", "-"], input=edits.encode())
    if done.returncode > 1:
        sys.exit(f"{program} ends with status {done.returncode}: {done.stderr.decode()}")
    trees, above = [], []
    # A text in quotes has no line end of its own.
    for line in done.stdout.decode().split("\n"):
        if row := ROW.match(line):
            node, depth = Drawn(row[2], int(row[3]), int(row[4])), len(row[1]) // 3
            if depth == 0:
                trees.append((node, []))
            else:
                above[depth - 1].children.append(node)
            above[depth:] = [node]
        elif told := ERROR.match(line):
            trees[-1][1].append(told[1])
    return trees[1:]


def plain_tree(node, start=0):
    """A node of the plain machine, with the bytes of each node, and the messages of its errors."""
    made = Drawn(node.kind, start, start + (len(node.text.encode()) if node.children is None else 0))
    told = [node.message] if node.kind == "Error" else []
    for child in node.children or ():
        below, said = plain_tree(child, made.end)
        made.children.append(below)
        made.end = below.end
        told += said
    return made, told


def behind_errors(root):
    """The nodes directly behind an error, white space aside."""
    found = set()
    for _, node in root.rows():
        kids = [it for it in node.children if it.kind not in WHITE]
        found |= {id(it) for last, it in zip(kids, kids[1:]) if last.kind == "Error"}
    return found


def unlike(forms, root):
    """The inner nodes without the children that their lines say, unless an error is among these or directly before the node."""
    excused = behind_errors(root)
    for _, node in root.rows():
        form = forms.get(node.kind)
        if (node.children or form) and id(node) not in excused and all(it.kind != "Error" for it in node.children):
            kids = children_of(node, form) if form else []
            if not form or all(end != len(kids) for end, _ in matches(form, kids, 0, classes())):
                yield f"{node.kind}[{' '.join(it.kind for it in node.children)}]"


def parsed_faults(program):
    """What is wrong with the trees that the program draws of texts by chance."""
    forms = {kind: Reader(line).choice() for part in lines().values() for kind, line in part.items()}
    rows = Rows(grammar.table.Table(grammar.table.TABLE))
    texts = [make(random.Random(seed)) for make in (valid_text, soup) for seed in range(TEXTS)]
    trees = drawn(program, texts)
    if len(trees) != len(texts):
        yield f"{len(trees)} trees are drawn, of {len(texts)} texts"
    for number, (text, (root, told)) in enumerate(zip(texts, trees)):
        plain, errors = plain_tree(grammar.nodes.Node("Markup", children=tuple(parse(rows, text).nodes)))
        shapes = [[(depth, it.kind, it.start, it.end) for depth, it in tree.rows()] for tree in (root, plain)]
        if shapes[0] != shapes[1] or told != errors:
            yield f"another tree than that of the plain machine: {text!r}"
        if number < TEXTS and told:
            yield f"an error in a valid text: {text!r}"
        yield from (f"{it} in {text!r}" for it in unlike(forms, root))


def main():
    if sys.argv[1:2] == ["--parsed"]:
        sys.setrecursionlimit(10_000)
        wrong = list(parsed_faults(Path(sys.argv[2]).resolve() if sys.argv[2:] else proved("typst_show")))
        return ended(wrong[:40], f"{2 * TEXTS:,} texts by chance, {len(wrong)} faults in their trees and in what views ask for")
    check = "--check" in sys.argv[1:]
    write([(PAGE, page())], LINES.relative_to(TOP), check)
    wrong = [f"children: {it}" for it in faults()] if check else []
    return ended(wrong, f"the children of {sum(map(len, lines().values()))} kinds, {len(wrong)} faults in their lines and their page")


if __name__ == "__main__":
    sys.exit(main())
