"""Nodes for the plain machine, and trees as lines: a node a line, two blanks a level, a leaf with its text, an error with both."""
import re
import unicodedata
from dataclasses import dataclass

LINE = re.compile(r'( *)(\w+)(?: ("(?:[^"\\]|\\.)*")(?:: (.*))?)?$')
# A warning or a hint of the node above it.
TOLD = re.compile(r" *(warning|hint): ")


ESCAPES = {"n": "\n", "t": "\t", "r": "\r", "0": "\0", '"': '"', "'": "'", "\\": "\\"}
ESCAPED = {c: f"\\{letter}" for letter, c in ESCAPES.items() if c != "'"}


@dataclass(frozen=True)
class Node:
    """A leaf or an error has a text. Any other node has children."""

    kind: str
    text: str = ""
    message: str = ""
    children: tuple | None = None

    def full_text(self):
        return self.text if self.children is None else "".join(child.full_text() for child in self.children)

    def levels(self):
        return 1 + max((child.levels() for child in self.children or ()), default=0)

    def with_children(self, children, kind=None):
        return Node(kind or self.kind, children=tuple(children))


def error(text, message):
    return Node("Error", text, message)


def unquoted(text):
    """The text that `{:?}` prints so."""
    return re.sub(r"\\(?:u\{(\w+)\}|(.))", lambda it: chr(int(it[1], 16)) if it[1] else ESCAPES[it[2]], text[1:-1])


def quoted(text):
    """A text as `{:?}` prints it."""

    def shown(c):
        is_plain = (c.isprintable() or c == " ") and unicodedata.category(c) not in ("Mn", "Me")
        return ESCAPED.get(c) or (c if is_plain else f"\\u{{{ord(c):x}}}")

    return '"' + "".join(map(shown, text)) + '"'


def read(lines, depth=0):
    """The nodes that lines of this depth tell, of a list of lines that it empties."""
    nodes = []
    while lines and len(lines[0]) - len(lines[0].lstrip(" ")) == 2 * depth:
        _, kind, text, message = LINE.match(lines.pop(0)).groups()
        if text is None:
            nodes.append(Node(kind, children=tuple(read(lines, depth + 1))))
        else:
            nodes.append(Node(kind, unquoted(text), message or ""))
    return nodes


def tree_of(path):
    """The nodes under the root of a tree that a file has. Warnings and hints are left out."""
    lines = [it for it in path.read_text().splitlines() if not TOLD.match(it)]
    return read(lines)[0].children


# What is hinted at an error, by its message, and what is warned of a node without text.
NO_NAME = re.compile(r"expected (?:identifier|pattern), found keyword `(\w+)`")
HINTS = {
    "unexpected end of block comment": ["consider escaping the `*` with a backslash or opening the block comment with `/*`"],
    "the character `#` is not valid in code": ["this is code already: try removing the hash", "to write a hash as text, escape it: `\\#`"],
    "the character `&` is not valid in code": ["in Typst, `and` is used for logical AND"],
    "the character `|` is not valid in code": ["in Typst, `or` is used for logical OR"],
}
WARNED = {"Strong": ("stars", "**"), "Emph": ("underscores", "__")}
# What strong and emphasized content may have without having text.
NO_TEXT = ("LineComment", "BlockComment", "Parbreak", "Hash", "Semicolon", "Error")


def told_of(node):
    """The lines of the hints and the warning of a node."""
    if keyword := NO_NAME.fullmatch(node.message):
        yield f"hint: keyword `{keyword[1]}` is not allowed as an identifier; try `{keyword[1]}_` instead"
    yield from (f"hint: {it}" for it in HINTS.get(node.message, ()))
    content = [child for child in node.children or () if child.kind in ("Markup", "Error")]
    if node.kind in WARNED and all(it.kind == "Markup" and all(child.kind in NO_TEXT for child in it.children) for it in content):
        marks, several = WARNED[node.kind]
        yield f"warning: no text within {marks}"
        yield f"hint: using multiple consecutive {marks} (e.g. {several}) has no additional effect"


def lines_of(node, depth=0):
    """The lines of a node and of those in it, with its hints and its warning one level deeper than the node."""
    said = f" {quoted(node.text)}" if node.children is None else ""
    yield "  " * depth + node.kind + said + (f": {node.message}" if node.kind == "Error" else "")
    yield from ("  " * (depth + 1) + it for it in told_of(node))
    for child in node.children or ():
        yield from lines_of(child, depth + 1)
