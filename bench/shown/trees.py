"""What ./show must print, worked out apart from it: from plain trees, by the rules of docs/SHOW.md and docs/SCRIPT.md.

A plain tree comes from a `.tree` file or from the lines of a look. The numbers are those of typst-syntax's `numberize`
and `replace_children`, as far down as nodes go on. Their rules are written here again.
"""
import re
import unicodedata

NUMBERS = (2, 1 << 47)
# How many characters of an inner node's text are shown.
INNER_CHARS = 32
# How many characters of a line are shown before a part, in it and after it.
BEFORE, WITHIN, BEHIND = 60, 60, 40
TOLD = re.compile(r" *(warning|hint): (.*)")
CHARACTER = re.compile(r"\\u\{([0-9a-f]+)\}|\\(.)|(.)", re.S)
ESCAPES = {"n": "\n", "r": "\r", "t": "\t", "0": "\0"}
SHORT = {"\n": "\\n", "\r": "\\r", "\t": "\\t", "\0": "\\0", '"': '\\"', "\\": "\\\\"}


class Node:
    """A node with the characters of its own text, each as it is and as it is quoted. An inner node has a list of children.
    A warning has the hints, or the error has them."""

    def __init__(self, kind, characters=None, children=None, message=None):
        self.kind, self.own, self.children, self.message = kind, characters, children, message
        self.warning, self.hints = None, []
        self.number = self.upper = 0
        self.start = self.end = 0
        # What an edit did to the node: "new", "moved" to another number, or nothing.
        self.mark = ""

    def characters(self):
        if self.children is None:
            return self.own
        return [it for child in self.children for it in child.characters()]

    def text(self):
        return "".join(it for it, _ in self.characters())

    def count(self):
        return 1 + sum(child.count() for child in self.children or [])

    def place(self, start=0):
        """Sets the bytes of all nodes."""
        self.start = self.end = start
        if self.children is None:
            self.end += len(self.text().encode())
        for child in self.children or []:
            self.end = child.place(self.end)
        return self.end

    def preorder(self, path=()):
        yield path, self
        for index, child in enumerate(self.children or []):
            yield from child.preorder((*path, index))

    def is_like(self, other):
        """Whether both are the same apart from their numbers."""
        if (self.kind, self.own, self.message, self.warning, self.hints) != (other.kind, other.own, other.message, other.warning, other.hints):
            return False
        return are_alike(self.children, other.children)


def are_alike(some, others):
    if some is None or others is None:
        return some is others
    return len(some) == len(others) and all(a.is_like(b) for a, b in zip(some, others))


def unquoted(quoted):
    """The characters of a text in quotes, each with the form that it has there."""
    found = []
    for it in CHARACTER.finditer(quoted):
        code, escaped, plain = it.groups()
        char = chr(int(code, 16)) if code else ESCAPES.get(escaped, escaped) if escaped else plain
        found.append((char, it.group()))
    return found


def quoted_of(text):
    """The characters of a text, each with the form in which `{:?}` prints it."""
    return [(char, SHORT.get(char) or (char if is_printed(char) else f"\\u{{{ord(char):x}}}")) for char in text]


def is_printed(char):
    return char == " " or unicodedata.category(char) not in ("Cc", "Cf", "Cs", "Co", "Cn", "Zl", "Zp", "Zs", "Mn", "Me")


def tree_of(lines):
    """The tree that lines of kinds and texts describe, two blanks a level. The warning and the hints of a node are below its line."""
    above = []
    for line in lines.splitlines():
        if told := TOLD.match(line):
            if told[1] == "hint":
                above[-1].hints.append(told[2])
            else:
                above[-1].warning = told[2]
            continue
        depth = (len(line) - len(line.lstrip(" "))) // 2
        kind, _, rest = line.lstrip(" ").partition(" ")
        # An error's text is in quotes, and its message comes after them.
        quoted = re.match(r'"((?:\\.|[^"\\])*)"(?:: (.*))?$', rest, re.S)
        node = Node(kind, unquoted(quoted[1]), message=quoted[2]) if quoted else Node(kind, children=[])
        del above[depth:]
        if above:
            above[-1].children.append(node)
        above.append(node)
    return above[0]


def without_remarks(lines):
    """Lines of kinds and texts without those of warnings and hints."""
    return "".join(line for line in lines.splitlines(keepends=True) if not TOLD.match(line))


def spread(node, low, high):
    """Numbers a tree within a range. False if there are fewer numbers than nodes."""
    if node.children is None:
        node.number, node.upper = (low + high) // 2, (low + high) // 2 + 1
        return low < high
    space, count = high - low, node.count()
    stride = space // (2 * count) or space // count
    if space <= 0 or stride == 0:
        return False
    node.number, node.upper = (low + low + stride) // 2, high
    return spread_all(node.children, low + stride, stride)


def spread_all(nodes, start, stride):
    for node in nodes:
        end = start + node.count() * stride
        if not spread(node, start, end):
            return False
        start = end
    return True


class Change:
    """What an edit changed: the path to a node and the node, and the windows that were tried among its children, or the index of the leaf
    that went on."""

    def __init__(self, path, node, windows=(), leaf=None):
        self.path, self.node, self.windows, self.leaf = path, node, windows, leaf

    def told(self):
        place = ".".join(map(str, self.path)) or "-"
        if self.leaf is not None:
            return f"leaf {self.leaf} at {place}"
        return f"window {self.windows[-1].start}..{self.windows[-1].stop}, tried {len(self.windows)}, at {place}"


def edited(old, new, old_parsed, new_parsed):
    """Numbers the new tree after an edit of the old one: its children `new_parsed` come in place of the old tree's children `old_parsed`,
    as far down as nodes go on. Returns the change."""
    steps, is_leaf = way_down(old, new, old_parsed, new_parsed, lambda theirs, ours: True)
    if not is_leaf:
        steps, _ = way_down(old, new, old_parsed, new_parsed, lambda theirs, ours: theirs.number + ours.count() < theirs.upper)
    for theirs, ours, first, behind in steps:
        ours.number, ours.upper = theirs.number, theirs.upper
        kept = [*zip(ours.children[:first], theirs.children), *zip(ours.children[::-1][:behind], theirs.children[::-1])]
        for one, other in kept:
            keep(one, other)
    path = tuple(first for _, _, first, _ in steps[:-1])
    theirs, ours, first, behind = steps[-1]
    if is_leaf:
        keep(ours.children[first], theirs.children[first])
        return Change(path, ours, leaf=first)
    return Change(path, ours, widened(ours, first, len(ours.children) - behind))


def way_down(old, new, old_parsed, new_parsed, may_go_on):
    """The nodes that go on, from the root to the one whose children change: each with the new one, and with how many children before the
    change and after it stay. And whether a leaf or an error goes on there."""
    steps = []
    while True:
        first, behind = beside(old, new, old_parsed, new_parsed)
        steps.append((old, new, first, behind))
        if len(new.children) - behind - first != 1 or len(old.children) - behind - first != 1:
            return steps, False
        theirs, ours = old.children[first], new.children[first]
        if ours.kind != theirs.kind or (ours.children is None) != (theirs.children is None):
            return steps, False
        if ours.children is None:
            return steps, True
        if not may_go_on(theirs, ours):
            return steps, False
        old, new, old_parsed, new_parsed = theirs, ours, range(len(theirs.children)), range(len(ours.children))


def beside(old, new, old_parsed, new_parsed):
    """How many children before a change stay, and how many after it."""
    first, last = old_parsed.start, 0
    while first < min(old_parsed.stop, new_parsed.stop) and old.children[first].is_like(new.children[first]):
        first += 1
    left = min(old_parsed.stop, new_parsed.stop) - first
    while last < left and old.children[old_parsed.stop - 1 - last].is_like(new.children[new_parsed.stop - 1 - last]):
        last += 1
    return first, len(new.children) - new_parsed.stop + last


def keep(ours, theirs):
    for (_, ours_), (_, theirs_) in zip(ours.preorder(), theirs.preorder()):
        ours_.number, ours_.upper = theirs_.number, theirs_.upper


def widened(new, first, end):
    """Numbers the children in the first window round first..end that has room: for twice its nodes, or for all nodes of the node. Marks
    the nodes that are new and those that moved."""
    reach, tried = 0, []
    while True:
        start, stop = max(first - reach, 0), min(end + reach, len(new.children))
        low = new.children[start - 1].upper if start else new.number + 1
        high = new.children[stop].number if stop < len(new.children) else new.upper
        tried.append(range(start, stop))
        window = [(at, node) for at in tried[-1] for _, node in new.children[at].preorder()]
        stride = ((high - low) // (2 * len(window)) or (high - low) // new.count()) if window else 1
        before = [node.number for _, node in window]
        if stride and (not window or spread_all(new.children[start:stop], low, stride)):
            for (at, node), was in zip(window, before):
                node.mark = "new" if first <= at < end else "moved" if node.number != was else ""
            return tried
        reach = 2 * reach or 1


def beginning(characters, most=1 << 32):
    """Characters in quotes, so many at most."""
    return '"' + "".join(form for _, form in characters[:most]) + '"' + "…" * (len(characters) > most)


class Cut:
    """Siblings side by side that aren't shown."""

    def __init__(self, nodes):
        self.nodes, self.count = nodes, sum(node.count() for node in nodes)

    def told(self):
        return f"… {self.count} node{'s' * (self.count != 1)} {self.nodes[0].start}..{self.nodes[-1].end}"


def shown_children(node, path, has):
    """The children of a node that are shown, each with its path, and a Cut for those side by side that aren't."""
    hidden = []
    for index, child in enumerate(node.children or []):
        if not has(child, (*path, index)):
            hidden.append(child)
            continue
        if hidden:
            yield None, Cut(hidden)
            hidden = []
        yield (*path, index), child
    if hidden:
        yield None, Cut(hidden)


def within(root, depth=None, lines=None):
    """Which nodes are shown if a depth or lines, from 1, are asked for. A node without text is shown between two that are."""
    begins = [0, *line_ends(root.text()), root.end]
    start, stop = (begins[min(it, len(begins) - 1)] for it in (lines[0] - 1, lines[1])) if lines else (0, root.end + 1)

    def has(node, path):
        is_touched = node.start < stop and node.end > start if node.start < node.end else start <= node.start <= stop
        return is_touched and (depth is None or len(path) <= depth)

    return has


def line_ends(text):
    """The bytes at which the lines after the first begin."""
    return [it.end() for it in re.finditer(rb"\r\n|\n|\v|\f|\r|\xc2\x85|\xe2\x80[\xa8\xa9]", text.encode())]


def place_of(text, byte):
    """The line and the column of a byte, both from 1."""
    begins = [0, *line_ends(text)]
    line = sum(it <= byte for it in begins)
    return line, len(text.encode()[begins[line - 1] : byte].decode()) + 1


def row(node, text=None):
    """The line of a node without its branches, with its place where the text is given."""
    most = len(node.characters()) if node.children is None else INNER_CHARS
    place = "{}:{} ".format(*place_of(text, node.start)) if text is not None else ""
    return f"{node.kind} {node.start}..{node.end} {place}#{node.number}{' ' * bool(node.mark)}{node.mark}  {beginning(node.characters(), most)}"


def drawn(root, answers=None, has=lambda node, path: True, text=None):
    """The lines of a tree, with the answers for a path below the node's line where they are given, and with places where the text is."""
    lines = []

    def draw(node, path, before, branch, beside):
        lines.append(before + branch + (node.told() if path is None else row(node, text)))
        if path is None:
            return
        inside = before + beside
        for answer in (answers or {}).get(path, []):
            lines.append(inside + ("│  " if node.children else "   ") + answer)
        children = list(shown_children(node, path, has))
        for index, (below, child) in enumerate(children):
            is_last = index + 1 == len(children)
            draw(child, below, inside, "└─ " if is_last else "├─ ", "   " if is_last else "│  ")

    draw(root, (), "", "", "")
    return lines


def coloured(printed):
    """What is printed of a text, with the colours that a terminal gets."""
    printed = re.sub(r"^((?:│  |   )*(?:├─ |└─ )?)(\w+)( \d+\.\.\d+ (?:\d+:\d+ )?)(#\d+)( new| moved)?", coloured_row, printed, flags=re.M)
    printed = re.sub(r"^((?:│  |   )*(?:├─ |└─ ))(… .*)$", "\\1\033[2m\\2\033[0m", printed, flags=re.M)
    return re.sub(r"^(error|warning)(?=: )", lambda it: f"\033[1;{31 if it[1] == 'error' else 33}m{it[1]}\033[0m", printed, flags=re.M)


def coloured_row(row):
    branches, kind, between, number, mark = row.groups()
    ink = "1;31" if kind == "Error" else "1"
    told = f"\033[{32 if mark == ' new' else 35}m{mark}\033[0m" if mark else ""
    return f"{branches}\033[{ink}m{kind}\033[0m{between}\033[36m{number}\033[0m{told}"


def width(text):
    """How many columns of a terminal a text takes."""

    def of(char):
        if unicodedata.category(char) in ("Mn", "Me", "Cf"):
            return 0
        return 2 if unicodedata.east_asian_width(char) in "WF" else 1

    return sum(of(char) for char in text)


def visible(text):
    return "".join("    " if it == "\t" else "\ufffd" if unicodedata.category(it) == "Cc" else it for it in text)


def pointed(text, file, start, end):
    """The lines that point to some bytes of a text."""
    whole, ends = text.encode(), line_ends(text)
    line = sum(it <= start for it in ends)
    begins = ends[line - 1] if line else 0
    stops = ends[line] if line < len(ends) else len(whole)
    before, rest = whole[begins:start].decode(), whole[start:stops].decode().rstrip("\n\r\v\f\x85\u2028\u2029")
    part = rest.encode()[: end - start].decode()
    behind = rest[len(part) :]
    shown = visible(before[-BEFORE:]) if len(before) <= BEFORE else "…" + visible(before[-BEFORE:])
    inner = visible(part[:WITHIN]) + "…" * (len(part) > WITHIN)
    after = visible(behind[:BEHIND]) + "…" * (len(behind) > BEHIND)
    gutter = " " * len(str(line + 1))
    return [
        f"{gutter}--> {file}:{line + 1}:{len(before) + 1}",
        f"{gutter} |",
        f"{line + 1} | {shown}{inner}{after}",
        f"{gutter} | {' ' * width(shown)}{'^' * max(width(inner), 1)}",
    ]


def reported(root):
    """The nodes with errors and then those with warnings, each with its severity and what is said."""
    nodes = [node for _, node in root.preorder()]
    errors = [(node, "error", node.message) for node in nodes if node.message is not None]
    return errors + [(node, "warning", node.warning) for node in nodes if node.warning is not None]


def reports(root, file):
    """The errors and then the warnings of a tree, with their hints."""
    lines, text = [], root.text()
    for node, severity, message in reported(root):
        found = pointed(text, file, node.start, node.end)
        gutter = " " * found[1].index("|")
        lines += ["", f"{severity}: {message}", *found, *(f"{gutter}= hint: {it}" for it in node.hints)]
    return lines


def printed(root, file):
    """All that is printed of a tree."""
    return "".join(line + "\n" for line in [*drawn(root), *reports(root, file)])


def numbered(root, low=NUMBERS[0], high=NUMBERS[1]):
    root.place()
    assert spread(root, low, high)
    return root


def children_in(root, parsed):
    """The indices of the children whose text lies in some bytes."""
    inside = [index for index, it in enumerate(root.children) if parsed.start <= it.start and it.end <= parsed.stop]
    return range(inside[0], inside[-1] + 1) if inside else range(0, 0)


def told_of(edit, new, parsed, change, line=1):
    """What is told of the edit in a line that made a tree by parsing these bytes anew."""
    marks = [node.mark for _, node in new.preorder()]
    return (
        f"line {line}: {edit}\nparsed {parsed.start}..{parsed.stop} of {new.end} bytes; {marks.count('new')} of {len(marks)} nodes are new, "
        f"{marks.count('moved')} moved, {marks.count('')} keep their numbers; {change.told()}"
    )


def printed_edit(edit, old, new, parsed, file):
    """What is printed of the edit in line 1 that made one tree of another by parsing these bytes anew."""
    before = range(parsed.start, parsed.stop - (new.end - old.end))
    change = edited(old, new, children_in(old, before), children_in(new, parsed))
    return f"\n{told_of(edit, new, parsed, change)}\n\n{printed(new, file)}"
