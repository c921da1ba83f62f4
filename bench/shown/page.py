"""Reads a page of ./show as a browser does, and compares it with the trees of shown/trees.py."""
import re
from html.parser import HTMLParser

from shown import trees

# How many characters of a node's text are shown next to it, how many children are drawn beside a window, and how many in all.
NODE_CHARS, BESIDE, MOST = 48, 2, 60
# The width of a child's place in the drawing of numbers, and where the first one begins.
WIDTH, LEFT = 130, 10
TRIVIA = {"Shebang", "LineComment", "BlockComment", "Space", "Parbreak"}
# The elements of a page, and those that have no end.
KNOWN = "html head meta title style body h1 h2 p div pre span details summary i b s u a ul li table tbody tr td label input button br svg line circle text rect script".split()
VOID = {"meta", "br", "line", "circle", "rect", "input"}
# The least contrast of letters, and the colours that are compared: letters on what is behind them.
CONTRAST = 4.5
LETTERS, BEHIND = ["ink", "told", "kept", "moved", "new", "bad", "warning", "faint"], ["paper"]
MARKED, MARKS = ["ink", "kept", "moved", "new", "bad"], ["hit", "above", "pin"]


class Page(HTMLParser):
    """The steps of a page: of each its title, its text in leaves, its nodes, its reports, and the shapes of its drawing.

    A node is a `details` with its row, what is told of it, and its children.
    """

    def __init__(self, page):
        super().__init__()
        self.steps, self.title, self.open, self.wrong = [], None, [], []
        # The nodes of a tree that are open.
        self.within = []
        self.feed(page)
        self.close()
        if self.open:
            self.wrong.append(f"{self.open} don't end")

    def begin_step(self):
        if not self.steps or self.steps[-1]["is_whole"]:
            step = {"title": self.title, "text": "", "leaves": [], "nodes": [], "lines": [], "reports": [], "shapes": []}
            self.steps.append(step | {"left_out": "", "anchors": {}, "numbered": 0, "is_whole": False, "has_tree": False})
        return self.steps[-1]

    def handle_starttag(self, tag, attrs):
        attrs = dict(attrs)
        classes = (attrs.get("class") or "").split()
        is_placed = "pre" in self.open or self.is_in_tree()
        if tag not in KNOWN or any(it.startswith("on") for it in attrs):
            self.wrong.append(f"<{tag} {attrs}> is of the text")
        if is_placed and set(attrs) - ({"id"} if tag == "a" else {"class", "open"} if tag == "details" else {"class"}):
            self.wrong.append(f"<{tag} {attrs}> has attributes of no use")
        if tag == "h2":
            self.title = ""
        if {"numbers", "reports", "pair"} & set(classes):
            self.begin_step()
        step = self.steps[-1] if self.steps else None
        if tag == "div" and "tree" in classes:
            step["has_tree"] = True
        if tag == "details":
            self.begin_node(step, classes, "open" in attrs)
        elif tag == "p" and "cut" in classes:
            step["lines"].append(("cut", self.parent()))
            step.setdefault("cuts", []).append("")
        elif tag == "a" and "id" in attrs:
            step["anchors"][attrs["id"]] = len(step["leaves"]) - 1 if "pre" in self.open else len(step["lines"]) - 1
        elif tag == "span" and "pre" in self.open:
            step["leaves"].append({"text": "", "classes": classes})
        elif tag == "s" and "pre" in self.open:
            step["numbered"] += 1
        elif tag == "li":
            step["reports"].append({"told": "", "links": []})
        elif tag == "a" and "li" in self.open:
            step["reports"][-1]["links"].append(attrs.get("href"))
        elif tag in ("circle", "rect", "text"):
            step["shapes"].append({"tag": tag, "told": "", **attrs})
        if tag not in VOID:
            self.open.append(tag)

    def is_in_tree(self):
        return bool(self.steps) and self.steps[-1]["has_tree"] and not self.steps[-1]["is_whole"] and "pre" not in self.open

    def parent(self):
        return self.within[-1] if self.within else None

    def begin_node(self, step, classes, is_open):
        if step is None or not step["has_tree"] or "summary" in self.open:
            self.wrong.append("a node is in no tree")
        form, *marks = classes
        if is_open != (form == "i"):
            self.wrong.append(f"a node of the form {form} is folded, or can't be")
        step["nodes"].append({"form": form, "marks": marks, "parent": self.parent(), "summary": "", "told": ""})
        step["lines"].append(("node", len(step["nodes"]) - 1))
        self.within.append(len(step["nodes"]) - 1)

    def handle_endtag(self, tag):
        if tag in VOID:
            return
        if tag == "details":
            self.within.pop()
        if tag == "pre":
            self.steps[-1]["is_whole"] = True
        if not self.open or self.open.pop() != tag:
            self.wrong.append(f"</{tag}> ends nothing")

    def handle_data(self, data):
        within = self.open
        if "h2" in within:
            self.title += data
        elif "pre" in within:
            self.steps[-1]["text"] += data
            if "span" in within:
                self.steps[-1]["leaves"][-1]["text"] += data
            else:
                self.wrong.append(f"the text {data!r} is in no leaf")
        elif "details" in within and ("summary" in within or "p" in within) and self.steps[-1]["lines"][-1][0] == "node":
            self.steps[-1]["nodes"][-1]["summary" if "summary" in within else "told"] += data
        elif self.is_in_tree() and "p" in within:
            self.steps[-1]["cuts"][-1] += data
        elif self.is_in_tree() and data.strip():
            self.wrong.append(f"the text {data!r} is in no node")
        elif "li" in within:
            self.steps[-1]["reports"][-1]["told"] += data
        elif "text" in within:
            self.steps[-1]["shapes"][-1]["told"] += data
        elif "p" in within and self.steps and not self.steps[-1]["is_whole"]:
            self.steps[-1]["left_out"] += data


def signed(text):
    """A text with visible signs in place of its control characters."""

    def sign(char):
        code = ord(char)
        if char in "\t\n" or not (code < 0x20 or 0x7F <= code < 0xA0):
            return char
        return chr(0x2400 + code) if code < 0x20 else "\u2421" if code == 0x7F else "\ufffd"

    return "".join(map(sign, text))


def lines_of(root, has, file=None, answers=None):
    """What a page must tell of a tree, line by line: of each node its form, its marks, the line of its parent, what is seen, and what is
    told once it is pinned, with its answers where they are given; and what is said of nodes that are left out. If a file is given, they
    are left out since the page is full, so that it says how to see them."""
    found, text = [], root.text()

    def add(node, path, parent):
        if path is None:
            first, last = (trees.place_of(text, it.start)[0] for it in (node.nodes[0], [*node.nodes[-1].preorder()][-1][1]))
            found.append(("cut", parent, signed(node.told()) + (f"; to see them: ./show {file} --lines {first}-{last}" if file else "")))
            return
        line = len(found)
        form = "i" if node.children is not None else "bad" if node.kind == "Error" else "t" if node.kind in TRIVIA else "l"
        place = "{}:{}".format(*trees.place_of(text, node.start))
        mark = " " * bool(node.mark) + node.mark
        seen = f"{node.kind} {node.start}..{node.end} {place} #{node.number}{mark}  {trees.beginning(node.characters(), NODE_CHARS)}"
        bound = f", bound {node.upper}" if node.children is not None else ""
        told = [f"at {'.'.join(map(str, path)) or '-'}{bound}", *(map(signed, answers.get(path, [])) if answers is not None else [])]
        found.append((form, [node.mark] * bool(node.mark), parent, seen, told))
        for below, child in trees.shown_children(node, path, has):
            add(child, below, line)

    add(root, (), None)
    return found


def lines_in(step, answers=None):
    """The same, as a page has it."""
    found, lines, cuts = [], {None: None}, iter(step.get("cuts", []))
    for what, at in step["lines"]:
        if what == "cut":
            found.append(("cut", lines[at], next(cuts)))
            continue
        node = step["nodes"][at]
        lines[at] = len(found)
        told = node["told"].removesuffix("\n").split("\n")
        found.append((node["form"], node["marks"], lines[node["parent"]], node["summary"], told if answers is not None else told[:1]))
    return found


def differing_leaves(step, root, has):
    """The leaves of a text, and what is left out of it, come in the order of the lines of the tree, so that the script can pair them."""
    wanted = []

    def add(node, path):
        if path is None:
            wanted.append((signed("".join(it.text() for it in node.nodes)), ["cut"]))
        elif node.children is None:
            wanted.append((signed(node.text()), ["bad"] * (node.kind == "Error")))
        for below, child in trees.shown_children(node, path, has) if path is not None else []:
            add(child, below)

    add(root, ())
    got = [(it["text"], it["classes"]) for it in step["leaves"]]
    return [] if got == wanted else [f"the leaves {got[:9]}, and should have {wanted[:9]}"]


def reported(root):
    """The errors and warnings that a page tells: what is said with the hints, and the index of the node."""
    text, rows = root.text(), {id(node): at for at, (_, node) in enumerate(root.preorder())}
    for node, severity, message in trees.reported(root):
        place = trees.pointed(text, "", node.start, node.end)[0].partition("--> :")[2]
        yield signed(f"{severity} {place} {message}" + "".join(f"hint: {it}" for it in node.hints)), rows[id(node)]


def differing_reports(step, root, number):
    """What differs in the reports and in what their links lead to."""
    wanted = list(reported(root))
    got = [it["told"].rstrip("\n") for it in step["reports"]]
    wrong = [] if got == [told for told, _ in wanted] else [f"the reports {got}, and should have {wanted}"]
    nodes = [node for _, node in root.preorder()]
    leaves = [node for node in nodes if node.children is None]
    for it, (_, row) in zip(step["reports"], wanted):
        names = [f"t{number}-{row}", f"n{number}-{row}"]
        if it["links"] != [f"#{name}" for name in names]:
            wrong.append(f"the links {it['links']}, and should have {names}")
        elif step["leaves"] and len(step["lines"]) == len(nodes):
            places = [step["anchors"].get(name) for name in names]
            first = next(node for node in nodes[row:] if node.children is None)
            wrong += [] if places == [leaves.index(first), row] else [f"the links of row {row} lead to {places}"]
    return wrong


def drawing_of(change):
    """The children that are drawn with their numbers, the windows that were tried, as ranges of children, and what is said of the children that aren't drawn."""
    of, window = change.node.children, change.windows[-1]
    first = max(window.start - BESIDE, 0)
    end = min(window.stop + BESIDE, len(of))
    drawn = range(first, min(end, first + MOST))
    children = [(of[at].kind, str(of[at].number), of[at].mark or "kept") for at in drawn]
    within = [range(max(it.start, drawn.start), min(it.stop, drawn.stop)) for it in change.windows]
    left_out = f"{end - drawn.stop} more children after these aren't drawn." if end > drawn.stop else ""
    return children, [(it.start - first, max(it.stop - it.start, 0)) for it in within], left_out


def drawn_in(step):
    """The same, as a page draws it."""
    shapes = step["shapes"]
    circles = [it for it in shapes if it["tag"] == "circle"]
    texts = [it["told"] for it in shapes if it["tag"] == "text"]
    named = texts[: 2 * len(circles)]
    fills = [it["fill"].removeprefix("var(--").removesuffix(")") for it in circles]
    children = list(zip(named[::2], named[1::2], fills))
    rects = [it for it in shapes if it["tag"] == "rect"]
    windows = [((int(it["x"]) - LEFT) // WIDTH, int(it["width"]) // WIDTH) for it in rects]
    return children, windows, step["left_out"], texts[2 * len(circles) :]


def differing_drawing(step, change):
    """What differs in the drawing of a change. If a leaf went on, there is none."""
    got = drawn_in(step)
    if change.leaf is not None:
        return [] if not step["shapes"] else [f"the drawing {got}, and should have none"]
    children, ranges, left_out = drawing_of(change)
    count = len(change.windows)
    told = [f"window {at + 1}: {'room' if at + 1 == count else 'no room'}" for at in range(count)]
    # A window of no children has no width, and its place is no child's.
    clear = lambda all_: [(x if size else None, size) for x, size in all_]
    wanted = (children, clear(ranges), left_out, told)
    got = (got[0], clear(got[1]), *got[2:])
    return [] if got == wanted else [f"the drawing {got}, and should have {wanted}"]


def differing_step(step, number, root, answers=None, has=lambda node, path: True, file=None):
    """What differs between the step with a number and a tree, of which a part may be shown."""
    got, wanted = lines_in(step, answers), lines_of(root, has, file, answers)
    wrong = [f"{ours}, and should have {theirs}" for ours, theirs in zip(got, wanted) if ours != theirs][:1]
    wrong += [f"{len(got)} lines, and should have {len(wanted)}"] if len(got) != len(wanted) else []
    wrong += differing_leaves(step, root, has)
    if step["text"] != signed(root.text()):
        wrong.append(f"the text {step['text']!r}, and should have {signed(root.text())!r}")
    begun = [0, *trees.line_ends(root.text())]
    if step["numbered"] != sum(it < root.end for it in begun):
        wrong.append(f"{step['numbered']} numbers of lines")
    return wrong + (differing_reports(step, root, number) if answers is None else [])


def scripts_in(page):
    """How many scripts a page has, and whether something is read from elsewhere."""
    bare = re.sub(r"<(span|summary|p|b)[^>]*>.*?</\1>", "", page, flags=re.S)
    return len(re.findall(r"<script", page)), re.search(r"src=|href=(?!\"#)|url\(|@import|https?://", bare)


def contrasts(page):
    """The letters of a page that are hard to read, in both modes."""
    light, dark = (dict(re.findall(r"--(\w+): (#\w+);", it.partition("}")[0])) for it in page.split(":root {")[1:3])
    for mode, colours in (("light", light), ("dark", dark)):
        pairs = [(one, other) for one in LETTERS for other in BEHIND] + [(one, other) for one in MARKED for other in MARKS]
        for one, other in pairs:
            found = contrast(colours[one], colours[other])
            if found < CONTRAST:
                yield f"{one} on {other} has the contrast {found:.2f} in {mode} mode"


def contrast(one, other):
    """The contrast of two colours, by the rule of the accessibility guidelines of the Web."""
    bright, less = sorted((brightness(one), brightness(other)), reverse=True)
    return (bright + 0.05) / (less + 0.05)


def brightness(colour):
    digits = colour[1:] if len(colour) == 7 else "".join(2 * it for it in colour[1:])
    parts = [int(digits[at : at + 2], 16) / 255 for at in (0, 2, 4)]
    linear = [it / 12.92 if it <= 0.04045 else ((it + 0.055) / 1.055) ** 2.4 for it in parts]
    return 0.2126 * linear[0] + 0.7152 * linear[1] + 0.0722 * linear[2]
