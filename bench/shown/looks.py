"""Looks, and their answers as ./show writes them."""
import re

from common import TOP
from shown.trees import NUMBERS, Node, beginning, numbered, quoted_of, unquoted

# How many characters of a text, and how many entries of a list, are shown in an answer.
ANSWER_CHARS, ANSWER_ENTRIES = 60, 8
FORMS = re.compile(r"```text\n(.*?)```", re.S)
PLACE = re.compile(r"'(?:\\.|[^'])*'|~(\w+)|(?<![\w-])(-|\d+(?:\.\d+)*)(?![\w])|\w+")
KIND_ROW = re.compile(r"^\| (\d+) \| `(\w+)`", re.M)


def kinds():
    return {int(number): kind for number, kind in KIND_ROW.findall((TOP / "docs/KINDS.md").read_text())}


def forms():
    """The form of the answer of each accessor."""
    found = {}
    for line in FORMS.search((TOP / "docs/SCRIPT.md").read_text())[1].splitlines():
        kind, _, accessors = line.partition(": ")
        for accessor in accessors.split():
            name, _, form = accessor.partition("=")
            found[kind, name] = form or "view"
    return found


def built(lines, kind_of):
    """The tree that lines of a look build, or none where they edit it."""
    stack, root, within = [], None, NUMBERS
    for line in lines:
        word, _, rest = line.partition(" ")
        first, _, behind = rest.partition(" ")
        if word == "leaf":
            stack.append(Node(kind_of[int(first)], quoted_of(behind)))
        elif word == "error":
            message, _, text = rest.partition("\t")
            stack.append(Node("Error", quoted_of(text), message=message))
        elif word == "inner":
            count = int(behind)
            children = stack[len(stack) - count :]
            del stack[len(stack) - count :]
            stack.append(Node(kind_of[int(first)], children=children))
        elif word == "root":
            root, within = stack.pop(), NUMBERS
        elif word == "number":
            low, high = (int(it) for it in behind.split())
            within = (low, high) if high - low >= root.count() else within
        elif word in ("replace", "run"):
            return None
    return numbered(root, *within) if root else None


def answer_of(accessor, form, answer, places):
    """An answer of a look, as ./show writes it."""

    def put(found):
        if found[1]:
            return f"placeholder {found[1]}"
        return places[found[2]] if found[2] else found[0]

    if form in ("text", "string"):
        characters = unquoted(answer[1:-1])
        return f"{accessor}: {beginning(characters, ANSWER_CHARS)}"
    if form in ("shown", "debug", "number", "newline", "bare") or answer == "none":
        return f"{accessor}: {answer}"
    if form in ("both", "names"):
        entries = [PLACE.sub(put, it) for it in answer[1:-1].split(", ") if it]
        more = [f"and {len(entries) - ANSWER_ENTRIES} more"] if len(entries) > ANSWER_ENTRIES else []
        return f"{accessor}: [{', '.join(entries[:ANSWER_ENTRIES] + more)}]"
    return f"{accessor}: {PLACE.sub(put, answer)}"


def answers_of(root, lines, form_of):
    """The answers of `look views`, by path, as ./show writes them."""
    places = {".".join(map(str, path)) or "-": f"{it.kind} {it.start}..{it.end}" for path, it in root.preorder()}
    found = {}
    for line in lines:
        path, kind, accessor, answer = re.match(r"(\S+) (\w+)\.((?:own )?\S+) (.*)$", line, re.S).groups()
        form = {"hash": "shown", "is_literal": "shown", "bindings": "names", "own bindings": "names", "kind().bindings": "names"}
        key = () if path == "-" else tuple(map(int, path.split(".")))
        found.setdefault(key, []).append(answer_of(accessor, form.get(accessor) or form_of[kind, accessor], answer, places))
    return found


def looks():
    """Each tree of crates/typst_run that is asked for its views alone or first: its name, its lines, and the answers."""
    given = (TOP / "crates/typst_run/stdin").read_bytes().decode(errors="surrogateescape").split("\n")
    wanted = (TOP / "crates/typst_run/stdout").read_bytes().decode(errors="surrogateescape").split("\n")
    answered, name = {}, None
    for line in wanted:
        if line.startswith("#"):
            name = line[1:]
            answered[name] = []
        elif name:
            answered[name].append(line)
    sections, name = {}, None
    for line in given:
        if line.startswith("mark "):
            name = line[len("mark ") :]
            sections[name] = []
        elif line == "new":
            name = None
        elif name and not line.startswith("look "):
            sections[name].append(line)
    for name, lines in sections.items():
        answers = [it for it in answered[name] if re.match(r"[-\d.]+ \w+\.", it)]
        if answers and "no tree" not in answered[name]:
            yield name, lines, answers
