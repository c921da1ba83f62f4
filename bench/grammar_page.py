#!/usr/bin/env python3
"""Writes docs/SYNTAX.md from crates/grammar.table and bench/grammar/SYNTAX.md.txt.

    bench/grammar_page.py            writes it, and says whether it changed
    bench/grammar_page.py --check    fails if it isn't what would be written
"""

from common import TOP, parser, write
from grammar.table import TABLE, Table

PAGE = TOP / "docs/SYNTAX.md"
TEMPLATE = TOP / "bench/grammar/SYNTAX.md.txt"
NEWLINES = {"go": "Rule: go.", "stop": "Rule: stop.", "context": "Rule: context.", "par": "Rule: par.", "column": "Rule: column."}
PLAIN = {
    "unexpected": "refuse", "return": "return", "flush": "place white space", "up": "count up", "down": "count down",
    "unclosed": "unclosed", "eat": "take",
}  # fmt: skip


def code(words):
    return f"`{words}`"


def action_said(action):
    """An action in the words of the page."""
    word, *rest = action
    said = " ".join(rest)
    if word in PLAIN and not rest:
        return PLAIN[word]
    known = {
        "eat": f"take as {code(said)}",
        "mistake": f"refuse: {said}",
        "enter": f"enter {code(said)}",
        "around": f"open around the last node{' with '.join(['', *rest[1:]])}, return to {code(rest[0] if rest else '')}",
        "->": f"go on in {code(said)}",
        "wrap": f"make {code(said)}",
        "expected": f"expect {said}",
        "wrong": f"mistake for {said}",
        "delimit": f"delimit by {' and '.join(map(code, rest))}",
        "retag": f"relabel by {code(said)}",
        "unique": f"check names: {said}",
    }
    return known.get(word) or f"open {code(word)}{f' with {said}' if said else ''}"


def signs_said(signs):
    said = {"any": "any other", "end": "the end"}
    return " ".join(said.get(sign) or (f"`{sign}`" if sign != "|" else sign) for sign in signs)


def condition_said(condition):
    return f" if {' '.join(condition)}" if condition else ""


def state_said(state, frames):
    """A state with its rows."""
    head = f"{state.what[0].upper()}{state.what[1:]}."
    notes = [f"Mode: {state.mode}."] if state in frames else ["Only what other states have in common."]
    notes += [NEWLINES[state.newline]] if state.newline else []
    notes += ["Deep."] if state.is_deep else []
    notes += [f"{'Then the' if state.written else 'The'} rows of `{state.base}`."] if state.base else []
    yield f"#### `{state.name}`\n\n{head} {' '.join(notes)}\n"
    if state.written:
        yield "| token | what happens |\n|---|---|"
        for signs, condition, actions in state.written:
            yield f"| {signs_said(signs)}{condition_said(condition)} | {', '.join(map(action_said, actions))} |"
        yield ""


def change_said(row):
    if row.error:
        return f"the error \"expected {row.error[1]}, found KIND\"" if row.error[0] == "wrong" else f"expect {row.error[1]} as its last child"
    said = f"`{row.kind}`" if row.kind else "the same kind"
    if row.first:
        said += f", its first child by `{row.first}`"
    if row.others:
        said += f", its {'other ' if row.first else ''}children by `{row.others}`"
    return said


def map_said(it):
    """A map with its rows."""
    base = f" Then the rows of `{it.base}`." if it.base else ""
    yield f"#### The map `{it.name}`\n\n{it.what[0].upper()}{it.what[1:]}.{base}\n"
    yield "| node | becomes |\n|---|---|"
    for row in it.rows:
        kinds = " ".join("an expression" if kind == "expr" else f"`{kind}`" for kind in row.kinds)
        yield f"| {kinds}{condition_said(row.test)} | {change_said(row)} |"
    yield ""


def page(table):
    lines = ["## Classes of tokens\n", "| class | is |\n|---|---|"]
    lines += [f"| `{it.sign}` | {it.what} |" for it in table.classes]
    for part in table.parts.values():
        lines.append(f"\n## {part.what[0].upper()}{part.what[1:]}\n")
        lines += [" ".join(part.text) + "\n"] if part.text else []
        for state in table.states.values():
            if state.part == part.name and not state.is_rest:
                lines += state_said(state, table.frames)
        for it in table.maps.values():
            if it.part == part.name:
                lines += map_said(it)
    return TEMPLATE.read_text() + "\n".join(lines).rstrip() + "\n"


def main():
    write([(PAGE, page(Table(TABLE)))], TABLE.relative_to(TOP), parser(__doc__, "--check").parse_args().check)
    print(f"{PAGE.relative_to(TOP)} is that of {TABLE.relative_to(TOP)}")


if __name__ == "__main__":
    main()
