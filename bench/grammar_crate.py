#!/usr/bin/env python3
"""Writes the rows and maps of the whole syntax, in code and in specs, from crates/grammar.table.

    bench/grammar_crate.py CRATE            writes the files of this crate that are tables, and says which changed
    bench/grammar_crate.py CRATE --check    says which differ from what it would write, and changes nothing

A part of the table is a file of its own, so that no file is long, and parts are proved side by side.
"""
from pathlib import Path
from textwrap import fill

from common import TOP, parser, write
from grammar.maps import maps_in_code, maps_in_specs
from grammar.table import TABLE, Row, Table
from grammar.words import WIDTH, arm, camel, flat, head_of, list_in_code, list_in_specs, snake

SOURCE = TABLE.relative_to(TOP)
WRITTEN = f"Written by bench/grammar_crate.py from {SOURCE}: change that and run it."
DECLARED = "Rattle.typst_grammar.specs.declared"
# The enum of each action's word, by the action.
WORDS = {
    "->": "State", "around": "State", "wrap": "SyntaxKind", "eat": "SyntaxKind", "delimit": "SyntaxKind", "retag": "Map", "unique": "Unique",
}  # fmt: skip
NAMES = {"->": "Goto"}


def expectations(table):
    """All that may be expected, in the order of the table."""
    actions = [a for s in table.states.values() for row in s.rows for a in row[2] if a[0] in ("expected", "wrong", "mistake")]
    errors = [row.error for it in table.maps.values() for row in it.rows if row.error]
    return list(dict.fromkeys([" ".join(a[1:]) for a in actions] + [error[1] for error in errors]))


def value(action):
    """What an action has: each variant with its enum, and a number. None if it has nothing."""
    if not action[1:]:
        return None
    name = WORDS.get(action[0], "Expectation")
    if action[0] == "around":
        state, number = (action[1] + " 0").split()[:2]
        return (name, camel(state)), number
    if name == "SyntaxKind":
        return tuple((name, kind) for kind in action[1].split())
    return ((name, camel(action[1])),)


def take_of(row):
    """What becomes of a token, as an action."""
    if not row.take:
        return ("Nothing",)
    return ("EatAs", *row.take[1:]) if row.take[0] == "eat" and row.take[1:] else (row.take[0].capitalize(), *row.take[1:])


def taken(take):
    """What becomes of a token, as an action has it."""
    kind = {"EatAs": "SyntaxKind", "Mistake": "Expectation"}.get(take[0])
    return ((kind, take[1] if kind == "SyntaxKind" else camel(take[1])),) if kind else None


def conditions(row):
    """The conditions of a row, one for each kind."""
    if not row.condition:
        return [("Always",)]
    word, *rest = row.condition
    name = {"upto": "UpTo"}.get(word, word.capitalize())
    return [(name, it) for it in rest] or [(name,)]


class Parts:
    """The rows of each part, each once, and for each state and class which rows it has."""

    def __init__(self, table):
        self.table = table
        self.rows = {name: [] for name in table.parts}
        self.cells = {}
        for state in table.frames:
            for token in table.classes:
                self.cells[state.name, token.name] = tuple(self.numbers(state, token))

    def numbers(self, state, token):
        known = self.rows[state.part]
        for row in self.table.rows_for(state, token.name):
            for condition in conditions(row):
                one = Row(condition, row.before, take_of(row), row.after, row.call, 0)
                if one not in known:
                    known.append(one)
                yield known.index(one)

    def most(self, state):
        """The rows that most classes have in a state."""
        lists = [self.cells[state.name, token.name] for token in self.table.classes]
        return max(lists, key=lists.count)

    def others(self, state):
        """The other lists of rows, each with the classes that have it."""
        most, found = self.most(state), {}
        for token in self.table.classes:
            if (cell := self.cells[state.name, token.name]) != most:
                found.setdefault(cell, []).append(token.name)
        return found

    def states(self, part):
        return [state for state in self.table.frames if state.part == part]

    def alike(self, state):
        """The frame of the same part whose rows a state has, if it has none of its own."""
        base = self.table.states.get(state.base)
        return base if base in self.states(state.part) and not state.rows else None


# In code.


def of_enum(name, word, said):
    """A variant with what it holds, in code."""
    held = (it if isinstance(it, str) else "::".join(it) for it in said or ())
    return f"{name}::{word}" + (f"({', '.join(held)})" if said else "")


def action_in_code(action):
    return of_enum("Action", NAMES.get(action[0], action[0].capitalize()), value(action))


def take_in_code(take):
    return of_enum("Take", take[0], taken(take))


def condition_in_code(condition):
    word, *rest = condition
    said = [it if it.isdigit() else f"SyntaxKind::{it}" for it in rest]
    return f"Condition::{word}" + (f"({said[0]})" if said else "")


def call_in_code(table, call):
    if not call:
        return "    call: None,"
    state = table.states[call.state]
    newline = f"Some(Newline::{state.newline.capitalize()})" if state.newline else "None"
    return f"""    call: Some(Call {{
        state: State::{camel(call.state)},
        number: {call.number},
        enters: {str(call.enters).lower()},
        is_deep: {str(state.is_deep).lower()},
        newline: {newline},
    }}),"""


def written(row):
    """A row in the words of the table, in the order in which the machine does it."""
    call = f"{'enter ' * row.call.enters}{row.call.state}{f' {row.call.number}' if row.call.number else ''}" if row.call else ""
    take = {"Nothing": "", "EatAs": "eat"}.get(row.take[0], row.take[0].lower())
    actions = [*map(" ".join, row.before), " ".join([take, *row.take[1:]]), *map(" ".join, row.after), call]
    condition = "" if row.condition == ("Always",) else f"if {' '.join(row.condition).lower()} "
    return f"{condition}| {'; '.join(filter(None, actions))}"


def row_in_code(table, number, row):
    return f"""/// `{written(row)}`
const ROW_{number}: Row = Row {{
    condition: {condition_in_code(row.condition)},
{list_in_code("    ", "before: ", [action_in_code(a) for a in row.before], ",")}
    take: {take_in_code(row.take)},
{list_in_code("    ", "after: ", [action_in_code(a) for a in row.after], ",")}
{call_in_code(table, row.call)}
}};
"""


def state_in_code(parts, state):
    if base := parts.alike(state):
        return f"""/// {head_of(state.what)}.
pub(crate) fn {snake(state.name)}(class: Class) -> &'static [Row]
    ensures {{ rows_of result.now ≡ {snake(state.name)} class }}
{{
    {snake(base.name)}(class)
}}
"""
    arms = [arm("Class", classes, [f"ROW_{row}" for row in cell]) for cell, classes in parts.others(state).items()]
    arms.append(arm("Class", [], [f"ROW_{row}" for row in parts.most(state)]))
    name, body = snake(state.name), "\n".join(arms)
    argument = "class" if len(arms) > 1 else "_class"
    head = f"""/// {head_of(state.what)}.
pub(crate) fn {name}({argument}: Class) -> &'static [Row]
    ensures {{ rows_of result.now ≡ {name} {argument} }}
{{
"""
    if len(arms) == 1:
        return head + f"    {body.strip().removeprefix('_ => ').removesuffix(',')}\n}}\n"
    return head + f"    match class {{\n{body}\n    }}\n}}\n"


def part_in_code(parts, part):
    table, states = parts.table, parts.states(part.name)
    constants = "\n".join(row_in_code(table, i, row) for i, row in enumerate(parts.rows[part.name]))
    functions = "\n".join(state_in_code(parts, state) for state in states)
    text = constants + functions
    used = ["Action", "Call", "Condition", "Newline", "Row", "Take", "Unique"]
    row_words = ", ".join(word for word in used if f"{word}::" in text or f": {word}" in text or f"{word} {{" in text)
    own = [f"use crate::{module}::{word};" for module, word in (("expectation", "Expectation"), ("maps", "Map")) if f"{word}::" in text]
    own += [f"use crate::row::{{{row_words}}};", "use crate::rows::{Class, State};"]
    kinds = "use typst_base::SyntaxKind;\n" if "SyntaxKind::" in text else ""
    return f"""// {WRITTEN}
//! The rows of {part.what}.
ghost use Rattle.std.specs.Prelude.{{◌≡◌}};
ghost use Rattle.typst_grammar.specs.Row.{{rows_of}};
ghost use Rattle.typst_grammar.specs.{camel(part.name)}Rows.{{{", ".join(sorted(snake(state.name) for state in states))}}};

{chr(10).join(own)}
{kinds}
{constants}
{functions}"""


def enum_in_code(what, name, variants):
    lines = "\n".join(f"    /// {head_of(said)}.\n    {variant},".replace("..,", ".,") for variant, said in variants)
    return f"/// {what}\n#[derive(Clone, Copy, Debug, PartialEq, Eq, Hash)]\npub enum {name} {{\n{lines}\n}}\n"


def modes_in_code(parts):
    modes = "\n".join(f"        State::{camel(s.name)} => Some(Mode::{s.mode.capitalize()})," for s in parts.table.frames if s.mode)
    return f"""// {WRITTEN}
//! How the lexer reads in each state.
ghost use Rattle.std.specs.Prelude.{{◌≡◌}};
ghost use Rattle.typst_grammar.specs.Table.{{mode_of}};

use crate::row::Mode;
use crate::rows::State;

/// How the lexer reads where a frame is in a state. A state that goes on with a row doesn't look at the token.
pub fn mode_of(state: State) -> Option<Mode>
    ensures {{ result ≡ mode_of state }}
{{
    match state {{
{modes}
        _ => None,
    }}
}}
"""


def rows_in_code(parts):
    table = parts.table
    classes = enum_in_code("What the machine asks of a token.", "Class", [(it.name, it.what) for it in table.classes])
    states = enum_in_code("Where in the syntax a frame is.", "State", [(camel(s.name), s.what) for s in table.frames])
    arms = "\n".join(flat(f"        State::{camel(s.name)} => ", f"{s.part}_rows::{snake(s.name)}(class),") for s in table.frames)
    return f"""// {WRITTEN}
//! The rows of the syntax.
ghost use Rattle.std.specs.Prelude.{{◌≡◌}};
ghost use Rattle.typst_grammar.specs.Row.{{rows_of}};
ghost use Rattle.typst_grammar.specs.Table.{{rows}};

pub use crate::modes::mode_of;
use crate::row::Row;
use crate::{{
{fill(", ".join(sorted(f"{name}_rows" for name in table.parts)) + ",", WIDTH, initial_indent="    ", subsequent_indent="    ")}
}};

{classes}
{states}
/// The rows of a state for a class of tokens. The first one that fits is done.
#[tactic(auto, unfolding(crate::specs::Table::rows))]
pub fn rows(state: State, class: Class) -> &'static [Row]
    ensures {{ rows_of result.now ≡ rows state class }}
{{
    match state {{
{arms}
    }}
}}
"""


def expectations_in_code(table):
    said = [(camel(it), it) for it in expectations(table)]
    variants = "\n".join(f"    /// {head_of(it)}.\n    {name}," for name, it in said)
    methods = "\n".join(
        f"""    /// {doc}
    pub fn {method}(self) -> &'static str
        ensures {{ result.now ≡ expectation_{method} self }}
    {{
        match self {{
{chr(10).join(f'            Expectation::{name} => "{head}{it}",' for name, it in said)}
        }}
    }}
"""
        for method, head, doc in (("text", "expected ", "The text of the error where it is missing."), ("what", "", "What is expected."))
    )
    return f"""// {WRITTEN}
//! What the machine may expect.
ghost use Rattle.std.specs.Prelude.{{◌≡◌}};
ghost use Rattle.typst_grammar.specs.Expectations.{{expectation_text, expectation_what}};

/// What a row or a map expects where something else is.
#[derive(Clone, Copy, Debug, PartialEq, Eq, Hash)]
pub enum Expectation {{
{variants}
}}

impl Expectation {{
{methods}}}
"""


# In specs.


def variant_in_specs(module, word, said):
    enums = {"SyntaxKind": "kinds", "State": "states", "Expectation": "expectations", "Map": "maps", "Unique": "uniques"}
    held = (it if isinstance(it, str) else f"{enums[it[0]]}.{it[1]}" for it in said or ())
    return " ".join([f"{module}.{word}", *held])


def action_in_specs(action):
    return variant_in_specs("actions", NAMES.get(action[0], action[0].capitalize()), value(action))


def take_in_specs(take):
    return variant_in_specs("takes", take[0], taken(take))


def condition_in_specs(condition):
    word, *rest = condition
    said = [it if it.isdigit() else f"kinds.{it}" for it in rest]
    return " ".join([f"conditions.{word}", *said])


def call_in_specs(table, call):
    if not call:
        return "None"
    state = table.states[call.state]
    newline = f"Some newlines.{state.newline.capitalize()}" if state.newline else "None"
    fields = [f"state = states.{camel(call.state)}", f"number = {call.number}", f"enters = {str(call.enters).lower()}"]
    fields += [f"is_deep = {str(state.is_deep).lower()}", f"newline = {newline}"]
    return f"Some (record {{ {'; '.join(fields)} }})"


def row_in_specs(table, number, row):
    fields = (
        f"condition = {condition_in_specs(row.condition)}",
        f"before = {list_in_specs(map(action_in_specs, row.before))}",
        f"take = {take_in_specs(row.take)}",
        f"after = {list_in_specs(map(action_in_specs, row.after))}",
        f"call = {call_in_specs(table, row.call)}",
    )
    return f"abbrev pub row_{number} : Row\nrow_{number} = record {{\n{''.join(f'  {text};{chr(10)}' for text in fields)}}}\n"


def state_in_specs(parts, state):
    if base := parts.alike(state):
        return f"-- {state.what}\nabbrev pub {snake(state.name)} : Class → List Row\n{snake(state.name)} class = {snake(base.name)} class\n"
    name, order = snake(state.name), [token.name for token in parts.table.classes]
    lists = [(cls, cell) for cell, classes in parts.others(state).items() for cls in classes]
    lines = [
        f"{name} classes.{cls} = {list_in_specs(f'row_{row}' for row in cell)}"
        for cls, cell in sorted(lists, key=lambda pair: order.index(pair[0]))
    ]
    lines.append(f"{name} _ = {list_in_specs(f'row_{row}' for row in parts.most(state))}")
    return f"-- {state.what}\nabbrev pub {name} : Class → List Row\n" + "\n".join(lines) + "\n"


def part_in_specs(parts, part):
    constants = "\n".join(row_in_specs(parts.table, i, row) for i, row in enumerate(parts.rows[part.name]))
    functions = "\n".join(state_in_specs(parts, state) for state in parts.states(part.name))
    text = constants + functions
    modules = [
        ("kinds", "Rattle.typst_base.specs.declared.kind.SyntaxKind"),
        ("expectations", f"{DECLARED}.expectation.Expectation"),
        ("maps", f"{DECLARED}.maps.Map"),
        ("actions", f"{DECLARED}.row.Action"),
        ("conditions", f"{DECLARED}.row.Condition"),
        ("newlines", f"{DECLARED}.row.Newline"),
        ("takes", f"{DECLARED}.row.Take"),
        ("uniques", f"{DECLARED}.row.Unique"),
        ("classes", f"{DECLARED}.rows.Class"),
        ("states", f"{DECLARED}.rows.State"),
    ]
    uses = "\n".join(f"use {path}.TheVariants as {name}" for name, path in modules if f"{name}." in text)
    words = [word for word in ("true", "false", "Some", "None") if word in text]
    return f"""-- {WRITTEN}
-- The rows of {part.what}.
use Rattle.std.specs.Prelude.{{List, [], ◌∷◌, {", ".join(words)}}}
{uses}
use {DECLARED}.rows.Class.{{Class}}
use Rattle.typst_grammar.specs.Row.{{Row}}

{constants}
{functions}"""


def rows_in_specs(parts):
    frames = parts.table.frames
    cases = "\n".join(f"rows states.{camel(s.name)} class = {s.part}.{snake(s.name)} class" for s in frames)
    modes = "\n".join(f"mode_of states.{camel(s.name)} = Some modes.{s.mode.capitalize()}" for s in frames if s.mode)
    uses = "\n".join(f"use Rattle.typst_grammar.specs.{camel(name)}Rows as {name}" for name in sorted(parts.table.parts))
    return f"""-- {WRITTEN}
-- The rows of the syntax.
use Rattle.std.specs.Prelude.{{List, Option, Some, None}}
use {DECLARED}.row.Mode.{{Mode}}
use {DECLARED}.row.Mode.TheVariants as modes
use {DECLARED}.rows.Class.{{Class}}
use {DECLARED}.rows.State.{{State}}
use {DECLARED}.rows.State.TheVariants as states
{uses}
use Rattle.typst_grammar.specs.Row.{{Row}}

-- how the lexer reads where a frame is in a state
abbrev pub mode_of : State → Option Mode
{modes}
mode_of _ = None

-- the rows of a state for a class of tokens
unfoldable pub rows : State → Class → List Row
{cases}
"""


def expectations_in_specs(table):
    cases = [
        "\n".join(f'expectation_{method} expectations.{camel(it)} = codes "{head}{it}"' for it in expectations(table))
        for method, head in (("text", "expected "), ("what", ""))
    ]
    return f"""-- {WRITTEN}
-- What the machine may expect.
use Rattle.std.specs.Prelude.{{ℕ, List, codes}}
use {DECLARED}.expectation.Expectation.{{Expectation}}
use {DECLARED}.expectation.Expectation.TheVariants as expectations

-- the text of the error where it is missing
abbrev pub expectation_text : Expectation → List ℕ
{cases[0]}

-- what is expected
abbrev pub expectation_what : Expectation → List ℕ
{cases[1]}
"""


def files(table):
    """Each file that is written, with its text."""
    parts = Parts(table)
    for part in table.parts.values():
        yield f"src/{part.name}_rows.rt", part_in_code(parts, part)
        yield f"specs/{camel(part.name)}Rows.antt", part_in_specs(parts, part)
    yield "src/rows.rt", rows_in_code(parts)
    yield "src/modes.rt", modes_in_code(parts)
    yield "specs/Table.antt", rows_in_specs(parts)
    yield "src/expectation.rt", expectations_in_code(table)
    yield "specs/Expectations.antt", expectations_in_specs(table)
    yield "src/maps.rt", maps_in_code(table, WRITTEN)
    yield "specs/Maps.antt", maps_in_specs(table, WRITTEN)


def main():
    words = parser(__doc__, "--check")
    words.add_argument("crate", type=Path)
    args = words.parse_args()
    table = Table(TABLE)
    write(((args.crate / name, text) for name, text in files(table)), SOURCE, args.check)
    print(f"the {len(table.frames)} states of the syntax are those of {SOURCE}")


if __name__ == "__main__":
    main()
