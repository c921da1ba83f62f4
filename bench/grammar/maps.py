"""The maps that give nodes other kinds, as bench/grammar_crate.py writes them in code and in specs."""
from grammar.words import arm, camel, head_of, list_in_specs, snake

DECLARED = "Rattle.typst_grammar.specs.declared"


class Changes:
    """The changes of all maps, each once, and for each map and kind which ones it has. The kind "" is any other."""

    def __init__(self, table):
        self.table, self.known, self.cells = table, [], {}
        for name in table.maps:
            rows = list(table.changes(name))
            kinds = [kind for kind in table.kinds if any(kind in row.kinds for row in rows)]
            self.cells[name] = {kind: self.numbers(rows, kind) for kind in [*kinds, ""]}

    def numbers(self, rows, kind):
        found = []
        for row in rows:
            if not (self.table.is_of(kind, row.kinds) if kind else "expr" in row.kinds):
                continue
            test = (row.test[0] if row.test else "always") if kind else "expr"
            change = (test, row.kind, row.first or row.others, row.others, row.error)
            if change not in self.known:
                self.known.append(change)
            found.append(self.known.index(change))
            if test == "always":
                break
        return tuple(found)

    def grouped(self, name):
        """The lists of changes of a map, each with the kinds that have it, without that of any other kind."""
        found = {}
        for kind, cell in self.cells[name].items():
            if kind:
                found.setdefault(cell, []).append(kind)
        return found


def change_in_code(number, change):
    test, kind, first, others, error = change
    if error:
        effect = f"Effect::{error[0].capitalize()}(Expectation::{camel(error[1])}),"
    else:
        maps = [f"Some(Map::{camel(it)})" if it else "None" for it in (first, others)]
        effect = f"""Effect::Become(Relabel {{
        kind: {f"Some(SyntaxKind::{kind})" if kind else "None"},
        first: {maps[0]},
        others: {maps[1]},
    }}),"""
    return f"""const CHANGE_{number}: Change = Change {{
    test: Test::{test.capitalize()},
    effect: {effect}
}};
"""


def map_in_code(changes, it):
    cells = changes.grouped(it.name)
    arms = [arm("SyntaxKind", kinds, [f"CHANGE_{n}" for n in cell]) for cell, kinds in cells.items()]
    arms.append(arm("SyntaxKind", [], [f"CHANGE_{n}" for n in changes.cells[it.name][""]]))
    body = "\n".join(arms)
    return f"""/// {head_of(it.what)}.
fn {snake(it.name)}(kind: SyntaxKind) -> &'static [Change]
    ensures {{ result.now ≡ {snake(it.name)} kind }}
{{
    match kind {{
{body}
    }}
}}
"""


def maps_in_code(table, head):
    changes = Changes(table)
    names = ", ".join(sorted([*map(snake, table.maps), "changes"]))
    variants = "\n".join(f"    /// {head_of(it.what)}.\n    {camel(it.name)}," for it in table.maps.values())
    constants = "\n".join(change_in_code(i, change) for i, change in enumerate(changes.known))
    functions = "\n".join(map_in_code(changes, it) for it in table.maps.values())
    arms = "\n".join(f"        Map::{camel(it)} => {snake(it)}(kind)," for it in table.maps)
    return f"""// {head}
//! The maps that give nodes other kinds.
ghost use Rattle.std.specs.Prelude.{{◌≡◌}};
ghost use Rattle.typst_grammar.specs.Maps.{{{names}}};

use crate::change::{{Change, Effect, Relabel, Test}};
use crate::expectation::Expectation;
use typst_base::SyntaxKind;

/// How a node gets other kinds.
#[derive(Clone, Copy, Debug, PartialEq, Eq, Hash)]
pub enum Map {{
{variants}
}}

{constants}
{functions}
/// The changes of a map for a kind. The first one that fits is done.
#[tactic(auto, unfolding(crate::specs::Maps::changes))]
pub fn changes(map: Map, kind: SyntaxKind) -> &'static [Change]
    ensures {{ result.now ≡ changes map kind }}
{{
    match map {{
{arms}
    }}
}}
"""


def change_in_specs(number, change):
    test, kind, first, others, error = change
    if error:
        effect = f"effects.{error[0].capitalize()} expectations.{camel(error[1])}"
    else:
        maps = [f"Some maps.{camel(it)}" if it else "None" for it in (first, others)]
        kind_said = f"Some kinds.{kind}" if kind else "None"
        effect = f"effects.Become (record {{ kind = {kind_said}; first = {maps[0]}; others = {maps[1]} }})"
    return (
        f"abbrev pub change_{number} : Change\nchange_{number} = record {{\n"
        f"  test = tests.{test.capitalize()};\n  effect = {effect};\n}}\n"
    )


def map_in_specs(changes, it):
    name = snake(it.name)
    cells = [(kind, cell) for kind, cell in changes.cells[it.name].items() if kind]
    lines = [f"{name} kinds.{kind} = {list_in_specs(f'change_{n}' for n in cell)}" for kind, cell in cells]
    lines.append(f"{name} _ = {list_in_specs(f'change_{n}' for n in changes.cells[it.name][''])}")
    return f"-- {it.what}\nabbrev pub {name} : SyntaxKind → List Change\n" + "\n".join(lines) + "\n"


def maps_in_specs(table, head):
    changes = Changes(table)
    constants = "\n".join(change_in_specs(i, change) for i, change in enumerate(changes.known))
    functions = "\n".join(map_in_specs(changes, it) for it in table.maps.values())
    cases = "\n".join(f"changes maps.{camel(it)} kind = {snake(it)} kind" for it in table.maps)
    return f"""-- {head}
-- The maps that give nodes other kinds.
use Rattle.std.specs.Prelude.{{List, [], ◌∷◌, Some, None}}
use Rattle.typst_base.specs.declared.kind.SyntaxKind.{{SyntaxKind}}
use Rattle.typst_base.specs.declared.kind.SyntaxKind.TheVariants as kinds
use {DECLARED}.change.Effect.TheVariants as effects
use {DECLARED}.change.Test.TheVariants as tests
use {DECLARED}.expectation.Expectation.TheVariants as expectations
use {DECLARED}.maps.Map.{{Map}}
use {DECLARED}.maps.Map.TheVariants as maps
use {DECLARED}.change.Change.{{Change}}

{constants}
{functions}
-- the changes of a map for a kind
unfoldable pub changes : Map → SyntaxKind → List Change
{cases}
"""
