#!/usr/bin/env python3
"""Writes every file that is a table of the accessors of views, from crates/accessors.txt.

    bench/accessors.py            writes them, and says which changed
    bench/accessors.py --check    says which differ from what it would write, and changes nothing

These are the enums of typst_accessors and the numbers that their contracts cite, the constants of bindings/c, the enum of
bindings/rust, and docs/internal/ACCESSORS.md. The code is laid out as `rt fmt` and `cargo fmt` lay it out.
"""
import sys
from dataclasses import dataclass

from common import TOP, parser, write
from kinds import TABLE as KINDS
from kinds import Table, constant

TABLE = "crates/accessors.txt"
WRITTEN = f"Written by bench/accessors.py from {TABLE}: change that and run it."
# What an accessor of each form answers, as its enum says it.
FORMS = {
    "flag": "a boolean",
    "natural": "a natural number, or none",
    "integer": "an integer with a sign",
    "character": "a character",
    "text": "a text of the tree",
    "string": "a text that the call makes",
    "node": "another node, or none",
    "nodes": "other nodes, by an index",
}
# The parts of the syntax whose accessors answer a node. Each part has an enum.
PARTS = {
    "markup": "markup",
    "math": "math",
    "code": "code",
    "control": "bindings, rules and control flow",
    "module": "imports and includes",
}


@dataclass
class Accessor:
    number: int
    view: str
    name: str
    form: str
    part: str
    doc: str

    def variant(self):
        """HeadingDepth for Heading.depth."""
        return self.view + "".join(word.capitalize() for word in self.name.split("_"))

    def called(self):
        return f"{self.view}.{self.name}"


def article(view):
    """The article before the name of a view."""
    return "an" if view[0] in "AEIO" else "a"


def row(line, number, kinds):
    cells = [cell.strip() for cell in line.split(" | ")]
    if len(cells) != 5:
        raise ValueError(f"an accessor has 5 cells with ` | ` between them, and here are {len(cells)}")
    if cells[0] != str(number):
        raise ValueError(f"the number is {cells[0]}, and the next one is {number}")
    part, _, form = cells[3].rpartition(" ")
    one = Accessor(number, cells[1], cells[2], form, part, cells[4])
    if one.form not in FORMS or one.view not in kinds:
        raise ValueError(f"no such form or view: {one.form}, {one.view}")
    if part not in (PARTS if form == "node" else [""]):
        raise ValueError(f"no such part of the syntax: {part}")
    if not one.doc.endswith("."):
        raise ValueError("what it answers ends in a full stop")
    return one


def accessors():
    """What crates/accessors.txt says."""
    kinds = {kind.name for kind in Table((TOP / KINDS).read_text()).kinds if kind.view != "-"}
    found = []
    for at, line in enumerate((TOP / TABLE).read_text().splitlines(), 1):
        try:
            if line and not line.startswith("#"):
                found.append(row(line, len(found), kinds))
        except ValueError as error:
            sys.exit(f"{TABLE}:{at}: {error}")
    variants = [one.variant() for one in found]
    if len(set(variants)) < len(variants):
        sys.exit(f"{TABLE}: an accessor stands twice")
    return found


@dataclass
class Enum:
    """An enum of accessors: the word that its definitions begin with, what its accessors are, and these, or enums of them."""

    word: str
    says: str
    some: list

    def name(self):
        return "Accessor" if self.word == "accessor" else f"{self.variant()}Accessor"

    def variant(self):
        return self.word.capitalize()


def enums(found):
    """The enums of accessors that answer values, of those that answer a node, and of those that answer nodes."""
    values = [Enum(form, f"that answers {FORMS[form]}", [one for one in found if one.form == form]) for form in FORMS
              if form not in ("node", "nodes")]
    parts = [Enum(part, f"of {says} that answers a node, or none", [one for one in found if one.part == part])
             for part, says in PARTS.items()]
    return values, parts, Enum("nodes", f"that answers {FORMS['nodes']}", [one for one in found if one.form == "nodes"])


# The code of typst_accessors.


def enum_code(of, visible=""):
    name = of.name()
    variants = "\n".join(f"    /// {one.doc}\n    {one.variant()}," for one in of.some)
    numbers = "\n".join(f"            {one.number} => Some({name}::{one.variant()})," for one in of.some)
    views = "\n".join(f"            {name}::{one.variant()} => SyntaxKind::{one.view}," for one in of.some)
    return f"""/// An accessor {of.says}.
#[derive(Clone, Copy, Debug, PartialEq, Eq)]
pub enum {name} {{
{variants}
}}

impl {name} {{
    /// The accessor of this form with a number.
    {visible}fn of_number(number: u32) -> Option<{name}>
        ensures {{ IsNumbered {of.word}_number number result }}
    {{
        match number {{
{numbers}
            _ => None,
        }}
    }}

    /// The kind of the nodes that have the accessor.
    {visible}fn view(self) -> SyntaxKind
        ensures {{ result ≡ {of.word}_view self }}
    {{
        match self {{
{views}
        }}
    }}
}}
"""


def whole_code(of, doc, visible):
    """The code of an enum whose variants are enums."""
    name = of.name()
    variants = "\n".join(f"    /// An accessor {one.says}.\n    {one.variant()}({one.name()})," for one in of.some)
    tries = "\n".join(
        f"""        if let Some(accessor) = {one.name()}::of_number(number) {{
            return Some({name}::{one.variant()}(accessor));
        }}"""
        for one in of.some
    )
    views = "\n".join(f"            {name}::{one.variant()}(accessor) => accessor.view()," for one in of.some)
    return f"""/// {doc}
#[derive(Clone, Copy, Debug, PartialEq, Eq)]
pub enum {name} {{
{variants}
}}

impl {name} {{
    /// The accessor with a number, if there is one.
    {visible}fn of_number(number: u32) -> Option<{name}>
        ensures {{ IsNumbered {of.word}_number number result }}
    {{
{tries}
        None
    }}

    /// The kind of the nodes that have the accessor.
    {visible}fn view(self) -> SyntaxKind
        ensures {{ result ≡ {of.word}_view self }}
    {{
        match self {{
{views}
        }}
    }}
}}
"""


def code(says, specs, words, parts, uses=""):
    """A file of typst_accessors: what it is about, the file of specs/ that has its words, and its parts."""
    imported = ", ".join(f"{word}_{it}" for word in words for it in ("number", "view"))
    return f"""// {WRITTEN}
//! {says}
ghost use Rattle.std.specs.Prelude.{{◌≡◌}};
ghost use Rattle.typst_accessors.specs.{specs}.{{{imported}}};
ghost use Rattle.typst_accessors.specs.Numbered.{{IsNumbered}};

{uses}use typst_base::SyntaxKind;

""" + "\n".join(parts)


def accessor_code(found):
    values, parts, nodes = enums(found)
    node = Enum("node", f"that answers {FORMS['node']}", parts)
    whole = Enum("accessor", "", [*values, node, nodes])
    words = [whole.word, *(one.word for one in values)]
    return code("The accessors of views, by their numbers.", "Accessors", words,
                [whole_code(whole, "An accessor of a view, by the form of what it answers.", "pub "), *map(enum_code, values)],
                "use crate::node_accessor::NodeAccessor;\nuse crate::nodes_accessor::NodesAccessor;\n")


def node_accessor_code(found):
    _, parts, _ = enums(found)
    doc = f"An accessor that answers {FORMS['node']}, by the part of the syntax that its view is of."
    return code("The accessors of views that answer another node, by their numbers.", "NodeAccessors",
                ["node", *(one.word for one in parts)],
                [whole_code(Enum("node", "", parts), doc, "pub(crate) "), *map(enum_code, parts)])


def nodes_accessor_code(found):
    _, _, nodes = enums(found)
    return code("The accessors of views that answer several other nodes, by their numbers.", "NodeAccessors", [nodes.word],
                [enum_code(nodes, "pub(crate) ")])


def imported(module, name, variants):
    """The imports of an enum and of its variants in a definition."""
    whole = f"Rattle.typst_accessors.specs.declared.{module}.{name}"
    return [f"use {whole}.{{{name}}}", f"use {whole}.TheVariants.{{{', '.join(variants)}}}"]


def tables(of):
    """The numbers and the views of an enum."""
    return [f"abbrev pub {of.word}_number : {of.name()} → ℕ", *(f"{of.word}_number {one.variant()} = {one.number}" for one in of.some), "",
            f"abbrev pub {of.word}_view : {of.name()} → SyntaxKind",
            *(f"{of.word}_view {one.variant()} = kinds.{one.view}" for one in of.some), ""]


def wholes(word, name, what, some):
    """The numbers and the views of an enum whose variants are enums."""
    lines = []
    for it, kind, says in [("number", "ℕ", f"the number of {what}"), ("view", "SyntaxKind", f"the kind of the nodes that have {what}")]:
        lines += [f"-- {says}", f"abbrev pub {word}_{it} : {name} → {kind}",
                  *(f"{word}_{it} ({one.variant()} accessor) = {one.word}_{it} accessor" for one in some), ""]
    return lines


KINDS_USED = ["use Rattle.typst_base.specs.declared.kind.SyntaxKind.{SyntaxKind}",
              "use Rattle.typst_base.specs.declared.kind.SyntaxKind.TheVariants as kinds", ""]


def accessor_specs(found):
    values, parts, nodes = enums(found)
    some = [*values, Enum("node", "", parts), nodes]
    uses = imported("accessor", "Accessor", [one.variant() for one in some])
    for one in values:
        uses += imported("accessor", one.name(), [accessor.variant() for accessor in one.some])
    uses += ["use Rattle.typst_accessors.specs.NodeAccessors.{node_number, node_view, nodes_number, nodes_view}"]
    return "\n".join([f"-- {WRITTEN}", "-- The numbers of accessors, and the kinds of the nodes that have them.",
                      "use Rattle.std.specs.Prelude.{ℕ}", *uses, *KINDS_USED, "-- those of each form",
                      *(line for one in values for line in tables(one)), *wholes("accessor", "Accessor", "an accessor", some)])


def node_accessor_specs(found):
    _, parts, nodes = enums(found)
    uses = imported("node_accessor", "NodeAccessor", [one.variant() for one in parts])
    for one in [*parts, nodes]:
        module = "nodes_accessor" if one is nodes else "node_accessor"
        uses += imported(module, one.name(), [accessor.variant() for accessor in one.some])
    return "\n".join([f"-- {WRITTEN}", "-- The numbers of accessors that answer other nodes, and the kinds of the nodes that have them.",
                      "use Rattle.std.specs.Prelude.{ℕ}", *uses, *KINDS_USED, "-- those of each part of the syntax, and of lists of nodes",
                      *(line for one in [*parts, nodes] for line in tables(one)),
                      *wholes("node", "NodeAccessor", "an accessor that answers a node", parts)])


# The tables of the bindings, and of the documents.


def header(found):
    lines = [f"/* The accessors of views, by number. {WRITTEN} */"]
    lines += ["#ifndef TYPST_ACCESSORS_H", "#define TYPST_ACCESSORS_H", "", "enum {"]
    for one in found:
        lines += [f"    /** Of {article(one.view)} {one.view}, {FORMS[one.form]}: {one.doc[0].lower()}{one.doc[1:]} */"]
        lines += [f"    TYPST_VIEW_{constant(one.view)}_{one.name.upper()} = {one.number},"]
    lines += ["    /** The number of accessors. */", f"    TYPST_ACCESSORS = {len(found)}", "};", "", "#endif", ""]
    return "\n".join(lines)


def rust(found):
    lines = [f"//! The accessors of views. {WRITTEN}", ""]
    lines += ["/// An accessor of a view: what is read of the nodes of one kind."]
    lines += ["#[derive(Clone, Copy, Debug, PartialEq, Eq, PartialOrd, Ord, Hash)]", "#[repr(u32)]"]
    lines += ["#[non_exhaustive]", "pub enum Accessor {"]
    for one in found:
        lines += [f"    /// Of {article(one.view)} `{one.view}`, {FORMS[one.form]}: {one.doc[0].lower()}{one.doc[1:]}", f"    {one.variant()},"]
    lines += ["}", ""]
    return "\n".join(lines)


def page(found):
    lines = [f"<!-- {WRITTEN} -->", "# The accessors of typed views, by numbers", ""]
    lines += ["A program in C or Rust reads a node by the number of an accessor (`docs/C.md`, `docs/RUST.md`). `Heading.depth` is"]
    lines += ["`TYPST_VIEW_HEADING_DEPTH` in C and `Accessor::HeadingDepth` in Rust, and so on. Each accessor belongs to the nodes of one"]
    lines += ["kind, its view. For any other node it returns nothing.", ""]
    lines += ["A `flag` is true or false, a `natural` is a natural number or none, and a `string` is a text that the call makes. A program in"]
    lines += ["C gets a `string` as `TYPST_ANSWER_TEXT`, like a `text` of the tree.", ""]
    lines += ["An accessor of the form `node` returns the number of a node of the tree, or nothing if the tree lacks it. One of the form"]
    lines += ["`nodes` has several results, by an index: the number of the node with the index, counted from 0, or nothing"]
    lines += ["after the last one. Each other accessor has one result, with the index 0.", ""]
    lines += ["Not here are `Raw.block` and `ModuleImport.bare_name`, which ask the caller what newlines and names are; `bindings`, which would"]
    lines += ["make its list of names anew for each result; and `ends_in_semicolon` of an argument in math, which the semicolon after it shows"]
    lines += ["among `MathArgs.content_items`. An item of an import is read by the accessors of its own kind.", ""]
    lines += ["| number | accessor | form | what it returns |", "|---|---|---|---|"]
    lines += [f"| {one.number} | `{one.called()}` | {one.form} | {one.doc} |" for one in found]
    return "\n".join([*lines, ""])


def files():
    found = accessors()
    return {
        "crates/typst_accessors/src/accessor.rt": accessor_code(found),
        "crates/typst_accessors/src/node_accessor.rt": node_accessor_code(found),
        "crates/typst_accessors/src/nodes_accessor.rt": nodes_accessor_code(found),
        "crates/typst_accessors/specs/Accessors.antt": accessor_specs(found),
        "crates/typst_accessors/specs/NodeAccessors.antt": node_accessor_specs(found),
        "bindings/c/typst_accessors.h": header(found),
        "bindings/rust/src/accessor.rs": rust(found),
        "docs/internal/ACCESSORS.md": page(found),
    }


def main():
    check = parser(__doc__, "--check").parse_args().check
    made = files()
    write(((TOP / name, text) for name, text in made.items()), TABLE, check)
    print(f"the {len(made)} tables of {len(accessors())} accessors are those of {TABLE}")


if __name__ == "__main__":
    main()
