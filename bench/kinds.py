#!/usr/bin/env python3
"""Writes every file that is a table of kinds, from crates/kinds.txt.

    bench/kinds.py            writes them, and says which changed
    bench/kinds.py --check    says which differ from what it would write, and changes nothing

Each such file has a template in bench/templates, which is the file without its tables. In a template, `@NAME@` is the
place of the table that `tables` below makes under that name. The tables are laid out as `rt fmt` lays them out.
"""
import re
import sys
import textwrap
from dataclasses import dataclass

from common import TOP, parser, write

TABLE = "crates/kinds.txt"
TEMPLATES = TOP / "bench/templates"
WRITTEN = f"Written by bench/kinds.py from {TABLE}: change that and run it."
NAME = re.compile("@([^@\\n]+)@")
WIDTH = 100  # of a line of code
# The mode rules by their letters, in the order of their arms: in code, and in specs.
MODES = {
    "M": ("ModeAfter::Known(SyntaxMode::Markup)", "Known MarkupMode"),
    "A": ("ModeAfter::Known(SyntaxMode::Math)", "Known MathMode"),
    "C": ("ModeAfter::Known(SyntaxMode::Code)", "Known CodeMode"),
    "-": ("ModeAfter::None", "NoMode"),
    "P": ("ModeAfter::Parent", "Parent"),
    "T": ("ModeAfter::Text", "TextMode"),
    "R": ("ModeAfter::RawDelim", "RawDelimMode"),
    "D": ("ModeAfter::Dollar", "DollarMode"),
    "S": ("ModeAfter::Space", "SpaceMode"),
    "E": ("ModeAfter::Embeddable", "Embeddable"),
}


@dataclass
class Kind:
    number: int
    name: str
    mode: str
    classes: list
    view: str
    printed: str
    doc: str

    def spec(self):
        """Its name in a spec, where `None` and `Bool` mean something else."""
        return {"None": "NoneKind", "Bool": "BoolKind"}.get(self.name, self.name)

    def imported(self):
        return self.name if self.spec() == self.name else f"{self.name} as {self.spec()}"


class Table:
    """What crates/kinds.txt says."""

    def __init__(self, text):
        self.kinds, self.classes = [], {}
        for at, line in enumerate(text.splitlines(), 1):
            try:
                self.read(line)
            except ValueError as error:
                sys.exit(f"{TABLE}:{at}: {error}")

    def read(self, line):
        if line.startswith("class "):
            word, _, text = line.removeprefix("class ").partition(": ")
            self.classes[word] = text
        elif line and not line.startswith("#"):
            self.kinds.append(self.row(line))

    def row(self, line):
        cells = [cell.strip() for cell in line.split(" | ")]
        if len(cells) != 7:
            raise ValueError(f"a kind has 7 cells with ` | ` between them, and here are {len(cells)}")
        number, name, mode, classes, view, printed, doc = cells
        kind = Kind(len(self.kinds), name, mode, [] if classes == "-" else classes.split(), view, printed, doc)
        unknown = [word for word in kind.classes if word not in self.classes]
        if number != str(kind.number):
            raise ValueError(f"the number is {number}, and the next one is {kind.number}")
        if any(other.name == name for other in self.kinds):
            raise ValueError(f"{name} stands twice")
        if unknown or mode not in MODES or view not in ("-", "atoms", "ast"):
            raise ValueError(f"no such mode, view or class: {' '.join(unknown) or mode + ', ' + view}")
        if view == "-" and ("expr" in kind.classes or "listed" in kind.classes):
            raise ValueError("a variant of `Expr` needs a view")
        if '"' in printed or not doc.endswith("."):
            raise ValueError("a name has no quotes, and what the kind is ends in a full stop")
        return kind

    def of(self, *classes):
        return [kind for kind in self.kinds if set(classes) & set(kind.classes)]

    def viewed(self, *crates):
        return [kind for kind in self.kinds if kind.view in crates]


# Layout.


def filled(words, width):
    return textwrap.fill(" ".join(words), width, initial_indent="    ", subsequent_indent="    ", break_on_hyphens=False)


def matches(value, patterns, indent):
    """A call of `matches!`: in one line, with the patterns in one, or with a pattern a line."""
    inner, line = indent + "    ", " | ".join(patterns)
    if len(f"{value}, {line}") <= 60:
        return f"{indent}matches!({value}, {line})"
    if len(inner + line) > WIDTH:
        line = f"\n{inner}    | ".join(patterns)
    return f"{indent}matches!(\n{inner}{value},\n{inner}{line}\n{indent})"


def arm(patterns, value):
    """An arm of a match: in one line, or with a pattern a line."""
    indent = " " * 12
    line = f"{indent}{' | '.join(patterns)} => {value},"
    return line if len(line) <= WIDTH else indent + f"\n{indent}| ".join(patterns) + f" => {value},"


def arms(by_mode):
    """The arms of `mode_after`. The mode that most kinds have comes last, for all other kinds."""
    most = max(MODES, key=lambda letter: len(by_mode[letter]))
    some = [arm(by_mode[letter], MODES[letter][0]) for letter in MODES if by_mode[letter] and letter != most]
    return "\n".join([*some, arm(["_"], MODES[most][0])])


def viewed_arm(kind):
    """The arm of `from_untyped` for a kind, in one line, or broken where `rt fmt` breaks it."""
    head, view = f"            SyntaxKind::{kind.name} => ", f"Expr::{kind.name}(of::{kind.name}::of_kind(node))"
    return f"{head}{view}," if len(f"{head}{view},") <= WIDTH else f"{head}{{\n                {view}\n            }}"


def cases(function, kinds, value):
    return "\n".join(f"{function} {kind.spec()} = {value(kind)}" for kind in kinds)


def by_variant(function, kinds, value):
    return "\n".join(f"{function} ({kind.spec()} v) = {value(kind)}" for kind in kinds)


def lines(kinds, line):
    return "\n".join(map(line, kinds))


def constant(variant):
    """LINE_COMMENT for LineComment."""
    return re.sub(r"(?<=[a-z])(?=[A-Z])", "_", variant).upper()


def in_c(comment):
    """A comment as C has it. A sign by which Doxygen and clang tell a command, `\\` or `@`, is escaped, which takes effect in
    `<code>` and not in backticks."""

    def escaped(code):
        marked = re.sub(r'[\\@&<>]', r"\\\g<0>", code[1])
        return f"<code>{marked}</code>" if re.search(r"[\\@]", code[1]) else code[0]

    # A comment in C ends at the first `*/`.
    return re.sub(r"`([^`]*)`", escaped, comment).replace("/*", "/ *").replace("*/", "* /")


# The tables, by their names in templates.


def tables(table):
    made = {"written": WRITTEN, "count": str(len(table.kinds))}
    for some in (tables_of_kinds, tables_of_classes, tables_of_views, tables_of_expr):
        made.update(some(table))
    return made


def tables_of_kinds(table):
    kinds = table.kinds
    by_mode = {letter: [f"SyntaxKind::{kind.name}" for kind in kinds if kind.mode == letter] for letter in MODES}
    # A name and the sign after it stay in one line.
    listed = filled([f"{kind.spec()}~∷" for kind in kinds] + ["[]"], 116).replace("~", " ")
    return {
        "variants": lines(kinds, lambda kind: f"    /// {kind.doc}\n    {kind.name},"),
        "paths": lines(kinds, lambda kind: f"    SyntaxKind::{kind.name},"),
        "arms of mode_after": arms(by_mode),
        "constants": lines(kinds, lambda kind: f"    /** {in_c(kind.doc)} */\n    TYPST_KIND_{constant(kind.name)} = {kind.number},"),
        "arms of name": lines(kinds, lambda kind: f'            SyntaxKind::{kind.name} => "{kind.printed}",'),
        "printed names": lines(kinds, lambda kind: f'    "{kind.printed}",'),
        "names in specs": ", ".join(kind.imported() for kind in kinds),
        "number_of": cases("number_of", kinds, lambda kind: kind.number),
        "name_of": cases("name_of", kinds, lambda kind: f'codes "{kind.printed}"'),
        "mode_after_of": cases("mode_after_of", kinds, lambda kind: MODES[kind.mode][1]),
        "all_kinds": listed,
        "kind rows": lines(
            kinds,
            lambda kind: f"| {kind.number} | `{kind.name}` | {kind.printed} | {kind.mode} | {', '.join(kind.classes)} | {kind.doc} |",
        ),
    }


def tables_of_classes(table):
    made = {"class lines": "\n".join(f"- `{word}`: {text}." for word, text in table.classes.items())}
    for word, text in table.classes.items():
        names = [kind.name for kind in table.of(word)]
        made |= {
            f"what {word} is": text,
            f"is {word}": matches("self", [f"SyntaxKind::{name}" for name in names], " " * 8),
            f"kind is {word}": matches("kind", [f"SyntaxKind::{name}" for name in names], " " * 4),
            f"Expr is {word}": matches("self", [f"Expr::{name}(_)" for name in names], " " * 8),
            f"is_{word}_kind": cases(f"is_{word}_kind", table.of(word), lambda _: "true"),
        }
    for words in ("grouping terminator block stmt keyword trivia", "literal hash", "expr", "expr listed"):
        made[f"names of {words}"] = ", ".join(kind.imported() for kind in table.of(*words.split()))
    return made


def marker(kind):
    return f"""/// Marks the views of the kind `{kind.name}`.
pub struct {kind.name}Kind;

impl Kind for {kind.name}Kind {{
    ghost KIND = {{ kinds.{kind.name} }};

    const KIND: SyntaxKind = SyntaxKind::{kind.name};
}}"""


def view(kind):
    return f"/// {kind.doc}\npub type {kind.name}<'a> = View<'a, kinds::{kind.name}Kind>;"


def tables_of_views(table):
    viewed = table.viewed("atoms", "ast")
    return {
        "markers": "\n\n".join(map(marker, viewed)),
        "views of atoms": "\n\n".join(map(view, table.viewed("atoms"))),
        "views of ast": "\n\n".join(map(view, table.viewed("ast"))),
        "names of views of atoms": filled(sorted(f"{kind.name}," for kind in table.viewed("atoms")), WIDTH - 1),
        "names of views": filled(sorted(f"{kind.name}," for kind in viewed), WIDTH - 1),
    }


def tables_of_expr(table):
    exprs, variants = table.of("expr"), table.of("expr", "listed")
    first_cases = lines(exprs[:-1], lambda kind: f"    either (is kinds.{kind.name} refl) (")
    return {
        "first of expr": exprs[0].name,
        "cases of is_expr": f"{first_cases}\n    is kinds.{exprs[-1].name} refl{')' * (len(exprs) - 1)}",
        "expr variants": lines(variants, lambda kind: f"    /// {kind.doc}\n    {kind.name}(of::{kind.name}<'a>),"),
        "arms of from_untyped": lines(exprs, viewed_arm),
        "arms of parts": lines(variants, lambda kind: f"            Expr::{kind.name}(view) => Parts::of(view),"),
        "arms of hash": lines(table.of("hash"), lambda kind: f"            Expr::{kind.name}(_) => true,"),
        "expr_node": by_variant("expr_node", variants, lambda kind: "atom_node v" if kind.view == "atoms" else "node_of v"),
        "expr_kind": by_variant("expr_kind", variants, lambda kind: f"kinds.{kind.name}"),
        "expr_kind_is_node_kind": by_variant(
            "expr_kind_is_node_kind", variants, lambda kind: f"kind_from_test kinds.{kind.name} v.node v.of_kind"
        ),
    }


def files(table):
    """Each file that a template is for, and its text."""
    made = tables(table)
    for template in sorted(TEMPLATES.rglob("*.txt")):
        name, text = str(template.relative_to(TEMPLATES).with_suffix("")), template.read_text()
        unknown = set(NAME.findall(text)) - made.keys()
        if unknown:
            sys.exit(f"{template.relative_to(TOP)}: no table is called @{'@, @'.join(sorted(unknown))}@")
        path = TOP / (name if name.startswith(("docs/", "bindings/")) else f"crates/{name}")
        yield path, NAME.sub(lambda at: made[at[1]], text)


def main():
    check = parser(__doc__, "--check").parse_args().check
    table = Table((TOP / TABLE).read_text())
    made = list(files(table))
    write(made, f"{TABLE} or its template", check)
    print(f"the {len(made)} tables of {len(table.kinds)} kinds are those of {TABLE}")


if __name__ == "__main__":
    main()
