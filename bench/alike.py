#!/usr/bin/env python3
"""Says whether the list of what views read alike has each word that an accessor's contract cites.

    bench/alike.py
    bench/alike.py --fields    which fields cover which accessor, for one that is new

`ReadsAlike`, in crates/typst_ast/specs/Alike.antt, says that each word by which accessors read a node is alike for
nodes that are alike. The comment above a field names the accessors that the field is for. The script checks each word
of this repository that an `ensures` of a public function of typst_atoms or typst_ast cites. The word must be in a field
that names that function, or be made of such words, or be listed below with the reason why it needs no field. A field
names only functions whose contracts cite a word of the field.
"""
import re
import sys

from common import TOP
from judge.sources import blanked, functions

CRATES = ("typst_atoms", "typst_ast")
ALIKE = TOP / "crates/typst_ast/specs/Alike.antt"
WORD = re.compile(r"\w+")
IMPORT = re.compile(r"^\s*(?:ghost )?use Rattle\.(\S+?)\.\{([^}]*)\};?$", re.M)
CLAUSE = re.compile(r"\bensures\*?(?: \w+)? \{")
FIELD = re.compile(r"((?:^  -- [^\n]*\n)*)^  pub (\w+) :(.*(?:\n(?:    |$).*)*)", re.M)
NAME = re.compile(r"\w+::\w+")
DEFINED = re.compile(r"^ *abbrev pub (\w+) :.*\n((?: *\S.*\n)+)", re.M)

# The words that need no field, by the reason; those of a whole module by a star.
EXEMPT = {
    "the node of a view": "View.node_of View.atom_node ImportItem.import_item_node MathAccess.math_access_node Bindings.expr_names",
    "the kind of a node that other words pick, which its plain tree has": "Views.node_kind",
    "what `exprs` is made of": "KeptNodes.markup_nodes",
    "a word on lists": "Raws.AnyByRecursion",
    "a class of kinds, for each of which the fields speak": """Kinds.is_kind Kinds.is_array_item_kind Kinds.is_dict_item_kind
        Kinds.is_import_item_kind Kinds.is_math_access_kind Kinds.is_param_kind ExprClasses.is_hash_kind ExprClasses.is_literal_kind
        ExprKinds.is_expr_kind Classes.is_arg_kind Classes.is_destructuring_item_kind Classes.is_pattern_kind
        Exprs.is_expr_or_space_kind Imports.is_imports_kind NamedSets.binary_op_set NamedSets.unary_op_set""",
    "the view of a node that other words of the clause pick": """Views.IsViewOf Views.IsOptionalViewOf View.IsOptionalView
        View.IsOptionalAtom Expr.IsExprOf Expr.IsOptionalExprOf ExprTable.expr_kind Imports.IsImportsOf MathAccess.IsMathAccessOf
        MathAccess.math_access_kind ImportItem.import_item_kind Pattern.IsPatternOf""",
    "what an iterator has left, of the nodes that other words of the clause pick": """Items.nodes_left Items.nodes_ahead
        KeptNodes.kept_left KeptNodes.nodes_ahead Exprs.exprs_left Exprs.nodes_ahead MathArgs.items_left MathArgs.args_left
        MathArgs.nodes_ahead MathArgs.nodes_ahead_of_args MathItems.items_left MathItems.nodes_ahead MathItems.ends_in_semicolon""",
    "a reading of a text, which stands in the same clause": """Escapes.escaped_char Ints.IsIntReading Labels.label_name
        LineComments.IsLineCommentText BlockComments.IsBlockCommentText MathTexts.IsMathTextOf Numerics.IsUnitOf
        Numerics.number_text Numerics.unit_text Roots.IsRootIndex Shorthands.char_for Shorthands.markup_shorthands
        Shorthands.math_shorthands Shorthands.texts_and_chars Strings.IsStringValue Paths.IsFileStemOf BareNames.IsName
        BareNames.IsStringName""",
    "a table of operators": """BinaryOperators.binary_operator_of BinaryOperators.binary_precedence BinaryOperators.binary_text
        UnaryOperators.unary_operator_of UnaryOperators.unary_precedence UnaryOperators.unary_text TheVariants.Right""",
    "equality of views, spans included": "EqualViews.* SameViews.*",
    "the law itself": "Alike.IsAlike Alike.ReadsAlike",
}
REASONS = {word: reason for reason, words in EXEMPT.items() for word in words.split()}


def needing(words):
    """The words among these that need a field."""
    return {word for word in words if word not in REASONS and f"{word.split('.')[0]}.*" not in REASONS}


def imported(text):
    """The words that a file imports from this repository, each with the end of its module's name before it."""
    found = {}
    for module, names in IMPORT.findall(text):
        if module.startswith("typst_"):
            for name in names.split(","):
                word, _, alias = name.strip().partition(" as ")
                found[alias or word] = f"{module.split('.')[-1]}.{word}"
    return found


def clauses(head):
    """The clauses of a function's head: the text in braces after each `ensures`."""
    for it in CLAUSE.finditer(head):
        depth, end = 1, it.end()
        while depth:
            depth += {"{": 1, "}": -1}.get(head[end], 0)
            end += 1
        yield head[it.end() : end - 1]


def cited(crate):
    """Of each public function of a crate that has an `ensures`, by its name, the words that these cite."""
    found = {}
    for it in functions(crate):
        text = (crate / it.file).read_text()
        if it.trait or not it.name or not text[: it.start].endswith("pub "):
            continue
        words = imported(text)
        head = blanked(text)[it.start : it.body]
        names = {words[word] for clause in clauses(head) for word in WORD.findall(clause) if word in words}
        label = f"{it.subject.split('::')[-1] or crate.name}::{it.name}"
        found[label] = found.get(label, set()) | names
    return found


def definitions():
    """Of each word that a file in specs/ of the two crates defines, the words of this repository in its definition."""
    found = {}
    for crate in CRATES:
        for file in sorted((TOP / "crates" / crate / "specs").glob("*.antt")):
            text = file.read_text()
            own = {name: f"{file.stem}.{name}" for name, _ in DEFINED.findall(text)}
            words = imported(text) | own
            found |= {own[name]: {words[it] for it in WORD.findall(body) if it in words} for name, body in DEFINED.findall(text)}
    return found


def fields():
    """Of each field of `ReadsAlike` the words in it, with those of the words that the file itself defines, and its accessors."""
    text = ALIKE.read_text()
    words = imported(text)
    own = {name: set(WORD.findall(body)) for name, body in DEFINED.findall(text)}
    found = {}
    for comment, name, body in FIELD.findall(text[text.index("pub record ReadsAlike") :]):
        stands = set(WORD.findall(body))
        for word in stands & own.keys():
            stands |= own[word]
        found[name] = needing(words[word] for word in stands if word in words), NAME.findall(comment)
    return found


def made_of(word, known, defined):
    """The words of fields that a word is made of, or the word itself if no field has it and no definition says what it is made of."""
    if word in known or word not in defined:
        return {word}
    parts = needing(defined[word]) - {word}
    return set().union(*(made_of(it, known, defined) for it in parts if it in known or it in defined)) or {word}


def main():
    stated, defined = fields(), definitions()
    known = set().union(*(words for words, _ in stated.values()))
    every = {name: words for crate in CRATES for name, words in cited(TOP / "crates" / crate).items()}
    reads = {
        name: set().union(*(made_of(word, known, defined) for word in needing(words))) for name, words in every.items()
    }
    if "--fields" in sys.argv[1:]:
        for name, words in reads.items():
            fits = [field for field, (stands, _) in stated.items() if words & stands]
            print(f"{name} reads {', '.join(sorted(words)) or 'nothing'}: {', '.join(fits)}")
        return 0
    wrong = []
    for name, words in reads.items():
        covered = set().union(*(stands for stands, names in stated.values() if name in names))
        wrong += [f"{name} reads {word}, but no field that names {name} has that word" for word in sorted(words - covered)]
    for field, (words, names) in stated.items():
        wrong += [f"{field} names {name}, which reads no word of it" for name in names if not words & reads.get(name, set())]
    used = set().union(defined, *every.values(), *defined.values())
    used |= {f"{word.split('.')[0]}.*" for word in used}
    wrong += [f"{word} needs no reason, since nothing has this name: take it out of bench/alike.py" for word in sorted(REASONS.keys() - used)]
    print(*wrong, sep="\n", end="\n" if wrong else "")
    print(f"{sum(map(bool, reads.values()))} accessors read words of {len(stated)} fields, {len(wrong)} faults")
    return 1 if wrong or not stated or not any(reads.values()) else 0


if __name__ == "__main__":
    sys.exit(main())
