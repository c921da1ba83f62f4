"""Finds the public functions with clauses that no wrong body changes."""
import re

from judge.sources import blanked

CLAUSE = re.compile(r"\bensures\b")
PUBLIC = re.compile(r"\bpub\s+(?:const\s+)?(?:unsafe\s+)?(?:extern\s+)?$")
# In these crates clauses only say that what was written before stays. A few edits show that for all functions.
ONE_CLAUSE = ("typst_answers",)
# Functions that can have no other body of their form, by crate, because they can make no other value of their type.
ONE_BODY = {
    "typst_base": ("Spanned::detached",),
    "typst_session": ("Session::new", "Document::source"),
}


def is_public(text, function):
    """Whether the function is declared `pub`, without a narrower scope."""
    line = text.rfind("\n", 0, function.start) + 1
    head = text[line : function.start]
    return text[function.start :].startswith("pub fn") or bool(PUBLIC.search(head))


def without_body(crate, all_functions, edits):
    """The public functions with clauses that no edit changes. Laws, which have no code, and those of `ONE_BODY` don't count."""
    if crate.name in ONE_CLAUSE:
        return []
    changed = {it for edit in edits for it in edit.functions}
    texts, missing = {}, []
    for it in all_functions:
        text = texts.setdefault(it.file, blanked((crate / it.file).read_text()))
        label = f"{it.subject}::{it.name}" if it.subject else it.name
        owes = it.name and it.body and CLAUSE.search(text[it.start : it.body]) and is_public(text, it)
        has_code = bool(text[it.body : it.end - 1].strip()) if it.body else False
        if owes and has_code and it not in changed and label not in ONE_BODY.get(crate.name, ()):
            missing.append(f"{crate.name}: no wrong body changes the public function {label} of {it.file}")
    return missing
