"""What the judge of wrong bodies reads in a crate's sources: its functions, its edits, and a guess which function calls which."""
import re
from dataclasses import dataclass, replace
from functools import cache
from pathlib import Path

HIDDEN = re.compile(r"//[^\n]*|/\*.*?\*/|\"(?:\\.|[^\"\\])*\"|'(?:\\.[^']*|[^'\\\n])'", re.S)
FN = re.compile(r"\bfn\s+(\w+)")
IMPL = re.compile(
    r"^impl\b\s*(?:<[^{\n]*?>\s+)?(?:(?P<trait>[\w:]+)(?P<arguments><[^{]*?>)?\s+for\s+)?&?(?:'\w+ )?(?P<type>[\w:]+)[^;]*?\{"
    r"|^pub trait (?P<own>\w+)[^;]*?\{",
    re.M,
)
CONST = re.compile(r"\bconst (\w+):[^;=]*=(.*?);$", re.M | re.S)
STOP = re.compile(r";(?![^][]*\])")  # the end of a bare signature, and not of the type in an array's `[T; N]`
CLAUSE = re.compile(r"\b(requires|ensures|ghost|decreases)\b\*?[^{}]*$")
TYPE = re.compile(r"^(?:pub(?:\([^)]*\))? )?(?:struct|enum) (\w+)", re.M)
ITEM = re.compile(r"^(?:#\[[^\n]*\n)*pub (?:struct|enum) (\w+)[^;{]*?\{", re.M)
DERIVED = re.compile(r"(?:Clone|Copy|PartialEq|Eq|PartialOrd|Ord|Default|Hash|Debug|Error|Display)$")
CYCLE = re.compile(r"#\[cycle\((\w+)\)\](?:(?!\n\s*\n|\}).)*$", re.S)


@dataclass(frozen=True)
class Function:
    """A function of the crate, or a constant of a trait, which the prover treats as a function. Without a name: all that a type derives."""

    file: str
    modules: tuple
    trait: str  # the trait of its impl block with what it is given, as From<Span>; empty elsewhere
    subject: str  # the type of its impl block; empty of a free function
    name: str
    start: int
    body: int  # the offset right after the `{`
    end: int
    cycle: str
    is_own: bool = False  # a trait gives it its body

    def is_named(self, label):
        """Whether an edit's `in:` line means it: `function`, `Type::function`, `Trait for Type::function` with or without the trait's
        arguments, or `Type` for what a type derives."""
        trait, _, rest = label.rpartition(" for ")
        subject, _, name = rest.rpartition("::")
        if not self.name:
            return label == self.subject
        of_trait, _, given = self.trait.partition("<")
        of_trait = of_trait.split("::")[-1]
        fits = trait in ("", of_trait, f"{of_trait}<{given}")
        return self.name == name and self.subject.split("::")[-1] == subject and fits

    def holds(self, hunk):
        return hunk.file == self.file and self.start < hunk.end and hunk.start < self.end

    @property
    def can_be_copied(self):
        """Whether a copy of it under another name may mean the same."""
        return self.can_be_emptied and self.name != "drop"

    @property
    def can_be_emptied(self):
        """Whether `unreachable!()` can replace its body. It can't in a constant, in a cycle, or in a default method of a trait."""
        return bool(self.name) and not self.cycle and not self.name.isupper() and not self.is_own and "tests" not in self.modules

    def written_proof(self, proofs):
        """The handwritten part of its proof, or of the proof of its cycle."""
        folders = [*self.proof_folders(proofs), *(proofs.glob(f"**/+{self.cycle}") if self.cycle else ())]
        return "".join(file.read_text() for folder in folders for file in folder.glob("*.antt"))

    def proof_folders(self, proofs):
        """The folders below proofs/ that are this function's alone."""
        head = self.subject.replace("::", "+") + self.trait.partition("<")[0].split("::")[-1]
        for name in (self.name, f"+{self.name}"):
            if not self.subject:
                fits = [proofs.joinpath(*self.modules, name)]
            else:
                fits = [*proofs.glob(f"**/{head}/{name}")]
                near = [it for it in fits if it == proofs.joinpath(*self.modules, head, name)]
                fits = near or fits[: len(fits) == 1]
            yield from (it for it in fits if it.is_dir())

    def paths(self, crate, known):
        """The known paths by which the prover names it. The path of a method begins with the module of its type."""
        if not self.name:
            return [it for it in known if self.derives(it.split("::")[-2])]
        path = self.path(crate, known)
        return [path] if path else []

    def guessed(self, crate, types):
        """The path by which the prover may name it. The path of a method begins with the module of its type, or of the impl of a trait."""
        if not self.name:
            return []
        of_trait, _, given = self.trait.partition("<")
        modules = self.modules if of_trait else types.get(self.subject.split("::")[-1], self.modules)
        head = self.subject.replace("::", "+") + of_trait.split("::")[-1] + re.sub(r"['<>].*", "", given)
        return ["::".join([crate, *modules, *([head] if self.subject else []), self.name])]

    def derives(self, word):
        return word.startswith(self.subject) and bool(DERIVED.match(word[len(self.subject) :]))

    def path(self, crate, known):
        """The known path of a function with a name, or None."""
        if not self.subject:
            path = "::".join([crate, *self.modules, self.name])
            return path if path in known else None
        of_trait, _, given = self.trait.partition("<")
        head = self.subject.replace("::", "+") + of_trait.split("::")[-1]
        written = given.rstrip(">").partition("<")[0]
        joined = "".join(part[:1].upper() + part[1:] for part in written.split("::"))  # `io::Error` is told as `IoError`
        for word in (head, head + written, head + joined):
            fits = [it for it in known if it.split("::")[-2:] == [word, self.name]]
            near = [it for it in fits if tuple(it.split("::")[1:-2]) == self.modules]
            if len(fits) == 1 or len(near) == 1:
                return (fits if len(fits) == 1 else near)[0]
        return None


@dataclass(frozen=True)
class Hunk:
    """A replacement in a file, by offsets in the original text."""

    file: str
    start: int
    end: int
    new: str


@dataclass(frozen=True)
class Edit:
    name: str
    hunks: tuple
    functions: frozenset  # those that it changes
    right: tuple = ()  # hunks of a right body of the same form, if the edit gives one
    copied: "Edit | None" = None  # the edit that this one makes in a copy of its function
    original: Function | None = None  # the function of that edit


def copied(crate, function, name, hunks=()):
    """The function under another name with these changes, and the hunk that puts it directly after the original. A method of a trait is
    put after the impl block, into an impl block of the type alone."""
    text = (crate / function.file).read_text()
    start = function.start
    while not text[:start].endswith("\n") or re.search(r"[^\s{};]\n$", text[:start]):  # with its attributes
        start = text.rindex("\n", 0, start - 1) + 1
    hunks = [*hunks, Hunk(function.file, function.body - 1, function.body - 1, owed(crate, function) or "")]
    copy = placed(text[start : function.end], [Hunk(it.file, it.start - start, it.end - start, it.new) for it in hunks])
    copy = copy.replace(f"fn {function.name}", f"fn {name}", 1)
    if not function.trait:
        return replace(function, name=name), Hunk(function.file, function.end, function.end, f"\n\n{copy}")
    block, end = block_of(text, function)
    item = re.search(r"\btype Item = (.*?);", text[block.end() : end], re.S)
    copy = copy.replace("Self::Item", item[1]) if item else copy
    head = text[block.start() : block.start("trait")] + re.sub(r"^.*?\bfor\s+", "", text[block.start("trait") : block.end()], flags=re.S)
    return replace(function, name=name, trait=""), Hunk(function.file, end, end, f"\n\n{head}\n{copy}\n}}")


def block_of(text, function):
    """The impl block of a method, and the offset of its end."""
    block = [it for it in IMPL.finditer(blanked(text)) if it.start() < function.start][-1]
    return block, closing(blanked(text), block.end() - 1)


def owed(crate, function):
    """The clauses that a copy of a function owes in addition to those that are written at it. For `next` and `next_back` this is what
    the impl block says that a step gives, and an empty clause in place of the trait's other one, so that the goals keep their names.
    None for any other method of a trait without a clause, because its copy would owe nothing."""
    text = (crate / function.file).read_text()
    if not function.trait or re.search(r"\bensures\b", blanked(text)[function.start : function.body]):
        return ""
    block, end = block_of(text, function)
    gives = re.search(rf"\bghost {function.name}_gives = (?={{)", text[block.end() : end])
    if function.name not in ("next", "next_back") or not gives or re.search(r"\bghost (use|can_next)\b", text[block.end() : end]):
        return None
    start = block.end() + gives.end()
    gives = text[start + 1 : closing(text, start) - 1].strip()
    return f"\n        ensures steps {{ ({gives}) self.old result self.new }}\n        ensures goes {{ self.new ≡ self.new }}\n    "


def in_copy(crate, edit, name):
    """The edit in a copy of its function that has this name, or None if a copy may mean something else."""
    function = next(iter(edit.functions))
    is_inside = all(it.file == function.file and function.start <= it.start and it.end < function.end for it in edit.hunks)
    has_measure = any(crate.joinpath("proofs").glob(f"**/+{function.name}"))  # it calls itself
    if len(edit.functions) > 1 or not is_inside or not function.can_be_copied or has_measure or owed(crate, function) is None:
        return None
    made, hunk = copied(crate, function, name, edit.hunks)
    is_of_trait = function.trait and re.search(r"\bSelf::[A-Z]", hunk.new)  # a type of the trait's
    return None if is_of_trait else Edit(edit.name, (hunk,), frozenset({made}), copied=edit, original=function)


@cache
def blanked(text):
    """The text with blanks in place of comments, strings and characters, so that all else stays where it was."""
    return HIDDEN.sub(lambda it: re.sub(r"[^\n]", " ", it[0]), text)


def closing(text, at):
    """The offset after the `}` of the `{` at this place."""
    depth = 0
    for it in re.compile(r"[{}]").finditer(text, at):
        depth += 1 if it[0] == "{" else -1
        if depth == 0:
            return it.end()
    return len(text)


def body_of(text, at):
    """The offset of the `{` of a function's body, which comes after its clauses. The head of the function goes on at `at`. None for a
    bare signature."""
    while True:
        brace, stop = text.find("{", at), STOP.search(text, at)
        if brace < 0 or stop and stop.start() < brace:
            return None
        if not CLAUSE.search(text[at:brace]):
            return brace
        at = closing(text, brace)


def functions(crate):
    """The crate's functions, the constants of its traits' impl blocks, and what its types derive."""
    found = []
    for path in sorted((crate / "src").rglob("*.rt")):
        text, file = blanked(path.read_text()), str(path.relative_to(crate))
        modules = tuple(it for it in path.relative_to(crate / "src").with_suffix("").parts if it not in ("lib", "main"))
        impls = [(it.start(), closing(text, it.end() - 1), it) for it in IMPL.finditer(text)]

        def made(name, start, body, end, cycle):
            block = next((it for low, high, it in impls if low < start < high), None)
            trait = (block["trait"] or "") + (block["arguments"] or "") if block else ""
            trait = "" if trait == "Drop" else trait  # the prover names a `drop` as a method of the type
            subject = block["type"] or block["own"] if block else ""
            return Function(file, modules, trait, subject, name, start, body, end, cycle, bool(block and block["own"]))

        for fn in FN.finditer(text):
            brace = body_of(text, fn.end())
            if brace is not None:
                cycle = CYCLE.search(text[: fn.start()])
                found.append(made(fn[1], fn.start(), brace + 1, closing(text, brace), cycle[1] if cycle else ""))
        for it in CONST.finditer(text):
            constant = made(it[1], it.start(), it.start(2), it.end(), "")
            found += [constant] * bool(constant.trait)
        for it in ITEM.finditer(text):
            found.append(Function(file, modules, "", it[1], "", it.start(), it.end(), closing(text, it.end() - 1), ""))
    return found


def types(crate):
    """The modules in which the crate's types are declared."""
    found = {}
    for path in sorted((crate / "src").rglob("*.rt")):
        modules = tuple(it for it in path.relative_to(crate / "src").with_suffix("").parts if it not in ("lib", "main"))
        found |= {name: modules for name in TYPE.findall(blanked(path.read_text()))}
    return found


def pairs(text, kind="new"):
    """The changes that an edit's lines name: file, function, old text, and new text. With the kind `right` it is the right text of the
    same form in place of the new text."""
    found, file, inside, old = [], "", "", ""
    for line in text.split("\n"):
        word, _, rest = line.partition(":")
        rest = rest.removeprefix(" ")
        word = word.removeprefix("# ")
        if word == "file":
            file, inside = rest.strip(), ""
        elif word == "in":
            inside = rest.strip()
        elif word == "old":
            old = rest
        elif word == kind:
            found.append((file, inside, old, rest))
    return found


def placed(text, hunks):
    """The text with these replacements. Their offsets are those in the original text."""
    for it in sorted(hunks, key=lambda it: -it.start):
        text = text[: it.start] + it.new + text[it.end :]
    return text


def in_function(crate, all_functions, file, label, old, new):
    """The hunk of a pair that names a function, a constant or a type. The old text must occur in it exactly once."""
    fits = [it for it in [*all_functions, *constants(crate)] if it.file == file and it.is_named(label)]
    if len(fits) != 1:
        raise ValueError(f"{len(fits)} functions of {file} are named {label}")
    text = (crate / file).read_text()[fits[0].start : fits[0].end]
    if text.count(old) != 1:
        raise ValueError(f"an old line occurs {text.count(old)} times in {label}, in {file}")
    start = fits[0].start + text.index(old)
    return Hunk(file, start, start + len(old), new)


def hunks_of(crate, all_functions, changes):
    """An edit's changes as replacements in the original texts. A later pair may change what an earlier one made."""
    made = {}
    for file, label, old, new in changes:
        here = made.setdefault(file, [])
        if label:
            hunk = in_function(crate, all_functions, file, label, old, new)
            if any(it.start < hunk.end and hunk.start < it.end for it in here):
                raise ValueError("a pair with a function's name reaches into an earlier pair")
            here.append(hunk)
            continue
        text = placed((crate / file).read_text(), here)
        if text.count(old) != 1:
            raise ValueError(f"an old line occurs {text.count(old)} times in {file}")
        start = text.index(old)
        end, shift = start + len(old), 0
        for it in sorted(here, key=lambda it: it.start):
            low = it.start + shift
            high = low + len(it.new)
            if low < end and start < high:
                if not low <= start <= end <= high:
                    raise ValueError("a pair reaches over the border of an earlier one")
                here[here.index(it)] = Hunk(file, it.start, it.end, it.new[: start - low] + new + it.new[end - low :])
                break
            if high <= start:
                shift += len(it.new) - (it.end - it.start)
        else:
            here.append(Hunk(file, start - shift, end - shift, new))
    return tuple(it for group in made.values() for it in group)


@cache
def constants(crate):
    """The crate's constants except those in impl blocks of traits. The value counts as the body. A constant in a type's impl block comes
    with the type."""
    found = []
    for path in sorted((crate / "src").rglob("*.rt")):
        text, file = blanked(path.read_text()), str(path.relative_to(crate))
        impls = [(it.start(), closing(text, it.end() - 1), it) for it in IMPL.finditer(text)]
        for it in CONST.finditer(text):
            block = next((block for low, high, block in impls if low < it.start() < high), None)
            if not block or not block["trait"] and not block["own"]:
                subject = block["type"].split("::")[-1] if block else ""
                found.append(Function(file, (), "", subject, it[1], it.start(), it.start(2), it.end(), ""))
    return found


def names(crate, one, constant):
    """Whether the text of a function or a constant names this constant. A constant of a type is named after the type or `Self`."""
    owner = constant.subject
    if owner and owner == one.subject.split("::")[-1]:
        owner = f"(?:{owner}|Self)"
    word = rf"\b{owner}(?:::<[^;]*?>)?::{constant.name}\b" if owner else rf"\b{constant.name}\b"
    return bool(re.search(word, blanked((crate / one.file).read_text())[one.body : one.end]))


def touched(crate, hunk, all_functions):
    """The functions that hold the change. If it is in a plain constant, the functions that name it, directly or through other constants."""
    inside = [it for it in all_functions if it.holds(hunk)]
    plain = constants(crate)
    todo = [it for it in plain if it.file == hunk.file and it.start <= hunk.start < it.end]
    if inside or not todo:
        return inside
    changed = set()
    while todo:
        constant = todo.pop()
        changed.add(constant)
        todo += [it for it in plain if it not in changed and names(crate, it, constant)]
    return [it for it in all_functions if any(names(crate, it, constant) for constant in changed)]


def edit_files(crate):
    """The files of the crate's edits."""
    return [*sorted((crate / "must-fail").glob("*.edit")), *sorted((crate / "wrong-bodies").rglob("*.edit"))]


def is_in_every_turn(file):
    """Whether an edit is judged in every turn."""
    return file.parent.name == "must-fail" or "turn: every" in file.read_text().split("\n")


def look_at_place(crate, file, changes):
    """Raises an error unless the edit has changes, each names its function, and the file is in the right folder."""
    if not changes:
        raise ValueError("it has no pair of an old and a new line")
    for source, label, _, _ in changes:
        if not label:
            raise ValueError(f"a pair for {source} names no function by an `in:` line")
    home = crate / "wrong-bodies" / Path(changes[0][0]).relative_to("src").with_suffix("")
    if file.parent not in (home, crate / "must-fail"):
        raise ValueError(f"its first change is in {changes[0][0]}, so the file belongs into {home.relative_to(crate)}")


def edits_of(crate, all_functions, bad, only=""):
    """The crate's edits. Those that can't be placed are reported in `bad`."""
    found, names_seen = [], set()
    for file in edit_files(crate):
        if not any(word in file.stem for word in only.split(",")):
            continue
        try:
            if file.stem in names_seen:
                raise ValueError("another edit of the crate has this name")
            names_seen.add(file.stem)
            changes = pairs(file.read_text())
            look_at_place(crate, file, changes)
            hunks = hunks_of(crate, all_functions, changes)
            changed = frozenset(it for hunk in hunks for it in touched(crate, hunk, all_functions))
            if not changed:
                raise ValueError("it changes no function")
            right = hunks_of(crate, all_functions, pairs(file.read_text(), "right"))
            found.append(Edit(file.stem, hunks, changed, right))
        except (ValueError, OSError) as error:
            bad.append(f"{crate.name}/{file.stem}: cannot be placed: {error}")
    return found


def calls_itself(crate, function, hunks=()):
    """Whether the function's own body, with these changes, seems to call the function again. If it has the proof of a function that calls
    itself, its name counts as such a call. Otherwise its path does, or a call of the method on itself, its parent, a child, or a field
    of its own type. A clone of what is shared doesn't call the clone of what is in it."""
    whole = (crate / function.file).read_text()
    body = blanked(placed(whole[: function.end], [it for it in hunks if function.holds(it)])[function.body :])
    does = any(it.name == f"+{function.name}" for it in function.proof_folders(crate / "proofs"))
    if does or not function.subject:
        return bool(re.search(rf"{'' if does else '(?<![.:])'}\b{function.name}(?:::<[^;]*?>)?\(", body))
    own = function.subject.split("::")[-1]
    fields = dict(re.findall(r"^    (?:pub(?:\(\w+\))? )?(\w+): ([^\n]*)", blanked(whole), re.M))
    like_own = {it for it, kind in fields.items() if re.search(rf"\b{own}\b", kind) and not (function.name == "clone" and "Rc<" in kind)}
    owner = "|".join(["self", "Self", "parent", "child", own, *like_own])
    calls = re.finditer(rf"\b({owner})(?:\.|::){function.name}(?:::<[^;]*?>)?\(", body)
    return any(it[1] in like_own or it[1] not in fields for it in calls)


def reach(crate, all_functions):
    """For each function, the functions that it may reach by calls. This is guessed from the words of the sources, and rather names too
    many than too few."""
    by_name, texts, calls = {}, {}, {}
    for it in all_functions:
        by_name.setdefault(it.name, set()).add(it)
    subjects = {it.subject.split("::")[-1] for it in all_functions}
    for it in all_functions:
        text = texts.setdefault(it.file, blanked((crate / it.file).read_text()))
        for found in re.finditer(r"(?:(\w+)(?:::<[^;]*?>)?::|(\.)\s*)?\b(\w+)\b", text[it.body : it.end]):
            owner = found[1] or ""
            is_of_type = len(owner) > 1 and owner[0].isupper() and owner != "Self" and owner in subjects
            for other in by_name.get(found[3], ()):
                if not is_of_type or other.subject.split("::")[-1] == owner:
                    calls.setdefault(it, set()).add(other)
    reached = {}
    for it in calls:
        seen, todo = set(), [it]
        while todo:
            new = calls.get(todo.pop(), set()) - seen
            seen |= new
            todo += new
        reached[it] = seen
    return reached
