"""The judge of one crate: it places edits into batches, checks these, and says of each edit how it fares."""
import re
from collections import Counter

from judge.forms import change_of_form, right_bodies
from judge.room import GOAL
from judge.sources import Edit, Hunk, blanked, calls_itself, copied, edits_of, functions, in_copy, reach, types
from judge.turns import judged_in

STOPPED = re.compile(r"^(src/\S+?):(\d+):(\d+): error\[", re.M)  # an error before the prover is reached
NAMED = re.compile(r"`search` did not prove `([^`]+)`|error: `([^`]+)`")  # a goal, or a declaration of a proof file
VANISHED = re.compile(r"has no field|is not in scope|has no `|was not admitted")  # the edit took a name away: it says little
REFUSED = ("goal", "proof file")  # the two ways of a failure of its own
OF_CLAUSE = re.compile(r"\breturns\b|loop-.*-(?:preserved|init)|invariant_of|-bits")  # goals of what the function promises
UNSEEN = re.compile(r"[=!<>]=|[?+*/<>-]|\bfor\b")  # what may call a method of a trait that the body doesn't name
CALL = re.compile(r"\b[a-z]\w*(?:::<[^;]*?>)?\(")


def is_part(it, path):
    """Whether the prover speaks of the function of this path, or of a closure in it."""
    words, parts = [word for word in it.split("::") if word != "fn"], path.split("::")
    return it == path or words[: len(parts)] == parts and len(words) > len(parts)


def is_of(goal, path):
    """Whether a goal or a declaration in a cycle's proof, as `Ends::add-returns`, is that of the member with this path."""
    head = goal.partition("-")[0].split("::")
    return path.split("::")[-len(head) :] == head


def of_member(path, cycle, said, errors):
    """What is said and the errors, without the goals and the declarations of the cycle's other members. Both are empty if what all
    members have in common is refused."""
    if any(f"/{file}".endswith(f"/+{cycle}/Invariants.antt") for file, _ in errors):
        return {}, []
    line = said.get(path, "")
    if GOAL in line:
        left = [goal for goal, _ in NAMED.findall(line) if is_of(goal, path)]
        said = said | {path: line.partition(GOAL)[0] + "; ".join(f"{GOAL}{goal}`" for goal in left)}
    return said, [(file, text) for file, text in errors if f"/+{cycle}/" not in f"/{file}" or is_of(text.lstrip("`"), path)]


def outcome(path, cycle, said, errors):
    """'goal' or 'proof file', as the function fails of its own; 'names' where its proof only misses a name; 'proved'; or None."""
    seen = []
    for it, line in said.items():
        if not is_part(it, path):
            continue
        *folder, name = it.split("::")[1:]
        own = ["/".join([*folder, name]), "/".join([*folder, f"+{name}"])]
        texts = [text for file, text in errors if file.rpartition("/")[0] in own or cycle and f"/+{cycle}/" in f"/{file}"]
        if GOAL in line:
            seen.append("goal")
        elif texts and not line.startswith("proved"):
            seen.append("names" if all(VANISHED.search(text) for text in texts) else "proof file")
        else:
            seen.append("proved" if line.startswith("proved") else None)
    order = [*REFUSED, "names", None]
    return next((it for it in order if it in seen), "proved" if seen and path in said else None)


class Judge:
    """The edits of one crate, and what is known of them."""

    def __init__(self, room, say, only, turn, bad):
        self.room, self.say, self.bad = room, say, bad
        self.functions, self.types = functions(room.source), types(room.source)
        names = judged_in(turn, room.source)
        self.edits = [it for it in edits_of(room.source, self.functions, bad, only) if it.name in names]
        self.reached = reach(room.source, self.functions)
        self.verdicts, self.spoiled, self.goals, self.known, self.made = {}, set(), {}, {}, {}

    def clash(self, one, two, is_strict):
        """Whether two edits exclude each other from one check."""
        if one.copied or two.copied:
            return False
        cycles = is_strict and {it.cycle for it in one.functions} & {it.cycle for it in two.functions} - {""}
        lines = any(a.file == b.file and a.start <= b.end and b.start <= a.end for a in one.hunks for b in two.hunks)
        calls = is_strict and any(
            a in self.reached.get(b, ()) or b in self.reached.get(a, ()) for a in one.functions for b in two.functions
        )
        return bool(one.functions & two.functions or cycles) or lines or calls

    def batches(self, edits, is_strict):
        """The edits in few batches in which none affects another. At first each further edit of a function is put into a copy of it."""
        made = []
        # The path of what a type derives is known only after the prover has named it, so such an edit waits for a later batch.
        known = [it for it in edits if is_strict or all(function.name for function in it.functions)]
        for edit in [*known, *(it for it in edits if it not in known)]:
            for batch in made if edit in known else made[1:]:
                against = [it for it in batch if self.clash(edit, it, is_strict)]
                copy = None if is_strict or not against else self.copy(edit, against, batch)
                if copy or not against:
                    batch.append(copy or edit)
                    break
            else:
                made.append([edit])
        return made

    def copy(self, edit, against, batch):
        """The edit in a copy of its function, if it is kept out of the batch only by edits that change that function and nothing
        outside functions."""
        within = [it for it in against if all(any(function.holds(h) for function in it.functions) for h in it.hunks)]
        if len(within) < len(against) or not all(edit.functions <= it.functions for it in within):
            return None
        count = sum(it.original in edit.functions for it in batch)
        return in_copy(self.room.source, edit, f"{next(iter(edit.functions)).name}_copy{count}")

    def control(self, batch):
        """A function that no edit of the batch changes and that calls no changed function, with a body that means the same. If there
        is none, a right copy of a changed function."""
        changed = set().union(*(it.functions for it in batch))
        fits = [it for it in self.functions if it not in self.spoiled and not (self.reached.get(it, set()) - {it}) & changed]
        fits = [it for it in fits if it.name and not it.cycle and not it.name.isupper()]
        fits = [it for it in fits if "tests" not in it.modules]  # a check doesn't prove them
        apart = [it for it in fits if it not in changed and not any(it.holds(h) for edit in batch for h in edit.hunks)]
        return min(apart, key=self.depth, default=None) or self.copy_of(sorted(set(fits) & changed, key=self.depth))

    def copy_of(self, functions):
        """A right copy of the first of these that can be copied and has no proof of its own, for a control."""
        source = self.room.source
        for it in functions:
            if it.can_be_copied and not it.trait and not calls_itself(source, it) and not any(it.proof_folders(source / "proofs")):
                made, hunk = copied(source, it, f"{it.name}_control")
                self.reached[made] = self.reached.get(it, set())
                if made not in self.spoiled:
                    self.made[made] = hunk
                    return made
        return None

    def depth(self, function):
        """How far a function is from being a control that calls nothing. Less is better. A trait's method may pass the other impl blocks
        of its type. The batch empties their methods, and then the method isn't proved, so other functions come first."""
        return self.hides_calls(function), bool(function.trait), bool(self.reached.get(function)), function.end - function.body

    def hides_calls(self, function):
        """How many signs of hidden calls its body has: operators, and calls through which a trait's method may run."""
        body = blanked((self.room.source / function.file).read_text())[function.body : function.end]
        return bool(UNSEEN.search(body)) + bool(CALL.search(body))

    def with_control(self, batch):
        """The batch with its control. If every function that could be one is changed, the edits of one function wait."""
        control = self.control(batch)
        if control or len(batch) == 1:
            return batch, [], control
        changed = {function for it in batch for function in ({it.original} if it.copied else it.functions)}
        order = sorted(changed, key=lambda it: (self.hides_calls(it), it.file, it.start))
        splits = [[it for it in batch if it.original == f or f in it.functions] for f in order]
        for waiting in [*sorted(splits, key=len), batch[len(batch) // 2 :]]:
            rest = [it for it in batch if it not in waiting]
            if control := self.control(rest):
                break
        return rest, waiting, control

    def emptied(self, batch, control, tries):
        """The functions whose bodies the verdicts on the batch don't need, with the paths that they may have: in the first try all that
        no edit changes, in the second only those that no edited function may call, and later none."""
        if not control or tries > 1:
            return {}
        asked = set().union(*(it.functions for it in batch))
        asked |= {control}.union(*(self.reached.get(it, set()) for it in (asked if tries else ()))) | self.reached.get(control, set())
        inner = {b for a in self.functions for b in self.functions if a.file == b.file and a.start < b.start < a.end}
        return {it: self.ways_to(it) for it in self.functions if it.can_be_emptied and it not in asked | inner}

    def marked(self, batch, right, control, tries):
        """The functions of the batch and the right copies that can be marked, each with the paths that it may have and whether it seems
        to call itself. There are none in later tries, because these may end in a proof."""
        changed = {it: () if edit.copied else edit.hunks for edit in batch for it in edit.functions} | dict.fromkeys(right, ())
        fits = {it: hunks for it, hunks in changed.items() if it.name and not tries}
        kept = {*self.ways_to(control)} if control else set()
        ways = {it: (self.ways_to(it), calls_itself(self.room.source, it, hunks)) for it, hunks in fits.items()}
        return {it: way for it, way in ways.items() if not kept & {*way[0]}}

    def ways_to(self, function):
        """The paths of this function: those by which the prover named it, or else those by which it may."""
        name = self.room.crate.name
        return function.paths(name, self.known) or function.guessed(name, self.types)

    def named(self, asked):
        """The paths of all these functions, or an empty list if one of them has none."""
        found = [self.ways_to(it) for it in asked if it]
        return [path for paths in found for path in paths] if all(found) else []

    def checked(self, batch, right, control, tries):
        """What the check of a batch with its right copies says, and which functions are emptied or are copies in it."""
        hunks = [*(it for edit in batch for it in edit.hunks), *(hunk for _, hunk in right.values())]
        if control:
            hunks.append(self.made.get(control) or Hunk(control.file, control.body, control.body, " let _ = 0u8;"))
        made_right = {made: original for original, (made, _) in right.items()}
        copies = made_right | {made: edit.original for edit in batch if edit.copied for made in edit.functions}
        emptied, marked = self.emptied(batch, control, tries), self.marked(batch, made_right, control, tries)
        only = self.named({control, *made_right}.union(*(it.functions for it in batch)))
        said, errors = self.room.checked(hunks, copies, emptied, marked, only)
        if not said and only and "has no function" in self.room.text:  # a guessed path may be none
            said, errors = self.room.checked(hunks, copies, emptied, marked)
        self.known |= said
        return said, errors, {*emptied, *copies}

    def try_batch(self, batch, control, tries):
        """Checks the batch and settles what it decides. Returns the edits that are still open, how each came out, and whether the
        control was proved."""
        right = self.right_copies(batch)
        said, errors, others = self.checked(batch, right, control, tries)
        name = self.room.crate.name
        path = control and control.path(name, said)
        sound = bool(path) and said[path].startswith("proved")
        self.is_reached = bool(said)
        if said and control and not sound:
            self.spoiled.add(control)
        doubtful = {it for it, (made, _) in right.items() if self.fails(made, said, errors)}
        cycles = Counter(cycle for edit in batch for cycle in {it.cycle for it in edit.functions} - {""})
        shared = {cycle for cycle, count in cycles.items() if count > 1}
        ways = {edit: self.way(edit, said, errors, shared) for edit in batch if sound and edit.original not in doubtful}
        self.goals |= {it.name: self.fallen(it, said, errors, shared) for it in ways if ways[it] in REFUSED}
        if sound:
            self.unowned(batch, others, said, errors)
        decides = {it: REFUSED if it.copied else (*REFUSED, "proved") for it in batch}
        open_ones = [it.copied or it for it in batch if ways.get(it) not in decides[it]]
        decided = {it.name: ways[it] for it in batch if ways.get(it) in decides[it]}
        self.verdicts |= {it: "not refused" if way == "proved" else way for it, way in decided.items()}
        state = "proved" if sound else "NOT proved" if said else "unknown: the prover wasn't reached"
        self.say(f"  {name}: batch of {len(batch)}: {len(batch) - len(open_ones)} judged, control {path or control and control.name} {state}")
        return open_ones, ways, sound

    def right_copies(self, batch):
        """A right copy, and the hunk that places it, of each function that is edited in copies and has a proof of its own or is a
        trait's method. If the right copy fails, the other copies may fail only because they are copies."""
        source = self.room.source
        originals = {it.original for it in batch if it.copied}
        originals = {it for it in originals if it.trait or any(it.proof_folders(source / "proofs"))}
        return {it: copied(source, it, f"{it.name}_copy") for it in originals}

    def fails(self, function, said, errors):
        """Whether this function fails by itself, or the prover says nothing about it."""
        path = function.path(self.room.crate.name, said)
        return not path or outcome(path, function.cycle, said, errors) in (*REFUSED, "names")

    def way(self, edit, said, errors, shared):
        """The strongest outcome of the functions that the edit changes. If the batch has several edits of one cycle, a function of the
        cycle has only the goals and declarations that are named after it."""
        seen = set()
        for it in edit.functions:
            for path in it.paths(self.room.crate.name, said) or [""]:
                own = of_member(path, it.cycle, said, errors) if it.cycle in shared else (said, errors)
                seen.add(outcome(path, it.cycle, *own))
        return next((it for it in (*REFUSED, "names", None) if it in seen), "proved")

    def fallen(self, edit, said, errors, shared):
        """The goals of the edit's functions that weren't proved, and the declarations of their proofs that were refused, except for
        those that miss a name which the edit took away."""
        lines = []
        for it in edit.functions:
            for path in it.paths(self.room.crate.name, said):
                own_said, own_errors = of_member(path, it.cycle, said, errors) if it.cycle in shared else (said, errors)
                lines += [line for other, line in own_said.items() if is_part(other, path)]
                own = "/".join(path.split("::")[1:]).replace("/+", "/")
                for file, text in own_errors:
                    is_own = file.rpartition("/")[0].replace("/+", "/") == own or it.cycle and f"/+{it.cycle}/" in f"/{file}"
                    if is_own and not VANISHED.search(text):
                        lines.append(f"error: {text}")
        return sorted({goal or declaration for line in lines for goal, declaration in NAMED.findall(line)})

    def tell_conditions(self):
        """Prints which bodies fall at no goal of their function's clauses, but only at a condition of a call or at a range."""
        for name, goals in sorted(self.goals.items()):
            if not any(OF_CLAUSE.search(goal) for goal in goals):
                self.say(f"  {self.room.crate.name}/{name}: falls at no clause, but at {', '.join(goals)}")

    def unowned(self, batch, others, said, errors):
        """Reports each function that fails by itself although no edit changes it and it isn't one of the others that may fail."""
        name = self.room.crate.name
        changed = others.union(*(it.functions for it in batch))
        cycles = {it.cycle for it in changed} - {""}
        functions = sorted([*self.functions, *others], key=lambda it: bool(it.name))
        paths = {path: it for it in functions for path in it.paths(name, said)}
        for path in said:
            it = paths.get(path)
            if "fn" in path.split("::") or it in changed or it and it.cycle in cycles:
                continue
            if outcome(path, it.cycle if it else "", said, errors) in REFUSED:
                self.bad.append(f"{name}: {path} fails although no edit changes it: {said[path][:300]}")

    def judge(self, each, further):
        """Judges every edit: in batches, with at most `further` checks for what the first checks leave open, or each edit in a check of
        its own."""
        todo = [([it], 2) for it in self.edits] if each else [(it, 0) for it in self.batches(self.edits, False)]
        while todo:
            batch, tries = todo.pop(0)
            further -= bool(tries) and not each
            if further < 0:
                self.leave(batch)
                continue
            batch, waiting, control = self.with_control(batch)
            if waiting:
                todo.append((waiting, tries))
            open_ones, ways, sound = self.try_batch(batch, control, tries)
            if not open_ones:
                continue
            if len(batch) > 1 and not self.is_reached:  # one edit stops the check of all: halve
                todo += [(batch[: len(batch) // 2], tries), (batch[len(batch) // 2 :], tries)]
            elif not sound and self.is_reached and control and len(self.spoiled) < 6:
                todo.append((batch, tries))
            elif len(batch) > 1:
                again = self.batches(open_ones, True) if tries == 0 else [[it] for it in open_ones]
                todo += [(it, tries + 1) for it in again]
            elif tries < 2:
                todo.append((open_ones, 2))
            else:
                self.give_up(open_ones[0], ways.get(open_ones[0]))

    def leave(self, batch):
        """Reports bodies that may be let through and for which no further check is left."""
        for edit in batch:
            self.verdicts[edit.name] = "not judged"
            self.bad.append(f"{self.room.crate.name}/{edit.name}: NOT JUDGED: no failure yet, and no further check is left: try it alone")

    def look_at_forms(self):
        """Takes back the verdict on each refused body that gives its function another form, if the function's proof has files and no
        right body of that form is proved."""
        source, right = self.room.source, {}
        for edit in self.edits:
            for it in edit.functions if self.verdicts.get(edit.name) in REFUSED else ():
                if it.name and it.written_proof(source / "proofs") and change_of_form(source, it, edit.hunks):
                    right[edit, it] = [Edit("", hunks, frozenset({it})) for hunks in right_bodies(source, it, edit)]
        proved = self.proved_of({it for made in right.values() for it in made})
        for edit, function in sorted((it for it in right if not proved & {*right[it]}), key=lambda it: it[0].name):
            if self.verdicts[edit.name] in REFUSED:
                self.verdicts[edit.name] = "not judged"
                label = f"{function.subject}::{function.name}".removeprefix("::")
                self.bad.append(
                    f"{self.room.crate.name}/{edit.name}: NOT JUDGED: it gives {label} another form, and no right body of that form was proved"
                )

    def proved_of(self, right):
        """Which of these right bodies are proved, or have no goal left where a mark is added to the proof."""
        found, todo = set(), self.batches(sorted(right, key=lambda it: [(h.file, h.start, h.new) for h in it.hunks]), False)
        while todo:
            batch, waiting, control = self.with_control(todo.pop(0))
            todo += [waiting] if waiting else []
            copies = self.right_copies(batch)
            said, errors, _ = self.checked(batch, copies, control, 0)
            path = control and control.path(self.room.crate.name, said)
            if not said and len(batch) > 1:
                broken = self.broken(batch)
                todo += [[it for it in batch if it not in broken]] if broken else [batch[: len(batch) // 2], batch[len(batch) // 2 :]]
            elif path and said[path].startswith("proved"):
                doubtful = {it for it, (made, _) in copies.items() if self.fails(made, said, errors)}
                found |= {it.copied or it for it in batch if it.original not in doubtful and self.holds(it, said, errors)}
            self.say(f"  {self.room.crate.name}: {len(batch)} right bodies of the forms of wrong ones, {len(found)} proved so far")
        return found

    def broken(self, batch):
        """The edits of the batch whose new text has an error that the check found before it reached the prover."""
        found = set()
        for file, line, column in STOPPED.findall(self.room.text):
            text = (self.room.crate / file).read_text()
            at = sum(len(it) + 1 for it in text.split("\n")[: int(line) - 1]) + int(column) - 1
            for it in batch:
                news = [hunk.new for hunk in it.hunks if hunk.file == file]
                starts = [(place.start(), new) for new in news for place in re.finditer(re.escape(new), text)]
                found |= {it} if any(start <= at < start + len(new) for start, new in starts) else set()
        return found

    def holds(self, edit, said, errors):
        """Whether the check names the functions of the edit and none of them fails."""
        return not any(self.fails(it, said, errors) for it in edit.functions)

    def give_up(self, edit, way):
        name = f"{self.room.crate.name}/{edit.name}"
        self.verdicts[edit.name] = "not judged"
        why = "its proof misses a name that the edit took away, which says nothing about the contract" if way == "names" else "no failure of its own"
        lines = [it for it in self.room.text.split("\n") if re.match(r"(\S+: )?error|\./proofs.*error|fn .*(no proof|not proved|could not)|rattle:|rt:", it)]
        self.bad.append(f"{name}: NOT JUDGED: {why}: {' | '.join(lines[:4])[:600]}")
