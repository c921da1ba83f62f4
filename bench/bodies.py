#!/usr/bin/env python3
"""Says of each wrong body of a crate whether the prover refuses it. One check tries many bodies.

    bench/bodies.py CRATE.. [--only WORD] [--each] [--jobs N]    judges the edits of the crates
    bench/bodies.py --goals CRATE..                              also prints the goals at which each edit falls; a goal's name
                                                                 tells the clause, as `returns-clause-looks` does
    bench/bodies.py --times --jobs 1 CRATE..                     also prints which functions took the prover longest
    bench/bodies.py --turn commit CRATE..                        judges the edits of every turn, and an eighth of the others
    bench/bodies.py --beside LOG CRATE..                         judges each crate once the `rt ci` that writes LOG has proved the
                                                                 crates below it, and builds on what that run made of them
    bench/bodies.py --apply                                      makes no check: says whether each edit of each crate can be placed,
                                                                 and whether each public function with clauses has an edit
    bench/bodies.py --test                                       judges a small made-up crate whose verdicts are known

Turns. The name of an edit, with its crate's, says in which of eight turns it is judged. The turn of a commit is the number of commits up
to it, along first parents, modulo eight. So eight commits in a row try all edits. `--turn 3` names a turn. An edit with the line
`turn: every` is judged in each of them, and so is one in must-fail/.

What an edit is. It has the lines `file: src/node/x.rt`, `in: Type::method`, `old: TEXT` and `new: TEXT`, and each text is one line.
The line `in:` names a function (`in: function`, `in: Type::method`, `in: Trait for Type::method`, or `in: From<u8> for ..` where a
type has two such impls), a constant (`in: LIST`), or a type, which means what it derives. The old text occurs exactly once there. An
edit of src/node/x.rt is a file in wrong-bodies/node/x/. Its name is unique in the crate. The edits in must-fail/ are those that
`rt ci` tries too. `rt` reads no line `in:`, so in must-fail/ the function is named after `# in:`, and the old text occurs exactly once
in the whole file.

How it is judged. A body is refused only by a failure of its own: `search` did not prove a goal of that very function, or its own proof
files have an error other than a name that the edit took away. What a function owes rests on the contracts of the functions that it
calls, not on their bodies. So one check can hold edits of many functions: the failure of a function that is called neither causes nor
hides a failure of the function that calls it. The functions that a batch doesn't change get the body `unreachable!()` and a proof
that is refused at once. The functions of one cycle of calls share a proof, and each has the goals that are named after it.

If a function has several edits, the further ones are put into copies of it under other names, with copies of its proof. An unchanged
copy is put beside them and may not fail. The copy of a trait's method becomes a method of the type. It owes only the clauses that are
written at the method, or what the impl block says that a step of an iterator gives. A copy of some functions may mean something else,
as of another method of a trait or of a function in a cycle. Then no batch has two edits of the function.

Each batch has a control: a right body, which must be proved. It is a function that no edit changes, or a copy of a function. What a
batch doesn't decide is tried again in a check without any edit of what the function may call, whose bodies are then as they are. What
is still open is tried alone, with every body in its place. What isn't decided even then is reported as not judged, and that fails. A
body that is let through takes at least one such further check. A crate gets sixteen of them (`--further`); what they leave open is
reported as not judged.

The form of a body. Goals are named after the code, and an answer in proofs/ is used only for the goal of its name. So a function with
proof files may fail only because its body has another form: a branch, a loop or a `?` more or less, other words in a condition, or a
call before another call of its name that an answer cites (`let all = list.len();` gives a call a name of its own). Such a failure
counts only if a right body of that form is proved. The judge makes one. It puts the statement where the change begins into both
branches of the new condition, after a loop that does nothing, or after a `?` that always goes on, or it writes the condition in
another way. A line `right: TEXT` after the line `new:` (`# right:` in must-fail/) gives one instead. These right bodies are tried in
one more check, and only for wrong bodies that would count as refused. If none is proved, the wrong body is reported as not judged.

So a wrong body should keep the form: change a value, an argument or a bound. Put a threshold into no condition, since names of goals
hold its words, but into a value that the next condition, call or `?` reads under its old name. Before `if room < len` don't write
`if len > 3_000 { return Err(AllocError); }`, but `let room = room.min(3_000);`. A body that keeps the form is also refused if it meets
its contract for another reason than the answer gives, such as another number of the same range. The judge looks for no other answer.
"""
import resource
import sys
import tempfile
import threading
import time
from concurrent.futures import ThreadPoolExecutor
from contextlib import nullcontext

from common import TOP, parser
from dearest import table
from judge.public import without_body
from judge.room import Proved, Room, below, needs_of
from judge.sources import edit_files, edits_of, functions
from judge.turns import TURNS, judged_in, turn_of_commit
from judge.verdicts import Judge

MANY = 100  # a crate with more edits takes longest


class Waiting:
    """The crates that are still to be judged. Of those whose libraries are decided, the first is next."""

    def __init__(self, names, proved):
        self.names, self.proved, self.needs, self.alone = names, proved, needs_of(TOP), threading.Lock()

    def __iter__(self):
        """Gives crates to a lane, and waits where none is ready."""
        while self.names:
            with self.alone:
                ready = (it for it in self.names if not self.proved or self.proved.is_decided(below(it, self.needs)))
                name = next(ready, None)
                if name:
                    self.names.remove(name)
            if name:
                yield name
            else:
                time.sleep(2)


def judged(top, name, given, say, proved=None, nice=0):
    """Judges a crate's edits, and returns the verdicts, what is wrong, and the number of checks."""
    bad = []
    with tempfile.TemporaryDirectory(prefix="bodies-") as place:
        room = Room(top, name, place, given.jobs, proved, nice)
        judge = Judge(room, say, given.only, given.turn, bad)
        judge.judge(given.each, given.further)
        judge.look_at_forms()
        bad += [f"{name}/{it}: NOT REFUSED" for it, way in judge.verdicts.items() if way == "not refused"]
        if given.goals:
            say("\n".join(f"  {name}/{it}: falls at {', '.join(judge.goals[it])}" for it in sorted(judge.goals)))
        judge.tell_conditions()
        if given.times:
            say(table(*room.times, 20))
        return judge.verdicts, bad, room.checks


def report(name, given, proved, nice):
    """Judges a crate, prints the result, and returns what is wrong."""
    crate = TOP / "crates" / name
    if edit_files(crate) and not judged_in(given.turn, crate):
        print(f"{name}: none of its {len(edit_files(crate))} wrong bodies has this turn", flush=True)
        return []
    if proved and not proved.has(below(name, needs_of(TOP))):
        line = f"{name}: not judged: a crate below it isn't proved"
        print(line, flush=True)
        return [line]
    began = time.monotonic()
    verdicts, bad, checks = judged(TOP, name, given, lambda text: print(text, flush=True), proved, nice)
    ways = [*verdicts.values()]
    counts = f"{ways.count('goal')} at a goal, {ways.count('proof file')} in a proof file"
    bad.append(
        f"{name}: {len(ways)} wrong bodies: refused {counts}; {ways.count('not refused')} not refused, "
        f"{ways.count('not judged')} not judged; {checks} checks, {time.monotonic() - began:.0f} seconds"
    )
    print("\n".join(bad), flush=True)
    return bad[:-1] if verdicts else [f"{name}: it has no wrong body"]


def judge_all(given):
    """Judges the crates, of those that are ready the ones with the most edits first, and returns whether all is well.

    Crates with many edits take longest, so the others run at a lower priority. Otherwise they would still run after all others."""
    edits = {it: len(edit_files(TOP / "crates" / it)) for it in given.crates}
    if given.how:
        count = sum(len(judged_in(given.turn, TOP / "crates" / it)) for it in given.crates)
        print(f"{given.how}: {count} of {sum(edits.values())} wrong bodies are judged, with those of every turn", flush=True)
    names = sorted(edits, key=lambda it: -edits[it])
    with (tempfile.TemporaryDirectory(prefix="proved-") as place, ThreadPoolExecutor(given.lanes) as pool,
          Proved(given.beside, place) if given.beside else nullcontext() as proved):
        waiting = Waiting(names, proved)
        lane = lambda _: [report(name, given, proved, 0 if edits[name] > MANY else 9) for name in waiting]
        bad = [lines for some in pool.map(lane, range(given.lanes)) for lines in some]
    used = resource.getrusage(resource.RUSAGE_CHILDREN)
    for line in [line for lines in bad for line in lines]:
        print(f"not well: {line}")
    ill = sum(bool(it) for it in bad)
    print(f"wrong bodies: {used.ru_utime + used.ru_stime:.0f} processor seconds, {ill} of {len(bad)} crates not well")
    return bool(bad) and not ill


def apply_all():
    """Says whether each edit of each crate can be placed, and whether each public function with clauses is changed by one."""
    bad, missing, count = [], [], 0
    for crate in sorted((TOP / "crates").iterdir()):
        all_functions = functions(crate)
        edits = edits_of(crate, all_functions, bad)
        count += len(edits)
        if edits:
            missing += without_body(crate, all_functions, edits)
    print("\n".join([*bad, *missing, f"{count} wrong bodies can be placed, {len(bad)} can't; {len(missing)} public functions have none"]))
    return not bad and not missing


def main():
    words = parser(__doc__, "--apply", "--each", "--goals", "--times", "--test")
    words.add_argument("crates", nargs="*")
    words.add_argument("--only", default="", help="judge only the edits with this word in their names; commas separate several words")
    words.add_argument("--turn", metavar="commit|N", help="judge the edits of every turn, and of the others those of this turn")
    words.add_argument("--beside", metavar="LOG", default="", help="build on what the run of rt ci with this log proves")
    words.add_argument("--jobs", type=int, default=2, help="how many jobs a check gets at most; it gets one if no processor is idle")
    words.add_argument("--further", type=int, default=16, help="how many further checks a crate gets for what the first ones leave open")
    words.add_argument("--lanes", type=int, default=1, help="how many crates are judged at a time")
    given = words.parse_args()
    if given.turn not in (None, "commit", *map(str, range(TURNS))):
        words.error(f"--turn is commit or a number below {TURNS}, not {given.turn}")
    if given.turn == "commit":
        given.turn, given.how = turn_of_commit()
    else:
        given.turn, given.how = given.turn and int(given.turn), given.turn and f"turn {given.turn} of {TURNS}"
    if given.apply:
        return 0 if apply_all() else 1
    if given.test:
        from judge.test import tested

        return 0 if tested(given) else 1
    return 0 if judge_all(given) else 1


if __name__ == "__main__":
    sys.exit(main())
