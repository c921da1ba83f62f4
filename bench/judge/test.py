"""A small made-up crate with right and wrong bodies, on which each verdict of the judge is known, and a test of the judge's turns."""
import subprocess
import tempfile
from collections import Counter
from pathlib import Path

from bodies import judged
from common import TOP
from judge.sources import edit_files, is_in_every_turn
from judge.turns import TURNS, judged_in, turn_of, turn_of_commit

LIB = """#![tactic(auto)]

ghost use Rattle.made_up.specs.Same.{same};
ghost use Rattle.std.specs.Prelude.{◌≡◌, ◌↔◌, ◌%◌, IsTrue, Some};

pub struct Dot;

pub struct OtherDot;

impl Dot {
    pub fn size(&self) -> u8
        ensures { result ≡ 5 }
    {
        let dot = 5;
        dot
    }
}

impl OtherDot {
    pub fn size(&self) -> u8
        ensures { result ≡ 6 }
    {
        let other = 6;
        other
    }
}

pub trait Counted {
    fn count(&self) -> u8;
}

impl Counted for Dot {
    fn count(&self) -> u8
        ensures seven { result ≡ 7 }
    {
        let seven = 7;
        seven
    }
}

#[derive(Drop)]
pub struct Fives;

impl Iterator for Fives {
    type Item = u8;

    ghost next_gives = { λ _ given _. given ≡ Some 5 };

    fn next(&mut self) -> Option<Self::Item> {
        let five = 5;
        Some(five)
    }
}

pub fn one() -> u8
    ensures { result ≡ 1 }
{
    let unit = 1;
    unit
}

pub fn two() -> u8
    ensures { result ≡ 2 }
{
    one() + one()
}

pub fn three() -> u8
    ensures { result ≡ 3 }
{
    two() + one()
}

pub fn lower() -> u8
    ensures { result ≡ 3 }
{
    let it = 3;
    it
}

pub fn upper() -> u8
    ensures { result ≡ 4 }
{
    let it = 4;
    it
}

pub fn loose() -> u8 {
    let any = 7;
    any
}

pub fn answered() -> u8
    ensures { result ≡ 9 }
{
    let nine = 9;
    nine + 0
}

pub fn kept() -> u8
    ensures { result ≡ 10 }
{
    let ten = 10;
    ten
}

pub fn passed(n: u8, most: u8) -> u8
    ensures { result ≡ same n }
{
    let it = n;
    it
}

pub fn cited(n: u8) -> u8
    ensures { result ≡ same 1 }
{
    let before = n;
    let _ = before;
    one()
}

pub fn down(n: u8) -> u8
    ensures { result ≡ 0 }
{
    if n == 0 { 0 } else { down(n - 1) }
}

pub fn renamed(is_high: bool) -> u8
    ensures { result ≡ 8 }
{
    let _ = is_high;
    8 + 0
}

#[cycle(parity)]
pub fn is_even(n: u8) -> bool
    ensures { IsTrue result ↔ (n % 2 ≡ 0) }
{
    if n == 0 { true } else { is_odd(n - 1) }
}

#[cycle(parity)]
pub fn is_odd(n: u8) -> bool
    ensures { IsTrue result ↔ (n % 2 ≡ 1) }
{
    if n == 0 { false } else { is_even(n - 1) }
}

#[cycle(turns)]
pub fn ping(n: u8) -> u8
    ensures { result ≡ 1 }
{
    if n == 0 { 1 } else { pong(n - 1) }
}

#[cycle(turns)]
pub fn pong(n: u8) -> u8
    ensures { result ≡ 1 }
{
    if n == 0 { 1 } else { ping(n - 1) }
}
"""

ANSWER = """use Rattle.std.proofs.Common.{refl}
use Rattle.made_up.proofs.NAME.Goals as goal

pub returns : goal.returns
returns c = refl
"""

PASSED = """use Rattle.made_up.specs.Same.{same}
use Rattle.std.proofs.Common.{refl}
use Rattle.made_up.proofs.passed.Goals as goal

pub returns : goal.returns
unfolding same
returns c = refl
"""

CITED = """use Rattle.made_up.specs.Same.{same}
use Rattle.made_up.proofs.cited.Goals as goal

pub returns : goal.returns
unfolding same
returns c = c.one.ensures
"""

# A definition that the prover doesn't look into: what cites it wants an answer.
SAME = """-- the number itself
use Rattle.std.specs.Prelude.{ℕ}

unfoldable pub same : ℕ → ℕ
same n = n
"""

MEASURES = """use Rattle.made_up.proofs.+parity.Given as goal

abbrev pub decreases-is_even : goal.decreases-is_even
decreases-is_even l = l.n

abbrev pub decreases-is_odd : goal.decreases-is_odd
decreases-is_odd l = l.n
"""

PING_MEASURE = """use Rattle.made_up.proofs.+turns.Given as goal

abbrev pub decreases-ping : goal.decreases-ping
decreases-ping l = l.n

abbrev pub decreases-pong : goal.decreases-pong
decreases-pong l = l.n
"""

MEASURE = """use Rattle.made_up.proofs.+down.Given as goal

abbrev pub decreases-down : goal.decreases-down
decreases-down l = l.n
"""

FILES = {
    "src/lib.rt": LIB,
    "specs/Lib.antt": "pub mod Same\n",
    "specs/Same.antt": SAME,
    "proofs/Lib.antt": "",
    "proofs/passed/Answers.antt": PASSED,
    "proofs/cited/Answers.antt": CITED,
    "proofs/answered/Answers.antt": ANSWER.replace("NAME", "answered"),
    "proofs/kept/Answers.antt": ANSWER.replace("NAME", "kept"),
    "proofs/renamed/Answers.antt": ANSWER.replace("NAME", "renamed"),
    "proofs/+parity/Invariants.antt": MEASURES,
    "proofs/+turns/Invariants.antt": PING_MEASURE,
    "proofs/+down/Invariants.antt": MEASURE,
}

# name: function, old text, new text, verdict
EDITS = {
    "a_wrong_callee": ("one", "let unit = 1;", "let unit = 0;", "goal"),
    "a_right_caller_of_a_wrong_one": ("two", "one() + one()", "let unit = one(); unit + unit", "not refused"),
    "a_wrong_caller_of_a_wrong_one": ("three", "two() + one()", "two() + two()", "goal"),
    "an_edit": ("lower", "let it = 3;", "let it = 4;", "goal"),
    "its_inverse_elsewhere": ("upper", "let it = 4;", "let it = 3;", "goal"),
    "a_right_body_of_a_like_name": ("Dot::size", "let dot = 5;", "let dot = 2 + 3;", "not refused"),
    "a_wrong_body_of_a_like_name": ("OtherDot::size", "let other = 6;", "let other = 5;", "goal"),
    "what_no_contract_forbids": ("loose", "let any = 7;", "let any = 8;", "not refused"),
    "a_wrong_answer_by_a_proof_file": ("answered", "let nine = 9;", "let nine = 8;", "proof file"),
    "another_wrong_answer_by_a_proof_file": ("answered", "nine + 0", "nine - 1", "proof file"),
    "a_right_answer_by_a_proof_file": ("kept", "let ten = 10;", "let ten = 5 + 5;", "not refused"),
    "another_right_answer_by_a_proof_file": ("kept", "let ten = 10;", "let ten = 2 + 8;", "not refused"),
    "a_wrong_body_that_calls_itself": ("down", "{ 0 }", "{ 1 }", "goal"),
    "a_right_body_without_the_goal_of_a_proof": ("renamed", "8 + 0", "if is_high { 8 } else { 8 }", "not judged"),
    "a_right_body_with_a_branch": ("passed", "let it = n;", "let it = if n > 9 { n } else { n };", "not judged"),
    "a_right_body_with_a_way_out": ("passed", "let it = n;", "let it = n; if it > 9 { return it; }", "not judged"),
    "a_wrong_body_with_a_branch": ("passed", "let it = n;", "let it = if n > 9 { 9 } else { n };", "not judged"),
    "a_wrong_body_with_a_loop": ("passed", "let it = n;", "for _ in 0..most {} let it = most;", "proof file"),
    "a_right_body_in_which_a_call_takes_a_name": ("cited", "let before = n;", "let before = n; one();", "not judged"),
    "a_right_body_in_which_a_call_has_its_own": ("cited", "let before = n;", "let before = one();", "not refused"),
    "a_right_method_of_a_trait": ("Counted for Dot::count", "let seven = 7;", "let seven = 3 + 4;", "not refused"),
    "a_wrong_method_of_a_trait": ("Counted for Dot::count", "let seven = 7;", "let seven = 6;", "goal"),
    "a_right_step": ("Iterator for Fives::next", "let five = 5;", "let five = 2 + 3;", "not refused"),
    "a_step_that_gives_another_item": ("Iterator for Fives::next", "let five = 5;", "let five = 6;", "goal"),
    "a_step_that_gives_none": ("Iterator for Fives::next", "Some(five)", "None", "goal"),
    "a_wrong_member_of_a_cycle": ("is_even", "{ true }", "{ false }", "goal"),
    "a_right_member_of_a_cycle": ("is_odd", "{ false }", "{ n != 0 }", "not refused"),
    "a_wrong_member_beside_another": ("ping", "{ 1 }", "{ 2 }", "goal"),
    "another_wrong_member": ("pong", "{ 1 }", "{ 3 }", "goal"),
    "two_of_like_names_told_apart": ("OtherDot::size", "let other = 6;", "let other = 5 + 2;", "goal"),
}

# Of two bodies one stops the check of both.
STOPPING = {
    "what_compiles": ("lower", "let it = 3;", "let it = 4;", "goal"),
    "what_does_not_compile": ("loose", "let any = 7;", "let any = nothing;", "not judged"),
}

# Of bodies that are let through, one further check tells one.
LET_THROUGH = {
    "another_value": ("loose", "let any = 7;", "let any = 8;", "not refused"),
    "one_value_more": ("loose", "let any = 7;", "let any = 9;", "not judged"),
    "yet_another_value": ("loose", "let any = 7;", "let any = 10;", "not judged"),
}


def written(top, edits):
    """The made-up repository below this folder, with these edits."""
    crate = top / "crates" / "made_up"
    for name, text in FILES.items():
        (crate / name).parent.mkdir(parents=True, exist_ok=True)
        (crate / name).write_text(text)
    (crate / "wrong-bodies/lib").mkdir(parents=True)
    for name, (function, old, new, _) in edits.items():
        text = f"file: src/lib.rt\nin: {function}\nold: {old}\nnew: {new}\n"
        (crate / "wrong-bodies/lib" / f"{name}.edit").write_text(text)
    (top / "crates.txt").write_text("made_up:\n")
    (top / "HANDLES").write_text((TOP / "HANDLES").read_text())


def turns_of_edits():
    """What is wrong with the turns of the repository's edits: each is judged in one of them, and those of every turn in all."""
    wrong = []
    # The checksum of `made_up/an_edit` in the trailer that gzip writes is 676615665.
    if turn_of("made_up", "an_edit") != 676615665 % TURNS:
        wrong.append("the turn of an edit isn't the CRC-32 of its name, modulo the number of turns")
    for crate in sorted((TOP / "crates").iterdir()):
        counts = Counter(name for turn in range(TURNS) for name in judged_in(turn, crate))
        known = {it.stem: TURNS if is_in_every_turn(it) else 1 for it in edit_files(crate)}
        wrong += [f"{crate.name}/{it}: judged in {counts[it]} turns" for it in sorted(known | counts) if counts[it] != known.get(it)]
        if judged_in(None, crate) != known.keys():
            wrong.append(f"{crate.name}: without a turn not all are judged")
    return wrong


def turns_of_commits():
    """What is wrong with the turns of eight commits in a row, of a clone without history, and of a folder without any commit."""
    wrong = []
    with tempfile.TemporaryDirectory(prefix="turns-") as place:
        if turn_of_commit(place)[0] is not None:
            wrong.append("a folder without a commit has a turn")
        git = ["git", "-c", "user.name=a", "-c", "user.email=a", "-C", place]
        subprocess.run([*git, "init", "-q"], check=True)
        found = []
        for _ in range(TURNS):
            subprocess.run([*git, "commit", "-q", "--allow-empty", "-m", "one more"], check=True)
            found.append(turn_of_commit(place)[0])
        if sorted(found) != [*range(TURNS)]:
            wrong.append(f"{TURNS} commits in a row have the turns {found}")
        subprocess.run(["git", "clone", "-q", "--depth", "1", f"file://{place}", f"{place}/short"], check=True)
        turn, how = turn_of_commit(f"{place}/short")
        if turn not in range(TURNS) or "lacks history" not in how:
            wrong.append(f"a clone without history has {how}")
    return wrong


def tested(given):
    """Judges the made-up crate, and returns whether each verdict is the known one and the turns are right."""
    count, all_checks, wrong = 0, 0, [*turns_of_edits(), *turns_of_commits()]
    print(f"the judge's turns: {len(wrong)} faults", flush=True)
    for edits, further in ((EDITS, given.further), (STOPPING, given.further), (LET_THROUGH, 1)):
        given.further = further
        with tempfile.TemporaryDirectory(prefix="made-up-") as place:
            written(Path(place), edits)
            verdicts, bad, checks = judged(Path(place), "made_up", given, lambda text: print(text, flush=True))
        known = {name: verdict for name, (_, _, _, verdict) in edits.items()}
        wrong += [f"{it}: {verdicts.get(it)}, and not {known.get(it)}" for it in known | verdicts if verdicts.get(it) != known.get(it)]
        wrong += [f"told against the crate: {it}" for it in bad if "NOT REFUSED" not in it and "NOT JUDGED" not in it]
        count, all_checks = count + len(known), all_checks + checks
    print("\n".join([*wrong, f"the judge: {len(wrong)} wrong of {count} known verdicts, {all_checks} checks"]))
    return not wrong
