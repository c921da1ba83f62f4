"""The turns in which edits are judged."""
import zlib

from common import TOP, ran
from judge.sources import edit_files, is_in_every_turn

TURNS = 8  # in how many turns the other edits than those of every turn are judged


def turn_of(crate, name):
    """The turn in which an edit is judged that isn't judged in every turn."""
    return zlib.crc32(f"{crate}/{name}".encode()) % TURNS


def judged_in(turn, crate):
    """The names of the edits of a crate that are judged in this turn. Without one all are."""
    return {it.stem for it in edit_files(crate) if turn is None or is_in_every_turn(it) or turn_of(crate.name, it.stem) == turn}


def turn_of_commit(top=TOP):
    """The turn of the commit that is checked out, and how it was found. Where there is no commit, there is no turn."""

    def told(*words):
        done = ran(["git", *words], cwd=top, text=True)
        return "" if done.returncode else done.stdout.strip()

    commit = told("rev-parse", "HEAD")
    if not commit:
        return None, "there is no commit here, so all wrong bodies are judged"
    if told("rev-parse", "--is-shallow-repository") != "false":
        turn = int(commit, 16) % TURNS
        why = "from the commit's own name, since this clone lacks history: eight commits in a row may leave wrong bodies out"
        return turn, f"turn {turn} of {TURNS}, {why}"
    count = int(told("rev-list", "--count", "--first-parent", "HEAD"))
    return count % TURNS, f"turn {count % TURNS} of {TURNS}, as {count} commits lead here"
