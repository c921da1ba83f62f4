"""The table of the syntax, as bench/checks/grammar_corpus.py and bench/grammar_crate.py read it. Its head says how it is written.

What follows an opened frame in a row is done by a state of its own, so that a row takes a token at most once and opens at most one
frame.
"""
import re
import sys
from dataclasses import dataclass, field

from common import TOP

TABLE = TOP / "crates/grammar.table"
START = "document"  # the state of the outermost frame
MODES = ("markup", "code", "math", "operator", "argument")
LINE_FEEDS = ("go", "stop", "context", "par", "column")
UNIQUE = ("argument", "parameter", "binding", "key", "sink")
# The words of an action, the first one counted. No number: as many as its message has.
ACTIONS = {
    "eat": (1, 2), "unexpected": (1,), "mistake": (), "enter": (2,), "around": (2, 3), "->": (2,), "return": (1,), "wrap": (2,), "flush": (1,),
    "up": (1,), "down": (1,), "expected": (), "wrong": (), "delimit": (3,), "unclosed": (1,), "retag": (2,), "unique": (2,),
}  # fmt: skip
MOVES = ("->", "enter", "around")
TAKES = ("eat", "unexpected", "mistake")
# How many words a condition of a row has, and a test of a map. No number: as many as there are kinds.
CONDITIONS = {"newline": 1, "direct": 1, "empty": 1, "is": 2, "upto": 2, "only": 0, "last": 0}
TESTS = {"alone": 1}


@dataclass
class TokenClass:
    name: str
    sign: str
    what: str


@dataclass(frozen=True)
class Call:
    """A frame that a row opens."""

    state: str
    enters: bool = False
    number: int = 0


@dataclass(frozen=True)
class Row:
    """A row as the machine does it: actions, what becomes of the token, actions, and a frame that opens. `line` is its line."""

    condition: tuple
    before: tuple
    take: tuple
    after: tuple
    call: Call | None
    line: int = field(compare=False)


@dataclass(frozen=True)
class Change:
    """A row of a map: the kinds and the test of a node, and what it becomes: a kind with maps for its children, or an error."""

    kinds: tuple
    test: tuple
    kind: str
    first: str
    others: str
    error: tuple
    line: int


@dataclass
class State:
    name: str
    words: list
    base: str
    what: str
    part: str
    rows: list = field(default_factory=list)  # classes, condition, actions as they are written, and the line
    is_rest: bool = False
    written: list = field(default_factory=list)  # signs, condition and actions of each row, as the table has them

    def word_of(self, words):
        return next((word for word in self.words if word in words), None)

    @property
    def mode(self):
        """How the lexer reads. A rest of a row doesn't look at the token."""
        return None if self.is_rest else self.word_of(MODES) or "markup"

    @property
    def newline(self):
        return self.word_of(LINE_FEEDS)

    @property
    def is_deep(self):
        return "deep" in self.words


@dataclass
class Part:
    name: str
    what: str
    text: list = field(default_factory=list)


@dataclass
class Map:
    name: str
    base: str
    what: str
    part: str
    rows: list = field(default_factory=list)


def kinds_of(text):
    """The names of all kinds that crates/kinds.txt has, each with its classes and how messages name it."""
    rows = [re.split(r" *\| *", line.strip()) for line in text.splitlines() if re.match(r" *\d+ \| ", line)]
    return {row[1]: (row[3].split(), row[5]) for row in rows}


class Table:
    """What a table says."""

    def __init__(self, path, kinds=None):
        self.path = path
        self.kinds = kinds or kinds_of((TOP / "crates/kinds.txt").read_text())
        self.classes, self.sets, self.states, self.maps, self.here = [], {}, {}, {}, None
        self.parts = {}
        self.each(enumerate(path.read_text().splitlines(), 1), lambda pair: self.read(*pair), lambda pair: pair[0])
        self.signs = {token.sign: token.name for token in self.classes}
        self.each(list(self.states.values()), self.settle, lambda state: f"state {state.name}")
        self.each(self.maps.values(), self.settle_map, lambda it: f"retag {it.name}")
        named = {START} | {a[-1] for s in self.states.values() for row in s.rows for a in self.calls(row[2])}
        self.frames = [state for state in self.states.values() if state.name in named]

    def each(self, items, act, where):
        for item in items:
            try:
                act(item)
            except ValueError as error:
                sys.exit(f"{self.path.relative_to(TOP)}:{where(item)}: {error}")

    # Reading lines.

    @property
    def part(self):
        return next(reversed(self.parts), "")

    def read(self, at, line):
        if line.startswith(" "):
            self.inner(at, line.strip())
        elif line and not line.startswith("#"):
            word, _, rest = line.partition(" ")
            head, _, what = rest.partition(": ")
            head, _, base = head.partition(" < ")
            name, *words = head.split()
            if word == "class":
                self.classes.append(TokenClass(name, words[0], what))
            elif word == "part":
                self.here = self.new(self.parts, name, Part(name, what))
            elif word == "set":
                self.here = self.new(self.sets, name, [])
            elif word == "state":
                if unknown := set(words) - {"deep", *MODES, *LINE_FEEDS}:
                    raise ValueError(f"no such word: {' '.join(unknown)}")
                self.here = self.new(self.states, name, State(name, words, base, what, self.part))
            elif word == "retag":
                self.here = self.new(self.maps, name, Map(name, base, what, self.part))
            else:
                raise ValueError(f"a line begins with class, set, state or retag, and not with {word}")

    def new(self, known, name, value):
        if name in known:
            raise ValueError(f"{name} stands twice")
        known[name] = value
        return value

    def inner(self, at, line):
        """A line of what stands last: of a part, of a set, of a state or of a map."""
        if isinstance(self.here, Part):
            self.here.text.append(line)
            return
        if isinstance(self.here, list):
            self.here += self.members(line.split())
            return
        left, bar, right = (part.strip() for part in line.partition(" | "))
        if self.here is None or not bar:
            raise ValueError("a row stands under a state or a map, and has ` | ` before its actions")
        heads, _, condition = left.partition(" if ")
        words = CONDITIONS if isinstance(self.here, State) else TESTS
        condition = tuple(condition.split())
        if condition and len(condition) != (words.get(condition[0]) or len(condition)) or condition[:1] not in [(), *((w,) for w in words)]:
            raise ValueError(f"no such condition: {' '.join(condition)}")
        if isinstance(self.here, State):
            actions = [a.split() for a in right.split(";")]
            self.here.rows.append([self.members(heads.split()), condition, actions, at])
            self.here.written.append((heads.split(), condition, actions))
        else:
            self.here.rows.append(self.change(heads.split(), condition, right.split(), at))

    def members(self, signs):
        """The signs that some words stand for."""
        out = []
        for sign in signs:
            if sign.startswith("@"):
                if sign[1:] not in self.sets:
                    raise ValueError(f"no such set: {sign}")
                out += self.sets[sign[1:]]
            else:
                out.append(sign)
        return out

    def change(self, kinds, test, words, line):
        if words[0] in ("wrong", "expected"):
            return Change(tuple(kinds), test, "", "", "", (words[0], " ".join(words[1:])), line)
        kind, *maps = words
        first = maps[1] if maps[:1] == ["first"] else ""
        others = maps[-1] if len(maps) == (3 if first else 1) else ""
        if len(maps) != 2 * bool(first) + bool(others):
            raise ValueError(f"a change has a kind and at most two maps: {' '.join(words)}")
        return Change(tuple(kinds), test, "" if kind == "=" else kind, first, others, (), line)

    # Checks, and the cut of rows where they open a frame.

    def known_kinds(self, kinds):
        if unknown := set(kinds) - self.kinds.keys():
            raise ValueError(f"no such kind: {' '.join(unknown)}")

    def settle(self, state):
        rests = []
        for row in state.rows:
            if unknown := set(row[0]) - self.signs.keys() - {"any"}:
                raise ValueError(f"no such class: {' '.join(unknown)}")
            if row[1][:1] in [("only",), ("last",)]:
                self.known_kinds(row[1][1:])
            row[2] = self.cut(row[2], row[3], rests)
        if state.base and state.base not in self.states:
            raise ValueError(f"no such base: {state.base}")
        what = f"the rest of a row of `{state.name}`, once the frame that it opened has returned"
        for i, (actions, line) in enumerate(rests, 1):
            name = f"{state.name}.rest{i if len(rests) > 1 else ''}"
            rest = State(name, [], "", what, state.part, [[["any"], (), actions, line]], True)
            self.states[name] = rest
            self.settle(rest)
            for row in state.rows:
                row[2] = [["->", name] if action == ["rest", i] else action for action in row[2]]

    def cut(self, actions, line, rests):
        """The actions up to the one that opens a frame, and that one."""
        for i, action in enumerate(actions):
            if not self.opens(action):
                continue
            rest = actions[i + 1 :]
            if not rest:
                break
            if rest[-1][0] not in ("->", "return"):
                raise ValueError(f"what follows `{' '.join(action)}` ends in `->` or `return`")
            if len(rest) == 1 and rest[0][0] == "->":
                return [*actions[:i], rest[0], action]
            rests.append((rest, line))
            return [*actions[:i], ["rest", len(rests)], action]
        return list(actions)

    def opens(self, action):
        """Whether an action opens a frame. Fails if it isn't one."""
        word, said = action[0], " ".join(action)
        if word not in ACTIONS:
            if word not in self.states or len(action) > 2 or not all(number.isdigit() for number in action[1:]):
                raise ValueError(f"no such action or state: {said}")
            return True
        if ACTIONS[word] and len(action) not in ACTIONS[word] or len(action) == 1 and not ACTIONS[word]:
            raise ValueError(f"`{said}` has {len(action) - 1} words behind the first")
        if word in ("wrap", "eat", "delimit"):
            self.known_kinds(action[1:])
        known = {"->": self.states, "enter": self.states, "around": self.states, "retag": self.maps, "unique": UNIQUE}
        if word == "around" and not all(number.isdigit() for number in action[2:]):
            raise ValueError(f"`{said}` has no number behind the state")
        if word in known and action[1] not in known[word]:
            raise ValueError(f"no such {'state' if word in MOVES else word}: {action[1]}")
        return word == "enter"

    def calls(self, actions):
        """The states that some actions name, each in a list."""
        return [action[1:2] if action[0] in MOVES else action[:1] for action in actions if action[0] in MOVES or action[0] not in ACTIONS]

    def settle_map(self, it):
        if it.base and it.base not in self.maps:
            raise ValueError(f"no such base: {it.base}")
        for row in it.rows:
            self.known_kinds(set(row.kinds) - {"expr"})
            self.known_kinds({row.kind} - {""})
            if unknown := {row.first, row.others} - self.maps.keys() - {""}:
                raise ValueError(f"no such map: {' '.join(unknown)}")

    # What the machine does.

    def compiled(self, condition, actions, line):
        before, take, after, call = [], (), [], None
        for action in actions:
            if action[0] in MOVES and ("return",) in (*before, *after):
                raise ValueError(f"`{action[0]}` stands behind `return`: the frame that the row returns to goes on as its own row says")
            if action[0] in TAKES:
                if take:
                    raise ValueError("a row takes a token once")
                take = (action[0], " ".join(action[1:])) if action[1:] else (action[0],)
            elif action[0] == "enter":
                call = Call(action[1], True)
            elif action[0] not in ACTIONS:
                call = Call(action[0], False, int(action[1]) if action[1:] else 0)
            else:
                said = (action[0], " ".join(action[1:])) if action[1:] else (action[0],)
                (after if take else before).append(said)
        return Row(condition, tuple(before), take, tuple(after), call, line)

    def rows_of(self, state, token_class):
        """All rows of a state and of its bases for a class."""
        while state:
            for signs, condition, actions, line in state.rows:
                if signs == ["any"] or token_class in (self.signs[sign] for sign in signs):
                    yield self.compiled(condition, actions, line)
            state = self.states.get(state.base)

    def rows_for(self, state, token_class):
        """Those rows up to the first one that always fits."""
        rows = []
        for row in self.rows_of(state, token_class):
            rows.append(row)
            if not row.condition:
                break
        return tuple(rows)

    def changes(self, name):
        """The rows of a map and of its bases."""
        while name:
            yield from self.maps[name].rows
            name = self.maps[name].base

    def is_of(self, kind, kinds):
        """Whether a kind is one of those that a row of a map has."""
        return kind in kinds or "expr" in kinds and "expr" in self.kinds[kind][0]
