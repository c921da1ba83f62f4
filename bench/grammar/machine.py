"""A plain machine for the rows of a table, for bench/checks/grammar_corpus.py. Nothing is taken from the library's machine."""
from dataclasses import dataclass

from grammar.lexer import Lexer
from grammar.nodes import Node, error
from grammar.table import START, Row, Table
from grammar.unique import unique

MOST_DEEP, MOST_LOOKS, MOST_LEVELS = 64, 1024, 255
LEAST_LEVELS = 2  # of a frame: the node of a token has at most two
NO_LINE_FEED = ("else", "Dot", "Field")


@dataclass
class Frame:
    state: str
    start: int
    number: int
    newline: str
    column: int
    room: int  # how many deep frames may open in it
    levels: int = LEAST_LEVELS  # how many levels its nodes may have


class Rows:
    """The rows of a table, for each state and class. It leaves one out if it is told to."""

    def __init__(self, table: Table):
        self.table, self.left_out = table, 0
        self.cells = {}

    def of(self, state, token_class):
        key = state, token_class
        if key not in self.cells:
            self.cells[key] = tuple(self.table.rows_of(self.table.states[state], token_class))
        if not self.left_out:
            return self.cells[key]
        return [row for row in self.cells[key] if row.line != self.left_out]

    def changes(self, name):
        return (row for row in self.table.changes(name) if row.line != self.left_out)


class Refused(Exception):
    """No row takes a token, or too many frames are open."""


class Machine:
    """It parses a text. `nodes` are all nodes so far, those of the outermost frame first. A strict one refuses no token."""

    def __init__(self, rows: Rows, lexer: Lexer, is_strict=False):
        self.rows, self.table, self.lexer = rows, rows.table, lexer
        self.nodes = []
        self.frames = [Frame(START, 0, 0, "go", 0, MOST_DEEP)]
        self.judge = 0  # the index of the frame that white space before the next token goes to, and whose rule for newlines counts
        self.missing = ""  # what is expected, before it is made an error
        self.at = 0
        self.mode = self.gap = self.token = None
        self.is_flushed = self.is_done = False
        self.looks, self.used = 0, set()  # how often a token or a node was looked at, and the lines of the rows that fitted
        self.is_strict, self.most_looks = is_strict, 100 if is_strict else MOST_LOOKS

    def run(self):
        while not self.is_done:
            self.take()
        return self.nodes

    def take(self):
        """Looks at the next token until a row takes it."""
        for _ in range(self.most_looks):
            row = self.look()
            if row is None:
                break
            if row.call and self.table.states[row.call.state].is_deep and self.frames[-1].room == 0:
                return self.refuse("too many open delimiters")
            self.do(row)
            if row.take:
                return None
        return self.refuse("unexpected token")

    def refuse(self, message):
        """Makes the next token an error. Where only an operator was looked for, it is read first."""
        if self.is_strict:
            raise Refused(message)
        if self.token.token_class == "Other":
            self.token = self.lexer.token(self.gap.start, "code")
        self.put(error(self.text(), message))

    def look(self):
        self.looks += 1
        top = self.frames[-1]
        self.read(self.table.states[top.state].mode)
        at_end = self.token.token_class == "End"
        if len(self.frames) == 1 and (at_end or self.gap.newline):
            self.settle()
        seen = "End" if not at_end and self.gap.newline and self.stops(self.frames[self.judge]) else self.token.token_class
        row = next((row for row in self.rows.of(top.state, seen) if self.holds(row.condition)), None)
        if row:
            self.used.add(row.line)
        return row

    def read(self, mode):
        """Reads the next token in this mode, unless it was. In frames that opened since the last token, the white space stays."""
        if self.token is None:
            self.gap = self.lexer.gap(self.at, mode or "code")
            self.is_flushed = False
        elif mode in (None, self.mode):
            return
        elif self.judge == len(self.frames) - 1:
            self.gap = self.reread(mode)
        self.mode = mode or "code"
        self.token = self.lexer.token(self.gap.start, self.mode)

    def reread(self, mode):
        old, new = self.gap, self.lexer.gap(self.at, mode)
        if self.is_flushed:
            new.newline, new.parbreak = new.newline or old.newline, new.parbreak or old.parbreak
        return new

    def stops(self, frame):
        """Whether a newline before the token ends what is open."""
        if frame.newline == "context":
            return self.token.token_class not in ("Else", "Dot", "Field")
        if frame.newline == "column":
            return self.lexer.column(self.gap.start) <= frame.column
        return frame.newline == "stop" or frame.newline == "par" and self.gap.parbreak

    def holds(self, condition):
        if not condition:
            return True
        word, *rest = condition
        top = self.frames[-1]
        is_empty = len(self.nodes) <= top.start
        if word in ("is", "upto"):
            return top.number == int(rest[0]) if word == "is" else top.number <= int(rest[0])
        if word in ("only", "last"):
            is_one = word == "last" or len(self.nodes) == top.start + 1
            return not is_empty and is_one and self.nodes[-1].kind in rest
        return {"newline": self.gap.newline, "empty": is_empty, "direct": not self.gap.nodes and not self.is_flushed}[word]

    def text(self):
        return self.lexer.text[self.gap.start : self.token.end]

    # What rows do.

    def do(self, row: Row):
        for action in row.before:
            self.act(*action)
        if row.take:
            self.taken(*row.take)
        for action in row.after:
            self.act(*action)
        if row.call:
            self.open(row.call)

    def open(self, call):
        self.settle()
        state, top = self.table.states[call.state], self.frames[-1]
        column = self.lexer.column(self.gap.start) if state.newline == "column" else top.column
        if call.enters:
            self.judge = len(self.frames)
        self.frames.append(Frame(call.state, len(self.nodes), call.number, state.newline or top.newline, column, top.room - state.is_deep))

    def taken(self, word, rest=""):
        if word == "eat":
            self.settle()
            is_error = self.token.kind == "Error"
            node = error(self.text(), self.token.message) if is_error else Node(rest or self.token.kind, self.text())
            return self.put(self.token.node or node)
        self.missing = ""
        message = f"unexpected {self.name(self.token.kind)}"
        if word == "mistake":
            message = f"expected {rest}, found {self.name(self.token.kind)}"
        return self.put(error(self.text(), self.token.message or message))

    def put(self, node):
        """Puts the node of the token behind all others. The end has none."""
        self.settle()
        self.place()
        if self.token.token_class == "End" and self.token.end == len(self.lexer.text):
            self.is_done = True
            return
        self.nodes.append(node)
        self.at, self.token, self.judge = self.token.end, None, len(self.frames) - 1

    def place(self):
        """Puts white space before the token into its frame. Frames that opened since begin behind it, if they have no nodes."""
        before = len(self.nodes)
        self.nodes += self.gap.nodes
        for frame in self.frames[self.judge + 1 :]:
            if frame.start == before:
                frame.start = len(self.nodes)
        self.gap.nodes, self.at = [], self.gap.start

    def settle(self):
        """What is missing becomes an error."""
        if self.missing:
            self.nodes.append(error("", self.missing))
            self.missing = ""

    def act(self, word, rest=""):
        top = self.frames[-1]
        if word == "->":
            top.state = rest
        elif word == "return":
            self.end_frame()
        elif word == "around":
            self.surround(top, *rest.split())
        elif word == "expected":
            if not self.missing and not (self.nodes and self.nodes[-1].kind == "Error"):
                self.missing = f"expected {rest}"
        elif word in ("up", "down"):
            top.number += 1 if word == "up" else -1
        else:
            self.settle()
            self.change(word, rest, top)

    @staticmethod
    def is_token(node):
        return node.children is None and node.kind != "Error"

    def surround(self, top, state, number=0):
        """Opens a frame around the last node of the innermost one, if that is a token."""
        self.settle()
        is_token = len(self.nodes) > top.start and self.is_token(self.nodes[-1])
        top.state = state
        self.frames.append(Frame(state, len(self.nodes) - is_token, int(number), top.newline, top.column, top.room))
        self.judge = len(self.frames) - 1

    def end_frame(self):
        if len(self.frames) > 1:
            ended = self.frames.pop()
            self.judge = min(self.judge, len(self.frames) - 1)
            self.frames[-1].levels = max(self.frames[-1].levels, ended.levels)

    def change(self, word, rest, top):
        """Does what changes nodes."""
        if word == "wrap":
            return self.wrap(rest, top)
        if word == "flush":
            self.is_flushed |= bool(self.gap.nodes)
            return self.place()
        if len(self.nodes) <= top.start:
            return None
        if word == "delimit":
            for at, kind in zip((top.start, -1), rest.split()):
                if self.is_token(self.nodes[at]):
                    self.nodes[at] = Node(kind, self.nodes[at].text)
            return None
        if word == "unclosed":
            if self.nodes[top.start].children is None:
                self.nodes[top.start] = error(self.nodes[top.start].text, "unclosed delimiter")
            return None
        last = self.nodes.pop()
        if word == "retag":
            last = self.retagged(rest, last)
        elif word == "unique":
            last = unique(rest, last)
        elif last.kind != "Error":
            last = self.mistaken(rest, last)
        return self.nodes.append(last)

    def wrap(self, kind, top):
        if top.levels < MOST_LEVELS:
            self.nodes[top.start :] = [Node(kind, children=tuple(self.nodes[top.start :]))]
            top.levels += 1
        else:
            self.nodes.append(error("", "too many levels"))

    def name(self, kind):
        """How messages name a kind."""
        return self.table.kinds[kind][1]

    def mistaken(self, what, node):
        return error(node.full_text(), f"expected {what}, found {self.name(node.kind)}")

    # Maps.

    def retagged(self, name, node):
        row = next((row for row in self.rows.changes(name) if self.fits(row, node)), None)
        self.looks += 1
        if row is None:
            return node
        self.used.add(row.line)
        if row.error[:1] == ("wrong",):
            return self.mistaken(row.error[1], node)
        if row.error:
            return node.with_children([*node.children, error("", f"expected {row.error[1]}")])
        if node.children is None:
            return Node(row.kind or node.kind, node.text)
        maps = [row.first or row.others] + [row.others] * (len(node.children) - 1)
        return node.with_children([self.retagged(*pair) if pair[0] else pair[1] for pair in zip(maps, node.children)], row.kind)

    def fits(self, row, node):
        if not self.table.is_of(node.kind, row.kinds):
            return False
        return not row.test or len(node.children or ()) == 1


def parse(rows, text, lexer=None):
    """The machine, once it has parsed a text."""
    machine = Machine(rows, lexer or Lexer(text))
    machine.run()
    return machine
