"""What can be known of a table without a text: no row takes the end, and rows don't go round without taking a token.

A place is a state with the number of its frame. For each class of tokens, a row leads from its place to the one that it opens, and
behind that if the frame may return before the token is taken.
"""
from dataclasses import dataclass
from functools import cache

from grammar.table import START

# What isn't read where only an operator may come.
NO_OPERATORS = {"Ident", "Str", "Literal", "Label", "Raw", "Error", "Underscore", "Hash"}


@dataclass(frozen=True)
class Step:
    """What a row does at a place: the place it opens, the one that goes on, whether it takes the token and whether it returns."""

    opened: tuple | None
    behind: tuple
    takes: bool
    returns: bool


@dataclass(frozen=True)
class Chain:
    """The places of frames that one row opens in each other, the outermost first."""

    places: tuple


def step_of(state, row):
    """The condition of a row, the places that it opens in each other, the state that goes on, whether it takes the token and whether
    it returns."""
    frames, actions = [(state, 0)], [*row.before, *row.after]
    for word, *rest in actions:
        if word == "->":
            frames[-1] = (rest[0], frames[-1][1])
        elif word == "around":
            name, _, number = rest[0].partition(" ")
            frames[-1:] = [(name, frames[-1][1]), (name, int(number or 0))]
    if row.call:
        frames.append((row.call.state, row.call.number))
    return row.condition, tuple(frames[1:]), frames[0][0], bool(row.take), ("return",) in actions


def opened(places):
    """The place that frames open which open in each other."""
    return (Chain(tuple(places)), 0) if len(places) > 1 else places[0] if places else None


class Walk:
    """The places of a table, and the steps from each for a class of tokens."""

    def __init__(self, table):
        self.table = table
        self.rows = cache(lambda state, name: [step_of(state, row) for row in table.rows_of(table.states[state], name)])
        self.steps = cache(self.found_steps)
        self.counts = cache(lambda state: any(row[2].count([word]) for row in self.all_rows(state) for word in ("up", "down")))
        self.classes = [token.name for token in table.classes]
        self.places, self.starts = self.found()

    def all_rows(self, state):
        while state:
            yield from self.table.states[state].rows
            state = self.table.states[state].base

    def found(self):
        """All places, and those at which a token may be looked at first, or with another rule for newlines."""
        places, starts, todo = set(), {(START, 0)}, [(START, 0)]
        while todo:
            place = todo.pop()
            if place in places:
                continue
            places.add(place)
            for step in {step for name in self.classes for direct in (True, False) for step in self.steps(place, name, direct)}:
                todo += [step.behind, *([step.opened] if step.opened else [])]
                if not step.returns and (step.takes or step.opened):
                    starts.add(step.behind)
                if step.takes and step.opened:
                    starts.add(step.opened)
        return places, starts

    def found_steps(self, place, token_class, direct):
        """The steps that a place may make for a token: those of all rows up to the first that fits surely."""
        if isinstance(place[0], Chain):
            first, *others = place[0].places
            return (Step(opened(others), first, False, False),)
        if self.table.states[place[0]].mode == "operator" and token_class in NO_OPERATORS:
            token_class = "Other"
        steps = []
        for condition, frames, behind, *rest in self.rows(place[0], token_class):
            fits = self.fits(place, condition, direct)
            if fits is not False:
                steps.append(Step(opened(frames), (behind, place[1]), *rest))
            if fits:
                break
        return tuple(steps)

    def fits(self, place, condition, direct):
        """Whether a condition holds. None if it may."""
        word, *rest = condition or ("",)
        if word == "direct":
            return direct
        if word in ("is", "upto") and not self.counts(place[0]):
            return place[1] == int(rest[0]) if word == "is" else place[1] <= int(rest[0])
        return True if word == "" else None

    def returning(self, token_class, direct):
        """The places whose frame may return before the token is taken."""
        may, more = set(), True
        while more:
            more = False
            for place in self.places - may:
                for step in self.steps(place, token_class, direct):
                    passes = not step.takes and (step.opened is None or step.opened in may)
                    if passes and (step.returns or step.behind in may):
                        may.add(place)
                        more = True
        return may

    def next_places(self, place, token_class, direct, may):
        for step in self.steps(place, token_class, direct):
            if not step.takes:
                if step.opened:
                    yield step.opened
                if not step.returns and (step.opened is None or step.opened in may):
                    yield step.behind

    def reached(self, token_class, direct):
        """The places that a token of a class may come to, each with those that it may come to next."""
        may, found, todo = self.returning(token_class, direct), {}, list(self.starts)
        while todo:
            place = todo.pop()
            if place not in found:
                found[place] = set(self.next_places(place, token_class, direct, may))
                todo += found[place]
        return found


def round_trip(edges):
    """Places that lead round, if there are any: those that are left once all that lead nowhere are gone."""
    left = {place: set(others) for place, others in edges.items()}
    while ends := [place for place, others in left.items() if not others & left.keys()]:
        for place in ends:
            del left[place]
    return sorted(left)


def faults(table):
    """What is wrong with a table."""
    walk = Walk(table)
    for name in walk.classes:
        for direct in (True, False):
            edges = walk.reached(name, direct)
            for place in round_trip(edges):
                yield f"rows go round for {name} from {place[0]} {place[1]}"
            for place in edges if name in ("End", "Other") else ():
                if place[0] != START and any(step.takes for step in walk.steps(place, name, direct)):
                    if name == "End" or table.states[place[0]].mode == "operator":
                        yield f"{place[0]} {place[1]} takes {name}"
