"""The walk over a function, which gives the statements that are written.

prepare takes a Source, a name and a Report, and gives the Function and its Written statements.
What it refuses is in the report; then nothing is to be written."""

from dataclasses import dataclass

from prepare_parts.branches import Branches
from prepare_parts.conditions import Conditions
from prepare_parts.expressions import Expression
from prepare_parts.indices import Indices, State, forget
from prepare_parts.loops import Loops
from prepare_parts.names import place_locals
from prepare_parts.scalars import Scalars
from prepare_parts.signature import read_function
from prepare_parts.statements import (Assignment, Block, Branch, Declaration, Loop, Return, called_names, read_names)
from prepare_parts.unused import drop_unused
from prepare_parts.values import Values


@dataclass
class Written:
    """What is written: the function, the extents of its locals, its statements, and all that is said of it."""

    function: object
    extents: dict
    statements: list
    report: object


def prepare(source, wanted, report):
    """The function of a name, as it is written."""
    function = read_function(source, wanted, report)
    place_locals(function, report)
    called = called_names(function.body)
    params = {name for name, var in function.vars.items() if not var.is_local}
    never = {name for name, var in function.vars.items() if var.kind == "scal"} - read_names(function.body)
    replaced = never
    # (the first walk finds the scalars that stand in index positions, the second one writes)
    for _ in range(2):
        state = State(function, report.copy(), called, replaced, params)
        statements = Walk(state).walk(function.body, {})
        replaced = closure(state.inlined | never, state.stands_on)
    statements = drop_unused(function, statements, state.report)
    return Written(function, state.extents, statements, state.report)


def closure(names, stands_on):
    """The names and all that they stand on."""
    found, queue = set(names), list(names)
    while queue:
        new = stands_on.get(queue.pop(), set()) - found
        found |= new
        queue += new
    return found


class Walk:
    """Goes over statements, and gives what is written for them."""

    def __init__(self, state):
        self.state, self.report = state, state.report
        self.indices = Indices(state)
        conditions, values = Conditions(state.report, self.indices), Values(state, self.indices)
        scalars = Scalars(state, self.indices, conditions, values)
        self.assign = scalars.assign
        self.takers = {
            Declaration: self.declare, Assignment: scalars.assign, Return: self.refuse_return,
            Block: lambda s, known: self.walk(s.body, known),
            Loop: Loops(state, self.indices, conditions, self.walk).loop,
            Branch: Branches(state.report, self.indices, conditions, values, self.walk).branch,
        }

    def walk(self, statements, known):
        """What is written for statements; known changes with them."""
        out, scope = [], self.state.scope
        for s in statements:
            out += self.takers[type(s)](s, known)
        # (behind its block a name is none of the function's)
        forget(known, self.state.scope - scope)
        self.state.scope = scope
        return out

    def declare(self, s, known):
        """What is written for a declaration: the assignment of its initial value."""
        self.state.scope = self.state.scope | {s.name}
        forget(known, {s.name})
        self.enter_extents(s, known)
        if s.init is None or s.type is None:
            return []
        return self.assign(Assignment(s.line, Expression("var", s.line, s.name), "=", s.init), known)

    def refuse_return(self, s, _known):
        """Refuses a return that is not the last statement."""
        self.report.refuse(s.line, "return %s: write void, and an array parameter of extent 1 for what is returned"
                           % "of a value" if s.has_value else
                           "return before the end: write an if around what is passed over")
        return []

    def enter_extents(self, s, known):
        """Enters the extents of a local array, which stand at the head of the function."""
        found = []
        for dim in (s.type.dims if s.type is not None else []):
            new, form = self.indices.index(dim, known, "the extent of %s" % s.name, s.line)
            if new is None:
                return
            if form.specials():
                self.report.refuse(s.line, "%s has an extent with min, max or a division: write a parameter for it"
                                   % s.name)
            elif new.names() & self.state.active:
                self.report.refuse(s.line, "%s has an extent that changes with a loop: write an extent of parameters"
                                   % s.name)
            found.append((new, form))
        old = self.state.extents.setdefault(s.name, found)
        if len(old) != len(found) or not all(a[1].same(b[1]) for a, b in zip(old, found)):
            self.report.refuse(s.line, "%s is declared twice, with two extents: write another name for one" % s.name)
