"""Statements: as they are read, and as they are written.

Nothing is refused here."""

from dataclasses import dataclass
from typing import Optional

from prepare_parts.expressions import Expression


@dataclass(eq=False)
class Statement:
    """What every statement has: its line."""

    line: int

    def bodies(self):
        """The lists of statements in it."""
        return []


@dataclass(eq=False)
class Block(Statement):
    """Statements in braces."""

    body: list

    def bodies(self):
        return [self.body]


@dataclass(eq=False)
class Declaration(Statement):
    """A local: its type is None if it was refused."""

    name: str
    type: Optional[object] = None
    init: Optional[Expression] = None


@dataclass(eq=False)
class Assignment(Statement):
    """An assignment; stepped by ++ or --; held if its value is one that the language does not have."""

    target: Expression
    op: str
    value: Expression
    stepped: bool = False
    held: bool = False

    def plain_value(self):
        """What is assigned, the operator written out."""
        return self.value if self.op == "=" else Expression("bin", self.line, self.op[0], [self.target, self.value])


@dataclass(eq=False)
class Return(Statement):
    """A return, with or without a value."""

    has_value: bool


@dataclass(eq=False)
class Loop(Statement):
    """A loop as it is read; what was refused is None, and the step 0."""

    body: list
    var: Optional[str] = None
    type: Optional[object] = None
    typed: bool = False
    start: Optional[Expression] = None
    cond: Optional[Expression] = None
    step: int = 0
    step_text: Optional[str] = None

    def bodies(self):
        return [self.body]


@dataclass(eq=False)
class Branch(Statement):
    """An if as it is read; other is None without else."""

    cond: Expression
    then: list
    other: Optional[list] = None

    def bodies(self):
        return [self.then, self.other or []]


@dataclass(eq=False)
class WrittenLoop(Statement):
    """A loop as it is written: the text of its head, of its comparisons and of its step."""

    var: str
    head: str
    conds: list
    step: str
    body: list

    def bodies(self):
        return [self.body]


@dataclass(eq=False)
class WrittenBranch(Statement):
    """An if as it is written: the text of its comparisons."""

    conds: list
    then: list
    other: Optional[list] = None

    def bodies(self):
        return [self.then, self.other or []]


def every(statements, kind=Statement):
    """All statements of a kind, also those in others, in the order of the text."""
    for s in statements:
        if isinstance(s, kind):
            yield s
        for body in s.bodies():
            yield from every(body, kind)


def assigned(statements):
    """The names that are assigned, loops without a type included."""
    return ({s.target.val for s in every(statements, Assignment)}
            | {s.name for s in every(statements, Declaration) if s.init is not None}
            | {s.var for s in every(statements, Loop) if not s.typed})


def read_names(statements):
    """The names that are read anywhere; a scalar that is assigned is not read for it."""
    found = set()
    for s in every(statements):
        if isinstance(s, Assignment):
            read = [s.value] + s.target.kids
        elif isinstance(s, Declaration):
            read = [s.init] + (s.type.dims if s.type is not None else [])
        elif isinstance(s, Loop):
            read = [s.start, s.cond]
        else:
            read = [s.cond] if isinstance(s, Branch) else []
        found.update(*(e.names() for e in read if e is not None))
    return found


def called_names(statements):
    """The names that are called outside of the heads of loops."""
    found = set()
    for s in every(statements):
        if isinstance(s, Assignment):
            found |= s.target.calls() | s.value.calls()
        elif isinstance(s, Declaration) and s.init is not None:
            found |= s.init.calls()
        elif isinstance(s, Branch):
            found |= s.cond.calls()
    return found
