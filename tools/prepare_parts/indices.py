"""Index expressions at a place of the function, with the scalars that are known there.

Known scalars are given as a dict from their names to index expressions of parameters and iterators.
Data, and scalars that are not known, are refused in an index."""

from dataclasses import dataclass, field

from prepare_parts.affine import (MAX_NAMES, MIN_NAMES, QUOTIENTS, ROUNDED, WHOLE_TYPES, form_of, form_of_call, plain,
                                  said)
from prepare_parts.expressions import Expression
from prepare_parts.report import NotAffine, Report
from prepare_parts.signature import Function


@dataclass
class State:
    """One walk over a function: what is said, the names at the place, and what is found out of its scalars."""

    function: Function
    report: Report
    called: set                                     # the names that the function calls
    wanted: set                                     # the scalars whose reads in values are replaced
    scope: set                                      # the declared names at the place
    active: set = field(default_factory=set)        # the iterators of the loops around the place
    inlined: set = field(default_factory=set)       # the scalars that an index reads
    extents: dict = field(default_factory=dict)     # local -> its extents and their forms
    stands_on: dict = field(default_factory=dict)   # scalar -> the names in its index expressions


def forget(known, names):
    """Takes away the known scalars that have one of the names, or stand on one."""
    for name in list(known):
        if name in names or known[name].names() & names:
            del known[name]


class Indices:
    """Takes index expressions at the place that a State has come to."""

    def __init__(self, state):
        self.state, self.report, self.vars = state, state.report, state.function.vars

    def is_index(self, e, known, in_value):
        """Whether nothing but numbers, integer parameters, iterators and known scalars stands in the expression."""
        if e.kind == "num":
            return True
        if e.kind == "var":
            var = self.vars.get(e.val)
            return e.val in self.state.active or (
                var is not None and (var.kind == "ipar" or e.val in known and var.kind == "scal"))
        if e.kind == "call":
            return not in_value and self.is_index_call(e, known)
        if e.kind == "tern":
            kids = e.kids[0].kids + e.kids[1:] if e.kids[0].kind == "cmp" else None
        else:
            taken = e.kind in ("bin", "neg", "pos") or e.kind == "cast" and e.val in WHOLE_TYPES
            kids = e.kids if taken else None
        return kids is not None and all(self.is_index(kid, known, in_value) for kid in kids)

    def is_index_call(self, e, known):
        """Whether a call stands for min, max, floord or ceild of index expressions."""
        if e.val in ROUNDED:
            try:
                return not e.has("acc") and all(
                    self.is_index(Expression("var", 0, name), known, False) for name in e.names()
                ) and form_of_call(e) is not None
            except NotAffine:
                return False
        return (e.val in MIN_NAMES | MAX_NAMES | QUOTIENTS and len(e.kids) == 2
                and all(self.is_index(kid, known, False) for kid in e.kids))

    def reads_data(self, e, known):
        """Whether an expression of a condition reads data, or a scalar that is not known."""
        if e.kind in ("acc", "dec"):
            return True
        if e.kind == "var":
            var = self.vars.get(e.val)
            return (var is not None and var.kind in ("scal", "arr") and e.val not in known
                    and e.val not in self.state.active)
        if e.kind == "call":
            return not self.is_index(e, known, False)
        if e.kind == "cast" and e.val in ("float", "double"):
            return True
        return any(self.reads_data(kid, known) for kid in e.kids)

    def replaced(self, e, known, line=None):
        """The expression with known scalars replaced by what they hold; with a line, as a change that is told."""
        if e.kind == "var" and e.val in known:
            if line is not None:
                self.state.inlined.add(e.val)
                self.report.change(line, "%s replaced by %s" % (e.val, said(known[e.val])))
            return known[e.val]
        return e.with_kids([self.replaced(kid, known, line) for kid in e.kids]) if e.kids else e

    def check_names(self, e, what):
        """The names of an index expression are integer parameters or iterators; otherwise NotAffine."""
        for name in sorted(e.names()):
            if name in self.state.active:
                continue
            var = self.vars.get(name)
            if var is None or name not in self.state.scope:
                if name in self.state.function.loop_names:
                    raise NotAffine(e.line, "%s is read outside of its loop, in %s" % (name, what))
                raise NotAffine(e.line, "%s, in %s, is not declared here: make it a parameter" % (name, what))
            if var.kind == "bad":
                raise NotAffine(e.line, "")
            if var.kind == "iter":
                raise NotAffine(e.line, "%s is read outside of its loop, in %s" % (name, what))
            if var.kind == "arr":
                raise NotAffine(e.line, "%s is data, in %s: the language takes no data there" % (name, what))
            if var.kind == "scal":
                raise NotAffine(e.line, "%s, in %s, is not known to hold one index expression there: "
                                "write the expression in its place" % (name, what))

    def index(self, e, known, what, line):
        """A subscript, start or extent: the expression and its form; None twice after a refusal."""
        try:
            if e.has("bad"):
                return None, None
            new = self.replaced(e, known, line)
            self.check_names(new, what)
            form = form_of(new)
            return plain(new, self.report), form
        except NotAffine as fault:
            self.report.refuse_fault(fault)
            return None, None

    def held(self, e, known):
        """What a scalar holds that is assigned an index expression; None if it is none."""
        if e.has("bad") or not self.is_index(e, known, False):
            return None
        new = self.replaced(e, known)
        try:
            self.check_names(new, "a value")
            form_of(new)
        except NotAffine:
            return None
        return new
