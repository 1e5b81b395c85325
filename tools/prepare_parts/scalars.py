"""Assignments, and the scalars that are known to hold an index expression.

Scalars takes an assignment, and gives what is written for it.
It refuses targets that are integer parameters, or iterators in their own loops."""

from prepare_parts.affine import only_index
from prepare_parts.expressions import show
from prepare_parts.indices import forget
from prepare_parts.conditions import texts
from prepare_parts.statements import Assignment, WrittenBranch


class Scalars:
    """Takes assignments; indices, conditions and values stand at the same place."""

    def __init__(self, state, indices, conditions, values):
        self.state, self.report = state, state.report
        self.indices, self.conditions, self.values = indices, conditions, values

    def is_target(self, s):
        """Whether a target may be assigned."""
        name, var = s.target.val, self.state.function.vars.get(s.target.val)
        if s.target.kind == "bad":
            return False
        if name in self.state.active:
            self.report.refuse(s.line, "%s is assigned in its own loop: write a loop with an affine condition" % name)
        elif var is None or name not in self.state.scope:
            self.report.refuse(s.line, "%s is assigned and is not declared here: make it a parameter, "
                               "an array of extent 1 for a scalar" % name)
        elif var.kind == "ipar":
            self.report.refuse(s.line, "%s is an integer parameter and is assigned: "
                               "write another name for what it becomes" % name)
        elif var.kind == "iter":
            self.report.change(s.line, "the assignment to %s dropped: %s is read in its loops alone" % (name, name))
        else:
            return var.kind != "bad"
        return False

    def assign(self, s, known):
        """What is written for an assignment; known changes with it."""
        if not self.is_target(s):
            return []
        name, var = s.target.val, self.state.function.vars[s.target.val]
        target, held = self.values.access(s.target, known, s.line), None
        if s.target.kind == "var" and var.type.index and var.is_local and s.op == "=":
            held = self.indices.held(s.value, known)
        if held is not None:
            self.state.stands_on.setdefault(name, set()).update(s.value.names())
        if held is not None and name in self.state.wanted and only_index(held):
            # (a value that the language doesn't have, and that goes if every read of the scalar is replaced)
            out = [Assignment(s.line, target, "=", held, held=True)]
        else:
            out = self.assign_value(s, s.value, target, known)
        forget(known, {name})
        if held is not None:
            known[name] = held
        return out

    def assign_value(self, s, value, target, known):
        """The assignment of a value; a choice on indices becomes if and else."""
        if value.kind == "tern" and not value.has("bad") and not self.indices.reads_data(value.kids[0], known):
            conds = self.conditions.take(value.kids[0], known, "a choice", s.line)
            if conds is None:
                return []
            then, other = [self.assign_value(s, kid, target, known) for kid in value.kids[1:]]
            self.report.change(s.line, "the choice on indices written as if and else")
            return [WrittenBranch(s.line, texts(conds), then, other)]
        new = self.values.value(value, known, s.line)
        if new is None or target is None:
            return []
        if s.stepped:
            self.report.change(s.line, "%s%s written as %s %s 1" % (show(target), s.op[0] * 2, show(target), s.op))
        return [Assignment(s.line, target, s.op, new)]
