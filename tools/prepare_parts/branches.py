"""Conditions of if, on indices and on data.

Branches takes an if, and gives what is written for it.
An if on data with one assignment becomes a call of select; any other on data is refused."""

from prepare_parts.conditions import texts
from prepare_parts.expressions import Expression, show
from prepare_parts.indices import forget
from prepare_parts.statements import Assignment, WrittenBranch, assigned

WHAT = "the condition of an if"


class Branches:
    """Takes ifs; walk gives what is written for statements."""

    def __init__(self, report, indices, conditions, values, walk):
        self.report, self.indices, self.conditions, self.values, self.walk = report, indices, conditions, values, walk

    def branch(self, s, known):
        """What is written for an if."""
        parts = s.cond.kids if s.cond.kind == "and" else [s.cond]
        data = [part for part in parts if self.indices.reads_data(part, known)]
        if data and not s.cond.has("bad"):
            return self.branch_on_data(s, data, [part for part in parts if part not in data], known)
        conds = self.conditions.take(s.cond, known, WHAT, s.line)
        then, other = self.arms(s, known)
        return [] if conds is None else [WrittenBranch(s.line, texts(conds), then, other)]

    def arms(self, s, known):
        """What is written for both arms; other is None without else."""
        then = self.walk(s.then, dict(known))
        other = self.walk(s.other, dict(known)) if s.other is not None else None
        forget(known, assigned(s.then) | assigned(s.other or []))
        return then, other

    def branch_on_data(self, s, data, rest, known):
        """What is written for an if on data; rest has the parts of the condition that are on indices."""
        if rest and s.other is not None:
            self.report.refuse(s.line, "a condition on indices and on data, with else: "
                               "write an if on the indices around one on data")
        test = self.values.value(Expression("and", s.line, None, data) if len(data) > 1 else data[0], known, s.line)
        before = dict(known)
        new = self.selected(s, test, *self.arms(s, known))
        if new is None or not rest:
            return [] if new is None else [new]
        conds = self.conditions.take(Expression("and", s.line, None, rest), before, WHAT, s.line)
        if conds is None:
            return []
        self.report.change(s.line, "the part of the condition that is on indices stands in an if of its own")
        return [WrittenBranch(s.line, texts(conds), [new])]

    def selected(self, s, test, then, other):
        """if (data) x = v; else x = w; as x = select(test, v, w); None after a refusal."""
        if test is None:
            return None
        arms = [then] if other is None else [then, other]
        single = all(len(arm) == 1 and isinstance(arm[0], Assignment) for arm in arms)
        if not single or not arms[0][0].target.same(arms[-1][0].target):
            if not self.report.is_refused_from(s.line):
                self.report.refuse(s.line, "a condition on data: only if (..) x = v; and if (..) x = v; else x = w; "
                                   "become calls; write one such if for each assignment")
            return None
        target = then[0].target
        second = target if other is None else other[0].plain_value()
        self.values.check_new_name("select", s.line)
        value = Expression("call", s.line, "select", [test, then[0].plain_value(), second])
        self.report.change(s.line, "the condition on data written as %s = %s" % (show(target), show(value)))
        return Assignment(s.line, target, "=", value, held=any(arm[0].held for arm in arms))
