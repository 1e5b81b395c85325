"""Loops.

Loops takes a loop, and gives what is written for it.
A start of max, or of min in a falling loop, becomes one of its arguments and an if around the body. A quotient may be a start.
It refuses starts of other choices, counters that are no locals, and conditions that do not bound the counter."""

from prepare_parts.affine import said
from prepare_parts.conditions import texts
from prepare_parts.forms import Form, choices, compare_text, conjunction, form_text
from prepare_parts.expressions import show
from prepare_parts.indices import forget
from prepare_parts.report import NotAffine
from prepare_parts.statements import WrittenBranch, WrittenLoop, assigned


class Loops:
    """Takes loops; walk gives what is written for statements."""

    def __init__(self, state, indices, conditions, walk):
        self.state, self.report = state, state.report
        self.indices, self.conditions, self.walk = indices, conditions, walk

    def loop(self, s, known):
        """What is written for a loop; known loses what the loop assigns."""
        if s.var is None:
            return []
        may_count = self.may_count(s)
        start = form = None
        if s.start is not None:
            start, form = self.indices.index(s.start, known, "the start of %s" % s.var, s.line)
        forget(known, assigned(s.body) | {s.var})
        conds, body = self.inside(s, known)
        if not may_count or start is None or conds is None or not s.step:
            return []
        side = 1 if s.step > 0 else -1
        if not any(bounds(comparison, s.var, side) for comparison in conds):
            self.report.refuse(s.line, "no comparison of the condition bounds %s in the direction of its step: write one"
                               % s.var)
            return []
        text = show(start)
        if form.specials():
            try:
                text, guards = self.start_of(s, start, form, conds, side)
            except NotAffine as fault:
                self.report.refuse_fault(fault)
                return []
            if guards:
                body = [WrittenBranch(s.line, guards, body)]
        kind = s.type.base + " " if s.typed and s.type is not None else ""
        return [WrittenLoop(s.line, s.var, "%s%s = %s" % (kind, s.var, text), texts(conds), s.step_text, body)]

    def may_count(self, s):
        """Whether the variable of a loop may count it."""
        var = self.state.function.vars.get(s.var)
        if s.var in self.state.active:
            self.report.refuse(s.line, "%s runs in its own loop: write another name for one" % s.var)
        elif s.typed:
            return True
        elif var is None or s.var not in self.state.scope:
            self.report.refuse(s.line, "%s counts a loop and is not declared here: write for (int %s = .."
                               % (s.var, s.var))
        elif var.kind == "iter":
            return True
        elif var.kind != "bad":
            self.report.refuse(s.line, "%s counts a loop and is a parameter or an array: write a local int for it" % s.var)
        return False

    def inside(self, s, known):
        """The comparisons of the condition, or None, and what is written for the body."""
        around, conds = self.state.active, None
        self.state.active = around | {s.var}
        if s.cond is not None:
            conds = self.conditions.take(s.cond, known, "the condition of %s" % s.var, s.line, s.var)
        body = self.walk(s.body, dict(known))
        self.state.active = around
        return conds, body

    def start_of(self, s, start, form, conds, side):
        """A start with Parts: the text of one of its arguments, and the comparisons that cut off the rest."""
        found = far_choices(choices(form, "max" if side > 0 else "min", s.line), side)
        fit = [each for each in found if each.divides_only()]
        base = min(fit, key=lambda each: len(each.specials()), default=None)
        if base is None:
            raise NotAffine(s.line, "%s starts at %s: count by starting elements, as it = 0; it < N; it += 32"
                            % (s.var, said(start)))
        guards = []
        for each in found:
            if each is not base:
                gap = Form({s.var: 1}).plus(each, -1).times(side)
                guards += [compare_text(part, strict, s.var) for part, strict in conjunction(gap, False, s.line)]
        if guards:
            check_guarded(s, start, conds, side)
            self.report.change(s.line, "%s starts at %s: it starts at %s, and its body stands in if (%s)"
                               % (s.var, said(start), form_text(base), " && ".join(guards)))
        elif said(start) != form_text(base):
            self.report.change(s.line, "%s starts at %s: written as %s" % (s.var, said(start), form_text(base)))
        return form_text(base), guards


def bounds(comparison, name, side):
    """Whether a comparison ends a loop over the name, which rises if the side is 1 and falls if it is -1."""
    number = comparison.form.of(name)
    return number * side < 0 or comparison.mark == "==" and number != 0


def far_choices(forms, side):
    """The forms less those that lie a constant before another one, and so are never chosen."""
    found = []
    for each in forms:
        for i, other in enumerate(found):
            gap = each.plus(other, -1)
            if not gap.parts:
                if gap.const * side > 0:
                    found[i] = each
                break
        else:
            found.append(each)
    return found


def check_guarded(s, start, conds, side):
    """Raises NotAffine for a loop whose turns in front of its start are more than turns that do nothing."""
    if abs(s.step) != 1:
        raise NotAffine(s.line, "%s starts at %s and has the step %d: write a loop for each start, or the step %d"
                        % (s.var, said(start), s.step, side))
    for comparison in conds:
        if bounds(comparison, s.var, -side):
            raise NotAffine(s.line, "%s starts at %s, and its condition has %s, which may end the loop before: "
                            "write that comparison as an if in the body" % (s.var, said(start), comparison.text))
