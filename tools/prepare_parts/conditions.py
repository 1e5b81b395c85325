"""Conditions on indices.

Conditions takes a condition, and gives comparisons without min and max. Quotients are multiplied out where that is exact.
It refuses ||, ! and !=, and what is no conjunction of comparisons of index expressions."""

from typing import NamedTuple

from prepare_parts.affine import form_of, plain, said
from prepare_parts.expressions import Expression, show
from prepare_parts.forms import Form, compare_text, conjunction, form_text
from prepare_parts.report import NotAffine


class Comparison(NamedTuple):
    """A comparison's text; its form is at least 0 (>=), above 0 (>) or 0 (==). A test of a divisor has the form 0."""

    text: str
    form: Form
    mark: str


def texts(comparisons):
    """The texts of comparisons."""
    return [comparison.text for comparison in comparisons]


class Conditions:
    """Takes conditions; indices is an Indices."""

    def __init__(self, report, indices):
        self.report, self.indices = report, indices

    def take(self, e, known, what, line, subject=None):
        """The comparisons of a condition, or None after a refusal; the subject's term stands alone on the left."""
        try:
            found = []
            for part in e.kids if e.kind == "and" else [e]:
                found += self.compare(part, known, what, line, subject)
            return found
        except NotAffine as fault:
            self.report.refuse_fault(fault)
            return None

    def compare(self, e, known, what, line, subject):
        """The comparisons of one comparison; raises NotAffine."""
        check_comparison(e, what)
        new = self.indices.replaced(e, known, line)
        if new.has("bad"):
            raise NotAffine(line, "")
        self.indices.check_names(new, what)
        if tests_divisor(new, subject):
            over, by = new.kids[0].kids
            over = Expression("bin", line, "%", [plain(over, self.report), by])
            return [Comparison("%s == 0" % show(over), Form({}), "%")]
        left, right = form_of(new.kids[0]), form_of(new.kids[1])
        form = left.plus(right, -1) if ">" in e.val else right.plus(left, -1)
        strict = e.val in ("<", ">")
        if not form.specials() and not left.specials() and not right.specials():
            text = "%s %s %s" % (show(plain(new.kids[0], self.report)), e.val, show(plain(new.kids[1], self.report)))
            return [Comparison(text, form, "==" if e.val == "==" else ">" if strict else ">=")]
        kept = left.divides_only() and right.divides_only() and subject not in left.divided() | right.divided()
        try:
            if e.val == "==":
                raise NotAffine(e.line, "== with min or max: write two comparisons")
            found = [Comparison(compare_text(each, is_strict, subject), each, ">" if is_strict else ">=")
                     for each, is_strict in conjunction(form, strict, e.line)]
        except NotAffine:
            if not kept:
                raise
            text = "%s %s %s" % (form_text(left), e.val, form_text(right))
            if text != said(new):
                self.report.change(line, "%s written as %s" % (said(new), text))
            return [Comparison(text, form, "==" if e.val == "==" else ">" if strict else ">=")]
        self.report.change(line, "%s written as %s" % (said(new), " && ".join(texts(found))))
        return found


def tests_divisor(e, subject):
    """Whether a comparison is e % c == 0 with a number c and an index expression e without quotients and the subject."""
    left, right = e.kids
    if not (e.val == "==" and right.kind == "num" and right.val == 0 and left.kind == "bin" and left.val == "%"):
        return False
    over, by = form_of(left.kids[0]), left.kids[1]
    return by.kind == "num" and by.val > 0 and bool(over.parts) and not over.specials() and subject not in over.parts


def check_comparison(e, what):
    """Raises NotAffine for what is no comparison of the language."""
    if e.kind == "bad":
        raise NotAffine(e.line, "")
    if e.kind == "or":
        raise NotAffine(e.line, "|| in %s: write if (..) S else if (..) S" % what)
    if e.kind == "not":
        raise NotAffine(e.line, "! in %s: write the opposite comparison" % what)
    if e.kind != "cmp":
        raise NotAffine(e.line, "%s is no comparison, in %s: write one, as %s > 0" % (show(e), what, show(e)))
    if e.val == "!=":
        raise NotAffine(e.line, "!= in %s: write if (a < b) S and if (a > b) S, or two loops" % what)
