"""Index expressions as forms.

form_of takes an expression whose scalars are replaced already, and gives its form.
It raises NotAffine for data, calls, choices, products of names, and divisions of names.
min, max, floord and ceild are taken as calls, and as their macros are expanded."""

from prepare_parts.expressions import Expression, show, whole
from prepare_parts.forms import FLIPPED, Form, Part, expression_of, least_or_greatest
from prepare_parts.report import NotAffine

MIN_NAMES = frozenset(["min", "MIN", "imin"])
MAX_NAMES = frozenset(["max", "MAX", "imax"])
QUOTIENTS = frozenset(["floord", "ceild"])
ROUNDED = frozenset(["floor", "ceil"])
WHOLE_TYPES = ("int", "long")


def form_of(e):
    """The form of an index expression."""
    if e.kind == "num":
        return Form({}, e.val)
    if e.kind == "var":
        return Form({e.val: 1})
    if e.kind == "neg":
        return form_of(e.kids[0]).times(-1)
    if e.kind == "pos" or e.kind == "cast" and e.val in WHOLE_TYPES:
        return form_of(e.kids[0])
    if e.kind == "bin":
        return form_of_operation(e, form_of(e.kids[0]), form_of(e.kids[1]))
    if e.kind == "call":
        return form_of_call(e)
    if e.kind == "tern":
        return form_of_choice(e)
    if e.kind == "acc":
        raise NotAffine(e.line, "%s is data in an index" % show(e))
    if e.kind == "dec":
        raise NotAffine(e.line, "%s in an index: write a whole number" % e.val)
    if e.kind in ("cmp", "and", "or", "not"):
        raise NotAffine(e.line, "%s in an index: write a comparison of its own" % show(e))
    if e.kind == "cast":
        raise NotAffine(e.line, "a cast to %s in an index: leave it out" % e.val)
    raise NotAffine(e.line, "")


def form_of_operation(e, left, right):
    """The form of a sum, difference, product, quotient or remainder of forms."""
    if e.val in "+-":
        return left.plus(right, 1 if e.val == "+" else -1)
    if e.val == "*":
        if not left.parts:
            return right.times(left.const)
        if not right.parts:
            return left.times(right.const)
        raise NotAffine(e.line, "%s is a product of names: write one subscript for each dimension, as A[i][j], "
                        "or a number for one of the two" % show(e), "*")
    if not left.parts and not right.parts and right.const:
        size = abs(left.const) // abs(right.const)
        quotient = size if (left.const < 0) == (right.const < 0) else -size
        return Form({}, quotient if e.val == "/" else left.const - quotient * right.const)
    if e.val == "/":
        raise NotAffine(e.line, "%s divides in an index: count by starting elements, as it = 0; it < N; it += 32, "
                        "or write 2 * i <= N for i <= N / 2 if N is at least 0" % show(e), "/")
    raise NotAffine(e.line, "%s is a remainder in an index: write a loop for each remainder, as i = 0; i < N; i += 2"
                    % show(e), "/")


def form_of_call(e):
    """The form of a call of min, max, floord or ceild, or of floor or ceil of a quotient of casts to double."""
    if e.val in MIN_NAMES | MAX_NAMES and len(e.kids) == 2:
        return least_or_greatest("min" if e.val in MIN_NAMES else "max", [form_of(kid) for kid in e.kids])
    if e.val in QUOTIENTS and len(e.kids) == 2:
        return quotient(e.val, form_of(e.kids[0]), form_of(e.kids[1]), e)
    if e.val in ROUNDED and len(e.kids) == 1 and e.kids[0].kind == "bin" and e.kids[0].val == "/":
        over, by = e.kids[0].kids
        if over.kind == by.kind == "cast" and over.val == by.val == "double":
            return quotient(e.val + "d", form_of(over.kids[0]), form_of(by.kids[0]), e)
    raise NotAffine(e.line, "%s is a call in an index: write what it gives, or a parameter" % show(e))


def quotient(kind, over, by, e):
    """floord or ceild of forms, the second of which is a positive number."""
    if by.parts or by.const <= 0:
        raise NotAffine(e.line, "%s divides by something other than a positive number: count by starting elements, "
                        "as it = 0; it < N; it += 32" % show(e), "/")
    if not over.parts:
        return Form({}, over.const // by.const if kind == "floord" else -(-over.const // by.const))
    return Form({Part(kind, [over], by.const): 1})


def form_of_choice(e):
    """The form of min, max, floord or ceild, as their macros are expanded."""
    cond, first, second = e.kids
    if cond.kind == "cmp" and cond.val in ("<", "<=", ">", ">="):
        found = form_of_macro(cond, first, second, e)
        if found is not None:
            return found
        left, right = form_of(cond.kids[0]), form_of(cond.kids[1])
        one, two = form_of(first), form_of(second)
        for a, b, kind in ((left, right, "min"), (right, left, "max")):
            if one.same(a) and two.same(b):
                return least_or_greatest(kind if "<" in cond.val else FLIPPED[kind], [left, right])
    raise NotAffine(e.line, "%s is a choice in an index: write if and else" % show(e))


def form_of_macro(cond, first, second, e):
    """The form of n < 0 ? first : second if it is floord or ceild of n; otherwise None."""
    if not (cond.val == "<" and whole(cond.kids[1]) == 0):
        return None
    minus = first.kind == "neg"
    one = first.kids[0] if minus else first
    if not (one.kind == second.kind == "bin" and one.val == second.val == "/"):
        return None
    by, again = form_of(one.kids[1]), form_of(second.kids[1])
    if not by.same(again) or by.parts or by.const <= 0:
        return None
    n, low, high, rest = form_of(cond.kids[0]), form_of(one.kids[0]), form_of(second.kids[0]), Form({}, by.const - 1)
    if high.same(n) and low.same(n.times(-1).plus(rest) if minus else n.plus(rest, -1)):
        return quotient("floord", n, by, e)
    if high.same(n.plus(rest)) and low.same(n.times(-1) if minus else n):
        return quotient("ceild", n, by, e)
    return None


def only_index(e):
    """Whether an index expression has min, max, floord, ceild or a division, which no value of the language has."""
    return any(part.kind in ("call", "tern") or part.kind == "bin" and part.val in "/%" for part in e.parts())


def said(e):
    """The text of an index expression, with min, max, floord and ceild by their names."""
    return show(named(e))


def named(e):
    """The index expression with min, max, floord and ceild as calls."""
    if e.kind in ("tern", "call"):
        try:
            form = form_of(e)
        except NotAffine:
            return e
        part = next(iter(form.parts), None)
        if isinstance(part, Part) and form.same(Form({part: 1})):
            if part.kind in FLIPPED:
                kids = e.kids if e.kind == "call" else e.kids[0].kids
            elif e.kind == "call" and e.val in QUOTIENTS:
                kids = e.kids
            else:
                over = e.kids[0].kids[0]
                kids = [over if e.kind == "tern" else over.kids[0], Expression("num", e.line, part.by)]
            return Expression("call", e.line, part.kind, [named(kid) for kid in kids])
    return e.with_kids([named(kid) for kid in e.kids]) if e.kids else e


def plain(e, report):
    """An index expression without casts, signs and divisions of numbers, and without calls and choices that come to none."""
    form = form_of(e) if e.has("tern", "call") else None
    if form is not None and not form.specials():
        new = expression_of(form, e.line)
        report.change(e.line, "%s written as %s" % (said(e), show(new)))
        return new
    if e.kind == "cast":
        report.change(e.line, "the cast to %s dropped: %s is an index expression" % (e.val, show(e.kids[0])))
        return plain(e.kids[0], report)
    if e.kind == "pos":
        report.change(e.line, "the sign + dropped")
        return plain(e.kids[0], report)
    if e.kind == "bin" and e.val in "/%":
        number = form_of(e).const
        report.change(e.line, "%s written as %d" % (show(e), number))
        new = Expression("num", e.line, abs(number))
        return new if number >= 0 else Expression("neg", e.line, None, [new])
    if not e.kids or e.kind in ("tern", "call"):
        return e
    return Expression(e.kind, e.line, e.val, [plain(kid, report) for kid in e.kids])
