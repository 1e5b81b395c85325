"""Forms: sums of names with whole coefficients, also of min, max, floord and ceild.

A comparison of forms is taken apart into comparisons without min, max, floord and ceild.
NotAffine is raised if no conjunction of comparisons is the same."""

from prepare_parts.expressions import Expression, show
from prepare_parts.report import NotAffine

FLIPPED = {"min": "max", "max": "min"}


class Form:
    """A sum: numbers by name or Part, and a constant."""

    def __init__(self, parts=None, const=0):
        self.parts = {part: number for part, number in (parts or {}).items() if number}
        self.const = const

    def plus(self, other, times=1):
        """The sum with a multiple of another form."""
        parts = dict(self.parts)
        for part, number in other.parts.items():
            parts[part] = parts.get(part, 0) + times * number
        return Form(parts, self.const + times * other.const)

    def times(self, number):
        """The product with a number."""
        return Form().plus(self, number)

    def without(self, part):
        """The form less the term of a name or Part."""
        return Form({p: n for p, n in self.parts.items() if p != part}, self.const)

    def key(self):
        """What two forms share if they are the same."""
        return (frozenset(self.parts.items()), self.const)

    def same(self, other):
        """Whether both forms are the same sum."""
        return self.key() == other.key()

    def specials(self):
        """The Parts of the form."""
        return [part for part in self.parts if isinstance(part, Part)]

    def divides_only(self):
        """Whether its Parts are quotients of forms without Parts, which the language has."""
        return all(part.kind not in FLIPPED and not part.forms[0].specials() for part in self.specials())

    def divided(self):
        """The names in its quotients."""
        return {name for part in self.specials() for each in part.forms for name in each.parts}

    def choice(self):
        """The first Part that is a min or max, or None."""
        return next((part for part in self.specials() if part.kind in FLIPPED), None)

    def of(self, name):
        """The coefficient of a name or Part."""
        return self.parts.get(name, 0)


class Part:
    """min or max of forms, or floord or ceild of a form by a positive number."""

    def __init__(self, kind, forms, by=None):
        self.kind, self.forms, self.by = kind, forms, by
        self.id = (kind, frozenset(form.key() for form in forms), by)

    def __eq__(self, other):
        return isinstance(other, Part) and self.id == other.id

    def __hash__(self):
        return hash(self.id)


def least_or_greatest(kind, forms):
    """The min or max of forms; of numbers it is a number."""
    if not any(form.parts for form in forms):
        return Form({}, {"min": min, "max": max}[kind](form.const for form in forms))
    return Form({Part(kind, forms): 1})


def expression_of(form, line=0):
    """The expression of a form whose Parts are quotients; a sum begins with a positive term if there is one."""
    terms = sorted(form.parts.items(), key=lambda part: part[1] < 0)
    terms = [(number, quotient_of(name, line) if isinstance(name, Part) else Expression("var", line, name))
             for name, number in terms]
    if form.const:
        first = form.const > 0 and terms and terms[0][0] < 0
        terms.insert(0 if first else len(terms), (form.const, None))
    total = None
    for number, name in terms:
        sign = "-" if number < 0 else "+"
        size = Expression("num", line, abs(number))
        if total is None and sign == "-" and (name is None or abs(number) != 1):
            size = Expression("neg", line, None, [size])
        term = size if name is None else name if abs(number) == 1 else Expression("bin", line, "*", [size, name])
        if total is not None:
            total = Expression("bin", line, sign, [total, term])
        else:
            total = Expression("neg", line, None, [term]) if term is name and sign == "-" else term
    return total if total is not None else Expression("num", line, 0)


def quotient_of(part, line):
    """The call of a quotient."""
    return Expression("call", line, part.kind, [expression_of(part.forms[0], line), Expression("num", line, part.by)])


def form_text(form):
    """The text of a form whose Parts are quotients."""
    return show(expression_of(form))


def compare_text(form, strict, subject):
    """form >= 0, or form > 0 where strict, as a comparison; the subject's term stands alone on the left."""
    mark, flipped = (">", "<") if strict else (">=", "<=")
    k = form.of(subject)
    if k:
        alone, rest = form_text(Form({subject: abs(k)})), form.without(subject)
        return "%s %s %s" % ((alone, flipped, form_text(rest)) if k < 0 else (alone, mark, form_text(rest.times(-1))))
    low = Form({p: -n for p, n in form.parts.items() if n < 0})
    high = Form({p: n for p, n in form.parts.items() if n > 0})
    if not low.parts:
        return "%s %s %s" % (form_text(high), mark, form_text(Form({}, -form.const)))
    return "%s %s %s" % (form_text(low), flipped, form_text(Form(high.parts, form.const)))


def conjunction(form, strict, line):
    """form >= 0 (or > 0) without Parts: pairs (form, strict) that hold together exactly if it holds."""
    part = form.choice()
    if part is not None:
        number, rest = form.of(part), form.without(part)
        if (number > 0) != (part.kind == "min"):
            raise NotAffine(line, "%s on this side of a comparison leaves a choice of bounds: "
                            "write if (..) S else if (..) S, or a loop for each" % part.kind)
        return [each for one in part.forms for each in conjunction(rest.plus(one, number), strict, line)]
    if form.specials():
        return conjunction(without_quotient(form, strict, line), False, line)
    return [(form, strict)]


def without_quotient(form, strict, line):
    """form >= 0 (or > 0), multiplied out by the divisor of its first floord or ceild."""
    part = form.specials()[0]
    number, rest, inner = form.of(part), form.without(part), part.forms[0]
    if abs(number) != 1:
        raise NotAffine(line, "%s times %d in a comparison: count by starting elements, as it = 0; it < N; it += %d"
                        % (part.kind, number, part.by))
    if strict:
        rest = Form(rest.parts, rest.const - 1)
    # floord(e, c) >= -G exactly where e + cG >= 0; ceild(e, c) >= -G where e + cG + c - 1 >= 0
    # ceild(e, c) <= G exactly where cG - e >= 0; floord(e, c) <= G where cG - e + c - 1 >= 0
    new = inner.plus(rest, part.by) if number == 1 else rest.times(part.by).plus(inner, -1)
    if (part.kind == "ceild") == (number == 1):
        new = Form(new.parts, new.const + part.by - 1)
    return new


def choices(form, kind, line):
    """The forms of which the form is the max (or min), each without max and min."""
    part = form.choice()
    if part is None:
        return [form]
    number, rest = form.of(part), form.without(part)
    if (number > 0) != (part.kind == kind):
        raise NotAffine(line, "a start of %s in a %s loop: write two loops, or an if around each" %
                        (part.kind if number > 0 else FLIPPED[part.kind], "rising" if kind == "max" else "falling"))
    return [each for one in part.forms for each in choices(rest.plus(one, number), kind, line)]
