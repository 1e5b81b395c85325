"""Values.

Values takes what is assigned, and gives a value of the language.
Comparisons, choices and casts of data become calls.
It refuses divisions but floord and ceild, products of indices, calls that give another value each time, and names that are not
declared."""

from prepare_parts.affine import MAX_NAMES, MIN_NAMES, QUOTIENTS, form_of, plain, said
from prepare_parts.expressions import Expression, show
from prepare_parts.forms import expression_of
from prepare_parts.report import NotAffine
from prepare_parts.signature import check_name

# Functions whose value is known to depend on their arguments alone; calls of others get a note.
MATHEMATICAL = """sqrt cbrt exp exp2 log log2 log10 pow sin cos tan asin acos atan atan2 sinh cosh tanh fabs abs labs floor
ceil fmin fmax fma hypot fmod round trunc erf""".split()
PURE = frozenset(MATHEMATICAL + [name + "f" for name in MATHEMATICAL]) | MIN_NAMES | MAX_NAMES
IMPURE = frozenset(["rand", "random", "drand48", "lrand48", "mrand48", "getchar", "clock", "time", "rtclock"])
# How a comparison of data is called, and whether its sides change places.
CALLED = {"<": ("less", False), ">": ("less", True), "<=": ("at_most", False), ">=": ("at_most", True),
          "==": ("equal", False), "!=": ("not_equal", False)}
NAMED = {"not": "negation", "tern": "select"}


class Values:
    """Takes values; indices is an Indices."""

    def __init__(self, state, indices):
        self.state, self.report, self.indices = state, state.report, indices
        self.vars, self.loop_names = state.function.vars, state.function.loop_names

    def value(self, e, known, line):
        """A value in the language; None after a refusal."""
        if e.kind == "bad":
            return None
        replaced = {name: known[name] for name in known if name in self.state.wanted}
        if self.indices.is_index(e, replaced, True):
            return self.number(e, known, replaced, line)
        if e.kind == "dec":
            return e
        if e.kind in ("var", "acc"):
            return self.access(e, known, line)
        if e.kind == "call":
            return self.call(e, known, line)
        if e.kind == "cmp" or e.kind == "tern" and e.kids[0].kind == "cmp":
            cond = e if e.kind == "cmp" else e.kids[0]
            if all(self.indices.is_index(kid, known, False) for kid in cond.kids):
                self.report.refuse(line, "%s compares indices in a value: write if and else" % show(cond))
                return None
        kids = [self.value(kid, known, line) for kid in e.kids]
        return None if None in kids else self.operation(e, kids, line)

    def number(self, e, known, replaced, line):
        """The value of an index expression."""
        try:
            new = self.indices.replaced(e, replaced, line)
            self.indices.check_names(new, "a value")
            form = form_of(new)
        except NotAffine as fault:
            text = fault.text
            if fault.operator == "/":
                text = "%s divides indices in a value: write a call, as half(N), or a decimal, as N / 2.0" % show(e)
            elif fault.operator == "*":
                text = "%s is a product of indices in a value: write a call, as times(i, j)" % show(e)
            if text:
                self.report.refuse(line, text)
            return None
        if not form.specials():
            return plain(new, self.report)
        if e.kind == "var":
            # (its assignment is refused if it stays)
            return self.access(e, known, line)
        self.report.refuse(line, "min, max or a division of indices in a value: write if and else, or a call")
        return None

    def operation(self, e, kids, line):
        """The value of an operator over values."""
        if e.kind in ("bin", "neg"):
            return Expression(e.kind, e.line, e.val, kids)
        if e.kind == "pos":
            self.report.change(line, "the sign + dropped")
            return kids[0]
        if e.kind == "cmp":
            name, swapped = CALLED[e.val]
            return self.made_call(e, name, [kids[1], kids[0]] if swapped else kids, line)
        if e.kind in ("and", "or"):
            new = kids[0]
            for kid in kids[1:]:
                pair = Expression(e.kind, line, None, [new, kid])
                new = self.made_call(pair, "both" if e.kind == "and" else "either", pair.kids, line)
            return new
        return self.made_call(e, NAMED.get(e.kind) or "to_" + e.val, kids, line)

    def made_call(self, e, name, kids, line):
        """A call in place of an operator."""
        self.check_new_name(name, line)
        new = Expression("call", e.line, name, kids)
        self.report.change(line, "%s written as %s" % (show(e), show(new)))
        return new

    def check_new_name(self, name, line):
        """Refuses a new call whose name the function has."""
        if name in self.vars or name in self.loop_names or name in self.state.called:
            self.report.refuse(line, "a call of %s is needed here, and the function has that name already: "
                               "write another name for it" % name)

    def call(self, e, known, line):
        """The value of a call."""
        if e.val in QUOTIENTS:
            return self.quotient(e, known, line)
        if e.val in self.vars or e.val in self.loop_names:
            self.report.refuse(line, "%s is called and is the name of a parameter or local: write another name for one"
                               % e.val)
            return None
        if e.val in IMPURE:
            self.report.refuse(line, "%s gives another value at each call: make what it gives an array parameter" % e.val)
            return None
        check_name(e.val, line, self.report)
        if e.val not in PURE:
            self.report.change(line, "%s is taken as a function of its arguments alone" % e.val)
        kids = [self.value(kid, known, line) for kid in e.kids]
        return None if None in kids else Expression("call", e.line, e.val, kids)

    def quotient(self, e, known, line):
        """The value of a call of floord or ceild."""
        replaced = {name: known[name] for name in known if name in self.state.wanted}
        new, form = self.indices.index(e, replaced, "a value", line)
        if new is None or not form.specials():
            return new
        if form.divides_only():
            return self.quotients(new, form, line)
        self.report.refuse(line, "min or max in a quotient: write if and else")
        return None

    def quotients(self, e, form, line):
        """An index expression of quotients, as the language writes it."""
        new = expression_of(form, e.line)
        if show(new) != said(e):
            self.report.change(line, "%s written as %s" % (said(e), show(new)))
        return new

    def access(self, e, known, line):
        """A scalar or an element, as a value or a target; None after a refusal."""
        var = self.vars.get(e.val)
        fault = self.fault_of(e, var)
        if fault:
            self.report.refuse(line, fault)
        if fault is not None:
            return None
        if e.kind == "var":
            return e
        subs = []
        for kid in e.kids:
            new, form = self.indices.index(kid, known, "a subscript of %s" % e.val, line)
            if new is not None and form.specials() and form.divides_only():
                new = self.quotients(new, form, line)
            elif new is not None and form.specials():
                self.report.refuse(line, "min or max in a subscript of %s: "
                                   "write if and else, or count the smaller index" % e.val)
                new = None
            subs.append(new)
        return None if None in subs else Expression("acc", e.line, e.val, subs)

    def fault_of(self, e, var):
        """Why an access is none, or None; an empty text if it is reported already."""
        if var is None or e.val not in self.state.scope:
            if e.val in self.loop_names or e.val in self.vars:
                return "%s is read outside of its loop or block" % e.val
            return "%s is not declared in the function: make it a parameter" % e.val
        if var.kind == "bad":
            return ""
        if e.kind == "var" and var.kind == "arr":
            return "%s without its subscripts: write an element" % e.val
        if e.kind == "var" and var.kind == "iter":
            return "%s is read outside of its loop: write what it holds there" % e.val
        if e.kind == "acc" and (var.kind != "arr" or len(e.kids) != len(var.type.dims)):
            return ("%s has %d subscripts and %d extents: write one subscript for each extent"
                    % (e.val, len(e.kids), len(var.type.dims)))
        return None
