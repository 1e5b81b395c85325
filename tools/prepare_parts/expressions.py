"""Expressions: their tree, and their text.

Nothing is refused here."""

LEVEL = {"tern": 0, "or": 1, "and": 2, "cmp": 3, "bin": 4, "neg": 6, "pos": 6, "not": 6, "cast": 6}
SIGNS = {"neg": "-", "pos": "+", "not": "!"}
JOINED = {"and": " && ", "or": " || "}


class Expression:
    """A node: its kind, line, value and parts.

    The kinds are num, dec, var, acc, call, bin, neg, pos, not, cmp, and, or, tern, cast and bad."""

    def __init__(self, kind, line, val=None, kids=(), unsigned=False):
        self.kind, self.line, self.val, self.kids, self.unsigned = kind, line, val, list(kids), unsigned

    def same(self, other):
        """Whether both trees are the same, wherever they stand."""
        return (self.kind == other.kind and self.val == other.val and len(self.kids) == len(other.kids)
                and all(a.same(b) for a, b in zip(self.kids, other.kids)))

    def parts(self):
        """Gives the node and all below it."""
        queue = [self]
        while queue:
            e = queue.pop()
            yield e
            queue += e.kids

    def names(self):
        """The names of scalars, iterators, parameters and arrays."""
        return {e.val for e in self.parts() if e.kind in ("var", "acc")}

    def calls(self):
        """The names that are called."""
        return {e.val for e in self.parts() if e.kind == "call"}

    def has(self, *kinds):
        """Whether a node has one of the kinds."""
        return any(e.kind in kinds for e in self.parts())

    def with_kids(self, kids):
        """The same node over other parts."""
        return Expression(self.kind, self.line, self.val, kids, self.unsigned)


def level(e):
    """How tightly the operator of an expression binds."""
    return 5 if e.kind == "bin" and e.val in "*/%" else LEVEL.get(e.kind, 7)


def show(e, least=0):
    """The expression's text, in parentheses where it binds less than the given level."""
    at = level(e)
    if e.kind == "num":
        text = str(e.val)
    elif e.kind in ("dec", "var"):
        text = e.val
    elif e.kind == "acc":
        text = e.val + "".join("[%s]" % show(kid) for kid in e.kids)
    elif e.kind == "call":
        text = "%s(%s)" % (e.val, ", ".join(show(kid) for kid in e.kids))
    elif e.kind in ("bin", "cmp"):
        text = "%s %s %s" % (show(e.kids[0], at), e.val, show(e.kids[1], at + 1))
    elif e.kind in JOINED:
        text = JOINED[e.kind].join(show(kid, at) for kid in e.kids)
    elif e.kind in SIGNS:
        text = SIGNS[e.kind] + show(e.kids[0], 7)
    elif e.kind == "tern":
        text = "%s ? %s : %s" % (show(e.kids[0], 1), show(e.kids[1], 1), show(e.kids[2], 0))
    elif e.kind == "cast":
        text = "(%s) %s" % (e.val, show(e.kids[0], 6))
    else:
        text = "?"
    return "(" + text + ")" if at < least else text


def whole(e):
    """The number of an expression of numbers alone, or None."""
    if e.kind == "num":
        return e.val
    if e.kind in ("neg", "pos"):
        inner = whole(e.kids[0])
        return inner if inner is None or e.kind == "pos" else -inner
    if e.kind == "bin" and e.val in "+-*":
        left, right = whole(e.kids[0]), whole(e.kids[1])
        if left is not None and right is not None:
            return {"+": left + right, "-": left - right, "*": left * right}[e.val]
    return None


def with_suffix_dropped(e, report):
    """A number with an unsigned suffix that stands alone: the suffix goes."""
    if e.unsigned:
        report.change(e.line, "%du written as %d" % (e.val, e.val))
        return Expression("num", e.line, e.val)
    return e
