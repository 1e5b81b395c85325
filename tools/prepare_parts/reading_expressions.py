"""Expressions as pycparser gives them.

ExpressionReader takes nodes, and gives expressions; what it refuses becomes an expression of kind bad."""

import re

from pycparser import c_ast

from prepare_parts.declarations import Types
from prepare_parts.expressions import Expression, with_suffix_dropped

COMPARED = ("<", "<=", ">", ">=", "==", "!=")
STEPS = ("p++", "p--", "++", "--")
# What is said of nodes that no expression of the language has.
ADVICE = {
    "Assignment": "an assignment in a value: write it as a statement of its own",
    "ExprList": "a comma between expressions: write a statement for each",
    "StructRef": "a member of a structure: write an array for each member",
    "Compound": "braces in an expression: write statements in front of it",
    "CompoundLiteral": "braces in an expression: write statements in front of it",
    "InitList": "braces in an expression: write statements in front of it",
}


class ExpressionReader:
    """Reads expressions, and knows the line that it has come to."""

    def __init__(self, report):
        self.report, self.at = report, 1
        self.types = Types(report, self.read_alone)
        self.readers = {
            c_ast.Constant: self.read_constant, c_ast.ID: self.read_name, c_ast.ArrayRef: self.read_element,
            c_ast.BinaryOp: self.read_operation, c_ast.UnaryOp: self.read_unary, c_ast.TernaryOp: self.read_choice,
            c_ast.Cast: self.read_cast, c_ast.FuncCall: self.read_call,
        }

    def line_of(self, node, line=None):
        """The line of a node; that of what is around it where pycparser keeps none."""
        coord = getattr(node, "coord", None)
        self.at = coord.line if coord is not None and coord.line else line or self.at
        return self.at

    def bad(self, line, text):
        """A refusal, as an expression."""
        self.report.refuse(line, text)
        return Expression("bad", line)

    def read(self, node):
        """The expression of a node."""
        line = self.line_of(node)
        reader = self.readers.get(type(node))
        if reader is not None:
            return reader(node, line)
        word = type(node).__name__
        return self.bad(line, ADVICE.get(word) or "%s in an expression is not read" % word)

    def read_alone(self, node):
        """The expression of a node with no operator around it."""
        return with_suffix_dropped(self.read(node), self.report)

    def read_name(self, node, line):
        """A scalar, iterator or parameter, or an array without subscripts."""
        return Expression("var", line, node.name)

    def read_element(self, node, line):
        """An element, with all its subscripts."""
        subs = []
        while isinstance(node, c_ast.ArrayRef):
            subs.insert(0, self.read_alone(node.subscript))
            node = node.name
        if isinstance(node, c_ast.ID):
            return Expression("acc", line, node.name, subs)
        return self.bad(line, "subscripts behind something other than a name: write an array parameter with all extents")

    def read_operation(self, node, line):
        """An operator with two sides."""
        kids, op = [self.read(node.left), self.read(node.right)], node.op
        for kid in kids:
            if kid.unsigned:
                return self.bad(line, "an unsigned number in arithmetic or a comparison: write %d" % kid.val)
        if op in COMPARED:
            return Expression("cmp", line, op, kids)
        if op in ("&&", "||"):
            kind = "and" if op == "&&" else "or"
            return Expression(kind, line, None, [e for kid in kids for e in (kid.kids if kid.kind == kind else [kid])])
        if op in ("+", "-", "*", "/", "%"):
            return Expression("bin", line, op, kids)
        if op not in ("<<", ">>"):
            return self.bad(line, "the operator %s: write a call, as bits_and(x, y)" % op)
        if all(kid.kind == "num" for kid in kids) and kids[1].val < 31:
            left, right = kids[0].val, kids[1].val
            number = left << right if op == "<<" else left >> right
            self.report.change(line, "%d %s %d written as %d" % (left, op, right, number))
            return Expression("num", line, number)
        return self.bad(line, "%s: write 2 * i in place of i << 1 in an index, and a call elsewhere" % op)

    def read_unary(self, node, line):
        """An operator with one side."""
        if node.op in ("-", "+", "!"):
            kid = self.read(node.expr)
            if kid.unsigned:
                return self.bad(line, "an unsigned number in arithmetic: write %d" % kid.val)
            return Expression({"-": "neg", "+": "pos", "!": "not"}[node.op], line, None, [kid])
        if node.op in STEPS:
            return self.bad(line, "%s in a value: write it as a statement of its own" % node.op.replace("p", ""))
        if node.op == "&":
            return self.bad(line, "& takes an address: write array parameters with all extents")
        if node.op == "*":
            return self.bad(line, "* reads through a pointer: write an array of extent 1, and its element [0]")
        return self.bad(line, "the operator %s: write a number or a call" % node.op)

    def read_choice(self, node, line):
        """A condition and two values."""
        kids = [self.read(node.cond), self.read(node.iftrue), self.read(node.iffalse)]
        if any(kid.unsigned for kid in kids):
            return self.bad(line, "an unsigned number in arithmetic: leave out its suffix")
        return Expression("tern", line, None, kids)

    def read_cast(self, node, line):
        """A cast to a type of the language."""
        kid = self.read(node.expr)
        inner = node.to_type.type
        if not isinstance(inner, c_ast.TypeDecl) or not isinstance(inner.type, c_ast.IdentifierType):
            return self.bad(line, "a cast to a pointer or structure: write array parameters with all extents")
        found = self.types.read(inner, "a cast", line)
        if found is None:
            return Expression("bad", line)
        if not found.exact or found.dims:
            return self.bad(line, "a cast to %s: write a call" % found.said)
        return Expression("cast", line, found.base, [with_suffix_dropped(kid, self.report)])

    def read_call(self, node, line):
        """A call by name."""
        if not isinstance(node.name, c_ast.ID):
            return self.bad(line, "a call through an expression: write a call by name")
        args = [self.read_alone(arg) for arg in (node.args.exprs if node.args else [])]
        return Expression("call", line, node.name.name, args)

    def read_constant(self, node, line):
        """A number or a decimal."""
        text = node.value
        found = re.match(r"(0[xX][0-9a-fA-F]+|0[bB][01]+|[0-9]+)([uUlL]*)$", text)
        if found:
            return self.read_whole(text, found[1], found[2].lower(), line)
        if re.match(r"(\d+\.\d*|\.\d+|\d+(?=[eE]))([eE][+-]?\d+)?[fFlL]?$", text):
            return Expression("dec", line, text)
        if node.type in ("char", "string") or text[:1] in "\"'L":
            return self.bad(line, "a letter or a string: write a number")
        return self.bad(line, "the number %s: write it in decimal" % text)

    def read_whole(self, text, digits, suffix, line):
        """A whole number, of digits and a suffix."""
        number = int(digits, 8) if re.match(r"0[0-7]+$", digits) else int(digits, 0)
        is_decimal = re.match(r"0$|[1-9]", digits)
        if not is_decimal and number > 2147483647:
            return self.bad(line, "%s may be unsigned: write it in decimal" % text)
        if not is_decimal or suffix and "u" not in suffix:
            self.report.change(line, "%s written as %d" % (text, number))
        return Expression("num", line, number, (), "u" in suffix)
