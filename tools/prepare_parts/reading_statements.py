"""Statements as pycparser gives them.

StatementReader takes nodes, and gives lists of statements; what it refuses is left out or has an expression of kind bad."""

from pycparser import c_ast

from prepare_parts.expressions import Expression, show, whole
from prepare_parts.reading_expressions import STEPS
from prepare_parts.statements import Assignment, Block, Branch, Declaration, Loop, Return

# What is said of nodes that no statement of the language has.
ADVICE = {
    "While": "while: write a for with an affine condition, and a parameter for the number of turns",
    "DoWhile": "do: write a for with an affine condition, and a parameter for the number of turns",
    "Switch": "switch: write if and else",
    "Goto": "goto: write for and if",
    "Label": "a label: write for and if",
    "Break": "break: write a for with an affine condition, and an if around what is passed over",
    "Continue": "continue: write an if around what is passed over",
    "ExprList": "a comma between expressions: write a statement for each",
    "FuncCall": "a call that stands alone: write its body in its place, or an assignment of what it gives",
    "Typedef": "a typedef in the function: move it in front of the function",
}


class StatementReader:
    """Reads statements; expressions is an ExpressionReader."""

    def __init__(self, report, expressions):
        self.report, self.expressions = report, expressions
        self.readers = {
            c_ast.Compound: self.read_block, c_ast.Decl: self.read_locals, c_ast.DeclList: self.read_locals,
            c_ast.EmptyStatement: lambda node, line: [], c_ast.For: self.read_loop, c_ast.If: self.read_branch,
            c_ast.Assignment: self.read_assignment, c_ast.UnaryOp: self.read_step_alone, c_ast.Return: self.read_return,
        }

    def read(self, node):
        """The statements of a node."""
        line = self.expressions.line_of(node)
        return self.readers.get(type(node), self.refuse)(node, line)

    def refuse(self, node, line):
        """No statement, and what to write instead."""
        advice = ADVICE.get(type(node).__name__, "a statement that does nothing: leave it out")
        if isinstance(node, c_ast.FuncCall) and isinstance(node.name, c_ast.ID):
            advice = "%s: %s" % (node.name.name, advice)
        self.report.refuse(line, advice)
        return []

    def read_all(self, nodes):
        """The statements of nodes, one behind the other."""
        return [s for node in nodes or [] for s in self.read(node)]

    def read_block(self, node, line):
        """Statements in braces."""
        return [Block(line, self.read_all(node.block_items))]

    def read_locals(self, node, _line):
        """Declarations."""
        return [self.read_local(each) for each in ([node] if isinstance(node, c_ast.Decl) else node.decls)]

    def read_branch(self, node, line):
        """An if, with or without else."""
        then = self.read(node.iftrue) if node.iftrue else []
        other = self.read(node.iffalse) if node.iffalse else None
        return [Branch(line, self.expressions.read(node.cond), then, other)]

    def read_return(self, node, line):
        """A return."""
        return [Return(line, node.expr is not None)]

    def read_step_alone(self, node, line):
        """++ and -- as statements."""
        if node.op not in STEPS:
            return self.refuse(node, line)
        return [Assignment(line, self.expressions.read(node.expr), node.op[-1] + "=", Expression("num", line, 1), True)]

    def read_assignment(self, node, line):
        """An assignment to a scalar or an element."""
        target, value = self.expressions.read(node.lvalue), self.expressions.read_alone(node.rvalue)
        if target.kind not in ("var", "acc", "bad"):
            target = self.expressions.bad(line, "an assignment to something other than a scalar or an element of an array")
        if node.op not in ("=", "+=", "-=", "*=", "/=", "%="):
            self.report.refuse(line, "the operator %s: write a call, as x = bits_and(x, y)" % node.op)
        return [Assignment(line, target, node.op, value)]

    def read_local(self, node):
        """The declaration of one local, and its initial value."""
        line, name = self.expressions.line_of(node), node.name
        if name is None:
            self.report.refuse(line, "a type declared in the function: "
                               "write arrays and scalars of int, long, float and double")
            return Declaration(line, "?")
        for word in list(node.storage or []) + list(node.funcspec or []):
            if word == "static":
                self.report.refuse(line, "%s is static, and keeps its value from call to call: make it a parameter" % name)
            elif word == "extern":
                self.report.refuse(line, "%s is extern: make it a parameter" % name)
            else:
                self.report.change(line, "%s dropped" % word)
        found = self.expressions.types.read(node.type, name, line)
        init = None
        if node.init is not None:
            if isinstance(node.init, c_ast.InitList) or found is not None and found.dims:
                self.report.refuse(line, "%s has initial values in braces: write an assignment for each element" % name)
            else:
                init = self.expressions.read_alone(node.init)
        return Declaration(line, name, found, init)

    def read_loop(self, node, line):
        """A loop; what is missing in its head is refused."""
        loop = Loop(line, self.read(node.stmt) if node.stmt else [])
        self.read_start(loop, node.init)
        if node.cond is None:
            self.report.refuse(line, "a loop without a condition: write one, as i < N")
        else:
            loop.cond = self.expressions.read(node.cond)
        self.read_step(loop, node.next)
        return [loop]

    def read_start(self, loop, first):
        """The variable of a loop, its type and its start."""
        if isinstance(first, c_ast.DeclList) and len(first.decls) == 1 and first.decls[0].init is not None:
            local = self.read_local(first.decls[0])
            loop.var, loop.type, loop.typed, loop.start = local.name, local.type, True, local.init
            if local.type is not None and (not local.type.index or local.type.dims):
                self.report.refuse(loop.line, "%s counts a loop and is %s: write int or long%s"
                                   % (local.name, local.type.said, local.type.wraps()))
                loop.type = None
        elif isinstance(first, c_ast.Assignment) and first.op == "=" and isinstance(first.lvalue, c_ast.ID):
            loop.var, loop.start = first.lvalue.name, self.expressions.read_alone(first.rvalue)
        else:
            self.report.refuse(loop.line, "the start of a loop: write one assignment, as i = 0")

    def read_step(self, loop, node):
        """The step of a loop: a number, and its text."""
        name, number, text = None, None, None
        if isinstance(node, c_ast.UnaryOp) and node.op in STEPS and isinstance(node.expr, c_ast.ID):
            name, number = node.expr.name, 1 if "+" in node.op else -1
            text = name + ("++" if number == 1 else "--")
        elif isinstance(node, c_ast.Assignment) and isinstance(node.lvalue, c_ast.ID):
            name, value = node.lvalue.name, self.expressions.read_alone(node.rvalue)
            if node.op in ("+=", "-="):
                number, text = self.step_by(name, node.op, value, loop.line)
            elif node.op == "=" and value.kind == "bin" and value.val in "+-":
                number, text = self.step_to(name, value, loop.line)
        if not number:
            self.report.refuse(loop.line, "the step of a loop: write i++, i--, i += 2 or i -= 2, with a number")
        elif loop.var is not None and name != loop.var:
            self.report.refuse(loop.line, "the step changes %s and the loop runs %s: write the step of %s"
                               % (name, loop.var, loop.var))
        else:
            loop.step, loop.step_text = number, text

    def step_by(self, name, op, value, line):
        """The number and the text of a step by += or -=; the number is None if it is none."""
        number = whole(value)
        if number is None:
            return None, None
        number = -number if op == "-=" else number
        text = "%s %s= %d" % (name, "+" if number > 0 else "-", abs(number))
        if value.kind != "num":
            self.report.change(line, "the step of %s written as %s" % (name, text))
        return number, text

    def step_to(self, name, value, line):
        """The number and the text of a step as i = i + 2; the number is None if it is none."""
        (left, right), number = value.kids, None
        if left.kind == "var" and left.val == name:
            number = whole(right)
            number = -number if number is not None and value.val == "-" else number
        elif right.kind == "var" and right.val == name and value.val == "+":
            number = whole(left)
        if number is None:
            return None, None
        text = "%s = %s %s %d" % (name, name, "+" if number > 0 else "-", abs(number))
        if text != "%s = %s" % (name, show(value)):
            self.report.change(line, "the step of %s written as %s" % (name, text))
        return number, text
