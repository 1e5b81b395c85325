"""Kernels of docs/LANGUAGE.md as relations in the notation of isl.

This front end shares nothing with the program: it reads the text of a kernel on its own, and raises Unknown where it does not understand something. What
it makes of a kernel are domains of assignments over the counters of their loops (which count turns from 0), what each read and each write touches, and when
it happens, in the order of the text.
"""

import re

TYPES = ("int", "long", "float", "double")
RESERVED = set(TYPES) | {
    "auto", "break", "case", "char", "const", "continue", "default", "do", "else", "enum", "extern", "for", "goto", "if", "inline", "register", "restrict",
    "return", "short", "signed", "sizeof", "static", "struct", "switch", "typedef", "union", "unsigned", "void", "volatile", "while"}
TOKEN = re.compile(
    r"(?P<blank>[ \t\n\v\f\r]+|//[^\n]*|/\*.*?\*/)"
    r"|(?P<decimal>(?:[0-9]+\.[0-9]*|\.[0-9]+)(?:[eE][+-]?[0-9]+)?[fFlL]?|[0-9]+[eE][+-]?[0-9]+[fFlL]?)"
    r"|(?P<number>0|[1-9][0-9]*)"
    r"|(?P<word>[A-Za-z_][A-Za-z_0-9]*)"
    r"|(?P<mark>\+\+|--|\+=|-=|\*=|/=|%=|<=|>=|==|&&|[()\[\]{},;=+\-*/%<>])", re.S)


class Unknown(Exception):
    """The text holds something that this front end does not understand."""


def tokens_of(text):
    """The pairs of kind and spelling; blanks and comments are left out."""
    found, at = [], 0
    while at < len(text):
        match = TOKEN.match(text, at)
        if match is None:
            raise Unknown(f"no token begins at {text[at:at + 20]!r}")
        if match.lastgroup in ("decimal", "number") and re.match(r"[A-Za-z_0-9.]", text[match.end():match.end() + 1]):
            raise Unknown(f"no number goes on like {text[at:match.end() + 1]!r}")
        if match.lastgroup != "blank":
            found.append((match.lastgroup, match.group()))
        at = match.end()
    return found


def split_pragmas(text):
    """The text without its directives and comments, and what stands behind `#pragma affine`, line by line."""
    pragmas = []

    def replaced(match):
        directive = match.group(1)
        if directive is None:
            return " "
        word, rest = re.fullmatch(r"#([A-Za-z_0-9]*)(.*)", directive, re.S).groups()
        affine_line = re.fullmatch(r"[ \t\v\f\r]*affine(?![A-Za-z_0-9])(.*)", rest, re.S)
        if word == "pragma" and affine_line:
            pragmas.append(affine_line.group(1))
        elif word not in ("include", "pragma"):
            raise Unknown(f"a directive: {directive}")
        return ""

    return re.sub(r"/\*.*?\*/|//[^\n]*|^[ \t]*(#[^\n]*)", replaced, text, flags=re.S | re.M), pragmas


class Reader:
    """Reads tokens by the grammar of docs/LANGUAGE.md.

    Expressions are tuples: ("number", n), ("decimal", text), ("access", name, subscripts), ("call", name, arguments), ("-", e) and
    (operator, left, right). Statements are ("loop", typed, name, start, cond, step, body), ("branch", cond, taken, other) and
    ("assign", name, subscripts, value); a body is a list of them, and a cond a list of comparisons.
    """

    def __init__(self, tokens):
        self.tokens, self.at = tokens, 0

    def peek(self, ahead=0):
        return self.tokens[self.at + ahead] if self.at + ahead < len(self.tokens) else ("end", "")

    def take(self, *wanted):
        kind, spelling = self.peek()
        if spelling not in wanted:
            raise Unknown(f"{spelling!r} stands where {' or '.join(wanted)} is due")
        self.at += 1
        return spelling

    def took(self, *wanted):
        if self.peek()[1] in wanted and self.peek()[0] != "end":
            return self.take(*wanted)
        return None

    def name(self):
        kind, spelling = self.peek()
        if kind != "word" or spelling in RESERVED:
            raise Unknown(f"{spelling!r} stands where a name is due")
        self.at += 1
        return spelling

    def number(self):
        kind, spelling = self.peek()
        if kind != "number":
            raise Unknown(f"{spelling!r} stands where a number is due")
        self.at += 1
        return int(spelling)

    def end(self):
        if self.peek()[0] != "end":
            raise Unknown(f"{self.peek()[1]!r} stands where the end is due")

    def brackets(self):
        found = []
        while self.took("["):
            found.append(self.expression())
            self.take("]")
        return found

    def expression(self):
        left = self.term()
        while operator := self.took("+", "-"):
            left = (operator, left, self.term())
        return left

    def term(self):
        left = self.unary()
        while operator := self.took("*", "/", "%"):
            left = (operator, left, self.unary())
        return left

    def unary(self):
        if self.took("-"):
            return ("-", self.unary())
        kind, spelling = self.peek()
        if kind == "number":
            return ("number", self.number())
        if kind == "decimal":
            self.at += 1
            return ("decimal", spelling)
        if self.took("("):
            inner = self.expression()
            self.take(")")
            return inner
        name = self.name()
        if not self.took("("):
            return ("access", name, self.brackets())
        arguments = []
        if not self.took(")"):
            arguments.append(self.expression())
            while self.took(","):
                arguments.append(self.expression())
            self.take(")")
        return ("call", name, arguments)

    def condition(self):
        found = self.part()
        while self.took("&&"):
            found = found + self.part()
        return found

    def part(self):
        start = self.at
        if self.took("("):
            try:
                found = self.condition()
                self.take(")")
                if self.peek()[1] in ("&&", ")", ";", "") or self.peek()[0] == "end":
                    return found
            except Unknown:
                pass
            self.at = start
        left = self.expression()
        relation = self.take("<", "<=", ">", ">=", "==")
        return [(relation, left, self.expression())]

    def type(self):
        constant = self.took("const")
        return self.take(*TYPES) if constant else self.took(*TYPES)

    def parameters(self):
        self.take("(")
        if self.peek()[1] == "void":
            self.take("void")
            self.take(")")
            return []
        found = []
        if not self.took(")"):
            while True:
                kind = self.type()
                if kind is None:
                    raise Unknown("a parameter without a type")
                found.append((kind, self.name(), self.brackets()))
                if not self.took(","):
                    break
            self.take(")")
        return found

    def declarations(self):
        found = []
        while kind := self.type():
            found.append((kind, self.name(), self.brackets()))
            while self.took(","):
                found.append((kind, self.name(), self.brackets()))
            self.take(";")
        return found

    def function(self):
        self.take("void")
        self.name()
        parameters = self.parameters()
        self.take("{")
        locals_, body = self.declarations(), []
        while not self.took("}"):
            body += self.statement()
        self.end()
        return parameters, locals_, body

    def statement(self):
        if self.took(";"):
            return []
        if self.took("{"):
            body = []
            while not self.took("}"):
                body += self.statement()
            return body
        if self.took("for"):
            return [self.loop()]
        if self.took("if"):
            self.take("(")
            condition = self.condition()
            self.take(")")
            taken = self.statement()
            return [("branch", condition, taken, self.statement() if self.took("else") else [])]
        name, subscripts = self.name(), self.brackets()
        operator = self.take("=", "+=", "-=", "*=", "/=", "%=")
        value = self.expression()
        self.take(";")
        if operator != "=":
            value = (operator[0], ("access", name, subscripts), value)
        return [("assign", name, subscripts, value)]

    def loop(self):
        self.take("(")
        typed = self.took("int", "long") is not None
        name = self.name()
        self.take("=")
        start = self.expression()
        self.take(";")
        condition = self.condition()
        self.take(";")
        step = self.step(name)
        self.take(")")
        return ("loop", typed, name, start, condition, step, self.statement())

    def step(self, name):
        if sign := self.took("++", "--"):
            changed, amount = self.name(), 1
        else:
            changed = self.name()
            if sign := self.took("++", "--"):
                amount = 1
            elif sign := self.took("+=", "-="):
                amount = self.number()
            else:
                self.take("=")
                if self.name() != name:
                    raise Unknown("a step from another name")
                sign, amount = self.take("+", "-"), self.number()
        if changed != name:
            raise Unknown("a step of another name")
        return amount if sign[0] == "+" else -amount


# Forms: affine expressions as dictionaries from columns to coefficients, the constant under the key "".

def plus(left, right, times=1):
    return {key: left.get(key, 0) + times * right.get(key, 0) for key in {**left, **right}}


def scaled(form, factor):
    return {key: factor * value for key, value in form.items()}


def constant_of(form):
    return form.get("", 0) if not any(value for key, value in form.items() if key) else None


def affine(expression, scope):
    """The form of an index expression; names in scope stand for forms."""
    kind = expression[0]
    if kind == "number":
        return {"": expression[1]}
    if kind == "access":
        if expression[2] or expression[1] not in scope:
            raise Unknown(f"{expression[1]} in an index expression")
        return scope[expression[1]]
    if kind == "-" and len(expression) == 2:
        return scaled(affine(expression[1], scope), -1)
    if kind in ("+", "-"):
        return plus(affine(expression[1], scope), affine(expression[2], scope), 1 if kind == "+" else -1)
    if kind == "*":
        left, right = affine(expression[1], scope), affine(expression[2], scope)
        if constant_of(left) is not None:
            return scaled(right, constant_of(left))
        if constant_of(right) is not None:
            return scaled(left, constant_of(right))
    raise Unknown(f"{kind} in an index expression")


def spell(form):
    words = [str(value) if not key else key if value == 1 else f"{value}{key}" for key, value in sorted(form.items()) if value]
    return " + ".join(words) if words else "0"


def spell_condition(condition, scope):
    return " and ".join(f"{spell(affine(left, scope))} {'=' if relation == '==' else relation} {spell(affine(right, scope))}" for relation, left, right in condition)


def is_index(expression, arrays):
    """Whether no access to an array or scalar, call or decimal is in it, so that it is one number."""
    kind = expression[0]
    if kind == "number":
        return True
    if kind in ("decimal", "call"):
        return False
    if kind == "access":
        return expression[1] not in arrays
    return all(is_index(part, arrays) for part in expression[1:])


def depth_of(body):
    """How many loops are inside each other."""
    depths = [0]
    for statement in body:
        if statement[0] == "loop":
            depths.append(1 + depth_of(statement[6]))
        elif statement[0] == "branch":
            depths += [depth_of(statement[2]), depth_of(statement[3])]
    return max(depths)


def loops_in(body):
    for statement in body:
        if statement[0] == "loop":
            yield statement
            yield from loops_in(statement[6])
        elif statement[0] == "branch":
            yield from loops_in(statement[2])
            yield from loops_in(statement[3])


class Model:
    """What a kernel does.

    params: the names of its integer parameters, in order; parameter k is spelled pk. assignments: for each the number of loops around (counters c0, c1 ..)
    and the reads of its value, as pairs of node number and array name. lines: the relations from which isl computes the flow, of reads and writes to
    elements and of both to times. domains: for each assignment its domain twice, by the bounds of the loops and turn by turn.
    """

    def __init__(self, text):
        plain, pragmas = split_pragmas(text)
        parameters, locals_, body = Reader(tokens_of(plain)).function()
        iterators = {loop[2] for loop in loops_in(body) if not loop[1]}
        self.params = [name for kind, name, extents in parameters if kind in ("int", "long") and not extents]
        self.arrays = {}
        for kind, name, extents in [p for p in parameters if p[1] not in self.params] + [l for l in locals_ if l[1] not in iterators]:
            if name in self.arrays or name in self.params:
                raise Unknown(f"{name} is declared twice")
            self.arrays[name] = len(extents)
        for kind, name, extents in locals_:
            if name in iterators and (kind not in ("int", "long") or extents):
                raise Unknown(f"{name} is no name of loops")
        if not iterators <= {name for kind, name, extents in locals_}:
            raise Unknown("a name of loops is not declared")
        self.names, self.depth = list(self.arrays), depth_of(body)
        self.scope = {name: {f"p{k}": 1} for k, name in enumerate(self.params)}
        self.head = "[" + ", ".join(f"p{k}" for k in range(len(self.params))) + "] -> "
        self.context = [row for line in pragmas for row in self.pragma(line)]
        self.assignments, self.lines, self.domains, self.places = [], [], [], 0
        self.walk(body, self.scope, [], [], [], [])

    def pragma(self, line):
        reader = Reader(tokens_of(line))
        word = reader.name()
        if word == "context":
            condition = reader.condition()
            reader.end()
            return [spell_condition(condition, self.scope)]
        if word not in ("commutative", "output"):
            raise Unknown(f"a pragma: {word}")
        return []

    def walk(self, body, scope, plain, exact, counters, when):
        """Statements in the order of the text. plain and exact are conditions on the counters, and say the same: a loop runs a turn where its condition
        holds at its first turn and at this one, or, as the language has it, at no turn up to this one fails."""
        for statement in body:
            if statement[0] == "branch":
                condition = spell_condition(statement[1], scope)
                self.walk(statement[2], scope, plain + [condition], exact + [condition], counters, when)
                self.walk(statement[3], scope, plain + [f"not ({condition})"], exact + [f"not ({condition})"], counters, when)
                continue
            self.places += 1
            if statement[0] == "assign":
                self.assign(statement, scope, plain, exact, counters, when + [str(self.places)])
                continue
            _, typed, name, start, condition, step, inner = statement
            if typed and (name in scope or name in self.arrays):
                raise Unknown(f"{name} is declared twice")
            if step == 0 or name in scope:
                raise Unknown(f"the loop of {name}")
            first, counter = affine(start, scope), f"c{len(counters)}"
            at = lambda turn: spell_condition(condition, {**scope, name: plus(first, {turn: step})})
            entered = spell_condition(condition, {**scope, name: first})
            self.walk(inner, {**scope, name: plus(first, {counter: step})}, plain + [f"{counter} >= 0", entered, at(counter)],
                      exact + [f"{counter} >= 0", f"not (exists u : 0 <= u <= {counter} and not ({at('u')}))"], counters + [counter], when + [str(self.places), counter])

    def assign(self, statement, scope, plain, exact, counters, when):
        _, target, subscripts, value = statement
        number, indices = len(self.assignments), ", ".join(counters)
        domain = " and ".join(self.context + plain) or "true"
        self.reads = []
        count = self.nodes(value, scope, 0)
        self.assignments.append((len(counters), [(node, name) for node, name, cell in self.reads]))
        self.domains.append(f"domain {self.head}{{ S{number}[{indices}] : {domain} }}")
        self.domains.append(f"turns {self.head}{{ S{number}[{indices}] : {' and '.join(self.context + exact) or 'true'} }}")
        for node, name, cell in self.reads:
            self.event("read", f"S{number}_{node}[{indices}]", cell, domain, when + ["0"])
        self.event("write", f"S{number}[{indices}]", self.cell(target, subscripts, scope), domain, when + ["1"])

    def event(self, kind, instance, cell, domain, when):
        # places and counters in turn, from the outermost loop on, then the place of the assignment; within it reads come before the write
        padded = when[:-1] + ["0"] * (2 * self.depth + 2 - len(when)) + when[-1:]
        self.lines.append(f"{kind} {self.head}{{ {instance} -> {cell} : {domain} }}")
        self.lines.append(f"schedule {self.head}{{ {instance} -> [{', '.join(padded)}] }}")

    def cell(self, name, subscripts, scope):
        if self.arrays.get(name) != len(subscripts):
            raise Unknown(f"{name} with {len(subscripts)} subscripts")
        return f"A{self.names.index(name)}[{', '.join(spell(affine(subscript, scope)) for subscript in subscripts)}]"

    def nodes(self, value, scope, number):
        """Numbers the nodes of a value from number on in preorder, collects its reads, and gives the next number."""
        if is_index(value, self.arrays):
            affine(value, scope)
            return number + 1
        if value[0] == "access":
            self.reads.append((number, value[1], self.cell(value[1], value[2], scope)))
            return number + 1
        if value[0] == "call" and (value[1] in self.arrays or value[1] in scope):
            raise Unknown(f"{value[1]} is called")
        parts = value[2] if value[0] == "call" else [] if value[0] == "decimal" else value[1:]
        number += 1
        for part in parts:
            number = self.nodes(part, scope, number)
        return number


if __name__ == "__main__":
    import sys
    with open(sys.argv[1], encoding="utf-8") as file:
        model = Model(file.read())
    print("\n".join(model.lines + model.domains))
