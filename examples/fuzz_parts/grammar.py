"""The tree of a text: one function for each production. A refusal stands at the first token with which no text goes on."""
from words import Refused, tokens_of

RELATIONS = ('<', '<=', '>', '>=', '==')
ASSIGNS = ('=', '+=', '-=', '*=', '/=', '%=')
TYPES = ('int', 'long', 'float', 'double')


class Node:
    """A part of the tree: its kind, the place of its first byte, and its parts by name."""

    def __init__(self, kind, place, **parts):
        self.kind = kind
        self.place = place
        self.__dict__.update(parts)


class Reader:
    """Reads tokens from the left to the right."""

    def __init__(self, text):
        self.tokens = tokens_of(text)
        self.at = 0
        self.depth = 0
        self.amounts = []

    @property
    def next(self):
        return self.tokens[self.at]

    def fail(self):
        raise Refused(self.next.place, 'syntax')

    def sees(self, *texts):
        return self.next.kind in ('mark', 'word') and self.next.text in texts

    def take(self):
        token = self.next
        if token.kind == 'mark' and token.text in '([{':
            self.open(token.place)
        if token.kind == 'mark' and token.text in ')]}':
            self.depth -= 1
        self.at += 1
        return token

    def open(self, place):
        """Opens a nested construct with the token at this place."""
        self.depth += 1
        if self.depth > 128:
            raise Refused(place, 'limit nesting')

    def takes(self, *texts):
        """Whether one of these stands next; if so, it is passed."""
        return self.sees(*texts) and bool(self.take())

    def mark(self, *texts):
        if not self.sees(*texts):
            self.fail()
        return self.take()

    def of(self, kind):
        if self.next.kind != kind:
            self.fail()
        return self.take()

    # expressions

    def expr(self):
        return self.chain(self.term, '+', '-')

    def term(self):
        return self.chain(self.unary, '*', '/', '%')

    def chain(self, part, *operators):
        left = part()
        while self.sees(*operators):
            operator = self.take().text
            left = Node('operator', left.place, name=operator, left=left, right=part())
        return left

    def unary(self):
        if self.sees('-'):
            place = self.take().place
            self.open(place)
            part = self.unary()
            self.depth -= 1
            return Node('minus', place, part=part)
        return self.primary()

    def primary(self):
        token = self.next
        if token.kind == 'number':
            return Node('number', self.take().place, value=int(token.text))
        if token.kind == 'decimal':
            return Node('decimal', self.take().place, word=token.text)
        if self.sees('floord', 'ceild'):
            return self.quotient()
        if self.sees('('):
            self.take()
            inner = self.expr()
            self.mark(')')
            return Node('group', token.place, part=inner)
        self.of('name')
        if self.takes('('):
            return Node('call', token.place, name=token.text, parts=self.arguments())
        return Node('access', token.place, name=token.text, parts=self.brackets())

    def quotient(self):
        word = self.take()
        self.mark('(')
        argument = self.expr()
        self.mark(',')
        divisor = self.of('number')
        self.mark(')')
        return Node('quotient', word.place, up=word.text == 'ceild', part=argument, divisor=int(divisor.text), number=divisor.place)

    def arguments(self):
        parts = []
        if not self.takes(')'):
            parts.append(self.expr())
            while self.takes(','):
                parts.append(self.expr())
            self.mark(')')
        return parts

    def brackets(self):
        return [part for _, part in self.places_and_brackets()]

    def places_and_brackets(self):
        parts = []
        while self.sees('['):
            place = self.take().place
            parts.append((place, self.expr()))
            self.mark(']')
        return parts

    # conditions

    def cond(self):
        parts = self.part()
        while self.takes('&&'):
            parts += self.part()
        return parts

    def comparison(self):
        left = self.expr()
        relation = self.mark(*RELATIONS).text
        return [Node('comparison', left.place, left=left, relation=relation, right=self.expr())]

    def part(self):
        if not self.sees('('):
            return self.comparison()
        start, depth, faults = self.at, self.depth, []
        for alternative in (self.comparison, self.held):
            self.at, self.depth = start, depth
            try:
                return alternative()
            except Refused as refused:
                faults.append(refused)
        raise max(faults, key=lambda fault: fault.place)

    def held(self):
        self.mark('(')
        parts = self.cond()
        self.mark(')')
        return parts

    # statements

    def stmt(self):
        if self.takes(';'):
            return []
        if self.takes('{'):
            statements = []
            while not self.takes('}'):
                statements += self.stmt()
            return statements
        if self.sees('for'):
            return [self.loop()]
        if self.sees('if'):
            return [self.branch()]
        assign = self.assign()
        self.mark(';')
        return [assign]

    def body(self):
        """A body of a loop or branch: it nests beside its braces, and is opened by a token with which it goes on."""
        token = self.next
        if self.sees(';', '{', 'for', 'if') or token.kind == 'name':
            self.open(token.place)
        statements = self.stmt()
        self.depth -= 1
        return statements

    def loop(self):
        place = self.mark('for').place
        self.mark('(')
        typed = self.takes('int', 'long')
        name = self.of('name')
        self.mark('=')
        start = self.expr()
        self.mark(';')
        cond = self.cond()
        self.mark(';')
        step_name, step = self.step()
        self.mark(')')
        return Node('loop', place, typed=typed, name=name.text, name_place=name.place, start=start, cond=cond,
                    step=step, step_name=step_name, body=self.body())

    def step(self):
        if self.sees('++', '--'):
            sign = 1 if self.take().text == '++' else -1
            return self.of('name'), sign
        name = self.of('name')
        if self.sees('++', '--'):
            return name, 1 if self.take().text == '++' else -1
        if self.sees('+=', '-='):
            sign = 1 if self.take().text == '+=' else -1
            return name, sign * self.amount()
        self.mark('=')
        again = self.of('name')
        sign = 1 if self.mark('+', '-').text == '+' else -1
        number = self.amount()
        return (name if again.text == name.text else again), sign * number

    def amount(self):
        number = self.of('number')
        self.amounts.append(number)
        return int(number.text)

    def branch(self):
        place = self.mark('if').place
        self.mark('(')
        cond = self.cond()
        self.mark(')')
        yes = self.body()
        no = self.body() if self.takes('else') else []
        return Node('branch', place, cond=cond, yes=yes, no=no)

    def assign(self):
        name = self.of('name')
        subs = self.brackets()
        operator = self.mark(*ASSIGNS).text
        value = self.expr()
        if operator != '=':
            read = Node('access', name.place, name=name.text, parts=subs, changed=True)
            value = Node('operator', name.place, name=operator[0], left=read, right=Node('group', value.place, part=value))
        return Node('assign', name.place, name=name.text, subs=subs, value=value, operator=operator)

    # the file

    def pragmas(self):
        lines = []
        while self.next.kind == 'start':
            lines.append(self.pragma())
        return lines

    def pragma(self):
        place = self.take().place
        word = self.next
        if word.kind != 'name' or word.text not in ('context', 'commutative', 'output'):
            self.fail()
        self.take()
        parts = []
        if word.text == 'context':
            parts = self.cond()
        while word.text != 'context' and (self.next.kind == 'name' or word.text == 'commutative' and self.sees(*'+-*/%')):
            parts.append(self.take())
        self.of('end')
        return Node(word.text, place, parts=parts)

    def type(self):
        self.takes('const')
        return self.mark(*TYPES).text

    def item(self, of):
        name = self.of('name')
        return Node('item', name.place, name=name.text, type=of, extents=self.places_and_brackets())

    def params(self):
        self.mark('(')
        if self.takes('void'):
            self.mark(')')
            return []
        params = []
        if not self.takes(')'):
            params.append(self.item(self.type()))
            while self.takes(','):
                params.append(self.item(self.type()))
            self.mark(')')
        return params

    def decls(self):
        items = []
        while self.sees('const', *TYPES):
            of = self.type()
            items.append(self.item(of))
            while self.takes(','):
                items.append(self.item(of))
            self.mark(';')
        return items

    def file(self):
        lines = self.pragmas()
        self.mark('void')
        self.of('name')
        params = self.params()
        self.mark('{')
        locals_ = self.decls()
        body = []
        while not self.takes('}'):
            body += self.stmt()
        lines += self.pragmas()
        self.of('last')
        return Node('file', 0, lines=lines, params=params, locals=locals_, body=body, amounts=self.amounts)


def tree_of(text):
    """The tree of a text, or a Refused."""
    return Reader(text).file()
