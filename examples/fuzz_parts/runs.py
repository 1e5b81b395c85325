"""What two programs of accepted texts compute at a valuation: terms, kept once each and compared by their numbers."""
import itertools

from grammar import tree_of


class Terms:
    """Terms by number; the arguments of a declared symbol with two arguments stand in one order."""

    def __init__(self, commutative):
        self.commutative = commutative
        self.numbers = {}

    def of(self, *term):
        if term[0] == 'call' and len(term) == 4 and term[1] in self.commutative:
            term = (*term[:2], *sorted(term[2:]))
        return self.numbers.setdefault(term, len(self.numbers))


class TooLong(Exception):
    """A run has more turns than are allowed."""


class Run:
    """A run of a program at a valuation of its parameters, of at most so many turns."""

    def __init__(self, tree, valuation, terms, side, turns):
        self.tree = tree
        self.turns = turns
        self.values = dict(valuation)
        self.terms = terms
        self.side = side
        self.locals = {item.name for item in tree.locals}
        self.arrays = self.locals | {item.name for item in tree.params if item.name not in valuation}
        self.cells = {}
        self.stmts(tree.body)

    # index expressions

    def index(self, node):
        return getattr(self, 'index_' + node.kind)(node)

    def index_number(self, node):
        return node.value

    def index_access(self, node):
        return self.values[node.name]

    def index_group(self, node):
        return self.index(node.part)

    def index_minus(self, node):
        return -self.index(node.part)

    def index_quotient(self, node):
        value = self.index(node.part)
        return -(-value // node.divisor) if node.up else value // node.divisor

    def index_operator(self, node):
        a, b = self.index(node.left), self.index(node.right)
        return {'+': lambda: a + b, '-': lambda: a - b, '*': lambda: a * b, '%': lambda: a % b}[node.name]()

    def holds(self, cond):
        for part in cond:
            a, b = self.index(part.left), self.index(part.right)
            if not {'<': a < b, '<=': a <= b, '>': a > b, '>=': a >= b, '==': a == b}[part.relation]:
                return False
        return True

    # values

    def is_number(self, node):
        if node.kind in ('group', 'minus'):
            return self.is_number(node.part)
        if node.kind == 'operator':
            return self.is_number(node.left) and self.is_number(node.right)
        if node.kind == 'access':
            return node.name not in self.arrays or node.name in self.running
        return node.kind in ('number', 'quotient')

    def value(self, node):
        if self.is_number(node):
            return self.terms.of('number', self.index(node))
        if node.kind == 'group':
            return self.value(node.part)
        if node.kind == 'decimal':
            return self.terms.of('call', node.word)
        if node.kind == 'minus':
            return self.terms.of('call', '-', self.value(node.part))
        if node.kind == 'operator':
            return self.terms.of('call', node.name, self.value(node.left), self.value(node.right))
        if node.kind == 'call':
            return self.terms.of('call', node.name, *[self.value(part) for part in node.parts])
        return self.cell(node.name, tuple(self.index(part) for part in node.parts))

    def cell(self, name, element):
        if (name, element) not in self.cells:
            side = self.side if name in self.locals else ''
            self.cells[name, element] = self.terms.of('initial', side, name, element)
        return self.cells[name, element]

    # statements

    running = ()

    def stmts(self, nodes):
        for node in nodes:
            getattr(self, 'stmt_' + node.kind)(node)

    def stmt_loop(self, node):
        value = self.index(node.start)
        outer, self.running = self.running, (*self.running, node.name)
        self.values[node.name] = value
        while self.holds(node.cond):
            self.turns -= 1
            if self.turns < 0:
                raise TooLong
            self.stmts(node.body)
            value += node.step
            self.values[node.name] = value
        del self.values[node.name]
        self.running = outer

    def stmt_branch(self, node):
        self.stmts(node.yes if self.holds(node.cond) else node.no)

    def stmt_assign(self, node):
        value = self.value(node.value)
        self.cells[node.name, tuple(self.index(sub) for sub in node.subs)] = value


def assigned(nodes):
    """The arrays that are assigned somewhere."""
    found = set()
    for node in nodes:
        if node.kind == 'assign':
            found.add(node.name)
        else:
            found |= assigned(node.body if node.kind == 'loop' else node.yes + node.no)
    return found


def compared(left, right):
    """The names of the arrays that are compared, in order, with their extents."""
    named = {name.text for tree in (left, right) for line in tree.lines if line.kind == 'output' for name in line.parts}
    named = named or assigned(left.body) | assigned(right.body)
    return [(item.name, [extent for _, extent in item.extents]) for item in left.params if item.extents and item.name in named]


def compare(left, right, valuation, turns=10**9):
    """What `instance` prints of two texts at a valuation, if no number leaves 64 bits and both are a pair."""
    trees = tree_of(left), tree_of(right)
    lines = [line for tree in trees for line in tree.lines if line.kind == 'commutative']
    terms = Terms({name.text for line in lines for name in line.parts})
    runs = [Run(tree, valuation, terms, side, turns) for tree, side in zip(trees, ('left', 'right'))]
    verdicts = []
    for name, extents in compared(*trees):
        verdict = name + ' equal'
        for element in itertools.product(*[range(runs[0].index(extent)) for extent in extents]):
            if runs[0].cell(name, element) != runs[1].cell(name, element):
                verdict = name + ' different, element ' + ''.join('[%d]' % k for k in element)
                break
        verdicts.append(verdict)
    return verdicts
