"""The rules behind the grammar: which refusal a text has. Written from the rules alone, as a second reading of them."""
from words import Refused
from grammar import tree_of

KINDS = ['not affine', 'undeclared', 'misused', 'duplicate', 'endless loop'] + [
    'limit ' + each
    for each in ('parameters', 'arrays', 'dimensions', 'depth', 'assignments', 'nodes', 'literal', 'coefficient', 'quotients')
]
LIMIT = 2147483648
KEPT = 2**126


class Form:
    """A collected form: its constant, its names with their numbers, and its quotients, each with its number, as first seen."""

    def __init__(self, constant=0, names=None, quotients=None):
        self.constant = constant
        self.names = names or {}
        self.quotients = quotients or {}

    def plus(self, times, other):
        names, quotients = dict(self.names), dict(self.quotients)
        for mine, theirs in ((names, other.names), (quotients, other.quotients)):
            for key, number in theirs.items():
                mine[key] = mine.get(key, 0) + times * number
        return Form(self.constant + times * other.constant, names, quotients)

    def times(self, number):
        return Form().plus(number, self)

    def is_constant(self):
        return not any(self.names.values()) and not any(self.quotients.values())

    def numbers(self):
        return [self.constant, *self.names.values(), *self.quotients.values()]

    def passes(self, limit):
        return any(abs(number) > limit for number in self.numbers())

    def kept_quotients(self):
        return [key for key, number in self.quotients.items() if number]

    def key(self, added, divisor):
        """The quotient of this form with `added` to it: equal keys are one quotient."""
        return self.constant + added, frozenset((name, n) for name, n in self.names.items() if n), divisor


class Judged:
    """What is known of an index expression: its form if every part has one, or whether it counts as constant if a number of it is too
    large to be kept; whether a part passes the limit, rounds, or is not affine."""

    def __init__(self, form=None, constant=None, large=False, rounds=False, awry=False):
        self.form = form
        self.constant = constant
        self.large = large
        self.rounds = rounds
        self.awry = awry

    def has_form(self):
        return self.form is not None or self.constant is not None

    def counts_as_constant(self):
        return self.form.is_constant() if self.form is not None else self.constant

    def is_known(self):
        return self.form is not None and not self.large


def kept(form, constant):
    """A form, or whether it counts as constant if it is not kept: a number passes 2^126, or that of a quotient passes the limit."""
    if form.passes(KEPT) or any(abs(number) > LIMIT for number in form.quotients.values()):
        return Judged(None, constant)
    return Judged(form)


class Scope:
    """What names mean at a place: iterators around, the loop whose start this is, whether only parameters may stand, and the iterator
    of the loop whose condition this is."""

    def __init__(self, iterators=(), starting=None, fixed=False, tested=None):
        self.iterators = iterators
        self.starting = starting
        self.fixed = fixed
        self.tested = tested


class Judge:
    """Collects the faults of a tree."""

    def __init__(self, tree):
        self.tree = tree
        self.faults = []
        self.arrays = {}
        self.parameters = set()
        self.loop_names = set()
        self.assignments = 0
        self.pieces = []

    def fault(self, place, kind):
        self.faults.append((place, KINDS.index(kind)))

    # names

    def meaning(self, name, scope):
        """parameter, iterator, array, loop name, own start or nothing."""
        if name in scope.iterators:
            return 'iterator'
        if name == scope.starting:
            return 'own start'
        if name in self.parameters:
            return 'parameter'
        if name in self.arrays:
            return 'array'
        return 'loop name' if name in self.loop_names else 'nothing'

    def read(self, node, scope):
        """The rule that a name with these subscripts breaks."""
        meaning = self.meaning(node.name, scope)
        if meaning in ('loop name', 'nothing'):
            self.fault(node.place, 'undeclared')
        elif meaning == 'own start':
            self.fault(node.place, 'misused')
        elif len(node.parts) != (self.arrays[node.name] if meaning == 'array' else 0):
            self.fault(node.place, 'misused')

    def called(self, node, scope):
        meaning = self.meaning(node.name, scope)
        if meaning == 'loop name':
            self.fault(node.place, 'undeclared')
        elif meaning != 'nothing':
            self.fault(node.place, 'misused')

    # index expressions

    def judge(self, node, scope):
        judged = getattr(self, 'judge_' + node.kind)(node, scope)
        if judged.form is not None and judged.form.passes(LIMIT) or judged.constant is not None:
            judged.large = True
        return judged

    def judge_number(self, node, scope):
        if node.value > LIMIT:
            self.fault(node.place, 'limit literal')
            return Judged(None, True)
        return Judged(Form(node.value))

    def judge_decimal(self, node, scope):
        self.fault(node.place, 'not affine')
        return Judged(awry=True)

    def judge_group(self, node, scope):
        return self.judge(node.part, scope)

    def judge_minus(self, node, scope):
        inner = self.judge(node.part, scope)
        judged = kept(inner.form.times(-1), inner.form.is_constant()) if inner.form is not None else Judged(None, inner.constant)
        return self.with_parts(judged, inner)

    def with_parts(self, judged, *parts):
        for part in parts:
            judged.large |= part.large
            judged.rounds |= part.rounds
            judged.awry |= part.awry
        return judged

    def judge_access(self, node, scope):
        meaning = self.meaning(node.name, scope)
        if scope.fixed and meaning == 'array':
            self.fault(node.place, 'misused')
            return Judged()
        if meaning != 'array' and not node.parts:
            self.read(node, scope)
            return Judged(Form(0, {node.name: 1}) if meaning in ('parameter', 'iterator') else None)
        self.read(node, scope)
        return self.unaffine(node, scope)

    def judge_call(self, node, scope):
        self.called(node, scope)
        return self.unaffine(node, scope)

    def unaffine(self, node, scope):
        parts = [self.judge(part, scope) for part in node.parts]
        judged = self.with_parts(Judged(), *parts)
        if all(part.has_form() for part in parts):
            self.fault(node.place, 'not affine')
            judged.awry = True
        return judged

    def judge_operator(self, node, scope):
        a, b = self.judge(node.left, scope), self.judge(node.right, scope)
        judged = Judged()
        if a.has_form() and b.has_form():
            judged = self.combined(node.name, a, b)
            if not judged.has_form():
                self.fault(node.place, 'not affine')
                judged.awry = True
        judged.rounds |= node.name == '%'
        return self.with_parts(judged, a, b)

    def combined(self, name, a, b):
        if name in '+-':
            constant = a.counts_as_constant() and b.counts_as_constant()
            if a.form is None or b.form is None:
                return Judged(None, constant)
            return kept(a.form.plus(1 if name == '+' else -1, b.form), constant)
        if name != '*' or not (a.counts_as_constant() or b.counts_as_constant()):
            return Judged()
        constant = a.counts_as_constant() and b.counts_as_constant()
        if a.form is None or b.form is None:
            return Judged(None, constant)
        number, form = (a.form.constant, b.form) if a.form.is_constant() else (b.form.constant, a.form)
        return kept(form.times(number), constant)

    # quotients

    def is_refused(self, divisor, argument, scope):
        own = scope.tested is not None and argument.form is not None and argument.form.names.get(scope.tested)
        return scope.fixed or divisor == 0 or argument.rounds or argument.awry or bool(own)

    def judge_quotient(self, node, scope):
        argument = self.judge(node.part, scope)
        if node.divisor > LIMIT:
            self.fault(node.number, 'limit literal')
        if self.is_refused(node.divisor, argument, scope):
            self.fault(node.place, 'not affine')
            return self.with_parts(Judged(rounds=True, awry=True), argument)
        judged = Judged()
        added = node.divisor - 1 if node.up else 0
        if node.divisor > LIMIT:
            pass
        elif argument.form is not None:
            if argument.form.passes(LIMIT) or abs(argument.form.constant + added) > LIMIT:
                judged = Judged(None, False)
            else:
                judged = Judged(Form(0, {}, {argument.form.key(added, node.divisor): 1}))
        elif argument.has_form():
            judged = Judged(None, False)
        judged.rounds = True
        return self.with_parts(judged, argument)

    def division(self, comparison):
        """The node `e % c` of a comparison "c divides e"."""
        right, left = comparison.right, comparison.left
        if comparison.relation != '==' or right.kind != 'number' or right.value != 0:
            return None
        while left.kind == 'group':
            left = left.part
        return left if left.kind == 'operator' and left.name == '%' and left.right.kind == 'number' else None

    def compare(self, comparison, scope):
        """Gives what is judged of a comparison, whether it can bound, and its quotients."""
        division = self.division(comparison)
        judged = self.divide(comparison, division, scope) if division else self.differ(comparison, scope)
        if judged.large:
            self.fault(comparison.place, 'limit coefficient')
        quotients = []
        if judged.is_known():
            quotients = [judged.form.key(0, division.right.value)] if division else judged.form.kept_quotients()
        return judged, division is None, quotients

    def divide(self, comparison, division, scope):
        argument = self.judge(division.left, scope)
        number = division.right
        if number.value > LIMIT:
            self.fault(number.place, 'limit literal')
        refused = self.is_refused(number.value, argument, scope)
        if refused:
            self.fault(comparison.place, 'not affine')
        return self.with_parts(Judged(), argument) if refused or number.value > LIMIT else argument

    def differ(self, comparison, scope):
        a, b = self.judge(comparison.left, scope), self.judge(comparison.right, scope)
        judged = Judged()
        if a.form is not None and b.form is not None:
            up = comparison.relation in ('<', '<=')
            strict = 1 if comparison.relation in ('<', '>') else 0
            # (the quotients of the left side stand first, so the sign is turned behind the difference)
            form = a.form.plus(-1, b.form).times(-1 if up else 1).plus(-strict, Form(1))
            judged = kept(form, False)
            judged.large = judged.form is None or form.passes(LIMIT)
        elif a.has_form() and b.has_form():
            judged = Judged(None, False, True)
        return self.with_parts(judged, a, b)

    def index(self, node, scope):
        """Judges a whole index expression, and gives its quotients."""
        judged = self.judge(node, scope)
        if judged.large:
            self.fault(node.place, 'limit coefficient')
        return judged.form.kept_quotients() if judged.is_known() else []

    # values

    def is_number(self, node, scope):
        if node.kind in ('group', 'minus'):
            return self.is_number(node.part, scope)
        if node.kind == 'operator':
            return self.is_number(node.left, scope) and self.is_number(node.right, scope)
        if node.kind == 'access':
            # (what an operator before = changes is read as a target)
            return not node.parts and not hasattr(node, 'changed') and self.meaning(node.name, scope) != 'array'
        return node.kind in ('number', 'quotient')

    def value(self, node, scope):
        """Judges a value; gives how many nodes it has, and its quotients."""
        if self.is_number(node, scope):
            return 1, self.index(node, scope)
        if node.kind == 'group':
            return self.value(node.part, scope)
        if node.kind == 'decimal':
            return 1, []
        parts = {'minus': lambda: [node.part], 'operator': lambda: [node.left, node.right]}.get(node.kind, lambda: node.parts)()
        if node.kind == 'access':
            self.read(node, scope)
            return 1, [quotient for part in parts for quotient in self.index(part, scope)]
        if node.kind == 'call':
            self.called(node, scope)
        found = [self.value(part, scope) for part in parts]
        return 1 + sum(nodes for nodes, _ in found), [quotient for _, quotients in found for quotient in quotients]

    # statements

    def condition(self, cond, scope):
        judged, quotients = [], []
        for part in cond:
            each, bounds, found = self.compare(part, scope)
            judged.append((each, bounds, part.relation))
            quotients += found
        return judged, quotients

    def bounds(self, judged, bounds, relation, name, step):
        """Whether a comparison bounds the iterator, or might do so."""
        if not judged.is_known():
            return True
        number = judged.form.names.get(name, 0)
        if not bounds:
            return False
        return number != 0 if relation == '==' else number * step < 0

    def stmts(self, nodes, scope, quotients, depth, pieces):
        for node in nodes:
            getattr(self, 'stmt_' + node.kind)(node, scope, quotients, depth, pieces)

    def stmt_loop(self, node, scope, quotients, depth, pieces):
        if depth == 6:
            self.fault(node.place, 'limit depth')
        self.loop_name(node, scope)
        starting = Scope(scope.iterators, None if node.typed else node.name)
        found = self.index(node.start, starting)
        inside = (*scope.iterators, node.name)
        judged, more = self.condition(node.cond, Scope(inside, None, False, node.name))
        if node.step == 0 or not any(self.bounds(*each, node.name, node.step) for each in judged):
            self.fault(node.place, 'endless loop')
        self.step(node, inside)
        self.stmts(node.body, Scope(inside), quotients + found + more, depth + 1, pieces)

    def loop_name(self, node, scope):
        if node.typed:
            if node.name in self.declared or node.name in scope.iterators:
                self.fault(node.name_place, 'duplicate')
        elif node.name in self.loop_names:
            if node.name in scope.iterators:
                self.fault(node.name_place, 'duplicate')
        elif node.name in self.declared or node.name in scope.iterators:
            self.fault(node.name_place, 'misused')
        else:
            self.fault(node.name_place, 'undeclared')

    def step(self, node, inside):
        name = node.step_name
        if name.text != node.name:
            known = name.text in self.declared - self.loop_names or name.text in inside
            self.fault(name.place, 'misused' if known else 'undeclared')

    def stmt_branch(self, node, scope, quotients, depth, pieces):
        _, found = self.condition(node.cond, scope)
        ways = sum(2 if part.relation == '==' and not self.division(part) else 1 for part in node.cond)
        self.stmts(node.yes, scope, quotients + found, depth, pieces)
        self.stmts(node.no, scope, quotients + found, depth, pieces * ways)

    def stmt_assign(self, node, scope, quotients, depth, pieces):
        self.assignments += 1
        if self.assignments == 49:
            self.fault(node.place, 'limit assignments')
        meaning = self.meaning(node.name, scope)
        if meaning == 'array':
            if len(node.subs) != self.arrays[node.name]:
                self.fault(node.place, 'misused')
        else:
            self.fault(node.place, 'undeclared' if meaning in ('nothing', 'loop name') else 'misused')
        nodes, found = self.value(node.value, scope)
        subs = [quotient for sub in node.subs for quotient in self.index(sub, scope)]
        if nodes > 64:
            self.fault(node.place, 'limit nodes')
        if len(set(quotients + found + subs)) > 8:
            self.fault(node.place, 'limit quotients')
        if pieces > 16:
            self.pieces.append(node.place)

    # the file

    def find_loop_names(self, nodes):
        for node in nodes:
            if node.kind == 'loop':
                self.untyped |= set() if node.typed else {node.name}
                self.find_loop_names(node.body)
            elif node.kind == 'branch':
                self.find_loop_names(node.yes + node.no)

    def declare(self, item, is_param):
        if item.name in self.declared:
            self.fault(item.place, 'duplicate')
        for _, extent in item.extents:
            self.index(extent, Scope(fixed=True))
        if len(item.extents) > 4:
            self.fault(item.extents[4][0], 'limit dimensions')
        if item.name in self.declared:
            return
        self.declared.add(item.name)
        if is_param and item.type in ('int', 'long') and not item.extents:
            self.parameters.add(item.name)
            if len(self.parameters) > 4:
                self.fault(item.place, 'limit parameters')
        elif not is_param and item.type in ('int', 'long') and not item.extents and item.name in self.untyped:
            self.loop_names.add(item.name)
        else:
            self.arrays[item.name] = len(item.extents)
            if len(self.arrays) > 32:
                self.fault(item.place, 'limit arrays')

    def line(self, node):
        if node.kind == 'context':
            self.condition(node.parts, Scope(fixed=True))
        for name in node.parts if node.kind == 'output' else []:
            if name.text not in self.declared:
                self.fault(name.place, 'undeclared')
            elif not self.arrays.get(name.text) or name.text not in {param.name for param in self.tree.params}:
                self.fault(name.place, 'undeclared' if name.text in self.loop_names else 'misused')

    def run(self):
        tree = self.tree
        self.declared, self.untyped = set(), set()
        self.find_loop_names(tree.body)
        for item in tree.params:
            self.declare(item, True)
        for item in tree.locals:
            self.declare(item, False)
        for node in tree.lines:
            self.line(node)
        for number in tree.amounts:
            if int(number.text) > LIMIT:
                self.fault(number.place, 'limit literal')
        self.stmts(tree.body, Scope(), [], 0, 1)
        return self


def refusal(text):
    """The refusal of a text as (line, column, kind), or None if it is accepted as both files of a pair."""
    place = None
    if len(text) > 65536:
        return 1, 1, 'limit file'
    try:
        judge = Judge(tree_of(text)).run()
        if judge.faults:
            place, rank = min(judge.faults)
            kind = KINDS[rank]
        elif judge.pieces:
            place, kind = min(judge.pieces), 'limit pieces'
    except Refused as refused:
        place, kind = refused.place, refused.kind
    if place is None:
        return None
    line = text.count('\n', 0, place)
    return line + 1, place - (text.rfind('\n', 0, place) + 1) + 1, kind
