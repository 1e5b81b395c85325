"""Random texts around quotients: most of them whole, many with one thing that a rule is about."""
import re


class Texts:
    """Draws texts; `draw` is a random.Random."""

    def __init__(self, draw):
        self.draw = draw

    def one(self, *choices):
        return self.draw.choice(choices)

    def chance(self, percent):
        return self.draw.random() * 100 < percent

    # expressions

    def number(self):
        if self.chance(97):
            return str(self.draw.randint(0, 9))
        return self.one('2147483647', '2147483648', '2147483649', '0', '1', '4294967296')

    def divisor(self):
        if self.chance(95):
            return str(self.draw.randint(1, 6))
        return self.one('0', '1', '2147483648', '2147483649', '2147483647')

    def name(self, names):
        if names and self.chance(98.5):
            return self.draw.choice(names)
        return self.one('M', 'i', 'j', 'k', 't', 'A', 'C', 'N', 'x')

    def atom(self, names, depth):
        roll = self.draw.random() * 100
        if roll < 30:
            return self.number()
        if roll < 70 or depth <= 0:
            return self.name(names)
        if roll < 86:
            return self.quotient(names, depth - 1)
        if roll < 95:
            return '(' + self.index(names, depth - 1) + ')'
        if roll < 99:
            return '-' + self.atom(names, depth - 1)
        return self.one('1.0', 'g(' + self.index(names, depth - 1) + ')', 'A[' + self.index(names, depth - 1) + ']', 't', 'C', 'x[0]')

    def term(self, names, depth):
        roll = self.draw.random() * 100
        if roll < 72:
            return self.atom(names, depth)
        if roll < 88:
            return self.number() + '*' + self.atom(names, depth)
        if roll < 97:
            return self.atom(names, depth) + self.one('*', ' * ') + self.number()
        return self.atom(names, depth) + self.one('*', '*', '%', '/', ' % ') + self.atom(names, depth)

    def index(self, names, depth=2):
        text = self.term(names, depth)
        for _ in range(self.one(0, 0, 0, 1, 1, 2)):
            text += self.one(' + ', ' - ', '+', '-') + self.term(names, depth)
        if self.chance(3):
            text += ' - (' + text + ')'
        return text

    def quotient(self, names, depth=1):
        inner = self.plain(names) if self.chance(92) else self.index(names, depth)
        return self.one('floord', 'floord', 'ceild') + '(' + inner + self.one(', ', ',') + self.divisor() + ')'

    def plain(self, names):
        """An index expression without quotients, most often affine."""
        text = self.one('', '-', '2*', '3*') + self.name(names)
        for _ in range(self.one(0, 0, 1, 1, 2)):
            text += self.one(' + ', ' - ') + self.one(self.number(), self.name(names), '2*' + self.name(names))
        return text

    def many(self, names):
        """A sum of about eight quotients."""
        return ' + '.join(self.quotient(names, 0) for _ in range(self.draw.randint(6, 11)))

    # conditions

    def divides(self, names):
        left = self.one(self.name(names), self.name(names), '(' + self.plain(names) + ')', '3*' + self.name(names))
        if self.chance(10):
            left = self.one('(' + self.index(names, 1) + ')', self.atom(names, 1))
        left += self.one(' % ', '%') + (self.divisor() if self.chance(96) else self.one('(2)', 'N', '2.0', '-2'))
        if self.chance(3):
            left += self.one(' * 1', ' % 2', ' + 0', ' / 2')
        if self.chance(25):
            left = '(' + left + ')'
        if self.chance(3):
            left = self.one('-', '1 + ', '2*') + left
        if self.chance(3):
            return '0 == ' + left
        return left + ' == ' + ('0' if self.chance(95) else self.one('1', '(0)', 'N', '-0', '0.0', '0 + 0'))

    def part(self, names):
        if self.chance(40):
            text = self.divides(names)
        else:
            text = self.index(names) + self.one(' < ', ' <= ', ' > ', ' >= ', ' == ') + self.index(names)
        return '(' + text + ')' if self.chance(8) else text

    def bound(self, name, names, up):
        around = [each for each in names if each != name] or ['1']
        if self.chance(93):
            right = self.quotient(around) if self.chance(50) else self.plain(around)
            return name + (self.one(' < ', ' <= ') if up else self.one(' > ', ' >= ')) + right
        return self.part(names)

    # statements

    def target(self, names):
        return 'C[' + (self.plain(names) if self.chance(50) else self.index(names)) + ']' if self.chance(98) else self.one('t', 'N', 'C', 'x', 'i')

    def value(self, names, depth=2):
        roll = self.draw.random() * 100
        if roll < 45:
            return self.index(names)
        if roll < 60:
            return 'A[' + self.index(names) + ']'
        if roll < 65:
            return self.many(names)
        if roll < 72 or depth == 0:
            return self.one('t', '1.5', 'N')
        if roll < 86:
            return 'g(' + self.value(names, depth - 1) + ', ' + self.value(names, depth - 1) + ')'
        return self.value(names, depth - 1) + self.one(' + ', ' - ', ' * ', ' / ', ' % ') + self.value(names, depth - 1)

    def assign(self, names):
        return self.target(names) + self.one(' = ', ' = ', ' = ', ' += ', ' %= ') + self.value(names) + ';'

    def loop(self, names, depth):
        typed = self.chance(85)
        name = self.one(*([each for each in 'ijk' if each not in names or self.chance(3)] or 'i')) if typed else 'u'
        up = self.chance(85)
        inside = [*names, name]
        start = self.quotient(names) if self.chance(30) else self.plain(names) if names and self.chance(40) else self.number()
        parts = [self.bound(name, inside, up)]
        if self.chance(35):
            parts.insert(self.one(0, 1), self.part(inside if self.chance(20) else names or inside))
        step = name + (self.one('++', '++', ' += 2', ' += 3', ' += ' + self.number()) if up else self.one('--', ' -= 3'))
        head = ('int ' if typed else '') + name + ' = ' + start + '; ' + ' && '.join(parts) + '; ' + step
        return 'for (' + head + ') ' + self.stmt(inside, depth - 1)

    def branch(self, names, depth):
        parts = [self.part(names) for _ in range(self.one(1, 1, 1, 2, 3))]
        text = 'if (' + ' && '.join(parts) + ') ' + self.stmt(names, depth - 1)
        return text + ' else ' + self.stmt(names, depth - 1) if self.chance(40) else text

    def stmt(self, names, depth):
        roll = self.draw.random() * 100
        if depth <= 0 or roll < 30:
            return self.assign(names)
        if roll < 65:
            return self.loop(names, depth)
        if roll < 90:
            return self.branch(names, depth)
        return '{ ' + self.stmt(names, depth - 1) + ' ' + self.stmt(names, depth - 1) + ' }'

    def text(self):
        """One text."""
        lines = []
        if self.chance(10):
            lines.append('#pragma affine context ' + self.one('N > 0', self.part(['N'])))
        extent = 'N' if self.chance(93) else self.index(['N'], 1)
        local = self.one('', 'int T[' + self.index(['N', 'K'], 1) + ']; ') if self.chance(10) else ''
        body = ' '.join(self.stmt(['N', 'K'], 3) for _ in range(self.one(1, 1, 2)))
        lines.append('void f(int N, int K, double t, int A[N], int C[' + extent + ']) { int u; ' + local + body + ' }')
        text = '\n'.join(lines)
        return self.damaged(text) if self.chance(4) else text

    def damaged(self, text):
        """The text with a small mistake of writing."""
        at = self.draw.randrange(len(text))
        roll = self.one(0, 1, 2)
        if roll == 0:
            return text[:at] + text[at + 1:]
        if roll == 1:
            return text[:at] + self.one('(', ')', ',', ';', '%', '2', ' floord ', 'ceild(', '==', '0') + text[at:]
        return text.replace(self.one('floord(', 'ceild(', ', ', ' == 0'), self.one('floord', 'floord(1, ', ',', '== 0 == 0'), 1)

    def changed(self, text):
        """The text with one number or one quotient of its body changed."""
        start = text.find('{')
        places = [m.start() for m in re.finditer(r'floord|ceild|(?<![0-9.])[1-6](?![0-9.])', text) if m.start() > start]
        if not places:
            return text
        at = self.draw.choice(places)
        for old, new in (('floord', 'ceild'), ('ceild', 'floord')):
            if text.startswith(old, at):
                return text[:at] + new + text[at + len(old):]
        return text[:at] + self.one('1', '2', '3', '4') + text[at + 1:]

    def pair(self, refusal):
        """Two texts that are accepted and may compute the same, and a valuation."""
        while True:
            left = self.text()
            right = self.changed(left)
            if left.startswith('void') and refusal(left) is None and refusal(right) is None:
                return left, right, {'N': self.draw.randint(-3, 9), 'K': self.draw.randint(-5, 7)}
