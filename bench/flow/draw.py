"""Kernels that are drawn at random: the same seed gives the same kernel."""

import random


class Drawing:
    """One kernel with at most 6 assignments, 3 loops inside each other, 2 parameters and 3 arrays or scalars."""

    def __init__(self, seed):
        self.random = random.Random(seed)
        self.params = ["N", "M"][:self.random.randint(1, 2)]
        self.arrays = {name: self.random.choice([0, 1, 1, 1, 2]) for name in ["A", "B", "C"][:self.random.randint(1, 3)]}
        self.local = self.random.choice(list(self.arrays)) if self.random.random() < 0.3 else None
        self.assignments = self.loops = 0
        self.untyped = []

    def chance(self, part):
        return self.random.random() < part

    def form(self, scope, coefficients=(-2, -1, 1, 1, 1, 2), low=-3, high=4):
        """An index expression of at most two names."""
        names, terms = scope + self.params, []
        if self.chance(0.85):
            terms.append((self.random.choice(coefficients), self.random.choice(scope if scope and self.chance(0.75) else names)))
            if self.chance(0.35):
                terms.append((self.random.choice(coefficients), self.random.choice(names)))
        constant = self.random.randint(low, high)
        if constant or not terms:
            terms.append((constant, ""))
        text = ""
        for number, name in terms:
            term = str(abs(number)) if not name else name if abs(number) == 1 else f"{abs(number)} * {name}"
            sign = ("-" if number < 0 else "") if not text else " - " if number < 0 else " + "
            text += sign + term
        return text

    def comparison(self, scope):
        return f"{self.form(scope)} {self.random.choice(['<', '<', '<=', '>', '>=', '>=', '=='])} {self.form(scope)}"

    def cell(self, scope):
        name = self.random.choice(list(self.arrays))
        return name + "".join(f"[{self.form(scope)}]" for _ in range(self.arrays[name]))

    def value(self, scope, depth=0):
        kind = self.random.random()
        if depth > 2 or kind < 0.5:
            return self.cell(scope)
        if kind < 0.6:
            return self.form(scope)
        if kind < 0.7:
            return "1.5"
        if kind < 0.85:
            return f"f({self.value(scope, depth + 1)}, {self.value(scope, depth + 1)})"
        if kind < 0.95:
            return f"({self.cell(scope)} {self.random.choice('+-*/')} {self.value(scope, depth + 1)})"
        return f"-{self.cell(scope)}"

    def statements(self, scope, depth):
        count = self.random.choice([1, 1, 2, 2, 3] if depth else [2, 3])
        return "".join(self.statement(scope, depth) for _ in range(count))

    def statement(self, scope, depth):
        kind = self.random.random()
        if self.assignments == 6:
            return ";\n"
        if len(scope) < 3 and kind < (0.5 if depth else 0.8):
            return self.loop(scope, depth)
        if depth < 4 and kind < 0.68:
            condition = " && ".join(self.comparison(scope) for _ in range(self.random.choice([1, 1, 2])))
            taken = self.statements(scope, depth + 1)
            other = f"else {{\n{self.statements(scope, depth + 1)}}}\n" if self.chance(0.5) else ""
            return f"if ({condition}) {{\n{taken}}}\n{other}"
        self.assignments += 1
        return f"{self.cell(scope)} {self.random.choice(['=', '=', '=', '+=', '*='])} {self.value(scope)};\n"

    def loop(self, scope, depth):
        name, step, up = f"i{self.loops}", self.random.choice([1, 1, 1, 2, 3]), self.chance(0.75)
        self.loops += 1
        start = self.form(scope, (1, 1, 1, 2), -1, 2)
        left = name if self.chance(0.8) else f"2 * {name}"
        bounds = [f"{left} {self.random.choice(['<', '<='] if up else ['>', '>='])} {self.form(scope, (1, 1, 2) if up else (1, 1, -1))}"]
        if self.chance(0.3):
            bounds.append(self.comparison(scope + [name]))
        self.random.shuffle(bounds)
        sign = "+" if up else "-"
        steps = [f"{name} {sign}= {step}", f"{name} = {name} {sign} {step}"] + ([f"{name}{sign}{sign}"] * 3 if step == 1 else [])
        kind = "int " if self.chance(0.7) else ""
        if not kind:
            self.untyped.append(name)
        head = f"for ({kind}{name} = {start}; {' && '.join(bounds)}; {self.random.choice(steps)})"
        return f"{head} {{\n{self.statements(scope + [name], depth + 1)}}}\n"


def drawn(seed):
    """The text of the kernel of a seed."""
    drawing = Drawing(seed)
    body = drawing.statements([], 0)
    context = f"#pragma affine context {drawing.comparison([])}\n" if drawing.chance(0.4) else ""
    declared = {name: f"double {name}{'[N]' * extents}" for name, extents in drawing.arrays.items()}
    parameters = [f"int {name}" for name in drawing.params] + [text for name, text in declared.items() if name != drawing.local]
    locals_ = [text for name, text in declared.items() if name == drawing.local] + [f"int {name}" for name in drawing.untyped]
    return f"{context}void f({', '.join(parameters)}) {{\n{''.join(f'{text};' for text in locals_)}\n{body}}}\n"
