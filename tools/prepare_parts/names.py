"""The names of locals.

place_locals takes a Function, and gives every local a place at its head.
It refuses names that stand twice, and counters that are no int or long."""

from prepare_parts.declarations import Variable
from prepare_parts.signature import check_name
from prepare_parts.statements import Block, Branch, Declaration, Loop, every


def place_locals(function, report):
    """Enters the locals and the names of loops into the function."""
    places = Places(function, report)
    places.enter(function.body, set(function.vars), True)
    for name, line in sorted(places.typed.items()):
        check_name(name, line, report)
        if name in function.vars and function.vars[name].is_local:
            report.refuse(line, "%s is declared by a loop and elsewhere: write another name for one" % name)
    function.loop_names = set(places.typed)


class Places:
    """Goes over the declarations; typed has the names that loops declare, and where."""

    def __init__(self, function, report):
        self.function, self.report, self.typed = function, report, {}
        self.counters = {s.var for s in every(function.body, Loop) if not s.typed and s.var}

    def enter(self, statements, around, is_head):
        """Enters the declarations of statements; around has the names that are declared there."""
        around = set(around)
        for s in statements:
            if isinstance(s, Declaration):
                if s.type is not None:
                    self.declare(s, around, is_head)
                around.add(s.name)
                continue
            is_head = False
            if isinstance(s, Loop) and s.typed:
                if s.var in around:
                    self.refuse_around(s.line, s.var)
                self.typed.setdefault(s.var, s.line)
                self.enter(s.body, around | {s.var}, False)
            elif isinstance(s, (Loop, Branch, Block)):
                for body in s.bodies():
                    self.enter(body, around, False)

    def refuse_around(self, line, name):
        """Refuses a name that is declared around."""
        self.report.refuse(line, "%s has the name of one around it: write another name for one" % name)

    def declare(self, s, around, is_head):
        """Enters the declaration of one local."""
        name, found, report = s.name, s.type, self.report
        check_name(name, s.line, report)
        if name in around:
            self.refuse_around(s.line, name)
            return
        if name in self.function.vars:
            self.declare_again(s, self.function.vars[name])
            return
        kind = "arr" if found.dims else "iter" if name in self.counters else "scal"
        if kind == "iter":
            if not found.index:
                report.refuse(s.line, "%s counts a loop and is %s: write int or long%s" % (name, found.said, found.wraps()))
        elif not found.exact:
            report.change(s.line, "%s: %s written as %s" % (name, found.said, found.base))
        self.function.vars[name] = Variable(kind, found, s.line, True)
        self.function.order.append(name)
        if not is_head:
            self.function.placed[name] = "the declaration of %s moved to the head of the function" % name
        elif s.init is not None and kind != "iter":
            self.function.placed[name] = "%s: declaration and initial value parted" % name

    def declare_again(self, s, old):
        """Lets declarations of one type in several blocks be one."""
        if old.kind == "bad" or old.type.said != s.type.said or len(old.type.dims) != len(s.type.dims):
            self.report.refuse(s.line, "%s is declared twice, with two types: write another name for one" % s.name)
        else:
            self.report.change(s.line, "%s is declared in more than one block: one declaration at the head" % s.name)
