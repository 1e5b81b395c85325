"""What is said of a file: refusals and changes, each a line and a sentence."""


class Fault(Exception):
    """A line and a sentence; an empty sentence means that the fault is reported already."""

    def __init__(self, line, text):
        Exception.__init__(self, text)
        self.line, self.text = line, text


class Unreadable(Fault):
    """What makes the whole file unreadable."""


class NotAffine(Fault):
    """What makes an expression no index expression; the operator is / for a division and * for a product."""

    def __init__(self, line, text, operator=None):
        Fault.__init__(self, line, text)
        self.operator = operator


class Report:
    """Takes refusals and changes in the order in which they are found, and keeps each once."""

    def __init__(self, refusals=(), changes=()):
        self.refusals, self.changes = dict.fromkeys(refusals), dict.fromkeys(changes)

    def copy(self):
        """A report of its own that begins with the same words."""
        return Report(self.refusals, self.changes)

    def refuse(self, line, text):
        """Takes a reason for which nothing is written."""
        self.refusals.setdefault((line, text))

    def refuse_fault(self, fault):
        """Takes the refusal that a fault gives, unless it is reported already."""
        if fault.text:
            self.refuse(fault.line, fault.text)

    def change(self, line, text):
        """Takes a change that the reader is told."""
        self.changes.setdefault((line, text))

    def is_refused_from(self, line):
        """Whether something is refused at the line or behind it."""
        return any(refused >= line for refused, _ in self.refusals)

    def lines(self):
        """Gives the refusals, or the changes if there are none, by line."""
        return sorted(self.refusals or self.changes, key=lambda said: said[0])
