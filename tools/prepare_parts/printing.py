"""The text of a function in the language.

print_function takes what is written, and gives the text; nothing is refused here."""

import re

from prepare_parts.affine import plain
from prepare_parts.expressions import show
from prepare_parts.statements import Assignment, WrittenBranch, WrittenLoop

FIRST = "// prepared from %s by tools/prepare; this step is outside what is proved; compare it with the source"


def print_function(written, name):
    """The text of a function that was prepared from a file of the given name."""
    function = written.function
    lines = [FIRST % re.sub(r"[\x00-\x1f\x7f]", "?", name)]
    lines += function.head + opening(function, written.report) + declarations(function, written.extents)
    print_statements(written.statements, 1, lines)
    return "\n".join(lines + ["}"] + function.tail) + "\n"


def brackets(dims):
    """The text of extents."""
    return "".join("[%s]" % show(dim) for dim in dims)


def opening(function, report):
    """The lines up to the opening brace, of at most 110 letters where that is possible."""
    params = []
    for name in function.params:
        kind = function.vars[name].type
        params.append("%s %s%s" % (kind.base, name, brackets(plain(dim, report) for dim in kind.dims)))
    start, lines = "void %s(" % function.name, []
    row = start
    for i, param in enumerate(params or ["void"]):
        word = param + (", " if i + 1 < len(params) else ") {")
        if len(row) + len(word.rstrip()) > 110 and row.strip() and row != start:
            lines.append(row.rstrip())
            row = " " * len(start)
        row += word
    return lines + [row]


def declarations(function, extents):
    """The lines that declare the locals; neighbours of one type share a line."""
    groups = []
    for name in function.order:
        base, word = function.vars[name].type.base, name + brackets(dim for dim, _ in extents.get(name, []))
        if groups and groups[-1][0] == base and len(", ".join(groups[-1][1] + [word])) < 90:
            groups[-1][1].append(word)
        else:
            groups.append((base, [word]))
    return ["  %s %s;" % (base, ", ".join(words)) for base, words in groups]


def print_statements(statements, depth, lines):
    """Adds the lines of statements."""
    pad = "  " * depth
    for s in statements:
        if isinstance(s, Assignment):
            lines.append("%s%s %s %s;" % (pad, show(s.target), s.op, show(s.value)))
        elif isinstance(s, WrittenLoop):
            print_body("%sfor (%s; %s; %s)" % (pad, s.head, " && ".join(s.conds), s.step), s.body, depth, lines)
        else:
            nested = len(s.then) == 1 and isinstance(s.then[0], WrittenBranch) and s.then[0].other
            print_body("%sif (%s)" % (pad, " && ".join(s.conds)), s.then, depth, lines, s.other is not None or nested)
            if s.other:
                closing = lines.pop() + " else" if lines[-1] == pad + "}" else pad + "else"
                print_body(closing, s.other, depth, lines)


def print_body(head, body, depth, lines, before_else=False):
    """Adds the lines of a head and its body, in braces where they are needed."""
    if not body:
        lines.append(head + " ;")
    elif len(body) == 1 and not (before_else and not isinstance(body[0], Assignment)):
        lines.append(head)
        print_statements(body, depth + 1, lines)
    else:
        lines.append(head + " {")
        print_statements(body, depth + 1, lines)
        lines.append("  " * depth + "}")
