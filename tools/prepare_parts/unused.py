"""What nothing reads.

drop_unused takes a Function and its written statements, and gives the statements that stay.
It refuses an assignment that stays and holds a value that the language does not have."""

from prepare_parts.statements import Assignment, WrittenBranch, WrittenLoop, every


def drop_unused(function, statements, report):
    """Takes away the integer scalars that nothing reads, and declarations that nothing uses."""
    while True:
        read, written = read_and_written(statements)
        dead = {name for name in written - read if is_integer_local(function.vars[name])}
        if not dead:
            break
        statements = without(statements, dead, report)
    for s in every(statements, Assignment):
        if s.held:
            report.refuse(s.line, "%s holds min, max or a division, and is read as a value: write if and else"
                          % s.target.val)
    drop_declarations(function, read | written | {s.var for s in every(statements, WrittenLoop)}, report)
    return statements


def is_integer_local(var):
    """Whether a variable is a local scalar of int or long."""
    return var.kind == "scal" and var.is_local and var.type.base in ("int", "long")


def read_and_written(statements):
    """The names that are read, but for a scalar's own assignments, and the names that are assigned."""
    read, written = set(), set()
    for s in every(statements, Assignment):
        own = {s.target.val} if s.target.kind == "var" else set()
        read |= (s.value.names() | s.target.names()) - own
        written.add(s.target.val)
    return read, written


def without(statements, dead, report):
    """The statements less the assignments to dead scalars, and less the ifs that become empty."""
    kept = []
    for s in statements:
        if isinstance(s, Assignment) and s.target.kind == "var" and s.target.val in dead:
            report.change(s.line, "the assignment to %s dropped: nothing reads it" % s.target.val)
            continue
        if isinstance(s, WrittenLoop):
            s.body = without(s.body, dead, report)
        elif isinstance(s, WrittenBranch):
            s.then = without(s.then, dead, report)
            s.other = without(s.other, dead, report) if s.other else s.other
            if not s.then and not s.other:
                continue
        kept.append(s)
    return kept


def drop_declarations(function, used, report):
    """Keeps the declarations of the used names, and says how they changed."""
    lines = {}
    for name in function.order:
        if name not in used:
            lines.setdefault(function.vars[name].line, []).append(name)
    function.order = [name for name in function.order if name in used]
    for name in function.order:
        if name in function.placed:
            report.change(function.vars[name].line, function.placed[name])
    for line, names in lines.items():
        report.change(line, "the declaration of %s dropped: nothing uses %s"
                      % (", ".join(names), "it" if len(names) == 1 else "them"))
