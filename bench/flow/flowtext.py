"""What `flow` prints (docs/REPORTS.md) as relations in the notation of isl, over the names of model.py."""

import re

from model import Unknown

TERM = r"(?:[0-9]+\*)?[A-Za-z_][A-Za-z_0-9]*|[0-9]+"
FORM = re.compile(rf"-?(?:{TERM})(?: [+-] (?:{TERM}))*")


def form_of(text, columns):
    """A form with the names of its columns replaced."""
    if not FORM.fullmatch(text):
        raise Unknown(f"no form: {text!r}")
    for name in re.findall(r"[A-Za-z_][A-Za-z_0-9]*", text):
        if name not in columns and not re.fullmatch(r"q[0-9]+", name):
            raise Unknown(f"no column: {name}")
    return re.sub(r"[A-Za-z_][A-Za-z_0-9]*", lambda name: columns.get(name.group(), name.group()), text)


def row_of(text, columns):
    if text == "true":
        return "true"
    for ending in (" >= 0", " = 0"):
        if text.endswith(ending):
            return form_of(text[:-len(ending)], columns) + ending
    modulus, form = re.fullmatch(r"([1-9][0-9]*) \| (.*)", text).groups()
    return f"({form_of(form, columns)}) mod {modulus} = 0"


def piece_of(text, columns):
    rows = " and ".join(row_of(row, columns) for row in text.split(" and "))
    others = sorted(set(re.findall(r"\bq[0-9]+\b", rows)))
    return f"(exists {', '.join(others)} : {rows})" if others else f"({rows})"


def relations(text, model):
    """The lines for isl_side: `from READ SOURCE MAP` and `initial READ SET`. The reads must be those of the model, in its order and with its arrays."""
    if any(re.fullmatch(r"[xwq][0-9]+", name) for name in model.params):
        raise Unknown("a parameter is named like a column of a loop")
    *printed, rest = text.split("\n")
    if rest:
        raise Unknown("the last line is not ended")
    wanted = [(number, node, name) for number, (depth, reads) in enumerate(model.assignments) for node, name in reads]
    lines, at = [], 0
    for number, node, name in wanted:
        if at >= len(printed) or printed[at] != f"S{number}.{node} reads {name}":
            raise Unknown(f"`S{number}.{node} reads {name}` is due at line {at + 1} of what is printed")
        at, last = at + 1, -1
        while at < len(printed) and printed[at].startswith("  "):
            match = re.fullmatch(r"  (?:from S([0-9]+)|initial): (.*)", printed[at])
            source = len(model.assignments) if match.group(1) is None else int(match.group(1))
            if not last < source <= len(model.assignments):
                raise Unknown(f"the source at line {at + 1} is out of order")
            depth = model.assignments[number][0]
            columns = {parameter: f"p{k}" for k, parameter in enumerate(model.params)} | {f"x{k}": f"x{k}" for k in range(depth)}
            reader = f"S{number}_{node}[{', '.join(f'x{k}' for k in range(depth))}]"
            if match.group(1) is None:
                lines.append(f"initial S{number}_{node} {model.head}{{ {reader} : {pieces(match.group(2), columns)} }}")
            else:
                indices = [f"w{k}" for k in range(model.assignments[source][0])]
                columns |= {index: index for index in indices}
                writer = f"S{source}[{', '.join(indices)}]"
                lines.append(f"from S{number}_{node} S{source} {model.head}{{ {writer} -> {reader} : {pieces(match.group(2), columns)} }}")
            at, last = at + 1, source
    if at < len(printed):
        raise Unknown(f"line {at + 1} of what is printed: {printed[at]}")
    return lines


def pieces(text, columns):
    return " or ".join(piece_of(piece, columns) for piece in text.split(" or "))
