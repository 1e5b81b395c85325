"""The function as it is read: its parameters, its body, and the pragma lines around it.

read_function takes a Source and a name, and gives a Function.
It refuses what is no C, values that are returned, and parameters that the language has nothing for."""

import re
from dataclasses import dataclass, field

from pycparser import c_ast, c_parser

from prepare_parts.affine import form_of
from prepare_parts.declarations import Variable
from prepare_parts.expressions import show
from prepare_parts.reading_expressions import ExpressionReader
from prepare_parts.reading_statements import StatementReader
from prepare_parts.report import NotAffine, Unreadable
from prepare_parts.statements import Return


@dataclass
class Function:
    """A function: its lines, its names, its statements, and the pragma lines before and behind it."""

    name: str
    first: int
    last: int
    params: list = field(default_factory=list)
    vars: dict = field(default_factory=dict)            # name -> Variable
    order: list = field(default_factory=list)           # the locals to declare
    placed: dict = field(default_factory=dict)          # local -> how its declaration changed
    loop_names: set = field(default_factory=set)        # the names that loops declare
    body: list = field(default_factory=list)
    head: list = field(default_factory=list)
    tail: list = field(default_factory=list)


def check_name(name, line, report):
    """Refuses a name that the language does not have."""
    if len(name) > 64:
        report.refuse(line, "%s has more than 64 letters: write a shorter name" % name)
    elif not re.match(r"[A-Za-z_]\w*$", name, re.A):
        report.refuse(line, "%s has something else than letters, digits and _: write another name" % name)


def read_function(source, wanted, report):
    """The function of a name."""
    item, text = source.function(wanted)
    tree = parse(text, source.line_at(item.start))
    expressions = ExpressionReader(report)
    for each in tree.ext:
        if isinstance(each, c_ast.Typedef):
            expressions.types.typedefs[each.name] = each.type
    node = [each for each in tree.ext if isinstance(each, c_ast.FuncDef)][-1]
    for start, word in source.dropped:
        if item.start <= start < item.end:
            if word == "asm":
                report.refuse(source.line_at(start), "asm: write the statement in C")
            elif word not in ("const", "volatile", "signed", "__inline", "__inline__"):
                report.change(source.line_at(start), "%s dropped" % word)
    function = Function(node.decl.name, source.line_at(item.start), source.line_at(item.end - 1))
    SignatureReader(function, expressions, report).read(node.decl)
    function.body = StatementReader(report, expressions).read_all(node.body.block_items)
    last = function.body[-1] if function.body else None
    if isinstance(last, Return) and not last.has_value:
        report.change(function.body.pop().line, "return at the end dropped")
    read_pragmas(function, source, item, report)
    return function


def parse(text, line):
    """The tree of C text; what pycparser does not read is refused at its line, or at the given one."""
    try:
        return c_parser.CParser().parse(text, "")
    except c_parser.ParseError as error:
        found = re.match(r"[^:]*:(\d+)(?::\d+)?: *(.*)", str(error), re.S)
        said = (found[2] if found else str(error)).strip().split("\n")[0]
        raise Unreadable(int(found[1]) if found else line,
                         "this is not C as pycparser reads it (%s)" % said) from None


class SignatureReader:
    """Reads the name, the result and the parameters into a Function."""

    def __init__(self, function, expressions, report):
        self.function, self.expressions, self.report = function, expressions, report
        self.types = expressions.types

    def read(self, decl):
        """Reads the declaration of the function."""
        line = self.expressions.line_of(decl, self.function.first)
        check_name(self.function.name, line, self.report)
        for word in list(decl.storage or []) + list(decl.funcspec or []):
            self.report.change(line, "%s dropped" % word)
        if not self.types.is_void(words_of(decl.type.type)):
            self.report.refuse(line, "%s returns a value: write void, and an array parameter of extent 1 "
                               "for what it returns" % self.function.name)
        params = decl.type.args.params if decl.type.args else []
        if len(params) == 1 and isinstance(params[0], c_ast.Typename) and words_of(params[0].type) == ["void"]:
            params = []
        later = {param.name for param in params if isinstance(param, c_ast.Decl)}
        for param in params:
            at = self.expressions.line_of(param, line)
            if isinstance(param, c_ast.EllipsisParam):
                self.report.refuse(at, "... in the parameter list: write the parameters")
            elif not isinstance(param, c_ast.Decl) or not param.name:
                self.report.refuse(at, "a parameter without a name and a type: declare it in the list")
            else:
                self.read_parameter(param, at, later)

    def read_parameter(self, param, at, later):
        """Reads one parameter; later has the names behind it, and loses its name."""
        name = param.name
        for word in param.storage or []:
            self.report.change(at, "%s dropped" % word)
        found = self.types.read(param.type, name, at)
        later.discard(name)
        if found is None:
            self.function.vars[name] = Variable("bad", None, at, False)
            return
        for dim in found.dims:
            self.check_extent(dim, name, at, later)
        kind = "arr" if found.dims else "scal" if found.base in ("float", "double") else "ipar"
        if kind == "ipar" and found.core == ["short"] or kind == "arr" and not found.exact:
            self.report.change(at, "%s: %s written as %s" % (name, found.said, found.base))
        elif kind == "ipar" and not found.exact:
            self.report.refuse(at, "%s is %s: write int or long%s" % (name, found.said, found.wraps()))
        if name in self.function.vars:
            self.report.refuse(at, "a second parameter %s" % name)
            return
        check_name(name, at, self.report)
        self.function.vars[name] = Variable(kind, found, at, False)
        self.function.params.append(name)

    def check_extent(self, dim, name, line, later):
        """Refuses an extent that is no sum of integer parameters in front of it."""
        for each in sorted(dim.names()):
            var = self.function.vars.get(each)
            if each in later:
                self.report.refuse(line, "%s has the extent %s, which is declared behind it: declare %s first, "
                                   "and in the calls too" % (name, each, each))
            elif var is None:
                self.report.refuse(line, "%s has the extent %s, which is no parameter: declare it as one" % (name, each))
            elif var.kind not in ("ipar", "bad"):
                self.report.refuse(line, "%s has the extent %s, which is no integer parameter" % (name, each))
            else:
                continue
            return
        try:
            if dim.kind != "bad" and form_of(dim).specials():
                self.report.refuse(line, "%s has an extent with min, max or a division: write a parameter for it" % name)
        except NotAffine as fault:
            self.report.refuse(fault.line, "%s has the extent %s: write one extent for each dimension, "
                               "or a parameter for it" % (name, show(dim)))


def words_of(node):
    """The words of a type that is named by words, or none."""
    is_named = isinstance(node, c_ast.TypeDecl) and isinstance(node.type, c_ast.IdentifierType)
    return node.type.names if is_named else []


def read_pragmas(function, source, item, report):
    """Keeps the affine lines around the function; the others go."""
    before = [other.end for other in source.items if other.end <= item.start]
    after = [other.start for other in source.items if other.start >= item.end]
    low = source.line_at(before[-1] - 1) if before else 0
    high = source.line_at(after[0]) if after else None
    others = []
    for line, text in source.pragmas:
        is_inside = function.first <= line <= function.last
        if not re.match(r"#\s*pragma\s+affine\b", text):
            others += [(line, text)] if is_inside else []
            continue
        text = re.sub(r"^#\s*pragma\s+affine", "#pragma affine", text)
        if low < line < function.first:
            function.head.append(text)
        elif is_inside:
            report.refuse(line, "a pragma line for this program in the function: write it in front of the function")
        elif line > function.last and high is None:
            function.tail.append(text)
        elif line > function.last and line < high:
            report.change(line, "not taken, since it may belong to what follows: %s" % text)
        else:
            report.change(line, "not taken, since it stands beside something else than %s: %s" % (function.name, text))
    threads = [line for line, text in others if re.search(r"\b(omp|acc)\b", text)]
    if others:
        report.change(others[0][0], "#pragma lines dropped, %d in all" % len(others))
    if threads:
        report.change(threads[0], "a #pragma for threads: what is compared is the meaning without threads, in sequence")
