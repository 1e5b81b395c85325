"""Types and variables.

Types takes a declaration as pycparser gives it, and gives a Type.
It refuses pointers, structures, missing extents, volatile, and types that the language has nothing for."""

from dataclasses import dataclass
from typing import Optional

from pycparser import c_ast

AGGREGATES = {"Struct": "a structure: write an array for each member",
              "Union": "a union: write an array for each member", "Enum": "an enumeration: write int"}


class Type:
    """A type of the language, what it is in the file, and its extents."""

    def __init__(self, base, said, dims=(), core=()):
        self.base, self.said, self.dims, self.core = base, said, list(dims), list(core)
        self.exact = base == said                       # (an int or long is one of the language's then)
        self.index = self.exact and base in ("int", "long")

    def wraps(self):
        """What is added to a refusal of an unsigned type."""
        return ", since the wrap-around of unsigned numbers is not modelled" if "unsigned" in self.said else ""


@dataclass
class Variable:
    """A parameter or local: an array (arr), scalar (scal), integer parameter (ipar), iterator (iter) or refused (bad)."""

    kind: str
    type: Optional[Type]
    line: int
    is_local: bool


class Types:
    """Reads types; extent_of gives the expression of an extent."""

    def __init__(self, report, extent_of):
        self.report, self.extent_of = report, extent_of
        self.typedefs = {}

    def read(self, node, name, line):
        """The type of a declaration: a Type, or None after a refusal."""
        if isinstance(node, c_ast.ArrayDecl):
            return self.read_array(node, name, line)
        if isinstance(node, c_ast.PtrDecl):
            return self.refuse(line, "%s is a pointer: write an array with all its extents, as %s[N]" % (name, name))
        if isinstance(node, c_ast.FuncDecl):
            return self.refuse(line, "%s is a function declared here: leave the declaration out" % name)
        if not isinstance(node, c_ast.TypeDecl):
            return self.refuse(line, "%s has a type that is not read" % name)
        for qual in node.quals or []:
            if qual in ("volatile", "_Atomic"):
                return self.refuse(line, "%s is %s: its reads and writes have a meaning of their own" % (name, qual))
            self.report.change(line, "%s dropped" % qual)
        if not isinstance(node.type, c_ast.IdentifierType):
            word = AGGREGATES.get(type(node.type).__name__, "of a type that is not read")
            return self.refuse(line, "%s is %s" % (name, word))
        words = node.type.names
        if len(words) == 1 and words[0] in self.typedefs:
            return self.read_typedef(words[0], name, line)
        return self.read_base(words, name, line)

    def refuse(self, line, text):
        """Gives None."""
        self.report.refuse(line, text)

    def read_array(self, node, name, line):
        """The type of an array, or None."""
        if node.dim_quals:
            words = [q if isinstance(q, str) else "?" for q in node.dim_quals]
            if "volatile" in words:
                self.refuse(line, "%s is volatile: its reads and writes have a meaning of their own" % name)
            self.report.change(line, "%s: %s in brackets dropped" % (name, " ".join(words)))
        inner = self.read(node.type, name, line)
        if inner is None:
            return None
        if node.dim is None or isinstance(node.dim, c_ast.ID) and node.dim.name == "*":
            return self.refuse(line, "%s has an extent missing: write all of them, as %s[N]" % (name, name))
        return Type(inner.base, inner.said, [self.extent_of(node.dim)] + inner.dims, inner.core)

    def read_typedef(self, word, name, line):
        """The type that a typedef stands for, or None."""
        inner = self.read(self.typedefs[word], name, line)
        if inner is None:
            return None
        self.report.change(line, "%s written as %s" % (word, inner.base))
        if inner.exact:
            return inner
        return Type(inner.base, "%s (%s)" % (word, inner.said), inner.dims, inner.core)

    def read_base(self, words, name, line):
        """The type of the words of a declaration, or None."""
        said, counted = " ".join(words), sorted(word for word in words if word not in ("int", "signed"))
        if counted in ([], ["long"], ["float"], ["double"]):
            base = counted[0] if counted else "int"
            return Type(base, base)
        if counted in (["long", "long"], ["double", "long"]):
            self.report.change(line, "%s: %s written as %s" % (name, said, "double" if "double" in counted else "long"))
            return self.read_base(counted[:1], name, line)
        if set(counted) <= {"unsigned", "short", "char", "long", "_Bool"}:
            return Type("int", said, (), counted)
        return self.refuse(line, "%s has the type %s: int, long, float and double are the types" % (name, said))

    def is_void(self, words):
        """Whether the words of a type stand for void."""
        while len(words) == 1 and words[0] in self.typedefs:
            inner = self.typedefs[words[0]].type
            if not isinstance(inner, c_ast.IdentifierType):
                break
            words = inner.names
        return words == ["void"]
