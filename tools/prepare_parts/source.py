"""The text that the preprocessor left.

Source takes the name and the text of a file.
It gives the function's text without comments, directives and attributes, and the places that its lines come from.
It refuses directives that a preprocessor takes, a function without a body, and a second body."""

import bisect
import re
from typing import NamedTuple

from prepare_parts.report import Unreadable

WORDS = re.compile(r"""(?P<space>\s+)|(?P<str>L?"(?:\\.|[^"\\\n])*")|(?P<chr>L?'(?:\\.|[^'\\\n])*')|(?P<id>[A-Za-z_]\w*)
|(?P<num>\.?\d(?:[eEpP][+-]|[\w.])*)|(?P<op>.)""", re.S | re.X)
COMMENT = re.compile(r"""(?P<comment>/\*.*?\*/|//[^\n]*)|"(?:\\.|[^"\\\n])*"|'(?:\\.|[^'\\\n])*'""", re.S)
MARKER = re.compile(r'\s*#\s*(?:line\s+)?(\d+)(?:\s+"((?:\\.|[^"\\])*)")?')
ASM = ("__asm__", "__asm")
BRACKETED = ("__attribute__", "__attribute") + ASM
# Words of gcc, and how C spells them; those without a spelling go.
SPELLED = {"__const": "const", "__const__": "const", "__volatile": "volatile", "__volatile__": "volatile",
           "__signed": "signed", "__signed__": "signed", "__extension__": "", "__restrict": "", "__restrict__": "",
           "__inline": "", "__inline__": ""}
NESTING = {"(": 1, "[": 1, "{": 1, ")": -1, "]": -1, "}": -1}


class Token(NamedTuple):
    """A word or mark, with its place."""

    kind: str
    word: str
    start: int
    end: int


class Item(NamedTuple):
    """A declaration or a function, with its place."""

    start: int
    end: int
    tokens: list
    has_body: bool


def blank(text):
    """As many blanks, with the line ends in their places."""
    return re.sub(r"[^\n]", " ", text)


class Source:
    """A preprocessed file: its text, where its lines come from, its items, its pragma lines."""

    def __init__(self, name, text):
        self.name = name
        self.lines_from = {}                    # line of the file -> (file, line) that it comes from
        self.pragmas = []                       # (line, text)
        self.dropped = []                       # (position, word)
        text = text.replace("\r\n", "\n")
        text = COMMENT.sub(lambda found: blank(found[0]) if found["comment"] else found[0], text)
        self.text = self.without_directives(text)
        self.starts = [0] + [found.end() for found in re.finditer("\n", self.text)]
        self.text = self.without_attributes()
        self.items = list(self.cut())

    def where(self, line):
        """The place that a line comes from, as FILE:LINE."""
        return "%s:%d" % self.lines_from.get(line, (self.name, line))

    def line_at(self, position):
        """The line of a position."""
        return bisect.bisect_right(self.starts, position)

    def without_directives(self, text):
        """Notes line markers and pragma lines, and blanks every directive."""
        kept, origin, here = [], self.name, 1
        for number, line in enumerate(text.split("\n"), 1):
            self.lines_from[number] = (origin, here)
            here += 1
            if line.lstrip().startswith("#"):
                marker = MARKER.match(line)
                words = line.lstrip()[1:].split()
                if marker:
                    origin, here = marker[2] if marker[2] is not None else origin, int(marker[1])
                elif words[:1] == ["pragma"]:
                    self.pragmas.append((number, line.strip()))
                elif words and words[0] != "ident":
                    raise Unreadable(number, "#%s: run the preprocessor first, as gcc -E -P" % words[0])
                line = blank(line)
            kept.append(line)
        return "\n".join(kept)

    def tokens(self):
        """Words and marks; white space is passed over."""
        return [Token(found.lastgroup, found[0], found.start(), found.end())
                for found in WORDS.finditer(self.text) if found.lastgroup != "space"]

    def without_attributes(self):
        """Blanks attributes and asm, and spells the words of gcc; the line ends stay, so that no line moves."""
        tokens, pieces, done, i = self.tokens(), [], 0, 0
        while i < len(tokens):
            _, word, start, end = tokens[i]
            i += 1
            if word in BRACKETED:
                depth = 0
                while i < len(tokens):
                    depth += {"(": 1, ")": -1}.get(tokens[i].word, 0)
                    end = tokens[i].end
                    i += 1
                    if depth == 0:
                        break
            elif word not in SPELLED:
                continue
            new = SPELLED.get(word, "")
            self.dropped.append((start, "asm" if word in ASM else new or word))
            pieces += [self.text[done:start], new, blank(self.text[start:end])[len(new):]]
            done = end
        return "".join(pieces) + self.text[done:]

    def cut(self):
        """Cuts the text into items."""
        depth, current, has_body = 0, [], False
        for token in self.tokens():
            word = token.word
            if word == "{" and depth == 0:
                has_body = not current or current[-1].word == ")"
            depth += NESTING.get(word, 0)
            current.append(token)
            if depth <= 0 and (word == ";" or word == "}" and has_body):
                if len(current) > 1 or word != ";":
                    yield Item(current[0].start, token.end, current, has_body)
                depth, current, has_body = 0, [], False
        if current:
            yield Item(current[0].start, current[-1].end, current, False)

    def function(self, name):
        """The item of the function, and the text with nothing but it and the types that it needs."""
        item = self.body_of(name)
        text = list(blank(self.text))
        for start, end, _, _ in [item] + self.types_of(item):
            text[start:end] = self.text[start:end]
        return item, "".join(text)

    def body_of(self, name):
        """The item of the function; a function without one body is refused."""
        found, known, is_declared = [], [], False
        for item in self.items:
            at = next((i for i, token in enumerate(item.tokens) if token.word == "("), 0)
            word = item.tokens[at - 1].word if at else None
            if item.has_body and word:
                known.append(word)
            if word == name and item.tokens[0].word != "typedef":
                found += [item] if item.has_body else []
                is_declared = True
        if len(found) == 1:
            return found[0]
        if found:
            raise Unreadable(self.line_at(found[1].start), "a second body of %s" % name)
        if is_declared:
            raise Unreadable(1, "%s has no body here, or one behind declarations of its parameters: "
                             "declare them in the list" % name)
        raise Unreadable(1, "no function %s; functions with a body here: %s" % (name, ", ".join(known) or "none"))

    def types_of(self, item):
        """The typedefs that an item needs, and those that they need."""
        types = {}
        for other in self.items:
            if other.tokens[0].word == "typedef":
                for declared in typedef_names(other.tokens):
                    types.setdefault(declared, other)
        needed, queue = [], [item]
        while queue:
            for token in queue.pop().tokens:
                if token.kind == "id" and token.word in types and types[token.word] not in needed:
                    needed.append(types[token.word])
                    queue.append(types[token.word])
        return needed


def typedef_names(tokens):
    """The names that a typedef declares: those before a comma, bracket or semicolon, and those behind (*."""
    names, depth = [], 0
    for i, token in enumerate(tokens):
        if token.kind == "id" and i + 1 < len(tokens):
            if depth == 0 and tokens[i + 1].word in (";", ",", "[", "("):
                names.append(token.word)
            elif depth == 1 and tokens[i - 1].word == "*" and tokens[i - 2].word == "(":
                names.append(token.word)
        depth += NESTING.get(token.word, 0)
    return names
