"""Words of a text: tokens with their places, pragma lines included. Comments and other directives are left out."""
import re

RESERVED = set(
    'auto break case char const continue default do double else enum extern float for goto if inline int long register restrict '
    'return short signed sizeof static struct switch typedef union unsigned void volatile while floord ceild'.split()
)
MARKS = [
    '&&', '++', '--', '+=', '-=', '*=', '/=', '%=', '<=', '>=', '==',
    '(', ')', '[', ']', '{', '}', ',', ';', '=', '+', '-', '*', '/', '%', '<', '>',
]
DECIMAL = re.compile(r'(\d+\.\d*([eE][+-]?\d+)?|\.\d+([eE][+-]?\d+)?|\d+[eE][+-]?\d+)[fFlL]?\Z')
NUMBER = re.compile(r'(0|[1-9]\d*)\Z')
RUN = re.compile(r'\.?\d(?:[eE][+-]|[A-Za-z0-9_.])*')
NAME = re.compile(r'[A-Za-z_][A-Za-z0-9_]*')


class Refused(Exception):
    """The first refusal of a text: its place, counted in bytes from 0, and its kind."""

    def __init__(self, place, kind):
        super().__init__(kind)
        self.place = place
        self.kind = kind


class Token:
    """A word: `kind` is mark, word (reserved), name, number, decimal, start or end (of a pragma line), or last."""

    def __init__(self, kind, text, place):
        self.kind = kind
        self.text = text
        self.place = place


def numeral(text, at):
    """The number or decimal that begins here."""
    run = RUN.match(text, at).group()
    if NUMBER.match(run):
        return Token('number', run, at)
    if not DECIMAL.match(run):
        raise Refused(at, 'bad number')
    if len(run) > 64:
        raise Refused(at, 'long name')
    return Token('decimal', run, at)


def named(text, at):
    """The name or reserved word that begins here."""
    run = NAME.match(text, at).group()
    if len(run) > 64:
        raise Refused(at, 'long name')
    return Token('word' if run in RESERVED else 'name', run, at)


def mark(text, at):
    """The longest mark that begins here."""
    for each in MARKS:
        if text.startswith(each, at):
            return Token('mark', each, at)
    raise Refused(at, 'bad byte')


def word(text, at):
    """The word that begins here."""
    if re.match(r'\.?\d', text[at:at + 2]):
        return numeral(text, at)
    if NAME.match(text, at):
        return named(text, at)
    return mark(text, at)


def behind_comment(text, at, end):
    """The place behind the comment that begins here."""
    if text.startswith('//', at):
        line = text.find('\n', at, end)
        return end if line < 0 else line
    close = text.find('*/', at + 2, end)
    if close < 0:
        raise Refused(at, 'open comment')
    return close + 2


def split(text, at, end):
    """The tokens of a part of the text in which nothing is a directive."""
    tokens = []
    while at < end:
        if text[at] in ' \t\n\r\v\f':
            at += 1
        elif text.startswith('//', at) or text.startswith('/*', at):
            at = behind_comment(text, at, end)
        else:
            tokens.append(word(text, at))
            at += len(tokens[-1].text)
    return tokens


def tokens_of(text):
    """All tokens of a text. Lines that begin with # are pragma lines, or say nothing; no comment here goes over such a line."""
    tokens, at = [], 0
    for line in re.split(r'(?<=\n)', text):
        end = at + len(line.rstrip('\n'))
        pragma = re.match(r'[ \t]*(#pragma[ \t]+affine)(?![A-Za-z0-9_])', line)
        if pragma:
            tokens.append(Token('start', '#pragma affine', at + pragma.start(1)))
            tokens += split(text, at + pragma.end(1), end)
            tokens.append(Token('end', '', end))
        elif not re.match(r'[ \t]*#(include|pragma)(?![A-Za-z0-9_])', line):
            tokens += split(text, at, end)
        at += len(line)
    return tokens + [Token('last', '', len(text))]
