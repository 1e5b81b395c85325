"""The command: its words, and what it prints.

run takes the words behind the command, and gives the exit status.
The status is 0 if the function is written, 1 if something is refused, and 2 if the words or the file are wrong."""

import sys

from prepare_parts.printing import print_function
from prepare_parts.report import Report, Unreadable
from prepare_parts.source import Source
from prepare_parts.walk import prepare


def run(words):
    """Prepares the function of a file, and prints it or the refusals."""
    if len(words) != 2:
        print("usage: tools/prepare FILE FUNCTION", file=sys.stderr)
        return 2
    path, function = words
    sys.setrecursionlimit(20000)
    for stream in (sys.stdout, sys.stderr):
        stream.reconfigure(errors="surrogateescape")
    try:
        with open(path, encoding="utf-8", errors="surrogateescape") as file:
            text = file.read()
    except OSError as error:
        print("tools/prepare: %s: %s" % (path, error.strerror), file=sys.stderr)
        return 2
    printed, report, where = prepared(path, text, function)
    for line, said in report.lines():
        print("%s: %s" % (where(line), said), file=sys.stderr)
    if printed is None:
        return 1
    sys.stdout.write(printed)
    return 0


def prepared(path, text, function):
    """The text that is written, or None; what is said; and the place of a line."""
    where = lambda line: "%s:%d" % (path, line)
    try:
        source = Source(path, text)
        where = source.where
        written = prepare(source, function, Report())
        printed = None if written.report.refusals else print_function(written, path)
        return printed, written.report, where
    except Unreadable as fault:
        report = Report()
        report.refuse(fault.line, fault.text)
        return None, report, where
