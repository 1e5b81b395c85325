"""One kernel, by the program and by isl: what `run` and `drawn` share."""

import os
import resource
import signal
import subprocess
from pathlib import Path

from flowtext import relations
from model import Model, Unknown

TOP = Path(__file__).resolve().parent.parent.parent
LIMIT = 60  # processor seconds of one process


class Stopped(Exception):
    """There is no answer: `flow` says that it refuses or stops, or a process takes more than the limit."""


def answer(words):
    """Runs a process to its end, or to the limit."""
    limit = lambda: resource.setrlimit(resource.RLIMIT_CPU, (LIMIT, resource.getrlimit(resource.RLIMIT_CPU)[1]))
    ended = subprocess.run(words, stdin=subprocess.DEVNULL, capture_output=True, text=True, preexec_fn=limit)
    if ended.returncode == -signal.SIGXCPU:
        raise Stopped(f"{Path(words[0]).name}: more than {LIMIT} seconds")
    return ended


def sides(word, folder):
    """The program to time, the given one or that of this checkout, which is built first where it must be; and isl_side, compiled into the folder. Nothing
    is given where one of them can't be run."""
    program, isl_side = Path(word or TOP / "crates/ac_cli/out/denmavoli").resolve(), folder / "isl_side"
    if not word:
        subprocess.run([TOP / "denmavoli", "flow", TOP / "examples/first/original.c"], stdout=subprocess.DEVNULL)
    built = subprocess.run(["gcc", "-std=c11", "-O2", Path(__file__).parent / "isl_side.c", "-lisl", "-o", isl_side])
    return (str(program), str(isl_side)) if built.returncode == 0 and os.access(program, os.X_OK) else None


def compare(kernel, program, isl_side, folder):
    """Writes the relations of a kernel into the folder, and compares. Gives the number of reads, the number of relations that were compared, and a line
    for each that differs, with further lines."""
    printed = answer([program, "flow", kernel])
    if printed.returncode in (3, 8):
        raise Stopped(f"status {printed.returncode}: {printed.stdout.strip()}")
    if printed.returncode != 0:
        raise Unknown(f"flow ends with status {printed.returncode}: {printed.stdout.strip()} {printed.stderr.strip()}")
    model = Model(kernel.read_text(encoding="utf-8"))
    (folder / "model").write_text("".join(f"{line}\n" for line in model.lines))
    (folder / "flow").write_text("".join(f"{line}\n" for line in model.domains + relations(printed.stdout, model)))
    said = answer([isl_side, folder / "model", folder / "flow"])
    lines = said.stdout.splitlines()
    if said.returncode not in (0, 1) or not lines or not lines[-1].startswith("compared "):
        raise Unknown(f"isl_side ends with status {said.returncode}: {said.stderr}")
    return sum(len(reads) for depth, reads in model.assignments), int(lines[-1].split()[1]), lines[:-1]
