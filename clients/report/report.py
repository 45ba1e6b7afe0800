#!/usr/bin/env python3
"""Makes one HTML page that shows the schedules of a file of loops, or of scheduling problems: kernels, iterations, registers, dependences.

It runs `modsched edges`, `explain` and `json` on a machine and loops, or `modsched solve` on a text of problems, and joins what they print into one JSON
document, which stands in the page between its fixed head and its fixed tail. README.md beside this script has the document's format."""
from __future__ import annotations

import argparse
import json
import os
import subprocess
import sys
from typing import Any

from document import Mismatch, join, text_of
from lines import Misfit, read_edges, read_explain
from problem_document import join_problems

HERE = os.path.dirname(os.path.realpath(__file__))


class Refused(Exception):
    """There is no page: the status, and the line for standard error, or nothing where the program has said why."""

    def __init__(self, status: int, said: str = ""):
        super().__init__(said)
        self.status = status


def program_beside() -> str:
    """The program: what MODSCHED names, else ./modsched or bin/modsched above this folder, else that of the path."""
    root = os.path.dirname(os.path.dirname(HERE))
    beside = (path for path in (f"{root}/bin/modsched", f"{root}/modsched") if os.path.isfile(path))
    return os.environ.get("MODSCHED") or next(beside, "modsched")


def printed(program: str, words: list[str]) -> str:
    """What the program prints. Its status 1 tells that some loop has no kernel, and is well. It prints ASCII alone: a line with another byte has none of its forms."""
    try:
        ran = subprocess.run([program, *words], stdin=subprocess.DEVNULL, stdout=subprocess.PIPE)
    except OSError as fault:
        raise Refused(2, f"report: {program} does not run: {fault.strerror}") from fault
    if ran.returncode < 0:
        # (the status is as a shell tells it)
        raise Refused(128 - ran.returncode, f"report: {program} is ended by signal {-ran.returncode}")
    if ran.returncode not in (0, 1):
        raise Refused(ran.returncode)
    return ran.stdout.decode("ascii", "replace")


def read(path: str) -> bytes:
    """The bytes of a file."""
    try:
        with open(path, "rb") as it:
            return it.read()
    except OSError as fault:
        raise Refused(3, f"report: cannot read {path}: {fault.strerror}") from fault


def document_of(program: str, machine: str, loops: str, options: list[str]) -> dict[str, Any]:
    """The document for a machine and loops; the options are those of `explain`."""
    files = [machine, loops]
    # (one after another, so that what is refused is told once)
    edges = printed(program, ["edges", *files])
    explained, listing = (printed(program, [it, *files, *options]) for it in ("explain", "json"))
    try:
        return join(read_edges(edges), read_explain(explained), json.loads(listing))
    except (ValueError, RecursionError, KeyError, TypeError, IndexError, AttributeError) as fault:
        raise Mismatch("json", f"not the document of docs/FORMATS.md: {fault!r}") from fault


def document_of_problems(program: str, problems: str, options: list[str]) -> dict[str, Any]:
    """The document for a text of problems; the options are those of `solve`."""
    told = printed(program, ["solve", problems, *options])
    return join_problems(read(problems), told)


def page_of(document: str) -> str:
    """The page around the line of a document."""
    return read(f"{HERE}/head.html").decode() + document + read(f"{HERE}/tail.html").decode()


def written(path: str | None, text: bytes) -> int:
    """Writes the page to a file, or to standard output. The status is 6, as that of the program, where the file can't be written."""
    try:
        with open(1 if path is None else path, "wb", closefd=path is not None) as to:
            to.write(text)
    except OSError as fault:
        print(f"report: cannot write {'to standard output' if path is None else path}: {fault.strerror}", file=sys.stderr)
        return 6
    return 0


def parsed(words: list[str] | None) -> argparse.Namespace:
    """The command line."""
    usage = "report.py [options] MACHINE LOOPS\n       report.py [options] --problems PROBLEMS"
    parser = argparse.ArgumentParser(prog="report.py", usage=usage, description=(__doc__ or "").split("\n\n")[0])
    parser.add_argument("--modsched", metavar="PATH", default=program_beside(), help="the program (else MODSCHED, or the one of this folder)")
    parser.add_argument("--json", action="store_true", help="write the document alone")
    parser.add_argument("-o", dest="page", metavar="PAGE", help="write to this file, and not to standard output")
    parser.add_argument("--ratio", metavar="R", help="passed on to explain and json, or to solve")
    parser.add_argument("--ceiling", metavar="C", help="passed on to explain and json, or to solve")
    parser.add_argument("--problems", metavar="PROBLEMS", help="a text of scheduling problems, in place of a machine and loops")
    parser.add_argument("machine", metavar="MACHINE", nargs="?")
    parser.add_argument("loops", metavar="LOOPS", nargs="?")
    given = parser.parse_args(words)
    if (given.machine, given.loops).count(None) != (0 if given.problems is None else 2):
        parser.error("a machine and loops are needed, or --problems and a text of problems alone")
    if "-" in (given.machine, given.loops, given.problems):
        parser.error("texts are read more than once, so that none of them can be the standard input")
    return given


def main(words: list[str] | None = None) -> int:
    """Writes the page, or one line to standard error. The status is the program's where that refuses a file, and 8 where its output
    is not as the documents say."""
    given = parsed(words)
    options = [word for name in ("ratio", "ceiling") if getattr(given, name) is not None for word in (f"--{name}", getattr(given, name))]
    try:
        if given.problems is not None:
            text = text_of(document_of_problems(given.modsched, given.problems, options))
        else:
            text = text_of(document_of(given.modsched, given.machine, given.loops, options))
        if not given.json:
            text = page_of(text)
    except (Misfit, Mismatch) as fault:
        print(f"report: {fault}", file=sys.stderr)
        return 8
    except Refused as fault:
        if str(fault):
            print(fault, file=sys.stderr)
        return fault.status
    return written(given.page, text.encode())


if __name__ == "__main__":
    sys.exit(main())
