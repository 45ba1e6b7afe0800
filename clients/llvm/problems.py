"""Writes the innermost loops of C files as scheduling problems: see --help."""
from __future__ import annotations

import argparse
import json
import os
import sys

HERE = os.path.dirname(os.path.realpath(__file__))
sys.path.insert(0, HERE)
from frontend import is_written, what_lacks  # noqa: E402


def arguments() -> argparse.Namespace:
    """The arguments of the command line."""
    parser = argparse.ArgumentParser(
        prog="problems.py",
        description="Compiles C files with clang, and writes the innermost loops of their functions as scheduling problems. A line on standard error tells"
        " of each loop that is left out, and why. Needs clang 14 and llvmlite.",
    )
    parser.add_argument("--machine", default=os.path.join(HERE, "machines", "four.toml"), metavar="FILE.toml", help="the machine (machines/four.toml)")
    parser.add_argument("--text", action="store_true", help="write lines of scheduling problems in place of JSON")
    parser.add_argument("--flag", action="append", default=[], metavar="FLAG", help="a flag for clang, as --flag=-Iinclude; may be given several times")
    parser.add_argument("files", nargs="+", metavar="LOOPS.c", help="a C file")
    return parser.parse_args()


def main() -> int:
    """Runs the command."""
    given = arguments()
    try:
        from frontend import clang, machine, problem, reader, text
    except ImportError as fault:
        print(f"problems.py: {what_lacks(fault)}", file=sys.stderr)
        return 2
    try:
        target = machine.read_machine(given.machine)
        problems, left_out, names = [], [], problem.Names()
        for path in given.files:
            found, left = problem.problems_of(reader.read_functions(clang.to_ir(path, given.flag)), target, path, names)
            problems += found
            left_out += left
    except (clang.NoClang, machine.BadMachine, reader.Unread, OSError) as bad:
        print(f"problems.py: {bad}", file=sys.stderr)
        return 2
    for it in left_out:
        print(f"{it['file']}:{it['line']}: {it['function']} is left out: {it['reason']}", file=sys.stderr)
    document = problem.document(target, problems, left_out)
    return 0 if is_written(text.text_of(document) if given.text else f"{json.dumps(document, indent=1)}\n", "problems.py") else 2


if __name__ == "__main__":
    sys.exit(main())
