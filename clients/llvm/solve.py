"""Solves scheduling problems with the library: see --help."""
from __future__ import annotations

import argparse
import json
import os
import sys

HERE = os.path.dirname(os.path.realpath(__file__))
sys.path.insert(0, HERE)
from frontend import is_written, solving  # noqa: E402


def arguments() -> argparse.Namespace:
    """The arguments of the command line."""
    parser = argparse.ArgumentParser(
        prog="solve.py",
        description="Solves the problems of problems.json with libmodsched.so (./x library makes it), and writes solutions.json. A line on standard error tells of"
        " each problem that has no solution, and why: the status is then 1.",
    )
    parser.add_argument("--library", default=solving.library_beside(), metavar="FILE", help="the library (%(default)s)")
    parser.add_argument("--ratio", type=int, default=6, help="how many times as many placements as operations an attempt may make, 1 to 64 (6)")
    parser.add_argument("--ceiling", type=int, default=64, help="how many intervals above the least one are tried, 0 to 255 (64)")
    parser.add_argument("problems", metavar="problems.json")
    return parser.parse_args()


def run(given: argparse.Namespace) -> int:
    """Solves the problems: the status."""
    try:
        library = solving.modsched.Library(given.library)
        with open(given.problems, encoding="utf-8") as it:
            document = json.load(it)
    except (AttributeError, OSError, RecursionError, ValueError) as bad:  # (some other library has none of the functions)
        print(f"solve.py: {bad}", file=sys.stderr)
        return 2
    try:
        found = solving.solved(library, document, given.ratio, given.ceiling)
    except (KeyError, TypeError) as bad:
        print(f"solve.py: {given.problems} is no problems.json: {bad}", file=sys.stderr)
        return 2
    except ValueError as bad:
        print(f"solve.py: {bad}", file=sys.stderr)
        return 2
    for it in found["unsolved"]:
        print(f"{it['name']} has no solution: {it['reason']}", file=sys.stderr)
    if not is_written(f"{json.dumps(found, indent=1)}\n", "solve.py"):
        return 2
    return 1 if found["unsolved"] else 0


def main() -> int:
    """Runs the command."""
    try:
        return run(arguments())
    except MemoryError:
        print("solve.py: memory ran out", file=sys.stderr)
        return 2


if __name__ == "__main__":
    sys.exit(main())
