"""Prints kernels row by row with the lines of C beside them: see --help."""
from __future__ import annotations

import argparse
import json
import os
import sys
from typing import Any, Iterator

HERE = os.path.dirname(os.path.realpath(__file__))
sys.path.insert(0, HERE)
from frontend import is_written  # noqa: E402

MOST_INTERVAL = 1 << 16  # more rows than any kernel has


def arguments() -> argparse.Namespace:
    """The arguments of the command line."""
    parser = argparse.ArgumentParser(
        prog="show.py",
        description="Prints the kernel of each solved loop of the C files, row by row: the operations that are issued in the row, each with its stage, the"
        " unit that it takes first, and its line of C.",
    )
    parser.add_argument("problems", metavar="problems.json")
    parser.add_argument("solutions", metavar="solutions.json")
    parser.add_argument("files", nargs="+", metavar="LOOPS.c", help="a C file that the problems are of")
    return parser.parse_args()


def _unit(machine: dict[str, Any], kind: str, alternative: int) -> str:
    """The unit that an alternative takes first."""
    holds = {it["name"]: it for it in machine["kinds"]}[kind]["alternatives"][alternative]
    return min(holds, key=lambda it: it["offset"])["unit"]


def _text(texts: dict[str, list[str]], file: str) -> list[str]:
    """The lines of a source: those of its path, or else of the one file that has its name."""
    if file in texts:
        return texts[file]
    named = [text for path, text in texts.items() if os.path.basename(path) == os.path.basename(file)]
    return named[0] if len(named) == 1 else []


def _line(texts: dict[str, list[str]], operation: dict[str, Any]) -> str:
    text = _text(texts, operation["file"])
    return text[operation["line"] - 1].strip() if 0 < operation["line"] <= len(text) else ""


def kernel_lines(machine: dict[str, Any], problem: dict[str, Any], solution: dict[str, Any], texts: dict[str, list[str]]) -> Iterator[str]:
    """The lines of a kernel. After an operation of an iteration that began N turns ago stands ?N."""
    interval, times, units = solution["interval"], solution["times"], machine["units"]
    if not 1 <= interval <= MOST_INTERVAL:
        raise ValueError(f"the interval of {problem['name']} is {interval}, and not 1 to {MOST_INTERVAL}")
    source = problem["source"]
    yield f"loop {problem['name']} at {os.path.basename(source['file'])}:{source['line']}, interval {interval}, stages {solution['stages']}"
    rows: list[list[tuple[int, str, str, str]]] = [[] for _ in range(interval)]
    for it in problem["operations"]:
        stage, row = divmod(times[it["name"]], interval)
        unit = _unit(machine, it["kind"], solution["alternatives"][it["name"]])
        rows[row].append((units.index(unit), unit, f"{it['name']} ?{stage}", _line(texts, it)))
    wide = max((len(name) for row in rows for _, _, name, _ in row), default=0)
    room = max([4, *(len(unit) + 1 for row in rows for _, unit, _, _ in row)])
    for number, row in enumerate(rows):
        for place, (_, unit, name, line) in enumerate(sorted(row)):
            yield f"{f'{number}:' if place == 0 else '':5}{unit:{room}}{name:{wide}}  {line}".rstrip()
        if not row:
            yield f"{number}:"


def shown(document: dict[str, Any], solutions: dict[str, Any], texts: dict[str, list[str]]) -> list[str]:
    """The lines of all kernels that there are of loops of these sources, each after an empty line but the first."""
    found, lines = {it["name"]: it for it in solutions["solutions"]}, []
    name = document["machine"]["name"]
    if solutions.get("machine", name) != name:
        raise ValueError(f"its machine is {solutions['machine']}, and not {name}")
    for problem in document["problems"]:
        if problem["name"] in found and _text(texts, problem["source"]["file"]):
            lines += ["", *kernel_lines(document["machine"], problem, found[problem["name"]], texts)]
    return lines[1:]


def main() -> int:
    """Runs the command."""
    given = arguments()
    try:
        with open(given.problems, encoding="utf-8") as one, open(given.solutions, encoding="utf-8") as other:
            document, solutions = json.load(one), json.load(other)
        texts = {}
        for path in given.files:
            # (clang takes a C file with other bytes than UTF-8 in a comment)
            with open(path, encoding="utf-8", errors="replace") as it:
                texts[path] = it.read().split("\n")
    except (OSError, RecursionError, ValueError) as bad:
        print(f"show.py: {bad}", file=sys.stderr)
        return 2
    try:
        lines = shown(document, solutions, texts)
    except (AttributeError, IndexError, KeyError, TypeError, ValueError) as bad:
        print(f"show.py: {given.solutions} does not fit {given.problems}: {bad}", file=sys.stderr)
        return 2
    if not lines:
        print(f"show.py: no loop of these files has a solution in {given.solutions}", file=sys.stderr)
        return 2
    return 0 if is_written("\n".join(lines) + "\n", "show.py") else 2


if __name__ == "__main__":
    sys.exit(main())
