"""Prints a table of what becomes of the loops of C files on several machines: see --help."""
from __future__ import annotations

import argparse
import collections
import os
import resource
import sys
import time
from dataclasses import dataclass
from typing import Any, Callable, Iterator

HERE = os.path.dirname(os.path.realpath(__file__))
sys.path.insert(0, HERE)
from frontend import is_written, what_lacks  # noqa: E402

try:
    from frontend import clang, problem, reader, solving
    from frontend.machine import BadMachine, read_machine
except ImportError as fault:
    print(f"table.py: {what_lacks(fault)}", file=sys.stderr)
    sys.exit(2)

MACHINES = [os.path.join(HERE, "machines", f"{it}.toml") for it in ("four", "eight")]
Solver = Callable[[dict[str, Any]], dict[str, Any]]


def arguments() -> argparse.Namespace:
    """The arguments of the command line."""
    parser = argparse.ArgumentParser(
        prog="table.py",
        description="Prints for each loop of the C files its operations, MII, interval and stages on each machine, and how many loops are left out for each"
        " reason, as Markdown. Standard error tells how many processor seconds clang and the library took.",
    )
    parser.add_argument("--machine", action="append", metavar="FILE.toml", help="a machine, once or more often (machines/four.toml and eight.toml)")
    parser.add_argument("--library", default=solving.library_beside(), metavar="FILE", help="the library (%(default)s)")
    parser.add_argument("files", nargs="+", metavar="LOOPS.c", help="a C file")
    return parser.parse_args()


def _cells(given: dict[str, Any] | None, solution: dict[str, Any] | None) -> list[str]:
    """The cells of a loop on a machine."""
    if given is None:
        return ["", "", "", ""]
    if solution is None:
        return [str(len(given["operations"])), "", "none", ""]
    mii = max(solution["resources"], solution["recurrences"])
    return [str(len(given["operations"])), str(mii), str(solution["interval"]), str(solution["stages"])]


def _place(it: dict[str, Any]) -> tuple[str, ...]:
    """Where the loop of a problem stands. Its name is another one on a machine that leaves out a loop of the function before it."""
    return tuple(it["source"][key] for key in ("file", "function", "header"))


def rows(documents: list[dict[str, Any]], solutions: list[dict[str, Any]]) -> Iterator[str]:
    """The rows of the loops, of documents and solutions for one file on several machines."""
    by_place = [{_place(it): it for it in its["problems"]} for its in documents]
    solved = [{it["name"]: it for it in its["solutions"]} for its in solutions]
    for at in dict.fromkeys(at for its in by_place for at in its):
        found = [its.get(at) for its in by_place]
        one = next(it for it in found if it)
        cells = [cell for it, of in zip(found, solved) for cell in _cells(it, it and of.get(it["name"]))]
        yield f"| `{os.path.basename(one['source']['file'])}:{one['source']['line']}` | `{one['name']}` | {' | '.join(cells)} |"


def reasons(documents: list[dict[str, Any]], names: list[str]) -> Iterator[str]:
    """The table of reasons why loops are left out, of documents of all files, machine by machine."""
    counts = [collections.Counter(it["reason"] for it in its) for its in documents]
    yield f"| left out | {' | '.join(names)} |"
    yield "|---|" + "---|" * len(names)
    for reason in sorted({reason for its in counts for reason in its}):
        yield f"| {reason} | {' | '.join(str(its[reason]) for its in counts)} |"


def heads(names: list[str]) -> Iterator[str]:
    """The head of the table of loops."""
    yield "| place | loop |" + "".join(f" {it}: operations | MII | interval | stages |" for it in names)
    yield "|---|---|" + "---|" * 4 * len(names)


@dataclass
class Times:
    """Processor seconds of clang and of the solver."""

    clang: float = 0
    solver: float = 0

    def compile(self, path: str) -> str:
        """The IR of a C file."""
        start = resource.getrusage(resource.RUSAGE_CHILDREN)
        text = clang.to_ir(path)
        end = resource.getrusage(resource.RUSAGE_CHILDREN)
        self.clang += end.ru_utime + end.ru_stime - start.ru_utime - start.ru_stime
        return text

    def solve(self, solve: Solver, document: dict[str, Any]) -> dict[str, Any]:
        """The solutions of a document."""
        start = time.process_time()
        found = solve(document)
        self.solver += time.process_time() - start
        return found


def table(files: list[str], machines: list[str], solve: Solver) -> tuple[list[str], Times]:
    """The lines of the tables, and how long clang and the solver took."""
    targets, times, names_of = [read_machine(it) for it in machines], Times(), [problem.Names() for _ in machines]
    names = [it.name for it in targets]
    lines = list(heads(names))
    left_out: list[list[dict[str, Any]]] = [[] for _ in targets]
    read, unread = 0, 0
    for path in files:
        text = times.compile(path)
        functions = [reader.read_functions(text) for _ in targets]
        documents = [problem.document(it, *problem.problems_of(its, it, path, given)) for it, its, given in zip(targets, functions, names_of)]
        lines += rows(documents, [times.solve(solve, it) for it in documents])
        read += len(documents[0]["problems"]) + len(documents[0]["left_out"])
        # (what is left out as a function is no loop)
        unread += sum(isinstance(it, Exception) for _, it in functions[0])
        for its, document in zip(left_out, documents):
            its += document["left_out"]
    given = " and ".join(f"{read - len(its)} on {name}" for name, its in zip(names, left_out))
    return [*lines, "", *reasons(left_out, names), "", f"Of {read - unread} innermost loops, {given} give a problem."], times


def run(given: argparse.Namespace) -> int:
    """Prints the tables: the status."""
    try:
        library = solving.modsched.Library(given.library)
    except (AttributeError, OSError) as bad:  # (some other library has none of the functions)
        print(f"table.py: {bad}", file=sys.stderr)
        return 2
    try:
        lines, times = table(given.files, given.machine or MACHINES, lambda it: solving.solved(library, it))
    except (OSError, clang.NoClang, BadMachine, reader.Unread) as bad:
        print(f"table.py: {bad}", file=sys.stderr)
        return 2
    if not is_written("\n".join(lines) + "\n", "table.py"):
        return 2
    print(f"clang took {times.clang:.2f} s, the library {times.solver:.2f} s", file=sys.stderr)
    return 0


def main() -> int:
    """Runs the command."""
    try:
        return run(arguments())
    except MemoryError:
        print("table.py: memory ran out", file=sys.stderr)
        return 2


if __name__ == "__main__":
    sys.exit(main())
