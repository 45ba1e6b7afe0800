#!/usr/bin/env python3
"""usage: as_problems.py MACHINE LOOPS

Prints the loops of a file, on the machine of a machine text, as scheduling problems: `modsched solve` comes to the intervals, times and registers for them that `modsched schedule`
comes to for the loops. Kinds are opcodes; values, reads and other edges are those of `modsched edges`. What operations compute is no part of a problem, and so are arrays,
parameters and initial values none. The program is the one that the variable MODSCHED names, else bin/modsched or ./modsched above this folder,
else that of the path.
"""
from __future__ import annotations

import os
import re
import subprocess
import sys
import tomllib
from collections.abc import Iterator

ROOT = os.path.dirname(os.path.dirname(os.path.realpath(__file__)))
# (an archive of a release has it in bin)
PROGRAM = os.environ.get("MODSCHED") or next((it for it in (f"{ROOT}/bin/modsched", f"{ROOT}/modsched") if os.path.isfile(it)), "modsched")


def hold(row: str) -> str:
    unit, offset = row.split("@")
    return f"{unit}@{int(offset)}" if int(offset) else unit


def machine_lines(path: str) -> Iterator[str]:
    with open(path, "rb") as file:
        machine = tomllib.load(file)
    name = re.sub(r"[^!-\"$-~]", "_", os.path.basename(path).removesuffix(".toml"))
    yield f"machine {name[:64]}"
    yield " ".join(["units", *machine["units"]])
    yield f"file r rotating {machine['registers']}"
    for opcode, table in machine["ops"].items():
        ways = "".join(" | " + " ".join(map(hold, rows)) for rows in table["alts"])
        yield f"kind {opcode} latency {table['latency']}{ways}"


def outs_of(path: str) -> dict[str, set[str]]:
    """Which values are live at the end, by the names of the loops."""
    outs: dict[str, set[str]] = {}
    with open(path, encoding="latin-1", newline="\n") as file:
        for line in file.read().split("\n"):
            match line.split("#")[0].split():
                case ["loop", name]:
                    outs[name] = last = set()
                case ["out", name]:
                    last.add(name)
    return outs


def problem_lines(block: str, outs: dict[str, set[str]]) -> Iterator[str]:
    """The lines of a problem, of the lines that `edges` prints for a loop."""
    head, *lines = block.rstrip("\n").split("\n")
    loop, names, values, rest = head.split()[1], list[str](), list[str](), list[str]()
    yield ""
    yield f"problem {loop}"
    for line in lines:
        match line.split():
            case ["op", number, name, opcode, "latency", latency, "height", _]:
                # (a store is told by its cell, and there may be several to one)
                names.append(f"{name}.{number}" if name in names else name)
                yield f"op {names[-1]} {opcode}"
                if opcode != "store":
                    values.append(f"value {name} of {name} lands {latency} in r" + (" out" if name in outs[loop] else ""))
            case ["edge", one, _, other, _, kind, "delay", delay, "distance", distance]:
                if kind == "value":
                    rest.append(f"read {names[int(other)]} {names[int(one)]}" + (f" distance {distance}" if distance != "0" else ""))
                else:
                    rest.append(f"edge {names[int(one)]} {names[int(other)]} delay {delay} distance {distance}")
    yield from [*values, *rest, "end"]


def main(machine: str, loops: str) -> None:
    try:
        ran = subprocess.run([PROGRAM, "edges", machine, loops], stdout=subprocess.PIPE, text=True)
    except OSError as fault:
        sys.exit(f"as_problems.py: {PROGRAM} does not run: {fault.strerror}")
    if ran.returncode < 0:
        sys.exit(f"as_problems.py: {PROGRAM} is ended by signal {-ran.returncode}")
    if ran.returncode:
        sys.exit(ran.returncode)
    outs = outs_of(loops)
    for line in machine_lines(machine):
        print(line)
    for block in re.split(r"(?m)^(?=loops? )", ran.stdout)[1:-1]:
        for line in problem_lines(block, outs):
            print(line)


if __name__ == "__main__":
    if len(sys.argv) != 3:
        sys.exit(__doc__)
    main(*sys.argv[1:])
