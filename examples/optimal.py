#!/usr/bin/env python3
"""usage: optimal.py [--seconds N] [--interval I] [--table] PROBLEMS..

Looks with z3 for solutions of scheduling problems at shorter intervals than those of `modsched solve`, from the bound of recurrences on. It prints a text of solutions
that `modsched check` takes: of each problem the one at the least interval, and before it a line

  # NAME solve I least L: SECONDS seconds

`least none` says that no interval that was tried has a solution, and `least at most L` that z3 decided nothing of some interval below within the seconds (60) that each may take.
What is decided is whether there are times, alternatives and numbers of registers at that interval that keep each edge, each unit, 64 stages and each register; a budget there is not.
With --interval only that one is tried, and `none at I` says that it has no solution. With --table there are rows of a table. z3 has to be installed (Debian: apt-get install python3-z3).
The program is the one that the variable MODSCHED names, else bin/modsched or ./modsched above this folder, else that of the path.
"""
from __future__ import annotations

import argparse
import os
import re
import subprocess
import sys
import time
from dataclasses import dataclass, field
from typing import NamedTuple

import z3

ROOT = os.path.dirname(os.path.dirname(os.path.realpath(__file__)))
# (an archive of a release has it in bin)
PROGRAM = os.environ.get("MODSCHED") or next((it for it in (f"{ROOT}/bin/modsched", f"{ROOT}/modsched") if os.path.isfile(it)), "modsched")
STAGES = 64


@dataclass
class Kind:
    latency: int
    alternatives: list[list[tuple[str, int]]]
    """Each a list of units and how many cycles after the issue they are held."""


@dataclass
class Machine:
    files: dict[str, int | None] = field(default_factory=dict)
    """How many registers; None where values are allotted to none."""
    kinds: dict[str, Kind] = field(default_factory=dict)


Value = NamedTuple("Value", [("maker", str), ("lands", int), ("file", str), ("out", bool)])
Read = NamedTuple("Read", [("reader", str), ("value", str), ("distance", int), ("offset", int)])
Edge = NamedTuple("Edge", [("one", str), ("other", str), ("delay", int), ("distance", int)])


@dataclass
class Problem:
    name: str
    machine: Machine
    operations: dict[str, Kind] = field(default_factory=dict)
    values: dict[str, Value] = field(default_factory=dict)
    reads: list[Read] = field(default_factory=list)
    edges: list[Edge] = field(default_factory=list)

    def all_edges(self) -> list[Edge]:
        """The edges that reads demand, and the others."""
        made = {it: value.lands for it, value in self.values.items()}
        return [Edge(self.values[it.value].maker, it.reader, made[it.value] - it.offset, it.distance) for it in self.reads] + self.edges


@dataclass
class Solution:
    interval: int
    places: dict[str, tuple[int, int]]
    numbers: dict[str, int]

    def text(self, name: str) -> str:
        lines = [f"solution {name} ii {self.interval}"]
        lines += [f"op {op} time {issue} by {by}" for op, (issue, by) in self.places.items()]
        lines += [f"value {value} number {number}" for value, number in self.numbers.items()]
        return "".join(f"{it}\n" for it in [*lines, "end"])


def kind_of(words: list[str]) -> Kind:
    alternatives: list[list[tuple[str, int]]] = []
    for word in words[4:]:
        unit, _, offset = word.partition("@")
        if word == "|":
            alternatives.append([])
        else:
            alternatives[-1].append((unit, int(offset or 0)))
    return Kind(int(words[3]), alternatives)


def read_problems(text: str) -> list[Problem]:
    """The problems of a text without faults."""
    machine, problems = Machine(), list[Problem]()
    for line in text.split("\n"):
        match line.split("#")[0].split():
            case ["machine", _]:
                machine = Machine()
            case ["file", name, *words]:
                machine.files[name] = int(words[1]) if words[0] == "rotating" else None
            case ["kind", name, *_] as words:
                machine.kinds[name] = kind_of(words)
            case ["problem", name]:
                problems.append(Problem(name, machine))
            case ["op", name, kind]:
                problems[-1].operations[name] = machine.kinds[kind]
            case ["value", name, _, maker, _, lands, _, file, *out]:
                problems[-1].values[name] = Value(maker, int(lands), file, bool(out))
            case ["read", reader, value, *words]:
                problems[-1].reads.append(Read(reader, value, *[int(it) for it in (words[1::2] + ["0", "0"])[:2]]))
            case ["edge", one, other, _, delay, _, distance]:
                problems[-1].edges.append(Edge(one, other, int(delay), int(distance)))
    return problems


class Search:
    """The question whether a problem has a solution at an interval, for z3."""

    def __init__(self, problem: Problem, interval: int) -> None:
        self.problem, self.interval, self.solver = problem, interval, z3.Solver()
        self.choices = {op: self.choices_of(op, kind) for op, kind in problem.operations.items()}
        self.stages = {op: z3.Int(f"stage {op}") for op in problem.operations}
        self.times = {op: interval * self.stages[op] + z3.Sum([z3.If(it, row, 0) for (_, row), it in self.choices[op].items()]) for op in problem.operations}
        self.numbers = {name: z3.Int(f"number {name}") for name, it in problem.values.items() if problem.machine.files[it.file]}
        self.lives = {name: (z3.Int(f"first {name}"), z3.Int(f"last {name}")) for name in self.numbers}

    def choices_of(self, op: str, kind: Kind) -> dict[tuple[int, int], z3.BoolRef]:
        """Whether it is that one, for each alternative that does not collide with itself and each row."""
        slots = [[(unit, offset % self.interval) for unit, offset in rows] for rows in kind.alternatives]
        usable = [by for by, its in enumerate(slots) if len({*its}) == len(its)]
        return {(by, row): z3.Bool(f"{op} by {by} in {row}") for by in usable for row in range(self.interval)}

    def add_schedule(self) -> None:
        """Each operation has one place, each unit in each row one operation, and each edge is kept."""
        slots: dict[tuple[str, int], list[z3.BoolRef]] = {}
        for op, kind in self.problem.operations.items():
            its = self.choices[op]
            self.solver.add(z3.PbEq([(it, 1) for it in its.values()], 1), 0 <= self.stages[op], self.stages[op] < STAGES)
            for (by, row), chosen in its.items():
                for unit, offset in kind.alternatives[by]:
                    slots.setdefault((unit, (row + offset) % self.interval), []).append(chosen)
        for its in slots.values():
            self.solver.add(z3.AtMost(*its, 1))
        # (all operations may be issued whole turns earlier: no value lives longer for that)
        self.solver.add(z3.Or([it == 0 for it in self.stages.values()]))
        self.add_shares()
        for edge in self.problem.all_edges():
            self.solver.add(self.times[edge.other] + self.interval * edge.distance >= self.times[edge.one] + edge.delay)

    def add_shares(self) -> None:
        """No unit is held in more rows than there are, which follows from the slots, but is soon seen of numbers alone."""
        sums: dict[str, list[z3.ArithRef]] = {}
        for op, its in self.choices.items():
            ways = {by: z3.Int(f"{op} by {by}") for by, _ in its}
            self.solver.add(z3.Sum(list(ways.values())) == 1)
            for by, way in ways.items():
                self.solver.add(way >= 0, way == z3.If(z3.Or([it for (its_by, _), it in its.items() if its_by == by]), 1, 0))
                for unit, _ in self.problem.operations[op].alternatives[by]:
                    sums.setdefault(unit, []).append(way)
        self.solver.add([z3.Sum(its) <= self.interval for its in sums.values()])

    def add_lives(self) -> None:
        """The first and the last cycle of each value, or more on either side; in all no more cycles than the registers of a file have in a turn."""
        end = z3.Int("end")
        for op, kind in self.problem.operations.items():
            self.solver.add(end >= self.interval * (self.stages[op] + 1), end >= self.times[op] + kind.latency)
        for value in self.problem.values.values():
            self.solver.add(end >= self.times[value.maker] + value.lands)
        for name, (first, last) in self.lives.items():
            value, reads = self.problem.values[name], [it for it in self.problem.reads if it.value == name]
            landing = self.times[value.maker] + value.lands
            self.solver.add(first <= landing, first >= 0, last >= landing)
            if value.out or any(it.distance for it in reads):
                # (the instance before the first one is there from the beginning)
                self.solver.add(first <= self.interval)
            for it in reads:
                self.solver.add(last >= self.times[it.reader] + it.offset + self.interval * it.distance)
            if value.out:
                self.solver.add(last >= end)
        for registers, names in self.rotating():
            self.solver.add(z3.Sum([last - first + 1 for first, last in map(self.lives.get, names)]) <= registers * self.interval)

    def rotating(self) -> list[tuple[int, list[str]]]:
        """The registers and the values of each rotating file."""
        return [(registers, [it for it in self.numbers if self.problem.values[it].file == file]) for file, registers in self.problem.machine.files.items() if registers]

    def add_registers(self) -> None:
        """The instances of a file's values are arcs round a circle of registers times interval cycles: no two of them meet."""
        for registers, names in self.rotating():
            whole, arcs = registers * self.interval, list[tuple[z3.ArithRef, z3.ArithRef]]()
            for name in names:
                first, last = self.lives[name]
                spot, length = first + self.interval * self.numbers[name], last - first
                # (all numbers may be moved on together)
                self.solver.add(0 <= spot, spot < (whole if arcs else self.interval), length < whole)
                for other, its in arcs:
                    self.solver.add(z3.Or(z3.And(other + its < spot, spot + length < other + whole), z3.And(spot + length < other, other + its < spot + whole)))
                arcs.append((spot, length))

    def answer(self, seconds: float) -> z3.CheckSatResult:
        self.solver.set("timeout", max(1, int(seconds * 1000)))
        return self.solver.check()

    def solution(self) -> Solution:
        model, files = self.solver.model(), self.problem.machine.files

        def number(it: z3.ArithRef) -> int:
            return model.eval(it, model_completion=True).as_long()

        by = {op: next(by for (by, _), it in its.items() if z3.is_true(model.eval(it))) for op, its in self.choices.items()}
        numbers = {name: number(it) % (files[self.problem.values[name].file] or 1) for name, it in self.numbers.items()}
        return Solution(self.interval, {op: (number(it), by[op]) for op, it in self.times.items()}, numbers)


def search(problem: Problem, interval: int, seconds: float) -> Solution | bool | None:
    """A solution at an interval, False where there is none, and None where that is not decided in time."""
    it, end = Search(problem, interval), time.monotonic() + seconds
    for add in (it.add_schedule, it.add_lives, it.add_registers):
        # (first without registers, since that is often enough to see that there is none)
        add()
        found = it.answer(end - time.monotonic())
        if found != z3.sat:
            return False if found == z3.unsat else None
    return it.solution()


@dataclass
class Told:
    """What `modsched solve` says of a problem."""
    recurrences: int
    interval: int | None
    last: int
    text: str


def solve(path: str) -> dict[str, Told]:
    """What `modsched solve` says, by the names of problems."""
    try:
        ran = subprocess.run([PROGRAM, "solve", path], stdout=subprocess.PIPE, text=True)
    except OSError as fault:
        sys.exit(f"optimal.py: {PROGRAM} does not run: {fault.strerror}")
    if ran.returncode < 0:
        sys.exit(f"optimal.py: {PROGRAM} is ended by signal {-ran.returncode}")
    if ran.returncode not in (0, 1):
        sys.exit(ran.returncode)
    told = {}
    for block in re.split(r"(?m)^(?=# \S+ ops \d+ res )", ran.stdout)[1:]:
        name, bound = re.match(r"# (\S+) ops \d+ res \d+ rec (\d+)", block).groups()
        met, failed = re.search(r"(?m)^solution \S+ ii (\d+)", block), re.search(r"(?m)^# failed \S+ at (\d+)", block)
        text = re.search(r"(?ms)^solution .*?^end$", block)
        told[name] = Told(int(bound), int(met[1]) if met else None, int((met or failed)[1]), f"{text[0]}\n" if text else "")
    return told


def least(problem: Problem, told: Told, seconds: float) -> tuple[Solution | None, str]:
    """The solution at the least interval below that of `solve`, if z3 finds one, and what is known of the least interval."""
    is_sure = True
    for interval in range(told.recurrences, told.interval or told.last + 1):
        found = search(problem, interval, seconds)
        if isinstance(found, Solution):
            return found, f"least {'' if is_sure else 'at most '}{interval}"
        is_sure = is_sure and found is False
    return None, f"least {'' if is_sure else 'at most '}{told.interval}" if told.interval else "least none" if is_sure else "least not known"


def at(problem: Problem, interval: int, seconds: float) -> tuple[Solution | None, str]:
    """The solution at an interval, if z3 finds one, and what is known of it."""
    found = search(problem, interval, seconds)
    if isinstance(found, Solution):
        return found, f"solution at {interval}"
    return None, f"none at {interval}" if found is False else f"not decided at {interval}"


def main() -> None:
    words = argparse.ArgumentParser(usage=(__doc__ or "").split("\n")[0].removeprefix("usage: "))
    words.add_argument("paths", nargs="+")
    words.add_argument("--seconds", type=float, default=60)
    words.add_argument("--interval", type=int)
    words.add_argument("--table", action="store_true")
    given = words.parse_args()
    if given.interval is not None and given.interval < 1:
        words.error(f"the interval {given.interval} is below 1")
    for path in given.paths:
        told = solve(path)
        with open(path, encoding="ascii", errors="replace", newline="\n") as file:
            problems = read_problems(file.read())
        for problem in problems:
            it, begin = told[problem.name], time.monotonic()
            found, known = at(problem, given.interval, given.seconds) if given.interval else least(problem, it, given.seconds)
            seconds, interval = f"{time.monotonic() - begin:.1f}", it.interval or "none"
            if given.table:
                print(f"| `{os.path.basename(path).rsplit('.', 1)[0]}` | `{problem.name}` | {len(problem.operations)} | {interval} | {known.removeprefix('least ')} | {seconds} |", flush=True)
            else:
                print(f"# {problem.name} solve {interval} {known}: {seconds} seconds")
                print(found.text(problem.name) if found else "" if given.interval else it.text, end="", flush=True)


if __name__ == "__main__":
    main()
