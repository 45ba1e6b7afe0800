"""Reads what `modsched solve` prints of the problems of a text, by the form of docs/FORMATS.md and no other. A name may hold any printable byte, so a line
is read by the names of its problem: where it tells of others, or its numbers disagree with the problem, that is told by a Misfit."""
from __future__ import annotations

import re
from dataclasses import dataclass

from lines import INTEGER, NUMBER, Bounds, Lines
from problem_texts import Named

NAME = r"[!-\"$-~]{1,64}"
DIGITS = re.compile(NUMBER)


@dataclass(frozen=True)
class Place:
    """Where an operation stands: when it is issued, in cycles, by which alternative, and the names of the registers that it reads and writes."""

    time: int
    alternative: int
    reads: list[str]
    writes: list[str]


@dataclass(frozen=True)
class Life:
    """The first and the last cycle in which a value lives in iteration 0; its register, or how many of its instances live at once at the most."""

    first: int
    last: int
    register: int | None
    copies: int | None


@dataclass(frozen=True)
class Initial:
    """A register that has to have a value's instance of `distance` iterations before the first one."""

    register: int
    value: int
    distance: int


@dataclass(frozen=True)
class Solution:
    """A solution: its interval, its stages, its operations and values, what registers begin with, the MaxLive of each file, and how often the body is repeated."""

    ii: int
    stages: int
    operations: list[Place]
    values: list[Life]
    initial: list[Initial]
    max_live: list[int]
    unroll: int | None


@dataclass(frozen=True)
class Failure:
    """Why the last interval gives no solution: the cause and its operations; for `stages` when the operation is issued, for `registers` the file and the value."""

    interval: int
    cause: str
    operations: list[int]
    time: int | None = None
    file: int | None = None
    value: int | None = None


@dataclass(frozen=True)
class Solved:
    """What `solve` prints of a problem. The circuit is its operations and the sums of its delays and distances."""

    bounds: Bounds
    circuit: tuple[list[int], int, int] | None
    full: list[int]
    result: Solution | Failure


def _places(lines: Lines, names: list[str], words: str) -> list[int]:
    """The numbers of names that stand in the line that was read last."""
    found = words.split(" ")
    lines.check(all(it in names for it in found), "has a name that its problem has not")
    return [names.index(it) for it in found]


def _bounds(lines: Lines, named: Named) -> Bounds:
    name, *numbers = lines.take(rf"# ({NAME}) ops ({NUMBER}) res ({NUMBER}) rec ({NUMBER}) mii ({NUMBER})", "a line of bounds")
    bounds = Bounds(name, *map(int, numbers))
    lines.check((name, bounds.operations) == (named.name, len(named.operations)), f"not of the problem {named.name}")
    lines.check(bounds.mii == max(bounds.resources, bounds.recurrences), "mii is not the greater of res and rec")
    return bounds


def _circuit(lines: Lines, named: Named, bounds: Bounds) -> tuple[list[int], int, int] | None:
    if bounds.recurrences <= 1:
        return None
    names, delay, distance = lines.take(rf"# circuit (.+) takes ({INTEGER}) cycles over ({NUMBER}) iterations", "a circuit")
    sums = int(delay), int(distance)
    lines.check(sums[1] > 0 and -(-sums[0] // sums[1]) == bounds.recurrences, "not the interval of its sums")
    return _places(lines, named.operations, names), *sums


def _operation(lines: Lines, named: Named, place: int, ii: int) -> Place:
    problem, wanted = named.problem, named.operations[place]
    form = rf"op ({NAME}) time ({NUMBER}) by ({NUMBER}) # row ({NUMBER}) stage ({NUMBER}): (.*)"
    name, *numbers, used = lines.take(form, f"the operation {wanted}")
    lines.check(name == wanted, f"not the operation {wanted}")
    time, by, row, stage = map(int, numbers)
    lines.check((row, stage) == (time % ii, time // ii), "not the row and the stage of its time")
    alternatives = problem.kinds[problem.operations[place]][1]
    lines.check(by < len(alternatives), "there is no such alternative")
    holds = " ".join(named.units[unit] + (f"@{offset}" if offset else "") for unit, offset in alternatives[by])
    of_reads = [problem.values[value][2] for value, reader, _, _ in problem.reads if reader == place]
    of_writes = [file for maker, _, file, _ in problem.values if maker == place]
    reads, writes = ([named.files[it] for it in files if problem.files[it] is not None] for files in (of_reads, of_writes))
    registers = _registers(used, holds, reads, writes)
    lines.check(registers is not None, "not the units and the registers of this alternative")
    found = registers or []
    return Place(time, by, found[: len(reads)], found[len(reads) :])


def _registers(used: str, holds: str, reads: list[str], writes: list[str]) -> list[str] | None:
    """The registers of these files, in this order, which the end of an operation's line names after its units."""
    wanted = [f" {file}." for file in [*reads, *writes]]
    if reads:
        wanted[0] = "; reads" + wanted[0]
    if writes:
        wanted[len(reads)] = (", writes" if reads else "; writes") + wanted[len(reads)]
    found, end = [], len(holds)
    for before, file in zip(wanted, [*reads, *writes]):
        number = DIGITS.match(used, end + len(before))
        if number is None or not used.startswith(before, end):
            return None
        found.append(f"{file}.{number[0]}")
        end = number.end()
    return found if used.startswith(holds) and end == len(used) else None


def _value(lines: Lines, named: Named, place: int) -> Life:
    name, file = named.values[place], named.problem.values[place][2]
    lives, wanted = rf"({NAME}): live ({NUMBER}) to ({NUMBER})", f"the value {name}"
    if named.problem.files[file] is None:
        its_name, its_file, *numbers = lines.take(rf"# value ({NAME}) {lives}, copies ({NUMBER})", wanted)
        first, last, copies = map(int, numbers)
        life = Life(first, last, None, copies)
    else:
        its_name, number, its_file, *numbers = lines.take(rf"value ({NAME}) number ({NUMBER}) # {lives}", wanted)
        first, last = map(int, numbers)
        life = Life(first, last, int(number), None)
    lines.check((its_name, its_file) == (name, named.files[file]), f"not {wanted}")
    return life


def _initial(lines: Lines, named: Named) -> list[Initial]:
    found = []
    while (groups := lines.match(rf"# initial ({NAME})\.({NUMBER}) ({NAME}) distance ({NUMBER})")) is not None:
        file, register, value, distance = groups
        (place,) = _places(lines, named.values, value)
        lines.check(named.files[named.problem.values[place][2]] == file, "not the file of this value")
        found.append(Initial(int(register), place, int(distance)))
    return found


def _max_live(lines: Lines, named: Named, place: int) -> int:
    name, registers = named.files[place], named.problem.files[place]
    its_name, most, of = lines.take(rf"# file ({NAME}) max_live ({NUMBER})(?: of ({NUMBER}))?", f"the file {name}")
    lines.check((its_name, of) == (name, None if registers is None else str(registers)), f"not the file {name}")
    return int(most)


def _solution(lines: Lines, named: Named, ii: int, stages: int) -> Solution:
    lines.check(ii > 0, "not an interval")
    operations = [_operation(lines, named, it, ii) for it in range(len(named.operations))]
    values = [_value(lines, named, it) for it in range(len(named.values))]
    initial = _initial(lines, named)
    max_live = [_max_live(lines, named, it) for it in range(len(named.files))]
    unroll = int(lines.take(rf"# unroll ({NUMBER})", "how often the body is repeated")[0]) if None in named.problem.files else None
    lines.take("end", "the end of the solution")
    return Solution(ii, stages, operations, values, initial, max_live, unroll)


def _failure(lines: Lines, named: Named) -> Failure:
    head = rf"# failed {re.escape(named.name)} at ({NUMBER}): "
    if (groups := lines.match(rf"{head}(table|budget): (.+)")) is not None:
        return Failure(int(groups[0]), groups[1], _places(lines, named.operations, groups[2]))
    if (groups := lines.match(rf"{head}stages: ({NAME}) at ({NUMBER})")) is not None:
        return Failure(int(groups[0]), "stages", _places(lines, named.operations, groups[1]), time=int(groups[2]))
    interval, file, value = lines.take(rf"{head}registers of ({NAME}): ({NAME})", "a solution, and not why there is none")
    (its_file,), (its_value,) = _places(lines, named.files, file), _places(lines, named.values, value)
    return Failure(int(interval), "registers", [named.problem.values[its_value][0]], file=its_file, value=its_value)


def _solved(lines: Lines, named: Named) -> Solved:
    bounds = _bounds(lines, named)
    circuit = _circuit(lines, named, bounds)
    full = _places(lines, named.units, lines.take(r"# full (.+)", "the units of the bound")[0])
    groups = lines.match(rf"solution ({NAME}) ii ({NUMBER}) # stages ({NUMBER})")
    if groups is None:
        return Solved(bounds, circuit, full, _failure(lines, named))
    lines.check(groups[0] == named.name, f"not a solution of {named.name}")
    return Solved(bounds, circuit, full, _solution(lines, named, *map(int, groups[1:])))


def read_solve(text: str, problems: list[Named]) -> list[Solved]:
    """What `solve` printed of these problems, in their order."""
    lines = Lines("solve", text)
    solved = [_solved(lines, named) for named in problems]
    groups = lines.take(rf"# problems ({NUMBER}) met ({NUMBER}) failed ({NUMBER})", "the numbers of problems")
    met = sum(isinstance(it.result, Solution) for it in solved)
    lines.check(tuple(map(int, groups)) == (len(solved), met, len(solved) - met), "not the numbers of problems")
    lines.end()
    return solved
