"""Reads what `modsched edges` and `modsched explain` print, by the forms of docs/FORMATS.md and no others: a line that has none of the
forms that may stand at its place, or whose numbers and names disagree with those before it, is told by a Misfit."""
from __future__ import annotations

import re
from dataclasses import dataclass

# (no number has more digits than each reader of the document keeps)
NUMBER = r"(?:0|[1-9][0-9]{0,14})"
INTEGER = r"(?:-?[1-9][0-9]{0,14}|0)"
# The greatest number of intervals above the first one that may be tried.
CEILING = 255
WORD = r"[A-Za-z_][A-Za-z0-9_]{0,15}"
UNIT = r"[a-z][a-z0-9_]{0,15}"
OPERATION = rf"{WORD}(?:\[i(?:[+-][1-9][0-9]*)?\])?"
OPCODE = r"(?:load|store|add|sub|mul|and|or|xor|min|max|lt|sel|mov)"
BOUNDS = rf"loop ({WORD}) ops ({NUMBER}) res ({NUMBER}) rec ({NUMBER}) mii ({NUMBER})"
EDGE = (
    rf"edge ({NUMBER}) ({OPERATION}) ({NUMBER}) ({OPERATION}) (value|memory|anti|output) delay ({INTEGER}) distance ({NUMBER})"
)


class Misfit(Exception):
    """A line of a command's output is not what docs/FORMATS.md says: the command, the line's number from 1, the line, and why."""

    def __init__(self, command: str, number: int, line: str, why: str):
        super().__init__(f"{command}, line {number}: {why}: {line}")
        self.command, self.number, self.line, self.why = command, number, line, why


@dataclass(frozen=True)
class Bounds:
    """A line of bounds: the loop's name, how many operations it has, ResMII, RecMII and MII, in cycles."""

    name: str
    operations: int
    resources: int
    recurrences: int
    mii: int


@dataclass(frozen=True)
class Operation:
    """An operation: its name, its opcode, and its latency and height, in cycles."""

    name: str
    opcode: str
    latency: int
    height: int


@dataclass(frozen=True)
class Edge:
    """A dependence of the operation `target` on the operation `source`: kind, delay in cycles, distance in iterations."""

    source: int
    target: int
    kind: str
    delay: int
    distance: int


@dataclass(frozen=True)
class Graph:
    """What `edges` prints for a loop."""

    bounds: Bounds
    operations: list[Operation]
    edges: list[Edge]


@dataclass(frozen=True)
class UnitUse:
    """A unit that is used: by how many rows, whether it is used the most, and by which operations how often, told by their names."""

    name: str
    uses: int
    is_full: bool
    users: list[tuple[str, int]]


@dataclass(frozen=True)
class UnitSet:
    """The fullest set of units: their names, how many rows of them each iteration takes at least, and the interval that these need."""

    names: tuple[str, ...]
    rows: int
    need: int


@dataclass(frozen=True)
class Circuit:
    """A critical circuit: the sums of its delays and distances, the interval that it needs, and its edges."""

    delay: int
    distance: int
    needs: int
    edges: list[Edge]


@dataclass(frozen=True)
class Try:
    """An interval that was tried. `outcome` is `kernel` or the cause why it gives none; `names` are the operations or the value that
    the line names; `numbers` are the stages, the time, or the first and the last cycle."""

    interval: int
    outcome: str
    names: tuple[str, ...]
    numbers: tuple[int, ...]


@dataclass(frozen=True)
class Value:
    """A value of the schedule: its name, the first and the last cycle in which it lives in iteration 0, and its register."""

    name: str
    first: int
    last: int
    register: int


@dataclass(frozen=True)
class Grid:
    """The schedule as a grid: its units, of each row the slots that are taken (place of the unit, name and stage of the operation) and
    how many registers are live, and how many units are left out."""

    units: list[str]
    rows: list[list[tuple[int, str, int]]]
    live: list[int]
    idle: int


@dataclass(frozen=True)
class Explained:
    """What `explain` prints for a loop. Without a kernel there are neither `held`, values nor grid. `is_least` is whether no schedule has a
    shorter interval by the fullest set of units or the recurrences."""

    bounds: Bounds
    units: list[UnitUse]
    fullest: UnitSet
    circuit: Circuit | None
    tried: list[Try]
    held: str | None
    is_least: bool
    values: list[Value]
    grid: Grid | None


class Lines:
    """The lines of a command's output, read from the first to the last."""

    def __init__(self, command: str, text: str):
        self.command, self.at = command, 0
        self.lines = text.split("\n")
        if self.lines[-1] != "":
            self.at = len(self.lines) - 1
            raise self.misfit("the last line has no line feed")
        self.lines.pop()

    @property
    def line(self) -> str:
        """The next line, or an empty one after the last."""
        return self.lines[self.at] if self.at < len(self.lines) else ""

    def misfit(self, why: str, back: int = 0) -> Misfit:
        """The fault of the next line, or of one before it."""
        at = self.at - back
        return Misfit(self.command, at + 1, self.lines[at] if at < len(self.lines) else "(the end)", why)

    def match(self, form: str) -> tuple[str, ...] | None:
        """The groups of the next line and a step past it, if it has the form."""
        found = re.fullmatch(form, self.line) if self.at < len(self.lines) else None
        if found is None:
            return None
        self.at += 1
        return found.groups()

    def take(self, form: str, wanted: str) -> tuple[str, ...]:
        """The groups of the next line, which has to have the form."""
        groups = self.match(form)
        if groups is None:
            raise self.misfit(f"not {wanted}")
        return groups

    def check(self, is_well: bool, why: str) -> None:
        """Tells what is wrong with the line that was read last."""
        if not is_well:
            raise self.misfit(why, back=1)

    def end(self) -> None:
        """Nothing may be left."""
        if self.at < len(self.lines):
            raise self.misfit("not the end")


def _bounds(lines: Lines) -> Bounds:
    name, *numbers = lines.take(BOUNDS, "a line of bounds")
    bounds = Bounds(name, *map(int, numbers))
    lines.check(bounds.mii == max(bounds.resources, bounds.recurrences), "mii is not the greater of res and rec")
    return bounds


def _edge(groups: tuple[str, ...]) -> tuple[Edge, str, str]:
    source, source_name, target, target_name, kind, delay, distance = groups
    return Edge(int(source), int(target), kind, int(delay), int(distance)), source_name, target_name


def _graph(lines: Lines) -> Graph:
    bounds, operations, edges = _bounds(lines), [], []
    for number in range(bounds.operations):
        form = rf"op ({NUMBER}) ({OPERATION}) ({OPCODE}) latency ({NUMBER}) height ({NUMBER})"
        place, name, opcode, latency, height = lines.take(form, f"operation {number}")
        lines.check(int(place) == number, f"not operation {number}")
        operations.append(Operation(name, opcode, int(latency), int(height)))
    while (groups := lines.match(EDGE)) is not None:
        edge, source, target = _edge(groups)
        lines.check(max(edge.source, edge.target) < len(operations), "there is no such operation")
        lines.check((operations[edge.source].name, operations[edge.target].name) == (source, target), "not the names of its operations")
        order = (edge.source, edge.target, edge.distance, edge.delay)
        last = edges[-1] if edges else edge
        lines.check((last.source, last.target, last.distance, last.delay) <= order, "before the edge that it follows")
        edges.append(edge)
    return Graph(bounds, operations, edges)


def read_edges(text: str) -> list[Graph]:
    """What `edges` printed: its loops in order."""
    lines, graphs = Lines("edges", text), []
    while (groups := lines.match(rf"loops ({NUMBER})")) is None:
        graphs.append(_graph(lines))
    lines.check(int(groups[0]) == len(graphs), "not the number of loops")
    lines.end()
    return graphs


def _units(lines: Lines, bounds: Bounds) -> list[UnitUse]:
    user, units = rf"{OPERATION}(?:\*(?:[2-9]|[1-9][0-9]+))?", []
    while (groups := lines.match(rf"unit ({UNIT}) uses ({NUMBER})( full)?: ({user}(?: {user})*)")) is not None:
        name, uses, full, names = groups
        users = [(it.partition("*")[0], int(it.partition("*")[2] or 1)) for it in names.split(" ")]
        units.append(UnitUse(name, int(uses), full is not None, users))
        lines.check(int(uses) == sum(count for _, count in users), "not the sum of its uses")
        lines.check((full is not None) == (int(uses) == bounds.resources), "full, but where its uses are res")
    return units


def _fullest(lines: Lines) -> UnitSet:
    form = rf"units ({UNIT}(?: {UNIT})*) take ({NUMBER}) rows(?:: ({NUMBER})/({NUMBER}) cycles)?, need ({NUMBER})"
    names, rows, over, units, need = lines.take(form, "the fullest set of units")
    fullest = UnitSet(tuple(names.split(" ")), int(rows), int(need))
    lines.check(len(set(fullest.names)) == len(fullest.names), "a unit stands twice")
    lines.check(over is None or (over, int(units)) == (rows, len(fullest.names)), "not its rows over its units")
    lines.check(fullest.need == -(-fullest.rows // len(fullest.names)), "not the interval of its rows")
    return fullest


def _circuit(lines: Lines, bounds: Bounds) -> Circuit | None:
    if lines.match("circuit none") is not None:
        return None
    delay, distance, needs = map(int, lines.take(rf"circuit delay ({NUMBER}) distance ({NUMBER}) needs ({NUMBER})", "a circuit"))
    lines.check(needs == bounds.recurrences and distance > 0 and -(-delay // distance) == needs, "not the interval of its sums")
    edges = []
    while (groups := lines.match(EDGE)) is not None:
        edges.append(_edge(groups)[0])
    sums = (sum(it.delay for it in edges), sum(it.distance for it in edges))
    lines.check(sums == (delay, distance), "the edges have other sums than the circuit")
    return Circuit(delay, distance, needs, edges)


# How many registers all values need.
NEED = rf"(?:{NUMBER}|more than 256)"
# The outcomes of an interval: the word after `try I`, what follows it, and of its groups how many are names.
OUTCOMES = [
    ("table", rf": ({OPERATION})", 1),
    ("budget", rf": ({OPERATION}(?: {OPERATION})*)", 1),
    ("stages", rf": ({OPERATION}) at ({NUMBER})", 1),
    ("registers", rf": ({WORD}) lives ({NUMBER}) to ({NUMBER})(?:, all need {NEED})?", 1),
    ("kernel", rf" stages ({NUMBER})", 0),
]


def _tried(lines: Lines, bounds: Bounds) -> list[Try]:
    tried: list[Try] = []
    while not tried or (lines.line.startswith("try ") and tried[-1].outcome != "kernel"):
        for outcome, form, named in OUTCOMES:
            last = "" if outcome == "kernel" else rf"(?: to ({NUMBER}))?"
            groups = lines.match(rf"try ({NUMBER}){last} {outcome}{form}")
            if groups is not None:
                break
        else:
            raise lines.misfit("not a tried interval")
        interval, *parts = groups
        last = interval if outcome == "kernel" else parts.pop(0) or interval
        names = tuple(name for part in parts[:named] for name in part.split(" "))
        lines.check(int(interval) == bounds.mii + len(tried), "not the next interval")
        lines.check(int(interval) <= int(last), "the last interval is before the first")
        lines.check(int(last) <= bounds.mii + CEILING, "the last interval is too far from the first that is tried")
        numbers = tuple(map(int, parts[named:]))
        tried += [Try(it, outcome, names, numbers) for it in range(int(interval), int(last) + 1)]
    return tried


def _issues(lines: Lines, bounds: Bounds, stages: int) -> None:
    """How long an iteration takes and when its operations are issued: lines that older programs don't print, and of which the document has nothing."""
    if lines.match(rf"iteration {NUMBER} cycles") is None:
        return
    (extra,) = lines.take(rf"N iterations take N\+({NUMBER}) turns", "how many turns iterations take")
    lines.check(int(extra) == stages - 1, "not the turns of its stages")
    for number in range(bounds.operations):
        lines.take(rf"op {OPERATION} at {NUMBER} slack {NUMBER}:(?: {UNIT}@{NUMBER})*", f"when operation {number} is issued")


def _values(lines: Lines) -> list[Value]:
    values = []
    while (groups := lines.match(rf"value ({WORD}) lives ({NUMBER}) to ({NUMBER}) register ({NUMBER})")) is not None:
        name, *numbers = groups
        values.append(Value(name, *map(int, numbers)))
    lines.match(rf"registers need {NEED}")
    return values


def _row(lines: Lines, number: int, units: int) -> tuple[list[str], bool]:
    """The cells of a row of the grid, with its number and its count, and whether it is full."""
    lines.take(rf" *{number}(?: +(?:\.|{OPERATION}/{NUMBER}))* +{NUMBER}(?: full)?", f"row {number} of the grid")
    cells = lines.lines[lines.at - 1].split()
    is_full = cells[-1] == "full"
    cells = cells[:-1] if is_full else cells
    lines.check(len(cells) == units + 2, f"not a cell for each of {units} units")
    return cells, is_full


def _is_laid_out(lines: Lines, table: list[list[str]], full: list[bool]) -> bool:
    """Whether the lines of a grid that were read last have their cells to the right, as wide as the longest in the column."""
    widths = [max(map(len, column)) for column in zip(*table)]
    wanted = [" ".join(cell.rjust(width) for cell, width in zip(row, widths)) for row in table]
    wanted = [line + " full" * is_full for line, is_full in zip(wanted, full)]
    return lines.lines[lines.at - len(table) : lines.at] == wanted


def _shares(lines: Lines, units: list[str], rows: list[list[tuple[int, str, int]]]) -> None:
    """In how many hundredths of the interval each unit is taken, where the program prints it."""
    groups = lines.match(rf"use ({UNIT} {NUMBER}%(?: {UNIT} {NUMBER}%)*)")
    if groups is not None:
        taken = [sum(its == unit for row in rows for its, *_ in row) for unit in range(len(units))]
        wanted = " ".join(f"{name} {100 * count // len(rows)}%" for name, count in zip(units, taken))
        lines.check(groups[0] == wanted, "not the shares of the grid")


def _grid(lines: Lines, interval: int) -> Grid:
    lines.take(rf" *row(?: +{UNIT})* +live", "the head of a grid")
    head = lines.lines[lines.at - 1].split()
    table, full = [head], [False]
    for number in range(interval):
        cells, is_full = _row(lines, number, len(head) - 2)
        table.append(cells)
        full.append(is_full)
    lines.check(_is_laid_out(lines, table, full), "the grid has other columns")
    live = [int(row[-1]) for row in table[1:]]
    lines.check(full[1:] == [0 < it == max(live) for it in live], "full stands at other rows than those of the most live registers")
    rows = []
    for row in table[1:]:
        slots = [(unit, *cell.rsplit("/", 1)) for unit, cell in enumerate(row[1:-1]) if cell != "."]
        rows.append([(unit, name, int(stage)) for unit, name, stage in slots])
    _shares(lines, head[1:-1], rows)
    idle = lines.match(r"idle units ([1-9][0-9]*)")
    return Grid(head[1:-1], rows, live, int(idle[0]) if idle else 0)


def _explained(lines: Lines) -> Explained:
    bounds = _bounds(lines)
    units, fullest, circuit, tried = _units(lines, bounds), _fullest(lines), _circuit(lines, bounds), _tried(lines, bounds)
    if tried[-1].outcome != "kernel":
        return Explained(bounds, units, fullest, circuit, tried, None, False, [], None)
    (held,) = lines.take(r"held by (units|recurrences|both|one cycle|table|budget|stages|registers)", "what holds the interval")
    if len(tried) > 1:
        lines.check(held == tried[-2].outcome, "not the cause of the interval before")
    else:
        sign = (bounds.resources > bounds.recurrences) - (bounds.resources < bounds.recurrences)
        both = "both" if circuit else "one cycle"
        lines.check(held == [both, "units", "recurrences"][sign], "not the greater of the two bounds")
    is_least = max(fullest.need, bounds.recurrences) == tried[-1].interval
    if is_least:
        lines.take("least possible", "that no shorter interval is possible")
    _issues(lines, bounds, tried[-1].numbers[0])
    values = _values(lines)
    return Explained(bounds, units, fullest, circuit, tried, held, is_least, values, _grid(lines, tried[-1].interval))


def read_explain(text: str) -> list[Explained]:
    """What `explain` printed: its loops in order."""
    lines, loops = Lines("explain", text), []
    while (groups := lines.match(rf"loops ({NUMBER}) met ({NUMBER}) failed ({NUMBER})")) is None:
        loops.append(_explained(lines))
    met = sum(it.held is not None for it in loops)
    lines.check(tuple(map(int, groups)) == (len(loops), met, len(loops) - met), "not the numbers of loops")
    lines.end()
    return loops
