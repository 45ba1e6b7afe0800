"""The proved scheduler for Python, over libmodsched.so. Problems are built by names; docs/LIBRARY.md says what statuses mean. What the program
prints of the texts of a machine and of loops is had by `schedule`, `json`, `explain`, `run`, `plain`, `bounds`, `edges` and `dot` of a Library.

    taps = Problem()
    taps.unit("port")
    taps.file("ring", 16)
    taps.kind("load", 3, [[("port", 0)]])
    taps.operation("first", "load")
    taps.value("x", "first", 3, "ring")
    library = Library("out/libmodsched.so")
    schedule = library.solve(taps)
    stages = library.check(taps, schedule)
"""
from __future__ import annotations

import ctypes
import threading
from dataclasses import dataclass, field
from typing import Any, Collection, Mapping, NamedTuple, Sequence

from .words import break_in_words, fault_in_words

__all__ = ["AtFault", "Broken", "Library", "NoInterval", "Printed", "Problem", "Refused", "Schedule"]

# By this name the system finds the library of this version.
SHARED = "libmodsched.so.0.1"
u32, u64, size = ctypes.c_uint32, ctypes.c_uint64, ctypes.c_size_t


class _Hold(ctypes.Structure):
    _fields_ = [("unit", u32), ("offset", u32)]


class _Alternative(ctypes.Structure):
    _fields_ = [("holds", ctypes.POINTER(_Hold)), ("count", size)]


class _Kind(ctypes.Structure):
    _fields_ = [("latency", u64), ("alternatives", ctypes.POINTER(_Alternative)), ("count", size)]


class _Value(ctypes.Structure):
    _fields_ = [("maker", u32), ("lands", u32), ("out", u32), ("file", u32)]


class _Read(ctypes.Structure):
    _fields_ = [("value", u32), ("reader", u32), ("distance", u32), ("offset", u32)]


class _Order(ctypes.Structure):
    _fields_ = [("first", u32), ("to", u32), ("delay", ctypes.c_int32), ("distance", u32)]


_PARTS: list[tuple[str, Any]] = [
    ("files", u32), ("kinds", _Kind), ("operations", u32), ("values", _Value), ("reads", _Read), ("orders", _Order),
]


class _Problem(ctypes.Structure):
    _fields_ = [("units", u64), *(pair for name, item in _PARTS for pair in [(name, ctypes.POINTER(item)), (f"{name}_count", size)])]


class _Fault(ctypes.Structure):
    _fields_ = [(name, u64) for name in ("kind", "part", "first", "second", "third")]


class _Answer(ctypes.Structure):
    _fields_ = [
        *((name, u64) for name in ("interval", "stages", "mii", "resources", "recurrences", "cause", "file", "value", "misfit")),
        ("fault", _Fault),
    ]


# What a verdict tells of a break. (`from` is no name in Python.)
_BROKEN = "operation earlier unit residue first to distance delay early value other file register_number cycle".split()


class _Verdict(ctypes.Structure):
    _fields_ = [
        *((name, ctypes.c_int64 if name == "delay" else u64) for name in ("kind", "stages", *_BROKEN, "misfit")),
        ("fault", _Fault),
    ]


class _Told(ctypes.Structure):
    _fields_ = [(name, u64) for name in ("bytes", "line", "misfit")]


class Printed(NamedTuple):
    """What a command prints, and whether each loop that a kernel was searched for has one."""

    text: str
    all_met: bool


class Refused(Exception):
    """A text is refused, as the program says it: whether it is the machine's, and the line at fault of the loops' text, from 1, or 0 where the
    fault is of no one line."""

    def __init__(self, told: str, of_machine: bool, line: int):
        super().__init__(told)
        self.of_machine, self.line = of_machine, line


class Broken(Exception):
    """A schedule is not lawful: what is broken first, in words; the number of its kind, from 1, and its numbers by the names of modsched.h, but `first` for
    `from`."""

    def __init__(self, words: str, kind: int, numbers: Mapping[str, int]):
        super().__init__(words)
        self.kind, self.numbers = kind, numbers


class NoInterval(Exception):
    """No interval that was tried gives a schedule: the last one, its cause ("table", "budget", "stages" or "registers"), and for
    registers the names of the file and of its first value that has none."""

    def __init__(self, interval: int, cause: str, file: str | None, value: str | None):
        super().__init__(f"no interval up to {interval} works: {cause}" + (f", {value} in {file}" if file else ""))
        self.interval, self.cause, self.file, self.value = interval, cause, file, value


class AtFault(Exception):
    """The problem is at fault: what is wrong first, in words; the number of the kind of fault, that of the part, and up to three numbers, as in
    modsched.h."""

    def __init__(self, words: str, kind: int, part: int, numbers: tuple[int, int, int]):
        super().__init__(words)
        self.kind, self.part, self.numbers = kind, part, numbers


@dataclass(frozen=True)
class Schedule:
    """A schedule: the interval in cycles, how many stages, the bounds by units and by recurrences, of each operation the issue time in
    cycles and the alternative, from 0, and of each value its number, 0 for values that are allotted to no registers."""

    interval: int
    stages: int
    resources: int
    recurrences: int
    times: dict[str, int]
    alternatives: dict[str, int]
    numbers: dict[str, int]


def _array(item: Any, items: Sequence[Any]) -> Any:
    """An array with a valid pointer also where it has no items."""
    return (item * max(len(items), 1))(*items)


def _unsigned(number: int, bits: int = 32) -> int:
    """The number, or the greatest of `bits` bits, which is above each limit, where it is negative or has more bits. (ctypes would drop the bits above.)"""
    return number if 0 <= number < 1 << bits else (1 << bits) - 1


def _signed(number: int) -> int:
    """The number, or one of 32 bits that is below or above each limit."""
    return max(-(1 << 31), min(number, (1 << 31) - 1))


@dataclass
class Problem:
    """A scheduling problem. Each method adds a part; names are known from the call that adds them on, and operations are added in
    the order of their iteration."""

    units: list[str] = field(default_factory=list)
    files: dict[str, int] = field(default_factory=dict)
    kinds: dict[str, tuple[int, list[list[tuple[int, int]]]]] = field(default_factory=dict)
    operations: dict[str, int] = field(default_factory=dict)
    values: dict[str, tuple[int, int, int, int]] = field(default_factory=dict)
    reads: list[tuple[int, int, int, int]] = field(default_factory=list)
    orders: list[tuple[int, int, int, int]] = field(default_factory=list)

    def __post_init__(self) -> None:
        # The number of each name, by its sort.
        self._numbers = {sort: {name: number for number, name in enumerate(names)} for sort, names in self._names().items()}

    def _add(self, sort: str, name: str) -> None:
        """Gives a name the next number of its sort."""
        numbers = self._numbers[sort]
        if name in numbers:
            raise ValueError(f"{name} is there already")
        numbers[name] = len(numbers)

    def unit(self, name: str) -> None:
        """A unit."""
        self._add("unit", name)
        self.units.append(name)

    def file(self, name: str, registers: int = 0) -> None:
        """A register file with `registers` rotating registers, or 0 where its values are allotted to none."""
        self._add("file", name)
        self.files[name] = registers

    def kind(self, name: str, latency: int, alternatives: Sequence[Sequence[tuple[str, int]]]) -> None:
        """A kind of operations: its latency in cycles, and its alternatives, each of units with offsets in cycles."""
        ways = [[(self._numbers["unit"][unit], at) for unit, at in holds] for holds in alternatives]
        self._add("kind", name)
        self.kinds[name] = (latency, ways)

    def operation(self, name: str, kind: str) -> None:
        """An operation of a kind."""
        number = self._numbers["kind"][kind]
        self._add("operation", name)
        self.operations[name] = number

    def value(self, name: str, maker: str, lands: int, file: str, out: bool = False) -> None:
        """A value that an operation makes, `lands` cycles after its issue, and whether it is live at the end."""
        made = (self._numbers["operation"][maker], lands, int(out), self._numbers["file"][file])
        self._add("value", name)
        self.values[name] = made

    def read(self, value: str, reader: str, distance: int = 0, offset: int = 0) -> None:
        """An operation reads the value of `distance` iterations ago, `offset` cycles after its own issue."""
        self.reads.append((self._numbers["value"][value], self._numbers["operation"][reader], distance, offset))

    def order(self, first: str, to: str, delay: int, distance: int = 0) -> None:
        """t(to) + interval * distance >= t(first) + delay."""
        numbers = self._numbers["operation"]
        self.orders.append((numbers[first], numbers[to], delay, distance))

    def _names(self) -> dict[str, list[str]]:
        """The names of each sort, by their numbers."""
        return {"unit": self.units, "file": [*self.files], "kind": [*self.kinds], "operation": [*self.operations], "value": [*self.values]}

    def _given(self) -> _Problem:
        def alternative(holds: list[tuple[int, int]]) -> _Alternative:
            return _Alternative(_array(_Hold, [_Hold(*map(_unsigned, it)) for it in holds]), len(holds))

        def kind(latency: int, alternatives: list[list[tuple[int, int]]]) -> _Kind:
            return _Kind(_unsigned(latency, 64), _array(_Alternative, [*map(alternative, alternatives)]), len(alternatives))

        parts: list[tuple[Any, list[Any]]] = [
            (u32, [*map(_unsigned, self.files.values())]),
            (_Kind, [kind(*it) for it in self.kinds.values()]),
            (u32, [*map(_unsigned, self.operations.values())]),
            (_Value, [_Value(*map(_unsigned, it)) for it in self.values.values()]),
            (_Read, [_Read(*map(_unsigned, it)) for it in self.reads]),
            (_Order, [_Order(_unsigned(first), _unsigned(to), _signed(delay), _unsigned(distance)) for first, to, delay, distance in self.orders]),
        ]
        return _Problem(len(self.units), *(it for item, items in parts for it in (_array(item, items), len(items))))


def _at_fault(problem: Problem, fault: _Fault) -> AtFault:
    numbers = (fault.first, fault.second, fault.third)
    return AtFault(fault_in_words(problem._names(), fault.kind, fault.part, numbers), fault.kind, fault.part, numbers)


class Library:
    """The library at a path, or of this name where the system finds it. Any number of threads may call it at once."""

    def __init__(self, path: str = SHARED):
        library, self._kept = ctypes.CDLL(path), threading.local()
        self._solve, self._check = library.modsched_solve, library.modsched_check
        array: list[Any] = [ctypes.POINTER(u64), size]
        self._solve.argtypes = [ctypes.POINTER(_Problem), u64, u64, *array, *array, *array, ctypes.POINTER(_Answer)]
        self._check.argtypes = [ctypes.POINTER(_Problem), u64, *array, *array, *array, ctypes.POINTER(_Verdict)]
        self._solve.restype = self._check.restype = u32
        text, out = [ctypes.c_char_p, size], [ctypes.c_char_p, size, ctypes.POINTER(_Told)]
        self._texts = {name: getattr(library, f"modsched_{name}") for name in "schedule json explain run plain bounds edges dot".split()}
        for name, call in self._texts.items():
            numbers = {"run": 3, "plain": 1, "bounds": 0, "edges": 0, "dot": 0}.get(name, 2)
            call.argtypes, call.restype = [*text * (1 if name == "plain" else 2), *[u64] * numbers, *out], u32

    def _room(self, count: int) -> Any:
        """Room for so many bytes at least. Each thread keeps its own for the next call."""
        room = getattr(self._kept, "room", None)
        if room is None or len(room) < count:
            room = self._kept.room = ctypes.create_string_buffer(count)
        return room

    def _printed(self, name: str, texts: Sequence[str | bytes], *numbers: int) -> Printed:
        given = [it.encode() if isinstance(it, str) else it for it in texts]
        words = [it for text in given for it in (text, len(text))] + list(numbers)
        if any(not 0 <= it < 1 << 64 for it in numbers):
            raise ValueError(f"{numbers} are not all from 0 to 2 ** 64 - 1")
        # (what does not fit is searched for twice. Few outputs have more than 16 bytes for each of their texts, which are no longer than 2 MiB)
        told, room = _Told(), self._room(min(max(1 << 16, 16 * sum(map(len, given))), 1 << 25))
        status = self._texts[name](*words, room, len(room), told)
        if told.bytes > len(room):
            room = self._room(told.bytes)
            status = self._texts[name](*words, room, len(room), told)
        handed = bytes(memoryview(room)[: told.bytes]).decode()
        if status in (0, 1):
            return Printed(handed, status == 0)
        if status == 2:
            outside = ("the ratio is not 1 to 64", "the ceiling is not 0 to 255", "the trip count is not 0 to 100000")
            raise ValueError(outside[told.misfit - 1])
        if status in (4, 5):
            raise Refused(handed, status == 4, told.line)
        raise MemoryError

    def schedule(self, machine: str | bytes, loops: str | bytes, ratio: int = 6, ceiling: int = 32) -> Printed:
        """The listing of the loops on the machine: of each loop the kernel of the least interval at which the search finds one, or why it finds none. At most `ratio`
        placements are made for each operation and interval, 1 to 64, at most `ceiling` intervals above the least one, 0 to 255. Raises
        Refused, ValueError for a number that is out of its range, or MemoryError."""
        return self._printed("schedule", (machine, loops), ratio, ceiling)

    def json(self, machine: str | bytes, loops: str | bytes, ratio: int = 6, ceiling: int = 32) -> Printed:
        """The same listing as one JSON document. Raises as `schedule`."""
        return self._printed("json", (machine, loops), ratio, ceiling)

    def explain(self, machine: str | bytes, loops: str | bytes, ratio: int = 6, ceiling: int = 32) -> Printed:
        """Why each loop has its interval. Raises as `schedule`."""
        return self._printed("explain", (machine, loops), ratio, ceiling)

    def run(self, machine: str | bytes, loops: str | bytes, trip: int, ratio: int = 6, ceiling: int = 32) -> Printed:
        """What the kernel of each loop leaves after `trip` iterations, 0 to 100,000. Raises as `schedule`."""
        return self._printed("run", (machine, loops), trip, ratio, ceiling)

    def plain(self, loops: str | bytes, trip: int) -> Printed:
        """What each loop leaves after `trip` iterations, 0 to 100,000, one after another. Raises as `schedule`."""
        return self._printed("plain", (loops,), trip)

    def bounds(self, machine: str | bytes, loops: str | bytes) -> Printed:
        """ResMII and RecMII of each loop. Raises Refused or MemoryError."""
        return self._printed("bounds", (machine, loops))

    def edges(self, machine: str | bytes, loops: str | bytes) -> Printed:
        """The dependences of each loop, and the height of each operation. Raises Refused or MemoryError."""
        return self._printed("edges", (machine, loops))

    def dot(self, machine: str | bytes, loops: str | bytes) -> Printed:
        """The dependences of each loop as a graph for Graphviz. Raises Refused or MemoryError."""
        return self._printed("dot", (machine, loops))

    def check(self, problem: Problem, schedule: Schedule) -> int:
        """How many stages a lawful schedule has, from wherever it comes; of it the interval, times, alternatives and numbers are looked at. Raises Broken,
        AtFault, MemoryError, or KeyError where the schedule lacks an operation or a value."""
        def numbers_of(names: Collection[str], told: Mapping[str, int]) -> list[Any]:
            return [_array(u64, [_unsigned(told[name], 64) for name in names]), len(names)]

        verdict, given = _Verdict(), problem._given()
        arrays = [
            *numbers_of(problem.operations, schedule.times),
            *numbers_of(problem.operations, schedule.alternatives),
            *numbers_of(problem.values, schedule.numbers),
        ]
        status = self._check(given, _unsigned(schedule.interval, 64), *arrays, verdict)
        if status == 0:
            return int(verdict.stages)
        if status == 1:
            numbers = {name: getattr(verdict, name) for name in _BROKEN}
            raise Broken(break_in_words(problem._names(), verdict.kind, numbers), verdict.kind, numbers)
        if status == 5:
            raise _at_fault(problem, verdict.fault)
        raise MemoryError

    def solve(self, problem: Problem, ratio: int = 6, ceiling: int = 64) -> Schedule:
        """The schedule of the least interval at which the search finds one, from the greater bound to `ceiling` (0 to 255) above it, each tried with at most `ratio` (1 to 64)
        times as many placements as there are operations. Raises NoInterval, AtFault, ValueError for a setting that is out of its range, or MemoryError."""
        operations, values = len(problem.operations), len(problem.values)
        times, choices, numbers = ((u64 * max(it, 1))() for it in (operations, operations, values))
        answer, given = _Answer(), problem._given()
        settings = _unsigned(ratio, 64), _unsigned(ceiling, 64)
        status = self._solve(given, *settings, times, operations, choices, operations, numbers, values, answer)
        if status == 0:
            return Schedule(
                answer.interval, answer.stages, answer.resources, answer.recurrences, dict(zip(problem.operations, times)),
                dict(zip(problem.operations, choices)), dict(zip(problem.values, numbers)),
            )
        if status == 1:
            cause = ("table", "budget", "stages", "registers")[answer.cause - 1]
            named = (list(problem.files)[answer.file], list(problem.values)[answer.value]) if answer.cause == 4 else (None, None)
            raise NoInterval(answer.interval, cause, *named)
        if status == 2:
            raise ValueError("the ratio is not 1 to 64" if answer.misfit == 1 else "the ceiling is not 0 to 255")
        if status == 5:
            raise _at_fault(problem, answer.fault)
        raise MemoryError
