"""Machines and loops, and the kernels of loops, by the letter of docs/SEMANTICS.md: what a machine text and a loop text say, the dependences of a loop, the two bounds on its interval, the
attempts of iterative modulo scheduling, and the registers of a schedule's values. It is written from the documents alone, has no code in common with modsched, and is made to be read beside
them and not to be fast. It takes texts without a fault; what is wrong with others it does not tell."""
import re
import sys
import tomllib
from typing import NamedTuple

# a number of a text may have as many digits as it likes
sys.set_int_max_str_digits(0)
OPCODES = ("load", "store", "add", "sub", "mul", "and", "or", "xor", "min", "max", "lt", "sel", "mov")
STAGES = 64
REGISTERS = 256


class Row(NamedTuple):
    """An operation that is issued by the alternative holds the unit this many cycles after its issue."""
    unit: str
    offset: int


class Table(NamedTuple):
    """What a machine says of an opcode: a latency in cycles, and lists of rows."""
    latency: int
    alternatives: list


class Machine(NamedTuple):
    """How many rotating registers there are, the units, and the tables by opcode."""
    registers: int
    units: list
    tables: dict


class Constant(NamedTuple):
    number: int


class Parameter(NamedTuple):
    name: str


class Value(NamedTuple):
    """The value of a statement, by its number, as it was `distance` iterations ago."""
    statement: int
    distance: int


class Place(NamedTuple):
    """In iteration j this is the array's cell j + offset."""
    array: str
    offset: int


class Statement(NamedTuple):
    """A store has no name; a load and a store have a place; the second use of a store is its guard."""
    opcode: str
    name: str | None
    place: Place | None
    uses: list


class Loop(NamedTuple):
    """Arrays with the numbers that are written for them, parameters with theirs, statements, initial values by the statement and how many iterations before the first one they are of, and the
    statements that are live at the end."""
    name: str
    arrays: dict
    params: dict
    statements: list
    initials: dict
    outs: list


class Edge(NamedTuple):
    """A schedule issues `end`, this many iterations later, at least `delay` cycles after `start`. Edges stand in the order of these numbers."""
    start: int
    end: int
    distance: int
    delay: int
    kind: str


class Problem(NamedTuple):
    """What an attempt is given: a latency and alternatives for each operation, the edges, and how many placements it may make."""
    latencies: list
    alternatives: list
    edges: list
    budget: int


class Schedule(NamedTuple):
    """For each operation the cycle of its issue in iteration 0, and the number of its alternative."""
    interval: int
    times: list
    choices: list

    def stage(self, operation):
        return self.times[operation] // self.interval

    def row(self, operation):
        return self.times[operation] % self.interval

    def stages(self):
        return max(time // self.interval for time in self.times) + 1


class Lifetime(NamedTuple):
    """The first and the last cycle in which a value lives in iteration 0."""
    first: int
    last: int


def machine_in(text):
    """The machine of a machine text, which is given as bytes."""
    tree = tomllib.loads(text.decode())
    tables = {}
    for opcode, table in tree["ops"].items():
        rows = [[row.split("@") for row in alternative] for alternative in table["alts"]]
        tables[opcode] = Table(table["latency"], [[Row(unit, int(offset)) for unit, offset in alternative] for alternative in rows])
    return Machine(tree["registers"], tree["units"], tables)


def words_of(line):
    return [word.decode("ascii") for word in re.split(rb"[ \t\r]+", line.split(b"#")[0]) if word]


def loops_in(text):
    """The loops of a loop text, which is given as bytes."""
    loops, lines = [], []
    for words in map(words_of, text.split(b"\n")):
        if words == ["end"]:
            loops.append(loop_of(lines))
            lines = []
        elif words:
            lines.append(words)
    return loops


def loop_of(lines):
    """The loop of these lines, which are given as words; the line `end` is not among them."""
    said = {first: [words for words in lines if words[0] == first] for first in ("loop", "array", "param", "init", "out")}
    statements = [words for words in lines if words[0] not in said]
    params = {name: int(number) for _, name, _, number in said["param"]}
    numbers = {words[0]: number for number, words in enumerate(statements) if words[0] != "store"}
    initials = {}
    for _, instance, _, number in said["init"]:
        name, _, distance = instance.partition("@")
        initials[numbers[name], int(distance)] = int(number)
    arrays = {name: [int(number) for number in cells] for _, name, _, *cells in said["array"]}
    return Loop(said["loop"][0][1], arrays, params, [statement_of(words, params, numbers) for words in statements], initials, [numbers[name] for _, name in said["out"]])


def statement_of(words, params, numbers):
    def use(word):
        name, _, distance = word.partition("@")
        if name in numbers:
            return Value(numbers[name], int(distance or "0"))
        return Parameter(word) if word in params else Constant(int(word))

    def place(word):
        array, sign, number = re.fullmatch(r"(\w+)\[i([+-]?)(\d*)\]", word).groups()
        return Place(array, int(sign + (number or "0")))

    if words[0] == "store":
        return Statement("store", None, place(words[1]), [use(word) for word in words[2:] if word != "if"])
    if words[2] == "load":
        return Statement("load", words[0], place(words[3]), [])
    return Statement(words[2], words[0], None, [use(word) for word in words[3:]])


def operation_name(statement):
    """A statement is named by its value, and a store by its place."""
    if statement.name is not None:
        return statement.name
    array, offset = statement.place
    return f"{array}[i{offset:+}]" if offset else f"{array}[i]"


def edges_of(statements, latencies):
    """The dependences between statements, each once, in order."""
    edges = set()
    for reader, statement in enumerate(statements):
        edges |= {Edge(use.statement, reader, use.distance, latencies[use.statement], "value") for use in statement.uses if isinstance(use, Value)}
    for p, first in enumerate(statements):
        for q, second in enumerate(statements):
            if first.place and second.place and first.place.array == second.place.array:
                # p of iteration j touches the cell j + its offset, which q touches so many iterations later
                distance = first.place.offset - second.place.offset
                if distance > 0 or distance == 0 and p < q:
                    edges |= memory_edges(p, first, q, second, distance, latencies)
    return sorted(edges)


def memory_edges(p, first, q, second, distance, latencies):
    """The edge between two statements that touch one cell, if one of them stores to it."""
    kinds = {("store", "load"): (latencies[p], "memory"), ("load", "store"): (1 - latencies[q], "anti"), ("store", "store"): (1 + latencies[p] - latencies[q], "output")}
    return {Edge(p, q, distance, *kinds[it]) for it in [(first.opcode, second.opcode)] if it in kinds}


def problem_of(machine, loop, ratio):
    tables = [machine.tables[statement.opcode] for statement in loop.statements]
    latencies = [table.latency for table in tables]
    return Problem(latencies, [table.alternatives for table in tables], edges_of(loop.statements, latencies), ratio * len(tables))


def unit_bound(alternatives):
    """ResMII: how often the most used unit is used, where each operation, those with the fewest alternatives first, takes the first of the alternatives that leave that number lowest."""
    uses = {}

    def with_rows(rows):
        after = dict(uses)
        for row in rows:
            after[row.unit] = after.get(row.unit, 0) + 1
        return after

    for offered in sorted(alternatives, key=len):
        uses = min(map(with_rows, offered), key=lambda after: max(after.values()))
    return max(uses.values())


def heights_at(problem, interval):
    """For each operation the length of the longest walk from it, with the latency of the operation at its end; none where a circuit takes more cycles than the interval gives it, so that walks get
    longer for ever. After as many sweeps as there are operations all walks without a circuit have been counted."""
    heights = list(problem.latencies)
    for _ in heights:
        before = list(heights)
        for edge in reversed(problem.edges):
            heights[edge.start] = max(heights[edge.start], heights[edge.end] + edge.delay - interval * edge.distance)
        if heights == before:
            return heights
    return None


def recurrence_bound(problem):
    """RecMII: the least interval that every circuit fits. A circuit that fits an interval fits each longer one, so that it can be halved into."""
    short, long = 0, 1
    while heights_at(problem, long) is None:
        short, long = long, 2 * long
    while long - short > 1:
        middle = (short + long) // 2
        short, long = (middle, long) if heights_at(problem, middle) is None else (short, middle)
    return long


def slots(rows, time, interval):
    """The slots of the modulo reservation table that the rows take, as often as they take them."""
    return [(row.unit, (time + row.offset) % interval) for row in rows]


def is_sound(rows, interval):
    return len(set(slots(rows, 0, interval))) == len(rows)


class Attempt:
    """One attempt at an interval: which operations are placed, when and by which alternative, and when each was placed last."""

    def __init__(self, problem, interval):
        self.problem, self.interval = problem, interval
        self.heights = heights_at(problem, interval)
        self.sound = [[number for number, rows in enumerate(offered) if is_sound(rows, interval)] for offered in problem.alternatives]
        self.edges_to = [[edge for edge in problem.edges if edge.end == operation != edge.start] for operation in range(len(self.heights))]
        self.edges_from = [[edge for edge in problem.edges if edge.start == operation != edge.end] for operation in range(len(self.heights))]
        self.placed, self.previous, self.holders = {}, {}, {}

    def next_operation(self):
        waiting = [operation for operation in range(len(self.heights)) if operation not in self.placed]
        return min(waiting, key=lambda operation: (-self.heights[operation], operation)) if waiting else None

    def earliest(self, operation):
        demands = [self.placed[edge.start][0] + edge.delay - self.interval * edge.distance for edge in self.edges_to[operation] if edge.start in self.placed]
        return max([0] + demands)

    def free_slot(self, operation, earliest):
        for time in range(earliest, earliest + self.interval):
            for number in self.sound[operation]:
                if not any(slot in self.holders for slot in slots(self.problem.alternatives[operation][number], time, self.interval)):
                    return time, number
        return None

    def forced_slot(self, operation, earliest):
        never = operation not in self.previous
        time = earliest if never or self.previous[operation] < earliest else self.previous[operation] + 1
        return time, self.sound[operation][0]

    def remove(self, operation):
        del self.placed[operation]
        self.holders = {slot: holder for slot, holder in self.holders.items() if holder != operation}

    def place(self, operation):
        earliest = self.earliest(operation)
        time, number = self.free_slot(operation, earliest) or self.forced_slot(operation, earliest)
        taken = slots(self.problem.alternatives[operation][number], time, self.interval)
        evicted = {self.holders[slot] for slot in taken if slot in self.holders}
        for edge in self.edges_from[operation]:
            if edge.end in self.placed and self.placed[edge.end][0] + self.interval * edge.distance < time + edge.delay:
                evicted.add(edge.end)
        for other in evicted:
            self.remove(other)
        self.placed[operation], self.previous[operation] = (time, number), time
        self.holders.update((slot, operation) for slot in taken)


def attempt(problem, interval):
    """The schedule that an attempt ends in, or the word of why there is none."""
    if any(not any(is_sound(rows, interval) for rows in offered) for offered in problem.alternatives):
        return "table"
    state = Attempt(problem, interval)
    for _ in range(problem.budget):
        operation = state.next_operation()
        if operation is None:
            break
        state.place(operation)
    if state.next_operation() is not None:
        return "budget"
    operations = range(len(problem.alternatives))
    schedule = Schedule(interval, [state.placed[operation][0] for operation in operations], [state.placed[operation][1] for operation in operations])
    return "stages" if schedule.stages() > STAGES else schedule


def uses_of(loop):
    """For each statement the uses of its value: who reads it, and how many iterations later. A guard is a use."""
    uses = [[] for _ in loop.statements]
    for reader, statement in enumerate(loop.statements):
        for use in statement.uses:
            if isinstance(use, Value):
                uses[use.statement].append((reader, use.distance))
    return uses


def carried(loop, uses, value):
    """For how many iterations a value is needed after its own: so many initial values stand in registers before the first turn."""
    return max([0] + [distance for _, distance in uses[value]] + [1] * (value in loop.outs))


def lifetimes_of(loop, latencies, schedule):
    """For each statement that gives a value when it lives in iteration 0."""
    uses = uses_of(loop)
    landings = [time + latency for time, latency in zip(schedule.times, latencies)]
    end = max(schedule.stages() * schedule.interval, *landings)
    lifetimes = {}
    for value, statement in enumerate(loop.statements):
        if statement.name is not None:
            first = min(landings[value], schedule.interval) if carried(loop, uses, value) else landings[value]
            reads = [schedule.times[reader] + distance * schedule.interval for reader, distance in uses[value]]
            lifetimes[value] = Lifetime(first, max((reads or [landings[value]]) + [end] * (value in loop.outs)))
    return lifetimes


def are_apart(one, other, turn):
    """Whether two spans of cycles, each a first cycle and a length, that come again and again after `turn` cycles have no cycle in common."""
    return (other[0] - one[0]) % turn >= one[1] and (one[0] - other[0]) % turn >= other[1]


def allot(lifetimes, interval, registers):
    """For each value, in order, the least number that is lawful with those before it, up to the first value that has no number. Of a value with the number c the instances of the iterations c, c + R,
    c + 2 R and on, and c - R and on, are in the physical register 0 of R, and in each other one it is the same some intervals later: so numbers are lawful where they are in that register."""
    turn = registers * interval
    numbers, spans = [], []
    for first, last in lifetimes:
        length = last - first + 1
        starts = (first + number * interval for number in range(registers))
        lawful = ((number, (start, length)) for number, start in enumerate(starts) if length <= turn and all(are_apart((start, length), span, turn) for span in spans))
        least = next(lawful, None)
        if least is None:
            break
        numbers.append(least[0])
        spans.append(least[1])
    return numbers
