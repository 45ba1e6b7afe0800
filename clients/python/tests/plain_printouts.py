"""The kernels of loops, and what `schedule`, `json`, `run` and `bounds` print of them, by the letter of docs/SEMANTICS.md and docs/FORMATS.md, from what plain_loops.py and plain_runs.py
find. It is written from the documents alone, and has no code in common with modsched."""
import json
from typing import NamedTuple

from plain_loops import Constant, Loop, Parameter, Problem, Value, allot, attempt, carried, lifetimes_of, problem_of, recurrence_bound, unit_bound, uses_of
from plain_runs import run_lines


class Operation(NamedTuple):
    """An operation of a kernel. A source is a register's number, or a `Parameter` or `Constant` of the loop."""
    row: int
    stage: int
    opcode: str
    latency: int
    alternative: int
    destination: int | None
    sources: list
    address: tuple | None


class Kernel(NamedTuple):
    interval: int
    stages: int
    registers: int
    operations: list
    preloads: list
    outs: list


class Bounds(NamedTuple):
    """A loop, what an attempt is given of it, its two bounds, and what the attempts that were made came to, by their intervals."""
    loop: Loop
    problem: Problem
    resources: int
    recurrences: int
    tried: dict

    def least(self):
        return max(self.resources, self.recurrences)


class Choice(NamedTuple):
    """What is found of a loop: the last interval that may be tried, and a kernel, or the word of why the last one gives none."""
    bounds: Bounds
    last: int
    kernel: Kernel | None
    cause: str | None


def kernel_of(loop, latencies, schedule, registers):
    """The kernel of a schedule, or none where its values have no registers."""
    lifetimes = lifetimes_of(loop, latencies, schedule)
    allotted = allot(lifetimes.values(), schedule.interval, registers)
    if len(allotted) < len(lifetimes):
        return None
    numbers, uses = dict(zip(lifetimes, allotted)), uses_of(loop)

    def name(value, distance, stage):
        return (numbers[value] + distance + stage) % registers

    def operation(number, statement):
        stage = schedule.stage(number)
        return Operation(schedule.row(number), stage, statement.opcode, latencies[number], schedule.choices[number], name(number, 0, stage) if number in numbers else None,
                         [name(use.statement, use.distance, stage) if isinstance(use, Value) else use for use in statement.uses],
                         statement.place and (statement.place.array, statement.place.offset - stage))

    preloads = [(name(value, distance, 0), loop.initials[value, distance]) for value in numbers for distance in range(1, carried(loop, uses, value) + 1)]
    outs = [(loop.statements[value].name, name(value, 0, schedule.stages() - 1)) for value in loop.outs]
    return Kernel(schedule.interval, schedule.stages(), registers, [operation(number, statement) for number, statement in enumerate(loop.statements)], preloads, outs)


def bounds_of(machine, loop, ratio):
    problem = problem_of(machine, loop, ratio)
    return Bounds(loop, problem, unit_bound(problem.alternatives), recurrence_bound(problem), {})


def attempt_at(bounds, interval):
    if interval not in bounds.tried:
        bounds.tried[interval] = attempt(bounds.problem, interval)
    return bounds.tried[interval]


def choice_of(bounds, registers, ceiling):
    last = bounds.least() + ceiling
    for interval in range(bounds.least(), last + 1):
        found = attempt_at(bounds, interval)
        kernel = None if isinstance(found, str) else kernel_of(bounds.loop, bounds.problem.latencies, found, registers)
        if kernel is not None:
            return Choice(bounds, last, kernel, None)
        cause = found if isinstance(found, str) else "registers"
    return Choice(bounds, last, None, cause)


def source_text(source):
    if isinstance(source, Constant):
        return str(source.number)
    return source.name if isinstance(source, Parameter) else f"r{source}"


def operation_text(operation):
    words = [operation.opcode]
    if operation.destination is not None:
        words.append(f"r{operation.destination}")
    if operation.address is not None:
        words.append(f"{operation.address[0]}[k{operation.address[1]:+}]")
    sources = [source_text(source) for source in operation.sources]
    if operation.opcode == "store" and len(sources) == 2:
        sources.insert(1, "if")
    words += sources + [f"?{operation.stage}"]
    if operation.alternative != 0:
        words.append(f"!{operation.alternative}")
    return " ".join(words)


def kernel_lines(kernel):
    lines = [f"pre r{register} {value}" for register, value in kernel.preloads]
    for row in range(kernel.interval):
        texts = [operation_text(operation) for operation in kernel.operations if operation.row == row]
        lines.append(f"{row}: " + " | ".join(texts) if texts else f"{row}:")
    return lines + [f"out {name} r{register}" for name, register in kernel.outs]


def bounds_line(bounds):
    return f"loop {bounds.loop.name} ops {len(bounds.loop.statements)} res {bounds.resources} rec {bounds.recurrences} mii {bounds.least()}"


def choice_head(choice):
    if choice.kernel is None:
        return f"{bounds_line(choice.bounds)} failed to {choice.last}: {choice.cause}"
    return f"{bounds_line(choice.bounds)} ii {choice.kernel.interval} stages {choice.kernel.stages}"


def last_line(are_met):
    """How many loops there are, and how many of them have a kernel, by whether each has one."""
    return f"loops {len(are_met)} met {sum(are_met)} failed {len(are_met) - sum(are_met)}"


def are_met(choices):
    return [choice.kernel is not None for choice in choices]


def listing_lines(choices):
    lines = ["version 2"] if any(choice.bounds.loop.outs for choice in choices) else []
    for choice in choices:
        lines += [choice_head(choice)] + ([] if choice.kernel is None else kernel_lines(choice.kernel))
    return lines + [last_line(are_met(choices))]


def source_object(source, params):
    if isinstance(source, Constant):
        return {"constant": str(source.number)}
    return {"parameter": params.index(source.name)} if isinstance(source, Parameter) else {"register": source}


def kernel_object(kernel, loop):
    arrays, params = list(loop.arrays), list(loop.params)

    def operation(it):
        address = it.address and {"array": arrays.index(it.address[0]), "offset": it.address[1]}
        return {"address": address, "alternative": it.alternative, "destination": it.destination, "latency": it.latency, "opcode": it.opcode, "row": it.row,
                "sources": [source_object(source, params) for source in it.sources], "stage": it.stage}

    return {"arrays": arrays, "ii": kernel.interval, "operations": [operation(it) for it in kernel.operations],
            "outs": [{"name": name, "register": register} for name, register in kernel.outs],
            "params": [{"name": name, "value": str(value)} for name, value in loop.params.items()],
            "preloads": [{"register": register, "value": str(value)} for register, value in kernel.preloads],
            "registers": kernel.registers, "stages": kernel.stages}


def choice_object(choice):
    bounds = choice.bounds
    told = {"mii": bounds.least(), "name": bounds.loop.name, "operations": len(bounds.loop.statements), "recurrences": bounds.recurrences, "resources": bounds.resources}
    if choice.kernel is None:
        return told | {"cause": choice.cause, "failed_to": choice.last}
    return told | {"kernel": kernel_object(choice.kernel, bounds.loop)}


def document_line(choices):
    met = sum(are_met(choices))
    document = {"failed": len(choices) - met, "loops": [choice_object(choice) for choice in choices], "met": met, "version": 1}
    return json.dumps(document, sort_keys=True, separators=(",", ":"))


def run_text_lines(choices, trip):
    """What `run` prints: a kernel leaves what its loop leaves, so the lines of `plain` for a loop that has one."""
    lines = []
    for choice in choices:
        lines += [choice_head(choice)] if choice.kernel is None else run_lines(choice.bounds.loop, trip)
    return lines + [last_line(are_met(choices))]
