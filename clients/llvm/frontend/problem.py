"""Scheduling problems of loops, as they stand in problems.json (docs/CLIENTS.md)."""
from __future__ import annotations

import math
import os
from typing import Any

from . import affine, loops, orders
from .ir import Block, Constant, Function, Instruction, Value
from .loops import LeftOut
from .machine import Machine
from .operations import Earlier, Induction, Input, Operand, Operation, Read, Selection

MOST = {"operations": 128, "values": 256, "reads": 2048, "edges": 16384}
MOST_BYTES = 64  # of a name


def _machine(machine: Machine) -> dict[str, Any]:
    """A machine as a part of problems.json."""
    kinds = [
        {"name": it.name, "latency": it.latency, "alternatives": [[{"unit": unit, "offset": at} for unit, at in holds] for holds in it.alternatives]}
        for it in machine.kinds.values()
    ]
    files = [{"name": name, "rotating": registers} if registers else {"name": name, "unallotted": True} for name, registers in machine.files.items()]
    return {"name": machine.name, "units": machine.units, "files": files, "kinds": kinds}


def _word(operation: Operation) -> str:
    """What an operation's name says that it does: its opcode, or where it does several things its kind."""
    doing = [it for it in operation.instructions if it not in operation.folded]
    if len(doing) > 1:
        return operation.kind.name
    return {"getelementptr": "address", "br": "branch"}.get(operation.root.opcode, operation.root.opcode.removeprefix("llvm."))


def _place(operation: Operation) -> tuple[str, int]:
    """The file and the line of an operation: those of the last of its instructions that has a line."""
    return next(((it.file, it.line) for it in reversed(operation.instructions) if it.line), ("", 0))


class Names:
    """Names that are all different, of at most 64 bytes, without blanks or other bytes that a text of problems does not take."""

    def __init__(self):
        self.given: set[str] = set()

    def new(self, wanted: str) -> str:
        """A name that is not given yet: the wanted one, or one like it."""
        plain = "".join(it if "!" <= it <= "~" and it != "#" else "_" for it in wanted)
        name, number = plain[:MOST_BYTES], 2
        while name in self.given:
            end = f".{number}"
            name, number = plain[: MOST_BYTES - len(end)] + end, number + 1
        self.given.add(name)
        return name


class _Writer:
    """Writes the problem of one loop."""

    def __init__(self, loop: loops.Loop, machine: Machine):
        self.loop, self.machine = loop, machine
        self.inductions = affine.Inductions(loop)
        self.ending = affine.exit_of(loop, self.inductions)
        self.selection = Selection(loop, self.inductions, self.ending, machine)
        self.operations = self.selection.ordered()
        names, values = Names(), Names()
        self.names = {it.root: names.new(self._name(it)) for it in self.operations}
        self.values = {it.root: values.new(it.root.name) for it in self.operations if it.root.name}

    def _name(self, operation: Operation) -> str:
        file, line = _place(operation)
        return f"{os.path.basename(file)}:{line}:{_word(operation)}" if line else f"{self.loop.function.name}:{_word(operation)}"

    def problem(self) -> dict[str, Any]:
        """The problem, within the limits of modsched. Raises LeftOut."""
        file, line = loops.line_of(self.loop.header, self.loop.blocks)
        source = {"file": file, "line": line, "function": self.loop.function.name, "header": self.loop.header.name}
        found = {
            "source": source, "operations": [self._operation(it) for it in self.operations], "values": self._values(),
            "reads": self._reads(), "edges": self._edges(), "preloads": self._preloads(), "outs": self._outs(),
        }
        if not self.operations:
            raise LeftOut("it has no operations")
        for part, most in MOST.items():
            if len(found[part]) > most:
                raise LeftOut(f"it has {len(found[part])} {part}, more than {most}")
        return found

    def _operation(self, it: Operation) -> dict[str, Any]:
        file, line = _place(it)
        found = {
            "name": self.names[it.root], "kind": it.kind.name, "file": file, "line": line,
            "instructions": [self._instruction(it, one) for one in it.instructions],
        }
        if it.guard is not None:
            operand, wanted = it.guard
            found["guard"] = {"operand": self._operand(operand, self.loop.guards[it.memory].condition), "wanted": wanted}
        return found

    def _instruction(self, operation: Operation, one: Instruction) -> dict[str, Any]:
        operands = [self._operand(operation.operands[one, place], it) for place, it in enumerate(one.operands)]
        found: dict[str, Any] = {"name": one.name, "opcode": one.opcode, "type": one.type, "operands": operands}
        if one in operation.folded:
            found["folded"] = True
        if one.predicate:
            found["predicate"] = one.predicate
        if one.address is not None:
            found["address"] = {"offset": one.address.offset, "scaled": [list(it) for it in one.address.scaled]}
        if one.size:
            found["bytes"] = one.size
        if one.opcode == "br":
            found["goes_on"] = self.ending.goes_on
        return found

    def _operand(self, operand: Operand, value: Value) -> dict[str, Any]:
        if isinstance(operand, Read):
            return {"value": self.values[operand.maker], "distance": operand.distance, "offset": operand.offset, "type": value.type}
        if isinstance(operand, Earlier):
            return {"earlier": operand.instruction.name, "type": value.type}
        if isinstance(operand, Induction):
            return {"induction": operand.phi.name, "type": value.type}
        return _input(value)

    def _values(self) -> list[dict[str, Any]]:
        return [
            {"name": self.values[it.root], "maker": self.names[it.root], "lands": it.kind.latency, "file": it.kind.file, "out": it.is_out}
            for it in self.operations if it.root.name
        ]

    def _reads(self) -> list[dict[str, Any]]:
        return [
            {"reader": self.names[it.root], "value": self.values[read.maker], "distance": read.distance, "offset": read.offset}
            for it in self.operations for read in it.reads
        ]

    def _edges(self) -> list[dict[str, Any]]:
        accesses = [orders.access_of(place, it.memory, self.inductions, it.kind.latency) for place, it in enumerate(self.operations) if it.memory]
        names = [self.names[it.root] for it in self.operations]
        return [{"from": names[it.first], "to": names[it.to], "delay": it.delay, "distance": it.distance} for it in orders.orders_of(accesses)]

    def _preloads(self) -> list[dict[str, Any]]:
        return [{"value": self.values[it], "distance": distance, "input": _input(value)} for (it, distance), value in self.selection.preloads.items()]

    def _outs(self) -> list[dict[str, Any]]:
        return [{"name": value.name, "value": self.values[root]} for value, root in self.selection.outs.items()]


def _input(value: Value) -> dict[str, Any]:
    if isinstance(value, Constant):
        number = value.number
        # (JSON has no infinite numbers, nor what is no number)
        return {"constant": number if math.isfinite(number) else str(number), "type": value.type}
    return {"input": value.name, "type": value.type}


def problem_of(function: Function, header: Block, blocks: list[Block], machine: Machine) -> dict[str, Any]:
    """The problem of a loop, but for its name. Raises LeftOut."""
    return _Writer(loops.loop_of(function, header, blocks), machine).problem()


def problems_of(functions: list[tuple[str, Function | Exception]], machine: Machine, file: str, names: Names | None = None) -> tuple[list[dict], list[dict]]:
    """The problems of the innermost loops of a file's functions, and what is left out, each with file, line, function and reason. `names` are those that
    problems of other files have got."""
    problems, left_out = [], []
    names = names or Names()
    for name, function in functions:
        if isinstance(function, Exception):
            left_out.append({"file": file, "line": 0, "function": name, "reason": f"it has {function}"})
            continue
        for header, blocks in loops.innermost(function):
            at, line = loops.line_of(header, blocks)
            try:
                found = problem_of(function, header, blocks, machine)
                problems.append({"name": names.new(name), **found})
            except LeftOut as reason:
                left_out.append({"file": at or file, "line": line, "function": name, "reason": str(reason)})
        for block, blocks, places in loops.tangled(function):
            at, line = loops.line_of(block, blocks)
            left_out.append({"file": at or file, "line": line, "function": name, "reason": f"it is entered at {places} places"})
    return problems, left_out


def document(machine: Machine, problems: list[dict], left_out: list[dict]) -> dict[str, Any]:
    """What problems.json has."""
    return {"machine": _machine(machine), "problems": problems, "left_out": left_out}
