"""What a machine issues for an iteration of a loop: instructions become operations, some of which do several, and reads of one another's values."""
from __future__ import annotations

from dataclasses import dataclass, field, replace
from typing import Callable

from .affine import Exit, Inductions
from .ir import Instruction, Value, incoming
from .loops import Guard, LeftOut, Loop
from .machine import Kind, Machine
from .patterns import Match, type_of
from .reader import MEMORY

SAME_BITS = ("trunc", "bitcast", "freeze", "ptrtoint", "inttoptr")
MOST_DISTANCE = 16  # iterations between a value and a read of it, the most that modsched takes
MOST_FOLDED = 128  # instructions one after another that are folded into an operation


@dataclass(frozen=True)
class Read:
    """An operand that is the value of an operation, made `distance` iterations ago, and read `offset` cycles after the issue."""

    maker: Instruction
    distance: int
    offset: int


@dataclass(frozen=True)
class Earlier:
    """An operand that the same operation has made."""

    instruction: Instruction


@dataclass(frozen=True)
class Induction:
    """An operand that goes on by itself, as a part of an address."""

    phi: Instruction


@dataclass(frozen=True)
class Input:
    """An operand that is there before the loop: a constant, an argument, or what is computed before."""

    value: Value


Operand = Read | Earlier | Induction | Input


@dataclass(eq=False, repr=False)
class Operation:
    """What is issued at once: instructions in order, the last of which makes its value. Those in `folded` cost nothing by themselves."""

    kind: Kind
    root: Instruction
    instructions: list[Instruction] = field(default_factory=list)
    operands: dict[tuple[Instruction, int], Operand] = field(default_factory=dict)
    folded: set[Instruction] = field(default_factory=set)
    parts: dict[tuple[Instruction, int | str], Instruction] = field(default_factory=dict)  # the folded ones, by instruction and by when it is needed
    guard: tuple[Operand, bool] | None = None
    is_out: bool = False

    @property
    def memory(self) -> Instruction | None:
        """The load or store of the operation."""
        return next((it for it in self.instructions if it.opcode in MEMORY), None)

    @property
    def reads(self) -> list[Read]:
        """The reads, each once, in order."""
        every = [*self.operands.values(), *([self.guard[0]] if self.guard else [])]
        return list(dict.fromkeys(it for it in every if isinstance(it, Read)))


class _Again(Exception):
    """A phi needs a copy, so that operations have to be chosen anew."""


class Selection:
    """Chooses the operations of a loop. Raises LeftOut."""

    def __init__(self, loop: Loop, inductions: Inductions, ending: Exit, machine: Machine):
        self.loop, self.inductions, self.ending, self.machine = loop, inductions, ending, machine
        self.users = loop.function.users()
        self._body = set(loop.body)
        self.copied: list[Instruction] = []
        while not self._is_chosen():
            pass

    def _is_chosen(self) -> bool:
        """Chooses all operations, unless some phi turns out to need a copy: then it is one of `copied`."""
        self._depth = 0
        self.operations: dict[Instruction, Operation] = {}
        self.preloads: dict[tuple[Instruction, int], Value] = {}
        self.outs: dict[Value, Instruction] = {}
        self.copies = {phi: Instruction(f"{phi.name}.copy", phi.type, "copy", [incoming(phi, self.loop.latch)]) for phi in self.copied}
        self.tail = list(self.copies.values())
        try:
            waiting = self._roots()
            while waiting:
                root = waiting.pop()
                if root not in self.operations:
                    self.operations[root] = self._operation(root)
                    waiting += [it.maker for it in self.operations[root].reads]
        except _Again:
            return False
        for root in self.outs.values():
            self.operations[root].is_out = True
        self.places = {one: place for place, one in enumerate([*self.loop.body, *self.tail, self.loop.latch.last])}
        return True

    def ordered(self) -> list[Operation]:
        """The operations in the order of the iteration: one with a load or store stands where that does."""
        return sorted(self.operations.values(), key=lambda it: self.places[it.memory or it.root])

    def _roots(self) -> list[Instruction]:
        """What has to be done: stores, values that are used after the loop, and the branch where the machine has no counter."""
        roots = [it for it in self.loop.body if it.opcode == "store"]
        for value in [*self.loop.header.phis, *self.loop.body]:
            if any(not self.loop.has(it) for it in self.users.get(value, [])):
                is_plain = value.opcode != "phi" and not self.machine.is_free(value)
                self.outs[value] = value if is_plain else self._copied_out(value)
        return [*roots, *self.outs.values(), *([] if self.machine.has_counter else [self.loop.latch.last])]

    def _copied_out(self, value: Instruction) -> Instruction:
        copy = Instruction(f"{value.name}.out", value.type, "copy", [value])
        self.tail.append(copy)
        return copy

    def _operation(self, root: Instruction) -> Operation:
        for kind, found in self.machine.matches(root, self._is_inner):
            memory = [it for it in found.instructions if it.opcode in MEMORY]
            if len(memory) <= 1 and self._is_in_time(root, memory, found):
                return self._built(kind, found)
        raise LeftOut(f"the machine has nothing for {root.opcode}" + (f" of {type_of(root)}" if type_of(root) != "void" else ""))

    def _is_inner(self, one: Instruction) -> bool:
        """Whether an instruction may be part of another's operation: nobody else uses it."""
        return one in self._body and len(self.users.get(one, [])) == 1

    def _is_in_time(self, root: Instruction, memory: list[Instruction], found: Match) -> bool:
        """Whether all that is read is there where the load stands, which is where the operation stands."""
        if not memory or memory[0] is root:
            return True
        before = set(self.loop.body[: self.loop.body.index(memory[0])])
        operands = [one.operands[place] for _, one, place in found.leaves]
        return all(it not in self._body or it in before for it in operands)

    def _built(self, kind: Kind, found: Match) -> Operation:
        operation = Operation(kind, found.instructions[-1])
        leaves = {(one, place): name for name, one, place in found.leaves}
        addresses = {one.operands[-1] for one in found.instructions if one.opcode in MEMORY}
        for one in reversed(found.instructions):
            addresses.update(one.operands if one in addresses else [])
        for one in found.instructions:
            for place, operand in enumerate(one.operands):
                if (one, place) in leaves:
                    is_address = one.opcode in MEMORY and place == len(one.operands) - 1
                    offset = 0 if is_address or one in addresses else kind.offsets.get(leaves[one, place], 0)
                    operation.operands[one, place] = self._operand(operation, operand, offset, is_address)
                else:
                    operation.operands[one, place] = Earlier(operand)
            guard = self.loop.guards.get(one)
            if guard is not None:
                operation.guard = self._guard(operation, one, guard)
            operation.instructions.append(one)
        return operation

    def _guard(self, operation: Operation, one: Instruction, guard: Guard) -> tuple[Operand, bool]:
        """The guard of a load, which looks at memory at its issue, or of a store, which has time."""
        offset = operation.kind.offsets.get("guard", 0) if one.opcode == "store" else 0
        return self._operand(operation, guard.condition, offset, False), guard.wanted

    def _operand(self, operation: Operation, value: Value, offset: int, is_address: bool) -> Operand:
        """Where an operation has an operand from. What is folded into it is made part of it."""
        if not self.loop.has(value):
            return Input(value)
        if is_address and self.machine.folds_affine and self.inductions.of(value) is not None:
            return self._moving(operation, value)
        if value.opcode != "phi" and self.machine.is_free(value):
            return self._folded(operation, value, offset, lambda it: self._operand(operation, it, offset, is_address and self._has_its_bits(value, it)))
        if is_address and self._is_indexed(value):
            return self._folded(operation, value, offset, lambda it: self._operand(operation, it, offset, False))
        maker, distance = self._maker(value)
        return Read(maker, distance, offset)

    def _has_its_bits(self, one: Instruction, operand: Value) -> bool:
        """Whether a free instruction only gives the bits of its operand, all of them or the low ones, so that it goes on by itself where that does."""
        bits_of = self.loop.function.bits_of
        return one.opcode in SAME_BITS and bits_of(operand.type) >= bits_of(one.type) > 0

    def _moving(self, operation: Operation, value: Value) -> Operand:
        """A part of an address that goes on by itself."""
        if not self.loop.has(value):
            return Input(value)
        if value in self.inductions.steps:
            return Induction(value)
        return self._folded(operation, value, "step", lambda it: self._moving(operation, it))

    def _folded(self, operation: Operation, one: Instruction, when: int | str, operand_of: Callable[[Value], Operand]) -> Operand:
        """Makes an instruction part of an operation, once for each time at which it is needed, since what it reads has to be there at each of them."""
        if (one, when) not in operation.parts:
            part = replace(one, name=f"{one.name}.at.{when}") if one in operation.folded else one
            self._depth += 1
            if self._depth > MOST_FOLDED:
                raise LeftOut(f"it has more than {MOST_FOLDED} instructions one after another that cost nothing")
            for place, it in enumerate(one.operands):
                operation.operands[part, place] = operand_of(it)
            self._depth -= 1
            operation.parts[one, when] = part
            operation.instructions.append(part)
            operation.folded.add(part)
        return Earlier(operation.parts[one, when])

    def _is_indexed(self, value: Instruction) -> bool:
        """Whether an address is a base, a constant, and one index times a number that the machine can add by itself."""
        address = value.address
        return value.opcode == "getelementptr" and len(address.scaled) <= 1 and all(it in self.machine.scales for _, it in address.scaled)

    def _maker(self, value: Instruction) -> tuple[Instruction, int]:
        """Which operation's value it is, and of how many iterations ago. What the phis on the way begin with is noted."""
        phis: list[Instruction] = []
        while value in self.loop.header.phis:
            if value in phis:
                self._copy(phis[0])
            phis.append(value)
            value = self.copies[value] if value in self.copies else incoming(value, self.loop.latch)
        is_made = value in self.tail or self.loop.has(value) and not self.machine.is_free(value)
        if phis and not is_made:
            self._copy(phis[-1])
        if len(phis) > MOST_DISTANCE:
            raise LeftOut(f"it reads a value of {len(phis)} iterations ago")
        for distance, phi in enumerate(reversed(phis), 1):
            if self.preloads.setdefault((value, distance), incoming(phi, self.loop.before)) is not incoming(phi, self.loop.before):
                self._copy(phi)
        return value, len(phis)

    def _copy(self, phi: Instruction) -> None:
        """Has all chosen anew, with a copy for a phi that has none yet."""
        assert phi not in self.copied, phi
        self.copied.append(phi)
        raise _Again
