"""Values that go on by the same step in each iteration: inductions and the addresses that are made of them."""
from __future__ import annotations

from dataclasses import dataclass, field

from .ir import Address, Constant, Instruction, Value, incoming
from .loops import LeftOut, Loop

MOST_DEEP = 64  # instructions one after another that are followed
MOST_SIZE = 64  # of a product that is multiplied out


def _wrapped(number: int, bits: int = 64) -> int:
    """A number as so many bits with a sign hold it, since addresses wrap around."""
    half = 1 << (bits - 1)
    return (number + half) % (2 * half) - half


@dataclass(frozen=True)
class Linear:
    """A constant, and values that stay the same through the loop times constants. A value is the product of those of its tuple."""

    constant: int = 0
    terms: tuple[tuple[tuple[Value, ...], int], ...] = ()

    @staticmethod
    def _made(constant: int, terms: dict[tuple[Value, ...], int]) -> "Linear":
        wrapped = ((it, _wrapped(by)) for it, by in terms.items())
        return Linear(_wrapped(constant), tuple(sorted(((it, by) for it, by in wrapped if by), key=lambda it: [id(value) for value in it[0]])))

    def plus(self, other: "Linear", by: int = 1) -> "Linear":
        """This plus `by` times another."""
        terms = dict(self.terms)
        for it, of in other.terms:
            terms[it] = terms.get(it, 0) + of * by
        return self._made(self.constant + other.constant * by, terms)

    def times(self, other: "Linear") -> "Linear":
        """The product."""
        found = Linear(self.constant * other.constant)
        found = found.plus(Linear(0, other.terms), self.constant).plus(Linear(0, self.terms), other.constant)
        for one, by in self.terms:
            for two, of in other.terms:
                found = found.plus(Linear(0, ((tuple(sorted(one + two, key=id)), by * of),)))
        return found

    def within(self, bits: int) -> "Linear":
        """This with a constant of 64 bits or fewer, as addresses of so many bits have it."""
        return Linear(_wrapped(self.constant, min(bits, 64)), self.terms)

    @property
    def is_constant(self) -> bool:
        return not self.terms

    @property
    def size(self) -> int:
        """How long it is to write."""
        return 1 + sum(len(values) for values, _ in self.terms)


@dataclass(frozen=True)
class Affine:
    """What a value is in iteration i: start + i * step. The value of a pointer begins with what it points into (`base`)."""

    start: Linear
    step: Linear = Linear()


@dataclass
class Inductions:
    """The inductions of a loop: phis of the header that go on by a step that is the same in each iteration."""

    loop: Loop
    steps: dict[Instruction, Linear] = field(default_factory=dict)
    _known: dict[Value, Affine | None] = field(default_factory=dict)
    _depth: int = 0

    def __post_init__(self):
        for phi in self.loop.header.phis:
            # (while its step is looked for, it is what it starts with)
            self._known = {it: None for it in self.loop.header.phis if it is not phi}
            self._known[phi] = Affine(Linear(0, (((phi,), 1),)))
            after = self.of(incoming(phi, self.loop.latch))
            step = after.start.plus(Linear(0, (((phi,), 1),)), -1) if after and after.step == Linear() else None
            if step is not None and not any(phi in values for values, _ in step.terms) and step != Linear():
                self.steps[phi] = step
        self._known = {}
        for phi in self.loop.header.phis:
            self._known[phi] = self._begun(phi) if phi in self.steps else None

    def _begun(self, phi: Instruction) -> Affine:
        start = self.of(incoming(phi, self.loop.before))
        return Affine(start.start, self.steps[phi])

    def of(self, value: Value) -> Affine | None:
        """A value as start and step, where it is of that form."""
        if value not in self._known:
            self._depth += 1
            self._known[value] = self._found(value)
            self._depth -= 1
        return self._known[value]

    def _found(self, value: Value) -> Affine | None:
        if isinstance(value, Constant):
            return Affine(Linear(value.number)) if isinstance(value.number, int) else None
        if not isinstance(value, Instruction):
            return Affine(Linear(0, (((value,), 1),)))
        if self._depth > MOST_DEEP:
            return self._fixed(value)
        if value.opcode == "getelementptr":
            return self._address(value, value.address)
        # (between whole numbers and addresses only: what a phi of floats begins with has no such form)
        if value.opcode == "bitcast" and self._bits(value) and self._bits(value.operands[0]):
            return self.of(value.operands[0]) or self._fixed(value)
        if value.opcode in ("add", "sub", "mul", "shl"):
            return self._computed(value) or self._fixed(value)
        if value.opcode == "or":
            return self._joined(value) or self._fixed(value)
        return self._fixed(value)

    def _fixed(self, value: Instruction) -> Affine | None:
        """A value that is not made in the loop is a term of its own."""
        return None if self.loop.has(value) else Affine(Linear(0, (((value,), 1),)))

    def _address(self, value: Instruction, address: Address) -> Affine | None:
        base = self.of(value.operands[0])
        if base is None:
            return self._fixed(value)
        start, step = base.start.plus(Linear(address.offset)), base.step
        for place, scale in address.scaled:
            index = self.of(value.operands[place])
            if index is None or self._bits(value.operands[place]) < self._bits(value):
                # (it may wrap around where the address does not)
                return self._fixed(value)
            start, step = start.plus(index.start, scale), step.plus(index.step, scale)
        return Affine(start, step)

    def _bits(self, value: Value) -> int:
        return self.loop.function.bits_of(value.type)

    def _computed(self, value: Instruction) -> Affine | None:
        one, two = map(self.of, value.operands)
        if one is None or two is None:
            return None
        if value.opcode in ("add", "sub"):
            by = 1 if value.opcode == "add" else -1
            return Affine(one.start.plus(two.start, by), one.step.plus(two.step, by))
        if value.opcode == "shl":
            if two.step != Linear() or not two.start.is_constant or not 0 <= two.start.constant < 64:
                return None
            two = Affine(Linear(1 << two.start.constant))
        if one.step != Linear() and two.step != Linear():
            return None
        moves, stays = (one, two) if one.step != Linear() else (two, one)
        if max(moves.start.size, moves.step.size) * stays.start.size > MOST_SIZE:
            return None
        return Affine(moves.start.times(stays.start), moves.step.times(stays.start))

    def _joined(self, value: Instruction) -> Affine | None:
        """An or whose operands have no common bits is a sum: clang writes i | 1 where i is even."""
        one, two = map(self.of, value.operands)
        if one is None or not isinstance(value.operands[1], Constant) or not one.start.is_constant or not one.step.is_constant:
            return None
        bits = two.start.constant
        return Affine(one.start.plus(two.start), one.step) if 0 <= bits < _power_in(one.start.constant, one.step.constant) else None


def _power_in(one: int, two: int) -> int:
    """The greatest power of two, up to 2^32, that two numbers are multiples of."""
    both = one | two | 1 << 32
    return both & -both


@dataclass(frozen=True)
class Exit:
    """How a loop ends: the test at the end of each iteration, and whether it goes on where the test holds."""

    test: Instruction
    goes_on: bool


def exit_of(loop: Loop, inductions: Inductions) -> Exit:
    """The exit of a loop whose trip count is known before it starts. Raises LeftOut."""
    branch = loop.latch.last
    if branch.opcode != "br" or len(branch.blocks) != 2:
        raise LeftOut("it ends in something other than a branch")
    test = branch.operands[0]
    if not isinstance(test, Instruction) or test.opcode != "icmp" or not loop.has(test):
        raise LeftOut("its trip count is not known before it starts")
    moving = [it for it in test.operands if loop.has(it)]
    if len(moving) != 1 or not _is_counted(moving[0], inductions):
        raise LeftOut("its trip count is not known before it starts")
    return Exit(test, branch.blocks[0] is loop.header)


def _is_counted(value: Value, inductions: Inductions) -> bool:
    """Whether a value, which may be made shorter or longer for the test, goes on by a step that is a constant."""
    bits_of = inductions.loop.function.bits_of
    bits = bits_of(value.type)
    while isinstance(value, Instruction) and value.opcode in ("trunc", "zext", "sext"):
        value = value.operands[0]
        bits = min(bits, bits_of(value.type))
    found = inductions.of(value)
    return found is not None and found.step.is_constant and found.step.constant % (1 << bits) != 0
