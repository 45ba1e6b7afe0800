"""Which loads and stores of a loop have to keep their order, and by how many iterations."""
from __future__ import annotations

from dataclasses import dataclass

from .affine import Affine, Inductions, Linear
from .ir import Argument, Global, Instruction, Value

MOST_DISTANCE = 255  # of an order, the most that modsched takes
LEAST_BITS = 32  # of addresses that are compared: those of fewer bits come round after a few iterations


@dataclass(frozen=True)
class Access:
    """A load or store: the number of its operation, its address, which is computed with so many bits, and how many bytes it reaches. `lands`: cycles from the
    issue of a store to its landing."""

    operation: int
    instruction: Instruction
    address: Affine | None
    bits: int
    base: Value | None
    is_store: bool
    lands: int

    @property
    def size(self) -> int:
        return self.instruction.size


@dataclass(frozen=True)
class Order:
    """The second operation waits for the first: t(to) + interval * distance >= t(first) + delay."""

    first: int
    to: int
    delay: int
    distance: int


def access_of(number: int, instruction: Instruction, inductions: Inductions, lands: int) -> Access:
    """The access of an operation's load or store."""
    pointer = instruction.operands[-1]
    bits = inductions.loop.function.bits_of(pointer.type)
    address = inductions.of(pointer) if bits >= LEAST_BITS else None
    return Access(number, instruction, address, bits, base_of(pointer, inductions), instruction.opcode == "store", lands)


def base_of(pointer: Value, inductions: Inductions) -> Value | None:
    """What a pointer points into, as far as it can be followed: an argument, a global variable, an alloca, or what is not followed further."""
    while isinstance(pointer, Instruction):
        if pointer.opcode in ("getelementptr", "bitcast"):
            pointer = pointer.operands[0]
        elif pointer in inductions.steps:
            pointer = pointer.operands[pointer.blocks.index(inductions.loop.before)]
        else:
            break
    return pointer


def _is_local(it: Value) -> bool:
    return isinstance(it, Instruction) and it.opcode == "alloca"


def _is_variable(it: Value) -> bool:
    return isinstance(it, Global) or _is_local(it)


def _is_restrict(it: Value) -> bool:
    return isinstance(it, Argument) and it.is_apart


def are_apart(one: Value, other: Value) -> bool:
    """Whether what two pointers point into never overlaps: different variables, an argument and what the function allocates itself, or one of them is
    restrict. A pointer that is not followed to its beginning may have been made of any."""
    for it, that in ((one, other), (other, one)):
        if it is that:
            return False
        if _is_variable(it) and _is_variable(that) or _is_local(it) and isinstance(that, Argument):
            return True
        if _is_restrict(it) and (isinstance(that, Argument) or _is_variable(that)):
            return True
    return False


def least_distance(one: Access, other: Access, least: int) -> int | None:
    """The least d, from `least` on, for which `one` in some iteration and `other` d iterations later reach a common byte; None where there is none. What is
    not known counts as the least."""
    if are_apart(one.base, other.base):
        return None
    if one.address is None or other.address is None or one.address.step != other.address.step:
        return least
    bits = min(one.bits, other.bits)
    gap, step = one.address.start.plus(other.address.start, -1).within(bits), one.address.step.within(bits)
    far = 1 << bits // 2  # bytes: by steps of so many, addresses may soon come round
    if not gap.is_constant or not step.is_constant or abs(step.constant) >= far:
        return _same_iteration(gap, one, other, least)
    # they meet where -other.size < step * d - gap < one.size
    low, high, by = gap.constant - other.size + 1, gap.constant + one.size - 1, step.constant
    if by < 0:
        low, high, by = -high, -low, -by
    if by == 0:
        return least if low <= 0 <= high else None
    distance = max(least, -(-low // by))
    return distance if distance * by <= high else None


def _same_iteration(gap: Linear, one: Access, other: Access, least: int) -> int:
    """Where the step is not known, or is far: in one iteration the two may still be known to be apart."""
    if gap.is_constant and not -other.size < -gap.constant < one.size:
        return max(least, 1)
    return least


def delay_of(one: Access, other: Access) -> int:
    """How many cycles after `one` the other may be issued: a load sees what has landed when it is issued, and the later of two stores lands later."""
    if not other.is_store:
        return one.lands
    return (one.lands if one.is_store else 0) - other.lands + 1


def orders_of(accesses: list[Access]) -> list[Order]:
    """The orders of the accesses of an iteration, which are given in its order."""
    found = []
    for place, one in enumerate(accesses):
        for at, other in enumerate(accesses):
            if not (one.is_store or other.is_store):
                continue
            distance = least_distance(one, other, 0 if place < at else 1)
            if distance is not None and not (one is other and _is_kept(one, distance)):
                found.append(Order(one.operation, other.operation, delay_of(one, other), min(distance, MOST_DISTANCE)))
    return found


def _is_kept(one: Access, distance: int) -> bool:
    """Whether an order of a store on itself holds at any interval, since the next instance is issued later anyway."""
    return delay_of(one, one) <= distance
