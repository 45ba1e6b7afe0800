"""The innermost loops of a function, those that can be scheduled and why others can't."""
from __future__ import annotations

from dataclasses import dataclass, field

from .ir import Block, Constant, Function, Instruction, Unknown, Value, incoming
from .reader import MEMORY


class LeftOut(Exception):
    """Why a loop gives no problem."""


@dataclass(frozen=True)
class Guard:
    """An instruction is only to be done where a condition is as told."""

    condition: Value
    wanted: bool


@dataclass(eq=False, repr=False)
class Loop:
    """An innermost loop of one iteration's instructions, in order, without branches, and with selects in place of inner phis."""

    function: Function
    header: Block
    blocks: list[Block]
    before: Block  # from where it is entered
    after: Block  # where it leaves to
    latch: Block  # the block that ends an iteration
    body: list[Instruction] = field(default_factory=list)
    guards: dict[Instruction, Guard] = field(default_factory=dict)

    def __post_init__(self):
        self._inside = {one for block in self.blocks for one in block.instructions}

    def has(self, value: Value) -> bool:
        """Whether a value is made in the loop."""
        return value in self._inside


def _reached(start: Block, without: Block | None) -> set[Block]:
    found, waiting = set(), [start]
    while waiting:
        block = waiting.pop()
        if block is not without and block not in found:
            found.add(block)
            waiting += block.successors
    return found


def _numbers(entry: Block) -> dict[Block, int]:
    """A number for each block that is reached, by when a depth-first walk leaves it: only an edge that goes back in a circuit leads to one that is not lower."""
    found: dict[Block, int] = {}
    seen, waiting = {entry}, [(entry, iter(entry.successors))]
    while waiting:
        block, rest = waiting[-1]
        to = next((it for it in rest if it not in seen), None)
        if to is None:
            found[block] = len(found)
            waiting.pop()
        else:
            seen.add(to)
            waiting.append((to, iter(to.successors)))
    return found


def _before(function: Function) -> dict[Block, list[Block]]:
    """Of each block those that lead to it, as far as they are reached at all."""
    found: dict[Block, list[Block]] = {}
    reached = _reached(function.blocks[0], None)
    for block in (it for it in function.blocks if it in reached):
        for to in block.successors:
            found.setdefault(to, []).append(block)
    return found


def _gone_back_to(function: Function, before: dict[Block, list[Block]]) -> list[Block]:
    """The blocks that a walk goes back to, in the order of the function."""
    numbers = _numbers(function.blocks[0])
    entered = {to for to, its in before.items() if any(numbers[to] >= numbers[it] for it in its)}
    return [it for it in function.blocks if it in entered]


def _leading(ends: list[Block], before: dict[Block, list[Block]], header: Block) -> set[Block]:
    """A header, and the blocks that come to the ends without passing it."""
    inside, waiting = {header}, list(ends)
    while waiting:
        block = waiting.pop()
        if block not in inside:
            inside.add(block)
            waiting += before.get(block, [])
    return inside


def _natural_loops(function: Function) -> dict[Block, set[Block]]:
    """Of each header the blocks of its loop: those that come to an edge back to it without passing it."""
    entry, loops, before = function.blocks[0], {}, _before(function)
    for header in _gone_back_to(function, before):
        others = _reached(entry, header)
        ends = [it for it in before.get(header, []) if it not in others]
        if ends:
            loops[header] = _leading(ends, before, header)
    return loops


def tangled(function: Function) -> list[tuple[Block, list[Block], int]]:
    """The circuits with several blocks at which they are entered, and without a loop inside: of each such a block, all of its blocks, and the number of those."""
    headers, before, found = _natural_loops(function), _before(function), []
    seen: set[Block] = set()
    for block in _gone_back_to(function, before):
        circuit = _leading(before.get(block, []), before, block) & _reached(block, None)
        if not circuit & (seen | headers.keys()):
            seen |= circuit
            places = [it for it in circuit if any(one not in circuit for one in before.get(it, []))]
            found.append((block, [it for it in function.blocks if it in circuit], len(places)))
    return found


def innermost(function: Function) -> list[tuple[Block, list[Block]]]:
    """The headers and blocks of the loops that have no loop inside, in the order of the function."""
    loops = _natural_loops(function)
    found = []
    for header, inside in loops.items():
        if not any(other is not header and other in inside for other in loops):
            found.append((header, [it for it in function.blocks if it in inside]))
    return found


def line_of(header: Block, blocks: list[Block]) -> tuple[str, int]:
    """The file and the line of a loop: those of the branch that ends it, which has the line of its `for` or `while`, else of the first instruction with a line."""
    ends = [it.last for it in blocks if header in it.successors]
    for one in [*ends, *(one for block in blocks for one in block.instructions)]:
        if one.line:
            return one.file, one.line
    return "", 0


def _is_vector(value: Value) -> bool:
    """Whether a value is a vector, and not a packed struct without a name, which begins with an angle too, nor a pointer to either."""
    return value.type.startswith("<") and not value.type.startswith("<{") and not value.type.endswith("*")


def _has_parts(value: Value) -> bool:
    """Whether a value is a struct or an array, whose parts are taken by numbers that are no operands."""
    return value.type.startswith(("{", "[", "%", "<{")) and not value.type.endswith("*")


def _can_trap(one: Instruction) -> bool:
    """Whether an instruction may trap where it is done though its condition does not hold: a division whose divisor may be 0, or -1."""
    if one.opcode.startswith(("llvm.sdiv.", "llvm.udiv.")):
        return True
    divisor = one.operands[1] if one.opcode in ("sdiv", "udiv", "srem", "urem") else Constant("1", "", 1)
    return not isinstance(divisor, Constant) or divisor.number == 0 or divisor.number == -1 and one.opcode[0] == "s"


def _refuse_instructions(blocks: list[Block]) -> None:
    for one in (one for block in blocks for one in block.instructions):
        if one.opcode.startswith("call "):
            raise LeftOut(f"it calls {one.opcode[5:]}")
        if one.opcode == "asm":
            raise LeftOut("it has assembly")
        if one.is_volatile or one.opcode in ("fence", "atomicrmw", "cmpxchg"):
            raise LeftOut("it has a volatile or atomic access")
        if one.opcode in ("alloca", "va_arg"):
            raise LeftOut(f"it has {one.opcode}")
        if any(map(_is_vector, (one, *one.operands))):
            raise LeftOut("it has vectors")
        if any(map(_has_parts, (one, *one.operands))):
            raise LeftOut("it has values of several parts")
        unknown = next((it for it in one.operands if isinstance(it, Unknown)), None)
        if unknown is not None:
            raise LeftOut(f"it has the operand {unknown.name}")


def _latch_of(header: Block, blocks: list[Block]) -> Block:
    leaving = [it for it in blocks if any(to not in blocks for to in it.successors)]
    latches = [it for it in blocks if header in it.successors]
    if len(latches) != 1:
        raise LeftOut(f"it has {len(latches)} edges back")
    if not leaving:
        raise LeftOut("it never ends")
    if leaving == [header] != latches:
        raise LeftOut("it is left at the beginning of an iteration")
    if leaving != latches:
        raise LeftOut("it is left in the middle of an iteration")
    return latches[0]


def _conditional(header: Block, blocks: list[Block], latch: Block) -> Block | None:
    """The block that is done under a condition, in a loop of a header, such a block and a latch."""
    if len(blocks) == 1:
        return None
    inner = [it for it in blocks if it not in (header, latch)]
    if len(inner) == 1 and header.last.opcode == "br" and set(header.successors) == {inner[0], latch} and inner[0].successors == [latch]:
        return inner[0]
    raise LeftOut(f"an iteration has {len(blocks)} blocks")


def _convert(loop: Loop, inner: Block) -> None:
    """The conditional block becomes guards of its loads and stores, and phis after it become selects."""
    test = loop.header.last
    wanted = loop.header.successors[0] is inner
    for one in inner.instructions:
        if _can_trap(one):
            raise LeftOut("it divides under a condition")
        if one.opcode in MEMORY:
            loop.guards[one] = Guard(test.operands[0], wanted)
    for phi in loop.latch.phis:
        inside, outside = incoming(phi, inner), incoming(phi, loop.header)
        phi.opcode, phi.blocks = "select", []
        phi.operands = [test.operands[0], *((inside, outside) if wanted else (outside, inside))]


def loop_of(function: Function, header: Block, blocks: list[Block]) -> Loop:
    """The loop of a header and its blocks; what it changes in the function is the two-block form, which becomes one. Raises LeftOut."""
    latch = _latch_of(header, blocks)
    inner = _conditional(header, blocks, latch)
    _refuse_instructions(blocks)
    entries = [it for it in function.blocks if header in it.successors and it not in blocks]
    if len(entries) != 1:
        raise LeftOut(f"it is entered from {len(entries)} blocks")
    after = next(it for it in latch.successors if it not in blocks)
    loop = Loop(function, header, blocks, entries[0], after, latch)
    if inner is not None:
        _convert(loop, inner)
    ordered = [header] if inner is None else [header, inner, latch]
    loop.body = [one for block in ordered for one in block.instructions if one.opcode not in ("phi", "br")]
    return loop
