"""Functions of LLVM IR as plain data: what the front end has to know of them."""
from __future__ import annotations

import re
from dataclasses import dataclass, field


@dataclass(eq=False, repr=False)
class Value:
    """Anything that an instruction can have as an operand. `name` is as LLVM prints it; `type` too, as `i32` or `float`."""

    name: str
    type: str

    def __repr__(self) -> str:
        return self.name or f"a {type(self).__name__.lower()}"


@dataclass(eq=False, repr=False)
class Constant(Value):
    """A number. Pointers are numbers too, and what is undefined is 0."""

    number: int | float


@dataclass(eq=False, repr=False)
class Unknown(Value):
    """A constant of which no more is known than how LLVM prints it."""


@dataclass(eq=False, repr=False)
class Argument(Value):
    """An argument of a function. `is_apart`: what it points to is reached by it alone (`restrict`)."""

    is_apart: bool


@dataclass(eq=False, repr=False)
class Global(Value):
    """The address of a global variable of `size` bytes, or of a function (0 bytes)."""

    size: int


@dataclass(eq=False, repr=False)
class Address:
    """What a getelementptr adds to its first operand: a constant, and operands (by their places) times constants, in bytes."""

    offset: int = 0
    scaled: list[tuple[int, int]] = field(default_factory=list)


@dataclass(eq=False, repr=False)
class Instruction(Value):
    """An instruction, or a constant that is told as one. `opcode` is LLVM's word; that of a call of an intrinsic is the intrinsic's
    name without its types, as `llvm.smax`."""

    opcode: str
    operands: list[Value] = field(default_factory=list)
    blocks: list["Block"] = field(default_factory=list)  # of a phi those that its operands come from, of a br those that it goes to
    predicate: str = ""  # of a comparison
    address: Address | None = None  # of a getelementptr
    size: int = 0  # bytes of a load, a store or an alloca
    is_volatile: bool = False  # volatile, or atomic
    file: str = ""
    line: int = 0


@dataclass(eq=False, repr=False)
class Block:
    """A block of instructions, the last of which leaves it."""

    name: str
    instructions: list[Instruction] = field(default_factory=list)

    @property
    def phis(self) -> list[Instruction]:
        return [it for it in self.instructions if it.opcode == "phi"]

    @property
    def last(self) -> Instruction:
        return self.instructions[-1]

    @property
    def successors(self) -> list["Block"]:
        return self.last.blocks


@dataclass(eq=False, repr=False)
class Function:
    """A function with a body; its first block is where it begins. `widths`: by address spaces, how many bits an address is computed with."""

    name: str
    arguments: list[Argument]
    blocks: list[Block]
    widths: dict[int, int]

    def bits_of(self, of: str) -> int:
        """How many bits a whole number or an address of a type is computed with; 0 of other types."""
        if of.endswith("*"):
            space = re.search(r"addrspace\((\d+)\)\*$", of)
            return self.widths.get(int(space[1]) if space else 0, self.widths[0])
        return int(of[1:]) if re.fullmatch(r"i\d+", of) else 0

    def users(self) -> dict[Value, list[Instruction]]:
        """Of each value the instructions that have it as an operand, once for each time."""
        found: dict[Value, list[Instruction]] = {}
        for block in self.blocks:
            for one in block.instructions:
                for operand in one.operands:
                    found.setdefault(operand, []).append(one)
        return found


def incoming(phi: Instruction, block: Block) -> Value:
    """What a phi is when its block is entered from another."""
    return phi.operands[phi.blocks.index(block)]
