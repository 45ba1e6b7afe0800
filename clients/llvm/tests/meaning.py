"""What instructions of LLVM IR compute. Whole numbers and pointers are from 0 to 2^bits - 1, floating-point numbers are floats."""
from __future__ import annotations

import math
import struct
from typing import Callable

Number = int | float


def bits_of(of: str) -> int:
    """How many bits a whole number or a pointer has."""
    return 64 if of.endswith("*") else int(of[1:])


def is_float(of: str) -> bool:
    return of in ("float", "double")


def fitted(number: Number, of: str) -> Number:
    """A number as its type holds it."""
    if of == "float":
        try:
            return struct.unpack("f", struct.pack("f", number))[0]
        except OverflowError:
            return math.copysign(math.inf, number)
    return float(number) if of == "double" else int(number) & ((1 << bits_of(of)) - 1)


def signed(number: int, of: str) -> int:
    """The number that the bits mean with a sign."""
    bits = bits_of(of)
    return number - (1 << bits) if number >> (bits - 1) else number


def to_bytes(number: Number, of: str) -> bytes:
    """A number as it lies in memory."""
    if is_float(of):
        return struct.pack("<f" if of == "float" else "<d", number)
    return int(number).to_bytes((bits_of(of) + 7) // 8, "little")


def from_bytes(text: bytes, of: str) -> Number:
    """The number that lies in memory."""
    if is_float(of):
        return struct.unpack("<f" if of == "float" else "<d", text)[0]
    return int.from_bytes(text, "little")


def _limited(number: int, of: str, is_signed: bool) -> int:
    bits = bits_of(of)
    low, high = (-(1 << (bits - 1)), (1 << (bits - 1)) - 1) if is_signed else (0, (1 << bits) - 1)
    return min(max(number, low), high)


def _counted(text: str) -> int:
    """How many zeros a text of bits begins with."""
    return len(text) - len(text.lstrip("0"))


WHOLE: dict[str, Callable[..., int]] = {
    "add": lambda of, a, b: a + b,
    "sub": lambda of, a, b: a - b,
    "mul": lambda of, a, b: a * b,
    "and": lambda of, a, b: a & b,
    "or": lambda of, a, b: a | b,
    "xor": lambda of, a, b: a ^ b,
    # (a shift by more than there are bits gives anything, and may be done where nobody needs it)
    "shl": lambda of, a, b: a << min(b, 64),
    "lshr": lambda of, a, b: a >> b,
    "ashr": lambda of, a, b: signed(a, of) >> b,
    "udiv": lambda of, a, b: a // b,
    "urem": lambda of, a, b: a % b,
    "sdiv": lambda of, a, b: int(math.copysign(1, signed(a, of) * signed(b, of))) * (abs(signed(a, of)) // abs(signed(b, of))),
    "srem": lambda of, a, b: int(math.copysign(1, signed(a, of))) * (abs(signed(a, of)) % abs(signed(b, of))),
    "llvm.smax": lambda of, a, b: max(signed(a, of), signed(b, of)),
    "llvm.smin": lambda of, a, b: min(signed(a, of), signed(b, of)),
    "llvm.umax": lambda of, a, b: max(a, b),
    "llvm.umin": lambda of, a, b: min(a, b),
    "llvm.abs": lambda of, a, b: abs(signed(a, of)),
    "llvm.sadd.sat": lambda of, a, b: _limited(signed(a, of) + signed(b, of), of, True),
    "llvm.ssub.sat": lambda of, a, b: _limited(signed(a, of) - signed(b, of), of, True),
    "llvm.uadd.sat": lambda of, a, b: _limited(a + b, of, False),
    "llvm.usub.sat": lambda of, a, b: _limited(a - b, of, False),
    "llvm.fshl": lambda of, a, b, c: ((a << bits_of(of) | b) << c % bits_of(of)) >> bits_of(of),
    "llvm.fshr": lambda of, a, b, c: (a << bits_of(of) | b) >> c % bits_of(of),
    "llvm.bswap": lambda of, a: int.from_bytes(a.to_bytes(bits_of(of) // 8, "little"), "big"),
    "llvm.bitreverse": lambda of, a: int(f"{a:0{bits_of(of)}b}"[::-1], 2),
    "llvm.ctpop": lambda of, a: f"{a:b}".count("1"),
    "llvm.ctlz": lambda of, a, b: _counted(f"{a:0{bits_of(of)}b}"),
    "llvm.cttz": lambda of, a, b: _counted(f"{a:0{bits_of(of)}b}"[::-1]),
}
BROKEN: dict[str, Callable[..., float]] = {
    "fadd": lambda of, a, b: a + b,
    "fsub": lambda of, a, b: a - b,
    "fmul": lambda of, a, b: a * b,
    "fdiv": lambda of, a, b: a / b,
    "fneg": lambda of, a: -a,
    "llvm.fabs": lambda of, a: abs(a),
    # clang for x86-64 multiplies and adds, with both results rounded
    "llvm.fmuladd": lambda of, a, b, c: fitted(a * b, of) + c,
}
COMPARED: dict[str, Callable[[Number, Number], bool]] = {
    "eq": lambda a, b: a == b, "ne": lambda a, b: a != b, "gt": lambda a, b: a > b, "ge": lambda a, b: a >= b, "lt": lambda a, b: a < b,
    "le": lambda a, b: a <= b,
}


def compared(predicate: str, of: str, a: Number, b: Number) -> int:
    """A comparison of two numbers of a type, none of which is not a number."""
    if predicate in ("eq", "ne"):
        return int(COMPARED[predicate](a, b))
    if predicate[0] == "s":
        a, b = signed(a, of), signed(b, of)
    return int(COMPARED[predicate[1:]](a, b))


def computed(opcode: str, of: str, types: list[str], numbers: list[Number], predicate: str = "") -> Number:
    """What an instruction without a place in memory computes of its operands."""
    if opcode in WHOLE:
        return fitted(WHOLE[opcode](of, *numbers), of)
    if opcode in BROKEN:
        return fitted(BROKEN[opcode](of, *numbers), of)
    if opcode in ("icmp", "fcmp"):
        return compared(predicate, types[0], *numbers)
    if opcode == "select":
        return numbers[1] if numbers[0] else numbers[2]
    if opcode == "bitcast" and is_float(of) != is_float(types[0]):
        return from_bytes(to_bytes(numbers[0], types[0]), of)
    if opcode == "sext":
        return fitted(signed(numbers[0], types[0]), of)
    if opcode in ("sitofp", "fptosi"):
        return fitted(signed(numbers[0], types[0]) if opcode == "sitofp" else math.trunc(numbers[0]), of)
    if opcode in ("zext", "trunc", "bitcast", "freeze", "copy", "ptrtoint", "inttoptr", "uitofp", "fpext", "fptrunc"):
        return fitted(numbers[0], of)
    raise NotImplementedError(f"{opcode} of {of}")


def addressed(offset: int, scaled: list, types: list[str], numbers: list[Number]) -> int:
    """What a getelementptr computes."""
    return fitted(numbers[0] + offset + sum(signed(numbers[place], types[place]) * by for place, by in scaled), "i64")
