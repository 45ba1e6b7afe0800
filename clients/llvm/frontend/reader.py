"""Reads LLVM IR with llvmlite into the plain data of `ir`."""
from __future__ import annotations

import ctypes
import re

import llvmlite.binding as binding

from . import llvm
from .ir import Address, Argument, Block, Constant, Function, Global, Instruction, Unknown, Value

IGNORED = ("llvm.dbg.", "llvm.lifetime.", "llvm.assume", "llvm.experimental.noalias.scope.decl")
MEMORY = ("load", "store")
BRANCHES = ("indirectbr", "callbr", "invoke", "catchswitch", "catchret", "cleanupret")  # whose blocks are not read
USUAL_NAN = " 0x7FF8000000000000"  # as LLVM prints it, for both types: a float of Python does not keep the bits of another NaN


class Unread(Exception):
    """Something of the IR that this front end does not know."""


def _reference(value: binding.ValueRef) -> int:
    return ctypes.cast(value._ptr, ctypes.c_void_p).value


class _FunctionReader:
    """Reads one function of a module."""

    def __init__(self, module: binding.ModuleRef, function: binding.ValueRef, computing: set[str]):
        self.layout = llvm.layout_of(ctypes.cast(module._ptr, ctypes.c_void_p))
        self.widths = llvm.widths_of(module.data_layout)
        self.computing = computing
        self.function = function
        self.values: dict[int, Value] = {}
        self.blocks: dict[int, Block] = {}
        self.unnamed = 0

    def read(self) -> Function:
        """The function. Raises Unread."""
        arguments = [self._argument(it) for it in self.function.arguments]
        made = [self._block(it) for it in self.function.blocks]
        instructions = [(block, one) for block, its in made for one in its]
        for block, (one, reference) in instructions:
            self.values[reference] = one
            block.instructions.append(one)
        for _, (one, reference) in instructions:
            self._fill(one, reference)
        for block, _ in made:
            block.instructions = [it for it in block.instructions if not it.opcode.startswith(IGNORED)]
        return Function(self.function.name, arguments, [block for block, _ in made], self.widths)

    def _name(self, reference: int) -> str:
        name = llvm.name_of(reference)
        if not name:
            self.unnamed += 1
            name = f"{self.unnamed}."  # (no name that clang gives ends in a dot)
        return f"%{name}"

    def _argument(self, given: binding.ValueRef) -> Argument:
        reference = _reference(given)
        it = Argument(self._name(reference), str(given.type), b"noalias" in given.attributes)
        self.values[reference] = it
        return it

    def _block(self, given: binding.ValueRef) -> tuple[Block, list[tuple[Instruction, int]]]:
        block = Block(self._name(_reference(given)))
        self.blocks[_reference(given)] = block
        found = []
        for it in given.instructions:
            reference = _reference(it)
            name = "" if str(it.type) == "void" else self._name(reference)
            found.append((Instruction(name, str(it.type), it.opcode), reference))
        return block, found

    def _fill(self, one: Instruction, reference: int) -> None:
        """Gives an instruction all but its name, type and opcode."""
        one.line, one.file = llvm.line_of(reference), llvm.file_of(reference)
        if one.opcode in BRANCHES:
            raise Unread(one.opcode)
        count = llvm.operand_count(reference)
        operands = [llvm.operand(reference, it) for it in range(count)]
        if one.opcode == "phi":
            one.blocks = [self.blocks[llvm.incoming_block(reference, it)] for it in range(count)]
        elif one.opcode in ("br", "switch"):
            one.blocks = [self.blocks[llvm.successor(reference, it)] for it in range(llvm.successor_count(reference))]
            operands = operands[:1] if len(one.blocks) > 1 else []
        elif one.opcode == "call":
            one.opcode = self._callee(reference)
            operands = operands[:-1]
        elif one.opcode in ("icmp", "fcmp"):
            names = llvm.INTEGER_PREDICATES if one.opcode == "icmp" else llvm.FLOAT_PREDICATES
            one.predicate = names[(llvm.integer_predicate if one.opcode == "icmp" else llvm.float_predicate)(reference)]
        elif one.opcode == "getelementptr":
            one.address = self._address(reference, operands)
        elif one.opcode in MEMORY:
            place = llvm.type_of(reference) if one.opcode == "load" else llvm.type_of(operands[0])
            one.size = llvm.stored_size(self.layout, place)
            one.is_volatile = bool(llvm.is_volatile(reference) or llvm.ordering(reference))
        elif one.opcode == "alloca":
            one.size = llvm.allocated_size(self.layout, llvm.alloca_type(reference))
        one.operands = [] if one.opcode.startswith(IGNORED) else [self._value(it) for it in operands]

    def _address(self, reference: int, operands: list[int]) -> Address:
        """What a getelementptr adds, index by index."""
        address, of = Address(), llvm.source_type(reference)
        for place, index in enumerate(operands[1:], 1):
            is_number = llvm.value_kind(index) == llvm.INTEGER
            if place > 1 and llvm.type_kind(of) == llvm.STRUCT:
                member = llvm.whole_number(index)
                address.offset += llvm.member_offset(self.layout, of, member)
                of = llvm.member_type(of, member)
                continue
            if place > 1:
                of = llvm.element_type(of)
            size = llvm.allocated_size(self.layout, of)
            if is_number:
                address.offset += size * llvm.whole_number(index)
            else:
                address.scaled.append((place, size))
        return address

    def _value(self, reference: int) -> Value:
        """The value of an operand."""
        if reference not in self.values:
            self.values[reference] = self._constant(reference)
        return self.values[reference]

    def _constant(self, reference: int) -> Value:
        kind, of = llvm.value_kind(reference), llvm.printed_type(llvm.type_of(reference))
        if kind == llvm.INTEGER and int(of[1:]) <= 64:
            number = llvm.whole_number(reference)
            return Constant(str(number), of, number)
        if kind == llvm.FLOAT and of in ("float", "double"):
            number = llvm.constant_float(reference)
            if number == number or llvm.printed(reference).endswith(USUAL_NAN):
                return Constant(str(number), of, number)
        if kind in (llvm.UNDEFINED, llvm.POISON, llvm.NULL):
            return Constant("0", of, 0.0 if of in ("float", "double") else 0)
        if kind in (llvm.VARIABLE, llvm.FUNCTION):
            size = llvm.allocated_size(self.layout, llvm.variable_type(reference)) if kind == llvm.VARIABLE else 0
            return Global(f"@{llvm.name_of(reference)}", of, size)
        if kind == llvm.EXPRESSION and llvm.constant_opcode(reference) in llvm.OPCODES:
            return self._expression(reference, of)
        return Unknown(llvm.printed(reference).strip().partition("\n")[0], of)

    def _expression(self, reference: int, of: str) -> Instruction | Unknown:
        """A constant that is told as an instruction, in no block, where all of it is known."""
        operands = [llvm.operand(reference, it) for it in range(llvm.operand_count(reference))]
        one = Instruction(llvm.printed(reference), of, llvm.OPCODES[llvm.constant_opcode(reference)])
        if one.opcode == "getelementptr":
            one.address = self._address(reference, operands)
        one.operands = [self._value(it) for it in operands]
        return Unknown(one.name, of) if any(isinstance(it, Unknown) for it in one.operands) else one

    def _callee(self, reference: int) -> str:
        """The opcode of a call: `call` and a name, of an intrinsic that only computes its name without types, and of assembly `asm`."""
        called = llvm.called(reference)
        if llvm.assembly(called):
            return "asm"
        name = llvm.name_of(called) or "a pointer"
        plain = re.sub(r"(\.[ipfv]\d+\w*)+$", "", name)
        return plain if name in self.computing or name.startswith(IGNORED) else f"call {plain if name.startswith('llvm.') else name}"


def _computing(module: binding.ModuleRef) -> set[str]:
    """The intrinsics of a module that neither read nor write memory, nor do anything else than to compute."""
    return {it.name for it in module.functions if it.name.startswith("llvm.") and any(b"readnone" in words.split() for words in it.attributes)}


def _parsed(text: str, context: binding.ContextRef) -> binding.ModuleRef:
    """The module of a text. Raises Unread where LLVM refuses it."""
    module = None
    try:
        module = binding.parse_assembly(text, context)
        module.verify()
    except RuntimeError as bad:
        if module is not None:
            module.close()
        raise Unread(f"LLVM refuses the IR: {' '.join(str(bad).split())}") from bad
    return module


def read_functions(text: str) -> list[tuple[str, Function | Unread]]:
    """The functions of a module that have bodies, in order; in place of one that is not known in full, why. Raises Unread where LLVM does not read the text."""
    context = binding.create_context()  # (in a context of its own, the names of types are as they stand in the text)
    module = _parsed(text, context)
    try:
        computing = _computing(module)
        return [(it.name, _read(module, it, computing)) for it in module.functions if not it.is_declaration]
    finally:
        # (a module has to go before its context does)
        module.close()
        context.close()


def _read(module: binding.ModuleRef, function: binding.ValueRef, computing: set[str]) -> Function | Unread:
    try:
        return _FunctionReader(module, function, computing).read()
    except Unread as unread:
        return unread
