"""The functions of LLVM's C interface that llvmlite does not offer itself. They are in the LLVM that llvmlite is linked with, and take its references."""
from __future__ import annotations

import ctypes
import os
import re

import llvmlite.binding as binding

_LIBRARY = ctypes.CDLL(os.path.join(os.path.dirname(binding.ffi.__file__), "libllvmlite.so"))
_REFERENCE, _NUMBER, _WORD = ctypes.c_void_p, ctypes.c_uint, ctypes.c_ulonglong


def _function(name: str, result: type | None, *arguments: type):
    it = getattr(_LIBRARY, name)
    it.restype, it.argtypes = result, arguments
    return it


value_kind = _function("LLVMGetValueKind", ctypes.c_int, _REFERENCE)
operand_count = _function("LLVMGetNumOperands", ctypes.c_int, _REFERENCE)
operand = _function("LLVMGetOperand", _REFERENCE, _REFERENCE, _NUMBER)
type_of = _function("LLVMTypeOf", _REFERENCE, _REFERENCE)
type_kind = _function("LLVMGetTypeKind", ctypes.c_int, _REFERENCE)
element_type = _function("LLVMGetElementType", _REFERENCE, _REFERENCE)
member_type = _function("LLVMStructGetTypeAtIndex", _REFERENCE, _REFERENCE, _NUMBER)
layout_of = _function("LLVMGetModuleDataLayout", _REFERENCE, _REFERENCE)
allocated_size = _function("LLVMABISizeOfType", _WORD, _REFERENCE, _REFERENCE)
stored_size = _function("LLVMStoreSizeOfType", _WORD, _REFERENCE, _REFERENCE)
member_offset = _function("LLVMOffsetOfElement", _WORD, _REFERENCE, _REFERENCE, _NUMBER)
source_type = _function("LLVMGetGEPSourceElementType", _REFERENCE, _REFERENCE)
variable_type = _function("LLVMGlobalGetValueType", _REFERENCE, _REFERENCE)
alloca_type = _function("LLVMGetAllocatedType", _REFERENCE, _REFERENCE)
whole_number = _function("LLVMConstIntGetSExtValue", ctypes.c_longlong, _REFERENCE)
broken_number = _function("LLVMConstRealGetDouble", ctypes.c_double, _REFERENCE, ctypes.POINTER(ctypes.c_int))
integer_predicate = _function("LLVMGetICmpPredicate", ctypes.c_int, _REFERENCE)
float_predicate = _function("LLVMGetFCmpPredicate", ctypes.c_int, _REFERENCE)
incoming_block = _function("LLVMGetIncomingBlock", _REFERENCE, _REFERENCE, _NUMBER)
successor_count = _function("LLVMGetNumSuccessors", _NUMBER, _REFERENCE)
successor = _function("LLVMGetSuccessor", _REFERENCE, _REFERENCE, _NUMBER)
block_value = _function("LLVMBasicBlockAsValue", _REFERENCE, _REFERENCE)
constant_opcode = _function("LLVMGetConstOpcode", ctypes.c_int, _REFERENCE)
assembly = _function("LLVMIsAInlineAsm", _REFERENCE, _REFERENCE)
called = _function("LLVMGetCalledValue", _REFERENCE, _REFERENCE)
is_volatile = _function("LLVMGetVolatile", ctypes.c_int, _REFERENCE)
ordering = _function("LLVMGetOrdering", ctypes.c_int, _REFERENCE)
line_of = _function("LLVMGetDebugLocLine", _NUMBER, _REFERENCE)
_file = _function("LLVMGetDebugLocFilename", ctypes.c_void_p, _REFERENCE, ctypes.POINTER(_NUMBER))
_name = _function("LLVMGetValueName2", ctypes.c_void_p, _REFERENCE, ctypes.POINTER(ctypes.c_size_t))
_print_value = _function("LLVMPrintValueToString", ctypes.c_void_p, _REFERENCE)
_print_type = _function("LLVMPrintTypeToString", ctypes.c_void_p, _REFERENCE)
_intrinsic = _function("LLVMLookupIntrinsicID", _NUMBER, ctypes.c_char_p, ctypes.c_size_t)
_intrinsic_name = _function("LLVMIntrinsicGetName", ctypes.c_void_p, _NUMBER, ctypes.POINTER(ctypes.c_size_t))
_dispose = _function("LLVMDisposeMessage", None, ctypes.c_void_p)

# kinds of values (LLVMValueKind)
ARGUMENT, FUNCTION, VARIABLE, EXPRESSION, UNDEFINED, INTEGER, FLOAT, NULL, INSTRUCTION, POISON = 0, 5, 8, 10, 14, 18, 19, 20, 24, 25
# kinds of types (LLVMTypeKind)
STRUCT, ARRAY, POINTER, VECTOR = 10, 11, 12, 13
INTEGER_PREDICATES = dict(zip(range(32, 42), "eq ne ugt uge ult ule sgt sge slt sle".split()))
FLOAT_PREDICATES = dict(enumerate("false oeq ogt oge olt ole one ord uno ueq ugt uge ult ule une true".split()))
OPCODES = {29: "getelementptr", 39: "ptrtoint", 40: "inttoptr", 41: "bitcast"}  # (LLVMOpcode, those of constants)


def _taken(pointer: int) -> str:
    text = ctypes.string_at(pointer).decode(errors="replace")
    _dispose(pointer)
    return text


def printed_type(of: int) -> str:
    """A type as LLVM prints it."""
    return _taken(_print_type(of))


def printed(value: int) -> str:
    """A value as LLVM prints it."""
    return _taken(_print_value(value))


def name_of(value: int) -> str:
    """The name of a value, or an empty text."""
    size = ctypes.c_size_t()
    return ctypes.string_at(_name(value, size), size.value).decode(errors="replace")


def file_of(value: int) -> str:
    """The source file of an instruction, or an empty text."""
    size = _NUMBER()
    found = _file(value, size)
    return ctypes.string_at(found, size.value).decode(errors="replace") if found else ""


def is_intrinsic(name: str) -> bool:
    """Whether an intrinsic has a name, which is without types."""
    text, size = name.encode(), ctypes.c_size_t()
    number = _intrinsic(text, len(text))
    # (LLVM finds one where types, or anything, follow its name)
    return number != 0 and ctypes.string_at(_intrinsic_name(number, size), size.value) == text


def constant_float(value: int) -> float:
    """The number of a constant of a floating-point type."""
    return broken_number(value, ctypes.c_int())


def widths_of(layout: str) -> dict[int, int]:
    """By address spaces, how many bits an address is computed with, as the text of a data layout says. Spaces that are not there are as 0."""
    found = {0: 64}
    for space, size, index in re.findall(r"(?:^|-)p(\d*):(\d+)(?::\d+)?(?::\d+)?(?::(\d+))?", layout):
        found[int(space or 0)] = int(index or size)
    return found
