"""What the tests share: the corpus compiled and solved, each file once."""
from __future__ import annotations

import atexit
import ctypes
import functools
import os
import shutil
import sys
import tempfile
from typing import Any

sys.dont_write_bytecode = True
HERE = os.path.dirname(os.path.realpath(__file__))
CLIENT = os.path.dirname(HERE)
sys.path[:0] = [HERE, CLIENT]
import plain  # noqa: E402
from frontend import clang, problem, reader, solving  # noqa: E402
from frontend.ir import Function, Global, Instruction  # noqa: E402
from frontend.machine import Machine, read_machine  # noqa: E402
from memory import Memory  # noqa: E402

MACHINES = ("four", "eight")
# the library where it has been made, else the plain solver
LIBRARY = os.environ.get("MODSCHED_LIBRARY", os.path.join(solving.ROOT, "out", "libmodsched.so"))
HAS_LIBRARY = os.path.isfile(LIBRARY)
ROOM = tempfile.mkdtemp()
atexit.register(shutil.rmtree, ROOM, True)


@functools.cache
def machine(name: str) -> Machine:
    """One of the machines of the client."""
    return read_machine(os.path.join(CLIENT, "machines", f"{name}.toml"))


@functools.cache
def ir(path: str) -> str:
    """The IR of a C file."""
    return clang.to_ir(path)


def functions(path: str) -> list[tuple[str, Function | Exception]]:
    """The functions of a C file, read anew."""
    return reader.read_functions(ir(path))


@functools.cache
def document(path: str, name: str) -> dict[str, Any]:
    """The problems of a C file for a machine."""
    return problem.document(machine(name), *problem.problems_of(functions(path), machine(name), path))


@functools.cache
def solved(path: str, name: str) -> tuple[dict[str, Any], dict[str, Any]]:
    """The problems of a C file for a machine, and their solutions."""
    given = document(path, name)
    return given, solving.solved(solving.modsched.Library(LIBRARY), given) if HAS_LIBRARY else plain.solved(given)


def is_lawful(given: dict[str, Any], its: dict[str, Any], solution: dict[str, Any]) -> bool:
    """Whether plain Python finds a solution lawful, and the library too, where it is there."""
    return plain.is_lawful(given, its, solution) and (not HAS_LIBRARY or solving.is_lawful(solving.modsched.Library(LIBRARY), given, its, solution))


@functools.cache
def library(path: str) -> ctypes.CDLL:
    """A C file compiled for this machine."""
    to = os.path.join(ROOM, os.path.basename(path) + ".so")
    clang.to_library(path, to)
    return ctypes.CDLL(to)


def _globals(value, found: dict[str, Global]) -> None:
    if isinstance(value, Global) and value.size:
        found[value.name] = value
    for it in value.operands if isinstance(value, Instruction) and value.name[:1] != "%" else []:
        _globals(it, found)


def places(memory: Memory, native: ctypes.CDLL, function: Function) -> dict[str, int]:
    """Puts the global variables that a function uses into a memory, as the compiled file has them: their addresses."""
    found: dict[str, Global] = {}
    for block in function.blocks:
        for one in block.instructions:
            for it in one.operands:
                _globals(it, found)
    return {name: memory.add(bytes((ctypes.c_char * it.size).in_dll(native, name[1:]))) for name, it in found.items()}


def returned(function: Function) -> str:
    """The type of what a function returns, or an empty text."""
    for block in function.blocks:
        if block.last.opcode == "ret" and block.last.operands:
            return block.last.operands[0].type
    return ""
