"""Runs clang."""
from __future__ import annotations

import functools
import os
import re
import shutil
import subprocess
from typing import Sequence

from llvmlite import binding

# Loops stay as they are written: nothing is vectorized, unrolled, or made a call of memcpy or the like.
LEVEL = "-O2"
FLAGS = ["-gline-tables-only", "-fno-vectorize", "-fno-slp-vectorize", "-fno-unroll-loops", "-fno-discard-value-names"]
FLAGS += [f"-fno-builtin-{it}" for it in ("memcpy", "memmove", "memset", "memcmp", "bcmp", "strlen")]


class NoClang(Exception):
    """There is no clang, or it refuses a file: what is to be said of it."""


def command() -> str:
    """The path of clang: what CLANG says, else clang-14, else clang."""
    named = os.environ.get("CLANG")
    for name in [named] if named else ["clang-14", "clang"]:
        path = shutil.which(name)
        if path:
            return path
    raise NoClang(f"CLANG names {named}, which is not there" if named else "clang is not on the path: apt-get install clang-14, or name one by CLANG")


def flags_with(more: Sequence[str] = ()) -> list[str]:
    """The flags of clang, with some more. Levels of optimization stand first, since one that follows would turn vectorizing on."""
    levels = [it for it in more if it.startswith("-O")]
    return [LEVEL, *levels, *FLAGS, *(it for it in more if it not in levels)]


def run(arguments: list[str]) -> str:
    """What clang writes to its standard output."""
    done = subprocess.run([command(), *arguments], stdin=subprocess.DEVNULL, capture_output=True, encoding="utf-8", errors="replace")
    if done.returncode != 0:
        raise NoClang(f"clang refuses {arguments[-1]}:\n{done.stderr.strip()}")
    return done.stdout


@functools.cache
def version() -> int:
    """The first number of clang's version."""
    told = re.search(r"version (\d+)", run(["--version"]))
    if not told:
        raise NoClang(f"{command()} does not tell its version")
    return int(told[1])


def to_ir(path: str, flags: Sequence[str] = ()) -> str:
    """The LLVM IR of a C file, as text, compiled with some more flags. Raises NoClang where it would be newer than what llvmlite reads."""
    known = binding.llvm_version_info[0]
    if version() > known:
        raise NoClang(f"{command()} is of version {version()}, and llvmlite reads up to version {known}: apt-get install clang-{known}, or name one by CLANG")
    text = run([*flags_with(flags), "-S", "-emit-llvm", "-o", "-", path])
    if not text:
        raise NoClang(f"clang makes nothing of {path}: it is no C file" + (f", or {' '.join(flags)} keeps clang from it" if flags else ""))
    return text


def to_library(path: str, library: str) -> None:
    """Compiles a C file to a shared library, with the same optimizations."""
    run([*flags_with(), "-shared", "-fPIC", "-o", library, path])
