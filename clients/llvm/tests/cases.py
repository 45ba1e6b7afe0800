"""The corpus: C files with comments that say how each function is run and what is expected of its loops.

    /* run: n=T x=n+7 y=n | loads 3 stores 1 orders 2 open 1 */

stands before a function. For T iterations its argument n is T, and x points to n + 7 elements of random bytes (of a struct, to n + 7 bytes). `x=&y+3` points to the fourth element of what
y points to, `x=n:small` to numbers from 0 to 15, and floating-point numbers are multiples of 1/4. After the bar stand the loads, stores and orders of the
function's innermost loop, as they are counted by hand, and how many of the orders are open: those of accesses of which it is not known whether and when they
meet. `left out: REASON` is what is expected of a loop that gives no problem.
"""
from __future__ import annotations

import ctypes
import os
import random
import re
from dataclasses import dataclass

from frontend.ir import Argument, Function
from meaning import Number, bits_of, fitted, is_float, signed, to_bytes
from memory import Memory

CORPUS = os.path.join(os.path.dirname(os.path.dirname(os.path.realpath(__file__))), "corpus")
TRIPS = (1, 2, 3, 17, 100)
_CASE = re.compile(r"/\* (?:run: ([^|]*?))?(?: ?\| )?(loads[^*]*?|left out: [^*]*?)? \*/\n(?:static )?[\w ]+?\**(\w+)\(")


@dataclass(frozen=True)
class Case:
    """A function of the corpus. `counts`: loads, stores and orders, or None where it is left out; `reason` is then why. `open` of the orders are open."""

    file: str
    name: str
    arguments: dict[str, str]
    counts: tuple[int, int, int] | None
    open: int
    reason: str


def corpus_files() -> list[str]:
    """The paths of the C files of the corpus."""
    return [os.path.join(CORPUS, it) for it in sorted(os.listdir(CORPUS)) if it.endswith(".c")]


def cases_of(path: str) -> list[Case]:
    """The cases of a C file."""
    with open(path, encoding="utf-8") as it:
        text = it.read()
    found = []
    for run, expected, name in _CASE.findall(text):
        counts = re.fullmatch(r"loads (\d+) stores (\d+) orders (\d+)(?: open (\d+))?", expected)
        arguments = dict(it.split("=", 1) for it in run.split())
        if counts:
            found.append(Case(path, name, arguments, tuple(map(int, counts.groups()[:3])), int(counts[4] or 0), ""))
        else:
            found.append(Case(path, name, arguments, None, 0, expected.removeprefix("left out: ")))
    if text.count("/* run:") + text.count("/* left out:") != len(found):
        raise ValueError(f"{path}: a comment of a case is not read")
    return found


def _element(argument: Argument) -> str:
    """The type of what a pointer points to; a struct counts as bytes."""
    return "i8" if argument.type.startswith("%") else argument.type.removesuffix("*")


def _content(count: int, of: str, fill: str, chance: random.Random) -> bytes:
    if is_float(of):
        return b"".join(to_bytes(chance.randrange(-400, 400) / 4, of) for _ in range(count))
    if fill == "small":
        return b"".join(to_bytes(chance.randrange(16), of) for _ in range(count))
    return chance.randbytes(count * ((bits_of(of) + 7) // 8))


def _size(of: str) -> int:
    return {"float": 4, "double": 8}.get(of) or (bits_of(of) + 7) // 8


class Call:
    """The arguments of a call: pieces of memory by the names of arguments, and numbers."""

    def __init__(self, case: Case, function: Function, trip: int):
        names = {it.name.removeprefix("%"): it for it in function.arguments}
        if set(names) != set(case.arguments):
            raise ValueError(f"{case.name} has the arguments {sorted(names)}")
        self.function, self.pieces, self.inside, self.scalars = function, {}, {}, {"T": trip}
        chance = random.Random(f"{case.name} {trip}")
        for name, text in case.arguments.items():
            of = names[name]
            if text.startswith("&"):
                other, _, places = text[1:].partition("+")
                self.inside[name] = (other, int(places or 0) * _size(_element(of)))
            elif of.type.endswith("*"):
                size, _, fill = text.partition(":")
                self.pieces[name] = _content(eval(size, {}, self.scalars), _element(of), fill, chance)
            else:
                self.scalars[name] = eval(text, {}, self.scalars)

    def simulated(self, memory: Memory) -> list[Number]:
        """Puts the pieces into a memory: the arguments."""
        places = {name: memory.add(it) for name, it in self.pieces.items()}
        return [self._argument(it, places) for it in self.function.arguments]

    def _argument(self, argument: Argument, places: dict[str, int]) -> Number:
        name = argument.name.removeprefix("%")
        if name in self.inside:
            other, at = self.inside[name]
            return places[other] + at
        return places[name] if name in places else fitted(self.scalars[name], argument.type)

    def native(self, library: ctypes.CDLL, returned: str) -> tuple[Number | None, list[bytes]]:
        """Calls the compiled function: what it returns, and the pieces after it."""
        buffers = {name: ctypes.create_string_buffer(it, max(1, len(it))) for name, it in self.pieces.items()}
        places = {name: ctypes.addressof(it) for name, it in buffers.items()}
        function = library[self.function.name]
        types = {"float": ctypes.c_float, "double": ctypes.c_double, "i64": ctypes.c_uint64, "i32": ctypes.c_uint32, "i16": ctypes.c_uint16, "i8": ctypes.c_uint8}
        function.restype = types.get(returned)
        function.argtypes = [types.get(it.type, ctypes.c_void_p) for it in self.function.arguments]
        result = function(*[self._argument(it, places) for it in self.function.arguments])
        return result, [it.raw[: len(self.pieces[name])] for name, it in buffers.items()]


def shown(number: Number | None, of: str) -> Number | None:
    """A number for a message."""
    return number if number is None or is_float(of) else signed(int(number), of)
