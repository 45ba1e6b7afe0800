"""Terms of a machine file, which say which instructions a kind of operations is for.

    term    = leaf | opcode [":" type] ["(" term {"," term} ")"]
    leaf    = one small letter [":" type]

`mul:i32` is any multiplication of that type, `zext:i32(load:i8)` a load of a byte whose value is made longer, and `add(mul(a,b),c)` an addition one of whose
operands is a product. Operands without a term are leaves, which are named a, b, c in order.
"""
from __future__ import annotations

import re
from dataclasses import dataclass
from typing import Callable

from . import llvm
from .ir import Instruction, Value

# How many operands the instructions have that a term may name. Those of getelementptr and of intrinsics have several numbers of them.
OPERANDS = dict.fromkeys("add sub mul udiv sdiv urem srem shl lshr ashr and or xor fadd fsub fmul fdiv frem icmp fcmp store".split(), 2)
OPERANDS |= dict.fromkeys("fneg freeze trunc zext sext fptrunc fpext fptoui fptosi uitofp sitofp ptrtoint inttoptr bitcast addrspacecast load br copy".split(), 1)
OPERANDS |= {"select": 3}
TYPE = r"(i[1-9]\d*|half|bfloat|float|double|fp128|x86_fp80|ppc_fp128)\**"
MOST_BRACKETS = 16  # of a term
# Their first two operands may change places.
COMMUTE = {"add", "mul", "and", "or", "xor", "fadd", "fmul", "llvm.smax", "llvm.smin", "llvm.umax", "llvm.umin", "llvm.sadd.sat", "llvm.uadd.sat"}


class BadTerm(Exception):
    """A term that can't be read, or that nothing matches: which, and why."""


@dataclass(frozen=True)
class Term:
    """An instruction with terms for its operands, or a leaf, which has no opcode but a name."""

    opcode: str
    type: str
    operands: tuple["Term", ...] | None
    name: str = ""

    def __str__(self) -> str:
        of = f":{self.type}" if self.type else ""
        return (self.name or self.opcode) + of + ("" if self.operands is None else f"({','.join(map(str, self.operands))})")

    @property
    def instructions(self) -> int:
        """How many instructions a match has."""
        return 0 if self.name else 1 + sum(it.instructions for it in self.operands or ())

    @property
    def letters(self) -> str | None:
        """The letters of its operands, each as often as it is there; None where it is not known how many it has."""
        if self.name:
            return self.name
        if self.operands is None and self.opcode not in OPERANDS:
            return None
        listed = [it.letters for it in self.operands or ()]
        if None in listed:
            return None
        return "".join(listed) + "".join(chr(ord("a") + it) for it in range(len(listed), OPERANDS.get(self.opcode, len(listed))))

    @property
    def types(self) -> int:
        """How many types it requires."""
        return bool(self.type) + sum(it.types for it in self.operands or ())


@dataclass(frozen=True)
class Match:
    """The instructions of a match, the last one its result, and what stands at the leaves, as pairs of an instruction and a place of its operands."""

    instructions: tuple[Instruction, ...]
    leaves: tuple[tuple[str, Instruction, int], ...]


def parse(text: str) -> Term:
    """The term of a text. Raises BadTerm."""
    if text.count("(") > MOST_BRACKETS:
        raise BadTerm(f"{text[:MOST_BRACKETS]}.. has more than {MOST_BRACKETS} brackets")
    term, rest = _term(re.findall(r"[\w.*]+|\S", text), text)
    letters = _letters(term)
    if rest or term.name or len(set(letters)) < len(letters):
        raise BadTerm(f"{text} is no term")
    _refuse_unmatched(term, text)
    if sum(_accesses(term)) > 1:
        raise BadTerm(f"{text} has more than one load or store")
    return term


def _letters(term: Term) -> list[str]:
    """The letters of a term, each as often as it is there. One that stood for two operands would not make them equal."""
    return [term.name] if term.name else [name for it in term.operands or () for name in _letters(it)]


def _accesses(term: Term) -> list[bool]:
    """Of each instruction of a term whether it is a load or store."""
    return [term.opcode in ("load", "store"), *(it for one in term.operands or () for it in _accesses(one))]


def _refuse_unmatched(term: Term, text: str, is_inner: bool = False) -> None:
    """Raises BadTerm for a term that no instruction matches."""
    if term.type and not re.fullmatch(TYPE, term.type):
        raise BadTerm(f"{text}: {term.type} is no type of a number")
    if term.name:
        return
    if term.opcode not in OPERANDS and term.opcode != "getelementptr" and not llvm.is_intrinsic(term.opcode):
        raise BadTerm(f"{'' if text == term.opcode else f'{text}: '}{term.opcode} is no opcode of an operation")
    if len(term.operands or ()) > OPERANDS.get(term.opcode, len(term.operands or ())):
        raise BadTerm(f"{text}: {term.opcode} has {len(term.operands)} operands, and not {OPERANDS[term.opcode]}")
    if is_inner and term.opcode in ("store", "br", "copy"):
        raise BadTerm(f"{text}: {term.opcode} gives no operand of an instruction")
    if term.opcode == "br" and term.type:
        raise BadTerm(f"{text}: {term.opcode} has no type")
    for it in term.operands or ():
        _refuse_unmatched(it, text, True)


def _term(words: list[str], text: str) -> tuple[Term, list[str]]:
    if not words or not re.match(r"[\w.]", words[0]):
        raise BadTerm(f"{text} is no term")
    word, rest, of, operands = words[0], words[1:], "", None
    if rest[:1] == [":"]:
        if len(rest) < 2:
            raise BadTerm(f"{text} is no term")
        of, rest = rest[1], rest[2:]
    if rest[:1] == ["("]:
        found = []
        while rest[:1] != [")"]:
            if rest[:1] not in (["("], [","]):
                raise BadTerm(f"{text} is no term")
            term, rest = _term(rest[1:], text)
            found.append(term)
        operands, rest = tuple(found), rest[1:]
    if re.fullmatch("[a-z]", word):
        if operands is not None:
            raise BadTerm(f"{text} is no term")
        return Term("", of, None, word), rest
    return Term(word, of, operands), rest


def match(term: Term, root: Instruction, is_inner: Callable[[Instruction], bool]) -> Match | None:
    """How a term matches at an instruction, if it does. `is_inner` says of each other instruction whether it may be part of a match."""
    return _match(term, root, lambda it: it is root or is_inner(it))


def type_of(one: Instruction) -> str:
    """The type that a term names: of a store, that of what is stored, and of a comparison that of what is compared."""
    return one.operands[0].type if one.opcode in ("store", "icmp", "fcmp") else one.type


def _match(term: Term, one: Value, is_part: Callable[[Instruction], bool]) -> Match | None:
    if not isinstance(one, Instruction) or one.opcode != term.opcode or not is_part(one) or term.type not in ("", type_of(one)):
        return None
    if term.operands is None:
        return Match((one,), tuple((chr(ord("a") + place), one, place) for place in range(len(one.operands))))
    if len(term.operands) > len(one.operands):
        return None
    orders = [list(range(len(one.operands)))]
    if term.opcode in COMMUTE:
        orders.append([1, 0, *orders[0][2:]])
    for order in orders:
        found = _match_operands(term.operands, one, order, is_part)
        if found is not None:
            return Match((*found.instructions, one), found.leaves)
    return None


def _match_operands(terms: tuple[Term, ...], one: Instruction, order: list[int], is_part: Callable[[Instruction], bool]) -> Match | None:
    instructions: tuple[Instruction, ...] = ()
    leaves: list[tuple[str, Instruction, int]] = []
    for place, term in zip(order, terms):
        operand = one.operands[place]
        if term.name:
            if term.type not in ("", operand.type):
                return None
            leaves.append((term.name, one, place))
            continue
        found = _match(term, operand, is_part)
        if found is None or set(found.instructions) & set(instructions):
            return None
        instructions += found.instructions
        leaves += found.leaves
    leaves += [(chr(ord("a") + number), one, order[number]) for number in range(len(terms), len(one.operands))]
    return Match(instructions, tuple(leaves))
