"""Machine files: what a machine issues, read from TOML (docs/MACHINE_FILES.md)."""
from __future__ import annotations

import re
import tomllib
from dataclasses import dataclass, field
from typing import Any, Callable

from .ir import Instruction
from .patterns import BadTerm, Match, Term, match, parse


MOST_SCALE = 1 << 32


class BadMachine(Exception):
    """What is wrong with a machine file."""


@dataclass(frozen=True)
class Kind:
    """A kind of operations. `offsets`: how many cycles after the issue an operand is read, by its leaf; `guard` is the condition of a store."""

    name: str
    terms: tuple[Term, ...]
    latency: int
    alternatives: tuple[tuple[tuple[str, int], ...], ...]
    file: str
    offsets: dict[str, int]


@dataclass
class Machine:
    """A machine. The files are numbers of rotating registers, or 0 for one whose values are allotted to none."""

    name: str
    units: list[str]
    files: dict[str, int]
    kinds: dict[str, Kind]
    has_counter: bool
    folds_affine: bool
    scales: list[int]
    free: list[Term] = field(default_factory=list)
    lacks: list[Term] = field(default_factory=list)

    def __post_init__(self):
        pairs = [(term, kind) for kind in self.kinds.values() for term in kind.terms]
        # what is more particular comes first: more instructions, then more types
        self._terms = sorted(pairs, key=lambda it: (-it[0].instructions, -it[0].types))

    def matches(self, one: Instruction, is_inner: Callable[[Instruction], bool]) -> list[tuple[Kind, Match]]:
        """The kinds that an instruction can be issued as, with what they take along, the most particular first."""
        if any(match(term, one, lambda it: False) for term in self.lacks):
            return []
        found = [(kind, match(term, one, is_inner)) for term, kind in self._terms]
        default = self.kinds.get("default")
        if default is not None and not one.opcode.startswith("llvm."):
            found.append((default, match(Term(one.opcode, "", None), one, is_inner)))
        return [(kind, it) for kind, it in found if it is not None]

    def is_free(self, one: Instruction) -> bool:
        """Whether an instruction costs nothing: whoever reads its result reads its operand."""
        return any(match(term, one, lambda it: False) for term in self.free)


def _checked(value: Any, of: type, what: str) -> Any:
    if not isinstance(value, of) or isinstance(value, bool) and of is int:
        raise BadMachine(f"{what} is not of the type {of.__name__}")
    return value


def _needed(table: dict, key: str, of: type, what: str) -> Any:
    if key not in table:
        raise BadMachine(f"{what} is missing")
    return _checked(table[key], of, what)


def _within(value: Any, least: int, most: int, what: str) -> int:
    """A number that is in the range of texts of problems."""
    if not least <= _checked(value, int, what) <= most:
        raise BadMachine(f"{what} is {value}, and not {least} to {most}")
    return value


def _listed(values: list, most: int, what: str) -> list:
    """A list with 1 to `most` values, all different."""
    _within(len(values), 1, most, f"the number of {what}")
    for place, it in enumerate(values):
        if it in values[:place]:
            raise BadMachine(f"{what}: {it if isinstance(it, str) else '@'.join(map(str, it))} is there twice")
    return values


def _named(name: Any, what: str, without: str = "#") -> str:
    """A name as texts of problems take it."""
    text = _checked(name, str, what)
    if not 0 < len(text) <= 64 or any(not "!" <= it <= "~" or it in without for it in text):
        raise BadMachine(f"{what}: {text!r} is no name of 1 to 64 bytes without blanks and {without}")
    return text


def _hold(text: Any, units: list[str], what: str) -> tuple[str, int]:
    unit, sign, offset = _checked(text, str, what).partition("@")
    if unit not in units or sign and not re.fullmatch("[0-9]{1,9}", offset):
        raise BadMachine(f"{what}: {text} is no unit, nor one with an offset")
    return unit, _within(int(offset or 0), 0, 63, f"{what}: the offset of {text}")


def _terms(table: dict, key: str, what: str) -> tuple[Term, ...]:
    try:
        return tuple(parse(_checked(it, str, f"{what}.{key}")) for it in _checked(table.get(key, []), list, f"{what}.{key}"))
    except BadTerm as bad:
        raise BadMachine(f"{what}.{key}: {bad}") from bad


def _single_terms(table: dict, key: str) -> list[Term]:
    """The terms of free or lacks."""
    found = list(_terms(table, key, "machine"))
    for text, term in zip(table.get(key, []), found):
        if term.instructions > 1:
            raise BadMachine(f"machine.{key}: {text} has {term.instructions} instructions, and not one")
        if key == "free" and term.opcode in ("load", "store", "br", "copy"):
            raise BadMachine(f"machine.{key}: {term.opcode} is never free")
    return found


def _offsets(table: dict, terms: tuple[Term, ...], latency: int, name: str) -> dict[str, int]:
    """The offsets of a kind. Those of the kind `default` may have any letter."""
    what = f"kinds.{name}.offsets"
    offsets = _checked(table.get("offsets", {}), dict, what)
    letters = [it.letters for it in terms]
    for leaf, offset in offsets.items():
        if not re.fullmatch("[a-z]|guard", leaf):
            raise BadMachine(f"{what}: {leaf} is no letter, nor guard")
        if not 0 <= _checked(offset, int, f"{what}.{leaf}") < latency:
            raise BadMachine(f"{what}.{leaf} is not from 0 to below the latency")
        if leaf == "guard" and name != "default" and not any(it.opcode == "store" for it in terms):
            raise BadMachine(f"{what}: guard is for stores, and kinds.{name}.of has none")
        if leaf != "guard" and name != "default" and not any(it is None or leaf in it for it in letters):
            raise BadMachine(f"{what}: {leaf} is in no term of kinds.{name}.of")
    return offsets


def _refuse_twice(tables: dict[str, tuple[Term, ...] | list[Term]]) -> None:
    """Raises BadMachine where a term is there twice, so that the second one is for nothing. The tables are named by their keys."""
    seen: dict[Term, str] = {}
    for key, terms in tables.items():
        for term in terms:
            if term in seen:
                raise BadMachine(f"{key}: {term} is there twice" if seen[term] == key else f"{key}: {term} is in {seen[term]} too")
            seen[term] = key


def _alternatives(table: dict, units: list[str], what: str) -> tuple[tuple[tuple[str, int], ...], ...]:
    alternatives = []
    for holds in _needed(table, "alternatives", list, f"{what}.alternatives"):
        found = [_hold(it, units, f"{what}.alternatives") for it in _checked(holds, list, f"an alternative of {what}")]
        alternatives.append(tuple(_listed(found, 16, f"holds of an alternative of {what}")))
    _within(len(alternatives), 1, 16, f"the number of {what}.alternatives")
    return tuple(alternatives)


def _kind(name: str, table: Any, units: list[str], files: dict[str, int]) -> Kind:
    what = f"kinds.{_named(name, 'kinds')}"
    unknown = set(_checked(table, dict, what)) - {"of", "latency", "alternatives", "file", "offsets"}
    if unknown:
        raise BadMachine(f"{what}: {min(unknown)} is no key of a kind")
    alternatives = _alternatives(table, units, what)
    file = _checked(table.get("file", next(iter(files))), str, f"{what}.file")
    if file not in files:
        raise BadMachine(f"{what}: there is no file {file}")
    latency = _within(_needed(table, "latency", int, f"{what}.latency"), 1, 64, f"{what}.latency")
    terms = _terms(table, "of", what)
    return Kind(name, terms, latency, alternatives, file, _offsets(table, terms, latency, name))


def _files(table: dict) -> dict[str, int]:
    found = {}
    for name, registers in _needed(table, "files", dict, "files").items():
        if isinstance(registers, str) and registers != "unallotted":
            raise BadMachine(f'files.{name} is {registers!r}, and neither a number of registers nor "unallotted"')
        found[_named(name, "files")] = 0 if registers == "unallotted" else _within(registers, 1, 256, f"files.{name}")
    _within(len(found), 1, 8, "the number of files")
    return found


def machine_of(text: str) -> Machine:
    """The machine that a text describes. Raises BadMachine."""
    try:
        table = tomllib.loads(text)
    except tomllib.TOMLDecodeError as bad:
        raise BadMachine(str(bad)) from bad
    except RecursionError as deep:
        raise BadMachine("its tables or lists are too deep in one another") from deep
    unknown = set(table) - {"name", "units", "files", "kinds", "counter", "addresses", "free", "lacks"}
    if unknown:
        raise BadMachine(f"{min(unknown)} is no key of a machine")
    units, files = _listed([_named(it, "units", "#@|") for it in _needed(table, "units", list, "units")], 64, "units"), _files(table)
    kinds = {name: _kind(name, it, units, files) for name, it in _needed(table, "kinds", dict, "kinds").items()}
    _within(len(kinds), 0, 256, "the number of kinds")
    addresses = _checked(table.get("addresses", {}), dict, "addresses")
    if set(addresses) - {"affine", "scales"}:
        raise BadMachine(f"{min(set(addresses) - {'affine', 'scales'})} is no key of addresses")
    scales = [_within(it, 1, MOST_SCALE, "one of addresses.scales") for it in _checked(addresses.get("scales", []), list, "addresses.scales")]
    free, lacks = (_single_terms(table, it) for it in ("free", "lacks"))
    of = {f"kinds.{name}.of": it.terms for name, it in kinds.items()}
    _refuse_twice({"machine.free": free, "machine.lacks": lacks})
    _refuse_twice({"machine.lacks": lacks, **of})
    return Machine(
        _named(_needed(table, "name", str, "name"), "name"), units, files, kinds, _checked(table.get("counter", False), bool, "counter"),
        _checked(addresses.get("affine", False), bool, "addresses.affine"), scales, free, lacks,
    )


def read_machine(path: str) -> Machine:
    """The machine of a file. Raises BadMachine, or OSError."""
    try:
        with open(path, encoding="utf-8") as it:
            return machine_of(it.read())
    except (BadMachine, UnicodeDecodeError) as bad:
        raise BadMachine(f"{path}: {bad}") from bad
