"""Faults of problems and breaks of schedules in words, with the names of the problem. Numbers are those of modsched.h."""
from __future__ import annotations

from typing import Mapping, Sequence

COUNTED = ("units", "register files", "kinds", "operations", "values", "reads", "orders")
RANGES = ("1 to 64", "0 to 8", "1 to 256", "1 to 128", "0 to 256", "0 to 2,048", "0 to 16,384")

# What is wrong, by the number of the kind of fault: what stands before it, and what is said of that. (2 and 3 are about names, which the library does not
# know.)
FAULTS = {
    4: ("file", "the registers are not 0 to 256"),
    5: ("kind", "the latency is not 1 to 64"),
    6: ("kind", "the alternatives are not 1 to 16"),
    7: ("alternative", "the holds are not 1 to 16"),
    8: ("hold", "no such unit"),
    9: ("hold", "the offset is not 0 to 63"),
    10: ("hold", "it is the same as one before it"),
    11: ("operation", "no such kind"),
    12: ("value", "no such operation to make it"),
    13: ("value", "it does not land 0 to 64 cycles after the issue"),
    14: ("value", "no such register file"),
    15: ("read", "no such value"),
    16: ("read", "no such operation to read it"),
    17: ("read", "the distance is not 0 to 16"),
    18: ("read", "the offset is not 0 to 63"),
    19: ("read", "at distance 0 the maker does not come before the reader"),
    20: ("order", "no such operation to come first"),
    21: ("order", "no such operation to wait"),
    22: ("order", "the delay is not -64 to 64"),
    23: ("order", "the distance is not 0 to 255"),
    24: ("order", "at distance 0 the first operation does not come before the second"),
}


def _cycles(count: int) -> str:
    return f"{count} cycle" if count == 1 else f"{count} cycles"


def fault_in_words(names: Mapping[str, Sequence[str]], kind: int, part: int, numbers: tuple[int, int, int]) -> str:
    """A fault, with the names of files, kinds, operations and values. Alternatives, holds, reads and orders have numbers, from 0."""
    first, second, third = numbers
    if kind == 1:
        return f"the {COUNTED[part - 1]} are {first}, not {RANGES[part - 1]}"
    where, what = FAULTS[kind]
    if where in ("read", "order"):
        return f"{where} {first}: {what}"
    if where in ("alternative", "hold"):
        place = f"kind {names['kind'][first]}, alternative {second}"
        return f"{place}, hold {third}: {what}" if where == "hold" else f"{place}: {what}"
    return f"{where} {names[where][first]}: {what}"


def break_in_words(names: Mapping[str, Sequence[str]], kind: int, numbers: Mapping[str, int]) -> str:
    """What a schedule breaks, with the names of units, files, operations and values."""

    def named(part: str, number: str) -> str:
        return names[part][numbers[number]]

    if kind == 1:
        return "the interval is not 1 to 16,384"
    if kind == 2:
        return "there is not one number for each value"
    if kind == 3:
        return f"value {named('value', 'value')}: its file has no register of this number"
    if kind == 4:
        return "there is not one time for each operation"
    if kind == 5:
        return f"operation {named('operation', 'operation')}: the time is not 0 to 1,048,575"
    if kind == 6:
        return f"operation {named('operation', 'operation')}: no such alternative"
    if kind == 7:
        operation, earlier = named("operation", "operation"), named("operation", "earlier")
        has = "it has already" if operation == earlier else f"operation {earlier} has"
        return f"operation {operation} takes unit {named('unit', 'unit')} at residue {numbers['residue']}, which {has}"
    if kind == 8:
        return f"operation {named('operation', 'to')} comes {_cycles(numbers['early'])} too early after operation {named('operation', 'first')}"
    if kind == 9:
        return f"operation {named('operation', 'operation')} is in stage 64 or later"
    value, other = named("value", "value"), named("value", "other")
    who = f"instances of value {value}" if value == other else f"values {other} and {value}"
    return f"{who} stand in one register of file {named('file', 'file')} in cycle {numbers['cycle']}"
