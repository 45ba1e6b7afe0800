"""Schedules of problems, made at random: they keep to all reads and orders, and to nothing else, so that operations meet in ways in which no solver lets them."""
from __future__ import annotations

import random
from typing import Any

import plain
from plain import plain_problems

ROOM = 24  # cycles by which an iteration may take longer than it has to


def without_registers(machine: dict[str, Any]) -> dict[str, Any]:
    """A machine whose values are allotted to no registers."""
    return {**machine, "files": [{"name": it["name"], "unallotted": True} for it in machine["files"]]}


def _chosen(chance: random.Random, is_store: bool, store_is_late: bool, low: int, high: int) -> int:
    """A time of an operation: stores at one end, all others at the other one, but now and then between."""
    if chance.random() < 0.2:
        return chance.randint(low, high)
    return high if is_store == store_is_late else low


def schedule(machine: dict[str, Any], problem: dict[str, Any], chance: random.Random) -> dict[str, Any]:
    """A solution for a machine without registers, whose operations are issued whether their units are taken or not."""
    it = plain.plain_problem(machine, problem)
    interval = plain_problems.recurrence_bound(it) + chance.randrange(2)
    walks = [[length if length is not None else -(1 << 30) for length in row] for row in plain_problems.longest(it, interval)]
    count = len(walks)
    last = max(0, *map(max, walks)) + chance.randrange(ROOM)
    low = [max(0, *[walks[one][op] for one in range(count)]) for op in range(count)]
    high = [last - max(0, *walks[op]) for op in range(count)]
    stores, store_is_late = [any(one["opcode"] == "store" for one in its["instructions"]) for its in problem["operations"]], chance.random() < 0.5
    for op in chance.sample(range(count), count):
        low[op] = high[op] = _chosen(chance, stores[op], store_is_late, low[op], high[op])
        for other in range(count):
            low[other] = max(low[other], low[op] + walks[op][other])
            high[other] = min(high[other], high[op] - walks[other][op])
    names = [its["name"] for its in problem["operations"]]
    return {
        "name": problem["name"], "interval": interval, "stages": max(low) // interval + 1, "times": dict(zip(names, low)),
        "alternatives": dict.fromkeys(names, 0), "numbers": {its["name"]: 0 for its in problem["values"]},
    }
