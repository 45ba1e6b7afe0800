"""Problems of problems.json for the plain Python solver, which shares no code with modsched."""
from __future__ import annotations

import json
import os
import sys
from typing import Any

ROOT = os.path.dirname(os.path.dirname(os.path.dirname(os.path.dirname(os.path.realpath(__file__)))))
sys.path.append(os.path.join(ROOT, "clients", "python", "tests"))
import plain_problems  # noqa: E402


def plain_problem(machine: dict[str, Any], problem: dict[str, Any], ratio: int = 6, ceiling: int = 64) -> plain_problems.Problem:
    """A problem by numbers."""
    def numbered(items: list[dict[str, Any]]) -> dict[str, int]:
        return {it["name"]: number for number, it in enumerate(items)}

    units = {it: number for number, it in enumerate(machine["units"])}
    files, kinds, operations, values = map(numbered, (machine["files"], machine["kinds"], problem["operations"], problem["values"]))
    return plain_problems.Problem(
        len(units), [it.get("rotating") for it in machine["files"]],
        [(it["latency"], [[(units[hold["unit"]], hold["offset"]) for hold in holds] for holds in it["alternatives"]]) for it in machine["kinds"]],
        [kinds[it["kind"]] for it in problem["operations"]],
        [(operations[it["maker"]], it["lands"], files[it["file"]], it["out"]) for it in problem["values"]],
        [(values[it["value"]], operations[it["reader"]], it["distance"], it["offset"]) for it in problem["reads"]],
        [(operations[it["from"]], operations[it["to"]], it["delay"], it["distance"]) for it in problem["edges"]],
        ratio, ceiling,
    )


def _numbers(problem: dict[str, Any], solution: dict[str, Any]) -> plain_problems.Solution:
    operations, values = [it["name"] for it in problem["operations"]], [it["name"] for it in problem["values"]]
    return plain_problems.Solution(
        solution["interval"], [solution["times"][it] for it in operations], [solution["alternatives"][it] for it in operations],
        [solution["numbers"][it] for it in values],
    )


def is_lawful(machine: dict[str, Any], problem: dict[str, Any], solution: dict[str, Any]) -> bool:
    """Whether a solution of solutions.json is lawful."""
    return plain_problems.is_lawful(plain_problem(machine, problem), _numbers(problem, solution))


def _goes_forward(it: plain_problems.Problem) -> bool:
    """Whether within an iteration all reads and orders go forward."""
    reads = all(distance or it.values[value][0] < reader for value, reader, distance, _ in it.reads)
    return reads and all(distance or one < other for one, other, _, distance in it.orders)


def solution(machine: dict[str, Any], problem: dict[str, Any]) -> dict[str, Any]:
    """The solution of a problem, or why there is none, as solutions.json has it."""
    it = plain_problem(machine, problem)
    if not _goes_forward(it):
        # (it would have no interval, and the plain solver looks for one without end)
        return {"name": problem["name"], "reason": "the problem is at fault: an iteration goes back"}
    found = plain_problems.solve(it)
    if not isinstance(found, plain_problems.Solution):
        return {"name": problem["name"], "reason": f"no interval up to {found[0]} works: {found[1]}"}
    operations, values = [it["name"] for it in problem["operations"]], [it["name"] for it in problem["values"]]
    return {
        "name": problem["name"], "interval": found.ii, "stages": max(found.times) // found.ii + 1,
        "resources": plain_problems.resource_bound(it), "recurrences": plain_problems.recurrence_bound(it), "times": dict(zip(operations, found.times)),
        "alternatives": dict(zip(operations, found.alternatives)), "numbers": dict(zip(values, found.numbers)),
    }


def solved(document: dict[str, Any]) -> dict[str, Any]:
    """What solutions.json has for a problems.json."""
    every = [solution(document["machine"], it) for it in document["problems"]]
    return {"machine": document["machine"]["name"], "solutions": [it for it in every if "interval" in it], "unsolved": [it for it in every if "reason" in it]}


if __name__ == "__main__":
    with open(sys.argv[1], encoding="utf-8") as given:
        print(json.dumps(solved(json.load(given)), indent=1))
