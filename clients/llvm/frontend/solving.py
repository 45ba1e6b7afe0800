"""Problems of problems.json solved by the library: its answers as solutions.json has them."""
from __future__ import annotations

import os
import sys
from typing import Any

ROOT = os.path.dirname(os.path.dirname(os.path.dirname(os.path.dirname(os.path.realpath(__file__)))))
sys.path.append(os.path.join(ROOT, "clients", "python"))
import modsched  # noqa: E402

FAULT = "the problem is at fault"


def library_beside() -> str:
    """The library that ./x library has made, else the one of this archive, else the name by which the system finds one."""
    paths = [os.path.join(ROOT, it, "libmodsched.so") for it in ("out", "lib")]
    return next((it for it in paths if os.path.isfile(it)), modsched.SHARED)


def library_problem(machine: dict[str, Any], problem: dict[str, Any]) -> modsched.Problem:
    """A problem as the library's client has it."""
    it = modsched.Problem()
    for unit in machine["units"]:
        it.unit(unit)
    for file in machine["files"]:
        it.file(file["name"], file.get("rotating", 0))
    for kind in machine["kinds"]:
        it.kind(kind["name"], kind["latency"], [[(hold["unit"], hold["offset"]) for hold in holds] for holds in kind["alternatives"]])
    for operation in problem["operations"]:
        it.operation(operation["name"], operation["kind"])
    for value in problem["values"]:
        it.value(value["name"], value["maker"], value["lands"], value["file"], value["out"])
    for read in problem["reads"]:
        it.read(read["value"], read["reader"], read["distance"], read["offset"])
    for edge in problem["edges"]:
        it.order(edge["from"], edge["to"], edge["delay"], edge["distance"])
    return it


def solution(library: modsched.Library, machine: dict[str, Any], problem: dict[str, Any], ratio: int, ceiling: int) -> dict[str, Any]:
    """The solution of a problem, or why there is none."""
    try:
        found = library.solve(library_problem(machine, problem), ratio, ceiling)
    except modsched.NoInterval as none:
        return {"name": problem["name"], "reason": str(none)}
    except modsched.AtFault as fault:
        return {"name": problem["name"], "reason": f"{FAULT}: {fault}"}
    return {
        "name": problem["name"], "interval": found.interval, "stages": found.stages, "resources": found.resources, "recurrences": found.recurrences,
        "times": found.times, "alternatives": found.alternatives, "numbers": found.numbers,
    }


def solved(library: modsched.Library, document: dict[str, Any], ratio: int = 6, ceiling: int = 64) -> dict[str, Any]:
    """What solutions.json has for a problems.json."""
    every = [solution(library, document["machine"], it, ratio, ceiling) for it in document["problems"]]
    return {"machine": document["machine"]["name"], "solutions": [it for it in every if "interval" in it], "unsolved": [it for it in every if "reason" in it]}


def is_lawful(library: modsched.Library, machine: dict[str, Any], problem: dict[str, Any], found: dict[str, Any]) -> bool:
    """Whether the library finds a solution lawful, whoever made it."""
    schedule = modsched.Schedule(
        found["interval"], found["stages"], found["resources"], found["recurrences"], found["times"], found["alternatives"], found["numbers"],
    )
    try:
        return library.check(library_problem(machine, problem), schedule) == found["stages"]
    except modsched.Broken:
        return False
