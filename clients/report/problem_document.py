"""Joins a text of scheduling problems and what `solve` prints of it into the one document that the page shows. README.md has its format."""
from __future__ import annotations

from typing import Any

from document import VERSION, Mismatch
from problem_texts import Fault, Named, read_problems
from solve_lines import Failure, Solution, Solved, read_solve


def _edges(named: Named) -> list[dict[str, Any]]:
    """The reads in order, and then the orders."""
    problem, edges = named.problem, []
    for value, reader, distance, offset in problem.reads:
        maker, lands, _, _ = problem.values[value]
        edges.append({"delay": lands - offset, "distance": distance, "from": maker, "kind": "value", "to": reader, "value": value})
    for one, other, delay, distance in problem.orders:
        edges.append({"delay": delay, "distance": distance, "from": one, "kind": "order", "to": other})
    return edges


def _on_circuit(steps: list[list[int]], edges: list[dict[str, Any]], sums: tuple[int, int]) -> list[int] | None:
    """One edge of each step, so that their delays and distances have these sums."""
    found: dict[tuple[int, int], list[int]] = {(0, 0): []}
    for step in steps:
        further: dict[tuple[int, int], list[int]] = {}
        for (delay, distance), before in found.items():
            for at in step:
                further.setdefault((delay + edges[at]["delay"], distance + edges[at]["distance"]), [*before, at])
        found = further
    return found.get(sums)


def _circuit(solved: Solved, edges: list[dict[str, Any]]) -> dict[str, Any] | None:
    """The edges of the circuit, of which the line tells the operations and the sums. Of edges between the same two operations those that are the longest at
    an interval one cycle too short are tried first."""
    if solved.circuit is None:
        return None
    stops, *sums = solved.circuit
    short = solved.bounds.recurrences - 1
    between: dict[tuple[int, int], dict[tuple[int, int], int]] = {}
    for at, edge in enumerate(edges):
        between.setdefault((edge["from"], edge["to"]), {}).setdefault((edge["delay"], edge["distance"]), at)
    every = [list(between.get(pair, {}).values()) for pair in zip(stops, stops[1:] + stops[:1])]
    length = {at: edges[at]["delay"] - short * edges[at]["distance"] for step in every for at in step}
    longest = [[at for at in step if length[at] == max(map(length.get, step))] for step in every]
    found = _on_circuit(longest, edges, (sums[0], sums[1])) or _on_circuit(every, edges, (sums[0], sums[1]))
    if found is None:
        raise Mismatch(solved.bounds.name, "solve tells of a circuit that the problem has not")
    return {"delay": sums[0], "distance": sums[1], "edges": found, "needs": solved.bounds.recurrences}


def _operations(named: Named, solution: Solution | None) -> list[dict[str, Any]]:
    told = []
    for place, (name, kind) in enumerate(zip(named.operations, named.problem.operations)):
        it: dict[str, Any] = {"kind": named.kinds[kind], "latency": named.problem.kinds[kind][0], "name": name}
        if solution is not None:
            issued = solution.operations[place]
            it |= {"alternative": issued.alternative, "time": issued.time, "row": issued.time % solution.ii, "stage": issued.time // solution.ii}
            it |= {"reads": issued.reads, "writes": issued.writes}
        told.append(it)
    return told


def _file(named: Named, solution: Solution, file: int) -> dict[str, Any]:
    """How many instances of a file's values live in each row, once the loop runs on and on."""
    live = [0] * solution.ii
    for it, (_, _, of, _) in zip(solution.values, named.problem.values):
        for row in range(solution.ii) if of == file else ():
            live[row] += (it.last - row) // solution.ii - (it.first - 1 - row) // solution.ii
    if max(live) != solution.max_live[file]:
        raise Mismatch(named.name, f"solve tells of another max_live of {named.files[file]} than its live ranges come to")
    return {"live": live, "max_live": max(live)}


def _slots(named: Named, solution: Solution) -> list[tuple[int, int, int]]:
    """What is held, as (row, unit of the machine, operation), in ascending order."""
    slots = []
    for place, (kind, it) in enumerate(zip(named.problem.operations, solution.operations)):
        for unit, offset in named.problem.kinds[kind][1][it.alternative]:
            slots.append(((it.time + offset) % solution.ii, unit, place))
    if len({slot[:2] for slot in slots}) < len(slots):
        raise Mismatch(named.name, "two operations hold one unit in one row")
    return sorted(slots)


def _held_by(solved: Solved, ii: int) -> str:
    if ii > solved.bounds.mii:
        return "neither"
    if ii == 1:
        # (`solve` tells of no circuit then, and there may be none)
        return "one cycle"
    sign = (solved.bounds.resources > solved.bounds.recurrences) - (solved.bounds.resources < solved.bounds.recurrences)
    return ["both", "units", "recurrences"][sign]


def _kernel(named: Named, solved: Solved, solution: Solution) -> dict[str, Any]:
    slots = _slots(named, solution)
    taken = sorted({unit for _, unit, _ in slots})
    values = []
    for it in solution.values:
        held = {"copies": it.copies} if it.register is None else {"register": it.register}
        values.append({"first": it.first, "last": it.last} | held)
    kernel = {
        "files": [_file(named, solution, it) for it in range(len(named.files))],
        "held_by": _held_by(solved, solution.ii),
        "idle_units": len(named.units) - len(taken),
        "ii": solution.ii,
        "initial": [{"distance": it.distance, "register": it.register, "value": it.value} for it in solution.initial],
        "slots": [{"operation": place, "row": row, "unit": taken.index(unit)} for row, unit, place in slots],
        "stages": solution.stages,
        "units": [named.units[it] for it in taken],
        "values": values,
    }
    return kernel if solution.unroll is None else kernel | {"unroll": solution.unroll}


def _evidence(failure: Failure) -> dict[str, Any]:
    """In the form of a loop's tried interval."""
    told: dict[str, Any] = {"interval": failure.interval, "operations": failure.operations, "outcome": failure.cause}
    if failure.time is not None:
        told["time"] = failure.time
    return told if failure.file is None else told | {"file": failure.file, "value": failure.value}


def _problem(named: Named, solved: Solved) -> dict[str, Any]:
    result, edges = solved.result, _edges(named)
    solution = result if isinstance(result, Solution) else None
    problem: dict[str, Any] = {
        "circuit": _circuit(solved, edges),
        "edges": edges,
        "files": [{"name": name, "registers": registers} for name, registers in zip(named.files, named.problem.files)],
        "mii": solved.bounds.mii,
        "name": named.name,
        "operations": _operations(named, solution),
        "recurrences": solved.bounds.recurrences,
        "resources": solved.bounds.resources,
        "units": [{"full": at in solved.full, "name": name} for at, name in enumerate(named.units)],
        "values": [
            {"file": file, "lands": lands, "name": name, "operation": maker, "out": out}
            for name, (maker, lands, file, out) in zip(named.values, named.problem.values)
        ],
    }
    if isinstance(result, Failure):
        return problem | {"cause": result.cause, "evidence": _evidence(result), "failed_to": result.interval}
    return problem | {"kernel": _kernel(named, solved, result)}


def join_problems(text: bytes, printed: str) -> dict[str, Any]:
    """The document of a text of problems and of what `solve` printed of it."""
    try:
        named = read_problems(text)
    except Fault as fault:
        raise Mismatch("problems", f"{fault}, and solve takes it") from fault
    problems = [_problem(*of_one) for of_one in zip(named, read_solve(printed, named))]
    met = sum("kernel" in it for it in problems)
    return {"failed": len(problems) - met, "met": met, "problems": problems, "version": VERSION}
