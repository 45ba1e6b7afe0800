"""Joins what `edges`, `explain` and `json` print into the one document that the page shows. README.md has its format."""
from __future__ import annotations

import json
from typing import Any

from lines import Explained, Graph, Grid, Try, UnitUse

VERSION = 1


class Mismatch(Exception):
    """The commands do not tell the same of a loop, or `json` has no such document: the loop's name, or `json`, and why."""

    def __init__(self, where: str, why: str):
        super().__init__(f"{where}: {why}")
        self.where, self.why = where, why


class Names:
    """The operations of a loop by their names. Only stores may share a name: those that write the same cell."""

    def __init__(self, graph: Graph):
        self.loop = graph.bounds.name
        self.places: dict[str, list[int]] = {}
        for place, operation in enumerate(graph.operations):
            self.places.setdefault(operation.name, []).append(place)

    def all_of(self, name: str) -> list[int]:
        """All operations of a name, of which there is one at least."""
        if name not in self.places:
            raise Mismatch(self.loop, f"explain tells of an operation {name}, and edges does not")
        return self.places[name]

    def in_order(self, names: list[str] | tuple[str, ...]) -> list[int]:
        """The operations of names that are told in the order of the loop: of several the first after those before it."""
        found: list[int] = []
        for name in names:
            behind = [it for it in self.all_of(name) if not found or it > found[-1]]
            if not behind:
                raise Mismatch(self.loop, f"explain tells of {name} out of order")
            found.append(behind[0])
        return found


def _use(unit: UnitUse, names: Names) -> dict[str, Any]:
    operations = names.in_order([name for name, _ in unit.users])
    users = [{"operation": place, "uses": uses} for place, (_, uses) in zip(operations, unit.users)]
    return {"full": unit.is_full, "name": unit.name, "users": users, "uses": unit.uses}


def _circuit(explained: Explained, graph: Graph) -> dict[str, Any] | None:
    circuit = explained.circuit
    if circuit is None:
        return None
    for edge in circuit.edges:
        if edge not in graph.edges:
            raise Mismatch(graph.bounds.name, f"explain tells of an edge {edge}, and edges does not")
    edges = [graph.edges.index(edge) for edge in circuit.edges]
    return {"delay": circuit.delay, "distance": circuit.distance, "edges": edges, "needs": circuit.needs}


def _tried(it: Try, names: Names) -> dict[str, Any]:
    told: dict[str, Any] = {"interval": it.interval, "outcome": it.outcome}
    if it.outcome == "kernel":
        told["stages"] = it.numbers[0]
        return told
    told["operations"] = names.in_order(it.names)
    if it.outcome == "stages":
        told["time"] = it.numbers[0]
    elif it.outcome == "registers":
        told["first"], told["last"] = it.numbers
    return told


def _holder(name: str, stage: int, row: int, names: Names, kernel: dict[str, Any]) -> int:
    """The operation that takes a slot. Of several stores with one name and stage it is the one that was issued last before it."""
    operations = kernel["operations"]
    there = [it for it in names.all_of(name) if operations[it]["stage"] == stage]
    if not there:
        raise Mismatch(names.loop, f"explain has {name} in stage {stage}, and json does not")
    return min(there, key=lambda it: (row - operations[it]["row"]) % kernel["ii"])


def _kernel(explained: Explained, grid: Grid, names: Names, kernel: dict[str, Any]) -> dict[str, Any]:
    slots = [
        {"operation": _holder(name, stage, row, names, kernel), "row": row, "unit": unit}
        for row, taken in enumerate(grid.rows)
        for unit, name, stage in taken
    ]
    values = [
        {"first": it.first, "last": it.last, "operation": names.all_of(it.name)[0], "register": it.register} for it in explained.values
    ]
    return {
        "held_by": explained.held,
        "idle_units": grid.idle,
        "ii": kernel["ii"],
        "live": grid.live,
        "max_live": max(grid.live),
        "registers": kernel["registers"],
        "slots": slots,
        "stages": kernel["stages"],
        "units": grid.units,
        "values": values,
    }


def _operations(graph: Graph, kernel: dict[str, Any] | None) -> list[dict[str, Any]]:
    told = [{"height": it.height, "latency": it.latency, "name": it.name, "opcode": it.opcode} for it in graph.operations]
    if kernel is None:
        return told
    if [(it.opcode, it.latency) for it in graph.operations] != [(it["opcode"], it["latency"]) for it in kernel["operations"]]:
        raise Mismatch(graph.bounds.name, "json has other operations than edges")
    for operation, issued in zip(told, kernel["operations"]):
        operation.update({key: issued[key] for key in ("alternative", "row", "stage")})
        operation["time"] = issued["stage"] * kernel["ii"] + issued["row"]
    return told


def _check(graph: Graph, explained: Explained, listed: dict[str, Any]) -> None:
    """Whether the three commands tell of one loop."""
    bounds = graph.bounds
    named = (listed["name"], listed["operations"], listed["resources"], listed["recurrences"], listed["mii"])
    if explained.bounds != bounds:
        raise Mismatch(bounds.name, "explain has another line of bounds than edges")
    if named != (bounds.name, bounds.operations, bounds.resources, bounds.recurrences, bounds.mii):
        raise Mismatch(bounds.name, "json has another name or other bounds than edges")
    last, kernel = explained.tried[-1], listed.get("kernel")
    found = (last.interval, last.outcome, *last.numbers) if kernel else (last.interval, last.outcome)
    wanted = (kernel["ii"], "kernel", kernel["stages"]) if kernel else (listed["failed_to"], listed["cause"])
    if found != wanted:
        raise Mismatch(bounds.name, "explain and json do not come to the same")


def _loop(graph: Graph, explained: Explained, listed: dict[str, Any]) -> dict[str, Any]:
    _check(graph, explained, listed)
    names, kernel, bounds = Names(graph), listed.get("kernel"), graph.bounds
    loop: dict[str, Any] = {
        "circuit": _circuit(explained, graph),
        "edges": [
            {"delay": it.delay, "distance": it.distance, "from": it.source, "kind": it.kind, "to": it.target} for it in graph.edges
        ],
        "mii": bounds.mii,
        "name": bounds.name,
        "operations": _operations(graph, kernel),
        "recurrences": bounds.recurrences,
        "resources": bounds.resources,
        "tried": [_tried(it, names) for it in explained.tried],
        "units": [_use(it, names) for it in explained.units],
    }
    if kernel is not None and explained.grid is not None:
        loop["kernel"] = _kernel(explained, explained.grid, names, kernel)
    else:
        loop["cause"], loop["failed_to"] = listed["cause"], listed["failed_to"]
    return loop


def join(graphs: list[Graph], explained: list[Explained], listing: dict[str, Any]) -> dict[str, Any]:
    """The document of what `edges`, `explain` and `json` told of the same two files."""
    if listing.get("version") != 1:
        raise Mismatch("json", "has another version than 1")
    listed = listing["loops"]
    if not len(graphs) == len(explained) == len(listed):
        raise Mismatch("json", "the commands tell of different numbers of loops")
    loops = [_loop(*of_one) for of_one in zip(graphs, explained, listed)]
    return {"failed": listing["failed"], "loops": loops, "met": listing["met"], "version": VERSION}


def text_of(document: dict[str, Any]) -> str:
    """The document's one line, in which each < is escaped, so that nothing in it ends the element that it stands in."""
    return json.dumps(document, sort_keys=True, separators=(",", ":")).replace("<", "\\u003c") + "\n"
