"""Problems as lines of text (docs/FORMATS.md, "Lines of scheduling problems")."""
from __future__ import annotations

from typing import Any, Iterator


def _hold(hold: dict[str, Any]) -> str:
    return f"{hold['unit']}@{hold['offset']}" if hold["offset"] else hold["unit"]


def machine_lines(machine: dict[str, Any]) -> Iterator[str]:
    """The lines of a machine."""
    yield f"machine {machine['name']}"
    yield " ".join(["units", *machine["units"]])
    for it in machine["files"]:
        yield f"file {it['name']} " + (f"rotating {it['rotating']}" if "rotating" in it else "unallotted")
    for it in machine["kinds"]:
        holds = "".join(" | " + " ".join(map(_hold, alternative)) for alternative in it["alternatives"])
        yield f"kind {it['name']} latency {it['latency']}{holds}"


def problem_lines(problem: dict[str, Any]) -> Iterator[str]:
    """The lines of a problem."""
    yield f"problem {problem['name']}"
    for it in problem["operations"]:
        yield f"op {it['name']} {it['kind']}"
    for it in problem["values"]:
        yield f"value {it['name']} of {it['maker']} lands {it['lands']} in {it['file']}" + (" out" if it["out"] else "")
    for it in problem["reads"]:
        yield f"read {it['reader']} {it['value']} distance {it['distance']} offset {it['offset']}"
    for it in problem["edges"]:
        yield f"edge {it['from']} {it['to']} delay {it['delay']} distance {it['distance']}"
    yield "end"


def text_of(document: dict[str, Any]) -> str:
    """The text of a machine and all its problems."""
    lines = list(machine_lines(document["machine"]))
    for problem in document["problems"]:
        lines += ["", *problem_lines(problem)]
    return "".join(f"{it}\n" for it in lines)
