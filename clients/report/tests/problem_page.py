"""What a page shows of its document of scheduling problems, seen in a browser: each check answers what is wrong, and nothing where all is well."""
from __future__ import annotations

from typing import Any, Iterator

from browser import Browser
from page import GREAT, facts_of, seen_of_all, seen_of_bars, seen_of_places, wrong_with

# A longer name is cut where the page has little room.
LONG = 28


def cut(name: str) -> str:
    """A name where the page has little room."""
    return name if len(name) <= LONG else name[: LONG - 1] + "\u2026"


def seen_of_values(problem: dict[str, Any], it: dict[str, Any]) -> Iterator[str]:
    """Each value in the text of the operation that makes it."""
    tips = dict(it["tips"])
    for value in problem["values"]:
        if f"makes {value['name']}, which lands in {problem['files'][value['file']]['name']} " not in tips[value["operation"]]:
            yield f"the value {value['name']}: {tips[value['operation']]}"


def seen_of_files(problem: dict[str, Any], it: dict[str, Any]) -> Iterator[str]:
    """The table of register files."""
    kernel, values = problem.get("kernel"), problem["values"]
    initial = kernel["initial"] if kernel else []
    rows = []
    for at, file in enumerate(problem["files"]):
        before = [f"{file['name']}.{i['register']} = {values[i['value']]['name']} @{i['distance']}" for i in initial if values[i["value"]]["file"] == at]
        registers = "unallotted" if file["registers"] is None else str(file["registers"])
        names = " ".join(value["name"] for value in values if value["file"] == at)
        rows.append([file["name"], registers, *([str(kernel["files"][at]["max_live"])] if kernel else []), names, *([", ".join(before)] if initial else [])])
    yield from wrong_with({"held": rows}, it)


def seen_of_units(problem: dict[str, Any], it: dict[str, Any]) -> Iterator[str]:
    """The table of units."""
    kernel, rows = problem.get("kernel"), []
    for unit in problem["units"]:
        row = [unit["name"], "full" if unit["full"] else ""]
        if kernel:
            count = sum(kernel["units"][slot["unit"]] == unit["name"] for slot in kernel["slots"])
            row.append(f"{count}, {100 * count // kernel['ii']} %")
        rows.append(row)
    yield from wrong_with({"uses": rows}, it)


def seen_of_failure(problem: dict[str, Any], it: dict[str, Any]) -> Iterator[str]:
    """Why a problem has no solution."""
    told = problem["evidence"]
    names = [problem["operations"][place]["name"] for place in told["operations"]][:7]
    if "value" in told:
        names = [problem["files"][told["file"]]["name"], problem["values"][told["value"]]["name"]]
    ((interval, outcome, evidence),) = it["tried"]
    if (interval, outcome) != (str(problem["failed_to"]), problem["cause"]) or problem["cause"] not in it["facts"]:
        yield f"the last interval: {it['tried']} {it['facts']}"
    for word in [*names, *([str(told["time"])] if "time" in told else [])]:
        if word not in evidence or word not in it["summary"]:
            yield f"evidence: {evidence} and {it['summary']} lack {word}"
    if it["slots"] or it["issued"] or it["files"]:
        yield "charts of a schedule that is not there"


def seen_of_solution(problem: dict[str, Any], it: dict[str, Any]) -> Iterator[str]:
    """What a problem with a solution shows besides."""
    kernel, operations, count = problem["kernel"], problem["operations"], len(problem["operations"])
    files = [(at, file) for at, file in enumerate(problem["files"]) if any(value["file"] == at for value in problem["values"])]
    its = [kernel["files"][at] for at, _ in files]
    rows = range(kernel["ii"])
    keys = ("latency", "time", "stage", "row", "alternative")
    tables = [[str(place), o["name"], o["kind"], *(str(o[key]) for key in keys), " ".join(o["reads"]), " ".join(o["writes"])] for place, o in enumerate(operations)]
    wanted = {
        "slots": sorted([slot["row"], kernel["units"][slot["unit"]], slot["operation"]] for slot in kernel["slots"]),
        "units": ["row", *map(cut, kernel["units"]), *[f"live in {cut(file['name'])}" for _, file in files]],
        "live": [str(file["live"][row]) for row in rows for file in its],
        "most": [str(row) for row in rows for file in its if file["live"][row] == file["max_live"] > 0],
        "issued": list(range(count)),
        "ghosts": [[later, place] for later in (1, 2) for place in range(count)],
        "iteration": tables,
        "tried": None,
    }
    if kernel["ii"] > GREAT:
        del wanted["live"], wanted["most"]
    yield from wrong_with(wanted, it | {key: sorted(it[key]) for key in ("issued", "ghosts")} | {"slots": sorted(slot[:3] for slot in it["slots"])})
    for row, unit, place, text, classes in it["slots"]:
        operation = operations[place]
        words = classes.split()
        if text != f"{operation['name']}{operation['stage']}" or ("held" in words) != (operation["row"] != row) or f"c{operation['stage'] % 8}" not in words:
            yield f"the slot of {unit} in row {row}: {text} {classes}"
    if len(it["files"]) != len(files):
        yield f"{len(it['files'])} charts of live ranges, and not {len(files)}"
    for (at, file), seen in zip(files, it["files"]):
        yield from seen_of_file(problem, at, file, seen)
    yield from seen_of_places(problem, it)
    interval = "every cycle" if kernel["ii"] == 1 else f"every {kernel['ii']} cycles"
    if interval not in it["summary"] or not {str(kernel["ii"]), kernel["held_by"], str(kernel["stages"])} <= {*it["facts"]}:
        yield f"summary: {it['summary']} {it['facts']}"
    if "unroll" in kernel and str(kernel["unroll"]) not in it["facts"]:
        yield f"unroll: {it['facts']}"


def seen_of_file(problem: dict[str, Any], at: int, file: dict[str, Any], seen: dict[str, Any]) -> Iterator[str]:
    """The lifetimes of a file that has values."""
    kernel, registers = problem["kernel"], file["registers"]
    its = [value | lives for value, lives in zip(problem["values"], kernel["values"]) if value["file"] == at]
    held = "copies" if registers is None else "register"
    most = f"MaxLive {kernel['files'][at]['max_live']}" + ("" if registers is None else f" of {registers}")
    wanted = {
        "title": f"Live ranges in {file['name']} over the turn: {most}",
        "levels": kernel["files"][at]["live"],
        "values": [[v["name"], *map(str, (v["first"], v["last"], v["last"] - v["first"] + 1, v[held]))] for v in its],
    }
    yield from wrong_with(wanted, seen)
    if {tuple(it) for it in seen["makers"]} != {(v["name"], v["operation"]) for v in its}:
        yield f"makers of values: {seen['makers']}"

    def lane(place: int, fold: int) -> tuple[int, ...]:
        return (place, fold % its[place]["copies"]) if registers is None else ((its[place]["register"] + fold) % registers,)

    yield from seen_of_bars(kernel["ii"], [(v["name"], v["first"], v["last"]) for v in its], lane, seen["columns"], seen["folds"])


def wrong_of_problems(browser: Browser, path: str, document: dict[str, Any]) -> list[str]:
    """What is wrong with the page at this path, which has to show all of the document."""
    seen, wrong = facts_of(browser, path)
    if [it["name"] for it in seen] != [problem["name"] for problem in document["problems"]]:
        return [*wrong, f"problems: {[it['name'] for it in seen]}"]
    for problem, it in zip(document["problems"], seen):
        every = [*seen_of_all(problem, it), *seen_of_values(problem, it), *seen_of_files(problem, it), *seen_of_units(problem, it)]
        every += seen_of_solution(problem, it) if "kernel" in problem else seen_of_failure(problem, it)
        wrong += [f"{problem['name']}: {why}" for why in every]
    return wrong
