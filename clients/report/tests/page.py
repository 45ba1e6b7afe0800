"""What a page shows of its document, seen in a browser: each check answers what is wrong, and nothing where all is well."""
from __future__ import annotations

import json
from typing import Any, Callable, Iterator

from browser import Browser

# Of a greater interval, rows of the kernel without operations are drawn as one.
GREAT = 96
# What the sections that are drawn tell, by their elements. Tables that wait for a click are opened first.
FACTS = """(async () => {
  const texts = (root, of) => [...root.querySelectorAll(of)].map(it => it.textContent);
  const meeting = letters => letters.map(it => [it.getBBox(), it.textContent]).flatMap(([a, text], at, all) => all.slice(at + 1).filter(([b]) =>
    a.x + 1 < b.x + b.width && b.x + 1 < a.x + a.width && a.y + 3 < b.y + b.height && b.y + 3 < a.y + a.height).map(([, other]) => [text, other]));
  const cells = table => table ? [...table.querySelectorAll("tbody tr")].map(row => texts(row, "td")) : null;
  while (document.querySelector("main").getAttribute("aria-busy") === "true") await new Promise(done => setTimeout(done, 20));
  for (const it of document.querySelectorAll("main details")) it.open = true;
  await new Promise(done => setTimeout(done, 60));
  return [...document.querySelectorAll("main section")].map(section => {
    const chart = kind => section.querySelector(`[data-chart=${kind}]`), part = name => section.querySelector(`[data-part=${name}] table`);
    const all = (kind, of) => chart(kind) ? [...chart(kind).querySelectorAll(of)] : [];
    const marks = [...section.querySelectorAll("[data-op][tabindex]")];
    return {
      name: section.dataset.loop, summary: section.querySelector(".summary").textContent, facts: texts(section, ".facts b"),
      slots: all("kernel", "td[data-op]").map(it => [+it.closest("tr").dataset.row, it.dataset.unit, +it.dataset.op, it.textContent, it.className]),
      units: all("kernel", "thead th").map(it => (it.querySelector(".unit") || it).textContent), percents: all("kernel", "thead .percent").map(it => it.textContent), live: all("kernel", "td.live").map(it => it.textContent),
      most: all("kernel", "td.most").map(it => it.closest("tr").dataset.row),
      issued: all("iteration", "g[data-op]").map(it => +it.dataset.op), ghosts: all("iteration", "[data-ghost]").map(it => [+it.dataset.ghost, +it.dataset.op]),
      issues: all("iteration", "g[data-op] rect.box").map(it => [+it.closest("g").dataset.op, it.x.baseVal.value, it.classList[1]]),
      laters: all("iteration", "[data-ghost]").map(it => [+it.dataset.ghost, +it.dataset.op, it.x.baseVal.value]),
      columns: all("registers", "[data-live]").map(it => [it.x.baseVal.value, it.width.baseVal.value]),
      folds: all("registers", "g[data-value]").map(it => [it.dataset.value, it.getBBox()]).map(([name, box]) => [name, box.x, box.width, box.y]),
      heights: all("graph", "g[data-op] rect").map(it => [+it.closest("g").dataset.op, it.y.baseVal.value]),
      iteration: cells(chart("iteration") && chart("iteration").querySelector("details table")), levels: all("registers", "[data-live]").map(it => +it.dataset.live),
      bars: all("registers", "g[data-value]").map(it => [it.dataset.value, it.getAttribute("aria-label")]),
      values: cells(chart("registers") && chart("registers").querySelector("details table")), registers: chart("registers") ? texts(chart("registers"), "h3")[0] : "",
      nodes: all("graph", "g[data-op]").map(it => +it.dataset.op), edges: all("graph", "path.edge").map(it => +it.dataset.edge),
      later: all("graph", "path.edge.later").map(it => +it.dataset.edge), critical: all("graph", "path.edge.crit").map(it => +it.dataset.edge),
      labels: all("graph", "text.sum").map(it => [+it.dataset.edge, it.textContent]), graph: texts(chart("graph"), "figcaption p")[0],
      dependences: cells(chart("graph").querySelector("details table")), tried: cells(part("tried")), uses: cells(part("units")), circuit: cells(part("circuit")),
      files: [...section.querySelectorAll("[data-chart=registers]")].map(it => ({
        title: texts(it, "h3")[0], values: cells(it.querySelector("details table")), levels: [...it.querySelectorAll("[data-live]")].map(level => +level.dataset.live),
        columns: [...it.querySelectorAll("[data-live]")].map(level => [level.x.baseVal.value, level.width.baseVal.value]),
        folds: [...it.querySelectorAll("g[data-value]")].map(bar => [bar.dataset.value, bar.getBBox()]).map(([name, box]) => [name, box.x, box.width, box.y]),
        makers: [...it.querySelectorAll("g[data-value]")].map(bar => [bar.dataset.value, +bar.dataset.op]),
      })),
      tips: all("graph", "g[data-op]").map(it => [+it.dataset.op, it.getAttribute("aria-label")]), set: texts(section, "[data-part=set]"), ranges: texts(section, "[data-chart=registers] figcaption p").join(" "),
      says: texts(section, ".facts li"), slack: texts(section, "[data-chart=iteration] figcaption p").join(" "), held: cells(part("files")),
      sums: part("circuit") ? texts(part("circuit"), "tfoot td") : null,
      mute: marks.filter(it => !it.getAttribute("aria-label")).length, stops: marks.filter(it => it.tabIndex === 0).length, charts: section.querySelectorAll("figure").length,
      nameless: [...section.querySelectorAll("figure, figure svg[role]")].filter(it => !it.getAttribute("aria-label") && !document.getElementById(it.getAttribute("aria-labelledby"))).length,
      wide: section.scrollWidth > section.clientWidth + 1,
      axis: all("graph", ".stuck text").map(it => it.textContent).filter(it => it.startsWith("cycle")), alike: all("graph", "path.edge").length - new Set(all("graph", "path.edge").map(it => it.getAttribute("d"))).size,
      outside: [...section.querySelectorAll("figure svg[role] text")].filter(it => it.getBBox().x < 0 || it.getBBox().x + it.getBBox().width > it.ownerSVGElement.width.baseVal.value).map(it => it.textContent),
      meeting: ["iteration", "registers", "graph"].flatMap(kind => meeting(all(kind, kind === "graph" ? "text.sum:not(.late)" : ".stuck text.soft, .stuck text.most-text"))),
      stages: all("kernel", "td sub").filter(it => it.getBoundingClientRect().right > it.closest("td").getBoundingClientRect().right).length,
    };
  });
})()"""


def wrong_with(wanted: dict[str, Any], seen: dict[str, Any]) -> Iterator[str]:
    """What differs, by what it is."""
    for what, it in wanted.items():
        if seen[what] != it:
            yield f"{what}: {json.dumps(seen[what])[:200]} and not {json.dumps(it)[:200]}"


def times_of(loop: dict[str, Any]) -> list[int]:
    """When operations are issued, or without a kernel their earliest cycles by the dependences within one iteration."""
    if "kernel" in loop:
        return [operation["time"] for operation in loop["operations"]]
    times = [0] * len(loop["operations"])
    for _ in times:
        for edge in loop["edges"]:
            if edge["distance"] == 0:
                times[edge["to"]] = max(times[edge["to"]], times[edge["from"]] + edge["delay"])
    return times


def seen_of_graph(loop: dict[str, Any], it: dict[str, Any]) -> Iterator[str]:
    """Where operations and labels of the graph stand: operations in rows by time, from top to bottom, and no curve on another."""
    times = times_of(loop)
    yield from wrong_with({"axis": [f"cycle {time}" for time in sorted({*times})], "alike": 0}, it)
    if any(one[1] >= other[1] for one in it["heights"] for other in it["heights"] if times[one[0]] < times[other[0]]):
        yield f"rows of the graph: {it['heights']}"


def seen_of_all(loop: dict[str, Any], it: dict[str, Any]) -> Iterator[str]:
    """What each loop shows, with a kernel or without."""
    operations, edges, circuit = loop["operations"], loop["edges"], loop["circuit"]
    names = [operation["name"] for operation in operations]
    places = range(len(edges))
    numbers = [[it["delay"], it["distance"]] for it in edges]
    kinds = [e["kind"] + (f" {loop['values'][e['value']]['name']}" if "value" in e else "") for e in edges]
    rows = [[f"{e['from']} {names[e['from']]}", f"{e['to']} {names[e['to']]}", kind, *map(str, n)] for e, kind, n in zip(edges, kinds, numbers)]
    of_circuit = circuit["edges"] if circuit else []
    labels = [[at, ("" if e["kind"] == "value" else f"{e['kind']} ") + f"{e['delay']}" + (f" @{e['distance']}" if e["distance"] else "")] for at, e in enumerate(edges)]
    wanted = {
        "nodes": list(range(len(names))),
        "edges": list(places),
        "later": [at for at in places if edges[at]["distance"]],
        "critical": sorted(of_circuit),
        "labels": labels,
        "dependences": rows,
        "circuit": [rows[at] for at in of_circuit] if circuit else None,
        "sums": ["sum", "", f"needs {circuit['needs']}", str(circuit["delay"]), str(circuit["distance"])] if circuit else None,
        "mute": 0,
        "nameless": 0,
        "wide": False,
        "outside": [],
        "meeting": [],
        "stages": 0,
        "stops": it["charts"] - (0 if "files" in loop or loop.get("kernel", {}).get("values", True) else 1),
    }
    shown = it | {key: sorted(it[key]) for key in ("nodes", "edges", "later", "critical", "labels")}
    yield from wrong_with(wanted, shown)
    yield from seen_of_graph(loop, it)
    for number in (loop["mii"], loop["resources"], loop["recurrences"], len(names)):
        if str(number) not in it["facts"]:
            yield f"facts: {number} is not there"
    if circuit and f"= {circuit['delay']}" not in it["graph"] and f" {circuit['delay']} " not in it["graph"]:
        yield f"the circuit's sum is not told: {it['graph']}"


def counted(count: int, one: str) -> str:
    """A number of things."""
    return f"{count} {one}" + ("" if count == 1 else "s")


def needed(registers: int | None) -> str:
    """How many registers are needed."""
    return "more than 256 registers" if registers is None else counted(registers, "register")


def seen_of_set(loop: dict[str, Any], it: dict[str, Any]) -> Iterator[str]:
    """The fullest set of units, which older programs don't tell of."""
    told = loop.get("set")
    if told is None:
        yield from wrong_with({"set": []}, it)
        return
    rows, units = told["rows"], len(told["units"])
    each = counted(rows // units, "cycle") if rows % units == 0 else f"{rows}/{units} cycles"
    (says,) = it["set"] or [""]
    if f"{counted(rows, 'row')} on {counted(units, 'unit')}: {each}, need {told['need']}." not in says or not all(name in says for name in told["units"][:7]):
        yield f"the fullest set of units: {it['set']}"


def seen_of_tables(loop: dict[str, Any], it: dict[str, Any], names: list[str]) -> Iterator[str]:
    """The tables of tried intervals and of units."""
    if [row[:2] for row in it["tried"]] != [[str(tried["interval"]), tried["outcome"]] for tried in loop["tried"]]:
        yield f"tried: {it['tried']}"
    for tried, row in zip(loop["tried"], it["tried"]):
        told = [names[place] for place in tried.get("operations", [])][:7] + [str(tried[key]) for key in ("stages", "time", "first", "last") if key in tried]
        if not all(word in row[2] for word in told):
            yield f"evidence: {row} lacks one of {told}"
        need = f"; all values need {needed(tried['need'])}" if "need" in tried else ""
        if not row[2].endswith(need) or ("all values need" in row[2]) != (need != ""):
            yield f"needed registers: {row}"
    for unit, row in zip(loop["units"], it["uses"]):
        users = " ".join(names[user["operation"]] + (f"*{user['uses']}" if user["uses"] > 1 else "") for user in unit["users"])
        if [row[0], row[1], row[-1]] != [unit["name"], f"{unit['uses']}{' full' * unit['full']}", users]:
            yield f"units: {row}"
    if len(it["uses"]) < len(loop["units"]):
        yield "units: some are not there"
    yield from seen_of_set(loop, it)


def seen_of_kernel(loop: dict[str, Any], it: dict[str, Any]) -> Iterator[str]:
    """What a loop with a kernel shows besides."""
    kernel, operations = loop["kernel"], loop["operations"]
    names, count = [operation["name"] for operation in operations], len(operations)
    slots = [[slot["row"], kernel["units"][slot["unit"]], slot["operation"]] for slot in kernel["slots"]]
    keys = [key for key in ("latency", "height", "time", "stage", "row", "alternative", "slack") if key in operations[0]]
    most = [str(row) for row, live in enumerate(kernel["live"]) if live == kernel["max_live"] > 0]
    values = kernel["values"]
    wanted = {
        "slots": sorted(slots),
        "units": ["row", *kernel["units"], "live"],
        "live": [str(live) for live in kernel["live"]],
        "most": most,
        "issued": list(range(count)),
        "ghosts": [[later, place] for later in (1, 2) for place in range(count)],
        "iteration": [[str(place), o["name"], o["opcode"], *(str(o[key]) for key in keys)] for place, o in enumerate(operations)],
        "levels": kernel["live"],
        "values": [[names[v["operation"]], *map(str, (v["first"], v["last"], v["last"] - v["first"] + 1, v["register"]))] for v in values],
    }
    shown = it | {key: sorted(it[key]) for key in ("issued", "ghosts")} | {"slots": sorted(slot[:3] for slot in it["slots"])}
    if kernel["ii"] > GREAT:
        del wanted["live"], wanted["most"]
    yield from wrong_with(wanted, shown)
    for row, unit, place, text, classes in it["slots"]:
        operation = operations[place]
        if text != f"{operation['name']}{operation['stage']}" or ("held" in classes.split()) != (operation["row"] != row):
            yield f"the slot of {unit} in row {row}: {text} {classes}"
    yield from seen_of_figures(loop, it)
    if f"MaxLive {kernel['max_live']} of {kernel['registers']}" not in it["registers"]:
        yield f"registers: {it['registers']}"
    folds = [names[v["operation"]] for v in values for _ in range(v["first"] // kernel["ii"], v["last"] // kernel["ii"] + 1)]
    if sorted(folds) != sorted(name for name, _ in it["bars"]):
        yield f"bars of live ranges: {[name for name, _ in it['bars']]}"
    yield from seen_of_places(loop, it)
    held = [(names[v["operation"]], v["first"], v["last"]) for v in values]
    yield from seen_of_bars(kernel["ii"], held, lambda place, fold: (values[place]["register"] + fold) % kernel["registers"], it["columns"], it["folds"])
    interval = "every cycle" if kernel["ii"] == 1 else f"every {kernel['ii']} cycles"
    if interval not in it["summary"] or str(kernel["ii"]) not in it["facts"] or kernel["held_by"] not in it["facts"]:
        yield f"summary: {it['summary']} {it['facts']}"


def seen_of_figures(loop: dict[str, Any], it: dict[str, Any]) -> Iterator[str]:
    """The figures of a kernel, each where the program tells it; and how much of the interval each unit is held."""
    kernel, operations = loop["kernel"], loop["operations"]
    held = [sum(slot["unit"] == unit for slot in kernel["slots"]) for unit in range(len(kernel["units"]))]
    figures = kernel.get("figures", {})
    percent = [f"{it} %" for it in figures.get("percent", [100 * rows // kernel["ii"] for rows in held])]
    yield from wrong_with({"percents": percent}, it)
    for name, rows, share in zip(kernel["units"], held, percent):
        if [name, f"{rows}, {share}"] not in [[row[0], row[2]] for row in it["uses"]]:
            yield f"units: {it['uses']}"
    for place, label in it["tips"]:
        its = [word for word in label.split(", ") if word.startswith("slack")]
        if its != [f"slack {counted(it, 'cycle')}" for it in [operations[place].get("slack")] if it is not None]:
            yield f"slack of operation {place}: {label}"
    extra, need, has_values = figures.get("extra_turns"), figures.get("need"), bool(kernel["values"])
    turns = f"N + {extra}" if extra else "N"
    told = [
        ("No schedule that keeps the dependences and the units has a shorter interval.", "summary", kernel.get("least_possible", False) and kernel["held_by"] != "one cycle"),
        (f" N iterations take {turns} turns.", "summary", extra is not None),
        (f" The schedule needs {needed(need)}.", "summary", "need" in figures and has_values),
        (f"an allotment is {need}.", "ranges", "need" in figures and has_values),
        ("The slack of an operation is", "slack", "slack" in operations[0]),
    ]
    for words, where, is_told in told:
        if (words in it[where]) != is_told:
            yield f"{where}: {words} {'' if is_told else 'not '}wanted in {it[where]}"
    facts = {"interval, in cycles" + (": least possible" if kernel.get("least_possible") else ""): str(kernel["ii"])}
    facts |= {"cycles an iteration": str(figures["cycles"])} if "cycles" in figures else {}
    facts |= {"turns for N iterations": turns} if extra is not None else {}
    facts |= {"registers needed": f"{need} of {kernel['registers']}"} if "need" in figures and has_values else {}
    for words, number in facts.items():
        if number + words not in it["says"]:
            yield f"facts: {it['says']} lack {number} {words}"


def is_near(one: float, other: float) -> bool:
    """Whether two places are the same, but for rounding and a border's width."""
    return abs(one - other) < 1.5


def seen_of_places(loop: dict[str, Any], it: dict[str, Any]) -> Iterator[str]:
    """Where the marks stand: operations by their times, the next iterations one and two intervals later."""
    kernel, operations = loop["kernel"], loop["operations"]
    times, ii = [operation["time"] for operation in operations], kernel["ii"]
    at = {place: x for place, x, _ in it["issues"]}
    zero = min(x for place, x in at.items() if times[place] == min(times))
    shifts = [x - at[place] for later, place, x in it["laters"] if later == 1]
    cell = shifts[0] / ii
    if not all(is_near(x, zero + (times[place] - min(times)) * cell) for place, x in at.items()) or cell <= 0:
        yield f"places of operations: {it['issues']}"
    if not all(is_near(x, at[place] + later * ii * cell) for later, place, x in it["laters"]):
        yield f"places of later iterations: {it['laters']}"
    if any(colour != f"c{operations[place]['stage'] % 8}" for place, _, colour in it["issues"]):
        yield f"colours of stages: {it['issues']}"


def seen_of_bars(ii: int, values: list[tuple[str, int, int]], lane_of: Callable[[int, int], Any], columns: list[Any], folds: list[Any]) -> Iterator[str]:
    """The bars of lifetimes (name, first, last): each value in the rows in which it lives, once for each turn that it lives in, in the lane of its
    register and in no other's place."""
    wanted = []
    for place, (name, its_first, its_last) in enumerate(values):
        for fold in range(its_first // ii, its_last // ii + 1):
            first, last = max(its_first - fold * ii, 0), min(its_last - fold * ii, ii - 1)
            left, (right, width) = columns[first][0], columns[last]
            wanted.append((lane_of(place, fold), first, last, name, left, right + width))
    lanes = sorted({lane for *_, lane in folds})
    seen = sorted((lanes.index(lane), x, name, x + width) for name, x, width, lane in folds)
    registers = sorted({register for register, *_ in wanted})
    if len(seen) != len(wanted) or len(lanes) != len(registers):
        yield f"{len(seen)} bars in {len(lanes)} lanes, and not {len(wanted)} in {len(registers)}"
    for (lane, x, name, end), (register, _, _, its_name, left, right) in zip(seen, sorted(wanted)):
        if (registers[lane], name) != (register, its_name) or not is_near(x, left) or not is_near(end, right):
            yield f"the bar of {name} in lane {lane}: {x} to {end}, and not {register}, {left} to {right}"
    if any(one[0] == other[0] and other[1] < one[3] - 0.5 for one, other in zip(seen, seen[1:])):
        yield f"bars that overlap: {seen}"


def facts_of(browser: Browser, path: str) -> tuple[list[dict[str, Any]], list[str]]:
    """What all sections of the page at this path tell, and what is wrong with its console or its network."""
    browser.open(path, "#all")
    seen = browser.value(FACTS)
    asked = [f"asks for {it}" for it in browser.asked if not it.startswith(("file:", "data:"))]
    return seen, [f"console: {it}" for it in browser.console] + asked


def wrong_of(browser: Browser, path: str, document: dict[str, Any]) -> list[str]:
    """What is wrong with the page at this path, which has to show all of the document."""
    seen, wrong = facts_of(browser, path)
    if [it["name"] for it in seen] != [loop["name"] for loop in document["loops"]]:
        return [*wrong, f"loops: {[it['name'] for it in seen]}"]
    for loop, it in zip(document["loops"], seen):
        names = [operation["name"] for operation in loop["operations"]]
        wrong += [f"{loop['name']}: {why}" for why in [*seen_of_all(loop, it), *seen_of_tables(loop, it, names)]]
        if "kernel" in loop:
            wrong += [f"{loop['name']}: {why}" for why in seen_of_kernel(loop, it)]
        elif str(loop["failed_to"]) not in it["summary"] or loop["cause"] not in it["facts"]:
            wrong.append(f"{loop['name']}: {it['summary']}")
    return wrong
