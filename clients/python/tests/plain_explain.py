"""What `modsched explain` prints of loops and of scheduling problems, as text and as JSON, by the letter of docs/FORMATS.md, in plain Python: it shares no code with modsched.

Of several circuits that need the bound any may be told. So the circuit is taken from what is compared, where it is one: `explain_loops`, `explain_document` and `explain_problems` give what has to
be printed, with the circuits that a text tells.
"""
import json
import re

import plain_loops
import plain_problems as plain
import plain_reasons as reasons_of
import plain_texts
from plain_printouts import last_line


NO_CIRCUIT = "circuit none"
WRONG_CIRCUIT = "circuit that is none, or that does not need the bound"


# loops


def problem_of(machine, loop, edges, ratio, ceiling):
    """The scheduling problem that a loop is: each value lands after the latency of its operation, in the one file."""
    places = {unit: place for place, unit in enumerate(machine.units)}
    opcodes = sorted({it.opcode for it in loop.statements})
    tables = [machine.tables[it] for it in opcodes]
    kinds = [(latency, [[(places[row.unit], row.offset) for row in rows] for rows in alternatives]) for latency, alternatives in tables]
    makers = [op for op, it in enumerate(loop.statements) if it.name is not None]
    number = {op: value for value, op in enumerate(makers)}
    values = [(op, machine.tables[loop.statements[op].opcode].latency, 0, op in loop.outs) for op in makers]
    reads = [(number[use.statement], user, use.distance, 0) for user, it in enumerate(loop.statements) for use in it.uses if isinstance(use, plain_loops.Value)]
    orders = [(it.start, it.end, it.delay, it.distance) for it in edges if it.kind != "value"]
    operations = [opcodes.index(it.opcode) for it in loop.statements]
    return plain.Problem(len(machine.units), [machine.registers], kinds, operations, values, reads, orders, ratio, ceiling)


class LoopTold:
    """A loop of a text on a machine, with all that there is to tell of it. `edges` are its dependences, and `circuit` places among them; or a line in its place."""

    def __init__(self, machine, loop, ratio, ceiling):
        self.machine, self.loop, self.circuit = machine, loop, NO_CIRCUIT
        self.names = [plain_loops.operation_name(it) for it in loop.statements]
        self.edges = plain_loops.edges_of(loop.statements, [machine.tables[it.opcode].latency for it in loop.statements])
        self.problem = problem_of(machine, loop, self.edges, ratio, ceiling)
        self.why = reasons_of.reasons_of(self.problem)
        self.makers = [maker for maker, *_ in self.problem.values]
        self.last = self.why.tried[-1]

    @property
    def is_met(self):
        return self.last.cause is None

    def take_circuit(self, places):
        """Takes the circuit that is told, by the places of its edges, of which None is that of no edge. Where no circuit needs the bound there has to be none."""
        if reasons_of.has_circuit(self.problem):
            is_right = places and None not in places and reasons_of.is_circuit(self.why, [self.edges[it][:4] for it in places])
            self.circuit = places if is_right else WRONG_CIRCUIT

    def held_by(self):
        return reasons_of.held_by(self.why, self.circuit == NO_CIRCUIT)

    def needs_told(self):
        """The intervals of which is told how many registers they need: the first and the last that fail for registers."""
        lacking = [it for it in self.why.tried if it.cause == "registers"]
        return {it.interval: reasons_of.need_of(it.lives, it.interval) for it in (lacking[:1] + lacking[-1:])}

    def cycles(self):
        return max(time + latency for time, latency in zip(self.last.times, plain.latencies_of(self.problem)))

    def slacks(self):
        """By how many cycles each operation could be issued later: by each edge to another one as long as that keeps, and as long as the iteration lasts no longer."""
        times, latency, found = self.last.times, plain.latencies_of(self.problem), []
        for op, time in enumerate(times):
            rooms = [times[it.end] + self.last.interval * it.distance - it.delay - time for it in self.edges if it.start == op != it.end]
            found.append(min([*rooms, self.cycles() - time - latency[op]]))
        return found

    def slots(self):
        """Which operation takes which row of which unit, as (row, unit): operation."""
        found = {}
        for op, (time, by) in enumerate(zip(self.last.times, self.last.alternatives)):
            for unit, offset in plain.alternatives_of(self.problem)[op][by]:
                slot = (time + offset) % self.last.interval, unit
                assert slot not in found
                found[slot] = op
        return found

    def taken(self):
        return sorted({unit for _, unit in self.slots()})


def bounds_line(word, name, problem, why):
    return f"{word} {name} ops {len(problem.operations)} res {why.resources} rec {why.recurrences} mii {why.mii}"


def unit_lines(problem, why, unit_names, op_names):
    for unit, users in reasons_of.users_of(problem):
        uses = sum(rows for _, rows in users)
        who = " ".join(op_names[op] + (f"*{rows}" if rows > 1 else "") for op, rows in users)
        yield f"unit {unit_names[unit]} uses {uses}{' full' if uses == why.resources else ''}: {who}"
    names = " ".join(unit_names[it] for it in why.units)
    yield f"units {names} take {why.rows} rows: {why.rows}/{len(why.units)} cycles, need {reasons_of.need_of_set(why)}"


def circuit_sums(edges):
    return sum(it.delay for it in edges), sum(it.distance for it in edges)


def circuit_lines(told):
    if isinstance(told.circuit, str):
        yield told.circuit
        return
    edges = [told.edges[it] for it in told.circuit]
    delay, distance = circuit_sums(edges)
    yield f"circuit delay {delay} distance {distance} needs {-(-delay // distance)}"
    for it in edges:
        yield f"edge {it.start} {told.names[it.start]} {it.end} {told.names[it.end]} {it.kind} delay {it.delay} distance {it.distance}"


def cause_text(told, it, needs):
    names = told.names
    if it.cause == "table":
        return f"table: {names[it.who[0]]}"
    if it.cause == "budget":
        return f"budget: {' '.join(names[op] for op in it.who[0])}"
    if it.cause == "stages":
        return f"stages: {names[it.who[0]]} at {it.who[1]}"
    value = it.who[1]
    lives = f"registers: {names[told.makers[value]]} lives {it.lives[value][0]} to {it.lives[value][1]}"
    if it.interval not in needs:
        return lives
    return f"{lives}, all need {needs[it.interval] or 'more than 256'}"


def grid_lines(told):
    last, slots = told.last, told.slots()
    counts = reasons_of.crowds(last.interval, last.lives)
    table = [["row", *[told.machine.units[it] for it in told.taken()], "live"]]
    for row, count in enumerate(counts):
        cells = [slots.get((row, unit)) for unit in told.taken()]
        named = ["." if op is None else f"{told.names[op]}/{last.times[op] // last.interval}" for op in cells]
        table.append([str(row), *named, str(count)])
    wide = [max(map(len, column)) for column in zip(*table)]
    for place, cells in enumerate(table):
        is_full = place and counts[place - 1] and counts[place - 1] == max(counts)
        yield " ".join(cell.rjust(width) for cell, width in zip(cells, wide)) + (" full" if is_full else "")


def percents(told):
    return [100 * sum(of == unit for _, of in told.slots()) // told.last.interval for unit in told.taken()]


def kernel_lines(told):
    last, units = told.last, told.machine.units
    yield f"iteration {told.cycles()} cycles"
    yield f"N iterations take N+{max(last.times) // last.interval} turns"
    for op, (time, by, slack) in enumerate(zip(last.times, last.alternatives, told.slacks())):
        rows = " ".join(f"{units[unit]}@{offset}" for unit, offset in plain.alternatives_of(told.problem)[op][by])
        yield f"op {told.names[op]} at {time} slack {slack}: {rows}"
    for maker, (first, end), number in zip(told.makers, last.lives, last.numbers):
        yield f"value {told.names[maker]} lives {first} to {end} register {number}"
    yield f"registers need {reasons_of.need_of(last.lives, last.interval)}"
    yield from grid_lines(told)
    yield " ".join(["use", *[f"{units[unit]} {share}%" for unit, share in zip(told.taken(), percents(told))]])
    idle = len(units) - len(told.taken())
    if idle:
        yield f"idle units {idle}"


def loop_lines(told):
    why, needs = told.why, told.needs_told()
    yield bounds_line("loop", told.loop.name, told.problem, why)
    yield from unit_lines(told.problem, why, told.machine.units, told.names)
    yield from circuit_lines(told)
    yield from reasons_of.runs([(it.interval, cause_text(told, it, needs)) for it in why.tried if it.cause])
    if told.is_met:
        yield f"try {told.last.interval} kernel stages {max(told.last.times) // told.last.interval + 1}"
        yield f"held by {told.held_by()}"
        if reasons_of.is_least(why):
            yield "least possible"
        yield from kernel_lines(told)


def parts_of(word, text):
    """What a text tells of each loop or problem, by its name."""
    parts = re.split(rf"(?m)^(?={word} \S+ ops )", text)
    return {it.split(" ")[1]: it for it in parts[1:]}


def loops_told(machine, loops, ratio, ceiling):
    machine = plain_loops.machine_in(machine.encode())
    return [LoopTold(machine, it, ratio, ceiling) for it in plain_loops.loops_in(loops.encode())]


def edge_told(told, line):
    """The place of the edge that a line tells, or None."""
    for place, it in enumerate(told.edges):
        if line == f"edge {it.start} {told.names[it.start]} {it.end} {told.names[it.end]} {it.kind} delay {it.delay} distance {it.distance}":
            return place
    return None


def explain_loops(told, text):
    """The text that `explain` has to print of loops, with the circuits of the one that is compared."""
    parts = parts_of("loop", text)
    for it in told:
        it.take_circuit([edge_told(it, line) for line in re.findall(r"(?m)^edge .*$", parts.get(it.loop.name, ""))])
    return "".join(f"{line}\n" for it in told for line in loop_lines(it)) + last_line([it.is_met for it in told]) + "\n"


# the document


def edge_object(it):
    return {"delay": it.delay, "distance": it.distance, "from": it.start, "kind": it.kind, "to": it.end}


def circuit_object(told):
    if isinstance(told.circuit, str):
        return None if told.circuit == NO_CIRCUIT else told.circuit
    delay, distance = circuit_sums([told.edges[it] for it in told.circuit])
    return {"delay": delay, "distance": distance, "edges": told.circuit, "needs": told.why.recurrences}


def tried_object(told, it, needs):
    known = {"interval": it.interval, "outcome": it.cause or "kernel"}
    if it.cause is None:
        return {**known, "stages": max(it.times) // it.interval + 1}
    if it.cause == "registers":
        first, last = it.lives[it.who[1]]
        need = {"need": needs[it.interval]} if it.interval in needs else {}
        return {**known, "operations": [told.makers[it.who[1]]], "first": first, "last": last, **need}
    time = {"time": it.who[1]} if it.cause == "stages" else {}
    return {**known, "operations": it.who[0] if it.cause == "budget" else it.who[:1], **time}


def operation_objects(told):
    heights = plain.heights(told.problem, told.why.mii)
    for op, it in enumerate(told.loop.statements):
        known = {"height": heights[op], "latency": told.machine.tables[it.opcode].latency, "name": told.names[op], "opcode": it.opcode}
        if told.is_met:
            time, interval = told.last.times[op], told.last.interval
            known |= {"alternative": told.last.alternatives[op], "row": time % interval, "slack": told.slacks()[op], "stage": time // interval, "time": time}
        yield known


def kernel_object(told):
    last, stages = told.last, max(told.last.times) // told.last.interval + 1
    live, taken = reasons_of.crowds(last.interval, last.lives), told.taken()
    lives = zip(told.makers, last.lives, last.numbers)
    return {
        "figures": {"cycles": told.cycles(), "extra_turns": stages - 1, "need": reasons_of.need_of(last.lives, last.interval), "percent": percents(told)},
        "held_by": told.held_by(),
        "idle_units": len(told.machine.units) - len(taken),
        "ii": last.interval,
        "least_possible": reasons_of.is_least(told.why),
        "live": live,
        "max_live": max(live),
        "registers": told.machine.registers,
        "slots": [{"operation": op, "row": row, "unit": taken.index(unit)} for (row, unit), op in sorted(told.slots().items())],
        "stages": stages,
        "units": [told.machine.units[it] for it in taken],
        "values": [{"first": first, "last": end, "operation": maker, "register": number} for maker, (first, end), number in lives],
    }


def unit_object(told, unit, users):
    uses = sum(rows for _, rows in users)
    known = [{"operation": op, "uses": rows} for op, rows in users]
    return {"full": uses == told.why.resources, "name": told.machine.units[unit], "users": known, "uses": uses}


def loop_object(told):
    why, needs = told.why, told.needs_told()
    known = {
        "circuit": circuit_object(told),
        "edges": [edge_object(it) for it in told.edges],
        "mii": why.mii,
        "name": told.loop.name,
        "operations": list(operation_objects(told)),
        "recurrences": why.recurrences,
        "resources": why.resources,
        "set": {"need": reasons_of.need_of_set(why), "rows": why.rows, "units": [told.machine.units[it] for it in why.units]},
        "tried": [tried_object(told, it, needs) for it in why.tried],
        "units": [unit_object(told, *it) for it in reasons_of.users_of(told.problem)],
    }
    return known | ({"kernel": kernel_object(told)} if told.is_met else {"cause": told.last.cause, "failed_to": told.last.interval})


def explain_document(told, text):
    """The document that `explain --format json` has to print of loops, with the circuits of the one that is compared."""
    circuits = {it["name"]: it["circuit"] or {} for it in json.loads(text)["loops"]}
    for it in told:
        it.take_circuit([place if place < len(it.edges) else None for place in circuits.get(it.loop.name, {}).get("edges", [])])
    met = sum(it.is_met for it in told)
    document = {"failed": len(told) - met, "loops": [loop_object(it) for it in told], "met": met, "version": 1}
    return json.dumps(document, sort_keys=True, separators=(",", ":")) + "\n"


# problems


def problem_edge(named, it):
    """The line of an edge (from, to, distance, delay): with the value of the first read that comes to it, or as an order."""
    one, other, distance, delay = it
    reads = [named.values[value] for value, reader, far, offset in named.problem.reads
             if (named.problem.values[value][0], reader, far, named.problem.values[value][1] - offset) == (one, other, distance, delay)]
    why = f"value {reads[0]}" if reads else "order"
    return f"edge {one} {named.operations[one]} {other} {named.operations[other]} {why} delay {delay} distance {distance}"


def problem_circuit_lines(named, why, part):
    """The lines of a circuit, with the one that a part of a text tells, where it is one."""
    if why.recurrences == 1:
        return [NO_CIRCUIT]
    by_line = {problem_edge(named, it): it for it in plain.edges_of(named.problem)}
    circuit = [by_line.get(it) for it in re.findall(r"(?m)^edge .*$", part)]
    if not circuit or None in circuit or not reasons_of.is_circuit(why, circuit):
        return [WRONG_CIRCUIT]
    delay, distance = sum(it[3] for it in circuit), sum(it[2] for it in circuit)
    return [f"circuit delay {delay} distance {distance} needs {-(-delay // distance)}", *[problem_edge(named, it) for it in circuit]]


def problem_lines(named, part, ratio, ceiling):
    """The lines of a problem, with the circuit that a part of the text tells that is compared."""
    named = named._replace(problem=plain.Problem(*named.problem, ratio, ceiling))
    why = reasons_of.reasons_of(named.problem)
    last = why.tried[-1]
    yield bounds_line("problem", named.name, named.problem, why)
    yield from unit_lines(named.problem, why, named.units, named.operations)
    yield from problem_circuit_lines(named, why, part)
    failed = [(it, plain_texts.failed_line(named, it.interval, (it.cause, *it.who))) for it in why.tried if it.cause]
    yield from reasons_of.runs([(it.interval, line.removeprefix(f"# failed {named.name} at {it.interval}: ")) for it, line in failed])
    if last.cause is None:
        yield f"try {last.interval} solution stages {max(last.times) // last.interval + 1}"
        yield f"held by {reasons_of.held_by(why, why.recurrences == 1)}"
        if reasons_of.is_least(why):
            yield "least possible"
    yield bounds_line("#", named.name, named.problem, why)
    yield from plain_texts.solution_lines(named, plain.Solution(last.interval, last.times, last.alternatives, last.numbers)) if last.cause is None else [failed[-1][1]]


def explain_problems(problems, text, ratio=6, ceiling=32):
    """The text that `explain` has to print of the problems of a text, with the circuits of the one that is compared."""
    parts, found = parts_of("problem", text), []
    for it in problems:
        found.append(list(problem_lines(it, parts.get(it.name, ""), ratio, ceiling)))
    met = sum(any(line.startswith("solution ") for line in it) for it in found)
    return "".join(f"{line}\n" for it in found for line in it) + f"problems {len(found)} met {met} failed {len(found) - met}\n"
