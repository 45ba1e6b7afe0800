"""What `modsched edges` and `modsched dot` print of loops and of scheduling problems, by the letter of docs/FORMATS.md, in plain Python: it shares no code with modsched.

Of several circuits that need the bound any may be bold, so `dot` is given the text that is compared, and takes the circuit from there, where it is one.
"""
import re
from collections import namedtuple

import plain_explain
import plain_problems as plain
import plain_reasons

Graph = namedtuple("Graph", "word name problem why operations arrows")
"""Of a loop or a problem: the word that begins its lines, its name, its problem and `plain_reasons.Reasons`; of each operation its name and its opcode or kind; and the arrows, in order: (from, to,
distance, delay), and what an edge line and a graph tell of it before its delay."""


def of_loop(told):
    """The graph of a `plain_explain.LoopTold`."""
    operations = [(name, it.opcode) for name, it in zip(told.names, told.loop.statements)]
    return Graph("loop", told.loop.name, told.problem, told.why, operations, [(it[:4], it.kind) for it in told.edges])


def of_problem(named, ratio, ceiling):
    """The graph of a problem of a text: an arrow for each read, and then for each order."""
    problem = plain.Problem(*named.problem, ratio, ceiling)
    kinds = [named.kinds[it] for it in problem.operations]
    reads = [((problem.values[value][0], reader, distance, problem.values[value][1] - offset), f"value {named.values[value]}") for value, reader, distance, offset in problem.reads]
    orders = [((one, other, distance, delay), "order") for one, other, delay, distance in problem.orders]
    return Graph("problem", named.name, problem, plain_reasons.reasons_of(problem), list(zip(named.operations, kinds)), reads + orders)


def is_met(graph):
    return graph.why.tried[-1].cause is None


def edges_lines(graph):
    yield plain_explain.bounds_line(graph.word, graph.name, graph.problem, graph.why)
    found = zip(graph.operations, plain.latencies_of(graph.problem), plain.heights(graph.problem, graph.why.mii))
    for op, ((name, opcode), latency, height) in enumerate(found):
        yield f"op {op} {name} {opcode} latency {latency} height {height}"
    for (one, other, distance, delay), why in graph.arrows:
        yield f"edge {one} {graph.operations[one][0]} {other} {graph.operations[other][0]} {why} delay {delay} distance {distance}"


def every_edge_line(graphs, word):
    return [line for it in graphs for line in edges_lines(it)] + [f"{word} {len(graphs)}"]


# graphs


def quoted(name):
    return name.replace("\\", "\\\\").replace('"', '\\"')


def marked(graph, lines):
    """The edges of the circuit that lines of arrows mark; a word where they are none that needs the bound."""
    if not plain_reasons.has_circuit(graph.problem):
        return set()
    found = {edge for (edge, _), line in zip(graph.arrows, lines) if "style=bold" in line or "color=red" in line}
    after, circuit = {it[0]: it for it in found}, []
    while found and len(circuit) < len(found) and (not circuit or circuit[-1][1] in after):
        circuit.append(after[circuit[-1][1]] if circuit else min(found))
    is_right = circuit and len({*circuit}) == len(found) and plain_reasons.is_circuit(graph.why, circuit)
    return found if is_right else {"no circuit"}


def arrow_lines(graph, circuit, is_scheduled):
    for edge, why in graph.arrows:
        one, other, distance, delay = edge
        far = f" @{distance}" if distance else ""
        if is_scheduled:
            attributes = (",style=dashed,constraint=false" if distance else "") + (",color=red,penwidth=2" if edge in circuit else "")
        else:
            attributes = ",style=bold" if edge in circuit else ""
        yield f'  {one} -> {other} [label="{quoted(why)} {delay}{far}"{attributes}]'


def node_lines(graph, is_scheduled):
    last = graph.why.tried[-1]
    for op, (name, opcode) in enumerate(graph.operations):
        words = quoted(f"{name} {opcode}")
        if is_scheduled and is_met(graph):
            stage, row = divmod(last.times[op], last.interval)
            yield f'  {op} [label="{words}\\ntime {last.times[op]} row {row} stage {stage}",fillcolor={stage % 9 + 1}]'
        else:
            yield f'  {op} [label="{words}"]'


def graph_lines(graph, part, is_scheduled):
    why, last = graph.why, graph.why.tried[-1]
    label = f"{quoted(graph.name)} res {why.resources} rec {why.recurrences} mii {why.mii}"
    if is_scheduled:
        label += f" failed to {last.interval}: {last.cause}" if last.cause else f" ii {last.interval} stages {max(last.times) // last.interval + 1}"
    yield f'digraph "{quoted(graph.name)}" {{'
    yield f'  label="{label}"'
    yield "  node [shape=box" + (",style=filled,colorscheme=pastel19]" if is_scheduled and is_met(graph) else "]")
    yield from node_lines(graph, is_scheduled)
    circuit = marked(graph, re.findall(r"(?m)^  \d+ -> .*$", part))
    if "no circuit" in circuit:
        yield "  (the circuit that is marked is none, or does not need the bound)"
    yield from arrow_lines(graph, circuit, is_scheduled)
    yield "}"


def dot_lines(graphs, text, is_scheduled=False):
    """The lines that `dot` has to print of these graphs, with the circuits of the text that is compared."""
    parts = re.split(r"(?m)^(?=digraph )", text)[1:]
    parts += [""] * (len(graphs) - len(parts))
    return [line for it, part in zip(graphs, parts) for line in graph_lines(it, part, is_scheduled)]
