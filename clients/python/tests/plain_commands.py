"""What commands over loops print, by the letter of docs/FORMATS.md, in plain Python that has no code in common with modsched: `schedule`, `json`, `run`, `vary`, `bounds`, `edges`, `dot` and `plain`,
for texts without a fault."""
import plain_explain
import plain_graphs
import plain_variants
from plain_loops import loops_in, machine_in
from plain_printouts import are_met, bounds_line, bounds_of, choice_of, document_line, listing_lines, run_text_lines
from plain_runs import run_lines


class Refused(Exception):
    """What is said of texts that are right each, where one lacks what the other needs."""


def named(loops, names):
    """The loops of these names, or all where none is given; or what is said of the first name that no loop has."""
    for name in names:
        if all(loop.name != name for loop in loops):
            raise Refused(f"loops: no loop {name}")
    return [loop for loop in loops if not names or loop.name in names]


def check_tables(machine, loops):
    for loop in loops:
        for statement in loop.statements:
            if statement.opcode not in machine.tables:
                raise Refused(f"loops: loop {loop.name}: no table for {statement.opcode}")


def graph_lines(command, machine, loops, printed, ratio, ceiling, is_scheduled):
    """The lines of `edges` or of `dot`, and whether each loop has a kernel that is to have one."""
    # (where no schedule is told the attempts do not matter, and one with few placements is soon made)
    search = (ratio, ceiling) if is_scheduled else (1, 0)
    graphs = [plain_graphs.of_loop(plain_explain.LoopTold(machine, loop, *search)) for loop in loops]
    if command == "edges":
        return plain_graphs.every_edge_line(graphs, "loops"), True
    return plain_graphs.dot_lines(graphs, printed, is_scheduled), not is_scheduled or all(map(plain_graphs.is_met, graphs))


def lines_of(command, texts, printed, names=(), ratio=6, ceiling=32, trip=0, format="text", total=False, scheduled=False):
    """What a command prints of these texts, as lines, and whether each loop has a kernel that is to have one."""
    loops = named(loops_in(texts[-1]), names)
    if command == "plain":
        return [line for loop in loops for line in run_lines(loop, trip)] + [f"loops {len(loops)}"], True
    machine = machine_in(texts[0])
    check_tables(machine, loops)
    if command == "vary":
        return plain_variants.lines_of(machine, loops, ratio, ceiling, total, format == "json")
    if command in ("edges", "dot"):
        return graph_lines(command, machine, loops, printed, ratio, ceiling, scheduled)
    every = [bounds_of(machine, loop, ratio) for loop in loops]
    if command == "bounds":
        return [bounds_line(bounds) for bounds in every] + [f"loops {len(loops)}"], True
    choices = [choice_of(bounds, machine.registers, ceiling) for bounds in every]
    is_document = command == "json" or format == "json"
    lines = run_text_lines(choices, trip) if command == "run" else [document_line(choices)] if is_document else listing_lines(choices)
    return lines, all(are_met(choices))


def answer(command, texts, printed, **options):
    """The exit status of a command, what it prints, and what it tells on the standard error. Texts are given as bytes, options by their words. Of several circuits that need the bound `dot` may
    mark any: it is given what was printed, and takes the circuits from there."""
    try:
        lines, is_met = lines_of(command, texts, printed, **options)
    except Refused as why:
        return 5, "", f"modsched: {why}\n"
    return int(not is_met), "".join(line + "\n" for line in lines), ""
