"""What `modsched solve` and `modsched check` print, by the letter of docs/FORMATS.md, in plain Python: it shares no code with modsched.

Of a circuit the text of FORMATS may be of any that needs the bound. So `solve_text` has a line `# circuit` alone where one stands, and `as_plain` makes that of a line of modsched
that tells a circuit indeed.
"""
import itertools
import os
import re
import sys

import plain_problems as plain

sys.path.append(os.path.join(os.path.dirname(os.path.realpath(__file__)), "..", "..", "report"))
import problem_texts as reader  # noqa: E402

CIRCUIT = "# circuit"


def hold_text(named, hold):
    unit, offset = hold
    return named.units[unit] + (f"@{offset}" if offset else "")


def register(named, numbers, value, above):
    """The register that stands `above` registers above a value's number, or None where the value is allotted to none."""
    file = named.problem.values[value][2]
    registers = named.problem.files[file]
    return f"{named.files[file]}.{(numbers[value] + above) % registers}" if registers else None


def op_line(named, found, op):
    problem, time, by = named.problem, found.times[op], found.alternatives[op]
    row, stage = time % found.ii, time // found.ii
    holds = " ".join(hold_text(named, it) for it in plain.alternatives_of(problem)[op][by])
    reads = [register(named, found.numbers, value, distance + stage) for value, reader_, distance, _ in problem.reads if reader_ == op]
    writes = [register(named, found.numbers, value, stage) for value, (maker, *_) in enumerate(problem.values) if maker == op]
    used = [" ".join([word, *there]) for word, its in (("reads", reads), ("writes", writes)) for there in [list(filter(None, its))] if there]
    return f"op {named.operations[op]} time {time} by {by} # row {row} stage {stage}: {holds}" + ("; " + ", ".join(used) if used else "")


def copies(ii, life):
    first, last = life
    return -((first - last - 1) // ii)


def value_line(named, found, value, life):
    file = named.problem.values[value][2]
    live = f"{named.files[file]}: live {life[0]} to {life[1]}"
    if named.problem.files[file]:
        return f"value {named.values[value]} number {found.numbers[value]} # {live}"
    return f"# value {named.values[value]} {live}, copies {copies(found.ii, life)}"


def initial_lines(named, found):
    problem = named.problem
    for value, (_, _, _, out) in enumerate(problem.values):
        carried = max([int(out), *[distance for of, _, distance, _ in problem.reads if of == value]])
        for distance in range(1, carried + 1):
            where = register(named, found.numbers, value, distance)
            if where:
                yield f"# initial {where} {named.values[value]} distance {distance}"


def max_live(ii, lives):
    """The most instances that live in one cycle, counted cycle by cycle."""
    counts = [0] * ii
    for first, last in lives:
        for cycle in range(first, last + 1):
            counts[cycle % ii] += 1
    return max(counts)


def file_lines(named, found, lives):
    problem, unroll = named.problem, []
    for file, registers in enumerate(problem.files):
        its = [life for life, (_, _, of, _) in zip(lives, problem.values) if of == file]
        yield f"# file {named.files[file]} max_live {max_live(found.ii, its)}" + (f" of {registers}" if registers else "")
        unroll += [] if registers else [max([1, *[copies(found.ii, it) for it in its]])]
    if unroll:
        yield f"# unroll {max(unroll)}"


def head_lines(named):
    problem = named.problem
    used, recurrences = plain.uses(problem), plain.recurrence_bound(problem)
    yield f"# {named.name} ops {len(problem.operations)} res {max(used)} rec {recurrences} mii {max(max(used), recurrences)}"
    if recurrences > 1:
        yield CIRCUIT
    yield " ".join(["# full", *[unit for unit, n in zip(named.units, used) if n == max(used)]])


def solution_lines(named, found):
    lives = plain.lives(named.problem, found.ii, found.times)
    yield f"solution {named.name} ii {found.ii} # stages {max(found.times) // found.ii + 1}"
    yield from (op_line(named, found, op) for op in range(len(found.times)))
    yield from (value_line(named, found, value, life) for value, life in enumerate(lives))
    yield from initial_lines(named, found)
    yield from file_lines(named, found, lives)
    yield "end"


def failed_line(named, ii, cause):
    if cause[0] == "registers":
        _, file, value = cause
        return f"# failed {named.name} at {ii}: registers of {named.files[file]}: {named.values[value]}"
    word, *who = plain.tried(named.problem, ii)
    ops = who[0] if word == "budget" else who[:1]
    late = f" at {who[1]}" if word == "stages" else ""
    return " ".join([f"# failed {named.name} at {ii}: {word}:", *[named.operations[op] for op in ops]]) + late


def last_line(verdicts):
    return f"# problems {len(verdicts)} met {sum(verdicts)} failed {len(verdicts) - sum(verdicts)}"


def solve_text(problems, ratio=6, ceiling=32):
    """What `solve` prints for these problems of a text, and whether each has a solution."""
    lines, met = [], []
    for named in problems:
        named = named._replace(problem=plain.Problem(*named.problem, ratio, ceiling))
        found = plain.solve(named.problem)
        lines += head_lines(named)
        met.append(isinstance(found, plain.Solution))
        lines += solution_lines(named, found) if met[-1] else [failed_line(named, found[0], found[1])]
    return "".join(f"{it}\n" for it in [*lines, last_line(met)]), met


# circuits


def is_circuit(named, ops, delay, distance):
    """Whether the operations stand on a circuit with these sums that does not fit one cycle less than the bound."""
    problem = named.problem
    if not {*ops} <= {*named.operations} or len({*ops}) < len(ops):
        return False
    stops = [named.operations.index(it) for it in ops]
    between = [
        [(its_delay, its_distance) for one, other, its_distance, its_delay in plain.edges_of(problem) if (one, other) == pair]
        for pair in zip(stops, stops[1:] + stops[:1])
    ]
    sums = {(0, 0)}
    for edges in between:
        sums = {(one + its_delay, other + its_distance) for one, other in sums for its_delay, its_distance in edges}
    return (delay, distance) in sums and delay > (plain.recurrence_bound(problem) - 1) * distance


def as_plain(problems, text):
    """The text of `solve` with the lines of circuits cut, where each tells a circuit of the problem that it stands at."""
    by_name, named, lines = {it.name: it for it in problems}, None, []
    for line in text.split("\n"):
        head = re.fullmatch(r"# (\S+) ops \d+ res \d+ rec \d+ mii \d+", line)
        named = by_name.get(head[1]) if head else named
        circuit = re.fullmatch(r"# circuit (.+) takes (-?\d+) cycles over (\d+) iterations", line)
        is_right = circuit and named and is_circuit(named, circuit[1].split(" "), int(circuit[2]), int(circuit[3]))
        lines.append(CIRCUIT if is_right else line)
    return "\n".join(lines)


# verdicts


def broken_text(named, ii, broken):
    units, ops, values = named.units, named.operations, named.values
    word, *its = broken
    if word == "slot":
        earlier, later, unit, residue = its
        held = f"{ops[later]} holds {units[unit]} twice" if earlier == later else f"{ops[earlier]} and {ops[later]} both hold {units[unit]}"
        return f"{held} in row {residue}"
    if word == "edge":
        one, other, distance, delay, early = its
        return f"{ops[one]} to {ops[other]} with delay {delay} and distance {distance}: {early} cycle{'s' if early > 1 else ''} too early"
    if word == "registers":
        file, earlier, later, number, cycle = its
        meeting = f"{values[later]} meets a later instance of itself" if earlier == later else f"{values[earlier]} and {values[later]} are both"
        return f"{meeting} in {named.files[file]}.{number} in cycle {cycle}"
    return {
        "interval": lambda: f"interval {ii} is not 1 to 16384",
        "number": lambda: f"the number of {values[its[0]]} is out of range",
        "time": lambda: f"the time of {ops[its[0]]} is out of range",
        "alternative": lambda: f"{ops[its[0]]} has no such alternative",
        "stage": lambda: f"{ops[its[0]]} is in stage 64 or later",
    }[word]()


def listed(named, solution):
    """The lists that a solution of a text gives, or what it lacks."""
    problem = named.problem
    for op in named.operations:
        if op not in solution.operations:
            return f"no time of {op}"
    for value, (_, _, file, _) in zip(named.values, problem.values):
        if value not in solution.values and problem.files[file]:
            return f"no number of {value}"
    places = [solution.operations[op][2:] for op in named.operations]
    numbers = [solution.values[value][2] if value in solution.values else 0 for value in named.values]
    return plain.Solution(solution.ii, [time for time, _ in places], [by for _, by in places], numbers)


def verdict_line(named, solution):
    """The line of a problem, and whether its solution is one."""
    found = listed(named, solution) if solution else "no solution"
    if not isinstance(found, str):
        broken = plain.first_broken(named.problem, found)
        if broken is None:
            return f"{named.name} ok ii {found.ii} stages {max(found.times) // found.ii + 1}", True
        found = broken_text(named, found.ii, broken)
    return f"{named.name} broken: {found}", False


def check_text(problems, solutions):
    """What `check` prints for the problems and the solutions of two texts, and whether each is one."""
    reader.check_names(problems, solutions)
    by_name = {it.name: it for it in solutions}
    lines, verdicts = zip(*[verdict_line(it, by_name.get(it.name)) for it in problems]) if problems else ((), ())
    return "".join(f"{it}\n" for it in [*lines, last_line(verdicts)]), verdicts


def is_meeting(named, found, earlier, later, cycle):
    """Whether an instance of the one value and instance 0 of the other, another one, are in one register in a cycle."""
    lives, registers = plain.lives(named.problem, found.ii, found.times), named.problem.files[named.problem.values[later][2]]
    (first, last), (begin, end) = lives[earlier], lives[later]
    iterations = range(-((last - cycle) // found.ii), (cycle - first) // found.ii + 1)
    others = [it for it in iterations if (found.numbers[earlier] - it - found.numbers[later]) % registers == 0 and (earlier != later or it != 0)]
    return begin <= cycle <= end and bool(others)


def without_cycles(problems, solutions, text):
    """The text of `check` without the cycles in which values meet, of which any may be told, where they do meet in them."""
    by_name, given, lines = {it.name: it for it in problems}, {it.name: it for it in solutions}, []
    for line in text.split("\n"):
        it = re.fullmatch(r"(\S+) broken: (?:(\S+) and (\S+) are both|(\S+) meets a later instance of itself) in \S+ in cycle (\d+)", line)
        if it and it[1] in given:
            named = by_name[it[1]]
            earlier, later = named.values.index(it[2] or it[4]), named.values.index(it[3] or it[4])
            is_right = is_meeting(named, listed(named, given[it[1]]), earlier, later, int(it[5]))
            line = line[: line.rindex(" ")] if is_right else line
        lines.append(line)
    return "\n".join(lines)


def answers(solve_or_check, *texts, **settings):
    """What a command prints for the bytes of its texts, its line of refusal, and its status."""
    try:
        problems = reader.read_problems(texts[0])
    except reader.Fault as fault:
        return "", f"modsched: problems: {fault}\n", 4
    try:
        if solve_or_check == "solve":
            text, verdicts = solve_text(problems, **settings)
        else:
            text, verdicts = check_text(problems, reader.read_solutions(texts[1]))
    except reader.Fault as fault:
        return "", f"modsched: solutions: {fault}\n", 5
    return text, "", int(not all(itertools.chain(verdicts)))
