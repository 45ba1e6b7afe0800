"""Why a scheduling problem has its interval, by the letter of docs/FORMATS.md, in plain Python: the units that the bound counts, the fullest set of units, what comes of each interval
that is tried, and what holds the one that is taken. It shares no code with modsched.
"""
from collections import namedtuple
from fractions import Fraction

import plain_loops
import plain_problems as plain

Tried = namedtuple("Tried", "interval cause who times alternatives lives numbers")
"""What comes of an interval: the cause why it gives no solution and whom it names, or None, the schedule, and what it gives each value. `who` is for `table` an operation, for `budget`
some, for `stages` one and its time, and for `registers` the first file that lacks them and its first value that gets none."""


# units


def choices_of(problem):
    """The alternative of each operation that the resource-constrained bound counts: those with the fewest choose first, and leave the most used unit the least used."""
    every, used, chosen = plain.alternatives_of(problem), [0] * problem.units, {}
    for op in sorted(range(len(every)), key=lambda it: (len(every[it]), it)):
        after = [[n + sum(unit == u for unit, _ in rows) for u, n in enumerate(used)] for rows in every[op]]
        chosen[op] = min(range(len(after)), key=lambda by: (max(after[by]), by))
        used = after[chosen[op]]
    return [chosen[op] for op in range(len(every))]


def users_of(problem):
    """For each unit that is used, in order, how many rows of it each operation takes that uses it: (unit, [(operation, rows)])."""
    every, chosen = plain.alternatives_of(problem), choices_of(problem)
    found = []
    for unit in range(problem.units):
        rows = [(op, sum(it == unit for it, _ in every[op][by])) for op, by in enumerate(chosen)]
        found.append((unit, [it for it in rows if it[1]]))
    return [it for it in found if it[1]]


def rows_of(problem, units):
    """How many rows of a set of units an iteration takes at least, whichever alternatives it takes."""
    return sum(min(sum(unit in units for unit, _ in rows) for rows in of) for of in plain.alternatives_of(problem))


def fullest_set(problem):
    """The fullest of the sets that are looked at, as its units in order, and the rows that it takes."""
    looked_at = set()
    for of in plain.alternatives_of(problem):
        for place in range(len(of[0])):
            looked_at.add(frozenset(rows[place][0] for rows in of if place < len(rows)))
        looked_at.add(frozenset(unit for rows in of for unit, _ in rows))
    looked_at.add(frozenset().union(*looked_at))

    def rank(units):
        return -Fraction(rows_of(problem, units), len(units)), len(units), sum(2**unit for unit in units)

    best = min(looked_at, key=rank)
    for _ in range(3):
        best = min((best | it for it in looked_at), key=rank)
    return sorted(best), rows_of(problem, best)


# registers


def need_of(lives, interval):
    """The least number of registers with which each value gets a number, or None."""
    return next((it for it in range(1, plain_loops.REGISTERS + 1) if len(plain_loops.allot(lives, interval, it)) == len(lives)), None)


def allot(problem, interval, lives):
    """The numbers of all values, or the first file that lacks registers and its first value that gets none."""
    numbers = [0] * len(lives)
    for file, registers in enumerate(problem.files):
        its = [value for value, (_, _, of, _) in enumerate(problem.values) if of == file and registers is not None]
        found = plain_loops.allot([lives[it] for it in its], interval, registers or 0)
        if len(found) < len(its):
            return file, its[len(found)]
        for value, number in zip(its, found):
            numbers[value] = number
    return numbers


# intervals


def try_interval(problem, interval):
    word, *who = plain.tried(problem, interval)
    if isinstance(word, str):
        return Tried(interval, word, who, None, None, None, None)
    lives = plain.lives(problem, interval, word)
    numbers = allot(problem, interval, lives)
    lacks = isinstance(numbers, tuple)
    return Tried(interval, "registers" if lacks else None, list(numbers) if lacks else None, word, who[0], lives, numbers)


Reasons = namedtuple("Reasons", "resources recurrences mii units rows tried")
"""The two bounds and the greater; the fullest set of units and its rows; and what comes of each interval up to the first that gives a solution."""


def reasons_of(problem):
    resources, recurrences = plain.resource_bound(problem), plain.recurrence_bound(problem)
    mii, tried = max(resources, recurrences), []
    while len(tried) <= problem.ceiling and (not tried or tried[-1].cause):
        tried.append(try_interval(problem, mii + len(tried)))
    return Reasons(resources, recurrences, mii, *fullest_set(problem), tried)


def need_of_set(reasons):
    return -(-reasons.rows // len(reasons.units))


def is_least(reasons):
    return reasons.tried[-1].interval in (reasons.recurrences, need_of_set(reasons))


def has_circuit(problem):
    """Whether some circuit does not fit one cycle less than the bound of recurrences."""
    return plain.heights(problem, plain.recurrence_bound(problem) - 1) is None


def is_circuit(reasons, edges):
    """Whether edges (from, to, distance, delay) go round, come to no operation twice, and do not fit one cycle less than the bound."""
    goes_round = all(one[1] == other[0] for one, other in zip(edges, [*edges[1:], edges[0]]))
    return goes_round and len({it[0] for it in edges}) == len(edges) and sum(it[3] for it in edges) > (reasons.recurrences - 1) * sum(it[2] for it in edges)


def held_by(reasons, tells_one_cycle):
    if len(reasons.tried) > 1:
        return reasons.tried[-2].cause
    if reasons.resources == reasons.recurrences:
        return "one cycle" if tells_one_cycle else "both"
    return "units" if reasons.resources > reasons.recurrences else "recurrences"


def crowds(interval, lives):
    """How many values live in each row, once the loop runs on and on."""
    counts = [0] * interval
    for first, last in lives:
        for cycle in range(first, last + 1):
            counts[cycle % interval] += 1
    return counts


def runs(lines):
    """Pairs of an interval and what is told of it, as lines: neighbours of which the same is told have one."""
    told = []
    for interval, text in lines:
        if told and told[-1][2] == text:
            told[-1] = told[-1][0], interval, text
        else:
            told.append((interval, interval, text))
    return [f"try {first} {text}" if first == last else f"try {first} to {last} {text}" for first, last, text in told]
