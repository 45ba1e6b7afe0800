"""Scheduling problems by the letter of their definitions, in plain Python: bounds, attempts, lifetimes, registers and the judge of solutions.

It shares no code with modsched and is slow: it is there to be compared with. A problem is a `Problem`, whose lists are those of a draft
(docs/SEMANTICS.md, "Problems without a loop"): `kinds` are pairs of a latency and alternatives, each alternative a list of pairs (unit, offset);
`values` are (maker, lands, file, out), `reads` (value, reader, distance, offset), `orders` (from, to, delay, distance), and `files` how many
rotating registers each file has, or None for one whose values are allotted to no registers.
"""
from collections import namedtuple

Problem = namedtuple("Problem", "units files kinds operations values reads orders ratio ceiling")
Solution = namedtuple("Solution", "ii times alternatives numbers")


def latencies_of(problem):
    return [problem.kinds[kind][0] for kind in problem.operations]


def alternatives_of(problem):
    return [problem.kinds[kind][1] for kind in problem.operations]


def edges_of(problem):
    """What has to wait for what, as (from, to, distance, delay), each once, in ascending order."""
    reads = [(problem.values[value][0], reader, distance, problem.values[value][1] - offset) for value, reader, distance, offset in problem.reads]
    return sorted({*reads, *[(one, other, distance, delay) for one, other, delay, distance in problem.orders]})


# bounds


def uses(problem):
    """The operations choose one after another, those with the fewest alternatives first: each the alternative that leaves the most used unit the least used."""
    every, used = alternatives_of(problem), [0] * problem.units
    for op in sorted(range(len(every)), key=lambda it: len(every[it])):
        after = [[n + sum(unit == u for unit, _ in rows) for u, n in enumerate(used)] for rows in every[op]]
        used = min(after, key=max)
    return used


def resource_bound(problem):
    return max(uses(problem))


def longest(problem, ii):
    """For each operation the greatest length of a walk from it to each other, or None where a circuit is longer than 0."""
    count = len(problem.operations)
    walks = [[None] * count for _ in range(count)]
    for one, other, distance, delay in edges_of(problem):
        length = delay - ii * distance
        if walks[one][other] is None or walks[one][other] < length:
            walks[one][other] = length
    for by in range(count):
        for one in range(count):
            for other in range(count):
                if walks[one][by] is not None and walks[by][other] is not None:
                    length = walks[one][by] + walks[by][other]
                    if walks[one][other] is None or walks[one][other] < length:
                        walks[one][other] = length
        if any(walks[op][op] is not None and walks[op][op] > 0 for op in range(count)):
            return None
    return walks


def recurrence_bound(problem):
    """The least interval at which no circuit is longer than 0: then none is at a longer one."""
    least = 1
    while heights(problem, least) is None:
        least *= 2
    short = least // 2
    while short + 1 < least:
        middle = (short + least) // 2
        short, least = (middle, least) if heights(problem, middle) is None else (short, middle)
    return least


def heights(problem, ii):
    """For each operation the greatest length of a walk from it, with the latency of the operation at the end, or None where a circuit is longer than 0: then walks have no greatest length."""
    found, edges = latencies_of(problem), edges_of(problem)
    for _ in range(len(found) + 1):
        before = list(found)
        for one, other, distance, delay in edges:
            found[one] = max(found[one], delay - ii * distance + found[other])
        # (without such a circuit the longest walk comes to no operation twice, so it has fewer edges than there are operations)
        if found == before:
            return found
    return None


# attempts


def slots(rows, time, ii):
    return [(unit, (time + offset) % ii) for unit, offset in rows]


def collides(rows, ii):
    return len({*slots(rows, 0, ii)}) < len(rows)


def attempt(problem, ii):
    """The times and alternatives, or the cause."""
    found = tried(problem, ii)
    return found[0] if isinstance(found[0], str) else found


def tried(problem, ii):
    """The times and alternatives, or the cause and its culprit: an operation, those that have no place, or one and its time."""
    every, edges, height = alternatives_of(problem), edges_of(problem), heights(problem, ii)
    count, placed, last = len(every), {}, {}
    usable = [[number for number, rows in enumerate(of) if not collides(rows, ii)] for of in every]
    if not all(usable):
        return "table", usable.index([])
    for _ in range(problem.ratio * count):
        waiting = [op for op in range(count) if op not in placed]
        if not waiting:
            break
        op = max(waiting, key=lambda it: (height[it], -it))
        early = max([0, *[placed[one][0] + delay - ii * distance for one, other, distance, delay in edges if other == op and one != op and one in placed]])
        held = {slot: it for it, (time, by) in placed.items() for slot in slots(every[it][by], time, ii)}
        free = ((time, by) for time in range(early, early + ii) for by in usable[op] if not held.keys() & {*slots(every[op][by], time, ii)})
        time, by = next(free, (early if op not in last or last[op] < early else last[op] + 1, usable[op][0]))
        gone = {held[slot] for slot in slots(every[op][by], time, ii) if slot in held}
        gone |= {other for one, other, distance, delay in edges if one == op and other != op and other in placed and placed[other][0] + ii * distance < time + delay}
        for it in gone:
            del placed[it]
        placed[op], last[op] = (time, by), time
    if len(placed) < count:
        return "budget", [op for op in range(count) if op not in placed]
    late = next((op for op in range(count) if placed[op][0] // ii >= 64), None)
    if late is not None:
        return "stages", late, placed[late][0]
    return [placed[op][0] for op in range(count)], [placed[op][1] for op in range(count)]


# registers


def lives(problem, ii, times):
    """The first and the last cycle of each value in iteration 0."""
    latency = latencies_of(problem)
    landings = [times[maker] + lands for maker, lands, _, _ in problem.values]
    end = max([ii * (max(times) // ii + 1), *[time + it for time, it in zip(times, latency)], *landings])
    found = []
    for number, (_, _, _, out) in enumerate(problem.values):
        reads = [(times[reader] + offset + ii * distance, distance) for value, reader, distance, offset in problem.reads if value == number]
        carried = max([int(out), *[distance for _, distance in reads]])
        first = min(landings[number], ii) if carried else landings[number]
        found.append((first, max([landings[number] if not reads else 0, *[cycle for cycle, _ in reads], end if out else 0])))
    return found


def meet(ii, registers, one, number, other, its, is_same):
    """The first cycle in which an instance of one stands where instance 0 of the other does, or None."""
    cycles = []
    span = (max(one[1], other[1]) - min(one[0], other[0])) // ii + 2
    for iteration in range(-span, span + 1):
        if (number - iteration - its) % registers == 0 and not (is_same and iteration == 0):
            first, last = max(one[0] + iteration * ii, other[0]), min(one[1] + iteration * ii, other[1])
            if first <= last:
                cycles.append(first)
    return min(cycles, default=None)


def number_values(problem, ii, found):
    """The least numbers, file by file, or the first file that lacks a register with its first value that gets none."""
    numbers = [0] * len(problem.values)
    for file, registers in enumerate(problem.files):
        before = []
        for value in [it for it, (_, _, of, _) in enumerate(problem.values) if of == file and registers is not None]:
            for number in range(registers):
                if all(meet(ii, registers, found[it], numbers[it], found[value], number, False) is None for it in before) and (
                    meet(ii, registers, found[value], number, found[value], number, True) is None
                ):
                    numbers[value] = number
                    before.append(value)
                    break
            else:
                return file, value
    return numbers


def solve(problem):
    """The solution, or the last interval that is tried and its cause."""
    mii = max(resource_bound(problem), recurrence_bound(problem))
    for ii in range(mii, mii + problem.ceiling + 1):
        got = attempt(problem, ii)
        if isinstance(got, tuple):
            numbers = number_values(problem, ii, lives(problem, ii, got[0]))
            if isinstance(numbers, list):
                return Solution(ii, *got, numbers)
            got = ("registers", *numbers)
    return ii, got


# solutions of others


def is_lawful(problem, solution):
    _, times, choices, numbers = solution
    count = len(problem.operations)
    if len(numbers) != len(problem.values) or len(times) != count or len(choices) != count or min([0, *times, *choices, *numbers]) < 0:
        return False
    return first_broken(problem, solution) is None


def first_broken(problem, solution):
    """What lists of the right lengths break first, or None: a word and the numbers that belong to it."""
    ii, times, choices, numbers = solution
    if not 1 <= ii <= 16384:
        return ("interval",)
    for value, ((_, _, file, _), number) in enumerate(zip(problem.values, numbers)):
        if number >= (problem.files[file] or 1):
            return "number", value
    return broken_schedule(problem, ii, times, choices) or broken_registers(problem, ii, times, numbers)


def broken_schedule(problem, ii, times, choices):
    every = alternatives_of(problem)
    for op, of in enumerate(every):
        if times[op] >= 64 * 16384:
            return "time", op
        if choices[op] >= len(of):
            return "alternative", op
    held = {}
    for op, of in enumerate(every):
        for slot in slots(of[choices[op]], times[op], ii):
            if slot in held:
                return "slot", held[slot], op, *slot
            held[slot] = op
    for one, other, distance, delay in edges_of(problem):
        early = times[one] + delay - ii * distance - times[other]
        if early > 0:
            return "edge", one, other, distance, delay, early
    return next((("stage", op) for op, time in enumerate(times) if time // ii >= 64), None)


def broken_registers(problem, ii, times, numbers):
    """Of the first file that is broken the first value that meets one before it or itself, the first one that it meets, the register, and a cycle."""
    found = lives(problem, ii, times)
    for file, registers in enumerate(problem.files):
        of = [it for it, value in enumerate(problem.values) if value[2] == file and registers is not None]
        for place, value in enumerate(of):
            for it in of[: place + 1]:
                cycle = meet(ii, registers, found[it], numbers[it], found[value], numbers[value], it == value)
                if cycle is not None:
                    return "registers", file, it, value, numbers[value], cycle
    return None
