"""Random problems: what the library gives, and how it judges, is what plain Python comes to by the letter of the definitions (plain_problems.py).

MODSCHED_ROUNDS tells how many problems (200), MODSCHED_SEED from which seed on (1). A difference is told with its seed."""
import os
import random
import sys
import unittest

HERE = os.path.dirname(os.path.realpath(__file__))
ROOT = os.path.dirname(os.path.dirname(os.path.dirname(HERE)))
sys.path[:0] = [HERE, os.path.join(ROOT, "clients", "python")]
import modsched  # noqa: E402
import plain_problems as plain  # noqa: E402

LIBRARY = modsched.Library(os.path.join(ROOT, "out", "libmodsched.so"))


def any_holds(chance, units):
    rows = {(chance.randrange(units), chance.choice([0, 0, 0, 1, 2, 5])) for _ in range(chance.choice([1, 1, 1, 2, 3]))}
    return sorted(rows)


def any_problem(chance):
    """A well-formed problem with few units, so that operations are in each other's way."""
    units, count = chance.randint(1, 4), chance.randint(1, 12)
    files = [chance.choice([None, 1, 2, 3, 4, 8, 32]) for _ in range(chance.randint(1, 3))]
    kinds = [(chance.randint(1, 6), [any_holds(chance, units) for _ in range(chance.choice([1, 1, 2, 3]))]) for _ in range(chance.randint(1, 4))]
    operations = [chance.randrange(len(kinds)) for _ in range(count)]
    values = [
        (maker, chance.choice([kinds[operations[maker]][0], chance.randint(0, 8)]), chance.randrange(len(files)), chance.random() < 0.15)
        for maker in range(count)
        for _ in range(chance.choice([0, 1, 1, 1, 2]))
    ]
    reads, orders = [], []
    for number, (maker, *_) in enumerate(values):
        for _ in range(chance.choice([0, 1, 1, 2])):
            reader = chance.randrange(count)
            distance = chance.choice([0, 0, 1, 2]) if maker < reader else chance.randint(1, 3)
            reads.append((number, reader, distance, chance.choice([0, 0, 0, 1, 3])))
    for _ in range(chance.choice([0, 0, 1, 3])):
        one, other = chance.randrange(count), chance.randrange(count)
        orders.append((one, other, chance.randint(-4, 6), chance.randint(0 if one < other else 1, 3)))
    ratio, ceiling = chance.choice([1, 2, 6]), chance.choice([0, 2, 12])
    if chance.random() < 0.1:
        # (such an operation collides with itself at the intervals 1, 2, 3 and 6, so that "table" comes now and then)
        kinds[operations[0]], ceiling = (1, [[(0, 0), (0, 6)]]), 0
    return plain.Problem(units, files, kinds, operations, values, reads, orders, ratio, ceiling)


def named(problem):
    """The same problem for the library."""
    it = modsched.Problem()
    for unit in range(problem.units):
        it.unit(f"u{unit}")
    for file, registers in enumerate(problem.files):
        it.file(f"f{file}", registers or 0)
    for kind, (latency, alternatives) in enumerate(problem.kinds):
        it.kind(f"k{kind}", latency, [[(f"u{unit}", offset) for unit, offset in rows] for rows in alternatives])
    for op, kind in enumerate(problem.operations):
        it.operation(f"o{op}", f"k{kind}")
    for value, (maker, lands, file, out) in enumerate(problem.values):
        it.value(f"v{value}", f"o{maker}", lands, f"f{file}", out)
    for value, reader, distance, offset in problem.reads:
        it.read(f"v{value}", f"o{reader}", distance, offset)
    for one, other, delay, distance in problem.orders:
        it.order(f"o{one}", f"o{other}", delay, distance)
    return it


def by_library(problem):
    """What the library gives, as plain.solve gives it, and of a schedule its stages and bounds."""
    try:
        found = LIBRARY.solve(named(problem), problem.ratio, problem.ceiling)
    except modsched.NoInterval as none:
        cause = none.cause if none.cause != "registers" else ("registers", int(none.file[1:]), int(none.value[1:]))
        return (none.interval, cause), None
    lists = [list(it.values()) for it in (found.times, found.alternatives, found.numbers)]
    return plain.Solution(found.interval, *lists), (found.stages, found.resources, found.recurrences)


# The kinds of breaks by the words of plain.first_broken, and which of their numbers come after the word. (`first` is `from`.)
BREAKS = {
    1: ("interval",),
    3: ("number", "value"),
    5: ("time", "operation"),
    6: ("alternative", "operation"),
    7: ("slot", "earlier", "operation", "unit", "residue"),
    8: ("edge", "first", "to", "distance", "delay", "early"),
    9: ("stage", "operation"),
    10: ("registers", "file", "other", "value", "register_number"),
}


def judged(given, schedule):
    """How the library judges: its stages, or what is broken first as plain.first_broken tells it, but for the cycle, and all numbers of the break."""
    try:
        return LIBRARY.check(given, schedule), None
    except modsched.Broken as broken:
        word, *names = BREAKS[broken.kind]
        return (word, *(broken.numbers[name] for name in names)), broken.numbers


def meet_there(problem, ii, times, numbers, told):
    """Whether in the cycle that is told two instances of the two values, or of the one, live in the register that is told."""
    lives, registers = plain.lives(problem, ii, times), problem.files[told["file"]]

    def instances(value):
        first, last = lives[value]
        every = range(-(last // ii) - 1, told["cycle"] // ii + 1)
        return {(value, it) for it in every if first <= told["cycle"] - it * ii <= last and (numbers[value] - it - told["register_number"]) % registers == 0}

    one, other = instances(told["other"]), instances(told["value"])
    return one and other and len(one | other) > 1


def damaged(chance, problem, found):
    """A solution with one number that is another, with one time some stages later, which takes no other slot, or with all times some stages later."""
    lists = [list(it) for it in found[1:]]
    ii = chance.choice([found.ii] * 8 + [found.ii + 1, 0])
    roll = chance.random()
    if roll < 0.1:
        stages = chance.choice([1, 62, 63, 64, 16384])
        lists[0] = [it + stages * found.ii for it in lists[0]]
    elif roll < 0.3:
        lists[0][chance.randrange(len(lists[0]))] += chance.choice([1, 2, 3]) * found.ii
    elif roll < 0.95:
        changed = chance.choice([it for it in lists if it])
        at = chance.randrange(len(changed))
        changed[at] = max(0, changed[at] + chance.choice([-2, -1, 1, 2, found.ii, 1048576, 1048576]))
    return plain.Solution(ii, *lists)


class Random(unittest.TestCase):
    def test_solutions(self):
        first, rounds = int(os.environ.get("MODSCHED_SEED", 1)), int(os.environ.get("MODSCHED_ROUNDS", 200))
        met, causes = 0, set()
        for seed in range(first, first + rounds):
            problem = any_problem(random.Random(seed))
            wanted, (found, besides) = plain.solve(problem), by_library(problem)
            self.assertEqual(found, wanted, f"seed {seed}: {problem}")
            if isinstance(wanted, plain.Solution):
                met += 1
                self.assertTrue(plain.is_lawful(problem, found), f"seed {seed}: {problem}")
                stages = max(wanted.times) // wanted.ii + 1
                self.assertEqual(besides, (stages, plain.resource_bound(problem), plain.recurrence_bound(problem)), f"seed {seed}: {problem}")
            else:
                causes.add(wanted[1] if isinstance(wanted[1], str) else wanted[1][0])
        if rounds >= 200:
            # (a kind of outcome that never comes would be tested by nothing)
            self.assertLess(rounds // 4, met)
            self.assertLessEqual({"table", "budget", "registers"}, causes)

    def test_defaults(self):
        """At most 6 placements for each operation, and 64 intervals. Of these two problems one has another outcome with 5, and one with 7."""
        for seed, other in [(1120, 5), (1768, 7)]:
            given = named(any_problem(random.Random(seed)))
            self.assertEqual(LIBRARY.solve(given), LIBRARY.solve(given, 6, 64))
            self.assertNotEqual(LIBRARY.solve(given), LIBRARY.solve(given, other, 64), f"any_problem is another one, and seed {seed} tests nothing now")

    def test_judgements(self):
        """A lawful schedule of which something is another: both judge it alike, and name the same thing that is broken first."""
        first, rounds = int(os.environ.get("MODSCHED_SEED", 1)), int(os.environ.get("MODSCHED_ROUNDS", 200))
        lawful, broken = 0, set()
        for seed in range(first, first + rounds):
            chance = random.Random(seed)
            problem = any_problem(chance)
            found = plain.solve(problem)
            if not isinstance(found, plain.Solution):
                continue
            given = named(problem)
            for _ in range(3):
                other = damaged(chance, problem, found)
                wanted = plain.first_broken(problem, other) or max(other.times) // other.ii + 1
                lists = [dict(zip(names, it)) for names, it in zip((given.operations, given.operations, given.values), other[1:])]
                got, told = judged(given, modsched.Schedule(other.ii, 0, 0, 0, *lists))
                what = f"seed {seed}: {other} of {problem}"
                if told is None:
                    self.assertEqual(got, wanted, what)
                    lawful += 1
                    continue
                broken.add(got[0])
                self.assertEqual(got, wanted[:-1] if got[0] == "registers" else wanted, what)
                if got[0] == "registers":
                    self.assertTrue(meet_there(problem, other.ii, other.times, other.numbers, told), what)
        if rounds >= 200:
            self.assertLess(rounds // 20, lawful)
            self.assertEqual(broken, {word for word, *_ in BREAKS.values()})


if __name__ == "__main__":
    unittest.main()
