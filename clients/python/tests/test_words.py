"""Each fault and each break that the library tells, in words with the names of the problem. What is wrong is worked out by hand: one thing of a sound problem
or of a lawful schedule is changed."""
import dataclasses
import os
import sys
import unittest

ROOT = os.path.dirname(os.path.dirname(os.path.dirname(os.path.dirname(os.path.realpath(__file__)))))
sys.path.insert(0, os.path.join(ROOT, "clients", "python"))
from modsched import AtFault, Broken, Library, NoInterval, Problem, Schedule  # noqa: E402
from modsched.words import break_in_words  # noqa: E402

LIBRARY = Library(os.path.join(ROOT, "out", "libmodsched.so"))


def pair(registers=4, distance=1):
    """A load and a sum that it is added to, on units of their own. Both read what they read when it has landed: at an interval of 1 the load is issued in
    0 and the sum in 3. What is loaded lives in 3; the sum from 1 to 4, when the next one reads it and the last stage ends."""
    it = Problem()
    it.unit("memory")
    it.unit("adder")
    it.file("ring", registers)
    it.file("plain")
    it.kind("load", 3, [[("memory", 0)]])
    it.kind("add", 1, [[("adder", 0)], [("adder", 0), ("memory", 1)]])
    it.operation("first", "load")
    it.operation("second", "add")
    it.value("x", "first", 3, "ring")
    it.value("s", "second", 1, "ring", out=True)
    it.read("x", "second")
    it.read("s", "second", distance)
    it.order("first", "second", 0)
    return it


# What is loaded has the number 0. From 1 to 4 the sum meets it in 1 to 4, where it stands in 2, 1, 0 and -1; it meets itself up to three iterations apart.
LAWFUL = Schedule(1, 4, 1, 1, {"first": 0, "second": 3}, {"first": 0, "second": 0}, {"x": 0, "s": 3})


class Words(unittest.TestCase):
    def fault(self, problem, words, kind, part=0, numbers=(0, 0, 0)):
        """Both calls tell it."""
        for call in (lambda: LIBRARY.solve(problem), lambda: LIBRARY.check(problem, LAWFUL)):
            with self.assertRaises(AtFault) as it:
                call()
            self.assertEqual(str(it.exception), words)
            self.assertEqual((it.exception.kind, it.exception.part, it.exception.numbers), (kind, part, numbers))

    def broken(self, words, kind, told, problem=None, **changes):
        schedule = dataclasses.replace(LAWFUL, **changes)
        with self.assertRaises(Broken) as it:
            LIBRARY.check(problem or pair(8), schedule)
        self.assertEqual((str(it.exception), it.exception.kind), (words, kind))
        self.assertEqual({name: it for name, it in it.exception.numbers.items() if it}, told)

    def test_counts(self):
        it = Problem()
        self.assertRaisesRegex(AtFault, "^the units are 0, not 1 to 64$", LIBRARY.solve, it)
        it.unit("memory")
        self.assertRaisesRegex(AtFault, "^the kinds are 0, not 1 to 256$", LIBRARY.solve, it)
        it.kind("load", 3, [[("memory", 0)]])
        self.assertRaisesRegex(AtFault, "^the operations are 0, not 1 to 128$", LIBRARY.solve, it)
        it = pair()
        it.orders *= 20_000
        self.fault(it, "the orders are 20000, not 0 to 16,384", 1, 7, (20_000, 0, 0))
        it.reads *= 2_000
        self.fault(it, "the reads are 4000, not 0 to 2,048", 1, 6, (4_000, 0, 0))
        it = pair()
        for number in range(255):
            it.value(f"v{number}", "first", 3, "ring")
        with self.assertRaisesRegex(AtFault, "^the values are 257, not 0 to 256$"):
            LIBRARY.solve(it)
        it = pair()
        for number in range(7):
            it.file(f"f{number}")
        self.fault(it, "the register files are 9, not 0 to 8", 1, 2, (9, 0, 0))

    def test_files_and_kinds(self):
        self.fault(pair(257), "file ring: the registers are not 0 to 256", 4)
        self.fault(pair(1 << 32), "file ring: the registers are not 0 to 256", 4)
        self.fault(pair(-1), "file ring: the registers are not 0 to 256", 4)
        for latency in (0, 65, (1 << 64) + 1, -1):
            it = pair()
            it.kinds["add"] = (latency, it.kinds["add"][1])
            self.fault(it, "kind add: the latency is not 1 to 64", 5, 0, (1, 0, 0))
        for alternatives, words, kind, numbers in [
            ([], "kind add: the alternatives are not 1 to 16", 6, (1, 0, 0)),
            ([[(0, 0)], []], "kind add, alternative 1: the holds are not 1 to 16", 7, (1, 1, 0)),
            ([[(0, 0), (2, 0)]], "kind add, alternative 0, hold 1: no such unit", 8, (1, 0, 1)),
            ([[(0, 0)], [(0, 64)]], "kind add, alternative 1, hold 0: the offset is not 0 to 63", 9, (1, 1, 0)),
            ([[(0, 0)], [(0, -1)]], "kind add, alternative 1, hold 0: the offset is not 0 to 63", 9, (1, 1, 0)),
            ([[(0, 1), (1, 0), (0, 1)]], "kind add, alternative 0, hold 2: it is the same as one before it", 10, (1, 0, 2)),
        ]:
            it = pair()
            it.kinds["add"] = (1, alternatives)
            self.fault(it, words, kind, 0, numbers)

    def test_operations_and_values(self):
        it = pair()
        it.operations["second"] = 2
        self.fault(it, "operation second: no such kind", 11, 0, (1, 0, 0))
        for value, words, kind in [
            ((2, 1, 0, 0), "value s: no such operation to make it", 12),
            ((1, 65, 0, 0), "value s: it does not land 0 to 64 cycles after the issue", 13),
            ((1, (1 << 32) + 1, 0, 0), "value s: it does not land 0 to 64 cycles after the issue", 13),
            ((1, 1, 0, 2), "value s: no such register file", 14),
        ]:
            it = pair()
            it.values["s"] = value
            self.fault(it, words, kind, 0, (1, 0, 0))

    def test_reads(self):
        for read, words, kind in [
            ((2, 1, 1, 0), "read 1: no such value", 15),
            ((1, 2, 1, 0), "read 1: no such operation to read it", 16),
            ((1, 1, 17, 0), "read 1: the distance is not 0 to 16", 17),
            ((1, 1, 1 << 32, 0), "read 1: the distance is not 0 to 16", 17),
            ((1, 1, 1, 64), "read 1: the offset is not 0 to 63", 18),
            ((1, 1, 0, 0), "read 1: at distance 0 the maker does not come before the reader", 19),
        ]:
            it = pair()
            it.reads[1] = read
            self.fault(it, words, kind, 0, (1, 0, 0))

    def test_orders(self):
        for order, words, kind in [
            ((2, 1, 0, 0), "order 0: no such operation to come first", 20),
            ((0, 2, 0, 0), "order 0: no such operation to wait", 21),
            ((0, 1, 65, 0), "order 0: the delay is not -64 to 64", 22),
            ((0, 1, -65, 0), "order 0: the delay is not -64 to 64", 22),
            ((0, 1, 1 << 32, 0), "order 0: the delay is not -64 to 64", 22),
            ((0, 1, 0, 256), "order 0: the distance is not 0 to 255", 23),
            ((1, 0, 0, 0), "order 0: at distance 0 the first operation does not come before the second", 24),
        ]:
            it = pair()
            it.orders[0] = order
            self.fault(it, words, kind)

    def test_names(self):
        """What has no name yet is refused before the library is asked, and so is a name that is there already."""
        it = pair()
        for call in (
            lambda: it.kind("mul", 1, [[("multiplier", 0)]]), lambda: it.operation("third", "mul"), lambda: it.value("y", "third", 1, "ring"),
            lambda: it.value("y", "first", 1, "heap"), lambda: it.read("y", "first"), lambda: it.read("x", "third"), lambda: it.order("first", "third", 1),
        ):
            self.assertRaises(KeyError, call)
        for call in (
            lambda: it.unit("adder"), lambda: it.file("ring"), lambda: it.kind("add", 1, []), lambda: it.operation("first", "load"),
            lambda: it.value("x", "first", 1, "ring"),
        ):
            self.assertRaises(ValueError, call)
        self.assertRaises(KeyError, LIBRARY.check, it, dataclasses.replace(LAWFUL, times={"first": 0}))

    def test_defaults(self):
        """What a part has that is not told: a read and an order are within the iteration, a file is not allotted, a value is not live at the end."""
        it = pair()
        it.order("second", "first", 0)
        self.fault(it, "order 1: at distance 0 the first operation does not come before the second", 24, 0, (1, 0, 0))
        it = pair()
        it.read("s", "first")
        self.fault(it, "read 2: at distance 0 the maker does not come before the reader", 19, 0, (2, 0, 0))
        it = pair(8)
        it.value("y", "first", 3, "plain")
        self.assertEqual((it.files["plain"], it.values["y"]), (0, (0, 3, 0, 1)))
        self.broken("value y: its file has no register of this number", 3, {"value": 2}, it, numbers={"x": 0, "s": 3, "y": 1})

    def test_made_of_parts(self):
        """A problem that is made of its parts, as numbers, knows their names too."""
        it = pair()
        other = Problem(*(getattr(it, part.name) for part in dataclasses.fields(it)))
        self.assertEqual(LIBRARY.solve(other, 6, 4), LIBRARY.solve(it, 6, 4))
        self.assertRaises(ValueError, other.unit, "adder")
        other.read("s", "second", 2)
        self.assertEqual(other.reads[-1], (1, 1, 2, 0))

    def test_many(self):
        """As many of each part as there may be, and what is wrong with the last of them."""
        it = Problem()
        for number in range(64):
            it.unit(f"u{number}")
        for number in range(8):
            it.file(f"f{number}", 256)
        for number in range(256):
            it.kind(f"k{number}", 64, [[(f"u{63 - number % 64}", row) for row in range(16)]] * 16)
        for number in range(128):
            it.operation(f"o{number}", f"k{number + 128}")
            for which in range(2):
                it.value(f"v{2 * number + which}", f"o{number}", 64, f"f{number % 8}")
        for number in range(2_048):
            it.read(f"v{number % 256}", f"o{number % 128}", 1, 63)
        for number in range(16_384):
            it.order(f"o{number % 128}", f"o{number // 128}", -64, 255)
        found = LIBRARY.solve(it)
        self.assertEqual(LIBRARY.check(it, found), found.stages)
        self.assertEqual((len(found.times), len(found.alternatives), len(found.numbers)), (128, 128, 256))
        # (each unit is held for 16 cycles by two of the operations)
        self.assertEqual((found.interval, found.resources), (32, 32))
        times = {**found.times, "o127": 1_048_576}
        with self.assertRaisesRegex(Broken, "^operation o127: the time is not 0 to 1,048,575$"):
            LIBRARY.check(it, dataclasses.replace(found, times=times))
        it.kinds["k255"] = (64, [*it.kinds["k255"][1][:15], [(0, 0)] * 2])
        self.assertRaisesRegex(AtFault, "^kind k255, alternative 15, hold 1: it is the same as one before it$", LIBRARY.solve, it)

    def test_settings(self):
        for ratio, ceiling, words in [(0, 0, "ratio"), (65, 0, "ratio"), (1 << 64, 0, "ratio"), (-1, 0, "ratio"), (1, 256, "ceiling"), (1, -1, "ceiling")]:
            self.assertRaisesRegex(ValueError, f"^the {words} is not", LIBRARY.solve, pair(), ratio, ceiling)

    def test_lawful(self):
        self.assertEqual(LIBRARY.check(pair(8), LAWFUL), 4)
        # (4 registers: 3 is -1; 5 are enough)
        self.assertEqual(LIBRARY.solve(pair(5)), LAWFUL)
        with self.assertRaises(NoInterval) as it:
            LIBRARY.solve(pair(4), ceiling=0)
        self.assertEqual(str(it.exception), "no interval up to 1 works: registers, s in ring")
        # (of one register the sum needs another at each interval, since it is carried on)
        with self.assertRaises(NoInterval) as it:
            LIBRARY.solve(pair(1))
        self.assertEqual((str(it.exception), it.exception.value), ("no interval up to 65 works: registers, s in ring", "s"))
        # An operation that holds a unit in the cycles 0 and 1 collides with itself at an interval of 1, to which the other bound does not come.
        other = pair(8)
        other.kinds["load"] = (3, [[(0, 0), (0, 2)]])
        with self.assertRaises(NoInterval) as it:
            LIBRARY.solve(other, ceiling=0)
        self.assertEqual((str(it.exception), it.exception.file, it.exception.value), ("no interval up to 2 works: table", None, None))

    def test_other_order(self):
        """The names of a schedule may stand in any order."""
        backward = [dict(reversed(it.items())) for it in ({"first": 0, "second": 3}, {"first": 0, "second": 1}, LAWFUL.numbers)]
        problem = pair(8)
        problem.kinds["add"] = (1, [[(1, 0)], [(1, 0), (1, 4)]])
        # (the second alternative holds the adder twice, and the interval is 3 then)
        self.assertEqual(LIBRARY.check(problem, Schedule(3, 0, 0, 0, *backward)), 2)
        self.assertRaises(KeyError, LIBRARY.check, problem, dataclasses.replace(LAWFUL, alternatives={"first": 0}))
        self.assertRaises(KeyError, LIBRARY.check, problem, dataclasses.replace(LAWFUL, numbers={"x": 0}))

    def test_ranges(self):
        for interval in (0, 16_385, 1 << 64, -1):
            self.broken("the interval is not 1 to 16,384", 1, {}, interval=interval)
        for number in (8, 1 << 64, -1):
            self.broken("value s: its file has no register of this number", 3, {"value": 1}, numbers={"x": 0, "s": number})
        for time in (1_048_576, 1 << 64, -1):
            self.broken("operation second: the time is not 0 to 1,048,575", 5, {"operation": 1}, times={"first": 0, "second": time})
        for alternative in (2, 1 << 64, -1):
            self.broken("operation second: no such alternative", 6, {"operation": 1}, alternatives={"first": 0, "second": alternative})

    def test_slots(self):
        words = "operation second takes unit memory at residue 0, which operation first has"
        self.broken(words, 7, {"operation": 1}, alternatives={"first": 0, "second": 1})
        it = pair(8)
        it.kinds["load"] = (3, [[(0, 0), (0, 2)]])
        self.broken("operation first takes unit memory at residue 1, which it has already", 7, {"residue": 1}, it, interval=2, times={"first": 1, "second": 4})

    def test_edges(self):
        words = "operation second comes 1 cycle too early after operation first"
        self.broken(words, 8, {"to": 1, "delay": 3, "early": 1}, times={"first": 0, "second": 2})
        words = "operation second comes 3 cycles too early after operation first"
        self.broken(words, 8, {"to": 1, "delay": 3, "early": 3}, times={"first": 3, "second": 3})
        # The load may be issued 2 cycles before the sum at the most.
        it = pair(8)
        it.order("second", "first", -2, 1)
        words = "operation first comes 2 cycles too early after operation second"
        self.broken(words, 8, {"first": 1, "distance": 1, "delay": -2, "early": 2}, it, times={"first": 0, "second": 5})

    def test_lengths(self):
        """The client gives a number for each value and a time for each operation, so these come from other callers alone."""
        self.assertEqual(break_in_words({}, 2, {}), "there is not one number for each value")
        self.assertEqual(break_in_words({}, 4, {}), "there is not one time for each operation")

    def test_stages(self):
        self.broken("operation first is in stage 64 or later", 9, {}, times={"first": 64, "second": 67})

    def test_registers(self):
        # The sum in 2: what is loaded two iterations before stands there in 3 - 2.
        words = "values x and s stand in one register of file ring in cycle 1"
        self.broken(words, 10, {"value": 1, "register_number": 2, "cycle": 1}, numbers={"x": 0, "s": 2})
        # The sum lives for four cycles, so that two of it, three iterations apart, are in one of three registers: in 1 or in 4.
        it = pair(3)
        it.values["x"] = (0, 3, 0, 1)
        with self.assertRaisesRegex(Broken, "^instances of value s stand in one register of file ring in cycle [14]$"):
            LIBRARY.check(it, dataclasses.replace(LAWFUL, numbers={"x": 0, "s": 1}))


if __name__ == "__main__":
    unittest.main()
