"""Two taps of a filter, whose interval, times and registers are worked out by hand (tests/library.d/worked.c)."""
import os
import sys
import unittest

ROOT = os.path.dirname(os.path.dirname(os.path.dirname(os.path.dirname(os.path.realpath(__file__)))))
sys.path.insert(0, os.path.join(ROOT, "clients", "python"))
from modsched import AtFault, Library, NoInterval, Problem  # noqa: E402

LIBRARY = Library(os.path.join(ROOT, "out", "libmodsched.so"))


def taps(registers):
    it = Problem()
    for unit in ("port0", "port1", "mac"):
        it.unit(unit)
    it.file("ring", registers)
    it.kind("load", 3, [[("port0", 0)], [("port1", 0)]])
    it.kind("tap", 2, [[("mac", 0)]])
    for load in ("a", "b", "c", "d"):
        it.operation(load, "load")
        it.value(f"{load}v", load, 3, "ring")
    it.operation("first", "tap")
    it.operation("second", "tap")
    it.value("s", "first", 2, "ring")
    it.value("t", "second", 2, "ring", out=True)
    for value, reader, distance, offset in [("av", "first", 0, 0), ("bv", "first", 0, 0), ("t", "first", 1, 1), ("cv", "second", 0, 0),
                                            ("dv", "second", 0, 0), ("s", "second", 0, 1)]:
        it.read(value, reader, distance, offset)
    return it


class Solve(unittest.TestCase):
    def test_two_taps(self):
        found = LIBRARY.solve(taps(16), 6, 20)
        self.assertEqual((found.interval, found.stages, found.resources, found.recurrences), (2, 3, 2, 2))
        self.assertEqual(found.times, {"a": 0, "b": 0, "c": 1, "d": 1, "first": 3, "second": 4})
        self.assertEqual(found.alternatives, {"a": 0, "b": 1, "c": 0, "d": 1, "first": 0, "second": 0})
        self.assertEqual(found.numbers, {"av": 0, "bv": 1, "cv": 0, "dv": 1, "s": 1, "t": 3})

    def test_few_registers(self):
        with self.assertRaises(NoInterval) as it:
            LIBRARY.solve(taps(4), 6, 0)
        self.assertEqual((it.exception.interval, it.exception.cause, it.exception.file), (2, "registers", "ring"))

    def test_faults(self):
        with self.assertRaises(AtFault) as it:
            LIBRARY.solve(Problem())
        self.assertEqual((it.exception.kind, it.exception.part, it.exception.numbers[0]), (1, 1, 0))
        with self.assertRaises(ValueError):
            LIBRARY.solve(taps(16), 0)
        with self.assertRaises(KeyError):
            taps(16).read("nobody", "first")


if __name__ == "__main__":
    unittest.main()
