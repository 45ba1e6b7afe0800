"""Calls with texts: what the client gives beside the bytes that tests/library_texts compares with the program's. The texts are those of the quick start."""
import os
import sys
import threading
import unittest

ROOT = os.path.dirname(os.path.dirname(os.path.dirname(os.path.dirname(os.path.realpath(__file__)))))
sys.path.insert(0, os.path.join(ROOT, "clients", "python"))
from modsched import Library, Problem, Refused, Schedule  # noqa: E402

LIBRARY = Library(os.path.join(ROOT, "out", "libmodsched.so"))


def text_of(path):
    with open(os.path.join(ROOT, "examples", path), encoding="utf-8") as file:
        return file.read()


MACHINE, LOOPS = text_of("machines/mem_alu.toml"), text_of("loops/running_sum.txt")
SEARCHES = ("schedule", "json", "explain")
# In one register the sum and what is loaded have no place at any interval, since the sum is carried on.
ONE_REGISTER = MACHINE.replace("registers = 8", "registers = 1")


def calls(machine=MACHINE, loops=LOOPS):
    """Each call with texts, with the numbers that it takes besides given as they are here, or by default."""
    return {
        **{name: lambda *numbers, call=getattr(LIBRARY, name): call(machine, loops, *numbers) for name in SEARCHES},
        "run": lambda *numbers: LIBRARY.run(machine, loops, 3, *numbers),
        "plain": lambda: LIBRARY.plain(loops, 3),
        **{name: lambda call=getattr(LIBRARY, name): call(machine, loops) for name in ("bounds", "edges", "dot")},
    }


class Texts(unittest.TestCase):
    def refused(self, call, words, of_machine, line):
        with self.assertRaises(Refused) as it:
            call()
        self.assertEqual((str(it.exception), it.exception.of_machine, it.exception.line), (words, of_machine, line))

    def test_printed(self):
        text, all_met = LIBRARY.run(MACHINE, LOOPS, 3)
        self.assertEqual(text, "loop acc trip 3\nb[0] 1\nb[1] 3\nb[2] 6\nloops 1 met 1 failed 0\n")
        self.assertIs(all_met, True)
        for name, call in calls().items():
            self.assertTrue(call().all_met, name)

    def test_no_kernel(self):
        self.assertNotEqual(ONE_REGISTER, MACHINE)
        for name, call in calls(ONE_REGISTER).items():
            self.assertIs(call().all_met, name not in (*SEARCHES, "run"), name)

    def test_defaults(self):
        """The program's: at most 32 intervals above the least one, which is 2."""
        self.assertIn(" failed to 34: registers\n", calls(ONE_REGISTER)["schedule"]().text)
        for name in (*SEARCHES, "run"):
            call = calls(ONE_REGISTER)[name]
            self.assertEqual(call(), call(6, 32), name)
            self.assertNotEqual(call(), call(6, 31), name)

    def test_settings(self):
        """The ratio and the ceiling are those that are given: at an interval of 4 the loop `force` has a kernel with two placements for each operation, and none with one
        (docs/SEMANTICS.md works it out), and with that it has one at 5."""
        machine, loops = text_of("machines/one_unit.toml"), text_of("loops/contended_unit.txt")
        for name in (*SEARCHES, "run"):
            call = calls(machine, loops)[name]
            self.assertEqual([call(*it).all_met for it in [(1, 0), (2, 0), (1, 1)]], [False, True, True], name)

    def test_refused_loops(self):
        for name, call in calls(loops="loop one\nt = no\nend\n").items():
            with self.subTest(name):
                self.refused(call, "loops: line 2: syntax", False, 2)

    def test_refused_opcode(self):
        for name, call in calls(loops="loop one\nt = sel 1 2 3\nend\n").items():
            if name != "plain":
                with self.subTest(name):
                    self.refused(call, "loops: loop one: no table for sel", False, 0)

    def test_refused_machine(self):
        for name, call in calls("units").items():
            if name != "plain":
                with self.subTest(name):
                    self.refused(call, "machine: not TOML", True, 0)

    def test_numbers(self):
        for name in (*SEARCHES, "run"):
            call = calls()[name]
            for numbers, words in [((0, 256), "^the ratio is not 1 to 64$"), ((65, 0), "^the ratio is not 1 to 64$"), ((64, 256), "^the ceiling is not 0 to 255$")]:
                self.assertRaisesRegex(ValueError, words, call, *numbers)
            # (ctypes would drop the bits above 64)
            for numbers in [((1 << 64) + 6, 32), (6, (1 << 64) + 32), (-1, 32), (6, -1)]:
                self.assertRaisesRegex(ValueError, "are not all from 0 to", call, *numbers)
        for call in (lambda trip: LIBRARY.run(MACHINE, LOOPS, trip), lambda trip: LIBRARY.plain(LOOPS, trip)):
            self.assertRaisesRegex(ValueError, "^the trip count is not 0 to 100000$", call, 100_001)
            self.assertRaisesRegex(ValueError, "are not all from 0 to", call, -1)
            self.assertRaisesRegex(ValueError, "are not all from 0 to", call, (1 << 64) + 3)

    def test_bytes(self):
        """A text is given as bytes too, and its length is that of its bytes: the last comment has characters of two bytes each."""
        loops = LOOPS + "# " + "\u00e9" * 20
        self.assertEqual(LIBRARY.run(MACHINE.encode(), loops.encode(), 3), LIBRARY.run(MACHINE, LOOPS, 3))
        self.assertEqual(LIBRARY.run(MACHINE, loops, 3), LIBRARY.run(MACHINE, LOOPS, 3))
        first = "# " + "\u00e9" * 200 + "\n" + LOOPS.rstrip("\n")
        self.assertEqual(LIBRARY.run(MACHINE, first, 3), LIBRARY.run(MACHINE, LOOPS, 3))

    def test_long(self):
        """A text that has more bytes than the client's first room."""
        text = LIBRARY.run(MACHINE, LOOPS, 20_000).text
        self.assertGreater(len(text), 1 << 16)
        self.assertTrue(text.endswith("\nb[19999] 6\nloops 1 met 1 failed 0\n"), text[-50:])
        self.assertEqual(LIBRARY.run(MACHINE, LOOPS, 3).text[-26:], "b[2] 6\nloops 1 met 1 failed 0\n"[-26:])

    def test_threads(self):
        """Threads that call one library at once get texts of their own."""
        trips = (0, 1, 2, 3, 1000, 5000)
        wanted, wrong = {trip: LIBRARY.run(MACHINE, LOOPS, trip) for trip in trips}, []

        def often(trip):
            wrong.extend(1 for _ in range(100) if LIBRARY.run(MACHINE, LOOPS, trip) != wanted[trip])

        threads = [threading.Thread(target=often, args=(trip,)) for trip in trips]
        for it in threads:
            it.start()
        for it in threads:
            it.join()
        self.assertEqual(wrong, [])

    def test_memory(self):
        """Where memory runs out each call says so. (The library is stood in for, since no memory can be refused to it from here.)"""
        library = Library(os.path.join(ROOT, "out", "libmodsched.so"))
        library._solve = library._check = lambda *_: 7
        library._texts = {name: lambda *_: 7 for name in library._texts}
        self.assertRaises(MemoryError, library.solve, Problem())
        self.assertRaises(MemoryError, library.check, Problem(), Schedule(1, 0, 0, 0, {}, {}, {}))
        for name in library._texts:
            trip = [3] if name in ("run", "plain") else []
            self.assertRaises(MemoryError, getattr(library, name), *([] if name == "plain" else [MACHINE]), LOOPS, *trip)


if __name__ == "__main__":
    unittest.main()
