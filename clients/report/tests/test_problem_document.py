"""The reader of what `solve` prints and the document of problems, on texts that were worked out by hand from docs/FORMATS.md, and on the same texts with one
fault each."""
from __future__ import annotations

import json
import os
import subprocess
import sys
import tempfile
import unittest

CLIENT = os.path.dirname(os.path.dirname(os.path.realpath(__file__)))
sys.path.insert(0, CLIENT)
from document import Mismatch  # noqa: E402
from lines import Misfit  # noqa: E402
from problem_document import join_problems  # noqa: E402
from problem_texts import Fault, read_problems  # noqa: E402
from solve_lines import Failure, read_solve  # noqa: E402

# The running sum: what is loaded in cycle 0 lands in 3, when the sum is issued; it lands in 4, but then the memory unit has the load of the iteration two later in
# this row, so the store is issued in 5. The sum of the iteration before is read in 3, and in 3 + 2 that of this one is: it lives from 2 to 5.
SUM = """machine m
units mem alu spare
file r rotating 8
kind load latency 3 | mem
kind store latency 1 | mem
kind add latency 1 | alu
problem acc
op t load
op s add
op b store
value t of t lands 3 in r
value s of s lands 1 in r
read s t
read s s distance 1
read b s
end
"""
SUM_SOLVED = """# acc ops 3 res 2 rec 1 mii 2
# full mem
solution acc ii 2 # stages 3
op t time 0 by 0 # row 0 stage 0: mem; writes r.0
op s time 3 by 0 # row 1 stage 1: alu; reads r.1 r.3, writes r.2
op b time 5 by 0 # row 1 stage 2: mem; reads r.3
value t number 0 # r: live 3 to 3
value s number 1 # r: live 2 to 5
# initial r.2 s distance 1
# file r max_live 3 of 8
end
# problems 1 met 1 failed 0
"""
SUM_DOCUMENT = {
    "failed": 0,
    "met": 1,
    "problems": [
        {
            "circuit": None,
            "edges": [
                {"delay": 3, "distance": 0, "from": 0, "kind": "value", "to": 1, "value": 0},
                {"delay": 1, "distance": 1, "from": 1, "kind": "value", "to": 1, "value": 1},
                {"delay": 1, "distance": 0, "from": 1, "kind": "value", "to": 2, "value": 1},
            ],
            "files": [{"name": "r", "registers": 8}],
            "kernel": {
                "files": [{"live": [2, 3], "max_live": 3}],
                "held_by": "units",
                "idle_units": 1,
                "ii": 2,
                "initial": [{"distance": 1, "register": 2, "value": 1}],
                "slots": [{"operation": 0, "row": 0, "unit": 0}, {"operation": 2, "row": 1, "unit": 0}, {"operation": 1, "row": 1, "unit": 1}],
                "stages": 3,
                "units": ["mem", "alu"],
                "values": [{"first": 3, "last": 3, "register": 0}, {"first": 2, "last": 5, "register": 1}],
            },
            "mii": 2,
            "name": "acc",
            "operations": [
                {"alternative": 0, "kind": "load", "latency": 3, "name": "t", "reads": [], "row": 0, "stage": 0, "time": 0, "writes": ["r.0"]},
                {"alternative": 0, "kind": "add", "latency": 1, "name": "s", "reads": ["r.1", "r.3"], "row": 1, "stage": 1, "time": 3, "writes": ["r.2"]},
                {"alternative": 0, "kind": "store", "latency": 1, "name": "b", "reads": ["r.3"], "row": 1, "stage": 2, "time": 5, "writes": []},
            ],
            "recurrences": 1,
            "resources": 2,
            "units": [{"full": True, "name": "mem"}, {"full": False, "name": "alu"}, {"full": False, "name": "spare"}],
            "values": [
                {"file": 0, "lands": 3, "name": "t", "operation": 0, "out": False},
                {"file": 0, "lands": 1, "name": "s", "operation": 1, "out": False},
            ],
        }
    ],
    "version": 1,
}
# Two operations that wait for one another: 2 cycles on, by a value that is read one cycle late, and 3 back, over 1 iteration. So the interval is 5; a second, shorter
# order goes back too. The value lives from 3 to 3, and that of the second one, which is live at the end, from 5 to 7: it takes a latency of 1 from 2, and the end of
# the iteration is max(5 * 1, 2 + 1, 2 + 5). Its file is not rotating. The unit w is held in the second cycle after the issue.
PAIR = """machine m
units u, w
file q rotating 4
file x unallotted
kind k latency 1 | u, w@2 | u,
problem pair
op a k
op b k
value v of a lands 3 in q
value out of b lands 5 in x out
read b v distance 0 offset 1
edge b a delay 2 distance 1
edge b a delay 3 distance 1
end
"""
PAIR_SOLVED = """# pair ops 2 res 2 rec 5 mii 5
# circuit a b takes 5 cycles over 1 iterations
# full u,
solution pair ii 5 # stages 1
op a time 0 by 0 # row 0 stage 0: u, w@2; writes q.0
op b time 2 by 1 # row 2 stage 0: u,; reads q.0
value v number 0 # q: live 3 to 3
# value out x: live 5 to 7, copies 1
# initial q.1 v distance 1
# file q max_live 1 of 4
# file x max_live 1
# unroll 1
end
# problems 1 met 1 failed 0
"""


def failed(cause: str) -> str:
    """What `solve` prints where the running sum has no solution."""
    return f"# acc ops 3 res 2 rec 1 mii 2\n# full mem\n# failed acc at 4: {cause}\n# problems 1 met 0 failed 1\n"


class Document(unittest.TestCase):
    def test_running_sum(self):
        self.assertEqual(join_problems(SUM.encode(), SUM_SOLVED), SUM_DOCUMENT)

    def test_circuit_and_files(self):
        (it,) = join_problems(PAIR.encode(), PAIR_SOLVED)["problems"]
        self.assertEqual(it["circuit"], {"delay": 5, "distance": 1, "edges": [0, 2], "needs": 5})
        self.assertEqual(it["edges"][1:], [{"delay": delay, "distance": 1, "from": 1, "kind": "order", "to": 0} for delay in (2, 3)])
        self.assertEqual(it["kernel"]["values"], [{"first": 3, "last": 3, "register": 0}, {"copies": 1, "first": 5, "last": 7}])
        self.assertEqual(it["kernel"]["files"], [{"live": [0, 0, 0, 1, 0], "max_live": 1}, {"live": [1, 1, 1, 0, 0], "max_live": 1}])
        self.assertEqual((it["kernel"]["unroll"], it["kernel"]["held_by"], it["kernel"]["idle_units"]), (1, "recurrences", 0))
        self.assertEqual([(slot["row"], slot["unit"], slot["operation"]) for slot in it["kernel"]["slots"]], [(0, 0, 0), (2, 0, 1), (2, 1, 0)])

    def test_failures(self):
        for cause, told in [
            ("table: s", {"operations": [1], "outcome": "table"}),
            ("budget: t b", {"operations": [0, 2], "outcome": "budget"}),
            ("stages: b at 256", {"operations": [2], "outcome": "stages", "time": 256}),
            ("registers of r: s", {"file": 0, "operations": [1], "outcome": "registers", "value": 1}),
        ]:
            (it,) = join_problems(SUM.encode(), failed(cause))["problems"]
            self.assertEqual((it["evidence"], it["failed_to"], it["cause"]), (told | {"interval": 4}, 4, told["outcome"]))
            self.assertNotIn("kernel", it)
            self.assertEqual(it["operations"][0], {"kind": "load", "latency": 3, "name": "t"})

    def test_no_problem(self):
        self.assertEqual(join_problems(b"", "# problems 0 met 0 failed 0\n"), {"failed": 0, "met": 0, "problems": [], "version": 1})

    def test_above_its_bounds(self):
        # (at the interval 3 the row of the store is free in 4, and the sum lives from 3 to 3 + 3)
        text = """# acc ops 3 res 2 rec 1 mii 2
# full mem
solution acc ii 3 # stages 2
op t time 0 by 0 # row 0 stage 0: mem; writes r.0
op s time 3 by 0 # row 0 stage 1: alu; reads r.1 r.3, writes r.2
op b time 4 by 0 # row 1 stage 1: mem; reads r.2
value t number 0 # r: live 3 to 3
value s number 1 # r: live 3 to 6
# initial r.2 s distance 1
# file r max_live 3 of 8
end
# problems 1 met 1 failed 0
"""
        (it,) = join_problems(SUM.encode(), text)["problems"]
        self.assertEqual((it["kernel"]["held_by"], it["kernel"]["files"]), ("neither", [{"live": [3, 1, 1], "max_live": 3}]))

    def test_one_cycle(self):
        # (no circuit is told of, so that nothing but the cycle itself is known to hold it)
        text = "machine m\nunits u\nkind k latency 1 | u\nproblem one\nop a k\nend\n"
        printed = "# one ops 1 res 1 rec 1 mii 1\n# full u\nsolution one ii 1 # stages 1\nop a time 0 by 0 # row 0 stage 0: u\nend\n# problems 1 met 1 failed 0\n"
        (it,) = join_problems(text.encode(), printed)["problems"]
        self.assertEqual((it["kernel"]["held_by"], it["circuit"]), ("one cycle", None))

    def test_mismatches(self):
        for text, printed, why in [
            (SUM + "op u add\n", SUM_SOLVED, "this line may not stand here"),
            (SUM, SUM_SOLVED.replace("max_live 3", "max_live 2"), "another max_live"),
            (SUM, SUM_SOLVED.replace("time 5 by 0 # row 1", "time 4 by 0 # row 0"), "hold one unit"),
            (PAIR, PAIR_SOLVED.replace("circuit a b", "circuit b"), "a circuit that the problem has not"),
        ]:
            with self.subTest(why), self.assertRaises(Mismatch) as told:
                join_problems(text.encode(), printed)
            self.assertIn(why, str(told.exception))

    def misfits(self, text: str, printed: str, faults: list[tuple[int, str, str, str]]):
        """Each fault, planted in a line of what is printed, is told at that line."""
        problems = read_problems(text.encode())
        read_solve(printed, problems)
        for number, old, new, why in faults:
            lines = printed.split("\n")
            self.assertIn(old, lines[number - 1])
            lines[number - 1] = lines[number - 1].replace(old, new, 1)
            with self.subTest(line=lines[number - 1]), self.assertRaises(Misfit) as told:
                read_solve("\n".join(lines), problems)
            self.assertIn(why, told.exception.why)
            self.assertEqual((told.exception.command, told.exception.number), ("solve", number))

    def test_misfits(self):
        self.misfits(
            SUM,
            SUM_SOLVED,
            [
                (1, "acc", "sum", "not of the problem acc"),
                (1, "mii 2", "mii 3", "mii is not the greater"),
                (2, "mem", "mem2", "has a name"),
                (2, "# full", "full", "not the units of the bound"),
                (3, "acc", "sum", "not a solution of acc"),
                (3, "ii 2", "ii 0", "not an interval"),
                (4, "op t", "op s", "not the operation t"),
                (4, "by 0", "by 1", "there is no such alternative"),
                (4, "mem", "alu", "not the units"),
                (5, "r.1 r.3", "r.1", "not the units and the registers"),
                (5, "r.2", "r.2 r.2", "not the units and the registers"),
                (5, ", writes", "; writes", "not the units and the registers"),
                (6, "; reads r.3", "", "not the units and the registers"),
                (5, "stage 1", "stage 2", "not the row and the stage"),
                (7, "# r", "# q", "not the value t"),
                (8, "number 1", "number -1", "not the value s"),
                (9, "s dist", "q dist", "has a name"),
                (10, "of 8", "of 7", "not the file r"),
                (11, "end", "END", "not the end of the solution"),
                (12, "met 1", "met 0", "not the numbers of problems"),
            ],
        )
        self.misfits(
            PAIR,
            PAIR_SOLVED,
            [
                (2, "takes 5", "takes 6", "not the interval of its sums"),
                (2, "a b", "a c", "has a name"),
                (5, "w@2", "w@3", "not the units"),
                (6, "reads q.0", "reads x.0", "not the units and the registers"),
                (8, ", copies 1", "", "not the value out"),
                (9, "q.1", "x.1", "not the file of this value"),
                (12, "unroll", "enroll", "how often"),
            ],
        )
        self.misfits(SUM, failed("budget: t b"), [(3, "t b", "t c", "has a name"), (3, "budget", "fudget", "not a solution")])

    def test_numbers_of_thousands_of_digits(self):
        text, zeros = SUM.replace("end\n", "edge b t delay -2 distance 1\nend\n"), "0" * 5000
        (plain,) = read_problems(text.encode())
        (same,) = read_problems(text.replace("latency 3", f"latency {zeros}3").replace("-2", f"-{zeros}2").replace("| alu", f"| alu@{zeros}").encode())
        self.assertEqual(plain, same)
        for old, place in [("latency 3", "4:19"), ("delay -2", "16:16"), ("| alu@0", "6:26")]:
            with self.assertRaisesRegex(Fault, f"^{place}: number out of range$"):
                read_problems(text.replace("| alu", "| alu@0").replace(old, old[:-1] + "9" * 5000).encode())

    def test_names_that_look_like_their_neighbours(self):
        text = "machine m\nunits u; @b\nfile a.1, rotating 2\nkind k latency 1 | u;\nproblem takes\nop a: k\nop reads k\nvalue to of a: lands 1 in a.1,\nread reads to\nend\n"
        text = text.replace(" @b", " b;")
        printed = "# takes ops 2 res 2 rec 1 mii 2\n# full u;\n# failed takes at 2: registers of a.1,: to\n# problems 1 met 0 failed 1\n"
        (it,) = read_solve(printed, read_problems(text.encode()))
        self.assertEqual(it.result, Failure(2, "registers", [0], file=0, value=0))
        ops = "op a: time 0 by 0 # row 0 stage 0: u;; writes a.1,.0\nop reads time 1 by 0 # row 1 stage 0: u;; reads a.1,.0\n"
        rest = "value to number 0 # a.1,: live 1 to 1\n# file a.1, max_live 1 of 2\nend\n# problems 1 met 1 failed 0\n"
        (it,) = read_solve("# takes ops 2 res 2 rec 1 mii 2\n# full u;\nsolution takes ii 2 # stages 1\n" + ops + rest, read_problems(text.encode()))
        self.assertEqual([(place.reads, place.writes) for place in it.result.operations], [([], ["a.1,.0"]), (["a.1,.0"], [])])


class Command(unittest.TestCase):
    """The command line, with a stand-in for the program."""

    def run_with(self, room: str, *words: str, status: int = 0, said: str = "") -> subprocess.CompletedProcess:
        with open(f"{room}/stand_in", "w", encoding="utf-8") as it:
            it.write(f"#!{sys.executable}\nimport sys\nassert sys.argv[1] == 'solve'\nsys.stdout.write({SUM_SOLVED!r})\n")
            it.write(f"sys.stderr.write({said!r})\nsys.exit({status})\n")
        os.chmod(f"{room}/stand_in", 0o755)
        with open(f"{room}/p.txt", "w", encoding="ascii") as it:
            it.write(SUM)
        return subprocess.run([sys.executable, f"{CLIENT}/report.py", "--modsched", f"{room}/stand_in", *words], cwd=room, capture_output=True, text=True)

    def test_document_and_page(self):
        with tempfile.TemporaryDirectory() as room:
            alone = self.run_with(room, "--json", "--problems", "p.txt")
            self.assertEqual((alone.returncode, alone.stderr, json.loads(alone.stdout)), (0, "", SUM_DOCUMENT))
            page = self.run_with(room, "--problems", "p.txt", "-o", "page.html")
            with open(f"{CLIENT}/head.html", encoding="ascii") as it, open(f"{CLIENT}/tail.html", encoding="ascii") as other:
                whole = it.read() + alone.stdout + other.read()
            with open(f"{room}/page.html", encoding="ascii") as it:
                self.assertEqual((page.returncode, page.stdout, page.stderr, it.read()), (0, "", "", whole))

    def test_status(self):
        with tempfile.TemporaryDirectory() as room:
            self.assertEqual(self.run_with(room, "--problems", "p.txt", status=1).returncode, 0)
            refused = self.run_with(room, "--problems", "p.txt", status=4, said="modsched: problems: 1:1: no\n")
            self.assertEqual((refused.returncode, refused.stdout, refused.stderr), (4, "", "modsched: problems: 1:1: no\n"))
            unwritten = self.run_with(room, "--problems", "p.txt", "-o", "not/there.html")
            self.assertEqual((unwritten.returncode, unwritten.stdout), (6, ""))
            self.assertRegex(unwritten.stderr, r"^report: cannot write not/there.html: .*\n$")
            for words in ([], ["m.toml"], ["--problems", "p.txt", "l.txt"], ["--problems", "p.txt", "m.toml", "l.txt"]):
                self.assertEqual(self.run_with(room, *words).returncode, 2)
            for words in (["--problems", "-"], ["m.toml", "-"], ["-", "l.txt"]):
                self.assertIn("none of them can be the standard input", self.run_with(room, *words).stderr)

    def test_what_is_not_there(self):
        with tempfile.TemporaryDirectory() as room:
            program = self.run_with(room, "--problems", "p.txt", "--modsched", "not/there")
            self.assertEqual((program.returncode, program.stdout, program.stderr), (2, "", "report: not/there does not run: No such file or directory\n"))
            text = self.run_with(room, "--problems", "q.txt")
            self.assertEqual((text.returncode, text.stdout, text.stderr), (3, "", "report: cannot read q.txt: No such file or directory\n"))

    @unittest.skipUnless(os.path.exists("/dev/full"), "there is no device that is full")
    def test_full_device(self):
        with tempfile.TemporaryDirectory() as room, open("/dev/full", "wb") as full:
            self.run_with(room)  # (writes the stand-in and the text)
            words = [sys.executable, f"{CLIENT}/report.py", "--modsched", f"{room}/stand_in", "--problems", f"{room}/p.txt"]
            ended = subprocess.run(words, stdout=full, stderr=subprocess.PIPE, text=True)
        self.assertEqual((ended.returncode, ended.stderr), (6, "report: cannot write to standard output: No space left on device\n"))


if __name__ == "__main__":
    unittest.main()
