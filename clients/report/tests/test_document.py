"""The parsers and the document, on texts that were worked out by hand from docs/FORMATS.md: the running sum on one memory unit and one adder,
dependences of all four kinds, a loop without a kernel, two stores to one cell; and on the same texts with one fault each."""
from __future__ import annotations

import json
import os
import re
import shutil
import signal
import subprocess
import sys
import tempfile
import unittest

CLIENT = os.path.dirname(os.path.dirname(os.path.realpath(__file__)))
sys.path[:0] = [CLIENT, f"{CLIENT}/tests"]
import document  # noqa: E402
import own_documents  # noqa: E402
from lines import Edge, Misfit, Try, read_edges, read_explain  # noqa: E402

# `t = load a[i]`, `s = add s@1 t`, `store b[i] s`; a load takes 3 cycles, all else 1; `load` and `store` need the unit mem, `add` the unit alu.
SUM_EDGES = """loop acc ops 3 res 2 rec 1 mii 2
op 0 t load latency 3 height 5
op 1 s add latency 1 height 2
op 2 b[i] store latency 1 height 1
edge 0 t 1 s value delay 3 distance 0
edge 1 s 1 s value delay 1 distance 1
edge 1 s 2 b[i] value delay 1 distance 0
loops 1
"""
# The interval 2 is tried first, and mem is full: t in row 0, and b[i], which is issued in cycle 5, in row 1. The machine has a third unit.
SUM_EXPLAIN = """loop acc ops 3 res 2 rec 1 mii 2
unit mem uses 2 full: t b[i]
unit alu uses 1: s
units mem take 2 rows: 2/1 cycles, need 2
circuit delay 1 distance 1 needs 1
edge 1 s 1 s value delay 1 distance 1
try 2 kernel stages 3
held by units
least possible
value t lives 3 to 3 register 0
value s lives 2 to 5 register 1
row    mem alu live
  0    t/0   .    2
  1 b[i]/2 s/1    3 full
idle units 1
loops 1 met 1 failed 0
"""
# The same of a newer program, which tells when each operation is issued and by which units, and some figures.
SUM_EXPLAIN_NEWER = (
    SUM_EXPLAIN.replace(
        "least possible\n",
        """least possible
iteration 6 cycles
N iterations take N+2 turns
op t at 0 slack 0: mem@0
op s at 3 slack 1: alu@0
op b[i] at 5 slack 0: mem@0
""",
    )
    .replace("register 1\n", "register 1\nregisters need 3\n")
    .replace("idle", "use mem 100% alu 50%\nidle")
)
# What of the document of `json` the page's document is made of.
SUM_ISSUED = [
    {"alternative": 0, "latency": 3, "opcode": "load", "row": 0, "stage": 0},
    {"alternative": 0, "latency": 1, "opcode": "add", "row": 1, "stage": 1},
    {"alternative": 0, "latency": 1, "opcode": "store", "row": 1, "stage": 2},
]
SUM_JSON = {
    "failed": 0,
    "loops": [
        {
            "kernel": {"ii": 2, "operations": SUM_ISSUED, "registers": 8, "stages": 3},
            "mii": 2,
            "name": "acc",
            "operations": 3,
            "recurrences": 1,
            "resources": 2,
        }
    ],
    "met": 1,
    "version": 1,
}
# The document, by the tables of README.md. The time of b[i] is 2 stages of 2 cycles, and 1.
SUM_DOCUMENT = {
    "failed": 0,
    "loops": [
        {
            "circuit": {"delay": 1, "distance": 1, "edges": [1], "needs": 1},
            "edges": [
                {"delay": 3, "distance": 0, "from": 0, "kind": "value", "to": 1},
                {"delay": 1, "distance": 1, "from": 1, "kind": "value", "to": 1},
                {"delay": 1, "distance": 0, "from": 1, "kind": "value", "to": 2},
            ],
            "kernel": {
                "held_by": "units",
                "idle_units": 1,
                "ii": 2,
                "live": [2, 3],
                "max_live": 3,
                "registers": 8,
                "slots": [
                    {"operation": 0, "row": 0, "unit": 0},
                    {"operation": 2, "row": 1, "unit": 0},
                    {"operation": 1, "row": 1, "unit": 1},
                ],
                "stages": 3,
                "units": ["mem", "alu"],
                "values": [
                    {"first": 3, "last": 3, "operation": 0, "register": 0},
                    {"first": 2, "last": 5, "operation": 1, "register": 1},
                ],
            },
            "mii": 2,
            "name": "acc",
            "operations": [
                {"alternative": 0, "height": 5, "latency": 3, "name": "t", "opcode": "load", "row": 0, "stage": 0, "time": 0},
                {"alternative": 0, "height": 2, "latency": 1, "name": "s", "opcode": "add", "row": 1, "stage": 1, "time": 3},
                {"alternative": 0, "height": 1, "latency": 1, "name": "b[i]", "opcode": "store", "row": 1, "stage": 2, "time": 5},
            ],
            "recurrences": 1,
            "resources": 2,
            "tried": [{"interval": 2, "outcome": "kernel", "stages": 3}],
            "units": [
                {"full": True, "name": "mem", "users": [{"operation": 0, "uses": 1}, {"operation": 2, "uses": 1}], "uses": 2},
                {"full": False, "name": "alu", "users": [{"operation": 1, "uses": 1}], "uses": 1},
            ],
        }
    ],
    "met": 1,
    "version": 1,
}
# A product that holds its unit in its cycle and two cycles later meets itself at the interval 2, and no other is tried.
LONE_EDGES = """loop lone ops 1 res 2 rec 1 mii 2
op 0 m mul latency 1 height 1
loops 1
"""
LONE_EXPLAIN = """loop lone ops 1 res 2 rec 1 mii 2
unit u uses 2 full: m*2
units u take 2 rows: 2/1 cycles, need 2
circuit none
try 2 table: m
loops 1 met 0 failed 1
"""
LONE_JSON = {"mii": 2, "name": "lone", "operations": 1, "recurrences": 1, "resources": 2, "cause": "table", "failed_to": 2}
# Two stores to one cell on one unit, each in two rows: that of its issue and the next. The first is issued in row 0, the second in row 2.
TWICE_EDGES = """loop twice ops 2 res 4 rec 1 mii 4
op 0 b[i-1] store latency 1 height 1
op 1 b[i-1] store latency 1 height 1
edge 0 b[i-1] 1 b[i-1] output delay 1 distance 0
loops 1
"""
TWICE_EXPLAIN = """loop twice ops 2 res 4 rec 1 mii 4
unit m uses 4 full: b[i-1]*2 b[i-1]*2
units m take 4 rows: 4/1 cycles, need 4
circuit none
try 4 kernel stages 1
held by units
least possible
row        m live
  0 b[i-1]/0    0
  1 b[i-1]/0    0
  2 b[i-1]/0    0
  3 b[i-1]/0    0
loops 1 met 1 failed 0
"""
STORED = [{"alternative": 0, "latency": 1, "opcode": "store", "row": row, "stage": 0} for row in (0, 2)]
TWICE_JSON = {"mii": 4, "name": "twice", "operations": 2, "recurrences": 1, "resources": 4}
TWICE_JSON["kernel"] = {"ii": 4, "operations": STORED, "registers": 8, "stages": 1}


def listing(loop: dict) -> dict:
    """The document of `json` with one loop."""
    met = int("kernel" in loop)
    return {"failed": 1 - met, "loops": [loop], "met": met, "version": 1}


def causes(*lines: str) -> str:
    """What `explain` prints of a loop of the bound 2 whose tried intervals have these lines."""
    return "\n".join(["loop p ops 9 res 2 rec 1 mii 2", "units u take 2 rows: 2/1 cycles, need 2", "circuit none", *lines, "loops 1 met 0 failed 1", ""])


class Lines(unittest.TestCase):
    def test_kinds_of_dependences(self):
        text = """loop kinds ops 2 res 1 rec 6 mii 6
op 0 u load latency 1 height 6
op 1 a[i+2] store latency 4 height 4
edge 0 u 1 a[i+2] anti delay -3 distance 1
edge 1 a[i+2] 0 u memory delay 4 distance 2
edge 1 a[i+2] 1 a[i+2] output delay 1 distance 3
loops 1
"""
        (graph,) = read_edges(text)
        self.assertEqual(graph.edges, [Edge(0, 1, "anti", -3, 1), Edge(1, 0, "memory", 4, 2), Edge(1, 1, "output", 1, 3)])
        self.assertEqual([it.name for it in graph.operations], ["u", "a[i+2]"])

    def test_no_loop(self):
        self.assertEqual(read_edges("loops 0\n"), [])
        self.assertEqual(read_explain("loops 0 met 0 failed 0\n"), [])

    def test_causes(self):
        of_registers = ["try 5 to 6 registers: v lives 3 to 70", "try 7 registers: v lives 3 to 72, all need 9", "try 8 registers: v lives 3 to 74, all need more than 256"]
        (it,) = read_explain(causes("try 2 table: m", "try 3 budget: x b[i-4] y", "try 4 stages: s at 256", *of_registers))
        self.assertEqual(
            it.tried,
            [
                Try(2, "table", ("m",), ()),
                Try(3, "budget", ("x", "b[i-4]", "y"), ()),
                Try(4, "stages", ("s",), (256,)),
                Try(5, "registers", ("v",), (3, 70)),
                Try(6, "registers", ("v",), (3, 70)),
                Try(7, "registers", ("v",), (3, 72)),
                Try(8, "registers", ("v",), (3, 74)),
            ],
        )
        self.assertIsNone(it.held)

    def misfits(self, read, text: str, faults: list[tuple[int, str, str, str]]):
        """Each fault, planted in a line of the text, is told at that line (or at the one that it says)."""
        read(text)
        for number, old, new, why in faults:
            lines = text.split("\n")
            self.assertIn(old, lines[number - 1])
            lines[number - 1] = lines[number - 1].replace(old, new, 1)
            with self.subTest(line=lines[number - 1]), self.assertRaises(Misfit) as told:
                read("\n".join(lines))
            self.assertIn(why, told.exception.why)
            self.assertEqual(told.exception.number, number)

    def test_faults_of_edges(self):
        self.misfits(
            read_edges,
            SUM_EDGES,
            [
                (1, "mii 2", "mii 3", "mii is not the greater"),
                (1, "loop acc", "loop  acc", "not a line of bounds"),
                (2, "op 0", "op 1", "not operation 0"),
                (2, "load", "lode", "not operation 0"),
                (3, "latency 1", "latency 01", "not operation 1"),
                (5, "1 s", "1 t", "not the names"),
                (5, "1 s", "3 s", "there is no such operation"),
                (6, "edge 1 s 1 s", "edge 0 t 0 t", "before the edge"),
                (7, "value", "flow", "not a line of bounds"),
                (8, "loops 1", "loops 2", "not the number of loops"),
            ],
        )
        for cut, number in [(SUM_EDGES[:-1], 8), (SUM_EDGES[:-8], 8), (SUM_EDGES + "\n", 9)]:
            with self.assertRaises(Misfit) as told:
                read_edges(cut)
            self.assertEqual(told.exception.number, number)

    def test_faults_of_explain(self):
        self.misfits(
            read_explain,
            SUM_EXPLAIN,
            [
                (2, "uses 2", "uses 3", "not the sum"),
                (2, " full", "", "full, but"),
                (3, "alu", "Alu", "not the fullest set"),
                (3, "s", "s*1", "not the fullest set"),
                (4, "mem", "mem mem", "a unit stands twice"),
                (4, "2/1", "2/2", "not its rows over its units"),
                (4, "need 2", "need 3", "not the interval of its rows"),
                (5, "needs 1", "needs 2", "not the interval of its sums"),
                (6, "delay 1", "delay 2", "other sums"),
                (7, "try 2", "try 3", "not the next interval"),
                (7, "kernel", "colonel", "not a tried interval"),
                (8, "units", "both", "not the greater"),
                (9, "least", "best", "not that no shorter"),
                (11, "to 5", "to -5", "not the head of a grid"),
                (13, ".", "-", "not row 0"),
                (13, "  .", "", "not a cell for each"),
                (13, "  0", "  1", "not row 0"),
                (15, "units 1", "units 0", "not a line of bounds"),
                (16, "met 1", "met 0", "not the numbers of loops"),
            ],
        )
        # (these are told where the grid ends)
        self.misfits(lambda text: self.at_line(14, read_explain, text), SUM_EXPLAIN, [(14, " full", "", "full stands"), (14, "3", "1", "full stands")])
        with self.assertRaises(Misfit):
            read_explain(SUM_EXPLAIN.replace("  0    t/0", " 0     t/0"))

    def test_newer_lines_of_explain(self):
        self.assertEqual(read_explain(SUM_EXPLAIN_NEWER), read_explain(SUM_EXPLAIN))
        self.misfits(
            read_explain,
            SUM_EXPLAIN_NEWER,
            [
                (11, "+2", "+3", "not the turns of its stages"),
                (12, "slack 0", "slack -1", "when operation 0 is issued"),
                (14, "mem@0", "mem", "when operation 2 is issued"),
                (17, "need 3", "needs 3", "not the head of a grid"),
                (21, "50%", "51%", "not the shares of the grid"),
            ],
        )

    def at_line(self, number: int, read, text: str):
        try:
            read(text)
        except Misfit as fault:
            self.assertEqual(fault.number, number)
            raise


class Document(unittest.TestCase):
    def joined(self, edges: str, explained: str, listed: dict) -> dict:
        return document.join(read_edges(edges), read_explain(explained), listed)

    def test_running_sum(self):
        self.assertEqual(self.joined(SUM_EDGES, SUM_EXPLAIN, SUM_JSON), SUM_DOCUMENT)

    def test_own_documents(self):
        # (what the program prints itself of the running sum, of which the joined document has nothing but these keys less)
        own = {"failed": 0, "loops": [own_documents.ROTATING], "met": 1, "version": 1}
        self.assertEqual(own_documents.joined_of(own), SUM_DOCUMENT)
        for loop in own_documents.DOCUMENT["loops"]:
            self.assertLessEqual({"set"}, loop.keys())
            kernel = loop.get("kernel")
            self.assertEqual(["slack" in it for it in loop["operations"]], [kernel is not None] * len(loop["operations"]))
            lacking = [place for place, it in enumerate(loop["tried"]) if it["outcome"] == "registers"]
            self.assertEqual([place for place, it in enumerate(loop["tried"]) if "need" in it], sorted({*lacking[:1], *lacking[-1:]}))
            if kernel:
                self.assertLessEqual(own_documents.OF_KERNEL, kernel.keys())

    def test_no_kernel(self):
        (loop,) = self.joined(LONE_EDGES, LONE_EXPLAIN, listing(LONE_JSON))["loops"]
        self.assertEqual((loop["cause"], loop["failed_to"], loop["circuit"]), ("table", 2, None))
        self.assertEqual(loop["tried"], [{"interval": 2, "operations": [0], "outcome": "table"}])
        self.assertEqual(loop["units"], [{"full": True, "name": "u", "users": [{"operation": 0, "uses": 2}], "uses": 2}])
        self.assertEqual(loop["operations"], [{"height": 1, "latency": 1, "name": "m", "opcode": "mul"}])
        self.assertNotIn("kernel", loop)

    def test_one_name_for_two_stores(self):
        (loop,) = self.joined(TWICE_EDGES, TWICE_EXPLAIN, listing(TWICE_JSON))["loops"]
        self.assertEqual([(it["row"], it["operation"]) for it in loop["kernel"]["slots"]], [(0, 0), (1, 0), (2, 1), (3, 1)])
        self.assertEqual(loop["units"][0]["users"], [{"operation": 0, "uses": 2}, {"operation": 1, "uses": 2}])
        self.assertEqual((loop["kernel"]["values"], loop["kernel"]["max_live"]), ([], 0))

    def test_evidence(self):
        lines = ["try 2 budget: t b[i]", "try 3 stages: s at 200", "try 4 registers: s lives 2 to 5"]
        text = "\n".join([*SUM_EXPLAIN.split("\n")[:6], *lines, "loops 1 met 0 failed 1", ""])
        listed = {key: it for key, it in SUM_JSON["loops"][0].items() if key != "kernel"} | {"cause": "registers", "failed_to": 4}
        (loop,) = self.joined(SUM_EDGES, text, listing(listed))["loops"]
        told = [
            {"interval": 2, "operations": [0, 2], "outcome": "budget"},
            {"interval": 3, "operations": [1], "outcome": "stages", "time": 200},
            {"first": 2, "interval": 4, "last": 5, "operations": [1], "outcome": "registers"},
        ]
        self.assertEqual(loop["tried"], told)

    def test_intervals_in_one_line(self):
        for last, is_well in ((257, True), (258, False), (10**14, False)):
            lines = [f"try 2 to {last} registers: s lives 2 to 5", "loops 1 met 0 failed 1", ""]
            text = "\n".join([*SUM_EXPLAIN.split("\n")[:6], *lines])
            if is_well:
                (loop,) = read_explain(text)
                self.assertEqual([it.interval for it in loop.tried], [*range(2, last + 1)])
            else:
                with self.assertRaisesRegex(Misfit, "^explain, line 7: the last interval is too far"):
                    read_explain(text)

    def test_commands_that_disagree(self):
        changed = json.loads(json.dumps(SUM_JSON))
        changed["loops"][0]["kernel"]["operations"][1]["stage"] = 0
        faults = [
            (SUM_EDGES.replace("3 height", "2 height"), SUM_EXPLAIN, SUM_JSON, "other operations"),
            (SUM_EDGES.replace("loop acc", "loop sum"), SUM_EXPLAIN, SUM_JSON, "another line of bounds"),
            (SUM_EDGES, SUM_EXPLAIN.replace("stages 3", "stages 4"), SUM_JSON, "do not come to the same"),
            (SUM_EDGES, SUM_EXPLAIN.replace("mem uses 2 full: t ", "mem uses 2 full: x "), SUM_JSON, "an operation x"),
            (SUM_EDGES, SUM_EXPLAIN, changed, "s in stage 1"),
            (SUM_EDGES, SUM_EXPLAIN, SUM_JSON | {"version": 2}, "another version"),
            (SUM_EDGES, SUM_EXPLAIN, SUM_JSON | {"loops": []}, "different numbers"),
        ]
        for edges, explained, listed, why in faults:
            with self.subTest(why), self.assertRaises(document.Mismatch) as told:
                self.joined(edges, explained, listed)
            self.assertIn(why, str(told.exception))

    def test_text(self):
        text = document.text_of({"b": "</script>", "a": [1, True, None]})
        self.assertEqual(text, '{"a":[1,true,null],"b":"\\u003c/script>"}\n')


class Command(unittest.TestCase):
    """The command line, with a stand-in for the program."""

    def stand_in(self, path: str, answers: dict[str, str], status: int = 0, said: str = "") -> None:
        with open(path, "w", encoding="utf-8") as it:
            it.write(f"#!{sys.executable}\nimport sys\nsys.stdout.buffer.write({answers!r}[sys.argv[1]].encode('latin-1'))\n")
            it.write(f"sys.stderr.write({said!r}.replace('WORDS', str(sys.argv[1:])))\n")
            it.write(f"sys.exit({status})\n" if status >= 0 else f"import os\nos.kill(os.getpid(), {-status})\n")
        os.chmod(path, 0o755)

    def run_with(self, answers: dict[str, str], *words: str, status: int = 0, said: str = "") -> subprocess.CompletedProcess:
        with tempfile.TemporaryDirectory() as room:
            path = f"{room}/stand_in"
            self.stand_in(path, answers, status, said)
            script = [sys.executable, f"{CLIENT}/report.py", "--modsched", path, *words, "m.toml", "l.txt"]
            return subprocess.run(script, capture_output=True, text=True)

    def answers(self, **changed: str) -> dict[str, str]:
        return {"edges": SUM_EDGES, "explain": SUM_EXPLAIN, "json": json.dumps(SUM_JSON)} | changed

    def test_document_and_page(self):
        alone = self.run_with(self.answers(), "--json")
        self.assertEqual((alone.returncode, alone.stderr, json.loads(alone.stdout)), (0, "", SUM_DOCUMENT))
        page = self.run_with(self.answers())
        with open(f"{CLIENT}/head.html", encoding="ascii") as it, open(f"{CLIENT}/tail.html", encoding="ascii") as other:
            head, tail = it.read(), other.read()
        self.assertEqual(page.stdout, head + alone.stdout + tail)
        self.assertTrue(head.endswith('<script type="application/json" id="document">\n') and tail.startswith("</script>\n"))

    def test_program(self):
        """MODSCHED names the program, by its path or as one on the path. Where it can't be run, no other one is; where it is empty, the one of the folder is."""
        with tempfile.TemporaryDirectory() as room:
            shutil.copytree(CLIENT, f"{room}/clients/report", ignore=shutil.ignore_patterns("tests", "__pycache__"))
            self.stand_in(f"{room}/other", self.answers())
            self.stand_in(f"{room}/modsched", self.answers(), said="beside\n")
            script = [sys.executable, "-B", f"{room}/clients/report/report.py", "--json", "m.toml", "l.txt"]
            for named, status, said in [
                (f"{room}/other", 0, ""), ("other", 0, ""), ("", 0, "beside\n" * 3),
                *((it, 2, f"report: {it} does not run: No such file or directory\n") for it in (f"{room}/none", "none")),
            ]:
                with self.subTest(named):
                    environment = {**os.environ, "MODSCHED": named, "PATH": f"{room}:{os.environ['PATH']}"}
                    ran = subprocess.run(script, capture_output=True, text=True, env=environment)
                    self.assertEqual((ran.returncode, ran.stderr), (status, said))

    def test_status(self):
        self.assertEqual(self.run_with(self.answers(), status=1).returncode, 0)
        refused = self.run_with(self.answers(), status=4, said="modsched: machine: not TOML\n")
        self.assertEqual((refused.returncode, refused.stdout, refused.stderr), (4, "", "modsched: machine: not TOML\n"))
        ended = self.run_with(self.answers(), status=-signal.SIGKILL)
        self.assertEqual((ended.returncode, ended.stdout), (128 + signal.SIGKILL, ""))
        self.assertRegex(ended.stderr, r"^report: .*/stand_in is ended by signal 9\n$")
        misfit = self.run_with(self.answers(explain=SUM_EXPLAIN.replace("held by units", "held by unity")))
        self.assertEqual((misfit.returncode, misfit.stdout), (8, ""))
        self.assertRegex(misfit.stderr, r"^report: explain, line 8: not .*: held by unity\n$")
        for broken in ("{", '{"version":1}', "[]", "[" * 100_000, f'{{"version":{"1" * 5000}}}', '{"version":\xff}'):
            self.assertEqual(self.run_with(self.answers(json=broken)).returncode, 8)

    def test_options(self):
        """Options are passed on as they are given, also where they are empty: it is the program that refuses them."""
        for given in (["--ratio", "3"], ["--ratio", "", "--ceiling", "x y"], ["--ceiling", ""]):
            told = self.run_with(self.answers(), *given, said="WORDS\n").stderr.splitlines()
            self.assertEqual(told, [str(["edges", "m.toml", "l.txt"]), *(str([it, "m.toml", "l.txt", *given]) for it in ("explain", "json"))])

    def test_lines_of_no_form(self):
        for command, text in (("edges", SUM_EDGES), ("explain", SUM_EXPLAIN)):
            for broken in (text.replace("acc", "ac\xff"), text.replace("ops 3", f"ops {'3' * 5000}"), text.replace("acc", "acc\r"), text.replace("acc", "ac\xc3\xa9")):
                ended = self.run_with(self.answers(**{command: broken}))
                self.assertEqual((ended.returncode, ended.stdout), (8, ""))
                self.assertRegex(ended.stderr, rf"^report: {command}, line 1: not a line of bounds: loop ac")


def luminance(colour: str) -> float:
    """The relative luminance of WCAG 2."""
    parts = [int(colour[at : at + 2], 16) / 255 for at in (1, 3, 5)]
    return sum(share * (it / 12.92 if it <= 0.04045 else ((it + 0.055) / 1.055) ** 2.4) for share, it in zip((0.2126, 0.7152, 0.0722), parts))


def contrast(one: str, other: str) -> float:
    """The contrast of WCAG 2: 4.5 is wanted of a text, 3 of a shape."""
    light, dark = sorted(map(luminance, (one, other)), reverse=True)
    return (light + 0.05) / (dark + 0.05)


class Colours(unittest.TestCase):
    def test_contrast(self):
        with open(f"{CLIENT}/head.html", encoding="utf-8") as it:
            schemes = [dict(re.findall(r"--(\w+): (#[0-9a-f]{6})", block)) for block in re.findall(r":root \{(.*?)\}", it.read(), re.S)]
        self.assertEqual(len(schemes), 2)
        grounds, stages = ["page", "panel", "band"], [f"s{stage}" for stage in range(8)]
        for colours in schemes:
            for text, least, behind in [("text", 4.5, grounds + stages), ("soft", 4.5, grounds), ("bad", 4.5, grounds), ("link", 4.5, grounds),
                                        ("shape", 3, grounds), ("meter", 3, grounds), ("warm", 3, grounds), ("hot", 4.5, grounds + stages)]:
                for ground in behind:
                    self.assertGreaterEqual(contrast(colours[text], colours[ground]), least, f"{text} on {ground}")


if __name__ == "__main__":
    unittest.main()
