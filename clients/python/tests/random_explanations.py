"""Why random loops and problems have their intervals, and what `modsched explain`, `edges` and `dot` have to say of them: ./x fuzz runs these rounds.

A round compares with plain Python (plain_explain.py and plain_graphs.py, which share no code with modsched)
  - what `explain` prints of a machine and loops, as text and as JSON, and of a text of problems, byte for byte, but that any circuit may be told that needs the bound; by one worker and by
    others with other cuts the same bytes;
  - what `edges`, `dot` and `dot --scheduled` print of both;
and besides
  - the circuits of the text, of the document, of both graphs and of `solve`: of one loop or problem they are one;
  - the schedule and the registers of the document of `explain` with the kernel of `json`;
  - `least possible`, and the intervals that fail for `table`, of small problems with a search of all schedules (plain_search.py);
  - the document of `solve --format json` with its text, as tests/solutions_as_json reads it."""
import importlib.machinery
import json
import os
import re
import subprocess

import plain_explain as plain
import plain_graphs
import plain_search
import plain_texts
from random_problems import Mismatch, problems_text

ROOT = os.path.dirname(os.path.dirname(os.path.dirname(os.path.dirname(os.path.realpath(__file__)))))
DOCUMENTS = importlib.machinery.SourceFileLoader("solutions_as_json", os.path.join(ROOT, "tests", "solutions_as_json")).load_module()
MOST_NAME = 64
SMALL = 4


def renamed(dice, text):
    """A text of problems, some of whose operations, values and problems have other names: of 64 bytes, or with signs that a graph has to escape."""
    found = sorted({*re.findall(r"(?m)^[ \t\r]*(?:op|value|problem)[ \t\r]+([^\s#]+)", text)})
    new = {it: dice.choice([it, it, (it + '"\\|@').ljust(MOST_NAME, "~")]) for it in found} if dice.random() < 0.3 else {}
    return re.sub(r"[^\s#]+", lambda it: new.get(it[0], it[0]), text)


def circuit_of(lines):
    """The edges of a circuit that lines tell, from the least on: a circuit may be told from any of its edges on."""
    found = re.findall(r"(?m)^edge (\d+) \S+ (\d+) \S+ (?:\w+)(?: \S+)? delay (-?\d+) distance (\d+)$", lines)
    edges = [tuple(map(int, it)) for it in found]
    return turned(edges)


def turned(edges):
    at = edges.index(min(edges)) if edges else 0
    return edges[at:] + edges[:at]


def joined(lines):
    return "".join(f"{line}\n" for line in lines)


class Rounds:
    """Rounds with the program of this path, which writes its texts into a folder."""

    def __init__(self, program, room):
        self.program, self.room = program, room
        self.compared = 0

    def told(self):
        return f"{self.compared} explanations compared"

    def path(self, name, text):
        path = os.path.join(self.room, name)
        with open(path, "w", encoding="utf-8") as file:
            file.write(text)
        return path

    def call(self, *words):
        done = subprocess.run([self.program, *words], capture_output=True, text=True, timeout=300)
        if done.returncode not in (0, 1) or done.stderr:
            raise Mismatch(f"{' '.join(words)}: status {done.returncode}\n{done.stderr}")
        return done.stdout

    def same(self, what, got, wanted):
        self.compared += 1
        if got != wanted:
            raise Mismatch(f"{what}\n--- the program\n{got}\n--- plain Python\n{wanted}")

    def by_workers(self, dice, *words):
        one = self.call(*words, "--workers", "1")
        many = self.call(*words, "--workers", str(dice.choice([2, 3, 4, 64])), "--cut", str(dice.choice([1, 2, 256])))
        if one != many:
            raise Mismatch(f"{words}\n--- one worker\n{one}\n--- more\n{many}")
        return one

    # loops

    def loops(self, dice, machine, loops, ratio, ceiling):
        """Compares what is told of two texts with these settings."""
        paths = self.path("explained.toml", machine), self.path("explained.txt", loops)
        options = ["--ratio", str(ratio), "--ceiling", str(ceiling)]
        told = plain.loops_told(machine, loops, ratio, ceiling)
        text = self.by_workers(dice, "explain", *paths, *options)
        self.same(f"explain {options}", text, plain.explain_loops(told, text))
        document = self.by_workers(dice, "explain", *paths, *options, "--format", "json")
        self.same(f"explain {options} --format json", document, plain.explain_document(told, document))
        graphs = [plain_graphs.of_loop(it) for it in told]
        self.same("edges", self.call("edges", *paths), joined(plain_graphs.every_edge_line(graphs, "loops")))
        dot = self.call("dot", *paths)
        self.same("dot", dot, joined(plain_graphs.dot_lines(graphs, dot)))
        scheduled = self.by_workers(dice, "dot", "--scheduled", *paths, *options)
        self.same(f"dot --scheduled {options}", scheduled, joined(plain_graphs.dot_lines(graphs, scheduled, True)))
        self.one_circuit(plain.parts_of("loop", text), graphs, dot, scheduled)
        self.agree(json.loads(document), json.loads(self.call("json", *paths, *options)), plain.parts_of("loop", text))

    def one_circuit(self, parts, graphs, *drawn):
        """The graphs mark the circuit that the text tells."""
        for text in drawn:
            for graph, part in zip(graphs, re.split(r"(?m)^(?=digraph )", text)[1:]):
                if graph.word == "problem" and graph.why.recurrences == 1:
                    # (there `explain` and `solve` tell none)
                    continue
                one = {(it[0], it[1], it[3], it[2]) for it in plain_graphs.marked(graph, re.findall(r"(?m)^  \d+ -> .*$", part))}
                told = {*circuit_of(parts[graph.name].split("\ntry ")[0])}
                self.same(f"the circuit of {graph.name} that explain tells and the one that dot marks", told, one)

    def agree(self, explained, kernels, parts):
        """The document of `explain` has the bounds, the times, the alternatives and the registers of that of `json`, and the circuit of the text."""
        for loop, other in zip(explained["loops"], kernels["loops"], strict=True):
            same = ["name", "mii", "resources", "recurrences", "cause", "failed_to"]
            self.same(f"bounds of {loop['name']}", [loop.get(it) for it in same], [other.get(it) for it in same])
            edges = [loop["edges"][it] for it in (loop["circuit"] or {"edges": []})["edges"]]
            its = turned([(it["from"], it["to"], it["delay"], it["distance"]) for it in edges])
            self.same(f"circuit of {loop['name']}", its, circuit_of(parts[loop["name"]].split("\ntry ")[0]))
            if "kernel" not in loop:
                continue
            kernel, registers = other["kernel"], loop["kernel"]["registers"]
            places = [(it["row"], it["stage"], it["alternative"], it["latency"], it["opcode"]) for it in loop["operations"]]
            self.same(f"places of {loop['name']}", places, [(it["row"], it["stage"], it["alternative"], it["latency"], it["opcode"]) for it in kernel["operations"]])
            named = {it["operation"]: (it["register"] + loop["operations"][it["operation"]]["stage"]) % registers for it in loop["kernel"]["values"]}
            self.same(f"registers of {loop['name']}", named, {op: it["destination"] for op, it in enumerate(kernel["operations"]) if it["destination"] is not None})

    # problems

    def problems(self, dice, text, ratio, ceiling):
        """Compares what is told of a text of problems with these settings."""
        path, options = self.path("explained.problems", text), ["--ratio", str(ratio), "--ceiling", str(ceiling)]
        named = plain_texts.reader.read_problems(text.encode())
        told = self.by_workers(dice, "explain", path, *options)
        self.same(f"explain {options}", told, plain.explain_problems(named, told, ratio, ceiling))
        graphs = [plain_graphs.of_problem(it, ratio, ceiling) for it in named]
        self.same("edges", self.call("edges", path), joined(plain_graphs.every_edge_line(graphs, "problems")))
        dot = self.call("dot", path)
        self.same("dot", dot, joined(plain_graphs.dot_lines(graphs, dot)))
        scheduled = self.by_workers(dice, "dot", "--scheduled", path, *options)
        self.same(f"dot --scheduled {options}", scheduled, joined(plain_graphs.dot_lines(graphs, scheduled, True)))
        self.one_circuit(plain.parts_of("problem", told), graphs, dot, scheduled)
        solved = self.call("solve", path, *options)
        self.of_solve(plain.parts_of("problem", told), solved)
        document = json.dumps(DOCUMENTS.document(solved, named), sort_keys=True, separators=(",", ":")) + "\n"
        self.same("solve --format json, and its text", self.call("solve", path, *options, "--format", "json"), document)
        for graph in graphs:
            self.ruled_out(graph, plain.parts_of("problem", told)[graph.name])

    def ruled_out(self, graph, part):
        """What is said to rule an interval out does so: no schedule keeps the edges and the units there."""
        least, sure = re.search(r"(?m)^try (\d+) solution .*\nheld by .*\nleast possible$", part), []
        sure += [int(least[1]) - 1] if least else []
        for begin, end in re.findall(r"(?m)^try (\d+)(?: to (\d+))? table: ", part):
            sure += range(int(begin), int(end or begin) + 1)
        for interval in sure:
            if interval and len(graph.operations) <= SMALL and interval <= SMALL + 1:
                self.same(f"whether {graph.name} has a schedule at {interval}", plain_search.has_schedule(graph.problem, interval), False)

    def of_solve(self, parts, solved):
        """`solve` tells the circuit of `explain`, and the same bounds and solution."""
        blocks = re.split(r"(?m)^(?=# \S+ ops \d+ res |# problems \d+ met )", solved)[1:-1]
        for (name, part), block in zip(parts.items(), blocks, strict=True):
            circuit = re.search(r"(?m)^# circuit (.*) takes (-?\d+) cycles over (\d+) iterations$", block)
            if circuit:
                stops = re.findall(r"(?m)^edge \d+ (\S+) ", part.split("\ntry ")[0])
                self.same(f"circuit of {name} that solve tells", circuit[1].split(" "), stops)
            plain_block = re.sub(r"(?m)^# (circuit|full) .*\n", "", block)
            self.same(f"what solve tells of {name}, and explain", plain_block in part, True)

    def round(self, dice, machine, loops):
        self.loops(dice, machine, loops, dice.choice([1, 2, 6, 64]), dice.choice([0, 1, 3, 8, 32]))
        self.problems(dice, renamed(dice, problems_text(dice)), dice.choice([1, 2, 6, 64]), dice.choice([0, 1, 3, 8, 32]))
