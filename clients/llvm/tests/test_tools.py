"""The commands of the client: what they print, and their statuses."""
from __future__ import annotations

import json
import os
import re
import subprocess
import sys
import unittest

import common  # (it says where the others are)
import cases
import plain
import show
import table

SMALL = """int f(const int *x, int n) {
    int s = 0;
    for (int i = 0; i < n; i++)
        s += x[i];
    return s;
}
int g(const char *x) {
    int n = 0;
    while (x[n])
        n++;
    return n;
}
"""
TWO = """int two(int *restrict a, int *restrict b, int n) {
    int s = 0;
    for (int i = 0; i < n; i++)
        a[i] = a[i] / b[i];
    for (int i = 0; i < n; i++)
        s += b[i];
    return s;
}
"""


def run(*words: str, **environment: str) -> subprocess.CompletedProcess:
    """Runs a command of the client, with some variables."""
    command = [sys.executable, os.path.join(common.CLIENT, words[0]), *words[1:]]
    return subprocess.run(command, capture_output=True, text=True, env={**os.environ, **environment}, cwd=common.ROOM, stdin=subprocess.DEVNULL)


def written(name: str, text: str) -> str:
    """A file with a text."""
    with open(os.path.join(common.ROOM, name), "w", encoding="utf-8") as it:
        it.write(text)
    return name


class Problems(unittest.TestCase):
    def test_text(self):
        """The load of x[i], and the sum, which is used after the loop."""
        done = run("problems.py", "--text", written("small.c", SMALL))
        self.assertEqual((done.returncode, done.stderr), (0, "small.c:9: g is left out: its trip count is not known before it starts\n"))
        operations = [it for it in done.stdout.split("\n") if it.startswith(("op", "problem", "edge", "end"))]
        self.assertEqual(operations, ["problem f", "op small.c:4:load load", "op small.c:4:add default", "end"])

    def test_level(self):
        """Another level of optimization vectorizes no loop either."""
        done = run("problems.py", "--text", "--flag=-O3", written("level.c", SMALL.partition("int g")[0]))
        self.assertEqual((done.returncode, done.stderr), (0, ""))
        self.assertIn("op level.c:4:load load", done.stdout.split("\n"))

    def test_json(self):
        done = run("problems.py", "--machine", os.path.join(common.CLIENT, "machines", "eight.toml"), written("small.c", SMALL))
        found = json.loads(done.stdout)
        self.assertEqual((found["machine"]["name"], len(found["machine"]["units"])), ("eight", 8))
        self.assertEqual(found["left_out"], [{"file": "small.c", "line": 9, "function": "g", "reason": "its trip count is not known before it starts"}])
        # the counter is an add of 64 bits, a comparison and a branch
        self.assertEqual([it["name"] for it in found["problems"][0]["operations"]], [
            "small.c:4:load", "small.c:4:add", "small.c:3:add", "small.c:3:icmp", "small.c:3:branch",
        ])

    def test_names(self):
        """Functions of one name in two files, and one of 70 bytes: all problems have names of their own, of 64 bytes at most."""
        long = "g" * 70
        one, other = written("one.c", SMALL), written("other.c", SMALL.replace("f(", f"{long}(") + SMALL.replace("g(", "h("))
        found = json.loads(run("problems.py", one, other).stdout)
        self.assertEqual([it["name"] for it in found["problems"]], ["f", "g" * 64, "f.2"])

    def test_flags(self):
        """A flag for clang: f gets another name."""
        found = json.loads(run("problems.py", "--flag=-Df=sum", written("small.c", SMALL)).stdout)
        self.assertEqual(found["problems"][0]["name"], "sum")

    def test_no_branch(self):
        """A machine without a counter and without branches has nothing for the end of a loop."""
        machine = 'name = "m"\nunits = ["u"]\nfiles = { r = 8 }\n[kinds.all]\nof = ["load", "add", "icmp", "getelementptr"]\nlatency = 1\nalternatives = [["u"]]\n'
        done = run("problems.py", "--machine", written("none.toml", machine), written("small.c", SMALL))
        self.assertIn("small.c:3: f is left out: the machine has nothing for br\n", done.stderr)

    def test_refused(self):
        done = run("problems.py", written("broken.c", "int f( {\n"))
        self.assertEqual((done.returncode, done.stdout), (2, ""))
        self.assertIn("clang refuses broken.c", done.stderr)
        done = run("problems.py", "--machine", written("bad.toml", "name = 3\n"), written("small.c", SMALL))
        self.assertEqual((done.returncode, done.stderr), (2, "problems.py: bad.toml: units is missing\n"))
        done = run("problems.py", "small.c", PATH="/nowhere", CLANG="")
        self.assertEqual((done.returncode, done.stderr), (2, "problems.py: clang is not on the path: apt-get install clang-14, or name one by CLANG\n"))

    def test_other_files(self):
        """A file that clang takes for none of C, and one whose name is not UTF-8."""
        done = run("problems.py", written("small.txt", SMALL))
        self.assertEqual((done.returncode, done.stdout, done.stderr), (2, "", "problems.py: clang makes nothing of small.txt: it is no C file\n"))
        done = run("problems.py", "--flag=-fsyntax-only", written("small.c", SMALL))
        self.assertEqual(done.stderr, "problems.py: clang makes nothing of small.c: it is no C file, or -fsyntax-only keeps clang from it\n")
        name = b"caf\xe9.c"
        with open(os.path.join(common.ROOM.encode(), name), "w", encoding="utf-8") as it:
            it.write(SMALL)
        done = run("problems.py", "--text", os.fsdecode(name))
        self.assertEqual((done.returncode, len(done.stderr.splitlines())), (0, 1))
        self.assertIn("\nop caf_.c:4:load load\n", done.stdout)

    def test_other_clang(self):
        """A clang that is not there, and one that is newer than llvmlite."""
        with open(os.path.join(common.ROOM, "clang-99"), "w", encoding="ascii") as it:
            it.write("#!/bin/sh\necho clang version 99.0.1\n")
            os.chmod(it.name, 0o755)
        for name, said in [("nowhere", "CLANG names nowhere, which is not there"), ("./clang-99", "./clang-99 is of version 99, and llvmlite reads up to version ")]:
            with self.subTest(name):
                done = run("problems.py", written("small.c", SMALL), CLANG=name)
                self.assertEqual((done.returncode, done.stdout), (2, ""))
                self.assertTrue(done.stderr.startswith(f"problems.py: {said}"), done.stderr)

    def test_no_module(self):
        """Without llvmlite, or before Python 3.11, what is missing is told in one line."""
        for module, said in [("llvmlite", "python3-llvmlite is not installed"), ("tomllib", "Python 3.11 or later is needed")]:
            written(f"{module}.py", f"raise ModuleNotFoundError('none', name='{module}')\n")
            for command in ("problems.py", "table.py"):
                with self.subTest(module, command=command):
                    done = run(command, "small.c", PYTHONPATH=common.ROOM)
                    self.assertEqual((done.returncode, done.stdout, done.stderr), (2, "", f"{command}: {said}\n"))
            os.remove(os.path.join(common.ROOM, f"{module}.py"))


class Solutions(unittest.TestCase):
    def test_no_library(self):
        done = run("solve.py", "--library", "nothing.so", written("p.json", "{}"))
        self.assertEqual((done.returncode, done.stdout), (2, ""))
        self.assertIn("nothing.so", done.stderr)
        done = run("solve.py", "--library", "libc.so.6", written("p.json", "{}"))
        self.assertEqual((done.returncode, done.stdout, len(done.stderr.splitlines())), (2, "", 1))

    @unittest.skipUnless(common.HAS_LIBRARY, "./x library has not made out/libmodsched.so")
    def test_solved(self):
        """A load each cycle, and a sum that waits one: interval 1. The sum is issued 3 cycles after its load."""
        written("p.json", run("problems.py", written("small.c", SMALL)).stdout)
        done = run("solve.py", "--library", common.LIBRARY, "p.json")
        found = json.loads(done.stdout)
        self.assertEqual((done.returncode, found["machine"], found["unsolved"]), (0, "four", []))
        solution = found["solutions"][0]
        self.assertEqual((solution["name"], solution["interval"], solution["stages"], solution["times"]), ("f", 1, 4, {"small.c:4:load": 0, "small.c:4:add": 3}))

    @unittest.skipUnless(common.HAS_LIBRARY, "./x library has not made out/libmodsched.so")
    def test_unsolved(self):
        """One register is not enough for a value that lives while the next one is made."""
        given = json.loads(run("problems.py", written("small.c", SMALL)).stdout)
        given["machine"]["files"][0]["rotating"] = 1
        written("few.json", json.dumps(given))
        done = run("solve.py", "--library", common.LIBRARY, "--ceiling", "0", "few.json")
        self.assertEqual(done.returncode, 1)
        self.assertIn("f has no solution: no interval up to 1 works: registers", done.stderr)
        self.assertEqual(json.loads(done.stdout)["solutions"], [])

    @unittest.skipUnless(common.HAS_LIBRARY, "./x library has not made out/libmodsched.so")
    def test_as_plain(self):
        """The library and plain Python come to the same solutions of the corpus."""
        for path in cases.corpus_files():
            for machine in common.MACHINES:
                document, found = common.solved(path, machine)
                self.assertEqual(found, plain.solved(document), path)


class Shown(unittest.TestCase):
    def test_kernel(self):
        """Interval 2: the load in cycle 0, the sum in cycle 5 = 2 * 2 + 1, a copy in cycle 2 = 1 * 2 + 0."""
        machine = {
            "units": ["m", "x"],
            "kinds": [
                {"name": "load", "alternatives": [[{"unit": "m", "offset": 0}]]},
                {"name": "add", "alternatives": [[{"unit": "m", "offset": 0}], [{"unit": "m", "offset": 4}, {"unit": "x", "offset": 0}]]},
            ],
        }
        operations = [{"name": "a.c:2:load", "kind": "load"}, {"name": "a.c:2:add", "kind": "add"}, {"name": "f:copy", "kind": "add"}]
        places = [("src/a.c", 2), ("src/a.c", 2), ("", 0)]
        problem = {
            "name": "f", "source": {"file": "src/a.c", "line": 1}, "operations": [{**it, "file": file, "line": line} for it, (file, line) in zip(operations, places)],
        }
        solution = {
            "interval": 2, "stages": 3, "times": {"a.c:2:load": 0, "a.c:2:add": 5, "f:copy": 2}, "alternatives": {"a.c:2:load": 0, "a.c:2:add": 1, "f:copy": 1},
        }
        self.assertEqual(list(show.kernel_lines(machine, problem, solution, {"a.c": ["for (;;)", "    s += x[i];"]})), [
            "loop f at a.c:1, interval 2, stages 3",
            "0:   m   a.c:2:load ?0  s += x[i];",
            "     x   f:copy ?1",
            "1:   x   a.c:2:add ?2   s += x[i];",
        ])
        # (a blank stands after the longest name of a unit too)
        shifts = json.loads(json.dumps(machine).replace('"x"', '"shift"'))
        self.assertEqual(list(show.kernel_lines(shifts, problem, solution, {}))[1:], ["0:   m     a.c:2:load ?0", "     shift f:copy ?1", "1:   shift a.c:2:add ?2"])
        # (where two files have the name, neither is its source)
        others = {"one/a.c": ["", "1"], "other/a.c": ["", "2"]}
        self.assertEqual(list(show.kernel_lines(machine, problem, solution, others))[1], "0:   m   a.c:2:load ?0")

    def test_one_name(self):
        """Of two files with one name each loop has the lines of its own."""
        for folder in ("one", "other"):
            os.mkdir(os.path.join(common.ROOM, folder))
        paths = [written("one/same.c", SMALL), written("other/same.c", "\n" + SMALL.replace("x[i]", "-x[i]"))]
        document = json.loads(run("problems.py", *paths).stdout)
        self.assertEqual([it["source"]["file"] for it in document["problems"]], paths)
        written("same.json", json.dumps(document))
        written("solved.json", json.dumps(plain.solved(document)))
        done = run("show.py", "same.json", "solved.json", *paths)
        self.assertEqual(done.returncode, 0, done.stderr)
        one, other = done.stdout.split("\n\n")
        self.assertIn("s += x[i];", one)
        self.assertIn("s += -x[i];", other)

    def test_what_does_not_fit(self):
        """Solutions of other problems, of none of them, and no solutions at all."""
        document = json.loads(run("problems.py", written("small.c", SMALL)).stdout)
        written("p.json", json.dumps(document))
        solution = {"name": "f", "interval": 1, "stages": 1, "times": {"elsewhere": 0}, "alternatives": {"elsewhere": 0}}
        for told, said in [
            ({"solutions": [solution]}, "s.json does not fit p.json: 'small.c:4:load'"), ({}, "s.json does not fit p.json: 'solutions'"),
            ({"solutions": [{**solution, "interval": 0}]}, "s.json does not fit p.json: the interval of f is 0, and not 1 to 65536"),
            ({"solutions": [{**solution, "interval": 10**30}]}, f"s.json does not fit p.json: the interval of f is {10**30}, and not 1 to 65536"),
            ({"solutions": []}, "no loop of these files has a solution in s.json"),
        ]:
            with self.subTest(said):
                done = run("show.py", "p.json", written("s.json", json.dumps(told)), "small.c")
                self.assertEqual((done.returncode, done.stdout, done.stderr), (2, "", f"show.py: {said}\n"))

    def test_other_machine(self):
        """Solutions of the same loop on another machine: its alternatives are not those of this one."""
        small, machines = written("small.c", SMALL), [os.path.join(common.CLIENT, "machines", f"{it}.toml") for it in common.MACHINES]
        document, other = (json.loads(run("problems.py", "--machine", it, small).stdout) for it in machines)
        written("p.json", json.dumps(document))
        done = run("show.py", "p.json", written("s.json", json.dumps(plain.solved(other))), small)
        self.assertEqual((done.returncode, done.stdout, done.stderr), (2, "", "show.py: s.json does not fit p.json: its machine is eight, and not four\n"))

    def test_what_is_wrong_in_problems(self):
        """A kind or a unit that is not there, no operations, and lists too deep in one another."""
        document = json.loads(run("problems.py", written("small.c", SMALL)).stdout)
        written("s.json", json.dumps(plain.solved(document)))
        machine, its = document["machine"], document["problems"][0]
        for given, said in [
            ({**document, "machine": {**machine, "kinds": []}}, "show.py: s.json does not fit p.json: 'load'\n"),
            ({**document, "machine": {**machine, "units": ["m"]}}, "show.py: s.json does not fit p.json: 's0' is not in list\n"),
            ({**document, "problems": [{**its, "operations": []}]}, ""),
        ]:
            with self.subTest(said):
                done = run("show.py", written("p.json", json.dumps(given)), "s.json", "small.c")
                self.assertEqual((done.returncode, done.stderr), (2 if said else 0, said))
        for words in (("show.py", "p.json", "s.json", "small.c"), ("solve.py", "--library", common.LIBRARY, "p.json")):
            written("p.json", "[" * 100000)
            done = run(*words)
            self.assertEqual((done.returncode, len(done.stderr.splitlines())), (2, 1), done.stderr)

    def test_other_bytes(self):
        """A comment that is not UTF-8 does not keep the lines of C from being shown."""
        path = os.path.join(common.ROOM, "latin.c")
        with open(path, "wb") as it:
            it.write(b"// caf\xe9\n" + SMALL.encode())
        document = json.loads(run("problems.py", path).stdout)
        written("p.json", json.dumps(document))
        written("s.json", json.dumps(plain.solved(document)))
        self.assertIn("s += x[i];", run("show.py", "p.json", "s.json", path).stdout)


# a library that answers each call as it does where memory is refused
REFUSING = "".join(f"unsigned modsched_{it}(void) {{ return 7; }}\n" for it in "solve check schedule json explain run plain bounds edges dot".split())


class Written(unittest.TestCase):
    """Where there is no room for what a command writes, or in memory."""

    @classmethod
    def setUpClass(cls):
        cls.library = os.path.join(common.ROOM, "refusing.so")
        common.clang.to_library(os.path.join(common.ROOM, written("refusing.c", REFUSING)), cls.library)
        # (a loop that gives a problem, and one that gives none)
        taken, left_out, _ = re.split(r"(?m)(?<=^}\n)", SMALL)
        written("left_out.c", left_out)
        document = json.loads(run("problems.py", written("taken.c", taken)).stdout)
        for name, its in [("p.json", document), ("none.json", {**document, "problems": []}), ("s.json", plain.solved(document))]:
            written(name, json.dumps(its))

    def test_output(self):
        """Standard output that is full, a pipe that nobody reads any more, and none at all."""
        full, (read, broken) = os.open("/dev/full", os.O_WRONLY), os.pipe()
        os.close(read)
        for words in [
            ("problems.py", "taken.c"), ("problems.py", "--text", "taken.c"), ("solve.py", "--library", self.library, "none.json"),
            ("show.py", "p.json", "s.json", "taken.c"), ("table.py", "--library", self.library, "left_out.c"),
        ]:
            for to, closed, said in [(full, "", "No space left on device"), (broken, "", "Broken pipe"), (full, ">&-", "Bad file descriptor")]:
                with self.subTest(words, said=said):
                    shell = ["sh", "-c", f'exec "$@" {closed}', "sh", sys.executable, os.path.join(common.CLIENT, words[0]), *words[1:]]
                    done = subprocess.run(shell, stdin=subprocess.DEVNULL, stdout=to, stderr=subprocess.PIPE, text=True, cwd=common.ROOM)
                    self.assertEqual((done.returncode, done.stderr), (2, f"{words[0]}: cannot write: {said}\n"))
        os.close(full)
        os.close(broken)

    def test_memory(self):
        """The library answers that memory is refused."""
        for words in [("solve.py", "--library", self.library, "p.json"), ("table.py", "--library", self.library, "taken.c")]:
            with self.subTest(words):
                done = run(*words)
                self.assertEqual((done.returncode, done.stdout, done.stderr), (2, "", f"{words[0]}: memory ran out\n"))


class Page(unittest.TestCase):
    def test_session(self):
        """The session of docs/CLIENTS.md prints what stands there. Without the library, plain Python solves in place of solve.py."""
        with open(os.path.join(common.solving.ROOT, "docs/CLIENTS.md"), encoding="utf-8") as it:
            section = it.read().split("\n## A session\n")[1].split("\n## ")[0]
        lines = [it[4:] for it in section.split("\n") if it.startswith("    ")]
        room = os.path.join(common.ROOM, "readme")
        os.mkdir(room)
        os.symlink(os.path.join(common.solving.ROOT, "clients"), os.path.join(room, "clients"))
        printed = []
        for line in (it for it in lines if it.startswith("$ ")):
            printed += [line, *self.said(line[2:], room)]
        self.assertEqual(printed, lines)

    def said(self, command: str, room: str) -> list[str]:
        """The lines that a command of the session prints."""
        if " clients/llvm/solve.py " in command:
            words = command.replace(" clients/llvm/solve.py", f" clients/llvm/solve.py --library {common.LIBRARY}")
            if not common.HAS_LIBRARY:
                words = "python3 clients/llvm/tests/plain.py problems.json > solutions.json"
        else:
            words = command
        words = words.replace("python3 ", f"{sys.executable} -B ", 1)
        done = subprocess.run(words, shell=True, cwd=room, stdout=subprocess.PIPE, stderr=subprocess.STDOUT, text=True, stdin=subprocess.DEVNULL)
        self.assertEqual(done.returncode, 0, done.stdout)
        return done.stdout.split("\n")[:-1]


class Tables(unittest.TestCase):
    def test_page(self):
        """The tables of docs/CLIENTS.md are those that table.py prints of the corpus."""
        solve = (lambda it: common.solving.solved(common.solving.modsched.Library(common.LIBRARY), it)) if common.HAS_LIBRARY else plain.solved
        lines, times = table.table(cases.corpus_files(), table.MACHINES, solve)
        with open(os.path.join(common.solving.ROOT, "docs", "CLIENTS.md"), encoding="utf-8") as it:
            page = it.read()
        self.assertTrue("\n".join(lines) in page, "docs/CLIENTS.md has other tables than clients/llvm/table.py prints")
        print(f"llvm: clang took {times.clang:.2f} s for the corpus, {'the library' if common.HAS_LIBRARY else 'plain Python'} {times.solver:.2f} s to solve it")
        if common.HAS_LIBRARY:
            self.assertLess(times.solver, times.clang)

    def test_no_library(self):
        """No library, and one that has none of the functions."""
        for library in ("nothing.so", "libc.so.6"):
            done = run("table.py", "--library", library, written("small.c", SMALL))
            self.assertEqual((done.returncode, done.stdout, len(done.stderr.splitlines())), (2, "", 1), done.stderr)
            self.assertRegex(done.stderr, f"^table.py: .*{re.escape(library)}")

    def test_one_place(self):
        """Of two loops of a function, one machine leaves out the first: a row has the same loop on both machines all the same."""
        with open(table.MACHINES[0], encoding="utf-8") as it:
            divides = re.sub(r"(?m)^lacks = .*$", "lacks = []", it.read().replace('name = "four"', 'name = "divides"'))
        path, other = (os.path.join(common.ROOM, it) for it in (written("two.c", TWO), written("divides.toml", divides)))
        lines, _ = table.table([path], [table.MACHINES[0], other], plain.solved)
        self.assertEqual(lines[2:5], [
            "| `two.c:5` | `two` | 2 | 1 | 1 | 4 | 2 | 1 | 1 | 4 |",
            "| `two.c:3` | `two` |  |  |  |  | 4 | 2 | 2 | 3 |",
            "",
        ])

    def test_no_loop(self):
        """A function that is not read is left out, and is no loop; a loop without a line is one."""
        jump = "void jump(int n, int *o) {\n    static void *to[] = { &&a, &&b };\n    goto *to[n];\na:\n    o[0] = 1;\n    return;\nb:\n    o[0] = 2;\n}\n"
        path = os.path.join(common.ROOM, written("jump.c", SMALL.replace("int g(", "__attribute__((nodebug)) int g(") + jump))
        lines, _ = table.table([path], table.MACHINES, plain.solved)
        self.assertEqual(lines[-4:], [
            "| it has indirectbr | 1 | 1 |", "| its trip count is not known before it starts | 1 | 1 |", "",
            "Of 2 innermost loops, 1 on four and 1 on eight give a problem.",
        ])


if __name__ == "__main__":
    unittest.main()
