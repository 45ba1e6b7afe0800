"""The interpreter of problems finds what is wrong: each test changes one thing of a problem or of its solution, so that the run is wrong."""
from __future__ import annotations

import copy
import os
import unittest

import common  # (it says where the others are)
import cases
import plain
from frontend import problem, reader
from frontend.ir import Block
from frontend.machine import machine_of
from meaning import to_bytes
from memory import Memory, Outside
from overlapped import Overlapped, Wrong
from sequential import LoopRun, Run

TRIP = 17


def found_of(file: str, name: str, machine: str = "four") -> tuple[cases.Case, dict, dict, dict]:
    """A function of the corpus, a machine, its problem and its solution, all to be changed."""
    path = os.path.join(cases.CORPUS, file)
    document, solutions = common.solved(path, machine)
    case = next(it for it in cases.cases_of(path) if it.name == name)
    problem = next(it for it in document["problems"] if it["name"] == name)
    solution = next(it for it in solutions["solutions"] if it["name"] == name)
    return case, copy.deepcopy(document["machine"]), copy.deepcopy(problem), copy.deepcopy(solution)


def is_right(case: cases.Case, machine: dict, problem: dict, solution: dict) -> bool:
    """Whether the overlapped run leaves what the compiled function leaves. Raises Wrong where the run itself is wrong."""
    function = dict(common.functions(case.file))[case.name]
    memory, call = Memory(), cases.Call(case, function, TRIP)
    arguments = call.simulated(memory)
    header = next(it for it in function.blocks if it.name == problem["source"]["header"])
    library = common.library(case.file)
    run = Run(function, memory, common.places(memory, library, function), loops={header: Overlapped(machine, problem, solution)})
    found = run.call(arguments)
    wanted, pieces = call.native(library, common.returned(function))
    return found == wanted and [bytes(it) for _, it in memory.pieces[: len(pieces)]] == pieces


def operation(problem: dict, opcode: str) -> str:
    """The name of the first operation that ends in an opcode."""
    return next(it["name"] for it in problem["operations"] if it["instructions"][-1]["opcode"] == opcode)


# a loop in a loop, where what the inner one moves on goes on from where it stood; right after it another one begins
AGAIN = """
define i64 @f(i32* %p, i64 %n) {
entry:
  br label %outer
outer:
  %o = phi i64 [ 0, %entry ], [ %o1, %third ]
  %from = phi i64 [ 0, %entry ], [ %i1, %third ]
  br label %first
first:
  %i = phi i64 [ %from, %outer ], [ %i1, %first ]
  %k = phi i64 [ 0, %outer ], [ %k1, %first ]
  %pp = getelementptr i32, i32* %p, i64 %i
  %x = load i32, i32* %pp
  %y = mul i32 %x, 3
  store i32 %y, i32* %pp
  %i1 = add i64 %i, 1
  %k1 = add i64 %k, 1
  %last = icmp eq i64 %k1, %n
  br i1 %last, label %second, label %first
second:
  %j = phi i64 [ 0, %first ], [ %j1, %second ]
  %qp = getelementptr i32, i32* %p, i64 %j
  %u = load i32, i32* %qp
  %v = add i32 %u, 7
  store i32 %v, i32* %qp
  %j1 = add i64 %j, 1
  %done = icmp eq i64 %j1, %n
  br i1 %done, label %third, label %second
third:
  %o1 = add i64 %o, 1
  %end = icmp eq i64 %o1, 3
  br i1 %end, label %after, label %outer
after:
  ret i64 %i1
}
"""


class Found(unittest.TestCase):
    def test_right(self):
        self.assertTrue(is_right(*found_of("filters.c", "comb")))

    def test_run_again(self):
        """A loop that is run several times begins anew each time, and so does one that follows it at once."""
        target = common.machine("four")
        function = reader.read_functions(AGAIN)[0][1]
        document = problem.document(target, *problem.problems_of([("f", function)], target, "f.c"))
        headers, ran = {it.name: it for it in function.blocks}, []

        def counted(its: dict) -> LoopRun:
            overlapped = Overlapped(document["machine"], its, plain.solution(document["machine"], its))

            def run_loop(run: Run, before: Block, header: Block) -> Block:
                ran.append(header.name)
                return overlapped(run, before, header)

            return run_loop

        found = []
        for loops in ({headers[it["source"]["header"]]: counted(it) for it in document["problems"]}, {}):
            memory = Memory()
            at = memory.add(b"".join(to_bytes(it, "i32") for it in range(15)))
            found.append((Run(function, memory, {}, loops=loops).call([at, 5]), bytes(memory.pieces[0][1])))
        self.assertEqual(ran, ["%first", "%second"] * 3)
        self.assertEqual(found[0], found[1])

    def test_late_reads(self):
        """A store whose value and condition are read after its issue."""
        with open(os.path.join(common.CLIENT, "machines", "four.toml"), encoding="utf-8") as it:
            late = it.read().replace('of = ["store"]\nlatency = 1', 'of = ["store"]\nlatency = 4\noffsets = { a = 3, guard = 2 }')
        target = machine_of(late)
        path = os.path.join(cases.CORPUS, "conditions.c")
        document = problem.document(target, *problem.problems_of(common.functions(path), target, path))
        solutions = {it["name"]: it for it in plain.solved(document)["solutions"]}
        for case in cases.cases_of(path):
            with self.subTest(case.name):
                its = next(it for it in document["problems"] if it["name"] == case.name)
                self.assertTrue(is_right(case, document["machine"], its, solutions[case.name]))

    def test_late_store(self):
        """The store lands when the load of the fourth iteration after it has already looked."""
        case, machine, problem, solution = found_of("filters.c", "comb")
        self.assertEqual(problem["edges"][0]["distance"], 4)
        solution["times"][operation(problem, "store")] += 4 * solution["interval"]
        # (its operand stands there long enough where it has no register)
        machine["files"] = [{"name": it["name"], "unallotted": True} for it in machine["files"]]
        self.assertFalse(is_right(case, machine, problem, solution))

    def test_early_reader(self):
        case, machine, problem, solution = found_of("filters.c", "one_pole")
        solution["times"][operation(problem, "ashr")] -= 1
        self.assertRaises(Wrong, is_right, case, machine, problem, solution)

    def test_late_reader(self):
        """A register holds its value no longer than it has to."""
        case, machine, problem, solution = found_of("filters.c", "one_pole")
        machine["files"] = [{"name": it["name"], "rotating": max(solution["numbers"].values()) + 1} for it in machine["files"]]
        solution["times"][operation(problem, "store")] += 40
        self.assertRaises(Wrong, is_right, case, machine, problem, solution)

    def test_one_register(self):
        case, machine, problem, solution = found_of("matrices.c", "butterflies")
        solution["numbers"] = dict.fromkeys(solution["numbers"], 0)
        self.assertRaises(Wrong, is_right, case, machine, problem, solution)

    def test_other_distance(self):
        """The sum of two iterations ago: where no register is preloaded for it, that is found at once."""
        case, machine, problem, solution = found_of("filters.c", "fir_taps")
        for it in problem["reads"]:
            it["distance"] += it["distance"] == 1
        self.assertRaises((Wrong, KeyError), is_right, case, machine, problem, solution)

    def test_no_preload(self):
        case, machine, problem, solution = found_of("filters.c", "fir_taps")
        problem["preloads"] = []
        self.assertRaises(Wrong, is_right, case, machine, problem, solution)

    def test_other_preload(self):
        case, machine, problem, solution = found_of("codes.c", "adler_sums")
        problem["preloads"][0]["input"]["constant"] += 1
        self.assertFalse(is_right(case, machine, problem, solution))

    def test_other_guard(self):
        case, machine, problem, solution = found_of("conditions.c", "keep_positive")
        guarded = next(it for it in problem["operations"] if "guard" in it)
        guarded["guard"]["wanted"] = not guarded["guard"]["wanted"]
        self.assertFalse(is_right(case, machine, problem, solution))

    def test_no_guard(self):
        case, machine, problem, solution = found_of("conditions.c", "keep_positive")
        del next(it for it in problem["operations"] if "guard" in it)["guard"]
        self.assertFalse(is_right(case, machine, problem, solution))

    def test_other_branch(self):
        case, machine, problem, solution = found_of("filters.c", "comb", "eight")
        self.assertTrue(is_right(case, machine, problem, solution))
        branch = problem["operations"][-1]["instructions"][-1]
        branch["goes_on"] = not branch["goes_on"]
        self.assertRaises(Wrong, is_right, case, machine, problem, solution)

    def test_other_address(self):
        case, machine, problem, solution = found_of("filters.c", "comb")
        address = next(one for it in problem["operations"] for one in it["instructions"] if one.get("address", {}).get("scaled"))
        address["address"]["offset"] += 4
        try:
            self.assertFalse(is_right(case, machine, problem, solution))
        except Outside:
            pass

    def test_slot(self):
        """Two operations on one unit at once: that is what the judge of solutions is for."""
        _, machine, problem, solution = found_of("filters.c", "fir3")
        self.assertTrue(common.is_lawful(machine, problem, solution))
        loads = [it["name"] for it in problem["operations"] if it["kind"] == "load"]
        for it in loads[1:]:
            solution["times"][it], solution["alternatives"][it] = solution["times"][loads[0]], solution["alternatives"][loads[0]]
        self.assertFalse(common.is_lawful(machine, problem, solution))


if __name__ == "__main__":
    unittest.main()
