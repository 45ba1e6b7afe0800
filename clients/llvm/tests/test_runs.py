"""The whole way from C to overlapped kernels: each loop of the corpus, scheduled and run cycle by cycle, leaves what the compiled function leaves."""
from __future__ import annotations

import random
import unittest

import common  # (it says where the others are)
import cases
import lawful
from common import MACHINES
from memory import Memory
from overlapped import Overlapped
from sequential import Run

SCHEDULES = 2  # at random, for each loop


class Runs(unittest.TestCase):
    def test_corpus(self):
        ran = 0
        for path in cases.corpus_files():
            for machine in MACHINES:
                ran += self.run_file(path, machine)
        self.assertGreaterEqual(ran, 30 * len(MACHINES))

    def test_random_schedules(self):
        """What a loop leaves is up to the problem alone, and not to the schedule that a solver finds for it."""
        for path in cases.corpus_files():
            functions = dict(common.functions(path))
            for machine_name in MACHINES:
                document = common.document(path, machine_name)
                machine = lawful.without_registers(document["machine"])
                for case in cases.cases_of(path):
                    given = [it for it in document["problems"] if it["source"]["function"] == case.name]
                    for seed in range(SCHEDULES if case.arguments else 0):
                        with self.subTest(file=path, function=case.name, machine=machine_name, seed=seed):
                            chance = random.Random(f"{case.name} {seed}")
                            schedules = {it["name"]: lawful.schedule(machine, it, chance) for it in given}
                            self.check_run(case, functions[case.name], machine, given, schedules, 17)

    def run_file(self, path: str, machine_name: str) -> int:
        """Runs the loops of a file on a machine: how many."""
        document, solutions = common.solved(path, machine_name)
        self.assertEqual(solutions["unsolved"], [])
        by_name = {it["name"]: it for it in solutions["solutions"]}
        functions = dict(common.functions(path))
        ran = 0
        for case in cases.cases_of(path):
            given = [it for it in document["problems"] if it["source"]["function"] == case.name]
            if not case.arguments or not given:
                continue
            with self.subTest(file=path, function=case.name, machine=machine_name):
                ran += len(given)
                for it in given:
                    self.assertTrue(common.is_lawful(document["machine"], it, by_name[it["name"]]), it["name"])
                for trip in cases.TRIPS:
                    iterations = self.check_run(case, functions[case.name], document["machine"], given, by_name, trip)
                    self.assertIn(trip, iterations, f"{case.name} is not run for {trip} iterations")
        return ran

    def check_run(self, case, function, machine, given, solutions, trip) -> list[int]:
        """One call: with each loop overlapped, and compiled. How many iterations each loop had when it was run last."""
        overlapped = [(it["source"]["header"], Overlapped(machine, it, solutions[it["name"]])) for it in given]
        headers = {it.name: it for it in function.blocks}
        memory, call = Memory(), cases.Call(case, function, trip)
        arguments = call.simulated(memory)
        library = common.library(case.file)
        run = Run(function, memory, common.places(memory, library, function), loops={headers[name]: it for name, it in overlapped})
        found = run.call(arguments)
        returned = common.returned(function)
        wanted, pieces = call.native(library, returned)
        self.assertEqual(cases.shown(found, returned), cases.shown(wanted, returned), f"{case.name} returns another number, with {trip} iterations")
        self.assertEqual([bytes(it) for _, it in memory.pieces[: len(pieces)]], pieces, f"{case.name} leaves another memory, with {trip} iterations")
        return [it.iterations for _, it in overlapped]


if __name__ == "__main__":
    unittest.main()
