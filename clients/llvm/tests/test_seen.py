"""What a run of a loop shows of its memory: each time that two accesses meet, an order of the problem says so, and an order that is not open is met."""
from __future__ import annotations

import collections
import unittest

import common  # (it says where the others are)
import cases
from frontend.ir import Block, Function, Instruction
from memory import Memory
from sequential import Run

TRIP = 40


class Trace:
    """The accesses of an innermost loop, run by run of it: of each the place in the iteration, the iteration, the first byte, and how many."""

    def __init__(self, function: Function, header: str):
        self.header = next(it for it in function.blocks if it.name == header)
        self.blocks = self._inside(self.header)
        self.runs: list[list[tuple[int, int, int, int]]] = []
        self.places = [one for block in self.blocks for one in block.instructions if one.opcode in ("load", "store")]
        self.iteration = 0

    @staticmethod
    def _inside(header: Block) -> list[Block]:
        found, waiting = [], [header]
        while waiting:
            block = waiting.pop(0)
            if block not in found:
                found.append(block)
                waiting += [] if header in block.successors else sorted(block.successors, key=lambda it: len(it.successors) > 1)
        return found

    def enter(self, block: Block, before: Block | None) -> None:
        """Is told of each block that is entered."""
        if block is self.header:
            if before not in self.blocks:
                self.runs.append([])
                self.iteration = -1
            self.iteration += 1

    def watch(self, one: Instruction, address: int) -> None:
        """Is told of each access."""
        if one in self.places:
            self.runs[-1].append((self.places.index(one), self.iteration, address, one.size))

    def meetings(self) -> dict[tuple[int, int], int]:
        """Of each two places that reach a common byte, the first before the second, the least number of iterations between them."""
        found: dict[tuple[int, int], int] = {}
        for run in self.runs:
            seen: dict[int, list[tuple[int, int]]] = collections.defaultdict(list)
            for place, iteration, address, size in run:
                for byte in range(address, address + size):
                    for other, before in seen[byte]:
                        distance = iteration - before
                        found[other, place] = min(distance, found.get((other, place), distance))
                    seen[byte].append((place, iteration))
        return found


class _WatchedRun(Run):
    """A run that tells of the blocks that it enters too."""

    trace: Trace

    def _enter(self, block: Block, before: Block | None) -> None:
        self.trace.enter(block, before)
        super()._enter(block, before)


class Seen(unittest.TestCase):
    def test_corpus(self):
        for path in cases.corpus_files():
            functions = dict(common.functions(path))
            problems = {it["source"]["function"]: it for it in common.document(path, "four")["problems"]}
            for case in cases.cases_of(path):
                if case.counts is not None:
                    with self.subTest(file=path, function=case.name):
                        self.check_case(case, functions[case.name], problems[case.name])

    def check_case(self, case: cases.Case, function: Function, problem: dict) -> None:
        trace = Trace(function, problem["source"]["header"])
        memory, call = Memory(), cases.Call(case, function, TRIP)
        run = _WatchedRun(function, memory, {}, trace.watch)
        arguments = call.simulated(memory)
        run.places, run.trace = common.places(memory, common.library(case.file), function), trace
        run.call(arguments)
        self.assertEqual(len(trace.places), case.counts[0] + case.counts[1])
        orders = self.orders_of(problem, trace)
        met = 0
        for (first, to), distance in trace.meetings().items():
            if "store" in (trace.places[first].opcode, trace.places[to].opcode) and first != to:
                self.assertIn((first, to), orders, f"{trace.places[to]} meets {trace.places[first]} {distance} iterations later")
                self.assertLessEqual(orders[first, to], distance)
                met += orders[first, to] == distance
        self.assertGreaterEqual(met, len(orders) - case.open, "of the orders that are not open, each is met")

    def orders_of(self, problem: dict, trace: Trace) -> dict[tuple[int, int], int]:
        """The distance of each order, by the places of its accesses."""
        operations = {}
        for it in problem["operations"]:
            memory = [one for one in it["instructions"] if one["opcode"] in ("load", "store")]
            if memory:
                operations[it["name"]] = self.place_of(memory[0], trace, set(operations.values()))
        return {(operations[it["from"]], operations[it["to"]]): it["distance"] for it in problem["edges"]}

    def place_of(self, one: dict, trace: Trace, taken: set[int]) -> int:
        """Which access it is: that of its name, and of stores, which have none, the next one."""
        return next(
            place for place, it in enumerate(trace.places)
            if place not in taken and it.opcode == one["opcode"] and it.name == one["name"]
        )


if __name__ == "__main__":
    unittest.main()
