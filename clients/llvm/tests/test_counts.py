"""The operations and orders of the corpus are those that were counted by hand, and those that a second reading of the IR finds, by its text alone."""
from __future__ import annotations

import collections
import unittest

import common  # (it says where the others are)
import cases
import text_reading

# what a reading of the text does not tell apart: addresses, and what branches and phis come to
UNCOUNTED = ("getelementptr", "phi", "br")


def opcodes(problem: dict) -> tuple[collections.Counter, collections.Counter]:
    """How many instructions of each opcode a problem's operations do, and how many more are folded into operations, each counted once."""
    every = [one for it in problem["operations"] for one in it["instructions"] if one["opcode"] not in (*UNCOUNTED, "copy")]
    done = [it for it in every if "folded" not in it]
    # (one that is needed at several times stands once for each)
    folded = {it["name"].partition(".at.")[0]: it for it in every if "folded" in it and it["name"] not in {it["name"] for it in done}}
    return collections.Counter(it["opcode"] for it in done), collections.Counter(it["opcode"] for it in folded.values())


class Counts(unittest.TestCase):
    def test_by_hand(self):
        """Loads, stores and orders, and the reasons for which loops are left out, are what the comments of the corpus say."""
        for path in cases.corpus_files():
            for machine in common.MACHINES:
                given = common.document(path, machine)
                left_out = {it["function"]: it["reason"] for it in given["left_out"]}
                for case in cases.cases_of(path):
                    with self.subTest(file=path, function=case.name, machine=machine):
                        self.assertEqual(left_out.get(case.name, ""), case.reason)
                        if case.counts is not None:
                            its = [it for it in given["problems"] if it["source"]["function"] == case.name]
                            counts = sum((opcodes(it)[0] for it in its), collections.Counter())
                            self.assertEqual((counts["load"], counts["store"], sum(len(it["edges"]) for it in its)), case.counts)

    def test_nothing_is_forgotten(self):
        """Each function of the corpus has a case, and each loop is in the problems or left out."""
        for path in cases.corpus_files():
            names = {it.name for it in cases.cases_of(path)}
            with self.subTest(file=path):
                for machine in common.MACHINES:
                    given = common.document(path, machine)
                    found = [it["source"]["function"] for it in given["problems"]] + [it["function"] for it in given["left_out"]]
                    self.assertEqual(sorted(found), sorted(names))

    def test_by_text(self):
        """Each instruction of a loop is done by one operation, is folded into those that need it, or counts the iterations."""
        for path in cases.corpus_files():
            for machine in common.MACHINES:
                for it in common.document(path, machine)["problems"]:
                    with self.subTest(file=path, problem=it["name"], machine=machine):
                        self.check_text(common.ir(path), it, machine)

    def check_text(self, text: str, problem: dict, machine: str) -> None:
        source = problem["source"]
        read = text_reading.loop_opcodes(text, source["function"], source["header"][1:])
        done, folded = opcodes(problem)
        for opcode in {*read, *done, *folded} - {*UNCOUNTED}:
            rest = read[opcode] - done[opcode] - folded[opcode]
            if machine == "four" and opcode == "icmp":
                self.assertEqual(rest, 1, "the counter compares")
            elif machine == "four" and opcode == "add":
                self.assertIn(rest, (0, 1), "the counter adds")
            else:
                self.assertEqual(rest, 0, opcode)


if __name__ == "__main__":
    unittest.main()
