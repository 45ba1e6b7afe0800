"""Random loops of C, run by their schedules and compared with clang's code: python3 clients/llvm/tests/random_loops.py SECONDS [SEED]

It takes no part in the gate. What differs is told with its seed and its C."""
from __future__ import annotations

import os
import random
import sys
import time

import common  # (it says where the others are)
import cases
import test_runs

TYPES = ("uint8_t", "int8_t", "uint16_t", "int16_t", "uint32_t", "int32_t")
FUNCTIONS = 6


class Writer:
    """Writes one function. All arithmetic is on numbers of 32 bits without a sign, which may overflow."""

    def __init__(self, seed: int):
        self.chance = random.Random(seed)
        self.types = {name: self.chance.choice(TYPES) for name in "abc"}
        self.kept = [f"s{it}" for it in range(self.chance.randint(0, 3))]
        self.is_shared = self.chance.random() < 0.4
        if self.is_shared:
            # (pointers of different types must not reach the same)
            self.types["c"] = self.types["a"]

    def index(self) -> str:
        by = self.chance.choice(["i", "i", "i", "2 * i", "n - 1 - i"])
        if self.chance.random() < 0.15:
            return f"({self.expression(1)}) & 15"
        return f"{by} + {self.chance.randrange(8)}"

    def expression(self, depth: int) -> str:
        kind = self.chance.random()
        if depth == 0 or kind < 0.15:
            return self.chance.choice([f"(uint32_t){self.chance.choice('abc')}[{self.index()}]" if depth else "i", *self.kept, f"{self.chance.randrange(1, 99)}u", "k", "(uint32_t)i"])
        one, two = self.expression(depth - 1), self.expression(depth - 1)
        if kind < 0.75:
            return f"({one} {self.chance.choice(['+', '-', '*', '&', '|', '^', '+', '-'])} {two})"
        if kind < 0.85:
            return f"({one} {self.chance.choice(['>>', '<<'])} {self.chance.randrange(1, 9)})"
        if kind < 0.93:
            return f"({one} {self.chance.choice(['<', '>', '=='])} {two} ? {self.expression(depth - 1)} : {one})"
        return f"(uint32_t)({self.chance.choice(TYPES)})({one})"

    def statement(self) -> str:
        kind = self.chance.random()
        if kind < 0.45 and self.kept:
            return f"        {self.chance.choice(self.kept)} = {self.expression(2)};"
        if kind < 0.55 and len(self.kept) > 1:
            one, two = self.chance.sample(self.kept, 2)
            return f"        t = {one}, {one} = {two}, {two} = t;"
        return f"        {self.chance.choice('abc')}[{self.index()}] = {self.expression(2)};"

    def function(self, name: str) -> str:
        words = [f"{self.types[it]} *{'restrict ' if not (self.is_shared and it in 'ac') and self.chance.random() < 0.6 else ''}{it}" for it in "abc"]
        third = f"&a+{self.chance.randrange(6)}" if self.is_shared else "2*n+40"
        lines = [f"/* run: n=T k=7 a=2*n+60 b=2*n+40 c={third} */", f"uint32_t {name}({', '.join(words)}, uint32_t k, int n) {{"]
        lines += [f"    uint32_t {it} = {self.chance.randrange(9)}u;" for it in self.kept]
        lines += ["    uint32_t t = 0;", "    for (int i = 0; i < n; i++) {"]
        lines += [self.statement() for _ in range(self.chance.randint(1, 4))]
        if self.chance.random() < 0.3:
            lines += [f"        if ({self.expression(1)} > {self.expression(1)})", "    " + self.statement()]
        lines += ["    }", f"    return {' ^ '.join(['t', *self.kept])};", "}"]
        return "\n".join(lines)


def check(seed: int) -> int:
    """Runs one file of random functions: how many loops it had."""
    path = os.path.join(common.ROOM, f"random{seed}.c")
    with open(path, "w", encoding="utf-8") as it:
        it.write("#include <stdint.h>\n\n" + "\n\n".join(Writer(seed * FUNCTIONS + number).function(f"f{number}") for number in range(FUNCTIONS)) + "\n")
    test, ran = test_runs.Runs(), 0
    for machine in common.MACHINES:
        document, solutions = common.solved(path, machine)
        by_name = {it["name"]: it for it in solutions["solutions"]}
        functions = dict(common.functions(path))
        for case in cases.cases_of(path):
            given = [it for it in document["problems"] if it["source"]["function"] == case.name and it["name"] in by_name]
            for it in given:
                test.assertTrue(common.is_lawful(document["machine"], it, by_name[it["name"]]), it["name"])
            for trip in cases.TRIPS[:4] if given else ():
                test.check_run(case, functions[case.name], document["machine"], given, by_name, trip)
            ran += len(given)
    os.remove(path)
    return ran


def main() -> int:
    """Goes on for some seconds, or runs one seed."""
    end, ran, rounds = time.monotonic() + float(sys.argv[1]), 0, 0
    seed = int(sys.argv[2]) if len(sys.argv) > 2 else random.randrange(10**6)
    while True:
        try:
            ran += check(seed + rounds)
        except Exception:
            print(f"random_loops: seed {seed + rounds}")
            with open(os.path.join(common.ROOM, f"random{seed + rounds}.c"), encoding="utf-8") as it:
                print(it.read())
            raise
        rounds += 1
        if time.monotonic() > end or len(sys.argv) > 2:
            print(f"{ran} loops of {rounds} files were as clang's code")
            return 0


if __name__ == "__main__":
    sys.exit(main())
