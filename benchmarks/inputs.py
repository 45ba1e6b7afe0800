#!/usr/bin/env python3
"""Makes the inputs of ./x bench, always the same bytes.

    python3 benchmarks/inputs.py DIRECTORY

writes four loop files (many, large, hard, run) and a machine text for each:
vliw8.toml for many, large and run, vliw8-few.toml for hard, and extreme.toml
(64 units, tables of 16 rows) for any of them.
"""

import os
import sys


class Random:
    def __init__(self, seed):
        self.state = seed & (2**64 - 1)

    def next(self):
        self.state = (self.state * 6364136223846793005 + 1442695040888963407) % 2**64
        return self.state >> 33

    def below(self, n):
        return self.next() % n

    def between(self, low, high):
        return low + self.below(high - low + 1)

    def chance(self, percent):
        return self.below(100) < percent

    def choice(self, items):
        return items[self.below(len(items))]


ALL = "load store add sub mul and or xor min max lt sel mov".split()


def machine_text(registers, units, ops):
    lines = ["registers = %d" % registers]
    lines.append("units = [%s]" % ", ".join('"%s"' % u for u in units))
    for name, latency, alts in ops:
        lines += ["", "[ops.%s]" % name, "latency = %d" % latency, "alts = ["]
        for alt in alts:
            lines.append("  [%s]," % ", ".join('"%s@%d"' % row for row in alt))
        lines.append("]")
    return "\n".join(lines) + "\n"


def vliw8(registers):
    units = ["m0", "m1", "a0", "a1", "a2", "a3", "x0", "x1"]
    single = lambda *names: [[(n, 0)] for n in names]
    ops = [
        ("load", 4, single("m0", "m1")),
        ("store", 1, single("m1", "m0")),
        ("mul", 6, [[("x0", 0), ("x0", 1)], [("x1", 0), ("x1", 1)]]),
        ("min", 2, single("a0", "a1")),
        ("max", 2, single("a0", "a1")),
        ("lt", 2, single("a2", "a3")),
        ("sel", 3, [[("a2", 0), ("a3", 1)], [("a3", 0), ("a2", 1)], [("x1", 0)]]),
    ]
    for name in ["add", "sub", "and", "or", "xor", "mov"]:
        ops.append((name, 1, single("a0", "a1", "a2", "a3")))
    return machine_text(registers, units, ops)


def vliw8_few():
    """Few registers, and alternatives that stand in each other's and their own way."""
    units = ["m0", "m1", "a0", "a1", "x0", "x1", "b0", "b1"]
    ops = [
        ("load", 4, [[("m0", 0), ("m0", 2), ("b0", 3)], [("m1", 0), ("m1", 3), ("b1", 3)]]),
        ("store", 1, [[("m0", 0), ("b1", 0), ("b1", 2)], [("m1", 0), ("b0", 0), ("b0", 3)]]),
        ("mul", 6, [[("x0", 0), ("x0", 1), ("x0", 4), ("b0", 5)], [("x1", 0), ("x1", 2), ("x1", 3), ("b1", 5)]]),
        ("sel", 3, [[("a0", 0), ("a1", 1), ("x0", 1), ("b0", 2)], [("a1", 0), ("a0", 1), ("x1", 2), ("b1", 2)]]),
    ]
    for name in ["min", "max", "lt"]:
        ops.append((name, 2, [[("a0", 0), ("a0", 2), ("b0", 1)], [("a1", 0), ("a1", 3), ("b1", 1)]]))
    for name in ["add", "sub", "and", "or", "xor", "mov"]:
        ops.append((name, 1, [[("a0", 0), ("b0", 0)], [("a1", 0), ("b1", 0)]]))
    return machine_text(20, units, ops)


def extreme():
    r = Random(64)
    units = ["unit_number_%02d" % u for u in range(64)]
    ops = []
    for name in ALL:
        alts = []
        for _ in range(8):
            rows = []
            while len(rows) < 16:
                row = (units[r.below(64)], r.below(64))
                if row not in rows:
                    rows.append(row)
            alts.append(rows)
        ops.append((name, r.between(1, 64), alts))
    return machine_text(256, units, ops)


class Body:
    """The statements of a loop while they are drawn. shape: arrays, cells, recurrence and memory percents, spread of
    subscripts, distances, prefix of names, how far back operands reach."""

    def __init__(self, r, shape):
        self.r, self.shape = r, shape
        self.arrays = ["%sa%d" % (shape["prefix"], k) for k in range(shape["arrays"])]
        self.stored = self.arrays[: max(1, len(self.arrays) // 2)]
        self.params = ["%sp%d" % (shape["prefix"], k) for k in range(3)]
        self.values, self.lines, self.inits = [], [], {}

    def subscript(self):
        c = self.r.between(-self.shape["spread"], self.shape["spread"])
        return "i" if c == 0 else "i%+d" % c

    def operand(self):
        if self.values and self.r.chance(88):
            reach = min(len(self.values), self.shape["reach"])
            return self.values[len(self.values) - 1 - self.r.below(reach)]
        return self.r.choice(self.params) if self.r.chance(60) else str(self.r.between(-99, 99))

    def operands(self, count):
        return " ".join(self.operand() for _ in range(count))

    def distance_of(self, value):
        """How many iterations ago a value is used, of which there are initial values then."""
        distance = self.r.between(1, self.shape["distance"])
        self.inits[value] = max(self.inits.get(value, 0), distance)
        return distance

    def store(self):
        guard = " if %s" % self.operand() if self.r.chance(self.shape["guards"]) else ""
        self.lines.append("store %s[%s] %s%s" % (self.r.choice(self.stored), self.subscript(), self.operand(), guard))

    def computed(self, value):
        """What a statement that is no load computes: by its own last values, by those of another, or by operands."""
        r, shape = self.r, self.shape
        if r.chance(shape["recurrences"]):
            distance = self.distance_of(value)
            op = r.choice(["add", "sub", "max", "xor", "add", "mul" if shape["mul_recurrence"] else "min"])
            return "%s %s@%d %s" % (op, value, distance, self.operand())
        if r.chance(shape["crossing"]) and self.values:
            other = r.choice(self.values)
            distance = self.distance_of(other)
            return "%s %s@%d %s" % (r.choice(["add", "sub", "or"]), other, distance, self.operand())
        op = r.choice(["add", "add", "sub", "mul", "mul", "and", "or", "xor", "min", "max", "lt", "sel", "mov"])
        return "%s %s" % (op, self.operands({"sel": 3, "mov": 1}.get(op, 2)))

    def draw(self, k, left):
        """Statement k, where so many are left with it: the first one is a load, and the last one a store."""
        value, kind, shape = "%sv%d" % (self.shape["prefix"], k), self.r.below(100), self.shape
        if kind < shape["loads"] and left > 1 or k == 0:
            self.lines.append("%s = load %s[%s]" % (value, self.r.choice(self.arrays), self.subscript()))
        elif kind < shape["loads"] + shape["stores"] or left == 1:
            self.store()
            return
        else:
            self.lines.append("%s = %s" % (value, self.computed(value)))
        self.values.append(value)


def loop_text(r, name, statements, shape):
    """One loop, with arrays, parameters and initial values."""
    body = Body(r, shape)
    for k in range(statements):
        body.draw(k, statements - k)
    text = ["loop %s" % name]
    for a in body.arrays:
        cells = [str(r.between(-10**shape["digits"], 10**shape["digits"])) for _ in range(shape["cells"])]
        text.append(" ".join(["array %s =" % a] + cells))
    for p in body.params:
        text.append("param %s = %d" % (p, r.between(-1000, 1000)))
    if shape["outs"] and body.values:
        last = body.values[-1]
        body.inits[last] = max(body.inits.get(last, 0), 1)
        body.lines.append("out %s" % last)
    for value, most in body.inits.items():
        for m in range(1, most + 1):
            text.append("init %s@%d = %d" % (value, m, r.between(-99, 99)))
    return "\n".join(text + body.lines + ["end"]) + "\n"


BASE = dict(arrays=3, cells=8, loads=25, stores=10, guards=10, recurrences=8, crossing=5, spread=2, distance=2,
            prefix="", reach=8, mul_recurrence=False, digits=3, outs=False)


def many():
    r = Random(1)
    shape = dict(BASE, prefix="stream_", arrays=3, cells=13, digits=6, reach=6)
    return "".join(loop_text(r, "kernel_%04d" % k, r.between(14, 18), shape) for k in range(1024))


def large():
    r = Random(2)
    shape = dict(BASE, arrays=6, recurrences=10, crossing=10, spread=8, distance=4, reach=14, stores=14, loads=24)
    return "".join(loop_text(r, "large_%02d" % k, 128, dict(shape, outs=k % 4 == 0)) for k in range(64))


def hard():
    r = Random(3)
    text = []
    for k in range(64):
        shape = dict(BASE, arrays=4, recurrences=k % 4, crossing=k % 3, spread=3, distance=2, reach=24 + 2 * (k % 16),
                     mul_recurrence=True, stores=10, loads=26)
        text.append(loop_text(r, "hard_%02d" % k, 40 + 8 * (k % 8), shape))
    return "".join(text)


def run():
    r = Random(4)
    sizes = [6, 12, 24, 24, 48, 96]
    shape = dict(BASE, arrays=4, cells=64, spread=2, recurrences=10, guards=25, reach=8)
    return "".join(loop_text(r, "run_%d" % k, n, dict(shape, outs=k % 2 == 0)) for k, n in enumerate(sizes))


def main():
    out = sys.argv[1] if len(sys.argv) > 1 else os.path.join(os.path.dirname(os.path.abspath(__file__)), "out")
    os.makedirs(out, exist_ok=True)
    files = {
        "vliw8.toml": vliw8(64),
        "vliw8-few.toml": vliw8_few(),
        "extreme.toml": extreme(),
        "many.loops": many(),
        "large.loops": large(),
        "hard.loops": hard(),
        "run.loops": run(),
    }
    for name, text in files.items():
        assert len(text) <= 1048576, (name, len(text))
        with open(os.path.join(out, name), "w", newline="") as f:
            f.write(text)
        print("%s %d bytes" % (name, len(text)))


main()
