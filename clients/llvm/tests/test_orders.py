"""The analysis of dependences, on loops of LLVM IR written by hand; each expected order is worked out by hand."""
from __future__ import annotations

import unittest

import common  # (it says where the others are)
from frontend import affine, loops, orders, reader

# `{0}` are the instructions of an iteration i, in which %i and %j, of 32 bits, count from 0 in steps of 1
LOOP = """
@table = global [64 x i32] zeroinitializer
@other = global [64 x i32] zeroinitializer
define void @f(i32* %p, i32* %q, i32* noalias %r, i64 %n, i64 %k, i8* %b) {{
entry:
  br label %loop
loop:
  %i = phi i64 [ 0, %entry ], [ %next, %loop ]
  %j = phi i32 [ 0, %entry ], [ %jnext, %loop ]
  {0}
  %next = add i64 %i, 1
  %jnext = add i32 %j, 1
  %last = icmp eq i64 %next, %n
  br i1 %last, label %after, label %loop
after:
  ret void
}}
"""
STORE_LATENCY = 2


def analysed(lines: str, layout: str = "") -> tuple[loops.Loop, affine.Inductions]:
    """The loop with these instructions, for a machine with a data layout."""
    function = reader.read_functions(f'target datalayout = "{layout}"\n' + LOOP.format(lines.strip().replace("\n", "\n  ")))[0][1]
    loop = loops.loop_of(function, *loops.innermost(function)[0])
    return loop, affine.Inductions(loop)


def orders_of(lines: str, layout: str = "") -> list[tuple[int, int, int, int]]:
    """The orders of a loop's accesses, which are counted from 0, as (first, to, delay, distance). Loads take 3 cycles, stores 2."""
    loop, inductions = analysed(lines, layout)
    accesses = [it for it in loop.body if it.opcode in reader.MEMORY]
    found = [orders.access_of(place, it, inductions, STORE_LATENCY if it.opcode == "store" else 3) for place, it in enumerate(accesses)]
    return [(it.first, it.to, it.delay, it.distance) for it in orders.orders_of(found)]


def access(name: str, of: str, pointer: str, index: str, action: str) -> str:
    """The lines of an access to POINTER[INDEX], where INDEX is as 'i', 'i+3' or '2*i-1', of elements of a type."""
    scale, rest = (index.split("*") if "*" in index else ("1", index))
    added = rest.removeprefix("i") or "+0"
    lines = f"%{name}s = mul i64 %i, {scale}\n%{name}a = add i64 %{name}s, {int(added)}\n"
    lines += f"%{name}p = getelementptr {of}, {of}* {pointer}, i64 %{name}a\n"
    return lines + (f"%{name} = load {of}, {of}* %{name}p\n" if action == "load" else f"store {of} 1, {of}* %{name}p\n")


def two(one: tuple[str, str], other: tuple[str, str], pointers: tuple[str, str] = ("%p", "%p"), of: str = "i32") -> list[tuple[int, int, int, int]]:
    """The orders of two accesses, each an index and what is done."""
    return orders_of(access("x", of, pointers[0], *one) + access("y", of, pointers[1], *other))


class Distances(unittest.TestCase):
    def test_the_same_place(self):
        # the store lands 2 cycles after its issue, so it may be issued one cycle before the load that must not see it
        self.assertEqual(two(("i", "load"), ("i", "store")), [(0, 1, -1, 0)])
        self.assertEqual(two(("i", "store"), ("i", "load")), [(0, 1, 2, 0)])
        # the second of two stores lands at least a cycle after the first
        self.assertEqual(two(("i", "store"), ("i", "store")), [(0, 1, 1, 0)])
        self.assertEqual(two(("i", "load"), ("i", "load")), [])

    def test_other_iterations(self):
        # a[i+4] of iteration 0 is a[i] of iteration 4
        self.assertEqual(two(("i", "load"), ("i+4", "store")), [(1, 0, 2, 4)])
        self.assertEqual(two(("i+4", "store"), ("i", "load")), [(0, 1, 2, 4)])
        # what is read now is overwritten three iterations later
        self.assertEqual(two(("i+3", "load"), ("i", "store")), [(0, 1, -1, 3)])
        self.assertEqual(two(("i", "store"), ("i+3", "load")), [(1, 0, -1, 3)])
        self.assertEqual(two(("i", "store"), ("i-2", "store")), [(0, 1, 1, 2)])

    def test_other_steps(self):
        # even and odd places
        self.assertEqual(two(("2*i", "load"), ("2*i+1", "store")), [])
        # 2(i + 3) = 2i + 6
        self.assertEqual(two(("2*i+6", "store"), ("2*i", "load")), [(0, 1, 2, 3)])
        # backwards: place 5 - i is place 5 - (i + 2) + 2
        self.assertEqual(two(("-1*i", "store"), ("-1*i+2", "load")), [(0, 1, 2, 2)])
        # of different steps it is only known that the order within the iteration and across the next must stay
        self.assertEqual(two(("i", "load"), ("2*i+1", "store")), [(0, 1, -1, 0), (1, 0, 2, 1)])

    def test_parts(self):
        """A number of 4 bytes and one that begins in its middle: bytes 4i to 4i+3 and, from 10 bytes on, 4i+10 to 4i+13."""
        lines = access("x", "i32", "%p", "i", "load")
        lines += "%z = bitcast i32* %p to i8*\n%y0 = getelementptr i8, i8* %z, i64 10\n%y1 = bitcast i8* %y0 to i32*\n" + access("y", "i32", "%y1", "i", "store")
        # bytes 10 to 13 are first read by iteration 2 (8 to 11)
        self.assertEqual(orders_of(lines), [(1, 0, 2, 2)])

    def test_wrapped(self):
        """p[i * 2^62] of numbers of 4 bytes is one place, since addresses have 64 bits; and p[i + 2^62] is p[i]."""
        lines = "%a = shl i64 %i, 62\n%xp = getelementptr i32, i32* %p, i64 %a\n%x = load i32, i32* %xp\nstore i32 1, i32* %xp\n"
        self.assertEqual(orders_of(lines), [(0, 1, -1, 0), (1, 0, 2, 1)])
        self.assertEqual(two(("i", "load"), (f"i+{1 << 62}", "store")), [(0, 1, -1, 0)])
        # a step of 2^62 + 1 numbers of 4 bytes is one of 4 bytes
        self.assertEqual(two((f"{(1 << 62) + 1}*i", "load"), (f"{(1 << 62) + 1}*i+1", "store")), [(1, 0, 2, 1)])
        # what is far apart may come round
        self.assertEqual(two((f"{1 << 40}*i", "load"), (f"{1 << 40}*i+1", "store")), [(0, 1, -1, 1), (1, 0, 2, 1)])

    def test_one_place(self):
        lines = "%x = load i32, i32* %p\nstore i32 1, i32* %p\n"
        self.assertEqual(orders_of(lines), [(0, 1, -1, 0), (1, 0, 2, 1)])
        apart = "%x = load i32, i32* %p\n%o = getelementptr i32, i32* %p, i64 1\nstore i32 1, i32* %o\n"
        self.assertEqual(orders_of(apart), [])

    def test_far(self):
        """A distance above 255 is told as 255, which is stricter."""
        self.assertEqual(two(("i", "load"), ("i+1000", "store")), [(1, 0, 2, 255)])

    def test_unknown_step(self):
        """p[k*i]: in one iteration two neighbours are apart, but in others they may meet."""
        lines = "%a = mul i64 %i, %k\n%xp = getelementptr i32, i32* %p, i64 %a\n%yp = getelementptr i32, i32* %xp, i64 1\n"
        self.assertEqual(orders_of(lines + "%x = load i32, i32* %xp\nstore i32 1, i32* %yp\n"), [(0, 1, -1, 1), (1, 0, 2, 1)])
        self.assertEqual(orders_of(lines + "%x = load i32, i32* %xp\nstore i32 1, i32* %xp\n"), [(0, 1, -1, 0), (1, 0, 2, 1)])

    def test_unknown_index(self):
        """p[q[i]]: nothing is known."""
        lines = access("at", "i64", "%l", "i", "load").replace("i64* %l", "i64* null")
        lines += "%xp = getelementptr i32, i32* %p, i64 %at\nstore i32 1, i32* %xp\n"
        # (q is not known to be apart from p)
        self.assertEqual(orders_of(lines), [(0, 1, -1, 0), (1, 0, 2, 1)])

    def test_or(self):
        """2i | 1 is 2i + 1; i | 1 is not i + 1."""
        lines = "%e = shl i64 %i, 1\n%o = or i64 %e, 1\n%xp = getelementptr i32, i32* %p, i64 %e\n%yp = getelementptr i32, i32* %p, i64 %o\n"
        self.assertEqual(orders_of(lines + "%x = load i32, i32* %xp\nstore i32 1, i32* %yp\n"), [])
        lines = "%o = or i64 %i, 1\n%xp = getelementptr i32, i32* %p, i64 %i\n%yp = getelementptr i32, i32* %p, i64 %o\n"
        self.assertEqual(len(orders_of(lines + "%x = load i32, i32* %xp\nstore i32 1, i32* %yp\n")), 2)

    def test_narrow_index(self):
        """An index of 32 bits may wrap around, so that nothing is known of it."""
        lines = "%t = trunc i64 %i to i32\n%s = add i32 %t, 4\n%w = zext i32 %s to i64\n%xp = getelementptr i32, i32* %p, i64 %i\n%yp = getelementptr i32, i32* %p, i64 %w\n"
        self.assertEqual(len(orders_of(lines + "%x = load i32, i32* %xp\nstore i32 1, i32* %yp\n")), 2)
        lines = "%s = add i32 %j, 4\n%xp = getelementptr i32, i32* %p, i32 %j\n%yp = getelementptr i32, i32* %p, i32 %s\n"
        self.assertEqual(len(orders_of(lines + "%x = load i32, i32* %xp\nstore i32 1, i32* %yp\n")), 2)


class Widths(unittest.TestCase):
    """Addresses of 32 bits and of 16."""

    def two(self, layout: str, gap: int, of: str = "i32", index: str = "%j") -> list[tuple[int, int, int, int]]:
        """A load of p[index], and a store to the number that stands so many after it."""
        lines = f"%a = add {of} {index}, {gap}\n%xp = getelementptr i32, i32* %p, {of} {index}\n%yp = getelementptr i32, i32* %p, {of} %a\n"
        return orders_of(lines + "%x = load i32, i32* %xp\nstore i32 1, i32* %yp\n", layout)

    def test_narrow_pointers(self):
        """An index of 32 bits wraps around where addresses of 32 bits do, and not where those of 64 bits do."""
        both = [(0, 1, -1, 0), (1, 0, 2, 1)]
        self.assertEqual(self.two("p:32:32", 4), [(1, 0, 2, 4)])
        self.assertEqual(self.two("p:64:64:64:32", 4), [(1, 0, 2, 4)], "so many bits of an address are computed")
        self.assertEqual(self.two("p:64:64", 4), both)
        self.assertEqual(self.two("p:16:16", 4), both, "a few iterations later, addresses of 16 bits come round")
        self.assertEqual(self.two("p:32:32", 4, "i64", "%i"), [(1, 0, 2, 4)], "the upper half of an index is cut off")

    def test_come_round(self):
        """2^30 numbers of 4 bytes after a number stands the same one, where addresses have 32 bits."""
        self.assertEqual(self.two("p:32:32", 1 << 30), [(0, 1, -1, 0)])
        self.assertEqual(self.two("p:32:32", (1 << 30) + 4), [(1, 0, 2, 4)])
        self.assertEqual(self.two("p:32:32", (1 << 30) + 4, "i64", "%i"), [(1, 0, 2, 4)])
        self.assertEqual(self.two("p:64:64", 1 << 30, "i64", "%i"), [(1, 0, 2, 255)])
        # by 2^14 numbers in each iteration, they come round after 65536 of them
        lines = "%a = shl i32 %j, {}\n%xp = getelementptr i32, i32* %p, i32 %a\n%yp = getelementptr i32, i32* %xp, i32 1\n%x = load i32, i32* %xp\nstore i32 1, i32* %yp\n"
        self.assertEqual([len(orders_of(lines.format(it), "p:32:32")) for it in (13, 14)], [0, 2])

    def test_spaces(self):
        """Of the space of addresses 270, on x86-64, those have 32 bits."""
        lines = "%a = add i32 %j, 4\n%xp = getelementptr i32, i32 addrspace(270)* null, i32 %j\n%yp = getelementptr i32, i32 addrspace(270)* null, i32 %a\n"
        lines += "%x = load i32, i32 addrspace(270)* %xp\nstore i32 1, i32 addrspace(270)* %yp\n"
        self.assertEqual(orders_of(lines, "p270:32:32"), [(1, 0, 2, 4)])
        self.assertEqual(len(orders_of(lines, "p271:32:32")), 2)


class Bases(unittest.TestCase):
    def test_pointers(self):
        both = [(0, 1, -1, 0), (1, 0, 2, 1)]
        pair = ("i", "load"), ("i", "store")
        self.assertEqual(two(*pair, ("%p", "%q")), both, "two arguments may point to the same")
        self.assertEqual(two(*pair, ("%p", "%r")), [], "one of them is restrict")
        self.assertEqual(two(*pair, ("%r", "%r")), [(0, 1, -1, 0)], "restrict says nothing of accesses by the same pointer")
        start = "getelementptr inbounds ([64 x i32], [64 x i32]* @{}, i64 0, i64 0)"
        self.assertEqual(two(*pair, (start.format("table"), start.format("other"))), [], "two variables")
        self.assertEqual(two(*pair, (start.format("table"), "%p")), both, "an argument may point to a variable")
        self.assertEqual(two(*pair, (start.format("table"), "%r")), [], "one that is restrict may not")

    def test_loaded_pointer(self):
        """A pointer that comes from memory may have been made of a restrict one."""
        lines = "%h = bitcast i8* %b to i32**\n%l = load i32*, i32** %h\n" + access("x", "i32", "%l", "i", "load") + access("y", "i32", "%r", "i", "store")
        self.assertIn((1, 2, -1, 0), orders_of(lines))


class Steps(unittest.TestCase):
    def test_inductions(self):
        loop, inductions = analysed("%x = add i64 %i, 5")
        self.assertEqual(inductions.steps, {phi: affine.Linear(1) for phi in loop.header.phis})
        self.assertEqual(inductions.of(loop.body[0]), affine.Affine(affine.Linear(5), affine.Linear(1)))

    def test_long(self):
        """A start that 1000 additions or 40 squares make, one after another, is not followed to its beginning."""
        begin = LOOP.replace("entry:\n", "entry:\n  %s0 = add i64 %n, %k\n{1}").replace("%i = phi i64 [ 0,", "%i = phi i64 [ %s{2},")
        for opcode, count in (("add", 1000), ("mul", 40)):
            with self.subTest(opcode):
                before = "".join(f"  %s{it + 1} = {opcode} i64 %s{it}, %{'k' if opcode == 'add' else f's{it}'}\n" for it in range(count))
                function = reader.read_functions(begin.format("", before, count))[0][1]
                loop = loops.loop_of(function, *loops.innermost(function)[0])
                self.assertEqual(affine.Inductions(loop).steps[loop.header.phis[0]], affine.Linear(1))

    def test_exit(self):
        loop, inductions = analysed("")
        self.assertFalse(affine.exit_of(loop, inductions).goes_on)

    def test_narrow_test(self):
        """What is compared may be made shorter or longer for it, as long as it goes on by some step: of 2^32, 32 bits have none."""
        for made, of, is_counted in [
            ("trunc i64 %next to i32", "i32", True), ("sext i32 %jnext to i64", "i64", True), ("zext i32 %jnext to i64", "i64", True),
            ("trunc i64 %far to i32", "i32", False), ("mul i32 %jnext, %jnext", "i32", False),
        ]:
            with self.subTest(made):
                text = LOOP.format("%far = shl i64 %i, 32").replace("%last = icmp eq i64 %next, %n", f"%t = {made}\n  %last = icmp eq {of} %t, 77")
                function = reader.read_functions(text)[0][1]
                loop = loops.loop_of(function, *loops.innermost(function)[0])
                if is_counted:
                    self.assertEqual(affine.exit_of(loop, affine.Inductions(loop)).test.name, "%last")
                else:
                    self.assertRaises(loops.LeftOut, affine.exit_of, loop, affine.Inductions(loop))


if __name__ == "__main__":
    unittest.main()
