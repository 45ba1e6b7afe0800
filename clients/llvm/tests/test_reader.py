"""How LLVM IR is read, and which loops can be scheduled, on IR written by hand."""
from __future__ import annotations

import unittest

import common  # (it says where the others are)
from frontend import affine, loops, problem, reader
from frontend.ir import Unknown

TYPES = """
%pair = type { i8, i32, [4 x i16] }
@table = global [3 x %pair] zeroinitializer
define float @f(%pair* noalias %p, i64 %i, i32 %j, float %x) {
  %1 = getelementptr %pair, %pair* %p, i64 %i, i32 2, i64 3
  %m = load volatile i16, i16* %1
  %2 = load i32, i32* getelementptr inbounds ([3 x %pair], [3 x %pair]* @table, i64 0, i64 2, i32 1)
  %c = fcmp olt float %x, 2.5
  %u = add i32 %2, undef
  ret float %x
}
"""


def function(text: str):
    """The first function of a module."""
    return reader.read_functions(text)[0][1]


class Reading(unittest.TestCase):
    def test_values(self):
        read = function(TYPES)
        address, load, other, compare, add, last = read.blocks[0].instructions
        self.assertEqual([(it.name, it.is_apart) for it in read.arguments], [("%p", True), ("%i", False), ("%j", False), ("%x", False)])
        # a pair has 16 bytes: 1 and 3 of padding, 4, 8; the numbers begin at byte 8
        self.assertEqual((address.address.offset, address.address.scaled), (8 + 3 * 2, [(1, 16)]))
        self.assertTrue(load.is_volatile)
        self.assertEqual((load.size, other.size), (2, 4))
        constant = other.operands[0]
        self.assertEqual((constant.opcode, constant.address.offset, constant.operands[0].name, constant.operands[0].size), ("getelementptr", 36, "@table", 48))
        self.assertEqual((compare.predicate, compare.operands[1].number), ("olt", 2.5))
        self.assertEqual(add.operands[1].number, 0)
        self.assertEqual(last.operands, [read.arguments[3]])

    def test_unknown_operand(self):
        """What is not known of a constant does not keep the rest of a function from being read; a constant that is made of it is not known either."""
        text = "@other = alias i32, i32* @table\n@table = global i32 0\ndefine i8 @f(<2 x i32> %x) {\n %y = add <2 x i32> %x, <i32 1, i32 2>\n"
        text += " %z = load i8, i8* getelementptr (i8, i8* bitcast (i32* @other to i8*), i64 1)\n ret i8 %z\n}\n"
        sum_, load, _ = function(text).blocks[0].instructions
        self.assertIsInstance(sum_.operands[1], Unknown)
        self.assertEqual(repr(sum_.operands[1]), "<2 x i32> <i32 1, i32 2>")
        self.assertIsInstance(load.operands[0], Unknown)

    def test_calls(self):
        """An intrinsic that computes has its name without types, one that does more is a call, and what is only told to the compiler is dropped."""
        text = (
            "declare void @llvm.assume(i1)\ndeclare i16 @llvm.fshl.i16(i16, i16, i16)\ndeclare i16 @g(i16)\n"
            "declare void @llvm.memset.p0i8.i64(i8*, i8, i64, i1)\n"
            "define i16 @f(i16 %x, i1 %c, i8* %p) {\n call void @llvm.assume(i1 %c)\n %a = call i16 @llvm.fshl.i16(i16 %x, i16 %x, i16 3)\n"
            " call void @llvm.memset.p0i8.i64(i8* %p, i8 0, i64 4, i1 false)\n %b = call i16 @g(i16 %a)\n ret i16 %b\n}\n"
        )
        found = next(it for name, it in reader.read_functions(text) if name == "f").blocks[0].instructions
        self.assertEqual([it.opcode for it in found], ["llvm.fshl", "call llvm.memset", "call g", "ret"])
        self.assertEqual(len(found[0].operands), 3)

    def test_wide_numbers(self):
        """A constant of more than 64 bits is not read, rather than cut off."""
        text = "define i128 @f(i128 %x) {\n %y = add i128 %x, 36893488147419103233\n ret i128 %y\n}\n"
        self.assertIsInstance(function(text).blocks[0].instructions[0].operands[1], Unknown)

    def test_no_number(self):
        """Of what is no number, only the usual bits are read: a text could not tell the others from them, and they can be looked at in memory."""
        for of in ("float", "double"):
            for bits, is_read in (("7FF8000000000000", True), ("FFF8000000000000", False), ("7FF8000020000000", False), ("7FF0000020000000", False)):
                with self.subTest(f"{of} {bits}"):
                    found = function(f"define void @f({of}* %p) {{\n store {of} 0x{bits}, {of}* %p\n ret void\n}}\n")
                    self.assertEqual(isinstance(found.blocks[0].instructions[0].operands[0], Unknown), not is_read)

    def test_branches(self):
        """A function whose blocks are not all read is told in a word."""
        text = "define void @f(i8* %p) {\n indirectbr i8* %p, [label %a]\na:\n fence seq_cst\n ret void\n}\n"
        self.assertIsInstance(function(text), reader.Unread)
        self.assertEqual(str(function(text)), "indirectbr")

    def test_refused(self):
        """What LLVM refuses is told in one line: what is no IR, and IR whose values are used before they are made."""
        early = "define i32 @f() {\n %x = add i32 %y, 1\n %y = add i32 1, 1\n ret i32 %x\n}\n"
        for text, said in (("define i32 @f( {", "expected type"), (early, "does not dominate")):
            with self.subTest(said):
                with self.assertRaisesRegex(reader.Unread, f"^LLVM refuses the IR: .*{said}") as it:
                    reader.read_functions(text)
                self.assertNotIn("\n", str(it.exception))


NEST = """
define void @f(i32 %n, i1 %c) {
entry:
  br label %outer
outer:
  %i = phi i32 [ 0, %entry ], [ %i1, %end ]
  br label %inner
inner:
  %j = phi i32 [ 0, %outer ], [ %j1, %inner ]
  %j1 = add i32 %j, 1
  %t = icmp slt i32 %j1, %n
  br i1 %t, label %inner, label %end
end:
  %i1 = add i32 %i, 1
  %s = icmp slt i32 %i1, %n
  br i1 %s, label %outer, label %after
after:
  ret void
}
"""
CONDITION = """
define void @f(i32 %n, i32* %p, i32 %x) {
entry:
  br label %head
head:
  %i = phi i32 [ 0, %entry ], [ %i1, %latch ]
  %t = icmp eq i32 %i, 3
  br i1 %t, label %BRANCHES
then:
  %y = add i32 %i, %x
  store i32 %y, i32* %p
  br label %latch
latch:
  %z = phi i32 [ %y, %then ], [ 7, %head ]
  %i1 = add i32 %i, 1
  %s = icmp slt i32 %i1, %n
  br i1 %s, label %head, label %after
after:
  ret void
}
"""


class Loops(unittest.TestCase):
    def test_nest(self):
        read = function(NEST)
        self.assertEqual([(header.name, [it.name for it in blocks]) for header, blocks in loops.innermost(read)], [("%inner", ["%inner"])])

    def test_tangled(self):
        """A circuit that is entered at two places is no loop, and is told all the same; in a loop it is a part of an iteration."""
        text = "define void @f(i1 %c) {\nentry:\n br i1 %c, label %one, label %two\none:\n br label %two\ntwo:\n br i1 %c, label %one, label %after\nafter:\n AFTER\n}\n"
        read = function(text.replace("AFTER", "ret void"))
        self.assertEqual(loops.innermost(read), [])
        ((block, blocks, places),) = loops.tangled(read)
        self.assertEqual((block in blocks, {it.name for it in blocks}, places), (True, {"%one", "%two"}, 2))
        _, left_out = problem.problems_of([("f", read)], common.machine("four"), "f.c")
        self.assertEqual(left_out, [{"file": "f.c", "line": 0, "function": "f", "reason": "it is entered at 2 places"}])
        dead = text.replace("AFTER", "ret void\ndead:\n br label %after\nmore:\n br label %dead")
        self.assertEqual(len(loops.tangled(function(dead))), 1, "what is never reached is no circuit")
        around = text.replace("entry:", "start:\n br label %entry\nentry:").replace("AFTER", "br label %entry")
        self.assertEqual((len(loops.innermost(function(around))), loops.tangled(function(around))), (1, []))
        self.assertEqual([loops.tangled(function(it)) for it in (NEST, CONDITION.replace("BRANCHES", "then, label %latch"))], [[], []])

    def test_condition(self):
        """The store is guarded, and the phi is a select that has the value of the conditional block where the condition is as wanted."""
        for branches, wanted, places in (("then, label %latch", True, [1, 2]), ("latch, label %then", False, [2, 1])):
            read = function(CONDITION.replace("BRANCHES", branches))
            loop = loops.loop_of(read, *loops.innermost(read)[0])
            self.assertEqual([it.opcode for it in loop.body], ["icmp", "add", "store", "select", "add", "icmp"])
            store, select = loop.body[2], loop.body[3]
            self.assertEqual((loop.guards[store].condition.name, loop.guards[store].wanted), ("%t", wanted))
            self.assertEqual([select.operands[it].name for it in (0, *places)], ["%t", "%y", "7"])

    def left_out(self, text: str) -> str:
        read = function(text)
        with self.assertRaises(loops.LeftOut) as it:
            loop = loops.loop_of(read, *loops.innermost(read)[0])
            affine.exit_of(loop, affine.Inductions(loop))
        return str(it.exception)

    def test_left_out(self):
        text = CONDITION.replace("BRANCHES", "then, label %latch")
        self.assertEqual(self.left_out(text.replace("br label %latch", "br i1 %t, label %latch, label %after")), "it is left in the middle of an iteration")
        self.assertEqual(self.left_out(text.replace("br i1 %s, label %head, label %after", "br label %head")), "it never ends")
        early = text.replace("label %then, label %latch", "label %after, label %latch").replace("br i1 %s, label %head, label %after", "br label %head")
        self.assertEqual(self.left_out(early), "it is left at the beginning of an iteration")
        self.assertEqual(self.left_out(text.replace("store i32", "store volatile i32")), "it has a volatile or atomic access")
        self.assertEqual(self.left_out(text.replace("store i32", "fence seq_cst\n  store i32")), "it has a volatile or atomic access")
        self.assertEqual(self.left_out(text.replace("store i32 %y, i32* %p", "call void @g()") + "declare void @g()"), "it calls g")
        self.assertEqual(self.left_out(text.replace("icmp slt i32 %i1, %n", "icmp slt i32 %z, %n")), "its trip count is not known before it starts")
        self.assertEqual(self.left_out(text.replace("add i32 %i, 1", "add i32 %i, 0")), "its trip count is not known before it starts")
        for division in ("sdiv i32 %i, %x", "sdiv i32 %i, -1", "urem i32 %i, 0"):
            self.assertEqual(self.left_out(text.replace("add i32 %i, %x", division)), "it divides under a condition")
        parts = "%w = call { i32, i1 } @llvm.sadd.with.overflow.i32(i32 %i, i32 %x)\n  %y = extractvalue { i32, i1 } %w, 0"
        declared = "declare { i32, i1 } @llvm.sadd.with.overflow.i32(i32, i32)\n"
        self.assertEqual(self.left_out(text.replace("%y = add i32 %i, %x", parts) + declared), "it has values of several parts")
        self.assertEqual(self.left_out(text.replace("%y = add i32 %i, %x", "%y = extractvalue [2 x i32] undef, 1")), "it has values of several parts")
        self.assertEqual(self.left_out(text.replace("store i32 %y, i32* %p", 'call void asm sideeffect "nop", ""()')), "it has assembly")
        wide = text.replace("store i32 %y", "%b = add i128 undef, 36893488147419103233\n  store i32 %y")
        self.assertEqual(self.left_out(wide), "it has the operand i128 36893488147419103233")
        fixed = "declare i32 @llvm.sdiv.fix.i32(i32, i32, i32 immarg) readnone\n"
        self.assertEqual(self.left_out(text.replace("%y = add i32 %i, %x", "%y = call i32 @llvm.sdiv.fix.i32(i32 %i, i32 %x, i32 4)") + fixed), "it divides under a condition")

    def test_taken(self):
        """Divisions by numbers that do not trap; and accesses by pointers to vectors, and to packed structs without a name, which begin with an angle both."""
        text = CONDITION.replace("BRANCHES", "then, label %latch")
        for given in ("sdiv i32 %i, 7", "srem i32 %i, -2", "udiv i32 %i, -1"):
            read = function(text.replace("add i32 %i, %x", given))
            self.assertEqual(len(loops.loop_of(read, *loops.innermost(read)[0]).body), 6, given)
        for of, places in (("<{ i8, i32 }>", "i64 0, i32 1"), ("<4 x i32>", "i64 0, i64 1")):
            lines = f"%v = bitcast i32* %p to {of}*\n  %w = getelementptr {of}, {of}* %v, {places}\n  store i32 %y, i32* %w"
            read = function(text.replace("store i32 %y, i32* %p", lines))
            self.assertEqual(len(loops.loop_of(read, *loops.innermost(read)[0]).body), 8, of)
        for of, said in (("<{ i8, i32 }>", "it has values of several parts"), ("<4 x i32>", "it has vectors"), ("<4 x i32*>", "it has vectors")):
            self.assertEqual(self.left_out(text.replace("store i32 %y, i32* %p", f"store {of} undef, {of}* null")), said)


if __name__ == "__main__":
    unittest.main()
