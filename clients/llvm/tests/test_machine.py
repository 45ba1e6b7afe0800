"""Terms and machine files."""
from __future__ import annotations

import os
import unittest

import common  # (it says where the others are)
from frontend import patterns, reader
from frontend.ir import Instruction
from frontend.machine import BadMachine, machine_of, read_machine

LINES = """
define i32 @f(i32 %a, i32 %b, i16 %s, i16* %p) {
  %product = mul i32 %a, %b
  %sum = add i32 %b, %product
  %wide = sext i16 %s to i32
  %least = call i32 @llvm.smin.i32(i32 %sum, i32 %wide)
  %is = icmp slt i16 %s, 3
  store i16 %s, i16* %p
  ret i32 %least
}
declare i32 @llvm.smin.i32(i32, i32)
"""
GIVEN = {it.name or it.opcode: it for it in reader.read_functions(LINES)[0][1].blocks[0].instructions}

MACHINE = """
name = "small"
units = ["a", "b"]
files = { r = 8, p = "unallotted" }
[kinds.add]
of = ["add", "sub"]
latency = 1
alternatives = [["a"], ["b", "a@2"]]
[kinds.mac]
of = ["add:i32(mul(a,b),c)"]
latency = 3
alternatives = [["b"]]
offsets = { c = 1 }
[kinds.multiply]
of = ["mul", "mul:i64"]
latency = 2
alternatives = [["b"]]
file = "p"
"""


def leaves(term: str, name: str, is_inner: bool = True) -> dict[str, str] | None:
    """What stands at the leaves of a match, or None where there is none."""
    found = patterns.match(patterns.parse(term), GIVEN[name], lambda it: is_inner)
    return None if found is None else {leaf: one.operands[place].name for leaf, one, place in found.leaves}


class Terms(unittest.TestCase):
    def test_one_instruction(self):
        self.assertEqual(leaves("mul", "%product"), {"a": "%a", "b": "%b"})
        self.assertEqual(leaves("mul:i32", "%product"), {"a": "%a", "b": "%b"})
        self.assertIsNone(leaves("mul:i64", "%product"))
        self.assertIsNone(leaves("add", "%product"))
        self.assertEqual(leaves("llvm.smin:i32", "%least"), {"a": "%sum", "b": "%wide"})

    def test_types(self):
        """A comparison has the type of what it compares, a store that of what it stores, a leaf that of what is there."""
        self.assertIsNotNone(leaves("icmp:i16", "%is"))
        self.assertIsNone(leaves("icmp:i1", "%is"))
        self.assertEqual(leaves("store:i16", "store"), {"a": "%s", "b": "%p"})
        self.assertEqual(leaves("sext:i32(a:i16)", "%wide"), {"a": "%s"})
        self.assertIsNone(leaves("sext:i32(a:i8)", "%wide"))

    def test_several_instructions(self):
        """The product is the second operand of the sum: an addition may be turned around."""
        self.assertEqual(leaves("add(mul(a,b),c)", "%sum"), {"a": "%a", "b": "%b", "c": "%b"})
        self.assertEqual(leaves("add:i32(x,mul:i32(a,b))", "%sum"), {"x": "%b", "a": "%a", "b": "%b"})
        self.assertIsNone(leaves("sub(mul(a,b),c)", "%sum"))
        # an operand that is not listed is the other one, whichever that is
        found = patterns.match(patterns.parse("add(mul)"), GIVEN["%sum"], lambda it: True)
        self.assertEqual([(name, one.name, place) for name, one, place in found.leaves], [("a", "%product", 0), ("b", "%product", 1), ("b", "%sum", 0)])
        self.assertIsNone(leaves("add(mul(a,b),c)", "%sum", is_inner=False), "somebody else needs the product")

    def test_bad_terms(self):
        for text in ("", "a", "add(", "add(a", "add(a,b))", "add:(a)", "add a b", "a(b)", "add(a;b)", "add(a b)", "mul(a,a)", "add(mul(a,b),a)"):
            with self.subTest(text):
                self.assertRaises(patterns.BadTerm, patterns.parse, text)


class Machines(unittest.TestCase):
    def test_matches(self):
        """The most particular kind comes first, and others remain."""
        machine = machine_of(MACHINE)
        found = [(kind.name, [it.name for it in match.instructions]) for kind, match in machine.matches(GIVEN["%sum"], lambda it: True)]
        self.assertEqual(found, [("mac", ["%product", "%sum"]), ("add", ["%sum"])])
        self.assertEqual([kind.name for kind, _ in machine.matches(GIVEN["%sum"], lambda it: False)], ["add"])
        self.assertEqual(machine.matches(GIVEN["%least"], lambda it: False), [])

    def test_parts(self):
        machine = machine_of(MACHINE)
        self.assertEqual(machine.files, {"r": 8, "p": 0})
        self.assertEqual(machine.kinds["add"].alternatives, ((("a", 0),), (("b", 0), ("a", 2))))
        self.assertEqual((machine.kinds["add"].file, machine.kinds["multiply"].file), ("r", "p"))
        self.assertEqual((machine.has_counter, machine.folds_affine, machine.scales), (False, False, []))

    def test_default_and_lacks(self):
        """The default is for what is not named, but for intrinsics and what the machine lacks."""
        text = 'lacks = ["icmp"]\n' + MACHINE + '[kinds.default]\nlatency = 1\nalternatives = [["a"]]\n'
        machine = machine_of(text)
        self.assertEqual([it.name for it, _ in machine.matches(GIVEN["%wide"], lambda it: False)], ["default"])
        self.assertEqual(machine.matches(GIVEN["%is"], lambda it: False), [])
        self.assertEqual(machine.matches(GIVEN["%least"], lambda it: False), [])

    def test_faults(self):
        changes = [
            ('name = "small"', "", "name is missing"), ('["a", "b"]', "3", "units is not"), ('["a"]', '["c"]', "c is no unit"), ('"a@2"', '"a@x"', "a@x is no unit"),
            ('"sub"', '"sub("', "is no term"), ("latency = 2", "", "kinds.multiply.latency is missing"), ('file = "p"', 'file = "q"', "no file q"),
            ('"unallotted"', '"many"', "files.p"), ("latency = 3", "delay = 3", "delay is no key"), ("files =", "file =", "file is no key"),
            ('"mul:i64"]', '"mul:i64"]\nof = []', "overwrite"), ('["a", "b"]', '["a", "b@1"]', "b@1' is no name"), ("r = 8", '"r s" = 8', "r s' is no name"),
            ("c = 1", "c = 3", "offsets.c is not from 0"), ("units =", "units", "Expected"), ("r = 8", "r = true", "files.r is not of the type int"),
            ('["b", "a@2"]', '"b"', "an alternative of kinds.add is not of the type list"), ('["b", "a@2"]', "1", "an alternative of kinds.add is not"),
            ('"a@2"', '"a@\u00b2"', "is no unit"), ('"a@2"', '"a@"', "a@ is no unit"), ('"a@2"', '"a@64"', "the offset of a@64 is 64, and not 0 to 63"),
            ('"a@2"', '"b@0"', "holds of an alternative of kinds.add: b@0 is there twice"), ('["b", "a@2"]', "[]", "is 0, and not 1 to 16"),
            ('[["a"], ["b", "a@2"]]', "[]", "the number of kinds.add.alternatives is 0, and not 1 to 16"), ('["a", "b"]', '["a", "a"]', "units: a is there twice"),
            ('["a", "b"]', "[]", "the number of units is 0, and not 1 to 64"), ("latency = 2", "latency = 0", "kinds.multiply.latency is 0, and not 1 to 64"),
            ("latency = 2", "latency = 65", "kinds.multiply.latency is 65"), ("r = 8", "r = 257", "files.r is 257, and not 1 to 256"),
            ('of = ["add", "sub"]', "of = 3", "kinds.add.of is not of the type list"), ('file = "p"', 'file = ["p"]', "kinds.multiply.file is not of the type str"),
            ("c = 1", "sum = 1", "kinds.mac.offsets: sum is no letter"), ("units =", "free = true\nunits =", "machine.free is not of the type list"),
            ("units =", 'counter = "no"\nunits =', "counter is not of the type bool"), ("units =", "addresses = { afine = true }\nunits =", "afine is no key of addresses"),
            ("units =", 'addresses = { affine = "no" }\nunits =', "addresses.affine is not"), ("units =", 'addresses = { scales = ["4"] }\nunits =', "one of addresses.scales is not"),
            ("units =", 'lacks = ["add(mul)"]\nunits =', "add.mul. has 2 instructions, and not one"), ("units =", 'free = ["load"]\nunits =', "load is never free"),
            ('"sub"', '"subb"', "kinds.add.of: subb is no opcode of an operation"), ('"sub"', '"sub(adc(a,b),c)"', "adc is no opcode"), ('"sub"', '"phi"', "phi is no opcode"),
            ('"sub"', '"llvm.smaxx"', "llvm.smaxx is no opcode"), ('"sub"', '"llvm.smax.i32"', "llvm.smax.i32 is no opcode"), ('"sub"', '"sub:int"', "sub:int: int is no type"),
            ('"sub"', '"sub(a:i0)"', "i0 is no type"), ('"sub"', '"sub(a,b,c)"', "sub has 3 operands, and not 2"), ('"sub"', '"br:i1"', "br has no type"),
            ('"sub"', '"sub(store)"', "store gives no operand"), ('"sub"', '"load(load)"', "more than one load or store"), ('"sub"', f'"{"sub(" * 5000}"', "more than 16 brackets"),
            ('"sub"', '"sub", "add"', "kinds.add.of: add is there twice"), ('"mul:i64"', '"add"', "kinds.multiply.of: add is in kinds.add.of too"),
            ("units =", 'lacks = ["sub"]\nunits =', "kinds.add.of: sub is in machine.lacks too"), ("units =", 'free = ["sext"]\nlacks = ["sext"]\nunits =', "sext is in machine.free too"),
            ("c = 1", "d = 1", "kinds.mac.offsets: d is in no term of kinds.mac.of"), ("c = 1", "guard = 1", "guard is for stores, and kinds.mac.of has none"),
            ("units =", "addresses = { scales = [0] }\nunits =", "one of addresses.scales is 0, and not 1 to"), ('"unallotted"', '"8"', "neither a number of registers nor"),
            ("units =", f"more = {'[' * 5000}\nunits =", "too deep in one another"),
        ]
        for old, new, said in changes:
            with self.subTest(new):
                self.assertIn(old, MACHINE)
                with self.assertRaisesRegex(BadMachine, said):
                    machine_of(MACHINE.replace(old, new, 1))

    def test_offsets(self):
        """Letters that a term lists, those of operands that it does not list, and any of an intrinsic and of the default."""
        more = '[kinds.{}]\nof = [{}]\nlatency = 9\nalternatives = [["a"]]\noffsets = {{ {} = 1 }}\n'
        for name, term, letter in [
            ("it", '"xor(x,and)"', "x"), ("it", '"xor(x,and)"', "b"), ("it", '"select"', "c"), ("it", '"llvm.smin"', "b"),
            ("it", '"store"', "guard"), ("default", "", "e"), ("default", "", "guard"),
        ]:
            with self.subTest(name, term=term, letter=letter):
                self.assertEqual(machine_of(MACHINE + more.format(name, term, letter)).kinds[name].offsets, {letter: 1})
        for term, letter in [('"xor(x,and)"', "c"), ('"xor(x,y)"', "a"), ('"load"', "b"), ('"load"', "guard")]:
            with self.subTest(term, letter=letter):
                self.assertRaises(BadMachine, machine_of, MACHINE + more.format("it", term, letter))

    def test_no_text(self):
        """A file that is not UTF-8."""
        path = os.path.join(common.ROOM, "latin.toml")
        with open(path, "wb") as it:
            it.write(b"# caf\xe9\n" + MACHINE.encode())
        self.assertRaisesRegex(BadMachine, "latin.toml", read_machine, path)

    def test_given_machines(self):
        for name in common.MACHINES:
            self.assertEqual(common.machine(name).name, name)


if __name__ == "__main__":
    unittest.main()
