"""The problems of small loops, worked out by hand, and what the text of problems may have."""
from __future__ import annotations

import re
import unittest

import common  # (it says where the others are)
import cases
import plain
from frontend import affine, loops, operations, problem, reader, text
from frontend.machine import machine_of

# one unit for memory, one for all else; a product and a sum at once, whose sum is read a cycle late
MACHINE = """
name = "plain"
units = ["m", "x"]
counter = true
free = ["trunc"]
[files]
r = 32
p = "unallotted"
[addresses]
affine = true
scales = [4]
[kinds.memory]
of = ["load", "sext:i32(load:i16)"]
latency = 3
alternatives = [["m"]]
[kinds.store]
of = ["store"]
latency = 2
alternatives = [["m"]]
offsets = { guard = 1 }
[kinds.add]
of = ["add", "sub", "getelementptr", "copy", "select", "zext"]
latency = 1
alternatives = [["x"]]
[kinds.compare]
of = ["icmp"]
latency = 1
alternatives = [["x"]]
file = "p"
[kinds.mac]
of = ["add:i32(mul:i32(a,b),c)"]
latency = 4
alternatives = [["x", "x@1"]]
offsets = { c = 1 }
"""
NO_COUNTER = MACHINE.replace("counter = true", "counter = false") + '[kinds.branch]\nof = ["br"]\nlatency = 1\nalternatives = [["x"]]\n'
LOOP = """
declare i64 @llvm.bswap.i64(i64)
define i32 @f(i32* noalias %p, i16* noalias %q, i32* noalias %r, i64 %n, i32 %k) {
entry:
  br label %loop
loop:
  %i = phi i64 [ 0, %entry ], [ %next, %loop ]
PHIS
LINES
  %next = add i64 %i, 1
  %last = icmp eq i64 %next, %n
  br i1 %last, label %after, label %loop
after:
  ret i32 RESULT
}
"""


def lines_of(phis: str, lines: str, result: str = "0", machine: str = MACHINE, layout: str = "") -> list[str]:
    """The lines of the loop's problem between its head and its end."""
    found, left_out = document_of(phis, lines, result, machine, layout)
    if left_out:
        raise AssertionError(left_out)
    its = list(text.problem_lines(found[0]))
    assert its[0] == "problem f" and its[-1] == "end"
    return its[1:-1]


def document_of(phis: str, lines: str, result: str = "0", machine: str = MACHINE, layout: str = "") -> tuple[list, list]:
    """The problems and what is left out."""
    given = f'target datalayout = "{layout}"' + LOOP.replace("PHIS", phis.strip()).replace("LINES", lines.strip()).replace("RESULT", result)
    return problem.problems_of(reader.read_functions(given), machine_of(machine), "f.c")


STORE = "%rp = getelementptr i32, i32* %r, i64 %i\nstore i32 {}, i32* %rp\n"
LOAD = "%pp = getelementptr i32, i32* %p, i64 %i\n%x = load i32, i32* %pp\n"


class ByHand(unittest.TestCase):
    def test_dot(self):
        """Loads with their extension at once, a product with its sum, and neither addresses nor the counter."""
        found = lines_of(
            "%s = phi i32 [ 5, %entry ], [ %t, %loop ]",
            "%qp = getelementptr i16, i16* %q, i64 %i\n%a = load i16, i16* %qp\n%b = sext i16 %a to i32\n" + LOAD + "%m = mul i32 %b, %x\n%t = add i32 %s, %m", "%t",
        )
        self.assertEqual(found, [
            "op f:memory memory", "op f:load memory", "op f:mac mac",
            "value %b of f:memory lands 3 in r", "value %x of f:load lands 3 in r", "value %t of f:mac lands 4 in r out",
            "read f:mac %b distance 0 offset 0", "read f:mac %x distance 0 offset 0", "read f:mac %t distance 1 offset 1",
        ])

    def test_shared_product(self):
        """A product that is used twice is an operation of its own, for which this machine has nothing."""
        _, left_out = document_of("", LOAD + "%m = mul i32 %x, %k\n%t = add i32 %m, %x\n%u = add i32 %t, %m\n" + STORE.format("%u"))
        self.assertEqual(left_out, [{"file": "f.c", "line": 0, "function": "f", "reason": "the machine has nothing for mul of i32"}])

    def test_counted(self):
        """Without a counter, the induction, the comparison and the branch are operations; the address still goes on by itself."""
        self.assertEqual(lines_of("", STORE.format("%k"), machine=NO_COUNTER), [
            "op f:store store", "op f:add add", "op f:icmp compare", "op f:branch branch",
            "value %next of f:add lands 1 in r", "value %last of f:icmp lands 1 in p",
            "read f:add %next distance 1 offset 0", "read f:icmp %next distance 0 offset 0", "read f:branch %last distance 0 offset 0",
        ])

    def test_delays(self):
        """Two delays, one after the other: the value of two iterations ago."""
        found = lines_of("%a = phi i32 [ 1, %entry ], [ %x, %loop ]\n%b = phi i32 [ 2, %entry ], [ %a, %loop ]", LOAD + "%t = add i32 %b, %a\n" + STORE.format("%t"))
        self.assertEqual(found[-3:], ["read f:add %x distance 2 offset 0", "read f:add %x distance 1 offset 0", "read f:store %t distance 0 offset 0"])
        problems, _ = document_of("%a = phi i32 [ 1, %entry ], [ %x, %loop ]\n%b = phi i32 [ 2, %entry ], [ %a, %loop ]", LOAD + "%t = add i32 %b, %a\n" + STORE.format("%t"))
        # x of iteration -1 is what a begins with, x of iteration -2 what b begins with
        preloads = {(it["value"], it["distance"]): it["input"]["constant"] for it in problems[0]["preloads"]}
        self.assertEqual(preloads, {("%x", 1): 1, ("%x", 2): 2})

    def test_two_beginnings(self):
        """Two phis of one value that begin differently: one of them is a copy."""
        phis = "%a = phi i32 [ 1, %entry ], [ %x, %loop ]\n%b = phi i32 [ 2, %entry ], [ %x, %loop ]"
        found = lines_of(phis, LOAD + "%t = add i32 %a, %b\n" + STORE.format("%t"))
        self.assertEqual([it for it in found if it.startswith("op")], ["op f:load memory", "op f:add add", "op f:store store", "op f:copy add"])
        self.assertEqual(len([it for it in found if it.startswith("read f:copy %x distance 0")]), 1)

    def test_swap(self):
        """Two values that change places: one copy, which is read one and two iterations later."""
        phis = "%a = phi i32 [ 1, %entry ], [ %b, %loop ]\n%b = phi i32 [ 2, %entry ], [ %a, %loop ]"
        self.assertEqual(lines_of(phis, STORE.format("%a")), [
            "op f:store store", "op f:copy add", "value %a.copy of f:copy lands 1 in r",
            "read f:store %a.copy distance 1 offset 0", "read f:copy %a.copy distance 2 offset 0",
        ])

    def test_value_of_before(self):
        """What is used after the loop is the value of the iteration before the last: a copy keeps it."""
        found = lines_of("%a = phi i32 [ 1, %entry ], [ %x, %loop ]", LOAD, "%a")
        self.assertEqual(found, [
            "op f:load memory", "op f:copy add", "value %x of f:load lands 3 in r", "value %a.out of f:copy lands 1 in r out",
            "read f:copy %x distance 1 offset 0",
        ])

    def test_free(self):
        """A trunc costs nothing: whoever uses it reads what it is of."""
        lines = "%w = add i64 %i, 7\n%t = trunc i64 %w to i32\n" + STORE.format("%t")
        self.assertEqual(lines_of("", lines), [
            "op f:add add", "op f:store store", "op f:add.2 add", "value %w of f:add lands 1 in r", "value %next of f:add.2 lands 1 in r",
            "read f:add %next distance 1 offset 0", "read f:store %w distance 0 offset 0", "read f:add.2 %next distance 1 offset 0",
        ])

    def test_index(self):
        """r[k + x] with elements of 4 bytes: the index folds into the address. The machine does not add twice it."""
        lines = LOAD + "%w = zext i32 %x to i64\n%rp = getelementptr i32, i32* %r, i64 %w\nstore i32 %k, i32* %rp"
        self.assertEqual([it for it in lines_of("", lines) if it.startswith("op")], ["op f:load memory", "op f:zext add", "op f:store store"])
        lines = LOAD + "%w = zext i32 %x to i64\n%c = bitcast i32* %r to i64*\n%rp = getelementptr i64, i64* %c, i64 %w\nstore i64 %i, i64* %rp"
        machine = MACHINE.replace('"trunc"', '"trunc", "bitcast"')
        found = [it for it in lines_of("", lines, machine=machine) if it.startswith("op")]
        self.assertEqual(found, ["op f:load memory", "op f:zext add", "op f:address add", "op f:store store", "op f:add add"])

    def test_two_times(self):
        """A free instruction at two operands, one of which is read later: its operand is read at both times."""
        lines = "%lp = bitcast i32* %p to i64*\n%w = load i64, i64* %lp\n%t = trunc i64 %w to i32\n%m = mul i32 %t, %k\n%u = add i32 %m, %t\n" + STORE.format("%u")
        found = lines_of("", lines, machine=MACHINE.replace('"trunc"', '"trunc", "bitcast"'))
        self.assertEqual([it for it in found if it.startswith("read f:mac")], ["read f:mac %w distance 0 offset 0", "read f:mac %w distance 0 offset 1"])
        # what is stored is read two cycles after the address that is made of it
        late = MACHINE.replace("offsets = { guard = 1 }", "offsets = { a = 1 }").replace('"trunc"', '"trunc", "zext"')
        lines = LOAD + "%w = zext i32 %x to i64\n%c = bitcast i32* %r to i64*\n%rp = getelementptr i64, i64* %c, i64 %w\nstore i64 %w, i64* %rp"
        found = lines_of("", lines, machine=late.replace("scales = [4]", "scales = [4, 8]").replace('"trunc"', '"trunc", "bitcast"'))
        self.assertEqual([it for it in found if it.startswith("read")], ["read f:store %x distance 0 offset 1", "read f:store %x distance 0 offset 0"])

    def test_narrow_address(self):
        """An address that is made of a number of 32 bits, which may wrap around, does not go on by itself; one of 64 bits does."""
        machine = MACHINE.replace('"trunc"', '"trunc", "inttoptr", "zext:i64(a:i32)"')
        for of, made in (("i32", "%w = zext i32 %a to i64"), ("i64", "%w = add i64 %a, 0")):
            with self.subTest(of):
                phis = f"%a = phi {of} [ 0, %entry ], [ %b, %loop ]"
                lines = f"{made}\n%q0 = inttoptr i64 %w to i32*\nstore i32 %k, i32* %q0\n%b = add {of} %a, 12"
                found = [it for it in lines_of(phis, lines, machine=machine) if it.startswith(("op", "read"))]
                wanted = ["op f:store store", "op f:add add", "read f:store %b distance 1 offset 0", "read f:add %b distance 1 offset 0"]
                self.assertEqual(found, wanted if of == "i32" else wanted[:1])

    def test_narrow_pointer(self):
        """Where addresses have 32 bits, a number of 32 bits that goes on makes one that does."""
        machine = MACHINE.replace('"trunc"', '"trunc", "inttoptr", "zext:i64(a:i32)"')
        lines = "%q0 = inttoptr i32 %a to i32*\nstore i32 %k, i32* %q0\n%b = add i32 %a, 12"
        for layout, count in (("p:32:32", 1), ("p:64:64", 2)):
            found = lines_of("%a = phi i32 [ 0, %entry ], [ %b, %loop ]", lines, machine=machine, layout=layout)
            self.assertEqual(len([it for it in found if it.startswith("op")]), count)

    def test_turned_address(self):
        """An address that is made of turned bytes does not go on by itself, also where turning costs nothing."""
        machine = MACHINE.replace('"trunc"', '"trunc", "inttoptr", "llvm.bswap"')
        lines = "%w = call i64 @llvm.bswap.i64(i64 %i)\n%q0 = inttoptr i64 %w to i32*\nstore i32 %k, i32* %q0"
        found = lines_of("", lines, machine=machine)
        self.assertEqual([it for it in found if it.startswith("read")], ["read f:store %next distance 1 offset 0", "read f:add %next distance 1 offset 0"])

    def test_counted_bits(self):
        """A float whose bits are counted up does not go on by itself, whatever it begins with: they are added to, and an address that is made of them reads them."""
        machine = MACHINE.replace('"trunc"', '"trunc", "bitcast"')
        read = ["op f:add add", "op f:store store", "op f:copy add", *(f"read f:{it} distance {at} offset 0" for it, at in (("add %a.copy", 1), ("store %a.copy", 1), ("copy %v", 0)))]
        for of, start, wanted in (("double", "1.0", read), ("double", "%z", read), ("i64", "1", ["op f:store store"])):
            with self.subTest(of, start=start):
                bits = f"%w = bitcast {of} %a to i64\n%v = add i64 %w, 1\n%b = bitcast i64 %v to {of}\n"
                given = LOOP.replace("i32 %k)", "i32 %k, double %z)").replace("PHIS", f"%a = phi {of} [ {start}, %entry ], [ %b, %loop ]").replace("RESULT", "0")
                given = given.replace("LINES", bits + "%rp = getelementptr i32, i32* %r, i64 %w\nstore i32 %k, i32* %rp")
                found, _ = problem.problems_of(reader.read_functions(given), machine_of(machine), "f.c")
                self.assertEqual([it for it in text.problem_lines(found[0]) if it.startswith(("op", "read"))], wanted)

    def test_index_at_the_issue(self):
        """An index that is a part of a load's term is read at the issue, when the load looks at memory, whatever the offsets say."""
        machine = MACHINE.replace("affine = true", "affine = false") + '[kinds.indexed]\nof = ["load:i32(getelementptr(a,b))"]\nlatency = 4\nalternatives = [["m"]]\noffsets = { b = 2 }\n'
        found = lines_of("", LOAD + "%t = add i32 %x, %k", machine=machine, result="%t")
        self.assertEqual([it for it in found if it.startswith("read f:indexed")], ["read f:indexed %next distance 1 offset 0"])

    def test_orders(self):
        """p[i + 1] is stored, and loaded in the next iteration; the store lands 2 cycles after its issue."""
        lines = LOAD + "%t = add i32 %x, 1\n%o = add i64 %i, 1\n%op = getelementptr i32, i32* %p, i64 %o\nstore i32 %t, i32* %op"
        self.assertEqual(lines_of("", lines)[-1], "edge f:store f:load delay 2 distance 1")

    def test_place(self):
        """A load that is extended after a store of the same place is before it all the same."""
        lines = "%qp = getelementptr i16, i16* %q, i64 %i\n%a = load i16, i16* %qp\nstore i16 7, i16* %qp\n%b = sext i16 %a to i32\n" + STORE.format("%b")
        self.assertEqual(lines_of("", lines), [
            "op f:memory memory", "op f:store store", "op f:store.2 store", "value %b of f:memory lands 3 in r",
            "read f:store.2 %b distance 0 offset 0", "edge f:memory f:store delay -1 distance 0",
        ])

    def test_in_time(self):
        """A load and a sum at once only where the other number is there when the load is done."""
        machine = MACHINE + '[kinds.load_add]\nof = ["add:i32(load:i32(a),b)"]\nlatency = 4\nalternatives = [["m"]]\n'
        before = "%y = sub i32 %k, 3\n" + LOAD + "%t = add i32 %x, %y\n" + STORE.format("%t")
        after = LOAD + "%y = sub i32 %k, 3\n%t = add i32 %x, %y\n" + STORE.format("%t")
        found = [[it for it in lines_of("", lines, machine=machine) if it.startswith("op")] for lines in (before, after)]
        self.assertEqual(found[0], ["op f:sub add", "op f:load_add load_add", "op f:store store"])
        self.assertEqual(found[1], ["op f:load memory", "op f:sub add", "op f:add add", "op f:store store"])

    def test_guard(self):
        """A store under a condition reads it, a cycle after its issue."""
        given = """
define void @f(i32* noalias %p, i32* noalias %r, i64 %n) {
entry:
  br label %loop
loop:
  %i = phi i64 [ 0, %entry ], [ %next, %latch ]
  %pp = getelementptr i32, i32* %p, i64 %i
  %x = load i32, i32* %pp
  %c = icmp sgt i32 %x, 0
  br i1 %c, label %latch, label %then
then:
  %rp = getelementptr i32, i32* %r, i64 %i
  store i32 %x, i32* %rp
  br label %latch
latch:
  %next = add i64 %i, 1
  %last = icmp eq i64 %next, %n
  br i1 %last, label %after, label %loop
after:
  ret void
}
"""
        found, _ = problem.problems_of(reader.read_functions(given), machine_of(MACHINE), "f.c")
        self.assertEqual(list(text.problem_lines(found[0]))[-4:-1], [
            "read f:icmp %x distance 0 offset 0", "read f:store %x distance 0 offset 0", "read f:store %c distance 0 offset 1",
        ])
        store = found[0]["operations"][-1]
        self.assertEqual(store["guard"], {"operand": {"value": "%c", "distance": 0, "offset": 1, "type": "i1"}, "wanted": False})
        # a free condition is a part of the store, which is the last of its instructions all the same
        free = given.replace("icmp sgt i32 %x, 0", "trunc i32 %x to i1")
        store = problem.problems_of(reader.read_functions(free), machine_of(MACHINE), "f.c")[0][0]["operations"][-1]
        self.assertEqual([it["opcode"] for it in store["instructions"]], ["getelementptr", "trunc", "store"])
        self.assertEqual(store["guard"]["operand"], {"earlier": "%c", "type": "i1"})

    def test_machine_lines(self):
        given = problem.document(machine_of(MACHINE), [], [])
        self.assertEqual(text.text_of(given).split("\n"), [
            "machine plain", "units m x", "file r rotating 32", "file p unallotted", "kind memory latency 3 | m", "kind store latency 2 | m",
            "kind add latency 1 | x", "kind compare latency 1 | x", "kind mac latency 4 | x x@1", "",
        ])

    def test_nothing_to_do(self):
        """A loop that only counts has no operation where a counter ends loops, and texts take no problem without one."""
        self.assertEqual(document_of("", "")[1][0]["reason"], "it has no operations")
        self.assertEqual(len(document_of("", "", machine=NO_COUNTER)[0]), 1)

    def test_long_free(self):
        """So many instructions that cost nothing, one after another, and one more; what is in a row alone counts."""
        machine, long = MACHINE.replace('"trunc"', '"xor"'), "it has more than 128 instructions one after another that cost nothing"
        for count, reasons in ((128, []), (129, [long]), (2000, [long])):
            lines = "%a0 = add i32 %k, 1\n" + "".join(f"%a{it + 1} = xor i32 %a{it}, %k\n" for it in range(count)) + STORE.format(f"%a{count}")
            found = [it["reason"] for it in document_of("", lines, machine=machine)[1]]
            self.assertEqual(found, reasons)
        pairs = (f"%a{it} = xor i32 %x, {it}\n%b{it} = xor i32 %a{it}, %k\nstore i32 %b{it}, i32* %r\n" for it in range(100))
        lines = LOAD + "".join(pairs)
        self.assertEqual(document_of("", lines, machine=machine)[1], [])

    def test_limits(self):
        """129 additions one after another, and a name as long as names may be."""
        lines = "%a0 = add i32 %k, 1\n" + "".join(f"%a{it + 1} = add i32 %a{it}, %k\n" for it in range(128)) + STORE.format("%a128")
        _, left_out = document_of("", lines)
        self.assertEqual(left_out[0]["reason"], "it has 130 operations, more than 128")
        long = "v" * 90
        found = lines_of("", f"%{long} = add i32 %k, 1\n%{long}x = add i32 %{long}, 2\n" + STORE.format(f"%{long}x"))
        names = [it.split()[1] for it in found if it.startswith("value")]
        self.assertEqual(names, ["%" + long[:63], "%" + long[:61] + ".2"])


class Times(unittest.TestCase):
    """Each operand is read when the machine file says, through whatever is folded on its way."""

    def test_corpus(self):
        late = MACHINE.replace("offsets = { guard = 1 }", "offsets = { a = 1, guard = 1 }")
        for path in cases.corpus_files():
            for machine in (*map(common.machine, common.MACHINES), machine_of(late)):
                for _, function in common.functions(path):
                    for header, blocks in loops.innermost(function):
                        with self.subTest(function=function.name, machine=machine.name):
                            self.check(function, header, blocks, machine)

    def check(self, function, header, blocks, machine) -> None:
        try:
            loop = loops.loop_of(function, header, blocks)
            inductions = affine.Inductions(loop)
            selection = operations.Selection(loop, inductions, affine.exit_of(loop, inductions), machine)
        except loops.LeftOut:
            return
        for it in selection.operations.values():
            doing = [one for one in it.instructions if one not in it.folded]
            leaves = next(match.leaves for kind, match in machine.matches(it.root, selection._is_inner) if kind is it.kind and list(match.instructions) == doing)
            for name, one, place in leaves:
                is_address = one.opcode in reader.MEMORY and place == len(one.operands) - 1
                self.check_operand(it, one, place, 0 if is_address else it.kind.offsets.get(name, 0))

    def check_operand(self, operation, one, place, offset) -> None:
        found = operation.operands[one, place]
        if isinstance(found, operations.Read):
            self.assertEqual(found.offset, offset)
        elif isinstance(found, operations.Earlier) and found.instruction in operation.folded:
            for its in range(len(found.instruction.operands)):
                self.check_operand(operation, found.instruction, its, offset)


NAME = r"[!-\"$-~]{1,64}"
FORMS = [
    rf"machine {NAME}", rf"units( {NAME})+", rf"file {NAME} rotating \d+", rf"file {NAME} unallotted", rf"kind {NAME} latency \d+( \|( [!-\"$-?A-{{}}~]+(@\d+)?)+)+",
    rf"problem {NAME}", rf"op {NAME} {NAME}", rf"value {NAME} of {NAME} lands \d+ in {NAME}( out)?", rf"read {NAME} {NAME} distance \d+ offset \d+",
    rf"edge {NAME} {NAME} delay -?\d+ distance \d+", "end", "",
]


def read_back(lines: list[str]) -> list[plain.plain_problems.Problem]:
    """The problems of a text, by docs/FORMATS.md alone."""
    units, files, kinds, problems = [], {}, {}, []
    for words in (it.split() for it in lines if it):
        if words[0] == "units":
            units = words[1:]
        elif words[0] == "file":
            files[words[1]] = int(words[3]) if words[2] == "rotating" else None
        elif words[0] == "kind":
            alternatives = [it.split() for it in " ".join(words[5:]).split("|")]
            holds = [[(units.index(hold.partition("@")[0]), int(hold.partition("@")[2] or 0)) for hold in it] for it in alternatives]
            kinds[words[1]] = (int(words[3]), holds)
        elif words[0] == "problem":
            operations, values, its = {}, {}, ([], [], [], [])
        elif words[0] == "op":
            operations[words[1]] = len(operations)
            its[0].append(list(kinds).index(words[2]))
        elif words[0] == "value":
            values[words[1]] = len(values)
            its[1].append((operations[words[3]], int(words[5]), list(files).index(words[7]), words[8:] == ["out"]))
        elif words[0] == "read":
            its[2].append((values[words[2]], operations[words[1]], int(words[4]), int(words[6])))
        elif words[0] == "edge":
            its[3].append((operations[words[1]], operations[words[2]], int(words[4]), int(words[6])))
        elif words[0] == "end":
            problems.append(plain.plain_problems.Problem(len(units), list(files.values()), list(kinds.values()), *its, 6, 64))
    return problems


class Texts(unittest.TestCase):
    def test_read_back(self):
        """The text says the same problems as JSON does."""
        for path in cases.corpus_files():
            for machine in common.MACHINES:
                document = common.document(path, machine)
                wanted = [plain.plain_problem(document["machine"], it) for it in document["problems"]]
                self.assertEqual(read_back(text.text_of(document).split("\n")), wanted)

    def test_forms(self):
        """Each line of the corpus has one of the forms of docs/FORMATS.md, and names what stands before it."""
        form = re.compile("|".join(f"(?:{it})" for it in FORMS))
        for path in cases.corpus_files():
            for machine in common.MACHINES:
                document = common.document(path, machine)
                for line in text.text_of(document).split("\n"):
                    self.assertTrue(form.fullmatch(line), line)
                for it in document["problems"]:
                    self.check_names(it)

    def check_names(self, its: dict) -> None:
        operations, values = [it["name"] for it in its["operations"]], [it["name"] for it in its["values"]]
        self.assertEqual((len(set(operations)), len(set(values))), (len(operations), len(values)))
        self.assertLessEqual({it["maker"] for it in its["values"]} | {it["reader"] for it in its["reads"]}, set(operations))
        self.assertLessEqual({it["value"] for it in [*its["reads"], *its["preloads"], *its["outs"]]}, set(values))
        makers = {it["name"]: operations.index(it["maker"]) for it in its["values"]}
        for it in its["reads"]:
            self.assertTrue(it["distance"] or makers[it["value"]] < operations.index(it["reader"]), "an iteration goes forward")
        for it in its["edges"]:
            self.assertTrue(it["distance"] or operations.index(it["from"]) < operations.index(it["to"]), "an iteration goes forward")


if __name__ == "__main__":
    unittest.main()
