"""Texts of scheduling problems and of their solutions, read by the letter of docs/FORMATS.md, in plain Python.

It shares no code with modsched: the report reads problems by it, and tests compare modsched with it. `read_problems` and `read_solutions` give what a text says, or raise `Fault` with the first line at fault, its column and what is wrong.
"""
import re
from collections import namedtuple

Named = namedtuple("Named", "name units files kinds operations values problem")
"""A problem of a text: its name, the names of all parts by their numbers, and the problem by these numbers."""
Problem = namedtuple("Problem", "units files kinds operations values reads orders")
"""A problem: how many units there are; of each file its rotating registers, or None; of each kind its latency and its alternatives, lists of (unit, offset); the kind of each
operation; values as (maker, lands, file, out), reads as (value, reader, distance, offset) and orders as (from, to, delay, distance)."""
Listed = namedtuple("Listed", "name line column ii operations values")
"""A solution of a text: the name of its problem and where that stands, its interval, and by name (line, column, ..) of its operations and values."""

MOST_NUMBER = 2**64 - 1
MOST_BYTES = 16_777_216
KEYWORDS = "expected machine, units, file, kind, problem, op, value, read, edge or end"
SOLUTION_KEYWORDS = "expected solution, op, value or end"
A_NAME = "expected a name of 1 to 64 printable characters"


class Fault(Exception):
    """The first fault of a text: its line and column, from 1, or 0 where it is one of no line, and what is wrong."""

    def __init__(self, line, column, what):
        super().__init__(f"{line}:{column}: {what}" if line else what)
        self.line, self.column, self.what = line, column, what


class Told(Exception):
    """A fault of a line."""

    def __init__(self, column, what):
        super().__init__(column, what)
        self.column, self.what = column, what


# words and forms


def is_name(word):
    return len(word) <= 64 and re.fullmatch(rb"[!-\"$-~]+", word) is not None


def is_unit(word):
    return is_name(word) and not re.search(rb"[@|]", word)


def is_hold(word):
    unit, sign, digits = word.partition(b"@")
    return is_unit(unit) and (not sign or re.fullmatch(rb"[0-9]+", digits) is not None)


def number_of(digits):
    """The number, or the greatest that is told. (Python refuses to read numbers of some thousand digits.)"""
    digits = digits.lstrip(b"0")
    return min(int(digits or b"0"), MOST_NUMBER) if len(digits) <= 20 else MOST_NUMBER


class Words:
    """The words of a line, from left to right."""

    def __init__(self, line):
        self.words = [(it[0], it.start() + 1) for it in re.finditer(rb"[^ \t\r]+", line.split(b"#")[0])]
        self.taken = 0

    def following(self):
        return self.words[self.taken][0] if self.taken < len(self.words) else None

    def take(self, what, fits):
        if self.taken == len(self.words):
            word, column = self.words[-1]
            raise Told(column + len(word), what)
        word, column = self.words[self.taken]
        if not fits(word):
            raise Told(column, what)
        self.taken += 1
        return word, column

    def word(self, *words):
        return self.take("expected " + " or ".join(words), lambda it: it.decode("latin-1") in words)[0].decode()

    def name(self):
        word, column = self.take(A_NAME, is_name)
        return word.decode(), column

    def number(self):
        word, column = self.take("expected a number", lambda it: re.fullmatch(rb"[0-9]+", it))
        return number_of(word), column

    def integer(self):
        word, column = self.take("expected an integer", lambda it: re.fullmatch(rb"-?[0-9]+", it))
        return -number_of(word[1:]) if word.startswith(b"-") else number_of(word), column

    def hold(self):
        word, column = self.take("expected UNIT or UNIT@NUMBER", is_hold)
        unit, _, digits = word.partition(b"@")
        return (unit.decode(), column), (number_of(digits), column + len(unit) + 1)

    def finish(self):
        self.take("nothing may follow here", lambda it: False) if self.following() is not None else None


def units_form(words):
    fits = A_NAME + " without @ and |"
    names = [words.take(fits, is_unit)]
    while words.following() is not None:
        names.append(words.take(fits, is_unit))
    return [(word.decode(), column) for word, column in names]


def file_form(words):
    name = words.name()
    return name, words.number() if words.word("rotating", "unallotted") == "rotating" else None


def kind_form(words):
    name = words.name()
    words.word("latency")
    latency, alternatives = words.number(), []
    while not alternatives or words.following() is not None:
        words.word("|")
        holds = [words.hold()]
        while words.following() not in (None, b"|"):
            holds.append(words.hold())
        alternatives.append(holds)
    return name, latency, alternatives


def value_form(words):
    name = words.name()
    words.word("of")
    maker = words.name()
    words.word("lands")
    lands = words.number()
    words.word("in")
    file, out = words.name(), words.following() == b"out"
    if out:
        words.word("out")
    return name, maker, lands, file, out


def read_form(words):
    reader, value, distance, offset = words.name(), words.name(), None, None
    if words.following() is not None:
        words.word("distance")
        distance = words.number()
    if words.following() is not None:
        words.word("offset")
        offset = words.number()
    return reader, value, distance, offset


def edge_form(words):
    one, other = words.name(), words.name()
    words.word("delay")
    delay = words.integer()
    words.word("distance")
    return one, other, delay, words.number()


def after(word, first, second=None):
    """A form of a name, then a fixed word and a number, then another one and a number."""

    def form(words):
        parts = [words.name()]
        for it in filter(None, (word if first else None, second)):
            words.word(it)
            parts.append(words.number())
        return tuple(parts)

    return form


PROBLEM_FORMS = {
    "machine": after(None, False), "units": units_form, "file": file_form, "kind": kind_form, "problem": after(None, False),
    "op": lambda words: (words.name(), words.name()), "value": value_form, "read": read_form, "edge": edge_form, "end": lambda words: (),
}
SOLUTION_FORMS = {"solution": after("ii", True), "op": after("time", True, "by"), "value": after("number", True), "end": lambda words: ()}


def lines_of(text, forms, keywords, take):
    """Takes the form of each line in, and tells faults with their line. The result is the number of the line after the last."""
    if len(text) > MOST_BYTES:
        raise Fault(0, 0, f"more than {MOST_BYTES} bytes")
    lines = text.split(b"\n")
    lines = lines if lines[-1] else lines[:-1]
    for number, line in enumerate(lines, 1):
        words = Words(line)
        if not words.words:
            continue
        try:
            keyword, column = words.take(keywords, lambda it: it.decode("latin-1") in forms)
            parts = forms[keyword.decode()](words)
            words.finish()
            take(number, column, keyword.decode(), parts)
        except Told as told:
            raise Fault(number, told.column, told.what) from None
    return len(lines) + 1


# problems


def room(column, part, count, most):
    if count >= most:
        raise Told(column, f"number of {part}s out of range")


def new(names, name):
    if name[0] in names:
        raise Told(name[1], "there already")


def known(names, part, name):
    if name[0] not in names:
        raise Told(name[1], f"unknown {part}")
    return names[name[0]]


def within(least, most, number):
    if number is not None and not least <= number[0] <= most:
        raise Told(number[1], "number out of range")
    return number[0] if number is not None else 0


class Tables:
    """What the lines of a text of problems have said so far."""

    def __init__(self):
        self.machines, self.problems, self.found = set(), set(), []
        self.inside = self.served = False
        self.begin_machine()

    def begin_machine(self):
        self.units, self.file_names, self.files, self.kind_names, self.kinds = {}, {}, [], {}, []

    def take(self, number, column, keyword, parts):
        of_machine, of_problem = keyword in ("units", "file", "kind"), keyword in ("op", "value", "read", "edge", "end")
        may_stand = (
            (of_problem and self.inside) or (keyword == "machine" and not self.inside) or (of_machine and self.machines and not self.served)
            or (keyword == "problem" and self.machines and not self.inside)
        )
        if not may_stand:
            raise Told(column, "this line may not stand here")
        if keyword == "units":
            self.take_units(parts)
        else:
            getattr(self, f"take_{keyword}")(column, *parts)

    def take_machine(self, column, name):
        new(self.machines, name)
        self.machines.add(name[0])
        self.served = False
        self.begin_machine()

    def take_units(self, names):
        for name in names:
            room(name[1], "unit", len(self.units), 64)
            new(self.units, name)
            self.units[name[0]] = len(self.units)

    def take_file(self, column, name, registers):
        room(column, "file", len(self.files), 8)
        new(self.file_names, name)
        within(1, 256, registers)
        self.file_names[name[0]] = len(self.files)
        self.files.append(registers[0] if registers else None)

    def take_kind(self, column, name, latency, alternatives):
        room(column, "kind", len(self.kinds), 256)
        new(self.kind_names, name)
        within(1, 64, latency)
        taken = []
        for holds in alternatives:
            room(holds[0][0][1], "alternative", len(taken), 16)
            rows = []
            for unit, offset in holds:
                room(unit[1], "hold", len(rows), 16)
                row = known(self.units, "unit", unit), within(0, 63, offset)
                if row in rows:
                    raise Told(unit[1], "there already")
                rows.append(row)
            taken.append(rows)
        self.kind_names[name[0]] = len(self.kinds)
        self.kinds.append((latency[0], taken))

    def take_problem(self, column, name):
        room(column, "problem", len(self.problems), 4096)
        new(self.problems, name)
        self.problems.add(name[0])
        self.name, self.inside, self.served = name[0], True, True
        self.op_names, self.operations, self.value_names, self.values, self.reads, self.orders = {}, [], {}, [], [], []

    def take_op(self, column, name, kind):
        room(column, "operation", len(self.operations), 128)
        new(self.op_names, name)
        number = known(self.kind_names, "kind", kind)
        self.op_names[name[0]] = len(self.operations)
        self.operations.append(number)

    def take_value(self, column, name, maker, lands, file, out):
        room(column, "value", len(self.values), 256)
        new(self.value_names, name)
        value = known(self.op_names, "operation", maker), within(0, 64, lands), known(self.file_names, "file", file), out
        self.value_names[name[0]] = len(self.values)
        self.values.append(value)

    def take_read(self, column, reader, value, distance, offset):
        room(column, "read", len(self.reads), 2048)
        op, number = known(self.op_names, "operation", reader), known(self.value_names, "value", value)
        found = number, op, within(0, 16, distance), within(0, 63, offset)
        if found[2] == 0 and self.values[number][0] >= op:
            raise Told(value[1], "goes backward within an iteration")
        self.reads.append(found)

    def take_edge(self, column, one, other, delay, distance):
        room(column, "edge", len(self.orders), 16384)
        found = known(self.op_names, "operation", one), known(self.op_names, "operation", other), within(-64, 64, delay), within(0, 255, distance)
        if found[3] == 0 and found[0] >= found[1]:
            raise Told(other[1], "goes backward within an iteration")
        self.orders.append(found)

    def take_end(self, column):
        if not self.operations:
            raise Told(column, "number of operations out of range")
        self.inside = False
        problem = Problem(len(self.units), self.files, self.kinds, self.operations, self.values, self.reads, self.orders)
        self.found.append(Named(self.name, *map(list, (self.units, self.file_names, self.kind_names, self.op_names, self.value_names)), problem))


def read_problems(text):
    """The problems of a text (bytes), in order."""
    tables = Tables()
    end = lines_of(text, PROBLEM_FORMS, KEYWORDS, tables.take)
    if tables.inside:
        raise Fault(end, 1, "the text ends inside a problem")
    return tables.found


# solutions


class Solutions:
    """What the lines of a text of solutions have said so far."""

    def __init__(self):
        self.found, self.inside = {}, False

    def take(self, number, column, keyword, parts):
        if (keyword == "solution") == self.inside:
            raise Told(column, "this line may not stand here")
        if keyword == "end":
            self.inside = False
            return
        under_way = next(reversed(self.found.values())) if self.inside else None
        names, part, most = {
            "solution": (self.found, "solution", 4096),
            "op": (under_way and under_way.operations, "operation", 128),
            "value": (under_way and under_way.values, "value", 256),
        }[keyword]
        room(column, part, len(names), most)
        name, *numbers = parts
        new(names, name)
        found = [it[0] for it in numbers]
        names[name[0]] = Listed(name[0], number, name[1], found[0], {}, {}) if keyword == "solution" else (number, name[1], *found)
        self.inside = True


def read_solutions(text):
    """The solutions of a text (bytes), in order."""
    solutions = Solutions()
    end = lines_of(text, SOLUTION_FORMS, SOLUTION_KEYWORDS, solutions.take)
    if solutions.inside:
        raise Fault(end, 1, "the text ends inside a solution")
    return list(solutions.found.values())


def check_names(problems, solutions):
    """Tells the first name of the solutions that no problem, or none of the problem's operations or values, has."""
    by_name = {it.name: it for it in problems}
    for it in solutions:
        if it.name not in by_name:
            raise Fault(it.line, it.column, "unknown problem")
        unknown = [
            (line, column, part)
            for part, given, names in (("operation", it.operations, by_name[it.name].operations), ("value", it.values, by_name[it.name].values))
            for name, (line, column, *_) in given.items()
            if name not in names
        ]
        if unknown:
            line, column, part = min(unknown)
            raise Fault(line, column, f"unknown {part}")
