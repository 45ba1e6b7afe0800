"""What `modsched lint` tells of texts of loops and of machines, by the letter of docs/FORMATS.md, in plain Python: it shares no code with modsched.

Texts are strings with one character for each byte. Of a machine text, which tomllib reads, `machine_faults` gives all faults in order, without their places: only of what is no text of TOML
nothing is known here.
"""
import re
import tomllib
from collections import namedtuple

from plain_loops import OPCODES

RESERVED = {"loop", "array", "param", "init", "end", "out", "if", "i"}
COUNTS = {"mov": 1, "sel": 3, **dict.fromkeys(["add", "sub", "mul", "and", "or", "xor", "min", "max", "lt"], 2)}
MOST_NAMES = 224
MOST_TEXT = 1_048_576

Fault = namedtuple("Fault", "line column word what")

# forms of lines


def is_name(word):
    return re.fullmatch(r"[A-Za-z_][A-Za-z0-9_]*", word) and word not in RESERVED and word not in OPCODES


def is_number(word):
    return re.fullmatch(r"-?[0-9]+", word)


def is_numbered(word):
    name, sign, digits = word.partition("@")
    return sign and is_name(name) and re.fullmatch(r"[0-9]+", digits)


def is_use(word):
    return is_number(word) or is_name(word) or is_numbered(word)


def is_place(word):
    found = re.fullmatch(r"([^\[\]]*)\[i(?:[+-][0-9]+)?\]", word)
    return found and is_name(found[1])


def fixed(text):
    return lambda word: word == text


FORMS = {
    "loop": [fixed("loop"), is_name],
    "array": [fixed("array"), is_name, fixed("=")],
    "param": [fixed("param"), is_name, fixed("="), is_number],
    "init": [fixed("init"), is_numbered, fixed("="), is_number],
    "load": [is_name, fixed("="), fixed("load"), is_place],
    "store": [fixed("store"), is_place, is_use],
    "guarded": [fixed("store"), is_place, is_use, fixed("if"), is_use],
    "out": [fixed("out"), is_name],
    "end": [fixed("end")],
    **{opcode: [is_name, fixed("="), fixed(opcode), *[is_use] * count] for opcode, count in COUNTS.items()},
}


def form_of(words):
    """The form of a line of words, or None and how many of its words are the beginning of one."""
    most = 0
    for name, parts in FORMS.items():
        parts = parts + [is_number] * max(0, len(words) - len(parts)) if name == "array" else parts
        fits = 0
        while fits < min(len(words), len(parts)) and parts[fits](words[fits]):
            fits += 1
        if fits == len(words) == len(parts):
            return name, fits
        most = max(most, fits)
    return None, most


class Line:
    """A line with a form, by its parts: what it declares, and the words that it uses, each the place of a word in the line."""

    def __init__(self, number, words, form):
        self.number, self.form, self.stands = number, form, True
        self.words, self.columns = [it for it, _ in words], [column for _, column in words]
        self.is_store = form in ("store", "guarded")
        self.is_statement = self.is_store or form == "load" or form in COUNTS
        self.names = {"loop": [1], "array": [1], "param": [1], "out": [1]}.get(form, [0] if self.is_statement and not self.is_store else [])
        self.places = {"load": [3], "store": [1], "guarded": [1]}.get(form, [])
        self.uses = {"store": [2], "guarded": [2, 4]}.get(form, list(range(3, len(words))) if form in COUNTS else [])
        self.declares = {"array": "array", "param": "param"}.get(form, "value" if self.is_statement and not self.is_store else None)

    def name(self):
        return self.words[self.names[0]] if self.names else None


# limits


def is_long(name):
    return len(name) > 16


def is_past_limit(line, at):
    """Whether a word of a line is outside its limits by itself."""
    word = line.words[at]
    if at in line.names:
        return is_long(word)
    if at in line.places:
        name, constant = re.fullmatch(r"(\w+)\[i([+-][0-9]+)?\]", word).groups()
        return is_long(name) or not -64 <= as_number(constant or "0") <= 64
    if "@" in word and (at in line.uses or (line.form == "init" and at == 1)):
        name, _, digits = word.partition("@")
        return is_long(name) or not (line.form == "init") <= as_number(digits) <= 16
    if is_number(word) and (at in line.uses or line.form in ("array", "param", "init")):
        return not -(2**63) <= as_number(word) < 2**63
    return at in line.uses and is_long(word)


def as_number(word):
    """The number of a word. (Python refuses to read numbers of some thousand digits, and these are outside of all limits.)"""
    sign, digits = (-1 if word.startswith("-") else 1), word.lstrip("+-").lstrip("0")
    return sign * int(digits or "0") if len(digits) < 100 else sign * 10**100


def limit_text(word):
    counts = {"loop": "at most 1024 loops", "array": "at most 32 arrays", "param": "at most 64 parameters", "store": "at most 128 statements", "end": "at least one statement"}
    if word in counts:
        return counts[word]
    if "[" in word:
        return "a name of at most 16 bytes and a constant of -64 to 64"
    if "@" in word:
        return "a name of at most 16 bytes and a number of 1 to 16"
    if re.match(r"[0-9-]", word):
        return "a number of 64 bits, and at most 1024 cells"
    return "a name of at most 16 bytes" if is_long(word) else "at most 128 statements"


# near names


def distance(one, other):
    """How many bytes have to be put in, left out or replaced to make one of the other."""
    row = list(range(len(other) + 1))
    for at, letter in enumerate(one):
        last, row[0] = row[0], at + 1
        for to, its in enumerate(other):
            last, row[to + 1] = row[to + 1], min(row[to] + 1, row[to + 1] + 1, last + (letter != its))
    return row[-1]


def hint(word, names):
    """`: did you mean NAME?` with the first of the nearest names, where it is near enough."""
    near = [(distance(word, it), at, it) for at, it in enumerate(names)]
    if is_long(word) or not near or min(near)[0] > -(-len(word) // 3) or min(near)[0] >= len(word):
        return ""
    return f": did you mean {min(near)[2]}?"


# loops


class Block:
    """The standing lines of a loop, with what they declare."""

    def __init__(self, lines):
        self.lines = lines
        self.sorts, self.given, self.inits = {}, {}, set()
        for place, line in enumerate(lines):
            if line.declares and line.name() not in self.sorts:
                self.sorts[line.name()], self.given[line.name()] = line.declares, place
            if line.form == "init":
                name, _, digits = line.words[1].partition("@")
                self.inits.add((name, as_number(digits)))

    def near(self, sorts):
        declared = [line.name() for line in self.lines if line.declares][:MOST_NAMES]
        return [name for name in declared if self.sorts[name] in sorts and not is_long(name)]


def needs_of(line):
    """The words of a line that need a name: the place of the word, the name, which sorts it may be, and the distance, or None where it is no use of a value."""
    for at in line.places:
        yield at, line.words[at].split("[")[0], ("array",), None
    for at in line.uses:
        name, sign, digits = line.words[at].partition("@")
        if not is_number(name):
            yield at, name, ("value",) if sign else ("value", "param"), as_number(digits or "0")
    if line.form == "init":
        yield 1, line.words[1].split("@")[0], ("value",), None
    if line.form == "out":
        yield 1, line.words[1], ("value",), None


def is_given_later(block, place, name, far):
    return far == 0 and block.sorts.get(name) == "value" and block.given[name] >= place


def missing_of(block, line, at, name, far):
    """The numbers of the initial values that a word needs and that are missing; a use past its limit needs none."""
    most = 1 if line.form == "out" else far if "@" in line.words[at] and line.form != "init" and far <= 16 else 0
    return [it for it in range(1, most + 1) if (name, it) not in block.inits]


def first(words):
    return next(iter(words), None)


def limit_of(line, counts):
    """The place of the word of a limit fault, or None; `counts` has how many of each sort its loop, or the text, has with this line."""
    past = [at for at in range(len(line.words)) if is_past_limit(line, at)]
    if line.form == "array":
        past += [at for at in range(3, len(line.words)) if at >= 3 + 1024]
    if past:
        return min(past)
    sort = "statement" if line.is_statement else line.form
    is_over = counts.get(sort, 0) > {"loop": 1024, "array": 32, "param": 64, "statement": 128}.get(sort, 10**9)
    return 0 if is_over or (sort == "end" and not counts.get("statement")) else None


def faults_of_line(block, place, counts, loop_names):
    """The faults of a standing line, as (place of the word, what), in order."""
    line, earlier = block.lines[place], block.lines[:place]
    at = limit_of(line, counts)
    if at is not None:
        yield at, f"limit: expected {limit_text(line.words[at])}"
    name, declared = line.name(), {it.name() for it in earlier if it.declares}
    numbered = {(it.words[1].split("@")[0], as_number(it.words[1].split("@")[1])) for it in [*earlier, line] if it.form == "init" and it is not line}
    own = (line.words[1].split("@")[0], as_number(line.words[1].split("@")[1])) if line.form == "init" else None
    is_out_again = line.form == "out" and any(it.form == "out" and it.name() == name for it in earlier)
    if (line.declares and name in declared) or (line.form == "loop" and name in loop_names) or own in numbered or is_out_again:
        yield line.names[0] if line.names else 1, "repeated name: an earlier line has it"
    needs = list(needs_of(line))
    unknown = first(it for it in needs if block.sorts.get(it[1]) not in it[2])
    if unknown:
        yield unknown[0], "unknown name: no line of the loop declares it" + hint(unknown[1], block.near(unknown[2]))
    early = first(it for it in needs if is_given_later(block, place, it[1], it[3]))
    if early:
        yield early[0], "use before definition: given on this line or a later one"
    lacking = first((it[0], it[1], missing_of(block, line, it[0], it[1], it[3])) for it in needs if missing_of(block, line, it[0], it[1], it[3]))
    if lacking:
        yield lacking[0], "missing init: an initial value is missing: expected init " + ", ".join(f"{lacking[1]}@{it}" for it in lacking[2])


def words_of(line):
    return [(it[0], it.start() + 1) for it in re.finditer(r"[^ \t\r]+", line.split("#")[0])]


class Reader:
    """Goes over the lines of a loop text: what stands, what does not, and which loop each line is of."""

    def __init__(self, text):
        lines = text.split("\n")
        self.lines = lines if lines[-1] else lines[:-1]
        self.faults, self.blocks, self.every, self.block = [], [], [], None
        for number, line in enumerate(self.lines, 1):
            words = words_of(line)
            if words:
                self.take(number, words)

    def take(self, number, words):
        form, fits = form_of([it for it, _ in words])
        if form is None and fits == len(words):
            last, column = words[-1]
            self.faults.append(Fault(number, column + len(last), "", "syntax: a word is missing here"))
            return
        if form is None:
            self.faults.append(Fault(number, words[fits][1], words[fits][0], "syntax: no form of a line goes on here"))
            return
        line = Line(number, words, form)
        self.every.append(line)
        line.stands = self.may_stand(line)
        if not line.stands:
            self.faults.append(Fault(number, words[0][1], words[0][0], "syntax: this line stands in a wrong place"))
            return
        if form == "loop":
            self.block = []
            self.blocks.append(self.block)
        self.block.append(line)
        if form == "end":
            self.block = None

    def may_stand(self, line):
        if self.block is None or line.form == "loop":
            return self.block is None and line.form == "loop"
        has_statement, has_out = any(it.is_statement for it in self.block), any(it.form == "out" for it in self.block)
        if line.form in ("array", "param", "init"):
            return not has_statement
        return not has_out if line.is_statement else has_statement if line.form == "out" else True


def lacks_of(lines, opcodes):
    """The statements inside a loop whose opcode has no table."""
    is_inside = False
    for line in lines:
        if line.form in ("loop", "end"):
            is_inside = line.form == "loop"
        elif line.is_statement and is_inside:
            at = 0 if line.is_store else 2
            if line.words[at] not in opcodes:
                yield Fault(line.number, line.columns[at], line.words[at], "no table: the machine has none for this opcode")


def loop_faults(text, opcodes=None):
    """All faults of a loop text, and where opcodes are given each statement whose opcode is none of these."""
    if len(text) > MOST_TEXT:
        return [Fault(0, 0, "", f"limit: expected a text of at most {MOST_TEXT} bytes")]
    reader, loop_names = Reader(text), []
    found = list(reader.faults)
    for number, lines in enumerate(reader.blocks, 1):
        block, counts = Block(lines), {"loop": number}
        for place, line in enumerate(lines):
            sort = "statement" if line.is_statement else line.form
            counts[sort] = counts.get(sort, 0) + (sort != "loop")
            found += [Fault(line.number, line.columns[at], line.words[at], what) for at, what in faults_of_line(block, place, counts, loop_names)]
        loop_names.append(lines[0].name())
    if reader.block is not None:
        found.append(Fault(len(reader.lines) + 1, 1, "", "no end: the text ends inside a loop, expected end"))
    found += lacks_of(reader.every, opcodes) if opcodes is not None else []
    return sorted(found, key=lambda it: it.line)


# machines


def escaped(text):
    """A text as Rust writes it between quotes."""
    named = {"\t": "\\t", "\n": "\\n", "\r": "\\r", '"': '\\"', "\\": "\\\\", "\0": "\\0"}
    return "".join(named.get(it, it) for it in text)


def key_text(key, value):
    if isinstance(value, str):
        return f'{key} = "{escaped(value)}"'
    if isinstance(value, int) and not isinstance(value, bool):
        return f"{key} = {value}"
    return f"{key} (elements: {len(value)})" if isinstance(value, list) else key


def is_integer(value):
    return isinstance(value, int) and not isinstance(value, bool)


def unit_faults(tree):
    if "units" not in tree:
        yield "units", "missing key"
        return
    units = tree["units"]
    if not isinstance(units, list):
        yield key_text("units", units), "wrong type: expected an array of names"
        return
    if not 1 <= len(units) <= 64:
        yield key_text("units", units), "limit: expected 1 to 64 units"
    for at, it in enumerate(units[:64]):
        key = key_text(f"units[{at}]", it)
        if not isinstance(it, str):
            yield key, "wrong type: expected a name"
            continue
        if not re.fullmatch(r"[a-z][a-z0-9_]{0,15}", it):
            yield key, "limit: expected a lower-case letter, and at most 15 lower-case letters, digits or _ after it"
        if it in units[:at]:
            yield key, "repeated unit: an earlier element has this name"


def number_faults(table, name, key, most):
    if name not in table:
        yield key, "missing key"
    elif not is_integer(table[name]):
        yield key_text(key, table[name]), "wrong type: expected an integer"
    elif not 1 <= table[name] <= most:
        yield key_text(key, table[name]), f"limit: expected 1 to {most}"


def row_faults(rows, at, key, units):
    """The fault of a row: of its form, its offset, its unit, or that an earlier one is the same."""
    row = rows[at]
    form = isinstance(row, str) and re.fullmatch(r"([a-z][a-z0-9_]{0,15})@([0-9]+)", row)
    if not form:
        yield key_text(key, row), "wrong type: expected a row UNIT@NUM"
        return
    if as_number(form[2]) > 63:
        yield key_text(key, row), "limit: expected an offset of 0 to 63"
    if units is not None and form[1] not in units:
        yield key_text(key, row), f"unknown unit {form[1]}" + hint(form[1], [it for it in units[:64] if isinstance(it, str)])
    earlier = [it.rpartition("@") for it in rows[:at] if isinstance(it, str) and re.fullmatch(r"[a-z][a-z0-9_]{0,15}@[0-9]+", it)]
    if (form[1], as_number(form[2])) in [(unit, as_number(offset)) for unit, _, offset in earlier]:
        yield key_text(key, row), "repeated row: an earlier row has this unit and offset"


def alts_faults(table, key, units):
    if "alts" not in table:
        yield key, "missing key"
        return
    ways = table["alts"]
    if not isinstance(ways, list):
        yield key_text(key, ways), "wrong type: expected an array of alternatives"
        return
    if not 1 <= len(ways) <= 8:
        yield key_text(key, ways), "limit: expected 1 to 8 alternatives"
    for at, rows in enumerate(ways[:8]):
        its = f"{key}[{at}]"
        if not isinstance(rows, list):
            yield key_text(its, rows), "wrong type: expected an array of rows"
            continue
        if not 1 <= len(rows) <= 16:
            yield key_text(its, rows), "limit: expected 1 to 16 rows"
        for place in range(min(16, len(rows))):
            yield from row_faults(rows, place, f"{its}[{place}]", units)


def opcode_faults(opcode, table, units):
    key = f"ops.{escaped(opcode)}"
    if opcode not in OPCODES:
        yield key_text(key, table), "unknown opcode" + hint(opcode, OPCODES)
    if not isinstance(table, dict):
        if opcode in OPCODES:
            yield key_text(key, table), "wrong type: expected a table"
        return
    for name in sorted(table, key=lambda it: it.encode()):
        if name not in ("alts", "latency"):
            yield key_text(f"{key}.{escaped(name)}", table[name]), "unknown key" + hint(name, ["alts", "latency"])
    yield from number_faults(table, "latency", f"{key}.latency", 64)
    yield from alts_faults(table, f"{key}.alts", units)


def machine_faults(text):
    """All faults of a machine text that is TOML, in order, each with its word and what is wrong."""
    tree, found = tomllib.loads(text), []
    for key in sorted(tree, key=lambda it: it.encode()):
        if key not in ("ops", "registers", "units"):
            found.append((key_text(escaped(key), tree[key]), "unknown key" + hint(key, ["ops", "registers", "units"])))
    found += unit_faults(tree)
    found += number_faults(tree, "registers", "registers", 256)
    units = tree.get("units")
    if "ops" not in tree:
        found.append(("ops", "missing key"))
    elif not isinstance(tree["ops"], dict):
        found.append((key_text("ops", tree["ops"]), "wrong type: expected a table"))
    else:
        for opcode in sorted(tree["ops"], key=lambda it: it.encode()):
            found += opcode_faults(opcode, tree["ops"][opcode], units if isinstance(units, list) else None)
    return found
