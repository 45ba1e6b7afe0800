"""Random machines and loops, and what `modsched` has to print of them: ./x fuzz runs these rounds, and tests/plain_loops runs some of them that are always the same.

A round takes the texts as they are, or written in another way, and options, and compares what `schedule` prints, as text or as JSON, for all loops or those of some names, and what another command
prints, with what plain Python comes to (plain_commands.py, which shares no code with modsched): the same bytes and the same status."""
import difflib
import json
import os
import re
import subprocess
import tomllib

import plain_commands
import plain_loops
from random_problems import Mismatch

TWO = ["add", "sub", "mul", "and", "or", "xor", "min", "max", "lt"]
EDGES = [0, 1, -1, 2, 7, 64, 2**31, -(2**31), 2**63 - 1, -(2**63)]


def number(dice):
    return dice.choice(EDGES) if dice.random() < 0.3 else dice.randint(-9, 9)


def machine_text(dice):
    """A machine with every opcode: from tight ones, on which many loops have no kernel, to wide ones."""
    units = [f"u{k}" for k in range(dice.choice([1, 2, 3, 4, 6, 64 if dice.random() < 0.05 else 8]))]
    registers = dice.choice([1, 2, 3, 4, 6, 8, 12, 16, 32, 64, 256])
    lines = [f"registers = {registers}", "units = [" + ", ".join(f'"{it}"' for it in units) + "]"]
    slowest = dice.choice([1, 2, 4, 8, 64])
    for opcode in plain_loops.OPCODES:
        alternatives = [alternative(dice, units) for _ in range(dice.choice([1, 1, 2, 3]))]
        rows = ["[" + ", ".join(f'"{it}"' for it in rows) + "]" for rows in alternatives]
        lines += ["", f"[ops.{opcode}]", f"latency = {dice.randint(1, slowest)}", f"alts = [{', '.join(rows)}]"]
    return "\n".join(lines) + "\n"


def alternative(dice, units):
    rows = [f"{dice.choice(units)}@0"]
    for _ in range(dice.choice([0, 0, 0, 1, 2, 4])):
        row = f"{dice.choice(units)}@{dice.choice([0, 1, 2, 3, 5, 63 if dice.random() < 0.1 else 4])}"
        if row not in rows:
            rows.append(row)
    return rows


class Block:
    """One loop, as it is being made."""

    def __init__(self, dice, name):
        self.dice, self.name = dice, name
        self.arrays = [f"a{k}" for k in range(dice.choice([1, 1, 2, 3]))]
        self.params = [f"p{k}" for k in range(dice.choice([0, 1, 2]))]
        many = dice.choice([1, 2, 3, 5, 8, 12, 20, 40 if dice.random() < 0.3 else 6])
        self.kinds = [dice.choice(["load", "store", "op", "op", "op"]) for _ in range(many)]
        self.values = {k: f"x{k}" for k, kind in enumerate(self.kinds) if kind != "store"}
        self.reach = {}

    def text(self):
        dice = self.dice
        body = [self.statement(k, kind) for k, kind in enumerate(self.kinds)]
        outs = [it for it in self.values.values() if dice.random() < 0.08]
        for name in outs:
            self.reach[name] = max(self.reach.get(name, 0), 1)
        head = [f"loop {self.name}"]
        for name in self.arrays:
            cells = " ".join(str(number(dice)) for _ in range(dice.randint(0, 12)))
            head.append(f"array {name} = {cells}".rstrip())
        head += [f"param {name} = {number(dice)}" for name in self.params]
        for name, reach in self.reach.items():
            head += [f"init {name}@{m} = {number(dice)}" for m in range(1, reach + 1)]
        return "\n".join([*head, *body, *(f"out {it}" for it in outs), "end"]) + "\n"

    def use(self, place):
        """A number, a parameter, a value of this iteration, or one of an iteration before."""
        dice = self.dice
        before = [it for k, it in self.values.items() if k < place]
        roll = dice.random()
        if before and roll < 0.55:
            return dice.choice(before[-4:])
        if self.values and roll < 0.8:
            name = dice.choice(list(self.values.values()))
            distance = dice.choice([1, 1, 1, 2, 3, 16 if dice.random() < 0.1 else 4])
            self.reach[name] = max(self.reach.get(name, 0), distance)
            return f"{name}@{distance}"
        if self.params and roll < 0.9:
            return dice.choice(self.params)
        return str(number(dice))

    def cell(self):
        dice = self.dice
        offset = dice.choice([0, 0, 0, 1, -1, 2, -2, dice.choice([64, -64, 5])])
        return f"{dice.choice(self.arrays)}[i{offset:+d}]" if offset else f"{dice.choice(self.arrays)}[i]"

    def statement(self, place, kind):
        dice = self.dice
        if kind == "store":
            guard = f" if {self.use(place)}" if dice.random() < 0.3 else ""
            return f"store {self.cell()} {self.use(place)}{guard}"
        if kind == "load":
            return f"{self.values[place]} = load {self.cell()}"
        opcode = dice.choice([*TWO, "add", "add", "sel", "mov"])
        count = {"sel": 3, "mov": 1}.get(opcode, 2)
        return " ".join([self.values[place], "=", opcode, *(self.use(place) for _ in range(count))])


def loops_text(dice):
    return "".join(Block(dice, f"l{k}").text() for k in range(dice.randint(1, 6)))


def texts_of(dice):
    """A machine and loops."""
    return machine_text(dice), loops_text(dice)


# the same written in another way


def another_integer(dice, number):
    return dice.choice([str, hex, oct, bin, "{:_}".format])(number)


def another_row(dice, row):
    unit, offset = row.split("@")
    quote = dice.choice("\"'")
    return f"{quote}{unit}@{dice.choice(['', '0', '000'])}{offset}{quote}"


def another_machine(dice, text):
    """The same machine, with its tables in another order, as parts of one table or with dotted keys, and with other forms of numbers and strings."""
    tree = tomllib.loads(text)
    opcodes = dice.sample(list(tree["ops"]), len(tree["ops"]))
    tables = []
    for opcode in opcodes:
        rows = [", ".join(another_row(dice, row) for row in alternative) for alternative in tree["ops"][opcode]["alts"]]
        tables.append([f"latency = {another_integer(dice, tree['ops'][opcode]['latency'])}", f"alts = [{', '.join(f'[{it}]' for it in rows)}]"])
        dice.shuffle(tables[-1])
    top = [f"registers = {another_integer(dice, tree['registers'])}", f"units = {json.dumps(tree['units'])} # {dice.choice(['', '[ops.none]'])}"]
    dice.shuffle(top)
    form = dice.choice(["one", "dotted", "tables"])
    if form == "one":
        told = ["ops = { " + ", ".join(f"{opcode} = {{ {', '.join(table)} }}" for opcode, table in zip(opcodes, tables)) + " }"]
    elif form == "dotted":
        told = [f"ops.{opcode}.{line}" for opcode, table in zip(opcodes, tables) for line in table]
    else:
        return "\r\n".join([*top, *(line for opcode, table in zip(opcodes, tables) for line in (f"[ ops . '{opcode}' ]", *table))])
    lines = [*top, *told]
    dice.shuffle(lines)
    return "\n".join(lines)


def another_word(dice, word):
    """The same number with more digits, the same cell with a sign, or the same name, use or other word."""
    if re.fullmatch(r"-?\d+", word):
        sign, digits = word[: word.startswith("-")], word.lstrip("-")
        return ("-" if int(word) == 0 and dice.random() < 0.3 else sign) + dice.choice(["", "", "0", "000"]) + digits
    if word.endswith("[i]"):
        return word[:-1] + dice.choice(["", "+0", "-0", "+00"]) + "]"
    return re.sub(r"(?<=[@+-])(?=\d)", dice.choice(["", "", "0", "00"]), word)


def another_line(dice, words):
    blanks = [dice.choice([" ", " ", "  ", "\t", "\r", " \t\r "]) for _ in words]
    line = dice.choice(["", "", " ", "\t"]) + "".join(another_word(dice, word) + blank for word, blank in zip(words, blanks))
    return line.rstrip(" ") + dice.choice(["", "", "#", "# end", "#\xff\x00 loop l0"])


def another_loops(dice, text):
    """The same loops, with other names, blanks and forms of numbers, with comments, and with initial values in any order and beyond those that are used."""
    others = dict(zip("alpx", dice.choice([("a", "l", "p", "x"), ("r", "loop_", "ii", "_"), ("B", "Z", "if_", "X_y_z_012345_"), ("end_", "out1", "r", "add2")])))
    lines = []
    for line in text.splitlines():
        words = [re.sub(r"^([alpx])(?=\d)", lambda it: others[it[1]], word) for word in line.split()]
        if words[0] == "init" and dice.random() < 0.2 and words[1].endswith("@1"):
            lines.append(["init", words[1].replace("@1", "@16"), "=", str(number(dice))])
        lines.append(words)
    lines = without_repeats(shuffled_heads(dice, lines))
    every = [it for words in lines for it in ([another_line(dice, words)] if dice.random() < 0.9 else ["", " # no words", another_line(dice, words)])]
    return "\n".join(every) + dice.choice(["", "\n", "\n\n\t"])


def shuffled_heads(dice, lines):
    """Of each loop the lines before the first statement in another order."""
    heads, found = [], []
    for words in [*lines, ["loop"]]:
        if words[0] in ("array", "param", "init"):
            heads.append(words)
        else:
            dice.shuffle(heads)
            found += [*heads, words]
            heads = []
    return found[:-1]


def without_repeats(lines):
    """Of each loop the first line for an initial value."""
    found, told = [], set()
    for words in lines:
        told = set() if words[0] == "loop" else told
        if words[0] != "init" or words[1] not in told:
            found.append(words)
        told |= {words[1]} if words[0] == "init" else set()
    return found


# rounds


def escaped(text):
    """The same on lines that can be read, whatever bytes the comments have."""
    return "\n".join(line.encode("unicode_escape").decode("ascii") for line in text.split("\n"))


def printed(answer):
    """The lines of what a command prints and says, and its status."""
    status, out, err = answer
    return escaped(f"{out}{err}status {status}").split("\n")


class Rounds:
    """Rounds with the program of this path, which writes its texts into a folder."""

    def __init__(self, program, room):
        self.program, self.paths = program, [os.path.join(room, name) for name in ("compared.toml", "compared.txt")]
        self.compared = 0

    def told(self):
        return f"{self.compared} printouts compared"

    def run(self, command, texts, names=(), **options):
        """What a command prints of a machine text and a loop text, or of a loop text alone, with its status first."""
        paths = self.paths[-len(texts):]
        for path, text in zip(paths, texts):
            with open(path, "wb") as file:
                file.write(text)
        words = [word for name, value in [*(("loop", name) for name in names), *options.items()] for word in (f"--{name}", *([] if value is True else [str(value)]))]
        ran = subprocess.run([self.program, command, *paths, *words], capture_output=True, timeout=300)
        return ran.returncode, ran.stdout.decode("latin-1"), ran.stderr.decode("latin-1")

    def compare(self, command, texts, **options):
        """What a command prints, which has to be what plain Python comes to."""
        got = self.run(command, texts, **options)
        wanted = plain_commands.answer(command, texts, got[1], **options)
        if got != wanted:
            lines = difflib.unified_diff(printed(wanted), printed(got), "plain Python", "the program", n=1, lineterm="")
            raise Mismatch("\n".join([f"{command} {options}", *lines, *(f"--- text\n{escaped(it.decode('latin-1'))}" for it in texts)]))
        self.compared += 1
        return got

    def round(self, dice, machine, loops):
        """The texts of the round, as they are or written in another way: what `schedule` prints of them, and what one of the other commands does. Answers the printouts."""
        if dice.random() < 0.5:
            machine, loops = another_machine(dice, machine), another_loops(dice, loops)
        texts = [machine.encode(), loops.encode("latin-1")]
        every = [loop.name for loop in plain_loops.loops_in(texts[1])]
        options = {"names": dice.sample(every, dice.randint(1, len(every)))} if dice.random() < 0.2 else {}
        search = {"ratio": dice.choice([1, 2, 3, 6, 6, 20]), "ceiling": dice.choice([0, 1, 3, 10, 32]), **options}
        trip, few = {"trip": dice.choice([0, 1, 2, 5, 30, 33, 130])}, {"ratio": dice.choice([1, 3]), "ceiling": dice.choice([0, 3])}
        found = [self.compare("schedule", texts, **search, format=dice.choice(["text", "text", "json"]))]
        command = dice.choice(["json", "run", "plain", "bounds", "edges", "dot", "vary"])
        needed = {
            "json": search,
            "run": search | trip,
            "plain": options | trip,
            "vary": options | few | dice.choice([{}, {"format": "json"}, {"total": True}]),
            "dot": dice.choice([options, search | {"scheduled": True}]),
        }
        return [*found, self.compare(command, texts[1:] if command == "plain" else texts, **needed.get(command, options))]
