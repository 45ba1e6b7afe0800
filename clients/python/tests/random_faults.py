"""Damaged texts of machines and of loops, and what `modsched lint` has to say of them: ./x fuzz runs these rounds.

A round damages one of two texts without a fault, or both, and compares what `lint` tells with how `bounds` ends:
  - nothing is told, with status 0, where `bounds` takes both texts;
  - else the status is that of `bounds`. The first fault told of a text that is refused is the one that `bounds` tells: of the same kind, for a machine with the same
    key or name, for loops on the same line; and where an opcode has no table, its word is told;
  - each place is within its text, and the word told of a loop text stands there;
  - all lines of the loop text, with their places, and of a machine text that is TOML all words with what is wrong, are those of plain Python (plain_lint.py, which shares no code with modsched),
    and at the place of a fault of a machine text stands the last part of its key;
  - the JSON document has the same faults as the lines."""
import json
import re
import subprocess
import tomllib

import plain_lint as plain
from random_problems import Mismatch, in_words

# the kinds of the faults of a machine, as all commands name them
KINDS = ["not UTF-8", "not TOML", "missing key", "wrong type", "unknown key", "unknown unit", "unknown opcode", "repeated unit", "repeated row", "limit"]
LETTERS = 'abxyz019_@[]+-="#., \n'
WORDS = ["load", "store", "add", "mov", "loop", "end", "init", "array", "param", "out", "if", "x0", "x1", "a0", "x0@1", "x1@17", "a0[i]", "a9[i]", "v", "0", "-5", "9223372036854775808",
         "latency", "alts", "units", "registers", "ops", "u0", "u0@64", "abcdefghijklmnopq"]


def damaged(dice, text):
    """The text with one part changed: a letter, a word or a line."""
    lines = text.split("\n")
    at, other = dice.randrange(len(lines)), dice.randrange(len(lines))
    roll = dice.randrange(8)
    if roll == 0:
        lines.insert(at, lines[other])
    elif roll == 1:
        del lines[at]
    elif roll == 2:
        lines[at], lines[other] = lines[other], lines[at]
    elif roll < 6:
        words = re.split(r"(\W+)", lines[at])
        words[dice.randrange(len(words))] = dice.choice(WORDS)
        lines[at] = "".join(words)
    else:
        place = dice.randrange(len(text) + 1)
        return text[:place] + dice.choice([dice.choice(LETTERS), ""]) + text[place + dice.choice([0, 1]):]
    return "\n".join(lines)


def thinned(dice, machine):
    """A machine text, at times without the table of some opcode, or with a row twice."""
    head, *tables = machine.split("\n\n")
    if dice.random() < 0.3:
        del tables[dice.randrange(len(tables))]
    text = "\n\n".join([head, *tables])
    return re.sub(r'"(\w+@)(\d+)"', r'"\1\2", "\g<1>0\2"', text, count=1) if dice.random() < 0.1 else text


def shown(word):
    """A word as a line has it: a byte that is no printable ASCII by two hexadecimal digits."""
    return "".join(it if " " <= it <= "~" else f"\\x{ord(it):02x}" for it in word)


def ended(program, *words):
    done = subprocess.run([program, *words], capture_output=True, text=True, timeout=120)
    return done.returncode, done.stdout, done.stderr


class Rounds:
    def __init__(self, program, room):
        self.program = program
        self.machine, self.loops = f"{room}/damaged.toml", f"{room}/damaged.txt"
        self.texts = self.faults = 0

    def told(self):
        return f"{self.texts} texts linted, {self.faults} faults"

    def round(self, dice, machine, loops):
        texts = [thinned(dice, machine), loops]
        for it in dice.choice([[0], [1], [1], [0, 1]]):
            for _ in range(dice.choice([1, 1, 2, 4])):
                texts[it] = damaged(dice, texts[it])
        self.take(*texts)

    def take(self, *texts):
        """Compares what is told of these two texts."""
        for path, text in zip((self.machine, self.loops), texts):
            with open(path, "w", encoding="utf-8", newline="") as file:
                file.write(text)
        try:
            self.compare(*texts)
        except Exception as why:
            raise Mismatch(f"{in_words(why)}\n--- machine\n{texts[0]}--- loops\n{texts[1]}") from why

    def compare(self, machine, loops):
        status, _, said = ended(self.program, "bounds", self.machine, self.loops)
        linted, lines, stray = ended(self.program, "lint", self.machine, self.loops)
        if stray:
            raise Mismatch(f"lint writes {stray!r} to standard error")
        if linted != status:
            raise Mismatch(f"lint ends with {linted}, and bounds with {status}: {said}{lines}")
        found = lines.splitlines()
        self.texts, self.faults = self.texts + 1, self.faults + len(found)
        if bool(found) != (status != 0):
            raise Mismatch(f"bounds ends with {status}, and lint tells\n{lines}")
        faults = [self.parted(line) for line in found]
        self.first(status, said.strip().removeprefix("modsched: "), faults)
        for path, line, column, rest in faults:
            self.placed(machine if path == self.machine else loops, path, line, column, rest)
        self.by_plain(machine, loops, faults)
        self.document(found)

    def parted(self, line):
        for path in (self.machine, self.loops):
            place = re.match(re.escape(path) + r":(\d+):(\d+): (.*)", line)
            if place:
                return path, int(place[1]), int(place[2]), place[3]
        raise Mismatch(f"lint tells of no text: {line}")

    def first(self, status, said, faults):
        """The first fault told of the text that is refused is the one that the other commands tell."""
        if status == 0:
            return
        of_machine = [it for it in faults if it[0] == self.machine]
        of_loops = [it for it in faults if it[0] == self.loops]
        if (status == 4) != bool(of_machine):
            raise Mismatch(f"{said}: lint tells {len(of_machine)} faults of the machine")
        table = re.fullmatch(r"loops: loop \w+: no table for (\w+)", said)
        if status == 4:
            kind = next(it for it in KINDS if said.startswith(f"machine: {it}"))
            subject = said.removeprefix(f"machine: {kind}").removeprefix(" at").strip()
            told = of_machine[0][3]
            if kind not in told or (kind not in ("limit", "not TOML", "not UTF-8") and subject.split(".")[-1] not in told):
                raise Mismatch(f"{said}, and the first that lint tells is {told}")
        elif table:
            if not any(f"{table[1]}: no table" in it[3] for it in of_loops):
                raise Mismatch(f"{said}, and lint tells {of_loops}")
        else:
            # (what has no table is no fault of the text itself, and is told line by line with these)
            own = [it for it in of_loops if ": no table: " not in it[3]]
            refused = re.fullmatch(r"loops: line (\d+): (.*)", said)
            if not refused or own[0][1] != int(refused[1]) or refused[2] not in own[0][3]:
                raise Mismatch(f"{said}, and the first that lint tells is {own[:1]}")

    def placed(self, text, path, line, column, rest):
        if (line, column) == (0, 0):
            return
        lines = text.split("\n")
        if not 1 <= line <= len(lines) + 1 or column < 1:
            raise Mismatch(f"{path}:{line}:{column} is no place of the text: {rest}")
        there = lines[line - 1].encode().decode("latin-1") if line <= len(lines) else ""
        word = rest.split(": ")[0]
        if path == self.loops and re.fullmatch(r"\S+", word) and not re.match(r"(syntax|no end|limit)\b", rest) and not shown(there[column - 1:]).startswith(word):
            raise Mismatch(f"{path}:{line}:{column}: there is no {word!r} there")

    def by_plain(self, machine, loops, faults):
        """All faults are those of plain Python, but of a machine text that is no TOML."""
        of_machine = [it for it in faults if it[0] == self.machine]
        opcodes = None
        if not any(it[3].startswith("not ") for it in of_machine):
            wanted = [f"{word}: {what}" for word, what in plain.machine_faults(machine)]
            self.same("faults of the machine", [it[3] for it in of_machine], wanted)
            opcodes = None if wanted else tomllib.loads(machine)["ops"].keys()
        wanted = [(it.line, it.column, f"{shown(it.word)}: {it.what}" if it.word else it.what) for it in plain.loop_faults(loops.encode().decode("latin-1"), opcodes)]
        self.same("faults of the loops", [it[1:] for it in faults if it[0] == self.loops], wanted)
        for _, line, column, rest in of_machine:
            key = re.match(r"(?:[\w-]+\.)*([\w-]+)", rest)
            there = machine.split("\n")[line - 1][column - 1:] if line else ""
            if line and key and not rest.startswith("not ") and not there.startswith(key[1]):
                raise Mismatch(f"at {line}:{column} of the machine there is no {key[1]!r}: {rest}")

    def same(self, what, got, wanted):
        if got != wanted:
            raise Mismatch(f"{what}\n--- lint\n{got}\n--- plain Python\n{wanted}")

    def document(self, found):
        _, text, _ = ended(self.program, "lint", self.machine, self.loops, "--format", "json")
        for it, line in zip(json.loads(text)["faults"], found, strict=True):
            word = f"{it['word']}: " if it["word"] else ""
            if f"{it['path']}:{it['line']}:{it['column']}: {word}{it['message']}" != line:
                raise Mismatch(f"lint --format json has {it}, and lint {line}")
