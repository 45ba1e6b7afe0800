"""Random texts of scheduling problems and of solutions, and what `modsched solve` and `modsched check` have to say of them: ./x fuzz runs these rounds.

A round makes a text of problems, from small ones to some at their limits, and compares with plain Python (plain_texts.py, which shares no code with modsched)
  - what `solve` prints, byte for byte, but that any circuit that needs the bound may be told; by one worker and by others with other cuts the same bytes;
  - what `check` says of these solutions, and of damaged ones: a number changed, a line left out, doubled or moved, names exchanged; any cycle may be told in which values meet;
  - what is said of the text of problems when it is damaged: its first fault with line and column, or its solutions."""
import os
import re
import subprocess
import traceback

import plain_texts as plain


class Mismatch(Exception):
    pass


def in_words(why):
    """What is wrong; where no comparison has found it, also where it was met."""
    return str(why) if isinstance(why, (Mismatch, subprocess.TimeoutExpired)) else "".join(traceback.format_exception(why))


# texts


def names(dice, letter, count):
    sign = dice.choice(["", "", ".", "[i]", "{}", "'"]) if letter != "u" else ""
    return [f"{letter}{sign}{k}" for k in range(count)]


def hold(dice, units):
    offset = dice.choice([0, 0, 0, 1, 2, 5, 63 if dice.random() < 0.1 else 3])
    return dice.choice(units), offset


def alternative(dice, units):
    holds = {hold(dice, units) for _ in range(dice.choice([1, 1, 1, 2, 3, 16 if dice.random() < 0.1 else 2]))}
    return " ".join(f"{unit}@{offset}" if offset or dice.random() < 0.1 else unit for unit, offset in sorted(holds))


def machine_lines(dice, name):
    units = names(dice, "u", dice.choice([1, 2, 3, 4, 6, 8, 64 if dice.random() < 0.05 else 5]))
    files = names(dice, "f", dice.choice([0, 1, 1, 2, 3, 8 if dice.random() < 0.1 else 1]))
    kinds = names(dice, "k", dice.choice([1, 2, 3, 4]))
    stored = [dice.choice(["unallotted", *[f"rotating {it}" for it in (1, 2, 4, 8, 16, 32, 256)]]) for _ in files]
    slowest = dice.choice([1, 3, 6, 64 if dice.random() < 0.2 else 6])
    ways = [" | ".join(alternative(dice, units) for _ in range(dice.choice([1, 1, 2, 3, 16 if dice.random() < 0.05 else 1]))) for _ in kinds]
    lines = [f"file {file} {how}" for file, how in zip(files, stored)]
    lines += [f"kind {kind} latency {dice.randint(1, slowest)} | {way}" for kind, way in zip(kinds, ways)]
    dice.shuffle(lines)
    cut = dice.choice([len(units), dice.randint(1, len(units))])
    first = [" ".join(["units", *its]) for its in (units[:cut], units[cut:]) if its]
    return [f"machine {name}", *first, *lines], files, kinds


def problem_lines(dice, name, files, kinds):
    """Operations, values, reads and edges, with the lines of later operations between those of earlier ones."""
    many = dice.choice([1, 2, 3, 5, 8, 12, 20 if dice.random() < 0.3 else 6])
    ops, lines, values, used = names(dice, "o", many), [], [], dice.choice([1, 2, 2])
    for place, op in enumerate(ops):
        lines.append(f"op {op} {dice.choice(kinds)}")
        for _ in range(dice.choice([0, 1, 1, 1, 2]) if files else 0):
            values.append((f"v{len(values)}", place))
            lands = dice.choice([1, 2, 3, dice.randint(0, 8), 64 if dice.random() < 0.05 else 0])
            lines.append(f"value {values[-1][0]} of {op} lands {lands} in {dice.choice(files)}" + (" out" if dice.random() < 0.1 else ""))
        for _ in range(dice.choice([0, 1, used]) if values else 0):
            value, maker = dice.choice(values[-6:])
            distance = dice.choice([0, 0, 0, 1, 2]) if maker < place else dice.choice([1, 1, 2, 16 if dice.random() < 0.1 else 3])
            offset = dice.choice([0, 0, 0, 1, 2, 63 if dice.random() < 0.05 else 0])
            told = f" distance {distance} offset {offset}" if offset else f" distance {distance}" if distance or dice.random() < 0.3 else ""
            lines.append(f"read {op} {value}{told}")
    for _ in range(dice.choice([0, 0, 1, 2, 4])):
        one, other = dice.randrange(many), dice.randrange(many)
        distance = dice.choice([0, 0, 1]) if one < other else dice.choice([1, 1, 2, 255 if dice.random() < 0.1 else 3])
        lines.append(f"edge {ops[one]} {ops[other]} delay {dice.choice([1, 2, 0, -3, dice.randint(-8, 8), 64 if dice.random() < 0.05 else 4])} distance {distance}")
    for value, maker in values:
        if dice.random() < 0.3:
            reader = dice.randrange(many)
            lines.append(f"read {ops[reader]} {value} distance {dice.randint(1, 3)}" if reader <= maker else f"read {ops[reader]} {value}")
    return [f"problem {name}", *lines, "end"]


def noisy(dice, line):
    """The same line with other blanks, zeros in front of numbers, or a comment."""
    if dice.random() < 0.9:
        return line
    line = line.replace(" ", dice.choice([" ", "  ", "\t", " \r "]))
    line = re.sub(r"(?<=distance )(\d+)", r"0\1", line)
    return dice.choice(["", " "]) + line + dice.choice(["", "\r", " # end", "#|", "\n", "\n# machine x"])


def problems_text(dice):
    lines, count = [], 0
    for machine in range(dice.choice([1, 1, 1, 2, 3])):
        head, files, kinds = machine_lines(dice, f"m{machine}")
        lines += head
        for _ in range(dice.choice([0, 1, 1, 2, 3])):
            lines += problem_lines(dice, f"p{count}", files, kinds)
            count += 1
    text = "\n".join(noisy(dice, it) for it in lines)
    return text + dice.choice(["\n", "\n", ""])


def limit_text(dice):
    """A text with as many of a part as there may be, or one more."""
    part, most = dice.choice([
        ("unit", 64), ("file", 8), ("kind", 256), ("alternative", 16), ("hold", 16), ("op", 128), ("value", 256), ("read", 2048), ("edge", 16384), ("problem", 4096),
    ])
    many = {it: 2 for it in ("unit", "file", "kind", "alternative", "hold", "op", "value", "read", "edge", "problem")} | {part: most + dice.choice([0, 1])}
    if part == "problem":
        many |= {"op": 1, "value": 0, "read": 0, "edge": 0}
    ops, holds = many["op"], " ".join(f"u0@{k}" for k in range(many["hold"]))
    lines = ["machine m", " ".join(["units", *[f"u{k}" for k in range(many["unit"])]])]
    lines += [f"file f{k} unallotted" for k in range(many["file"])]
    lines += [f"kind k{k} latency {1 + k % 64} | " + " | ".join([holds, *["u1"] * (many["alternative"] - 1)]) for k in range(many["kind"])]
    for k in range(many["problem"]):
        lines += [f"problem p{k}", *[f"op o{it} k{it % 2}" for it in range(ops)]]
        lines += [f"value v{it} of o{it % ops} lands 1 in f{it % 2}" for it in range(many["value"])]
        lines += [f"read o{it % ops} v{it % many['value']} distance {1 + it % 16}" for it in range(many["read"])]
        lines += [f"edge o{it % ops} o{(it + 1) % ops} delay {it % 3} distance {1 + it % 255}" for it in range(many["edge"])]
        lines.append("end")
    return "\n".join(lines)


# damages


def damaged(dice, text):
    """The text with one damage: a number or a name is another, a word or a line is left out, doubled or moved."""
    lines = text.split("\n")
    at = dice.randrange(len(lines))
    words = lines[at].split(" ")
    word = dice.randrange(len(words))
    every = [it for line in lines for it in line.split(" ") if it]
    roll = dice.randrange(9)
    if roll < 4 and words[word].isdigit():
        number = int(words[word])
        words[word] = str(max(0, dice.choice([number + 1, number - 1, number + 2, 2 * number, 0, 257, 16385, 1048576, 2**64, -number])))
    elif roll < 5 and every:
        words[word] = dice.choice(every)
    elif roll < 6:
        words[word] = dice.choice(["", "x", "-1", "#", words[word] + "@", "\x7f", "é", words[word] + " " + words[word]])
    elif roll < 7:
        lines[at:at] = [dice.choice(lines)]
        return "\n".join(lines)
    elif roll < 8:
        del lines[at]
        return "\n".join(lines)
    else:
        other = dice.randrange(len(lines))
        lines[at], lines[other] = lines[other], lines[at]
        return "\n".join(lines)
    lines[at] = " ".join(words)
    return "\n".join(lines)


def damaged_solutions(dice, text):
    """Solutions of which something is another. What stands after '#' says nothing, so that only what says something is damaged."""
    text = "\n".join(it.split(" #")[0] for it in text.split("\n") if it and not it.startswith("#")) + "\n"
    if dice.random() < 0.15:
        one, other = dice.choice(["op", "value", "solution"]), re.findall(r"(?m)^(?:op|value|solution) (\S+)", text)
        found = re.findall(rf"(?m)^{one} (\S+)", text)
        if len(found) > 1 and other:
            this, that = dice.sample(found, 2)
            swap = {this: that, that: this}
            return re.sub(rf"(?m)^({one}) (\S+)", lambda it: f"{it[1]} {swap.get(it[2], it[2])}", text)
    if dice.random() < 0.2:
        return damaged(dice, text)
    parts = list(re.finditer(r"(?m)^(op|value) .*\n", text))
    if parts and dice.random() < 0.15:
        it = dice.choice(parts)
        return text[: it.start()] + text[it.end() :]
    for _ in range(dice.choice([1, 1, 1, 2, 3])):
        word = dice.choice(["time", "time", "time", "number", "number", "by", "ii"])
        numbers = list(re.finditer(rf"(?<= {word} )\d+(?= |$)", text, re.M))
        if numbers:
            it = dice.choice(numbers)
            number = int(it[0])
            text = text[: it.start()] + str(max(0, number + dice.choice([1, 1, -1, -1, 2, -2, 3, 8, 64 * number]))) + text[it.end() :]
    return text


# rounds


class Rounds:
    """Rounds with the program of this path, which writes its texts into a folder."""

    def __init__(self, program, room):
        self.program, self.room = program, room
        self.problems = self.met = self.judged = self.lawful = self.refused = 0

    def path(self, name, text):
        path = os.path.join(self.room, name)
        with open(path, "wb") as file:
            file.write(text)
        return path

    def run(self, *words):
        ran = subprocess.run([self.program, *words], capture_output=True, timeout=120)
        return ran.stdout.decode("latin-1"), ran.stderr.decode("latin-1"), ran.returncode

    def same(self, what, got, wanted, *texts):
        if got != wanted:
            shown = "".join(f"--- text\n{it.decode('utf-8', 'replace')}\n" for it in texts)
            raise Mismatch(f"{what}\n--- the program\n{got}\n--- plain Python\n{wanted}\n{shown}")

    def solve(self, text, dice):
        ratio, ceiling = dice.choice([1, 2, 6, 6, 64]), dice.choice([0, 2, 5, 12, 32, 32])
        options = ["--ratio", str(ratio), "--ceiling", str(ceiling)]
        path = self.path("problems", text)
        told, err, status = self.run("solve", path, *options, "--workers", "1")
        many = self.run("solve", path, *options, "--workers", str(dice.choice([2, 4, 64])), "--cut", str(dice.choice([1, 256])))
        self.same(f"solve {options} by one worker and by many", (told, err, status), many, text)
        wanted = plain.answers("solve", text, ratio=ratio, ceiling=ceiling)
        got = (plain.as_plain(plain.reader.read_problems(text), told) if status < 2 else told, err, status)
        self.same(f"solve {options}", got, wanted, text)
        return told, status

    def check(self, text, solutions):
        out, err, status = self.run("check", self.path("problems", text), self.path("solutions", solutions))
        wanted, wanted_err, wanted_status = plain.answers("check", text, solutions)
        if status < 2 and wanted_status < 2:
            lists = plain.reader.read_problems(text), plain.reader.read_solutions(solutions)
            self.same("check", plain.without_cycles(*lists, out), plain.without_cycles(*lists, wanted), text, solutions)
        self.same("check", (err, status), (wanted_err, wanted_status), text, solutions)
        return out, err

    def round(self, dice):
        if dice.random() < 0.05:
            self.refused += self.solve(limit_text(dice).encode(), dice)[1] == 4
            return
        text = problems_text(dice).encode()
        told, _ = self.solve(text, dice)
        met = len(re.findall(r"(?m)^solution ", told))
        self.problems, self.met = self.problems + len(re.findall(r"(?m)^# \S+ ops ", told)), self.met + met
        verdicts = self.check(text, told.encode())[0]
        self.same("the solutions that are met and those that are lawful", verdicts.count(" ok ii "), met, text)
        for _ in range(8 if met else 1):
            out, err = self.check(text, damaged_solutions(dice, told).encode())
            self.judged, self.lawful, self.refused = self.judged + out.count(" broken: "), self.lawful + out.count(" ok ii "), self.refused + bool(err)
        for _ in range(2):
            status = self.solve(damaged(dice, text.decode()).encode(), dice)[1]
            self.refused += status == 4

    def told(self):
        return f"{self.problems} problems, {self.met} with a solution, {self.judged} broken and {self.lawful} lawful solutions after damages, {self.refused} texts refused"
