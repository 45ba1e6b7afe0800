"""Variants of random machines, and what `modsched vary` has to say of them: ./x fuzz runs these rounds.

A round compares
  - `vary` by one worker with `vary` by others, as lines, as JSON and in all: the same bytes, and those of plain Python (plain_variants.py, which shares no code with modsched);
  - the intervals of the machine as it is, and those of some variants, with what `schedule` lists for machine texts that are edited so;
  - the least number of registers with the intervals of `schedule` for that number and for smaller ones."""
import json
import re
import subprocess
import tomllib

import plain_loops
import plain_variants as plain
from random_problems import Mismatch


def text_of(machine):
    """A machine text of what tomllib has read of one."""
    lines = [f"registers = {machine['registers']}", f"units = {json.dumps(machine['units'])}"]
    for opcode, table in machine["ops"].items():
        lines += ["", f"[ops.{opcode}]", f"latency = {table['latency']}", f"alts = {json.dumps(table['alts'])}"]
    return "\n".join(lines) + "\n"


def edited(text, variant):
    """The machine text of a variant, as its object in the document says; None where it passes a limit."""
    machine = tomllib.loads(text)
    if variant["variant"] == "registers":
        machine["registers"] = variant["registers"]
    elif variant["variant"] == "latency":
        machine["ops"][variant["name"]]["latency"] -= 1
    else:
        unit, new = variant["name"], "one_more"
        machine["units"].append(new)
        for table in machine["ops"].values():
            takers = [rows for rows in table["alts"] if any(row.split("@")[0] == unit for row in rows)]
            table["alts"] += [[f"{new}@{row.split('@')[1]}" if row.split("@")[0] == unit else row for row in rows] for rows in takers]
        if len(machine["units"]) > 64 or any(len(table["alts"]) > 8 for table in machine["ops"].values()):
            return None
    return text_of(machine)


class Rounds:
    def __init__(self, program, room):
        self.program, self.path = program, f"{room}/varied.toml"
        self.compared = 0

    def told(self):
        return f"{self.compared} variants compared"

    def call(self, *words):
        done = subprocess.run([self.program, *words], capture_output=True, text=True, timeout=300)
        if done.returncode not in (0, 1) or done.stderr:
            raise Mismatch(f"{' '.join(words)}: status {done.returncode}\n{done.stderr}")
        return done.stdout, done.returncode

    def interval(self, text, loops, name, options):
        """The interval that `schedule` lists for a loop on a machine text, or None."""
        with open(self.path, "w", encoding="utf-8") as file:
            file.write(text)
        listing = self.call("schedule", self.path, loops, "--loop", name, *options)[0]
        found = re.search(rf"(?m)^loop {name} .* ii (\d+) stages", listing)
        return int(found[1]) if found else None

    def round(self, dice, machine, loops):
        options = ["--ratio", str(dice.choice([1, 2, 6])), "--ceiling", str(dice.choice([0, 1, 8, 32]))]
        text, document = self.whole(dice, machine, loops, options)
        every = [(loop, variant) for loop in document["loops"] for variant in loop["variants"]]
        for loop in document["loops"]:
            self.agree(f"{loop['name']} as it is", loop["ii"], self.interval(text, loops, loop["name"], options))
        for loop, variant in dice.sample(every, min(4, len(every))):
            self.vary(text, loops, loop, variant, options)
        loop = dice.choice(document["loops"])
        if loop["ii"] is not None:
            self.fewest(dice, text, loops, loop, options)

    def whole(self, dice, machine, loops, options):
        """Compares all that `vary` prints, and gives the machine text and the document."""
        told = [self.by_workers(dice, machine, loops, [*options, *form]) for form in ([], ["--total"], ["--format", "json"])]
        with open(machine, encoding="utf-8") as file:
            text = file.read()
        self.by_plain(text, loops, told, options)
        return text, json.loads(told[2])

    def by_plain(self, text, loops, told, options):
        """The lines, the totals and the document are those of plain Python."""
        with open(loops, "rb") as file:
            machine, found = plain_loops.machine_in(text.encode()), plain_loops.loops_in(file.read())
        standings = plain.standings_of(machine, found, int(options[1]), int(options[3]))
        for got, lines in zip(told, (plain.vary_lines(standings), plain.total_lines(machine, standings), [plain.document_line(standings)])):
            wanted = "".join(f"{line}\n" for line in lines)
            if got != wanted:
                raise Mismatch(f"vary {options}\n--- the program\n{got}\n--- plain Python\n{wanted}")

    def by_workers(self, dice, machine, loops, options):
        one = self.call("vary", machine, loops, *options, "--workers", "1")
        many = self.call("vary", machine, loops, *options, "--workers", str(dice.choice([2, 3, 4, 64])))
        if one != many:
            raise Mismatch(f"vary {options}\n--- one worker\n{one}\n--- more\n{many}")
        return one[0]

    def vary(self, text, loops, loop, variant, options):
        varied = edited(text, variant)
        what = f"{loop['name']} on {variant}"
        if (varied is None) != variant["limit"]:
            raise Mismatch(f"{what}: whether it passes a limit")
        if varied is not None:
            self.agree(what, variant["ii"], self.interval(varied, loops, loop["name"], options))
        as_it_is, there = loop["ii"], variant["ii"]
        change = None if there is None else "new" if as_it_is is None else "same" if there == as_it_is else "shorter" if there < as_it_is else "longer"
        if change != variant["change"]:
            raise Mismatch(f"{what}: the change is {change}")

    def fewest(self, dice, text, loops, loop, options):
        machine = tomllib.loads(text)
        for number in {loop["registers"], *(dice.randint(1, loop["registers"]) for _ in range(2))}:
            machine["registers"] = number
            found = self.interval(text_of(machine), loops, loop["name"], options)
            if (found == loop["ii"]) != (number == loop["registers"]):
                raise Mismatch(f"{loop['name']} has the interval {loop['ii']} with {loop['registers']} registers at least, and with {number} {found}")

    def agree(self, what, said, found):
        self.compared += 1
        if said != found:
            raise Mismatch(f"{what}: vary tells {said}, and schedule {found}")
