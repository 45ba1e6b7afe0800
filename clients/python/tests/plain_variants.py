"""What variants of a machine bring its loops, by the letter of docs/FORMATS.md ("The text of variants", "The text of totals", "The JSON document of variants"): it has no code in common with
modsched."""
import json
from typing import NamedTuple

from plain_loops import OPCODES, REGISTERS, Machine, Row, Table
from plain_printouts import bounds_of, choice_of, last_line

UNITS, ALTERNATIVES = 64, 8


class Variant(NamedTuple):
    """What is changed: `unit` with a name, `latency` with an opcode and what it is there, or `registers` with how many there are; and the machine, or none where it passes a limit."""
    what: str
    name: str | None
    number: int | None
    machine: Machine | None

    def words(self):
        return {"unit": f"unit {self.name} doubled", "latency": f"latency {self.name} {self.number}", "registers": f"registers {self.number}"}[self.what]


class Result(NamedTuple):
    """What a variant comes to for a loop: the interval there, or none, and how it compares."""
    variant: Variant
    interval: int | None
    change: str | None


class Standing(NamedTuple):
    """A loop with its operations and MII, its interval and the least number of registers for it, or none, and the results of the variants that concern it."""
    loop: object
    least: int
    interval: int | None
    registers: int | None
    results: list


def unit_twice(machine, unit):
    new = f"{unit} twice"
    tables = {}
    for opcode, (latency, alternatives) in machine.tables.items():
        copies = [[Row(new if row.unit == unit else row.unit, row.offset) for row in rows] for rows in alternatives if any(row.unit == unit for row in rows)]
        tables[opcode] = Table(latency, alternatives + copies)
    is_over = len(machine.units) == UNITS or any(len(table.alternatives) > ALTERNATIVES for table in tables.values())
    return None if is_over else Machine(machine.registers, [*machine.units, new], tables)


def variants_of(machine):
    """All variants of a machine, in their order."""
    variants = [Variant("unit", unit, None, unit_twice(machine, unit)) for unit in machine.units]
    for opcode in OPCODES:
        table = machine.tables.get(opcode)
        if table and table.latency > 1:
            tables = machine.tables | {opcode: table._replace(latency=table.latency - 1)}
            variants.append(Variant("latency", opcode, table.latency - 1, machine._replace(tables=tables)))
    now = machine.registers
    numbers = {now // 2, now - 1, now + 1, 2 * now, REGISTERS} - {now}
    return variants + [Variant("registers", None, it, machine._replace(registers=it)) for it in sorted(numbers) if 1 <= it <= REGISTERS]


def concerns(variant, machine, loop):
    opcodes = {statement.opcode for statement in loop.statements}
    if variant.what == "unit":
        return any(row.unit == variant.name for opcode in opcodes for rows in machine.tables[opcode].alternatives for row in rows)
    return variant.what == "registers" or variant.name in opcodes


def interval_with(bounds, registers, ceiling):
    kernel = choice_of(bounds, registers, ceiling).kernel
    return kernel and kernel.interval


def result_of(variant, bounds, interval, ratio, ceiling):
    """What a variant comes to for a loop with these bounds on the machine as it is: other registers change none of the attempts."""
    its = bounds if variant.what == "registers" else variant.machine and bounds_of(variant.machine, bounds.loop, ratio)
    there = its and interval_with(its, variant.machine.registers, ceiling)
    if there is None:
        return Result(variant, None, None)
    if interval is None:
        return Result(variant, there, "new")
    return Result(variant, there, "same" if there == interval else "shorter" if there < interval else "longer")


def standing_of(machine, loop, ratio, ceiling):
    bounds = bounds_of(machine, loop, ratio)
    interval = interval_with(bounds, machine.registers, ceiling)
    fewest = interval and next(number for number in range(1, REGISTERS + 1) if interval_with(bounds, number, ceiling) == interval)
    results = [result_of(variant, bounds, interval, ratio, ceiling) for variant in variants_of(machine) if concerns(variant, machine, loop)]
    return Standing(loop, bounds.least(), interval, fewest, results)


def standings_of(machine, loops, ratio, ceiling):
    return [standing_of(machine, loop, ratio, ceiling) for loop in loops]


def result_words(result):
    if result.variant.machine is None:
        return "-"
    return "failed" if result.interval is None else f"ii {result.interval} {result.change}"


def are_met(standings):
    return [standing.interval is not None for standing in standings]


def vary_lines(standings):
    lines = []
    for standing in standings:
        bounds = f"loop {standing.loop.name} ops {len(standing.loop.statements)} mii {standing.least}"
        lines.append(f"{bounds} failed" if standing.interval is None else f"{bounds} ii {standing.interval} registers {standing.registers}")
        lines += [f"{result.variant.words()} {result_words(result)}" for result in standing.results]
    return lines + [last_line(are_met(standings))]


def sums(intervals):
    return f"ii {sum(it for it in intervals if it is not None)} failed {intervals.count(None)}"


def total_lines(machine, standings):
    lines = [f"total loops {len(standings)} {sums([standing.interval for standing in standings])}"]
    for variant in variants_of(machine):
        there = [next((result for result in standing.results if result.variant.words() == variant.words()), None) for standing in standings]
        if not any(there):
            continue
        if variant.machine is None:
            lines.append(f"{variant.words()} -")
            continue
        pairs = [(standing.interval, result.interval if result else standing.interval) for standing, result in zip(standings, there)]
        # that there is no interval counts as longer than each
        shorter, longer = [sum((one is not None) and (other is None or one < other) for one, other in its) for its in ([(j, i) for i, j in pairs], pairs)]
        lines.append(f"{variant.words()} {sums([interval for _, interval in pairs])} shorter {shorter} longer {longer}")
    return lines + [last_line(are_met(standings))]


def result_object(result):
    variant = result.variant
    number = {variant.what: variant.number}
    return {"change": result.change, "ii": result.interval, "latency": number.get("latency"), "limit": variant.machine is None, "name": variant.name,
            "registers": number.get("registers"), "variant": variant.what}


def document_line(standings):
    met = sum(are_met(standings))
    loops = [{"ii": standing.interval, "mii": standing.least, "name": standing.loop.name, "operations": len(standing.loop.statements), "registers": standing.registers,
              "variants": [result_object(result) for result in standing.results]} for standing in standings]
    return json.dumps({"failed": len(loops) - met, "loops": loops, "met": met, "version": 1}, sort_keys=True, separators=(",", ":"))


def lines_of(machine, loops, ratio, ceiling, is_total, is_document):
    """What `vary` prints, as lines, and whether each loop has a kernel on the machine as it is."""
    standings = standings_of(machine, loops, ratio, ceiling)
    lines = total_lines(machine, standings) if is_total else [document_line(standings)] if is_document else vary_lines(standings)
    return lines, all(are_met(standings))
