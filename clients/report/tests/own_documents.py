"""Documents as `explain --format json` prints them, worked out by hand: what `report.py` joins of three commands, and the keys that it leaves out, since older programs
don't tell of them."""
from __future__ import annotations

import copy
from typing import Any

# The keys that `report.py` leaves out, by the object that they stand in.
OF_LOOP, OF_KERNEL, OF_OPERATION, OF_TRIED = {"set"}, {"figures", "least_possible"}, {"slack"}, {"need"}


def without(it: dict[str, Any], keys: set[str]) -> dict[str, Any]:
    """An object but for some keys."""
    return {key: value for key, value in it.items() if key not in keys}


def joined_of(document: dict[str, Any]) -> dict[str, Any]:
    """What `report.py` makes of the files of a document that the program printed: the same but for these keys."""
    joined = copy.deepcopy(document)
    joined["loops"] = [without(loop, OF_LOOP) for loop in joined["loops"]]
    for loop in joined["loops"]:
        loop["operations"] = [without(it, OF_OPERATION) for it in loop["operations"]]
        loop["tried"] = [without(it, OF_TRIED) for it in loop["tried"]]
        if "kernel" in loop:
            loop["kernel"] = without(loop["kernel"], OF_KERNEL)
    return joined


def edge(source: int, target: int, delay: int, distance: int) -> dict[str, Any]:
    """A dependence through a value."""
    return {"delay": delay, "distance": distance, "from": source, "kind": "value", "to": target}


def operation(name: str, opcode: str, latency: int, height: int, *issue: int) -> dict[str, Any]:
    """An operation; of a loop with a kernel with its time, stage, row and slack."""
    told = {"height": height, "latency": latency, "name": name, "opcode": opcode}
    return told | {"alternative": 0, **dict(zip(("time", "stage", "row", "slack"), issue))} if issue else told


def slot(row: int, unit: int, place: int) -> dict[str, int]:
    """A slot that an operation takes."""
    return {"operation": place, "row": row, "unit": unit}


def value(place: int, first: int, last: int, register: int) -> dict[str, int]:
    """The value of an operation."""
    return {"first": first, "last": last, "operation": place, "register": register}


def unit(name: str, is_full: bool, *places: int) -> dict[str, Any]:
    """A unit that each of some operations uses by one row."""
    return {"full": is_full, "name": name, "users": [{"operation": place, "uses": 1} for place in places], "uses": len(places)}


# The running sum `t = load a[i]`, `s = add s@1 t`, `store b[i] s`: a load takes 3 cycles, all else 1; `load` and `store` need the unit mem, `add` the unit alu.
SUM: dict[str, Any] = {
    "circuit": {"delay": 1, "distance": 1, "edges": [1], "needs": 1},
    "edges": [edge(0, 1, 3, 0), edge(1, 1, 1, 1), edge(1, 2, 1, 0)],
    "mii": 2,
    "recurrences": 1,
    "resources": 2,
    "set": {"need": 2, "rows": 2, "units": ["mem"]},
    "units": [unit("mem", True, 0, 2), unit("alu", False, 1)],
}
# The store is issued in cycle 5 and lands in 6. The load could not be later, since the sum needs it in 3; the sum could be one cycle later, since the store needs it in
# 5 and not in 4. In row 1, cycles 3 and 5, both instances of s and one of t are live: 3 registers are needed, and 3 are enough. The unit alu is held in one of two rows.
ROTATING = SUM | {
    "kernel": {
        "figures": {"cycles": 6, "extra_turns": 2, "need": 3, "percent": [100, 50]},
        "held_by": "units",
        "idle_units": 1,
        "ii": 2,
        "least_possible": True,
        "live": [2, 3],
        "max_live": 3,
        "registers": 8,
        "slots": [slot(0, 0, 0), slot(1, 0, 2), slot(1, 1, 1)],
        "stages": 3,
        "units": ["mem", "alu"],
        "values": [value(0, 3, 3, 0), value(1, 2, 5, 1)],
    },
    "name": "acc",
    "operations": [operation("t", "load", 3, 5, 0, 0, 0, 0), operation("s", "add", 1, 2, 3, 1, 1, 1), operation("b[i]", "store", 1, 1, 5, 2, 1, 0)],
    "tried": [{"interval": 2, "outcome": "kernel", "stages": 3}],
}
# The same with two registers. At the intervals 2 and 3, s lives for 4 cycles, so that in some row two instances of it and t are live. At 4 the loop is issued as before.
FEW = SUM | {
    "kernel": {
        "figures": {"cycles": 6, "extra_turns": 1, "need": 2, "percent": [50, 25]},
        "held_by": "registers",
        "idle_units": 1,
        "ii": 4,
        "least_possible": False,
        "live": [1, 1, 1, 2],
        "max_live": 2,
        "registers": 2,
        "slots": [slot(0, 0, 0), slot(1, 0, 2), slot(3, 1, 1)],
        "stages": 2,
        "units": ["mem", "alu"],
        "values": [value(0, 3, 3, 0), value(1, 4, 7, 0)],
    },
    "name": "few",
    "operations": [operation("t", "load", 3, 5, 0, 0, 0, 0), operation("s", "add", 1, 2, 3, 0, 3, 1), operation("b[i]", "store", 1, 1, 5, 1, 1, 0)],
    "tried": [
        {"first": 2, "interval": 2, "last": 5, "need": 3, "operations": [1], "outcome": "registers"},
        {"first": 3, "interval": 3, "last": 6, "need": 3, "operations": [1], "outcome": "registers"},
        {"interval": 4, "outcome": "kernel", "stages": 2},
    ],
}
# Five sums of parameters on two adders, of which one rests in the last row of three: 5 rows on 2 units. An iteration ends with the last of them, so that all before it could
# be later. Two values at once live in the rows 1 and 2.
FIVE: dict[str, Any] = {
    "circuit": None,
    "edges": [],
    "kernel": {
        "figures": {"cycles": 3, "extra_turns": 0, "need": 2, "percent": [100, 66]},
        "held_by": "units",
        "idle_units": 0,
        "ii": 3,
        "least_possible": True,
        "live": [1, 2, 2],
        "max_live": 2,
        "registers": 8,
        "slots": [slot(0, 0, 0), slot(0, 1, 1), slot(1, 0, 2), slot(1, 1, 3), slot(2, 0, 4)],
        "stages": 1,
        "units": ["alu0", "alu1"],
        "values": [value(0, 1, 1, 0), value(1, 1, 1, 1), value(2, 2, 2, 0), value(3, 2, 2, 1), value(4, 3, 3, 0)],
    },
    "mii": 3,
    "name": "five",
    "operations": [operation(name, "add", 1, 1, time, 0, time, 2 - time) for name, time in zip("vwxyz", (0, 0, 1, 1, 2))],
    "recurrences": 1,
    "resources": 3,
    "set": {"need": 3, "rows": 5, "units": ["alu0", "alu1"]},
    "tried": [{"interval": 3, "outcome": "kernel", "stages": 1}],
    "units": [unit("alu0", True, 0, 2, 4), unit("alu1", False, 1, 3)],
}
# A store of a parameter: no value takes a register, and no circuit needs an interval.
PUT: dict[str, Any] = {
    "circuit": None,
    "edges": [],
    "kernel": {
        "figures": {"cycles": 1, "extra_turns": 0, "need": 1, "percent": [100]},
        "held_by": "one cycle",
        "idle_units": 1,
        "ii": 1,
        "least_possible": True,
        "live": [0],
        "max_live": 0,
        "registers": 8,
        "slots": [slot(0, 0, 0)],
        "stages": 1,
        "units": ["mem"],
        "values": [],
    },
    "mii": 1,
    "name": "put",
    "operations": [operation("b[i]", "store", 1, 1, 0, 0, 0, 0)],
    "recurrences": 1,
    "resources": 1,
    "set": {"need": 1, "rows": 1, "units": ["mem"]},
    "tried": [{"interval": 1, "outcome": "kernel", "stages": 1}],
    "units": [unit("mem", True, 0)],
}
# The running sum with one register, where no interval above the bound may be tried.
NONE = SUM | {
    "cause": "registers",
    "failed_to": 2,
    "name": "none",
    "operations": [operation("t", "load", 3, 5), operation("s", "add", 1, 2), operation("b[i]", "store", 1, 1)],
    "tried": [{"first": 2, "interval": 2, "last": 5, "need": 3, "operations": [1], "outcome": "registers"}],
}
DOCUMENT: dict[str, Any] = {"failed": 1, "loops": [ROTATING, FEW, FIVE, PUT, NONE], "met": 4, "version": 1}
# Numbers of cycles with five digits and of rows with four, the last of each at the end of its axis: no schedule that there is, but what a page has room for.
LATE = PUT | {
    "kernel": PUT["kernel"] | {
        "figures": {"cycles": 64576, "extra_turns": 63, "need": 1, "percent": [0]},
        "held_by": "units",
        "ii": 1009,
        "live": [0] * 1009,
        "slots": [slot(0, 0, 0), slot(1008, 0, 1)],
        "stages": 64,
    },
    "mii": 1009,
    "name": "late",
    "operations": [operation("b[i]", "store", 1, 1, 0, 0, 0, 64575), operation("c[i]", "store", 1, 1, 64575, 63, 1008, 0)],
    "resources": 1009,
    "set": {"need": 1009, "rows": 1009, "units": ["mem"]},
    "tried": [{"interval": 1009, "outcome": "kernel", "stages": 64}],
    "units": [{"full": True, "name": "mem", "users": [{"operation": 0, "uses": 505}, {"operation": 1, "uses": 504}], "uses": 1009}],
}
LATE_DOCUMENT: dict[str, Any] = {"failed": 0, "loops": [LATE], "met": 1, "version": 1}
