"""A second reading of clang's IR, by its text alone: which instructions the loops of a function have."""
from __future__ import annotations

import collections
import re


def _blocks(text: str, function: str) -> dict[str, list[str]]:
    """The lines of each block of a function, by its label."""
    body = re.search(rf"^define [^\n]*@{re.escape(function)}\([^\n]*\{{\n(.*?)^\}}", text, re.M | re.S)[1]
    found: dict[str, list[str]] = {}
    label = "entry"
    for line in body.split("\n"):
        if head := re.match(r"([\w.]+):", line):
            label = head[1]
        elif line.strip():
            found.setdefault(label, []).append(line.strip())
    return found


def _opcode(line: str) -> str:
    """The opcode of a line, of a call the name of what is called without its types."""
    word = re.match(r"(?:%\S+ = )?(?:tail |musttail |notail )?(\w+)", line)[1]
    if word != "call":
        return word
    return re.sub(r"(\.[ipf]\d+\w*)+$", "", re.search(r"@([\w.]+)\(", line)[1])


def loop_opcodes(text: str, function: str, header: str) -> collections.Counter:
    """How often each opcode stands in a loop. A phi that is not at its beginning counts as a select."""
    blocks = _blocks(text, function)
    # (clang writes what is around a loop before it, so that what leads back there is not inside)
    order = list(blocks)
    after = set(order[order.index(header) :])
    to = {label: [it for it in re.findall(r"label %([\w.]+)", lines[-1]) if it in after] for label, lines in blocks.items()}

    def reaches(label: str, seen: frozenset[str]) -> bool:
        return any(it == header or it not in seen and reaches(it, seen | {it}) for it in to[label])

    inside, waiting = set(), [header]
    while waiting:
        label = waiting.pop()
        if label not in inside and reaches(label, frozenset()):
            inside.add(label)
            waiting += to[label]
    counts: collections.Counter = collections.Counter()
    for label in inside:
        for line in blocks[label]:
            opcode = _opcode(line)
            counts["select" if opcode == "phi" and label != header else opcode] += 1
    return counts
