"""Which wrong edits a gate tries, by the file .ci/tried in the repository. It has for each crate a sum of what stands in files of the crate's own and in
definitions below it, and the number of the run in which all its edits were last refused. A clause of a function below is no part of that sum. So each run
also tries some of the crates whose sum is the same, in turn.
"""
import contextlib
import hashlib
import os
import tempfile

from kept import kit_version, sources_of, sum_of

# One in so many of all edits is tried in turn by each run.
TURNS = 8
# A crate in its turn has its more-edits tried too, once in so many times.
MORE = 16


class Tried:
    """The file .ci/tried. Each line is 'CRATE SUM RUN'."""

    PATH = ".ci/tried"
    HEAD = "# CRATE SUM RUN: a sum of what the crate's edits rest on, and the number of the run of the gate in which all of them were last refused\n"

    def __init__(self, lines, uses):
        self.lines, self.uses, self.kit, self.known = lines, uses, kit_version(), {}
        with contextlib.suppress(OSError), open(self.PATH, encoding="utf-8") as file:
            found = [it.split() for it in file if not it.startswith("#")]
            self.known = {it[0]: (it[1], int(it[2])) for it in found if len(it) == 3 and it[2].isdigit()}
        self.run = 1 + max((number for _, number in self.known.values()), default=0)
        # (before the run, during which files may be saved)
        self.sums = {name: self.sum_of(name) for name in uses}

    def below(self, name, found):
        for it in self.uses[name]:
            if it not in found:
                found.add(it)
                self.below(it, found)
        return sorted(found)

    def sum_of(self, name):
        own = [*sources_of(name), f"crates/{name}/must-fail"]
        return sum_of([self.kit, self.lines[name]], own + [f"crates/{it}/specs" for it in self.below(name, set())])[:20]

    def is_stale(self, name):
        return self.known.get(name, ("", 0))[0] != self.sums[name]

    def in_turn(self, counts):
        """Of these crates with their counts of edits, those that are not stale and were tried longest ago, up to a part of all edits. Of those that were
        tried at one time, the sums of all decide, so that another tree has others before it."""
        salt = hashlib.sha256(repr(sorted(self.sums.items())).encode()).hexdigest()
        order = sorted((self.known[it][1], hashlib.sha256((salt + it).encode()).hexdigest(), it) for it in counts if not self.is_stale(it))
        taken, left = [], sum(counts.values()) / TURNS
        for _, _, name in order:
            if left > 0:
                taken.append(name)
                left -= counts[name]
        return taken

    def has_more(self, name):
        """Whether the crate's more-edits are tried too, where this run has its turn."""
        return int(hashlib.sha256(f"{name} {self.run}".encode()).hexdigest(), 16) % MORE == 0

    def write(self, refused):
        """Notes that this run has refused all edits of these crates. Crates that are gone go out of the file."""
        known = {**self.known, **{it: (self.sums[it], self.run) for it in refused}}
        text = self.HEAD + "".join(f"{it} {known[it][0]} {known[it][1]}\n" for it in sorted(known) if it in self.uses)
        with tempfile.NamedTemporaryFile("w", dir=os.path.dirname(self.PATH), delete=False, encoding="utf-8") as file:
            file.write(text)
        os.chmod(file.name, 0o644)
        os.replace(file.name, self.PATH)
