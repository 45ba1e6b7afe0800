"""What earlier runs on this machine have settled, by a sum of all that it rests on: whatever has the same sum came to the same, and is not done again. An
entry's name is its sum, so that it never goes stale.
"""
import contextlib
import hashlib
import os
import shutil
import subprocess
import tempfile

# The files of a library that differ when only bodies below it differ. What a check of a crate above says doesn't rest on them.
OF_BODIES = {"format", "lang/antt/made.json", "toolchain/checked.a", "toolchain/made.json", "toolchain/mir.json"}
# How many archives are kept, each of which has some MB.
ARCHIVES = 4


def files_below(folder):
    for at, folders, files in os.walk(folder):
        folders.sort()
        yield from (f"{at}/{it}" for it in sorted(files))


def sum_of(parts, folders, left_out=()):
    """A sum of texts, and of the paths and bytes of all files in these folders but those that are left out."""
    found = hashlib.sha256(repr(parts).encode())
    for folder in folders:
        for path in files_below(folder):
            name = os.path.relpath(path, folder)
            if name not in left_out:
                with open(path, "rb") as file:
                    found.update(repr((name, file.read())).encode())
    return found.hexdigest()


def read(path):
    with open(path, encoding="utf-8", errors="replace") as file:
        return file.read()


def kit_version():
    return subprocess.run(["rt", "version"], stdin=subprocess.DEVNULL, capture_output=True, text=True, check=True).stdout


def folder_of(kind):
    return f"{os.environ.get('XDG_CACHE_HOME') or os.path.expanduser('~/.cache')}/modsched/{kind}"


def sources_of(crate):
    return [f"crates/{crate}/{it}" for it in ("src", "specs", "proofs")]


class Verdicts:
    """The edits that were refused."""

    def __init__(self, library, is_anew=False):
        self.library, self.is_anew, self.kit, self.sums, self.at = library, is_anew, kit_version(), {}, folder_of("edits")

    def of_library(self, name):
        if name not in self.sums:
            self.sums[name] = sum_of([name], [self.library.rlib(name)], OF_BODIES)
        return self.sums[name]

    def of_crate(self, name):
        """A sum of what a check of the crate reads, and of how its edits are tried."""
        if (name, "") not in self.sums:
            below = [self.of_library(it) for it in self.library.below(name)]
            how = read(f"{os.path.dirname(os.path.realpath(__file__))}/edits.py")
            self.sums[name, ""] = sum_of([self.kit, how, self.library.lines[name], below], sources_of(name))
        return self.sums[name, ""]

    def place(self, edit):
        return f"{self.at}/{hashlib.sha256(repr((self.of_crate(edit.crate), edit.name, edit.pairs)).encode()).hexdigest()}"

    def said(self, edit):
        """What was said of the edit when it was refused by all the same, or None."""
        with contextlib.suppress(OSError):
            if not self.is_anew:
                return read(self.place(edit))
        return None

    def keep(self, edit, said):
        """Keeps what was said of an edit that is refused. (Where nothing can be kept, it is tried again.)"""
        with contextlib.suppress(OSError):
            os.makedirs(self.at, exist_ok=True)
            with tempfile.NamedTemporaryFile("w", dir=self.at, delete=False, encoding="utf-8") as file:
                file.write(said)
            os.replace(file.name, self.place(edit))


class Archive:
    """The archive of a crate that is a library for C. (To make it, the compiler proves the crate once more.)"""

    def __init__(self, library, name):
        # (what a library's format says holds a sum of the library's files)
        formats = [read(f"{library.rlib(it)}/format") for it in library.below(name)]
        self.at = folder_of("archives")
        self.path = f"{self.at}/{sum_of([kit_version(), library.lines[name], formats], sources_of(name))}"

    def give(self, to):
        """Whether such an archive was made before, which then stands in this file."""
        with contextlib.suppress(OSError):
            shutil.copyfile(self.path, to)
            os.utime(self.path)
            return True
        return False

    def keep(self, made):
        with contextlib.suppress(OSError):
            os.makedirs(self.at, exist_ok=True)
            with tempfile.NamedTemporaryFile(dir=self.at, delete=False) as file:
                shutil.copyfile(made, file.name)
            os.replace(file.name, self.path)
            for it in sorted(os.scandir(self.at), key=lambda it: -it.stat().st_mtime)[ARCHIVES:]:
                os.remove(it.path)
