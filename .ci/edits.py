"""Tries wrong edits of proved crates. Each changes what a function does, and the prover has to refuse that function.

The proof of a function rests on its own body and on the contracts of what it calls, and never on the bodies of these. So edits of different functions of a
crate are tried together, in one copy of the crate. There all other functions keep their contracts and lose their bodies, so that the prover has nothing
to do for them. Each edit is judged by what the prover says of the function that it changes: a function that is refused for its own sake has a goal that
is not proved. Where it is refused only because one that it calls is, nothing is known of its edit. `control_all` asks for the same functions without
their edits: there none may be refused for its own sake.

A check of edits begins once a processor has nothing to do. Beside as many proofs as there are processors an edit would take three times as long.
"""
import contextlib
import os
import re
import shutil
import signal
import subprocess
import sys
import tempfile
import threading
import time
from concurrent.futures import ThreadPoolExecutor

sys.path.insert(0, os.path.dirname(os.path.realpath(__file__)))
from processes import below, idle_processors, processes  # noqa: E402

# The most edits that are tried together, for the memory that a check takes.
MOST = 16
# In bytes: what a check takes at most.
NEED = 3_000_000_000
# In seconds of a processor. (A batch takes one to two minutes.)
LIMIT = 600
# The checks that run, and whether all are to end. One begins at a time.
checks, is_stopped, beginning = set(), threading.Event(), threading.Lock()
# What is told of a proof that names something which the edit took away.
NAMES = re.compile(r"has no field|is not in scope|has no `|was not admitted")


class BadEdit(Exception):
    """Why an edit cannot be tried."""


class Stopped(Exception):
    """All checks are to end."""


class Edit:
    """An edit of a crate: which texts of which files it changes, and in which functions they stand."""

    def __init__(self, crate, path):
        self.crate, self.path, self.name, self.pairs, self.functions = crate, path, os.path.basename(path), [], []
        file, old = "", ""
        with open(path, encoding="utf-8") as lines:
            for line in lines.read().split("\n"):
                if line.startswith("file: "):
                    file = line[len("file: ") :].strip()
                elif line.startswith("old: "):
                    old = line[len("old: ") :]
                elif line.startswith("new:"):
                    self.pairs.append((file, old, line[len("new:") :].removeprefix(" ")))
        self.find_functions()

    def find_functions(self):
        """Finds the functions in which the texts stand; None is one that stands in no function."""
        texts = {}
        for file, old, new in self.pairs:
            text = texts.get(file) or read_if_there(f"crates/{self.crate}/{file}")
            if not old or text.count(old) != 1:
                continue
            texts[file] = text.replace(old, new)
            function = function_at(self.crate, file, text, text.index(old)) if file.startswith("src/") else None
            if function not in self.functions:
                self.functions.append(function)

    def changed(self, texts):
        """The texts of the files that it changes, where these files have these texts, or those of the crate; or None where it can't be applied."""
        found = {}
        for file, old, new in self.pairs:
            text = found.get(file) or texts.get(file) or read_if_there(f"crates/{self.crate}/{file}")
            if not old or text.count(old) != 1:
                return None
            found[file] = text.replace(old, new)
        return found

    def apply(self, top):
        for file, old, new in self.pairs:
            text = read_if_there(f"{top}/{file}")
            if not old or text.count(old) != 1:
                raise BadEdit(f"its old text is in {file} {text.count(old)} times, and not once")
            write(f"{top}/{file}", text.replace(old, new))
        if not self.pairs:
            raise BadEdit("it has no lines old: and new:")


def read(path):
    with open(path, encoding="utf-8") as file:
        return file.read()


def read_if_there(path):
    """The text of a file, or an empty one. (An edit may name a file that is gone. That is told of this edit, and the others are tried.)"""
    return read(path) if os.path.isfile(path) else ""


def write(path, text):
    with open(path, "w", encoding="utf-8") as file:
        file.write(text)


def module_of(file):
    """The path of the module that a file of src/ is."""
    module = file[len("src/") :].removesuffix(".rt").split("/")
    return [] if module in (["lib"], ["main"]) else module


def function_at(crate, file, text, at):
    """The name, below the crate, of the function in which an offset of a laid out file stands, as the prover tells it, or None."""
    # (to the end of the line in which the offset stands, which may be the function's head)
    head, module = (text[:at] + text[at:].partition("\n")[0]).split("\n"), module_of(file)
    name, holder = None, []
    for line in reversed(head):
        found = re.match(r"( *)(?:pub(?:\([^)]*\))? )?(?:const )?(?:unsafe )?(?:extern \"C\" )?fn (\w+)", line)
        if name is None and line.startswith("}") and line != head[-1]:
            return None
        if name is None and found:
            name = found[2]
            if not found[1]:
                break
        elif name is not None and re.match(r"(?:pub(?:\([^)]*\))? )?(?:impl|trait)\b", line):
            holder = [holder_of(line)]
            # (the methods of a type stand below the type, wherever they are written)
            module = module if " for " in line else home_of(crate, holder[0], file)
            break
    return name and "::".join([*module, *holder, name])


def home_of(crate, name, file):
    """The module in which a type or a trait of the crate is declared: that of this file, if there is none."""
    for at, _, files in sorted(os.walk(f"crates/{crate}/src")):
        for it in sorted(files):
            if it.endswith(".rt") and re.search(rf"(?m)^(?:pub(?:\([^)]*\))? )?(?:struct|enum|trait) {name}\b", read(f"{at}/{it}")):
                return module_of(os.path.relpath(f"{at}/{it}", f"crates/{crate}"))
    return module_of(file)


def holder_of(line):
    """The name that the prover gives to the type or the trait of a line `impl ..` or `trait ..`: for a trait of a type both names, the type first."""
    line = re.sub(r"\A(?:pub(?:\([^)]*\))? )?(?:impl|trait)\s*", "", line)
    trait, _, type_ = after_parameters(line).partition(" for ")
    if not type_:
        return names_in(trait)[0]
    base, arguments = trait.partition("<")[::2]
    # (of the arguments the names alone, without theirs)
    arguments = [names_in(it) for it in re.sub(r"<[^<>]*>", "", arguments.rpartition(">")[0]).split(",")]
    return names_in(type_)[0] + names_in(base)[0] + "".join(it[0] for it in arguments if it)


def after_parameters(line):
    """The rest of a line after the type parameters with which it begins, if it does."""
    depth = 0
    for at, letter in enumerate(line):
        depth += (letter == "<") - (letter == ">")
        if not depth:
            return line[at + 1 :].strip() if at else line
    return line


def names_in(text):
    """The names in a text, without the modules that they stand in and without lifetimes."""
    text = re.sub(r"'\w+,?\s*|\b(?:dyn|mut)\b", "", text.partition(" where")[0])
    return re.findall(r"(\w+)(?=[<>,\s{:&]|\Z)(?!::)", text)


class Library:
    """The libraries that `rt ci` built, and the words by which the prover checks a copy of a crate over them."""

    def __init__(self, kit, lines, uses, rlib):
        self.kit, self.lines, self.uses, self.rlib = kit, lines, uses, rlib

    def below(self, name, found=None):
        found = [] if found is None else found
        for it in self.uses[name]:
            self.below(it, found)
            if it not in found:
                found.append(it)
        return found

    def is_there(self, name):
        return all(os.path.isdir(self.rlib(it)) for it in self.below(name))

    def words(self, name, functions, kept):
        """Those that check a copy of a crate, or only these functions of it. It takes from the folder `kept` what earlier checks of the crate left there."""
        words = [*self.words_of("check", name), "--jobs", "1", *(["--incremental", kept] if kept else [])]
        return words + [it for function in functions for it in ("--only", function)]

    def build_words(self, name, archive):
        """Those that prove a crate which is a library for C, and make its archive."""
        return [*self.words_of("build", name), "--jobs", "2", "--toolchain", f"{self.kit}/toolchain", "--backend", "llvm", "-o", archive]

    def words_of(self, verb, name):
        head, _, deps = self.lines[name].partition(":")
        root = "src/main.rt" if os.path.isfile(f"crates/{name}/src/main.rt") else "src/lib.rt"
        words = [f"{self.kit}/bin/rattle", verb, "--crate-name", name, root]
        for it in ["std", *(it for it in deps.split() if it not in self.uses)]:
            words += ["--extern", f"{it}={self.kit}/rlibs/{it}.rlib"]
        words += ["-L", f"dependency={self.kit}/rlibs"]
        for it in self.uses[name]:
            words += ["--extern", f"{it}={self.rlib(it)}"]
        for it in self.below(name):
            words += ["-L", f"dependency={os.path.dirname(self.rlib(it))}"]
        words += ["--antt-project", f"{self.kit}/rattle/logic/antt-project.json", "--logic-built", f"{self.kit}/logic_built", "--links", f"{name}="]
        return words + (["--crate-type", "staticlib"] if "staticlib" in head.split() else [])


def kit_folder():
    """Where the kit stands, by the path of its first page."""
    said = subprocess.run(["rt", "doc"], stdin=subprocess.DEVNULL, capture_output=True, text=True, check=True).stdout
    return os.path.dirname(said.strip())


def end_of_head(lines, at, indent):
    """The line with which the body of the function begins whose head begins at a line, or None if it has none, or one without a line of its own."""
    depth = 0
    for number in range(at, len(lines)):
        line = lines[number]
        depth += sum(map(line.count, "([{")) - sum(map(line.count, ")]}"))
        if line == f"{indent}{{" or (line.endswith(" {") and line.startswith(indent) and not line.startswith(f"{indent} ")):
            return number
        # (a function without a body, or with one in the line of its head)
        if not line.strip() or (not depth and (line.endswith((";", "{}")) or (number == at and line.endswith("}")))):
            return None
    return None


def cut(crate, top, kept):
    """Takes the bodies and the proofs from the functions of a crate's copy, but for those that are kept, and constant ones, which may be needed to check
    others."""
    for at, _, files in os.walk(f"{top}/src"):
        for it in files:
            if it.endswith(".rt"):
                write(f"{at}/{it}", without_bodies(crate, top, os.path.relpath(f"{at}/{it}", top), kept))


def without_bodies(crate, top, file, kept):
    """The text of a laid out file in which functions have no bodies. Their proofs are removed."""
    text = read(f"{top}/{file}")
    lines, number, offset, found = text.split("\n"), 0, 0, []
    while number < len(lines):
        head = re.match(r"( *)(?:pub(?:\([^)]*\))? )?(?:unsafe )?(?:extern \"C\" )?fn \w+", lines[number])
        start = end_of_head(lines, number, head[1]) if head else None
        end = start is not None and next((it for it in range(start + 1, len(lines)) if lines[it] == f"{head[1]}}}"), None)
        function = function_at(crate, file, text, offset) if end else None
        if not end or function in kept:
            end = number
            found.append(lines[number])
        else:
            found += [*lines[number : start + 1], f"{head[1]}    unreachable!()", lines[end]]
            leave_unproved(crate, f"{top}/proofs", function)
        offset += sum(len(it) + 1 for it in lines[number : end + 1])
        number = end + 1
    return "\n".join(found)


def leave_unproved(crate, proofs, function):
    """Gives a function without a body a proof that is wrong at once. (Where an asked function calls it, the prover is to prove it too, and would search.)"""
    at = f"{proofs}/{function.replace('::', '/')}"
    for it in ("Answers", "Invariants", "Proof"):
        with contextlib.suppress(FileNotFoundError):
            os.remove(f"{at}/{it}.antt")
    os.makedirs(at, exist_ok=True)
    goals, name = f"use Rattle.{crate}.proofs.{function.replace('::', '.')}.Goals as goal", "unreachable-requires"
    write(f"{at}/Answers.antt", f"{goals}\n\npub {name} : goal.{name}\n{name} = tt\n")


def check(library, name, functions, edits, kept, is_cut):
    """What the prover says of these functions in a copy of the crate with these edits, in lines; where it is cut, other functions have no bodies. It takes
    from the folder `kept` what earlier checks of the crate left there."""
    with tempfile.TemporaryDirectory(prefix="edit-") as room:
        for part in ("src", "specs", "proofs"):
            if os.path.isdir(f"crates/{name}/{part}"):
                shutil.copytree(f"crates/{name}/{part}", f"{room}/{part}")
        if is_cut:
            cut(name, room, functions)
        for edit in edits:
            edit.apply(room)
        words = library.words(name, functions, kept)
        status, said = run_beside(words, room)
        if status == -signal.SIGKILL:
            # (most likely for memory)
            status, said = run_beside(words, room)
        if status == -signal.SIGXCPU:
            return ["it took too long"]
        return [with_function(name, room, it) for it in said.rstrip("\n").split("\n")]


def run_beside(words, room):
    """Runs a check in a folder beside other work, once there is a processor and memory for it. Gives its exit status and what it says."""
    words = ["nice", "-n", "19", "prlimit", f"--cpu={LIMIT}:{2 * LIMIT}", *words]
    how = {"cwd": room, "stdin": subprocess.DEVNULL, "stdout": subprocess.PIPE, "stderr": subprocess.STDOUT, "text": True, "errors": "replace"}
    with contextlib.ExitStack() as left:
        with beginning:
            wait_for_room()
            run = left.enter_context(subprocess.Popen(words, **how))
            checks.add(run)
        said = run.communicate()[0]
        checks.discard(run)
    if is_stopped.is_set():
        raise Stopped
    return run.returncode, said


def wait_for_room():
    """Waits until a processor is idle, or no prover runs below this process, and there is the memory that a check takes at most, for half an hour at the
    longest. (In the second in which idle processors are counted, a check that has just begun is already at work.)"""
    until = time.monotonic() + 1800
    while not is_stopped.is_set() and time.monotonic() < until:
        if (idle_processors(1) > 0.7 or not below(os.getpid(), "rattle", processes())) and free_memory() >= NEED:
            break


def with_function(crate, room, line):
    """A note on a place in src/ of a crate's copy, with the function in which that place stands."""
    found = re.match(r"note: (?:\./)?(src/\S+\.rt):(\d+):\d+: (.*)", line)
    if not found:
        return line
    text = read(f"{room}/{found[1]}")
    # (the end of the line, so that the line of a head is in its function)
    at = len("\n".join(text.split("\n")[: int(found[2])]))
    return f"note on {function_at(crate, found[1], text, at)}: {found[3]}"


def is_told(lines):
    """The prover came to its end: it told of all functions that it was asked for."""
    return bool(re.match(r"only=\d+ |logic=", lines[-1]))


def said_of(lines, edit):
    """What the prover says of the functions that an edit changes, and of the closures in them, by their names."""
    said = {}
    for line in lines:
        found = re.match(r"fn ([^: ]+(?:::[^: ]+)*): (.*)", line)
        if found:
            name = found[1].partition("::")[2].replace("fn::", "")
            if any(it is None or name == it or name.startswith(f"{it}::") for it in edit.functions):
                said[name] = found[2]
    return said


def why_refused(lines, said):
    """Why functions are refused for their own sake, in a line, or None; and whether that is only since a proof names something which is gone."""
    folders = tuple(f"proofs/{it.replace('::', '/')}/" for it in said)
    clauses = [it for it in lines if it.startswith(tuple(f"note on {name}: it is not proved" for name in said))]
    errors = [it.removeprefix("./") for it in lines if re.match(r"(?:\./)?proofs/\S+:\d+:\d+: error", it)]
    errors = [it for it in errors if it.startswith(folders)]
    clauses += [it for it in errors if not NAMES.search(it)] + [f"{it}: {said[it]}" for it in said if "`search` did not prove" in said[it]]
    found = (clauses or errors or [None])[0]
    return found and found[:160], not clauses


def judge(lines, edit):
    """Whether the edit is refused, and what to say; or None, where what the function calls is refused and nothing is known of itself."""
    said = said_of(lines, edit)
    why, is_weak = why_refused(lines, said)
    if why:
        note = " (only because a proof file names what the edit took away, so this says little of the contract: change a value and keep the names)"
        return True, f"refused, as it must be{note if is_weak else ''}: {why}"
    if any("could not tell" in it for it in said.values()):
        return False, "NOT REFUSED: the prover could not tell"
    if any("; it calls " in it or it.startswith("no proof: it calls ") for it in said.values()):
        return None
    if not said:
        return False, "BAD EDIT: the prover tells of no such function"
    # (a function of a form that the prover has no proof for is refused, whatever it does)
    told = next((it for it in said.values() if it != "proved"), None)
    return False, f"NOT REFUSED for a goal of its function: {told[:160]}" if told else "NOT REFUSED: its function is still proved"


def first_error(lines):
    return next((it for it in lines if "error" in it), lines[0])[:200]


def ask(library, edits, kept, is_right=False, ways=(True, False)):
    """What the prover says of the functions that these edits change, with the edits or, where all has to be right, without them."""
    functions = [it for edit in edits for it in edit.functions]
    # (a text that stands in no function: then every function is asked for, and none is cut)
    functions = [] if None in functions else list(dict.fromkeys(functions))
    for is_cut in ways if functions else (False,):
        lines = check(library, edits[0].crate, functions, [] if is_right else edits, kept, is_cut)
        if is_told(lines):
            break
    return lines


def try_together(library, edits, kept):
    """Gives for each edit what `judge` gives."""
    try:
        lines = ask(library, edits, kept)
        told = [judge(lines, it) for it in edits] if is_told(lines) else []
        if told == [None]:
            # (then the function may still be proved, which a copy that is cut does not tell)
            told = [judge(ask(library, edits, kept, ways=(False,)), edits[0]) or (False, "NOT REFUSED: only what its function calls is refused")]
    except BadEdit as why:
        lines, told = [str(why)], []
    if told:
        return told
    if len(edits) == 1:
        return [(False, f"BAD EDIT: it did not reach the prover: {first_error(lines)}")]
    half = len(edits) // 2
    return try_together(library, edits[:half], kept) + try_together(library, edits[half:], kept)


def next_batch(edits):
    """The first edits that change different functions and can be applied one after another. (The first edit is one of them, whatever it is.)"""
    batch, taken, texts = [], set(), {}
    for it in edits:
        is_alone = None in it.functions or not it.functions
        changed = it.changed(texts)
        if not batch or (len(batch) < MOST and changed and not is_alone and not taken & set(it.functions)):
            batch.append(it)
            taken |= set(it.functions)
            texts.update(changed or {})
        if batch == [it] and (is_alone or not changed):
            break
    return batch


def try_crate(library, verdicts, edits, tell):
    """Tries the edits of a crate, but for those that are known to be refused. Gives how many are refused."""
    left, is_stuck = [], False
    for it in edits:
        said = verdicts.said(it)
        if said:
            tell(f"must-fail {it.crate}/{it.name}: {said} (it was tried before)")
        else:
            left.append(it)
    refused = len(edits) - len(left)
    with tempfile.TemporaryDirectory(prefix="edits-") as kept:
        while left:
            batch = left[:1] if is_stuck else next_batch(left)
            told = try_together(library, batch, kept)
            settled = [it for it, found in zip(batch, told) if found]
            for edit, found in zip(batch, told):
                if found:
                    tell(f"must-fail {edit.crate}/{edit.name}: {found[1]}")
                    refused += found[0]
                    if found[0]:
                        verdicts.keep(edit, found[1])
            left, is_stuck = [it for it in left if it not in settled], not settled
    return refused


def control_crate(library, edits, tell):
    """Asks for the functions that a crate's edits change, without the edits, and gives of how many edits no function is refused for its own sake."""
    left, well = edits, 0
    with tempfile.TemporaryDirectory(prefix="edits-") as kept:
        while left:
            batch = next_batch(left)
            left = [it for it in left if it not in batch]
            lines = ask(library, batch, kept, is_right=True)
            for edit in batch:
                said = said_of(lines, edit) if is_told(lines) else {}
                why = why_refused(lines, said)[0] if said else first_error(lines)
                well += not why
                tell(f"control {edit.crate}/{edit.name}: " + (f"FAILED: {why}" if why else "its functions are right without it"))
    return well


def free_memory():
    """In bytes."""
    with contextlib.suppress(OSError):
        return 1024 * int(re.search(r"MemAvailable:\s+(\d+)", read("/proc/meminfo"))[1])
    return 1 << 62


def lanes():
    """How many checks run side by side, by processors and by free memory."""
    return max(1, min(len(os.sched_getaffinity(0)), free_memory() // NEED))


def edits_of(crates, *folders):
    """The edits of each crate that has some in its folders of these names."""
    found = {}
    for at in [f"crates/{name}/{folder}" for name in crates for folder in folders]:
        if os.path.isdir(at):
            name = at.split("/")[1]
            found.setdefault(name, []).extend(Edit(name, f"{at}/{it}") for it in sorted(os.listdir(at)) if it.endswith(".edit"))
    return {name: edits for name, edits in found.items() if edits}


def side_by_side(library, found, work):
    """Does some work for each crate, the highest crates first. Gives of each for how many edits it went as it has to, and for how many not."""
    order = sorted(found, key=lambda it: -len(library.below(it)))
    pool = ThreadPoolExecutor(lanes())
    begun = {it: pool.submit(work, found[it]) for it in order}
    try:
        well = {name: it.result() for name, it in begun.items()}
    except BaseException:
        end_all(pool, begun.values())
        raise
    pool.shutdown()
    return {name: (it, len(found[name]) - it) for name, it in well.items()}


def end_all(pool, begun):
    """Ends all checks, and the work that would go on to the next ones."""
    is_stopped.set()
    pool.shutdown(wait=False, cancel_futures=True)
    while any(it.running() for it in begun):
        for it in [*checks]:
            it.kill()
        time.sleep(0.1)


def try_all(library, verdicts, found, tell):
    """Tries the edits of several crates. Gives of each how many were refused, and how many not."""
    return side_by_side(library, found, lambda edits: try_crate(library, verdicts, edits, tell))


class Trials:
    """Edits that are tried while crates are still being proved."""

    def __init__(self, library, verdicts, found, tell):
        self.library, self.verdicts, self.left, self.tell, self.begun = library, verdicts, dict(found), tell, {}
        self.pool = ThreadPoolExecutor(lanes())

    def begin(self, name):
        """Begins to try the edits of a crate, if it has some, where the libraries that it stands on are built."""
        if name in self.left and self.library.is_there(name):
            edits = self.left.pop(name)
            self.begun[name] = len(edits), self.pool.submit(try_crate, self.library, self.verdicts, edits, self.tell)

    def end(self):
        """Gives, once those that were begun are tried, of each crate how many edits were refused and how many not."""
        refused = {name: (count, run.result()) for name, (count, run) in self.begun.items()}
        return {name: (well, count - well) for name, (count, well) in refused.items()}

    def stop(self):
        """Ends all checks of edits."""
        end_all(self.pool, [run for _, run in self.begun.values()])


def control_all(library, found, tell):
    """Gives of each crate for how many edits the functions are right without them, and for how many not."""
    return side_by_side(library, found, lambda edits: control_crate(library, edits, tell))
