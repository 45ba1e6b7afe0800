"""What the sources below crates/ say of definitions: the definitions of specs/ with their comments, the types and traits that are
declared in src/, the contracts of functions, and which names each of them uses. Names are told by their tokens and imports; nothing is
parsed beyond that."""
import os
import re
from dataclasses import dataclass, field

WORD = re.compile(r"(?<![\w.«])(\w+)((?:\.\w+)*)")
IMPORT = re.compile(r"^\s*(?:unfoldable )?(pub )?(?:ghost )?use Rattle\.([\w.]+?)(?:\.\{([^}]*)\}| as (\w+))?;?$")
HEAD = re.compile(r"(?:(?:abbrev|unfoldable|opaque|pub|record|data)\s+)+(\w+)")


def unlinked(line):
    """A line of a comment of src/ without its links: these name items of the code, which a page has not."""
    return re.sub(r"\[([^\]]+)\]\([\w:]+\)", r"\1", line) if line.lstrip().startswith("///") else line


@dataclass
class Definition:
    """A definition of specs/, or a type or trait of src/: its text with its comments, and the names that its text uses."""

    module: str
    name: str
    path: str
    line: int
    text: list = field(default_factory=list)
    uses: set = field(default_factory=set)


@dataclass
class Clauses:
    """What is said of a function, or of a type by a ghost item: whether users of the crate see it, and the names that it uses."""

    crate: str
    path: str
    owner: str
    name: str
    is_public: bool
    kind: str
    uses: set = field(default_factory=set)


def read(path):
    with open(path, encoding="utf-8") as it:
        return it.read()


def files(root, ending):
    for at, folders, names in os.walk(root):
        folders[:] = sorted(it for it in folders if it != "out")
        yield from (f"{at}/{it}" for it in sorted(names) if it.endswith(ending))


def bare(text, comment):
    """The text without strings and comments."""
    return re.sub(r'"(?:\\.|[^"\\\n])*"|' + comment + r"[^\n]*", " ", text)


def words(text):
    """The names of a text, each with what comes after its dots: a field, or a name of a module."""
    return {(it[1], it[2][1:]) for it in WORD.finditer(text)}


class Imports:
    """What the names of a file mean: names of other modules, and modules by another name."""

    def __init__(self, lines):
        self.names, self.modules, self.handed_on = {}, {}, []
        for found in filter(None, map(IMPORT.match, lines)):
            module, names, alias = found[2], found[3], found[4]
            if names is None:
                self.modules[alias or module.split(".")[-1]] = module
                if found[1]:
                    self.handed_on.append((module, None))
                continue
            for name in names.split(","):
                there, _, here = name.strip().partition(" as ")
                self.names[here or there] = (module, there)
                if found[1]:
                    self.handed_on.append((module, there))


class Sources:
    def __init__(self, root="crates"):
        self.root = root
        self.definitions, self.imports, self.makers = {}, {}, {}
        self.types, self.clauses, self.paths, self.lost = {}, [], {}, set()
        self.crates = set(os.listdir(root))
        for crate in sorted(self.crates):
            # (a type's functions may stand in another file than the type)
            code = [self.read_code(crate, it) for it in files(f"{root}/{crate}/src", ".rt") if not re.search(r"/tests(\.rt|/)", it)]
            for it in code:
                self.read_contracts(*it)
            for path in files(f"{root}/{crate}/specs", ".antt"):
                self.read_specs(crate, path)

    # Definitions of specs/.

    def read_specs(self, crate, path):
        module = path[len(self.root) + 1 : -len(".antt")].replace("/", ".")
        lines = read(path).split("\n")
        self.imports[module], self.paths[module] = Imports(lines), path
        comment, current, is_mutual = [], None, False
        for number, line in enumerate(lines, 1):
            if not line.strip():
                comment = []
            elif line.startswith("--"):
                comment.append(line)
            elif IMPORT.match(line) or re.match(r"(pub )?mod ", line):
                comment = []
            elif line == "abbrev mutual":
                is_mutual = True
            else:
                is_mutual = is_mutual and line.startswith(" ")
                head = HEAD.match(line.strip() if is_mutual else line)
                if head:
                    current = self.definitions.setdefault((module, head[1]), Definition(module, head[1], path, number))
                    current.text += comment
                    comment = []
                current.text.append(line[2:] if is_mutual else line)
        for key, it in list(self.definitions.items()):
            if key[0] == module:
                text = bare("\n".join(it.text), "--")
                it.uses = words(text)
                if re.match(r"(pub )?data ", text.strip()):
                    self.makers.update({(module, name): key for name in re.findall(r"(?m)^\s+(?:pub )?(\w+)\s*:", text)})

    # Types, traits and contracts of src/.

    def read_code(self, crate, path):
        text = read(path)
        lines = text.split("\n")
        place = re.sub(r"^src\.|\.rt$", "", os.path.relpath(path, f"{self.root}/{crate}").replace("/", "."))
        module = f"{crate}.specs.declared" + ("" if place in ("lib", "main") else f".{place}")
        self.imports[module], self.paths[module] = Imports(lines), path
        plain = "\n".join(re.sub(r'"(?:\\.|[^"\\])*"', '""', re.sub(r"(^|\s)//.*", r"\1", it)) for it in lines)
        self.read_types(crate, module, path, lines, plain)
        self.read_models(module, plain)
        return crate, module, path, plain

    def read_types(self, crate, module, path, lines, plain):
        for number, line in enumerate(plain.split("\n"), 1):
            found = re.match(r"(pub |pub\(crate\) )?(struct|enum|trait|type|const) (\w+)", line)
            if not found:
                continue
            first, last = number - 1, number - 1
            while first and lines[first - 1].startswith(("///", "#[")):
                first -= 1
            if not line.rstrip().endswith((";", "}")):
                while not (lines[last].endswith(";") if found[2] in ("type", "const") else lines[last] == "}"):
                    last += 1
            item = [unlinked(it) for it in lines[first : last + 1] if not it.startswith("#[")]
            code = "\n".join(plain.split("\n")[number - 1 : last + 1])
            if found[2] == "enum":
                code = re.sub(r"(?m)^    \w+", "", code)
            it = Definition(module, found[3], path, number, item, words(code))
            self.definitions[(module, found[3])] = it
            self.types.setdefault(found[3], []).append((crate, module, found[1] == "pub "))
            if found[2] == "enum":
                names = re.findall(r"(?m)^    (\w+)(?:\(|,| \{|$)", "\n".join(plain.split("\n")[number:last]))
                self.makers.update({(f"{module}.{found[3]}.TheVariants", name): (module, found[3]) for name in names})

    def read_models(self, module, plain):
        """A type with a model is seen as the value of its model."""
        for found in re.finditer(r"(?m)^impl(?:<[^\n]*?>)? Model for (\w+)[^\n]*\{\n(.*?)^\}", plain, re.S | re.M):
            it = self.definitions.get((module, found[1]))
            value = re.search(r"ghost Value = \{(.*?)\};", found[2], re.S)
            if it and value:
                comments = [line for line in it.text if line.startswith("///")]
                head = re.split(r"[({;]", it.text[len(comments)])[0].rstrip()
                it.text = [*comments, f"{head}: seen as {value[1].strip()}"]
                it.uses = words(value[1])

    def read_contracts(self, crate, module, path, plain):
        blocks = [(it.start(), it[0]) for it in re.finditer(r"(?m)^(?:pub |pub\(crate\) )?(?:impl|trait)\b[^\n]*", plain)]

        def owner_at(place):
            head = ""
            for start, text in blocks:
                if start < place and "\n}" not in plain[start:place]:
                    head = text
            return head

        for found in re.finditer(r"(?m)^( *)(pub |pub\(crate\) )?(?:const |extern \S+ )?fn (\w+)", plain):
            owner, is_public = self.owner(crate, module, owner_at(found.start()), found[2])
            clauses = "\n".join(text for _, text in contract(plain, found.end()))
            signature = re.split(r"\b(?:requires|ensures)\b", plain[found.end() : found.end() + 2000])[0]
            self.add(crate, path, owner, found[3], is_public, "fn", clauses, signature)
        for found in re.finditer(r"(?m)^( *)ghost (\w+)(?:: | = )\{", plain):
            owner, is_public = self.owner(crate, module, owner_at(found.start()), None)
            is_inside = found[2] in ("view", "inverse", "invariant", "Value")
            self.add(crate, path, owner, found[2], is_public and not is_inside, "ghost", braced(plain, found.end() - 1), "")

    def owner(self, crate, module, head, visibility):
        """The type or trait that a function belongs to, and whether users see the function."""
        found = re.match(r"(pub |pub\(crate\) )?trait (\w+)", head)
        if found:
            return found[2], found[1] == "pub " and self.is_handed_out(crate, found[2])
        if not head:
            return "", visibility == "pub "
        found = re.match(r"impl(?:<.*?>)? (?:(?:\w+::)*(\w+)(?:<[^\n]*>)? for )?(\w+)", head)
        is_pub = any(of == crate and is_public for of, _, is_public in self.types.get(found[2], []))
        is_seen = visibility == "pub " if found[1] is None else self.is_handed_out(crate, found[1])
        return found[2], is_pub and is_seen

    def is_handed_out(self, crate, name):
        """Whether users of a crate can name this trait: one of another crate, or one that the crate's root hands out."""
        if not any(re.search(rf"(?m)^pub trait {name}\b", read(it)) for it in files(f"{self.root}/{crate}/src", ".rt")):
            return True
        root = read(f"{self.root}/{crate}/src/lib.rt")
        return any(name in re.findall(r"\w+", it) for it in re.findall(r"(?m)^pub (?:use [^;]*;|trait \w+)", root))

    def add(self, crate, path, owner, name, is_public, kind, text, signature):
        parameters = re.match(r"<.*?>(?=\()", signature, re.S)
        bounds = re.findall(r"(?:: |\+ )(\w+)", parameters[0]) if parameters else []
        self.clauses.append(Clauses(crate, path, owner, name, is_public, kind, words(text) | {(it, "") for it in bounds}))

    def add_contract(self, crate, name):
        """Makes the contract of a function of src/ a definition of its own, called NAME(): its comment, its head and its clauses."""
        found = [it for it in self.clauses if it.crate == crate and it.name == name and it.kind == "fn" and not it.owner]
        for it in found:
            lines = read(it.path).split("\n")
            start = next(at for at, line in enumerate(lines) if re.match(rf"(?:pub(?:\([^)]*\))? )?fn {name}\b", line))
            first = start
            while lines[first - 1].startswith("///"):
                first -= 1
            end = next(at for at in range(start, len(lines)) if lines[at] in ("{", "{}") or lines[at].endswith(" {") and not re.match(r"\s+(requires|ensures)", lines[at]))
            text = lines[first:end] if lines[end] in ("{", "{}") else [*lines[first:end], lines[end][:-2]]
            module = self.module_of(it.path)
            self.definitions[(module, f"{name}()")] = Definition(module, f"{name}()", it.path, start + 1, text, it.uses)

    def across(self):
        """What a crate's files, proofs too, take from the specs/ of other crates: the place, the module and the definition, for each name."""
        for crate in sorted(self.crates):
            for path in [*files(f"{self.root}/{crate}/src", ".rt"), *(it for folder in ("specs", "proofs") for it in files(f"{self.root}/{crate}/{folder}", ".antt"))]:
                for number, line in enumerate(read(path).split("\n"), 1):
                    found = IMPORT.match(line) if "use Rattle." in line else None
                    if found and ".specs" in found[2] and found[2].split(".")[0] in self.crates - {crate}:
                        names = [it.strip().partition(" as ")[0] for it in (found[3] or "").split(",")]
                        yield f"{path}:{number}", found[2], {self.find(found[2], it) for it in names} - {None}

    def library(self, keys):
        """The words of the library that these definitions use, without operators."""
        found = set()
        for key in keys:
            it = self.definitions[key]
            names = self.imports[it.module].names
            found |= {name for name, _ in it.uses if name in names and names[name][0].split(".")[0] not in self.crates}
        return {it for it in found if "◌" not in it}

    # What names mean.

    def module_of(self, path):
        """The module of a file of src/."""
        return next(module for module, it in self.paths.items() if it == path)

    def find(self, module, name, seen=()):
        """The definition that a name of a module means, if it is one of ours."""
        module = module.removesuffix(".TheConstants")
        if module in seen:
            return None
        if (module, name) in self.definitions:
            return module, name
        if (module, name) in self.makers:
            return self.makers[(module, name)]
        parts = module.split(".")
        if parts[-1] == name and (".".join(parts[:-1]), name) in self.definitions:
            return ".".join(parts[:-1]), name
        for there, names in self.imports[module].handed_on if module in self.imports else []:
            if names == name or (names is None and there.split(".")[-1] == name):
                return self.find(there, name, (*seen, module))
        if len(parts) > 2 and parts[1] == "specs" and (lib := self.imports.get(f"{parts[0]}.specs.Lib")):
            for there, names in lib.handed_on:
                if names is None and there.split(".")[-1] == parts[2] and there != ".".join(parts[:3]):
                    if found := self.find(".".join([there, *parts[3:]]), name, (*seen, module)):
                        return found
        return None

    def meant(self, module, uses):
        """The definitions that these names mean in a file."""
        imports, found = self.imports[module], set()
        for name, behind in uses:
            if behind and name in imports.modules:
                found.add(self.looked_up(module, imports.modules[name], behind.split(".")[0]))
            if name in imports.names:
                found.add(self.looked_up(module, *imports.names[name]))
            elif (module, name) in self.definitions or (module, name) in self.makers:
                found.add(self.find(module, name))
            elif ".declared" in module and name in self.types:
                found.add(self.type_of(module, name))
        return found - {None}

    def looked_up(self, user, module, name):
        """The definition that a name means. One of ours that is not found is lost: then a list would lack it."""
        found = self.find(module, name)
        if not found and module.split(".")[0] in self.crates:
            self.lost.add(f"{user}: {module}.{name}")
        return found

    def type_of(self, module, name):
        """The type that this name means in a file of src/: of its own crate, or of the only other one that has it."""
        own = [it for it in self.types[name] if it[0] == module.split(".")[0]]
        found = own or [it for it in self.types[name] if it[2]]
        return (found[0][1], name) if len(found) == 1 else None

    def rests_on(self, key):
        it = self.definitions[key]
        return self.meant(it.module, it.uses) - {key}

    def walk(self, roots, known=()):
        """All that the roots rest on, with the roots, without what is known."""
        found, left = set(), [it for it in roots if it not in known]
        while left:
            key = left.pop()
            if key not in found:
                found.add(key)
                left += [it for it in self.rests_on(key) if it not in found and it not in known]
        return found

    def cited(self, clauses):
        """The definitions that these clauses cite."""
        return self.meant(self.module_of(clauses.path), clauses.uses)


def braced(text, start):
    """What stands between the brace at this place and the one that closes it."""
    depth = 0
    for place in range(start, len(text)):
        depth += {"{": 1, "}": -1}.get(text[place], 0)
        if not depth:
            return text[start + 1 : place]
    return text[start:]


def contract(text, start):
    """The clauses of the function whose head goes on at this place."""
    place, depth, last = start, 0, start
    while place < len(text):
        it = text[place]
        depth += {"(": 1, "[": 1, ")": -1, "]": -1}.get(it, 0)
        if it == ";" and not depth:
            return
        if it == "{" and not depth:
            kind = re.search(r"\b(requires|ensures)\b[^{}]*$", text[last:place])
            if not kind:
                return
            inside = braced(text, place)
            yield kind[1], inside
            place += len(inside) + 1
            last = place
        place += 1
