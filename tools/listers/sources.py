"""The sources as the lists read them: crates, and the definitions and imports of their files.

They are read as text and not as the checker reads them. A definition is what stands at the left end
of a file of specs or proofs, or at the left end of a module in it, and has a type; its block is its
type and its equations. The name of a local value counts as a use of what has that name."""
import functools
import os
import re

TOP = os.path.dirname(os.path.dirname(os.path.dirname(os.path.abspath(__file__))))

USE = re.compile(r"\s*(?:ghost )?((?:unfoldable )?pub )?use (Rattle\.[\w.-]+?)"
                 r"(?:\.\{([^{}]*)\}| as (\w+))?;?\s*$")
HEAD = re.compile(r"( *)((?:unfoldable |abbrev |pub )*)(?:(?:record|data) (\S+)\b|(\S+) :(?: |$))")
USING = re.compile(r"\b(\w+)::(specs|proofs)((?:::\w+)+)::([^\s:,()\[\]]+)")
WORD = re.compile(r"[^\s(){}\[\],;.\"`]+")
NO_NAMES = {"use", "module", "where", "let", "in", "--", "unfolding", "infixl", "infixr", "pub"}


def read(path):
    """A file's text."""
    with open(path, encoding="utf-8") as file:
        return file.read()


def uncommented(line):
    """A line of definitions or proofs without its comment."""
    return re.sub(r"(^|\s)--(\s.*|$)", "", line)


def words(text):
    """The words of a text that can be names; an operator `◌+◌` is also the word `+`."""
    found = set(WORD.findall(text))
    return found | {"◌%s◌" % word for word in found}


class Import:
    """A line that imports names of a module, or a module as a whole (`names` is None then)."""

    def __init__(self, line, match):
        self.line, self.module, self.is_passed_on = line, match.group(2), match.group(1) is not None
        self.alias = match.group(4)
        self.names = None
        if match.group(3) is not None:
            pairs = [name.split(" as ") for name in match.group(3).split(", ")]
            self.names = {pair[-1].strip(): pair[0].strip() for pair in pairs}


def imports(text):
    """The imports of a file of specs or proofs, or of the clauses of a file of code."""
    matches = ((line, USE.match(row)) for line, row in enumerate(text.split("\n"), 1))
    return [Import(line, match) for line, match in matches if match]


def named(crate, text):
    """What attributes of code name for the prover, as `using(crate::proofs::Laws::law)`: modules
    with a name there."""
    for first, part, inner, name in USING.findall(text):
        first = crate if first == "crate" else first
        yield "Rattle.%s.%s%s" % (first, part, inner.replace("::", ".")), name


class Definition:
    """A definition or a lemma: where it stands, and its block."""

    def __init__(self, file, name, line, is_public):
        self.file, self.name, self.line, self.is_public = file, name, line, is_public
        self.lines = []

    def __str__(self):
        return "%s:%d %s" % (self.file.path, self.line, self.name)

    def __lt__(self, other):
        return (self.file.path, self.line) < (other.file.path, other.line)

    @functools.cached_property
    def text(self):
        """Its type and its equations, without comments."""
        return "\n".join(self.lines)

    @functools.cached_property
    def words(self):
        """The words of its type and its equations."""
        return words(self.text)

    @property
    def length(self):
        """Its lines, without empty ones and comments."""
        return sum(1 for line in self.lines if line.strip())


def depth_of(line):
    """How far a line is set in."""
    return len(line) - len(line.lstrip(" "))


class Blocks:
    """The definitions of a file, in their order. An equation is of the definition whose name it
    begins with, other lines are of the one before; what the head of a module says, of all."""

    def __init__(self, file, text):
        self.file, self.found, self.current, self.heads = file, {}, None, []
        self.levels, self.is_in_head = [0], False
        rows = [(number, uncommented(row)) for number, row in enumerate(text.split("\n"), 1)]
        rows = [(number, row) for number, row in rows if row.strip() and not USE.match(row)]
        for (number, row), (_, after) in zip(rows, rows[1:] + [(0, "")]):
            self.take(number, row, after)

    def take(self, number, row, after):
        """Takes a line, beside the one that follows it."""
        depth = depth_of(row)
        if not self.is_in_head:
            self.levels = [level for level in self.levels if level <= depth] or [0]
        at_level = depth == self.levels[-1]
        if self.is_in_head or at_level and row.startswith("module ", depth):
            self.heads.append(row)
            self.is_in_head = not row.endswith("where")
            if not self.is_in_head:
                self.levels.append(depth_of(after))
            return
        if at_level:
            self.begin(number, row, after)
        if self.current is not None:
            self.current.lines.append(row)

    def begin(self, number, row, after):
        """Finds of which definition a line is that stands where definitions begin."""
        if after.strip().startswith(": ") and len(row.replace("pub ", "").split()) == 1:
            row += " :"
        head = HEAD.match(row)
        name = head and (head.group(3) or head.group(4))
        if name and name not in NO_NAMES:
            made = Definition(self.file, name, number, "pub" in head.group(2))
            self.current = self.found.setdefault(name, made)
        else:
            self.current = self.found.get(row.split()[0], self.current)


class File:
    """A file of specs, proofs or src: its crate, part and module, what it imports and defines."""

    def __init__(self, crate, crates, path):
        self.crate, self.path = crate, os.path.relpath(path, crates)
        self.text = read(path)
        self.part, _, inner = self.path.partition("/")[2].partition("/")
        self.name = os.path.splitext(inner)[0].replace("/", ".")
        self.module = "Rattle.%s.%s.%s" % (crate, self.part, self.name)
        self.imports = imports(self.text)
        self.is_code = path.endswith(".rt")
        # a file in a folder of proofs answers goals of the code, and the checker reads its names
        self.is_answer = self.part == "proofs" and "." in self.name
        blocks = Blocks(self, "" if self.is_code or self.name == "Lib" else self.text)
        self.definitions, self.heads = list(blocks.found.values()), words("\n".join(blocks.heads))

    @functools.cached_property
    def words(self):
        """The words of the file beside its imports."""
        rows = (uncommented(row) for row in self.text.split("\n") if not USE.match(row))
        return words("\n".join(rows))


class Crate:
    """A crate: what crates.txt lists behind it, and its files."""

    def __init__(self, crates, name, line, stands_on):
        self.name, self.line, self.stands_on = name, line, stands_on
        self.files = [File(name, crates, path) for path in paths(os.path.join(crates, name))]
        self.passes_on = {}
        for file in self.files:
            if file.name == "Lib" and not file.is_code:
                for one in file.imports:
                    if one.is_passed_on and one.names is None:
                        name = one.alias or one.module.split(".")[-1]
                        self.passes_on[file.part, name] = one.module


def paths(crate):
    """The paths of the sources in a crate's folder."""
    for part in ("src", "specs", "proofs"):
        for folder, inner, names in os.walk(os.path.join(crate, part)):
            inner.sort()
            yield from (os.path.join(folder, name) for name in sorted(names)
                        if name.endswith((".rt", ".antt")))


class Sources:
    """All crates of crates.txt."""

    def __init__(self, top=TOP):
        self.crates, folder = {}, os.path.join(top, "crates")
        for line, row in enumerate(read(os.path.join(top, "crates.txt")).split("\n"), 1):
            name, _, below = row.split("#")[0].partition(":")
            if name.split():
                name = name.split()[0]
                self.crates[name] = Crate(folder, name, line, below.split())
        self.modules = {file.module: file for file in self.files() if not file.is_code}

    def files(self):
        """All files of all crates."""
        return [file for crate in self.crates.values() for file in crate.files]

    def own(self, module):
        """A module by its name in its own crate."""
        parts = module.split(".")
        if len(parts) < 4 or parts[1] not in self.crates:
            return module
        passed = self.crates[parts[1]].passes_on.get((parts[2], parts[3]))
        return self.own(".".join([passed, *parts[4:]])) if passed else module

    def origin(self, module, name):
        """Where a name of a module is defined: its module and its name there."""
        module = self.own(module)
        file = self.modules.get(module)
        for one in file.imports if file else []:
            if one.is_passed_on and one.names and name in one.names:
                return self.origin(one.module, one.names[name])
        return module, name

    @functools.cached_property
    def defined(self):
        """Each definition by its module and its name."""
        return {(file.module, one.name): one for file in self.files() for one in file.definitions}

    def there(self, names):
        """The definitions that some modules with names there mean."""
        origins = (self.origin(module, name) for module, name in names)
        return {self.defined[one] for one in origins if one in self.defined}
