"""Imports of a definition or of an item of code through another crate than its own.

Where a crate passes on what another one has, whoever stands on it can name that by either. An
import is by a detour where what it imports is of another crate than the one that it names."""

from code import USE


def split(text):
    """The paths of a `use` of code, whose braces are opened: each with its name for this file."""
    text = text.strip()
    brace = text.find("{")
    if brace < 0:
        path, _, name = text.partition(" as ")
        steps = path.split("::")
        return [(steps, name or steps[-1])]
    front = [step for step in text[:brace].split("::") if step]
    inner, depth, parts = text[brace + 1:text.rindex("}")], 0, [""]
    for sign in inner:
        depth += {"{": 1, "}": -1}.get(sign, 0)
        if sign == "," and not depth:
            parts.append("")
        else:
            parts[-1] += sign
    return [(front + steps, front[-1] if steps == ["self"] else name)
            for part in parts if part.strip() for steps, name in split(part)]


class Items:
    """What the modules of code pass on."""

    def __init__(self, sources):
        self.crates, self.passed = sources.crates, {}
        for file in sources.files():
            if file.is_code:
                inner = [] if file.name in ("lib", "main") else file.name.split(".")
                module = (file.crate, *inner)
                for match in USE.finditer(file.text):
                    for steps, name in split(match.group(3)) if match.group(2) == "pub " else ():
                        self.passed[(*module, name)] = self.absolute(file.crate, module, steps)
        self.modules = {(file.crate, *file.name.split(".")) for file in sources.files()
                        if file.is_code}

    def absolute(self, crate, module, steps):
        """A path from its crate on."""
        if steps[0] == "crate":
            return (crate, *steps[1:])
        if steps[0] in ("self", "super"):
            return (*module[:len(module) - (steps[0] == "super")], *steps[1:])
        return tuple(steps) if steps[0] in self.crates else (*module, *steps)

    def origin(self, path):
        """The path of an item in its own crate."""
        seen = set()
        while path not in seen:
            seen.add(path)
            for end in range(2, len(path) + 1):
                if path[:end] in self.passed:
                    path = (*self.passed[path[:end]], *path[end:])
                    break
        return path


def by_code(sources):
    """The detours of code: file, line, what is imported, and what it is by its own crate."""
    items = Items(sources)
    for file in sources.files():
        for match in USE.finditer(file.text) if file.is_code else ():
            for steps, _ in split(match.group(3)):
                origin = items.origin(tuple(steps))
                if steps[0] in sources.crates and origin[0] != steps[0]:
                    line = file.text.count("\n", 0, match.start()) + 1
                    yield file, line, "::".join(steps), "::".join(origin)


def by_definitions(sources):
    """The detours of definitions, lemmas and clauses, likewise. A file that passes names on one by
    one is there to be imported in their place."""
    for file in sources.files():
        for one in file.imports:
            if one.is_passed_on:
                continue
            for name in one.names.values() if one.names else [""]:
                own = sources.own(one.module)
                if own.split(".")[1] != one.module.split(".")[1]:
                    yield (file, one.line, ".".join([one.module, name]).rstrip("."),
                           ".".join([own, name]).rstrip("."))
