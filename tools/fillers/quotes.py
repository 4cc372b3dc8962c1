"""Quotes of definitions and of contracts.

Behind a line `<!-- definition: CRATE MODULE NAME -->` of the page stands, indented, what
`crates/CRATE/specs/MODULE.antt` has of NAME: its type and its equations, or its fields, without
`pub` and the words before it. A definition that has moved into a module of that name in another
crate has that crate in its line again. Behind `<!-- contract: CRATE FILE NAME -->` stands what
`crates/CRATE/src/FILE.rt` has of the function NAME without its body. Behind
`<!-- fields: CRATE MODULE NAME -->` stands a table that is written by hand: its first two columns
are the fields of that record and the definition that each cites first, in order."""
import os
import re

from pages import Fault, TOP

MARK = re.compile(r"<!-- (definition|contract|fields): (\S+) (\S+) (\S+) -->")
FIELD = re.compile(r"\s*(\w+) : (\w+)")
ROW = re.compile(r"\| `(\w+)` \| `(\w+)` \|")


def depth_of(line):
    return len(line) - len(line.lstrip())


def lines_of(text, name):
    """The lines of a definition: its head, its equations, and what is indented under them."""
    head = re.compile(r"\s*((?:unfoldable |abbrev )?pub )(record |data )?%s\b" % re.escape(name))
    equation = re.compile(r"\s*%s\b" % re.escape(name))
    found, indent = [], None
    for line in text.split("\n"):
        begins = head.match(line) if indent is None else None
        if begins:
            indent = depth_of(line)
            found.append((begins.group(2) or "") + line[begins.end() - len(name):])
        elif indent is None:
            continue
        elif not line.strip():
            found.append("")
        elif depth_of(line) > indent or depth_of(line) == indent and equation.match(line):
            found.append(re.sub(r"^(\s*)pub ", r"\1", line[indent:]))
        else:
            break
    return found


def quoted(path, name):
    """The lines of a definition as the page quotes them, or none where the file has none."""
    if not os.path.isfile(path):
        return []
    with open(path, encoding="utf-8") as file:
        found = lines_of(file.read(), name)
    while found and not found[-1]:
        found.pop()
    return found


def definition(crate, module, name):
    """The crate of a definition and its lines. One that has left the crate that is named is looked
    for in the module of that name of another one."""
    file = os.path.join("specs", *module.split(".")) + ".antt"
    crates = os.path.join(TOP, "crates")
    there = quoted(os.path.join(crates, crate, file), name)
    if there:
        return crate, there
    found = [(other, quoted(os.path.join(crates, other, file), name))
             for other in sorted(os.listdir(crates))]
    found = [(other, lines) for other, lines in found if lines]
    if len(found) != 1:
        raise Fault("no crate alone has %s of the module %s" % (name, module))
    return found[0]


def contract(crate, file, name):
    """The lines of a public function without its body: its head, and what it asks and ensures."""
    path = os.path.join(TOP, "crates", crate, "src", file + ".rt")
    head, found = re.compile(r"\s*pub fn %s\b" % re.escape(name)), []
    if os.path.isfile(path):
        with open(path, encoding="utf-8") as source:
            for line in source.read().split("\n"):
                if found and line.strip() in ("{", "{}"):
                    return [line[depth_of(found[0]):] for line in found]
                if found or head.match(line):
                    found.append(line)
    raise Fault("crate %s has no function %s in %s" % (crate, name, file))


def check_fields(names, rows):
    """The first columns of a table are the fields of a record."""
    there = [match.groups() for match in map(FIELD.match, definition(*names)[1][1:]) if match]
    told = [match.groups() for match in map(ROW.match, rows) if match]
    if told != there:
        raise Fault("the fields of %s are %s" % (
            names[2], ", ".join("%s %s" % pair for pair in there)))


def rows_behind(lines, at):
    """The table behind a line, whose head has two lines."""
    rows = []
    for line in lines[at + 1:]:
        if line.startswith("|"):
            rows.append(line)
        elif rows:
            break
    return rows[2:]


def filled(page, _):
    """A page with each quote as the sources have it."""
    out, is_quote, lines = [], False, page.split("\n")
    for at, line in enumerate(lines):
        kind, *names = mark.groups() if (mark := MARK.fullmatch(line)) else [None]
        if kind == "fields":
            check_fields(names, rows_behind(lines, at))
        if kind in ("definition", "contract"):
            if kind == "definition":
                names[0], quote = definition(*names)
            else:
                quote = contract(*names)
            out += ["<!-- %s: %s %s %s -->" % (kind, *names), ""]
            out += [("    " + line).rstrip() for line in quote] + [""]
            is_quote = True
        elif not is_quote or line.strip() and not line.startswith("    "):
            is_quote = False
            out.append(line)
    return "\n".join(out)
