"""The crates by rooms, and the crates of laws.

Behind a line `<!-- room: CRATE .. -->` of the page stands a line for each of these crates: the first
sentence of its root file. Each crate of crates.txt is in one room. Behind the line
`<!-- crates of laws -->` stand those whose functions have no body: they are laws alone."""
import glob
import re
import textwrap

from crates import listed
from pages import Fault
from roots import purpose, source

ROOM = re.compile(r"<!-- room: ([\w ]+) -->")
LAWS = "<!-- crates of laws -->"
FUNCTION = re.compile(r"^\s*(?:pub )?fn \w+.*?(\{\}|\{|;)$", re.MULTILINE | re.DOTALL)


def is_law(crate):
    """Whether no function of a crate has a body."""
    for path in glob.glob(source(crate, "**/*.rt"), recursive=True):
        with open(path, encoding="utf-8") as file:
            if set(FUNCTION.findall(file.read())) - {"{}"}:
                return False
    return True


def wrapped(text, indent=""):
    return textwrap.wrap(text, 100, initial_indent=indent, subsequent_indent="  " if indent else "",
                         break_long_words=False, break_on_hyphens=False)


def room(crates):
    lines = []
    for crate in crates:
        lines += wrapped("`%s`: %s" % (crate, purpose(crate)), "- ")
    return lines


def check_rooms(rooms):
    """Each crate is in one room."""
    there, known = [crate for crates in rooms for crate in crates], set(listed().stands_on)
    for crate in sorted(known ^ set(there)):
        raise Fault("%s is %s" % (crate, "in no room" if crate in known else "no crate"))
    for crate in there:
        if there.count(crate) > 1:
            raise Fault("%s is in two rooms" % crate)


def filled(page, _):
    """A page with what the roots say of the crates."""
    out, skips, rooms = [], False, []
    for line in page.split("\n"):
        mark = ROOM.fullmatch(line)
        if mark or line == LAWS:
            if mark:
                rooms.append(mark.group(1).split())
                lines = room(rooms[-1])
            else:
                lines = wrapped(", ".join("`%s`" % crate for crate in sorted(listed().stands_on)
                                          if is_law(crate)) + ".")
            out += [line, "", *lines, ""]
            skips = True
        elif skips and (not line.strip() or line[:2] in ("- ", "  ") or line.startswith("`tm_")):
            continue
        else:
            skips = False
            out.append(line)
    check_rooms(rooms)
    return "\n".join(out)
