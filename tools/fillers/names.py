"""Names of definitions, functions and laws, which are there.

A name `CRATE: MODULE` or `CRATE: MODULE.NAME` in brackets is of `crates/CRATE/specs/MODULE.antt`, as
are `MODULE` and `MODULE.NAME` up to the next one with a crate. Behind *By* a name `CRATE::NAME` is a
function or a type of that crate, as are `NAME` and `TYPE::NAME` up to the next one with a crate."""
import functools
import glob
import os
import re

from pages import Fault, TOP

PART = re.compile(r"\((`\w+:\s[^()]*)\)")
NAME = re.compile(r"`([^`]+)`")


@functools.cache
def code(crate):
    """The code of a crate as one text; a law is a function of it."""
    found = []
    for path in sorted(glob.glob(os.path.join(TOP, "crates", crate, "src", "*.rt"))):
        with open(path, encoding="utf-8") as file:
            found.append(file.read())
    return "\n".join(found)


def defines(crate, name):
    """Whether a module of a crate, or a definition in it, is there."""
    module, _, inner = name.partition(".")
    path = os.path.join(TOP, "crates", crate, "specs", module + ".antt")
    if not os.path.isfile(path):
        return False
    with open(path, encoding="utf-8") as file:
        return not inner or re.search(r"pub (record |data )?%s\b" % inner, file.read()) is not None


def carries(crate, name):
    """Whether a function, a type or a law of a crate is there."""
    return re.search(r"\b(fn|struct|enum|trait) %s\b" % re.escape(name.split("::")[-1]),
                     code(crate)) is not None


def faults(part):
    """The names of a part in brackets that aren't there."""
    defined, _, carried = part.partition("*By*")
    crate = None
    for name in NAME.findall(" ".join(defined.split())):
        if ": " in name:
            crate, name = name.split(": ")
        if crate and "_" not in name.split(".")[0] and not defines(crate, name):
            yield "%s: %s" % (crate, name)
    for name in NAME.findall(carried):
        first, _, rest = name.partition("::")
        if os.path.isdir(os.path.join(TOP, "crates", first)):
            crate, name = first, rest
        if not carries(crate, name):
            yield "%s::%s" % (crate, name)


def filled(page, _):
    """The page as it is, whose names are there."""
    wrong = [fault for part in PART.findall(page) for fault in faults(part)]
    if wrong:
        raise Fault("these names aren't there: %s" % ", ".join(wrong))
    return page
