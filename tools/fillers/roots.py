"""What the root file of a crate says of it, in the lines `//!` at its top.

Up to the first empty line these are sentences: what the crate is for, what it stands on, why it is
one of its own, what it promises, and what of it is only tested."""
import functools
import os
import re

from pages import Fault, TOP

END = re.compile(r"(?<=\.) (?=[A-Z`*])")


def source(crate, name):
    return os.path.join(TOP, "crates", crate, "src", name)


def lines(crate):
    """The lines of a root file."""
    for name in ("lib.rt", "main.rt"):
        if os.path.isfile(source(crate, name)):
            with open(source(crate, name), encoding="utf-8") as file:
                return file.read().split("\n")
    raise Fault("crate %s has no root file" % crate)


@functools.cache
def sentences(crate):
    """The sentences of a root file."""
    found = []
    for line in lines(crate):
        if not line.startswith("//! "):
            break
        found.append(line[4:])
    return END.split(" ".join(found))


def beginning(crate, word):
    """The sentences that begin with a word."""
    return [text for text in sentences(crate) if text.startswith(word)]


def purpose(crate):
    """What a crate is for."""
    return sentences(crate)[0]


def promise(crate):
    """What a crate promises."""
    for word in ("Stands on ", "Of its own", "Promises "):
        if len(beginning(crate, word)) != 1:
            raise Fault("the root file of %s has no one sentence that begins with %r"
                        % (crate, word.strip()))
    return beginning(crate, "Promises ")[0].partition(" ")[2]


def tested(crate):
    """The sentence on what is only tested, where there is one."""
    found = beginning(crate, "Only tested: ")
    if len(found) > 1:
        raise Fault("the root file of %s says twice what is only tested" % crate)
    return found
