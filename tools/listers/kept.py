"""What docs/DECISIONS.md keeps on purpose, though it stands twice or nothing uses it.

The section of that name has each in backticks: `CRATE::NAME` is a function, `CRATE: MODULE` all
definitions of a module of specs or proofs, and `CRATE: MODULE.NAME` one of them. `*` stands for any
part of a name."""
import fnmatch
import os
import re

from sources import TOP, read

NAME = re.compile(r"`([\w*]+(?:::|: )[^`\s]+)`")
HEADING = "## What stands twice or unused on purpose"


def named_in(page):
    """The names of the section of a page."""
    _, _, section = page.partition(HEADING + "\n")
    return NAME.findall(section.partition("\n## ")[0])


class Kept:
    """The names that are kept, and which of them have been met."""

    def __init__(self, names):
        self.names, self.met = names, set()

    def has(self, *forms):
        """Whether something is kept by one of the forms of its name."""
        found = [name for name in self.names
                 if any(fnmatch.fnmatchcase(form, name) for form in forms)]
        self.met.update(found)
        return bool(found)

    def has_definition(self, one):
        """Whether a definition is kept."""
        module = "%s: %s" % (one.file.crate, one.file.name)
        return self.has(module, "%s.%s" % (module, one.name))

    def has_function(self, one):
        """Whether a function is kept."""
        return self.has("%s::%s" % (one.file.crate, one.name))

    def strangers(self):
        """The names that are of nothing in the sources that could be listed."""
        return [name for name in self.names if name not in self.met]


def from_decisions():
    """What the page keeps."""
    return Kept(named_in(read(os.path.join(TOP, "docs", "DECISIONS.md"))))
