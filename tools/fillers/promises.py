"""What the crates promise.

Behind a line `<!-- promises: CRATE .. -->` of the page stands an item for each of these crates:
what its root file says that it promises, what the root says is only tested of it, and then what
the page says more of it, which is written by hand. Each crate is in one such line, but for those
that promise nothing, which may be in none."""
import re

from crates import listed
from pages import Fault
from roots import END, promise, tested
from widths import wrapped_block

MARK = re.compile(r"<!-- promises: ([\w ]+) -->")
ITEM = re.compile(r"- `(\w+)` promises (.*)")


def joined(lines):
    """The items of a list, each as one text."""
    found = []
    for line in lines:
        if line.startswith("- "):
            found.append(line)
        elif line.strip() and found:
            found[-1] += " " + line.strip()
    return found


def more(lines):
    """By crates what items say beside what is filled."""
    found = {}
    for item in joined(lines):
        parts = ITEM.fullmatch(item)
        if not parts:
            raise Fault("an item is of no crate: %s" % item)
        texts = END.split(parts.group(2))[1:]
        if texts and texts[0].startswith("Only tested: "):
            del texts[0]
        if parts.group(1) in found:
            raise Fault("%s has two items" % parts.group(1))
        found[parts.group(1)] = texts
    return found


def cut(page):
    """The page as parts: a line, or the crates of a mark and the lines of its items."""
    parts, skips = [], False
    for line in page.split("\n"):
        mark = MARK.fullmatch(line)
        if mark:
            parts.append((mark.group(1).split(), []))
        elif skips and (not line.strip() or line[:2] in ("- ", "  ")):
            parts[-1][1].append(line)
            continue
        else:
            parts.append(line)
        skips = mark is not None
    return parts


def check(crates):
    """Each crate that promises something is there once."""
    known = set(listed().stands_on)
    for crate in sorted(set(crates) - known):
        raise Fault("%s is no crate" % crate)
    for crate in sorted(known):
        least = 0 if promise(crate).startswith("nothing") else 1
        if not least <= crates.count(crate) <= 1:
            raise Fault("%s is behind %d marks" % (crate, crates.count(crate)))


def filled(page, _):
    """A page with what the roots promise."""
    parts, out = cut(page), []
    items = more([line for part in parts if not isinstance(part, str) for line in part[1]])
    crates = [crate for part in parts if not isinstance(part, str) for crate in part[0]]
    check(crates)
    for crate in sorted(set(items) - set(crates)):
        raise Fault("%s has an item behind no mark" % crate)
    for part in parts:
        if isinstance(part, str):
            out.append(part)
            continue
        out += ["<!-- promises: %s -->" % " ".join(part[0]), ""]
        for crate in part[0]:
            texts = [promise(crate), *tested(crate), *items.get(crate, [])]
            out += wrapped_block(["- `%s` promises %s" % (crate, " ".join(texts))])
        out.append("")
    return "\n".join(out)
