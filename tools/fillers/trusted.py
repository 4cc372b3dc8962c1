"""The lines of code that no contract describes.

Behind the line `<!-- trusted lines -->` of the page stands a table of these parts of the sources
with their lines: those that have code, without comments, attributes, imports and ghost code."""
import os
import re

from pages import Fault, TOP

MARK = "<!-- trusted lines -->"
NO_CODE = ("//", "#", "use ", "ghost ", "mod ", "ensures", "requires")
READING = ("fn word_at", "fn words_from", "fn folder_at", "fn is_folder_option", "fn read_line")
# The parts: the file, what they are for, and the heads of their items, or none for a whole file.
PARTS = (
    ("crates/tm_io/src/folder.rt", "`Folder`: opens files, and puts drafts in their place", ()),
    ("crates/tomoyo_run/src/main.rt", "the program `tomoyo_run`", ()),
    ("crates/tomoyo_run/src/command_line.rt", "the words of its command line", READING),
    ("crates/tomoyo_trace/src/main.rt", "the program `tomoyo_trace`", ()),
)


def code_of(lines):
    """How many of these lines have code."""
    return sum(bool(line.strip()) and not line.strip().startswith(NO_CODE) for line in lines)


def items(path, lines, heads):
    """The lines of the items with these heads, each up to its closing brace."""
    found = []
    for head in heads:
        begin = next((at for at, line in enumerate(lines)
                      if re.match(r"(pub )?%s" % re.escape(head), line)), None)
        if begin is None:
            raise Fault("%s has no %s" % (path, head))
        end = next(at for at in range(begin, len(lines)) if lines[at] == "}")
        found += lines[begin:end + 1]
    return found


def table():
    """The table of the parts."""
    rows, total = [], 0
    for path, about, heads in PARTS:
        with open(os.path.join(TOP, path), encoding="utf-8") as file:
            lines = file.read().split("\n")
        count = code_of(items(path, lines, heads) if heads else lines)
        total += count
        rows.append("| `%s` | %s | %d |" % (path, about, count))
    return ["| File | What | Lines |", "|---|---|---|", *rows, "| all | | %d |" % total]


def filled(page, _):
    """A page with the table."""
    lines = page.split("\n")
    begin = lines.index(MARK) + 1
    end = next(at for at in range(begin, len(lines))
               if lines[at].strip() and not lines[at].startswith("|"))
    return "\n".join(lines[:begin] + ["", *table(), ""] + lines[end:])
