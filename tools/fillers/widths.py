"""Texts of at most 100 columns.

A paragraph or an item with a wider line is filled anew; code, headings and comments stay as they
are. A table that is wider can only be told."""
import re
import textwrap

from pages import Fault

WIDTH = 100
ITEM = re.compile(r"(\s*)(- |\d+\. )(.*)")
MARKS = re.compile(r" (?=([-+*>|]|#+|\d+[.)])( |$))")


def kept(span):
    """A code span whose blanks are no places to break at, unless it is long."""
    text = span.group(0)
    return text.replace(" ", "\0") if len(text) < 60 else text


def wrapped_block(lines):
    """A paragraph or an item, filled anew. Code spans aren't cut, and no line begins with a mark
    that would make it something else."""
    item = ITEM.match(lines[0])
    first = item.group(1) + item.group(2) if item else ""
    text = " ".join(line.strip() for line in ([item.group(3)] if item else lines[:1]) + lines[1:])
    text = MARKS.sub("\0", re.sub(r"`[^`]+`", kept, text))
    made = textwrap.wrap(text, WIDTH, initial_indent=first, subsequent_indent=" " * len(first),
                         break_long_words=False, break_on_hyphens=False)
    return [line.replace("\0", " ") for line in made]


def kinds(lines):
    """Each line with its kind: `as it is`, `table`, or the number of the paragraph or item that it
    is of."""
    found, number, is_fenced, is_inside = [], 0, False, False
    for line in lines:
        is_fence = line.startswith("```")
        is_fenced ^= is_fence
        is_code = line.startswith("    ") and not is_inside
        if is_fence or is_fenced or is_code or not line.strip() or line.startswith(("#", "<!--")):
            found.append("as it is")
        elif line.startswith("|"):
            found.append("table")
        else:
            number += not is_inside or ITEM.match(line) is not None
            found.append(number)
        is_inside = isinstance(found[-1], int)
    return found


def wrapped_lines(lines):
    """The lines of a page, with the texts filled anew that have a line that is too wide."""
    out, at, there = [], 0, kinds(lines)
    while at < len(lines):
        end = at + 1
        while isinstance(there[at], int) and end < len(lines) and there[end] == there[at]:
            end += 1
        block = lines[at:end]
        wide = isinstance(there[at], int) and max(len(line) for line in block) > WIDTH
        out += wrapped_block(block) if wide else block
        at = end
    return out


def filled(page, _):
    """A page with its texts wrapped, which has no other line that is too wide."""
    lines = wrapped_lines(page.split("\n"))
    wide = [number for number, (line, kind) in enumerate(zip(lines, kinds(lines)), 1)
            if len(line) > WIDTH and kind != "as it is"]
    if wide:
        raise Fault("lines that are too wide: %s" % ", ".join(map(str, wide)))
    return "\n".join(lines)
