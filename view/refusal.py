"""What is said on a terminal below the line of a refusal: the line of the file, and a sentence."""
import os

from history import domains_of
from sentences import LINE, sentence, shortened
from texts import Stop, lines_of, read, words

PREFIX = "tomoyo_run: "


def about_line(name, number, kind):
    """The line of a file that is refused, and what its kind means."""
    lines = lines_of(read(name))
    shown = ["    " + shortened(lines[number - 1])] if 0 < number <= len(lines) else []
    more = ["`tomoyo check` tells all lines that are refused"] if kind.islower() else []
    return shown + [sentence(kind)] + more


def about_words(place, line):
    if place > 0 and line:
        return ["`tomoyo help %s` says which words it takes" % line[0]]
    found = "no command %s; " % line[0] if line else ""
    return [found + "`tomoyo help` lists the commands"]


def about(said, line):
    """What is said below a line of the program that was called with these words."""
    found = LINE.match(said)
    said_words = words(said)
    if found:
        return about_line(found.group(1), int(found.group(2)), found.group(3))
    if said.startswith("bad words at "):
        return about_words(int(said_words[-1]), line)
    if said.endswith(" has no profile"):
        name = domains_of(read("domain_policy")).name(int(said_words[1]))
        return ["the profile of %s isn't defined; `use_profile N` gives it another" % name]
    if said.endswith(" is missing"):
        return ["it is looked for in %s; `-C DIR` names another folder" % os.getcwd()]
    if said.endswith(" is too long"):
        return ["a file has at most 16,777,216 bytes"]
    return []


def main(line):
    said, *called = line
    try:
        found = about(said[len(PREFIX):], called) if said.startswith(PREFIX) else []
    except Stop:
        found = []
    for below in found:
        print(below if below.startswith("    ") else "tomoyo: " + below)
    return 0
