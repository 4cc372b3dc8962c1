"""usage: tomoyo [-C DIR] tree [--svg]

Draws the domains as a tree, each with its profile in brackets, its
flags, the entries that it has after the play, how many lines it
learned, and how many requests it was asked for, granted and denied.
A domain stands below the longest name that its own begins with.
`--svg` draws the same as a picture for a page.

Reads    domain_policy and domain_policy.new, and where run is there
         run and the other files that the play has read; they have
         to be those of one play
Stores   nothing
Prints   the tree

Exit statuses: 0 done; 1 bad words; 65 the files aren't those of one
play, 66 one is missing or can't be read.
"""
import os
import sys
from collections import Counter

from engine import Engine
from history import Numbered, domains_of, other_files
from picture import picture
from plays import stored_run
from policies import read_domains, stored
from runs import Run
from texts import BAD_WORDS, Stop, read

COLUMNS = ("entries", "learned", "asked", "granted", "denied")


class Row:
    """A domain in the tree: the numbers of its columns, and what stands in front of its name."""

    def __init__(self, name, depth, text):
        self.name = name
        self.depth = depth
        self.text = text
        self.front = ""
        self.numbers = ()


class Counts:
    """How many lines the domains of a run learned, and what they were asked, by their names."""

    def __init__(self, run, names):
        self.learned = Counter(names[int(step.rest[0])] for step in run.steps
                               if (step.kind, step.reply) == ("learn", "added"))
        self.granted = Counter(names[take.before] for take in run.takes if take.is_granted)
        self.denied = Counter(names[take.before] for take in run.takes if not take.is_granted)

    def of(self, name):
        granted, denied = self.granted[name], self.denied[name]
        return self.learned[name], granted + denied, granted, denied

    def names(self):
        return {*self.learned, *self.granted, *self.denied}


def parent_of(name, there):
    """The longest name of a domain that this one's begins with, or an empty one."""
    while name:
        name = name.rpartition(" ")[0]
        if name in there:
            return name
    return ""


def children_by_name(names):
    """The domains right below each, in their order; those below none stand under an empty name."""
    children = {}
    for name in names:
        children.setdefault(parent_of(name, names), []).append(name)
    return children


def rows_of(children, text_of):
    """The rows from above, each with the lines that lead to it."""
    rows, waiting = [], [(name, "", "", "", 0) for name in reversed(children.get("", ()))]
    while waiting:
        name, front, rest, parent, depth = waiting.pop()
        row = Row(name, depth, text_of(name, parent))
        row.front = front
        rows.append(row)
        below = children.get(name, ())
        for place, child in reversed(list(enumerate(below))):
            last = place == len(below) - 1
            waiting.append((child, rest + ("└─ " if last else "├─ "),
                            rest + ("   " if last else "│  "), name, depth + 1))
    return rows


def names_by_number(run, domains):
    """The names of all domains of a run, if the policy that came out has those that are live."""
    numbered = Numbered(domains_of(read("domain_policy")), run.steps)
    numbered.finish()
    live = [domain.name for domain in numbered.domains.live_domains()]
    if live != [domain.name for domain in domains]:
        raise other_files("domain_policy")
    names = [domain.name for domain in numbered.domains.all]
    if any(max(take.before, take.after) >= len(names) for take in run.takes):
        raise other_files("domain_policy")
    return names


def tree():
    """The rows of all domains, those that were deleted in the play too if they were asked."""
    domains = stored("domain_policy.new", read_domains)
    run = stored_run(Engine()) if os.path.exists("run") else Run()
    counts = Counts(run, names_by_number(run, domains))
    by_name = {domain.name: domain for domain in domains}
    names = dict.fromkeys([*by_name, *sorted(counts.names() - by_name.keys())])

    def text_of(name, parent):
        there = by_name.get(name)
        marks = ["[%s]" % there.profile, *there.flags] if there else ["deleted"]
        return " ".join([name[len(parent):].strip(), *marks])

    rows = rows_of(children_by_name(names), text_of)
    for row in rows:
        entries = len(by_name[row.name].entries.order) if row.name in by_name else 0
        row.numbers = (entries, *counts.of(row.name))
    return rows


def main(line):
    if line not in ([], ["--svg"]):
        raise Stop("tree takes --svg alone", BAD_WORDS)
    rows = tree()
    if line:
        sys.stdout.write(picture(rows, COLUMNS))
        return 0
    print(" ".join("%7s" % column for column in COLUMNS) + "  domain")
    for row in rows:
        print(" ".join("%7d" % number for number in row.numbers) + "  " + row.front + row.text)
    return 0
