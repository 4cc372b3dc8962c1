"""Assertions of the module that tells all refused lines of a policy."""
import random
import unittest
from unittest import mock

import check
from engine import Ended
from history import KERNEL, names_domain
from texts import words


class Policy:
    """The lines of domain_policy as the program takes them; it knows few of them."""

    def __init__(self):
        self.domains = {KERNEL: set()}
        self.chosen = None

    def reply(self, line):
        line_words = words(line)
        if names_domain(line_words):
            return self.choose(line_words[0], line.removeprefix("select ").removeprefix("delete "))
        if line_words[0] == "fil":
            return "bad:keyword"
        if self.chosen is None:
            return "no_domain"
        entries, entry = self.domains[self.chosen], line_words[-1]
        if line_words[0] != "delete":
            entries.add(entry)
        elif entry in entries:
            entries.remove(entry)
        else:
            return "no_line"
        return "done"

    def choose(self, word, name):
        if "bin" in name:
            return "bad:domain"
        if word == "delete":
            if name == KERNEL or name not in self.domains:
                return "bad:kernel_domain" if name == KERNEL else "no_line"
            del self.domains[name]
            self.chosen = None
            return "done"
        if word != "select":
            self.domains.setdefault(name, set())
        self.chosen = name if name in self.domains else None
        return "done" if self.chosen else "no_domain"


class Program:
    """Stands in for the program, and counts its plays and loads."""

    def __init__(self):
        self.plays = self.loads = 0

    def call(self, command, files, _):
        policy = Policy()
        lines = files["domain_policy"].splitlines()
        replies = [policy.reply(line) if line else "done" for line in lines]
        wrong = [number for number, reply in enumerate(replies, 1) if reply != "done"]
        if command == "print":
            self.loads += 1
            said = "domain_policy line %d: %s" % (wrong[0], replies[wrong[0] - 1]) if wrong else ""
            return Ended(check.REFUSED if wrong else 0, said, {})
        self.plays += 1
        assert not wrong, lines
        policy.chosen = None
        edits = [line.partition(" ")[2] for line in files["edits"].splitlines()[1:]]
        steps = ["step %d %s edit 1 domain_policy %s\n" % (number, policy.reply(edit), edit)
                 for number, edit in enumerate(edits, 1)]
        return Ended(0, "", {"run": "run 1\n" + "".join(steps)})


def files_of(lines):
    return {"profile": "", "exception_policy": "", "manager": "",
            "domain_policy": "".join(line + "\n" for line in lines)}


def refused(program, lines, by_edits=True):
    """The replies to the refused lines, by their numbers."""
    refusals = check.Refusals(files_of(lines))
    if by_edits:
        check.refuse_by_edits(program, refusals)
    check.refuse_by_loads(program, refusals)
    return {number: reply for (_, number), reply in refusals.replies.items()}


class Parts(unittest.TestCase):
    """Files that are judged in parts."""

    def test_parts_refuse_what_loads_refuse(self):
        some = random.Random(1)
        names = [KERNEL, KERNEL + " /a", KERNEL + " /b", KERNEL + " bin"]
        for _ in range(1000):
            lines = [some.choice(("", "select ", "delete ")) + some.choice(names)
                     if some.random() < 0.5 else
                     some.choice(("", "", "delete ")) + some.choice(("file read /1", "file read /2"))
                     if some.random() < 0.9 else "fil x" for _ in range(some.randrange(1, 14))]
            for edits in (2, 5):
                with mock.patch.object(check, "EDITS", edits):
                    program = Program()
                    found = refused(program, lines)
                self.assertEqual({number: reply.rpartition(":")[2]
                                  for number, reply in found.items()},
                                 {number: reply.rpartition(":")[2] for number, reply
                                  in refused(Program(), lines, False).items()}, lines)
                self.assertEqual(program.loads, 1, lines)

    def test_a_select_that_is_refused_costs_no_play(self):
        lines = [KERNEL]
        for number in range(30):
            lines += ["select <kernel> /%d" % number, "file read /%d" % number]
        program = Program()
        self.assertEqual(len(refused(program, lines)), 30)
        self.assertEqual((program.plays, program.loads), (1, 1))

    def test_a_part_has_what_its_lines_ask_for(self):
        lines = [KERNEL + " /a", "file read /1", KERNEL + " /b", "file read /2",
                 "select <kernel> /a", "file read /3"]
        passed = check.Passed(check.Refusals(files_of(lines)).left())
        for number, line in enumerate(lines, 1):
            passed.add(check.Line("domain_policy", number, words(line)))
        self.assertEqual(passed.opening()["domain_policy"], [KERNEL, KERNEL + " /a"])
        lines.append("delete file read /2")
        passed = check.Passed(check.Refusals(files_of(lines)).left())
        for number, line in enumerate(lines[:6], 1):
            passed.add(check.Line("domain_policy", number, words(line)))
        self.assertEqual(passed.opening()["domain_policy"],
                         [KERNEL, KERNEL + " /a", "file read /1", "file read /3",
                          KERNEL + " /b", "file read /2"])
