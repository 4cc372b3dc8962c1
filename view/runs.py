"""The stored run of a play: its steps, and the takes with their looks."""
import re
from typing import NamedTuple

from texts import MIXED, Stop, lines_of


UNPRINTED = re.compile(r"[^\n -~]")


class Step(NamedTuple):
    """A step: what became of it, of which kind it is, and what its line says behind that."""
    reply: str
    kind: str
    rest: list


class Look(NamedTuple):
    """A judgement of a request at a version, with the numbers of the steps that it made."""
    version: int
    mode: str
    reason: str
    move: str
    steps: list
    learned: str


class Take:
    """What became of a request: its process, the numbers of its domains, its looks."""

    def __init__(self, number, pid, before, after, is_granted):
        self.number = number
        self.pid = pid
        self.before = before
        self.after = after
        self.is_granted = is_granted
        self.looks = []
        self.is_logged = None

    @property
    def last(self):
        return self.looks[-1]


class Run:
    """The steps by number, of which the first is 1, and the takes in the order of the requests."""

    def __init__(self):
        self.steps = []
        self.takes = []

    def denied(self):
        return [take for take in self.takes if not take.is_granted]

    def read_step(self, fields):
        number, reply, kind = fields[1:4]
        if int(number) != len(self.steps) + 1:
            raise ValueError
        self.steps.append(Step(reply, kind, fields[4:]))

    def read_take(self, fields):
        _, number, pid, before, after, answer = fields
        if int(number) != len(self.takes) + 1 or answer not in ("granted", "denied"):
            raise ValueError
        is_granted = answer == "granted"
        self.takes.append(Take(len(self.takes) + 1, pid, int(before), int(after), is_granted))

    def read_look(self, fields):
        _, version, mode, reason, move, steps, learned = fields
        numbers = [] if steps == "-" else [int(step) for step in steps.split(",")]
        self.takes[-1].looks.append(Look(int(version), mode, reason, move, numbers, learned))

    def read_audit(self, fields):
        self.takes[-1].is_logged = fields[1] != "-"

    def check(self):
        """Each take has a look and an audit line, and what it names is there."""
        for take in self.takes:
            if not take.looks or take.is_logged is None:
                raise ValueError
            for look in take.looks:
                if max([look.version, *look.steps]) > len(self.steps):
                    raise ValueError


def read_run(text):
    """The run of a text, or a Stop at the first line that none has."""
    run = Run()
    readers = {"step": run.read_step, "take": run.read_take, "look": run.read_look,
               "audit": run.read_audit}
    lines = lines_of(text)
    if UNPRINTED.search(text):
        raise Stop("run has bytes that no run has", MIXED)
    for number, line in enumerate(lines, 1):
        fields = line.split(" ")
        try:
            if number > 1:
                readers[fields[0]](fields)
            elif line != "run 1":
                raise ValueError
        except (ValueError, KeyError, IndexError):
            raise Stop("run line %d is none of a run" % number, MIXED) from None
    try:
        run.check()
    except ValueError:
        raise Stop("run isn't whole: play again", MIXED) from None
    if not lines:
        raise Stop("run is empty: play again", MIXED)
    return run
