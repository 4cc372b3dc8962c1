"""What the trials share: the files of plays, calls of the program, and the count of its ends."""
import collections
import os
import subprocess
from typing import NamedTuple

TOP = os.path.dirname(os.path.dirname(os.path.dirname(os.path.abspath(__file__))))
PROGRAM = os.path.join(TOP, "crates", "tomoyo_run", "out", "tomoyo_run")

# What a play reads and stores, each in its order.
INPUTS = ("profile", "exception_policy", "domain_policy", "manager", "trace", "edits", "answers",
          "schedule")
SCRIPTS = INPUTS[5:]
STORED = ("run", "audit", "profile.new", "exception_policy.new", "domain_policy.new",
          "manager.new", "run2", "audit2")

NO_MEMORY, NO_WRITE = 11, 10


def read(path):
    with open(path, "rb") as file:
        return file.read()


def write(path, text):
    with open(path, "wb") as file:
        file.write(text)


def files_of(folder, names=None):
    """The files of a folder by their names, or those of them that are named."""
    found = {}
    for name in sorted(os.listdir(folder)) if names is None else names:
        path = os.path.join(folder, name)
        if os.path.isfile(path):
            found[name] = read(path)
    return found


def lay(folder, files):
    """Writes these files into a folder."""
    for name, text in files.items():
        write(os.path.join(folder, name), text)


class Ended(NamedTuple):
    """How a call ended: its status, or "late", and what it has put and said."""
    status: object
    put: bytes
    said: bytes

    def line(self):
        """What was said, as a text for a report."""
        return self.said.decode("utf-8", "replace").strip()[-300:]


def call(command, folder, seconds=60, stdout=subprocess.PIPE, **more):
    """One call in a folder, which has to end by itself within these seconds."""
    try:
        ran = subprocess.run(command, cwd=folder, timeout=seconds, check=False, stdout=stdout,
                             stdin=subprocess.DEVNULL, stderr=subprocess.PIPE, **more)
    except subprocess.TimeoutExpired:
        return Ended("late", b"", b"no end within %d s" % seconds)
    return Ended(ran.returncode, ran.stdout or b"", ran.stderr)


class Tally:
    """How many calls ended with each status, and how many didn't keep to what is asked."""

    def __init__(self):
        self.ended = collections.Counter()
        self.bad = 0

    def count(self, status, what, fault):
        """Counts a call; what it didn't keep to is told, where there is something."""
        self.ended[status] += 1
        if fault:
            self.bad += 1
            print("%s: %s" % (what, fault), flush=True)

    def by_status(self):
        counts = sorted(self.ended.items(), key=lambda one: str(one[0]).zfill(4))
        return ", ".join("%d with status %s" % (count, status) for status, count in counts)

    def tell(self, what):
        """Tells the counts, and how many calls were at fault."""
        print("%d %s: %s; %d with a fault" % (self.ended.total(), what, self.by_status(),
                                              self.bad), flush=True)
        return self.bad
