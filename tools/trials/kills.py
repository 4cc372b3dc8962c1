"""Kills a command before each event at which it writes:
tools/try kills FOLDER COMMAND

FOLDER has the input files; each run is in a copy of it that has, of each file that the command
stores, an earlier one. The events are: a file is opened to be written, written, waited for until it
is on the disk, renamed, removed or closed; before a write the run is killed once with nothing and
once with half of it written. After each run every file has to be the earlier one, whole, or the new
one, whole, those that are stored before it too the new ones, and beside them there may be one draft;
and the command, run again there, has to store the new files and to leave no other file. COMMAND may
be several words in one, as 'replay 2 rerun', on files that it plays alike however its threads run.
Needs a C compiler for the few lines that kill (tools/trials/kill.c)."""
import os
import re
import subprocess
import sys
import tempfile

from calls import INPUTS, STORED, call, files_of, lay

KILL = os.path.join(os.path.dirname(os.path.abspath(__file__)), "kill.c")
EARLIER = b"an earlier file\n"
DRAFT = re.compile(r".*\.draft\d+")


def add_words(parser):
    parser.add_argument("folder")
    parser.add_argument("command")
    parser.add_argument("--seconds", type=int, default=60)


class Runs:
    """The runs of a command on some files, and what it stores."""

    def __init__(self, words, work):
        self.command = [words.program, *words.command.split()]
        self.seconds = words.seconds
        self.work = work
        self.library = os.path.join(work, "kill.so")
        subprocess.run(["cc", "-shared", "-fPIC", "-O1", "-o", self.library, KILL, "-ldl"],
                       check=True)
        inputs = files_of(words.folder)
        with tempfile.TemporaryDirectory(dir=work) as folder:
            lay(folder, inputs)
            ended = call(self.command, folder, self.seconds)
            self.new = files_of(folder)
        if ended.status != 0:
            sys.exit("the run that isn't killed ended with %s: %s" % (ended.status, ended.line()))
        stored = [name for name in self.new if self.new[name] != inputs.get(name)]
        self.order = [name for name in (*INPUTS, *STORED) if name in stored]
        self.old = {**inputs, **{name: EARLIER for name in stored if name not in inputs}}

    def run(self, folder, number=0, half=False):
        """A run in this folder that is killed before the event of this number, or isn't for 0."""
        environment = dict(os.environ, LD_PRELOAD=self.library, KILL_AT=str(number),
                           HALF=str(int(half)), COUNT_TO=os.path.join(self.work, "count"))
        return call(self.command, folder, self.seconds, env=environment)

    def count(self):
        """How many events a run has that isn't killed."""
        with tempfile.TemporaryDirectory(dir=self.work) as folder:
            lay(folder, self.old)
            self.run(folder)
        with open(os.path.join(self.work, "count"), encoding="ascii") as file:
            return int(file.read())

    def fault_after(self, number, half):
        """What a run that is killed there, or one after it, has left that mustn't be, or None."""
        with tempfile.TemporaryDirectory(dir=self.work) as folder:
            lay(folder, self.old)
            ended = self.run(folder, number, half)
            left = files_of(folder)
            if ended.status != -9:
                return "ended with %s: %s" % (ended.status, ended.line())
            fault = self.fault_of(left)
            if fault:
                return fault
            again = self.run(folder)
            if again.status != 0:
                return "afterwards it ended with %s: %s" % (again.status, again.line())
            drafts = {name: left[name] for name in left if DRAFT.fullmatch(name)}
            if files_of(folder) != {**self.new, **drafts}:
                return "afterwards other files are there"
            return None

    def fault_of(self, left):
        """What of the files that are left mustn't be so, or None."""
        drafts = [name for name in left if DRAFT.fullmatch(name)]
        if len(drafts) > 1:
            return "there are the drafts " + " ".join(drafts)
        names = sorted(set(left) - set(drafts))
        if names != sorted(self.old):
            return "the files are " + " ".join(names)
        for name in names:
            if left[name] not in (self.old[name], self.new[name]):
                return "%s is neither the earlier file nor the new one" % name
        made = [left[name] == self.new[name] for name in self.order]
        if made != sorted(made, reverse=True):
            return "a file is new, and one that is stored before it isn't"
        return None


def run(words):
    faults = 0
    with tempfile.TemporaryDirectory() as work:
        runs = Runs(words, work)
        total = runs.count()
        for number in range(1, total + 1):
            for half in (False, True):
                fault = runs.fault_after(number, half)
                if fault:
                    faults += 1
                    print("killed at event %d%s: %s" % (number, " with half" * half, fault),
                          flush=True)
    print("%s: killed at each of %d events, twice: %d with a fault" % (words.command, total, faults))
    return faults
