"""Runs a command once for each allocation that it makes, with that allocation refused:
tools/try memory FOLDER COMMAND [--every N]

FOLDER has the input files; each run is in a copy of it. A run with a refused allocation has to end
with status 11, nothing put, and nothing stored or a front of the files whole, or else as the run
without one, with the same files and the same output. --every tries only each N-th allocation.
COMMAND may be several words in one, as 'replay 2'. What a replay stores depends on the order of its
threads, so of its files and its output it is only seen that they are there; and each run has to end
within the seconds given, whoever found no memory. Needs a C compiler for the few lines that refuse
the allocation (tools/trials/refuse.c)."""
import os
import subprocess
import sys
import tempfile

from calls import NO_MEMORY, STORED, call, files_of, lay

REFUSE = os.path.join(os.path.dirname(os.path.abspath(__file__)), "refuse.c")


def add_words(parser):
    parser.add_argument("folder")
    parser.add_argument("command")
    parser.add_argument("--every", type=int, default=1)
    parser.add_argument("--seconds", type=int, default=60)


class Runs:
    """The runs of a command on some files."""

    def __init__(self, words, work):
        self.command = [words.program, *words.command.split()]
        self.files = files_of(words.folder)
        self.seconds = words.seconds
        self.work = work
        self.library = os.path.join(work, "refuse.so")
        subprocess.run(["cc", "-shared", "-fPIC", "-O1", "-o", self.library, REFUSE, "-ldl"],
                       check=True)

    def run(self, refused):
        """How a run ends whose allocation of this number is refused, and the files after it."""
        with tempfile.TemporaryDirectory(dir=self.work) as folder:
            lay(folder, self.files)
            environment = dict(os.environ, LD_PRELOAD=self.library, REFUSE=str(refused),
                               COUNT_TO=os.path.join(self.work, "count"))
            ended = call(self.command, folder, self.seconds, env=environment)
            return ended, files_of(folder)

    def count(self):
        """How many allocations the last run has made."""
        with open(os.path.join(self.work, "count"), encoding="ascii") as file:
            return int(file.read())

    def are_alike(self, one, other):
        """Whether two runs have put and stored the same; of a replay, as many files."""
        if self.command[1] == "replay":
            return set(one[1]) == set(other[1])
        return (one[0].put, one[1]) == (other[0].put, other[1])

    def is_front(self, left, whole):
        """Whether a run has left the inputs as they were, and of what is stored without a refusal
        the first files, whole."""
        stored = [name for name in STORED if name in whole and whole[name] != self.files.get(name)]
        count = sum(name in left and left[name] != self.files.get(name) for name in stored)
        texts = whole if self.command[1] != "replay" else left
        front = {name: texts.get(name) for name in stored[:count]}
        return left == {**self.files, **front}

    def judge(self, one, whole):
        """What a run with a refused allocation is."""
        (status, put, _), left = one
        if status == 0 and self.are_alike(one, whole):
            return "as without a refusal"
        if status == NO_MEMORY and not put and left == self.files:
            return "out of memory with nothing stored"
        if status == NO_MEMORY and not put and self.is_front(left, whole[1]):
            return "out of memory with a front of the files"
        return "otherwise"


def run(words):
    kinds = {}
    with tempfile.TemporaryDirectory() as work:
        runs = Runs(words, work)
        whole = runs.run(-1)
        if whole[0].status != 0:
            sys.exit("the run without a refusal ended with %s: %s" % (whole[0].status,
                                                                     whole[0].line()))
        total = runs.count()
        for number in range(1, total + 1, words.every):
            one = runs.run(number)
            kind = runs.judge(one, whole)
            kinds[kind] = kinds.get(kind, 0) + 1
            if kind == "otherwise":
                print("allocation %d: status %s, %s" % (number, one[0].status, one[0].line()),
                      flush=True)
    print("%d allocations: %s" % (total, ", ".join("%d %s" % (kinds[it], it)
                                                   for it in sorted(kinds))))
    return kinds.get("otherwise", 0)
