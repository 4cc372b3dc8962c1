"""Replays with threads refused: tools/try threads [FOLDER ..] [--way 'replay 2' ..] [--most N]

Replays the files of each folder (examples/supervisor, generated, learn and debian_boot) in each way,
in a copy of it, with its k-th thread refused, and with that and all later ones refused, for k from 0
to N (16). Each call has to end within the seconds given: with status 0 and a run of which `verify`
says that it is legal, or, where a supervisor stands, with status 11 and nothing stored or put.
Needs a C compiler for the few lines that refuse a thread (tools/trials/refuse_thread.c)."""
import os
import subprocess
import sys
import tempfile

from calls import INPUTS, NO_MEMORY, TOP, Tally, call, files_of, lay

REFUSE = os.path.join(os.path.dirname(os.path.abspath(__file__)), "refuse_thread.c")
FOLDERS = ("supervisor", "generated", "learn", "debian_boot")
WAYS = ["replay %d%s" % (workers, more) for workers in (1, 2, 4, 16)
        for more in ("", " steal", " rerun")]


def add_words(parser):
    parser.add_argument("folder", nargs="*",
                        default=[os.path.join(TOP, "examples", name) for name in FOLDERS])
    parser.add_argument("--way", action="append")
    parser.add_argument("--most", type=int, default=16)
    parser.add_argument("--seconds", type=int, default=60)


class Replays:
    """Replays of some files, with threads refused."""

    def __init__(self, words, work, files):
        self.words = words
        self.work = work
        self.files = files
        self.library = os.path.join(work, "refuse.so")
        subprocess.run(["cc", "-shared", "-fPIC", "-O1", "-o", self.library, REFUSE, "-ldl"],
                       check=True)

    def fault_of(self, ended, folder):
        """What a replay has done that it must not do, or None."""
        if ended.status == NO_MEMORY and "answers" in self.files:
            return None if files_of(folder) == self.files and not ended.put else \
                "something is stored or put"
        if ended.status != 0:
            return "ended with %s: %s" % (ended.status, ended.line())
        verdict = call([self.words.program, "verify"], folder, self.words.seconds)
        return None if verdict.put.startswith(b"legal yes") else verdict.line() or "not legal"

    def run(self, way, **refusal):
        """How a replay ends, and its fault."""
        with tempfile.TemporaryDirectory(dir=self.work) as folder:
            lay(folder, self.files)
            environment = dict(os.environ, LD_PRELOAD=self.library, **refusal,
                               COUNT_TO=os.path.join(self.work, "count"))
            ended = call([self.words.program, *way.split()], folder, self.words.seconds,
                         env=environment)
            return ended, self.fault_of(ended, folder)

    def count(self):
        """How many threads the last replay that ended has asked for."""
        with open(os.path.join(self.work, "count"), encoding="ascii") as file:
            return int(file.read())


def run(words):
    tally = Tally()
    for source in words.folder:
        with tempfile.TemporaryDirectory() as work:
            names = [name for name in INPUTS if os.path.isfile(os.path.join(source, name))]
            replays = Replays(words, work, files_of(source, names))
            for way in words.way or WAYS:
                what = "%s, %s" % (os.path.basename(os.path.normpath(source)), way)
                ended, fault = replays.run(way)
                if fault or ended.status != 0:
                    sys.exit("%s: without a refusal: %s" % (what, fault or ended.line()))
                print("%s: %d threads" % (what, replays.count()), flush=True)
                for name in ("REFUSE", "REFUSE_FROM"):
                    for place in range(words.most + 1):
                        ended, fault = replays.run(way, **{name: str(place)})
                        tally.count(ended.status, "%s, %s=%d" % (what, name, place), fault)
    return tally.tell("calls")
