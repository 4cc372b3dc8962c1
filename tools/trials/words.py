"""Tries the words that tell of plays on bad input.

Plays a case of view/cases, and calls each word in copies of its folder in which something is wrong:
a file is missing, empty, a folder, a pipe without an end, cut, binary, of another play, or too
long; the words are faulty; standard output is full or closed; the program isn't there or is another
one. With --count so many files more are damaged at random places. Each call has to end within 60
seconds, with one of the statuses of its word, with one line on standard error where it isn't done,
and with all files as they were."""
import os
import random
import shutil
import subprocess
import sys
import tempfile

from calls import TOP, Tally, call, read, write

LINES = (["why"], ["why", "--short"], ["suggest"], ["tree"], ["curve"], ["unused"], ["shapes"],
         ["compare", "."], ["check"])
INPUTS = ("profile", "exception_policy", "domain_policy", "manager", "trace", "edits", "schedule")
STORED = ("run", "profile.new", "exception_policy.new", "domain_policy.new", "manager.new")
DONE = {"why": (0, 2), "suggest": (0, 2), "compare": (0, 2), "check": (0, 5, 6)}
REFUSED = (1, 10, 65, 66, 70)
FAULTY = (["why", "x"], ["why", "0"], ["why", "-1"], ["why", "9" * 30], ["why", "1", "1", "\u0663"],
          ["why", "12"], ["suggest", "x"], ["tree", "--png"], ["tree", "x", "y"], ["curve", "1"],
          ["unused", "-"], ["shapes", "x"], ["compare"], ["compare", "nowhere"],
          ["check", "domain_policy"], ["whi"], [], ["help", "me"])
PUT = [b"99999999999999999999", b"-1", b"x", b" ", b"\n", b"<", b"\\"]


def add_words(parser):
    parser.add_argument("--count", type=int, default=0)
    parser.add_argument("--seed", type=int, default=1)


def told(folder):
    """What is in a folder: what isn't a file by its kind alone."""
    found = {}
    for name in sorted(os.listdir(folder)):
        path = os.path.join(folder, name)
        found[name] = read(path) if os.path.isfile(path) else os.path.isdir(path)
    return found


def fault_of(line, ended):
    """What is wrong with how a call ended, or None."""
    if ended.status == "late":
        return ended.line()
    is_done = ended.status in DONE.get(line[0] if line else "", (0,))
    if not is_done and ended.status not in REFUSED:
        return "status %d: %s" % (ended.status, ended.line())
    if not is_done and (ended.said.count(b"\n") != 1 or not ended.said.startswith(b"tomoyo: ")):
        return "not one line is said: %s" % ended.line()
    return None


class Tried:
    """The calls in copies of a folder."""

    def __init__(self, program, base):
        self.program = program
        self.base = base
        self.tally = Tally()

    def call(self, what, line, damage, program=None, stdout=subprocess.DEVNULL, **more):
        """One call in a copy of the folder that `damage` has changed."""
        with tempfile.TemporaryDirectory() as room:
            folder = os.path.join(room, "here")
            shutil.copytree(self.base, folder)
            damage(folder)
            before = told(folder)
            ended = call([sys.executable, "-I", "-B", os.path.join(TOP, "view"), *line], folder,
                         stdout=stdout, **more,
                         env=dict(os.environ, TOMOYO_RUN=program or self.program))
            fault = fault_of(line, ended)
            if not fault and before != told(folder):
                fault = "files are changed"
        self.tally.count(ended.status, "%s, %s" % (" ".join(line), what), fault)

    def words(self, what, damage, **more):
        for line in LINES:
            self.call(what, line, damage, **more)


def replaced(name, text):
    """Gives a file other bytes."""
    def damage(folder):
        write(os.path.join(folder, name), text)
    return damage


def removed(name):
    def damage(folder):
        os.remove(os.path.join(folder, name))
    return damage


def made(name, make):
    """Puts something that is no file in a file's place."""
    def damage(folder):
        os.remove(os.path.join(folder, name))
        make(os.path.join(folder, name))
    return damage


def keep(_):
    """Nothing is wrong with the files."""


def sparse(path):
    with open(path, "wb") as file:
        file.truncate(1 << 30)


def damaged(draw, text):
    """A text with a place damaged."""
    at = draw.randrange(len(text) + 1)
    kind = draw.randrange(5)
    if kind == 0:
        return text[:at] + bytes([draw.randrange(256)]) + text[at + 1:]
    if kind == 1:
        return text[:at] + text[at + draw.randrange(1, 9):]
    if kind == 2:
        return text[:at] + draw.choice(PUT) + text[at:]
    lines = text.splitlines(keepends=True) or [b""]
    place = draw.randrange(len(lines))
    if kind == 3:
        del lines[place]
    else:
        lines.insert(draw.randrange(len(lines)), lines[place])
    return b"".join(lines)


def try_files(tried, other):
    """Each file in turn is wrong in each way."""
    for name in INPUTS + STORED:
        text = read(os.path.join(tried.base, name))
        tried.words("%s missing" % name, removed(name))
        tried.words("%s a folder" % name, made(name, os.mkdir))
        for kind, bad in (("empty", b""), ("cut", text[:len(text) // 2]), ("zeros", bytes(5000)),
                          ("binary", bytes(range(256)) * 9), ("other", read_other(other, name))):
            tried.words("%s %s" % (name, kind), replaced(name, bad))
    for name in ("run", "trace", "domain_policy.new"):
        tried.words("%s a pipe" % name, made(name, os.mkfifo))
        tried.words("%s endless" % name, made(name, lambda path: os.symlink("/dev/zero", path)))
        tried.words("%s too long" % name, made(name, sparse))


def read_other(folder, name):
    path = os.path.join(folder, name)
    return read(path) if os.path.isfile(path) else b""


def try_calls(tried):
    """The files are right, and the call is wrong."""
    tried.words("all right", keep)
    for line in FAULTY:
        tried.call("faulty words", line, keep)
    with open("/dev/full", "wb") as full:
        tried.words("full standard output", keep, stdout=full)
    tried.words("closed standard output", keep, preexec_fn=lambda: os.close(1))
    for program in ("/nonexistent", "/bin/false", "/bin/true", "/bin/cat", TOP):
        tried.words("the program is %s" % program, keep, program=program)


def play(program, case, folder):
    """A case, played in a folder."""
    shutil.copytree(os.path.join(TOP, "view", "cases", case), folder)
    os.remove(os.path.join(folder, "session"))
    subprocess.run([program, "-C", folder, "step"], stdout=subprocess.DEVNULL, check=True)


def run(words):
    draw = random.Random(words.seed)
    with tempfile.TemporaryDirectory() as work:
        base, other = os.path.join(work, "edits"), os.path.join(work, "names")
        play(words.program, "edits", base)
        play(words.program, "names", other)
        tried = Tried(words.program, base)
        try_calls(tried)
        try_files(tried, other)
        for number in range(words.count):
            name = draw.choice(INPUTS + STORED)
            text = damaged(draw, read(os.path.join(base, name)))
            tried.words("%s damaged, number %d" % (name, number), replaced(name, text))
    return tried.tally.tell("calls")
