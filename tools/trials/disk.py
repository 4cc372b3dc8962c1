"""Runs a command where it can't store: tools/try disk FOLDER COMMAND

FOLDER has the input files. First in a folder whose files can't be written (read-only mount), then
on disks of some sizes that fill up while files are stored (tmpfs), and last with a standard output
that is full. Each run has to end with status 10 and the name of what couldn't be written; the
inputs stay as they were, and what was stored before the failing file is whole, and nothing else is
there. Needs to be root, to mount."""
import contextlib
import os
import re
import subprocess
import sys
import tempfile

from calls import NO_WRITE, Tally, call, files_of, lay

PAGE = 4096
PARTS = 8


def add_words(parser):
    parser.add_argument("folder")
    parser.add_argument("command")


@contextlib.contextmanager
def disk(kib):
    """A disk of so many KiB, for a while."""
    with tempfile.TemporaryDirectory() as place:
        mount = ["mount", "-t", "tmpfs", "-o", "size=%dk" % kib, "tmpfs", place]
        if subprocess.call(mount) != 0:
            sys.exit("can't mount: run this as root")
        try:
            yield place
        finally:
            subprocess.run(["umount", place], check=True)


def kib(files):
    """How many KiB files take, in whole pages."""
    return sum(-(-len(text) // PAGE) for text in files.values()) * PAGE // 1024


def fault_of(ended, place, files, whole):
    """What a call that couldn't write has done that it must not do, or None."""
    if ended.status != NO_WRITE:
        return "ended with %s: %s" % (ended.status, ended.line())
    failed = re.fullmatch(rb"tomoyo_run: can't write (.*)\n", ended.said)
    if not failed:
        return "it doesn't say what it couldn't write: %s" % ended.line()
    left = files_of(place)
    for name in files:
        if left.pop(name, None) != files[name]:
            return "%s was changed" % name
    halves = [name for name in left if left[name] != whole.get(name)]
    return "%s is there and not whole" % halves[0] if halves else None


def run(words):
    files, tally = files_of(words.folder), Tally()
    command = [words.program, *words.command.split()]
    with tempfile.TemporaryDirectory() as place:
        lay(place, files)
        ended = call(command, place)
        whole = files_of(place)
    if ended.status != 0:
        sys.exit("the run with room enough failed: %s" % ended.line())

    def count(what, ended, place):
        tally.count(ended.status, what, fault_of(ended, place, files, whole))
        print("%s: %s" % (what, ended.line()))

    with disk(1 << 16) as place:
        lay(place, files)
        subprocess.run(["mount", "-o", "remount,ro", place], check=True)
        count("read-only folder", call(command, place), place)
    stored = kib({name: text for name, text in whole.items() if name not in files})
    for part in range(PARTS):
        more = stored * part // PARTS
        with disk(kib(files) + more + PAGE // 1024) as place:
            lay(place, files)
            ended = call(command, place)
            if ended.status == 0:
                print("disk with %d KiB: had room enough" % more)
            else:
                count("disk with %d KiB" % more, ended, place)
    with disk(1 << 16) as place, open("/dev/full", "wb") as full:
        lay(place, files)
        count("full standard output", call(command, place, stdout=full), place)
    return tally.tell("runs")
