"""What the script `tomoyo` tells beside what the program prints: view WORD [..]"""
import gc
import importlib
import os
import signal
import sys

from texts import BAD_WORDS, NO_OUTPUT, Stop

WORDS = ("why", "suggest", "tree", "curve", "unused", "shapes", "compare", "check", "trace",
         "help", "refusal")


def main(line):
    if not line or line[0] not in WORDS:
        raise Stop("no such word: %s" % " ".join(line[:1]), BAD_WORDS)
    if sys.stdout is None:
        raise Stop("can't write standard output", NO_OUTPUT)
    sys.stdout.reconfigure(encoding="utf-8")
    status = importlib.import_module(line[0]).main(line[1:])
    sys.stdout.flush()
    return status


def run(line):
    """The exit status of a word, and a line on standard error where it isn't done."""
    try:
        return main(line)
    except Stop as stop:
        said, status = stop.line, stop.status
    except OSError:
        os.dup2(os.open(os.devnull, os.O_WRONLY), 1)
        said, status = "can't write standard output", NO_OUTPUT
    sys.stderr.write("tomoyo: %s\n" % said)
    return status


def end_by(number, _):
    """A signal ends this by an exit, so that folders are removed on the way."""
    sys.exit(128 + number)


if __name__ == "__main__":
    gc.disable()  # a call is short, and makes no rings of things
    signal.signal(signal.SIGPIPE, signal.SIG_DFL)
    for signal_number in (signal.SIGINT, signal.SIGTERM, signal.SIGHUP):
        signal.signal(signal_number, end_by)
    sys.exit(run(sys.argv[1:]))
