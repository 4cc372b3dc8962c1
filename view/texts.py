"""Texts as lists of lines and words, and the files of the folder that a word works on."""
import os
import re
import stat

WORD = re.compile(r"[!-~]+")

# Exit statuses: faulty words, something is denied, standard output can't be written, files that
# don't belong together, a file that isn't there or can't be read, a program that can't be asked.
BAD_WORDS, DENIED, NO_OUTPUT, MIXED, NO_FILE, NO_PROGRAM = 1, 2, 10, 65, 66, 70

# The bytes of a file that are read at most. What a play stores of the longest trace is less.
LONGEST = 1 << 28


class Stop(Exception):
    """Ends a word with an exit status and a line on standard error."""

    def __init__(self, line, status):
        super().__init__(line)
        self.line = line
        self.status = status


def words(line):
    """The words of a line: bytes 33 to 126, which all other bytes separate."""
    return WORD.findall(line)


def read(name):
    """A file of the folder as a text, a character a byte."""
    try:
        if not stat.S_ISREG(os.stat(name).st_mode):
            raise Stop("%s is no file" % name, NO_FILE)
        with open(name, "rb") as file:
            text = file.read(LONGEST + 1)
    except FileNotFoundError:
        raise Stop("%s is missing%s" % (name, how_made(name)), NO_FILE) from None
    except OSError:
        raise Stop("can't read %s" % name, NO_FILE) from None
    if len(text) > LONGEST:
        raise Stop("%s is too long" % name, NO_FILE)
    return text.decode("latin-1")


def how_made(name):
    """What is said of a file that only a play stores."""
    return ": `tomoyo step` stores it" if name == "run" or name.endswith(".new") else ""


def read_if_there(name):
    """A file of the folder, or an empty text where it isn't there."""
    try:
        return read(name)
    except Stop as stop:
        if isinstance(stop.__context__, FileNotFoundError):
            return ""
        raise


def lines_of(text):
    """The lines of a text; what stands behind the last end of a line is one unless it is empty."""
    lines = text.split("\n")
    return lines[:-1] if lines[-1] == "" else lines


def lacks_end(text):
    """Whether the last line of a text has no end."""
    return text != "" and not text.endswith("\n")


def counted(count, one, more):
    """A count in words."""
    return one if count == 1 else more % count
