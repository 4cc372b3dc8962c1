"""The help of the program and of the words that look at a play, under one name."""
import importlib
import os
import re
import subprocess
import sys

from texts import BAD_WORDS, NO_PROGRAM, Stop

TOP = os.path.dirname(os.path.dirname(os.path.abspath(__file__)))
SOURCE = os.path.join(TOP, "crates", "tomoyo_run", "src", "command_line.rt")

MORE = """
On a play that is stored in the folder, the script `tomoyo` tells
more:

  why [--short | N ..]
                why requests were denied, and what made the run
                unclean; or what became of these requests
  suggest       the lines that would grant what was denied
  tree [--svg]  the domains as a tree, with what they were asked,
                or as a picture
  curve         what each tenth of the requests added: was the
                recording long?
  unused        the lines that granted nothing
  shapes [--lines]
                patterns for names that are others at each boot

And on the files of the folder:

  compare FOLDER
                which requests of the trace the policy of FOLDER
                answers otherwise, or leads elsewhere
  check         every line of the policy that is refused, not only
                the first

`tomoyo help WORD` tells more of each. These end with 65 where the
files aren't those of one play, with 66 where one is missing, and
with 70 where the program can't be asked; `why` and `suggest` end
with 2 where something was denied, `compare` where something differs.

From the log of a machine:

  trace [LOG]   prints the trace of an audit log, and sums what was
                left out

It also takes, in a checkout,

  install DESTDIR PREFIX
                installs what is built, with pages and examples, in
                DESTDIR, which may be empty, below PREFIX
  --unproved WORDS
                builds the sources without proofs, and runs a command
                of the program, tree, curve or trace; each such call
                builds anew, which takes minutes
"""


def constant(text, name):
    """The text of a constant in a source."""
    found = re.search(r'const %s: &str = "(?:\\\n)?(.*?)";' % name, text, re.S)
    if not found:
        return None
    return found.group(1).replace("\\n", "\n").replace('\\"', '"').replace("\\\\", "\\")


def from_source(topic):
    """A help text of the program, by its source."""
    try:
        with open(SOURCE, encoding="utf-8") as file:
            text = file.read()
    except OSError:
        raise Stop("the program isn't there", NO_PROGRAM) from None
    return constant(text, topic.upper() + "_HELP" if topic else "HELP")


def from_program(program, topic):
    """A help text of the program, as it prints it; None where it has none on that."""
    words = [program, "help"] + ([topic] if topic else [])
    ran = subprocess.run(words, stdin=subprocess.DEVNULL, capture_output=True, check=False)
    return ran.stdout.decode("utf-8", "replace") if ran.returncode == 0 else None


def help_text(topic):
    """The help on a command of the program, or on all for an empty topic."""
    program = os.environ.get("TOMOYO_RUN", "")
    if os.access(program, os.X_OK):
        text = from_program(program, topic)
    else:
        text = from_source(topic)
    if text is None:
        raise Stop("no command %s; `tomoyo help` lists them" % topic, BAD_WORDS)
    return text.replace("tomoyo_run", "tomoyo")


def main(line):
    topic = line[0] if line else ""
    if topic in ("install", "--unproved"):
        sys.stdout.write(MORE[MORE.index("It also takes"):])
    elif topic in ("why", "suggest", "tree", "curve", "unused", "shapes", "compare", "check",
                   "trace"):
        sys.stdout.write(importlib.import_module(topic).__doc__)
    else:
        sys.stdout.write(help_text(topic) + ("" if topic else MORE))
    return 0
