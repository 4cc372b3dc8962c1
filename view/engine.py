"""The program that decides, asked in a folder of its own."""
import os
import subprocess
import sys
import tempfile

from policies import read_domains, read_groups
from texts import MIXED, NO_PROGRAM, Stop, read, read_if_there

POLICY = ("profile", "exception_policy", "domain_policy", "manager")

# Statuses of the program: a file is too long, memory ran out, and the last one that it may have.
TOO_LONG, OUT_OF_MEMORY, LAST = 4, 11, 13


class Opening:
    """A policy as the program prints it: its four texts, its live domains, its ACL groups."""

    def __init__(self, texts):
        self.texts = texts
        self.domains = read_domains(texts["domain_policy"])
        self.groups = read_groups(texts["exception_policy"])


class Ended:
    """How a call ended: its status, the line that it said, and the files that were asked for."""

    def __init__(self, status, line, files):
        self.status = status
        self.line = line
        self.files = files


def policy_files(folder=""):
    """The four policy files of a folder, those that may be missing as empty texts."""
    files = {name: read(os.path.join(folder, name)) for name in ("profile", "domain_policy")}
    files.update((name, read_if_there(os.path.join(folder, name)))
                 for name in ("exception_policy", "manager"))
    return files


class Engine:
    """The program, at the path that TOMOYO_RUN names."""

    def __init__(self):
        self.program = os.path.abspath(os.environ.get("TOMOYO_RUN", "tomoyo_run"))

    def call(self, command, files, wanted):
        """One call of the program on these files, and the wanted ones of those that it stores."""
        try:
            with tempfile.TemporaryDirectory(prefix="tomoyo-") as folder:
                for name, text in files.items():
                    with open(os.path.join(folder, name), "wb") as file:
                        file.write(text.encode("latin-1"))
                return self.ended(folder, command, wanted)
        except OSError as error:
            raise self.unasked(error) from None

    def ended(self, folder, command, wanted):
        """The end of a call in a folder that has the files."""
        ran = subprocess.run([self.program, "-C", folder, command], stdin=subprocess.DEVNULL,
                             stdout=subprocess.PIPE, stderr=subprocess.PIPE, check=False)
        if ran.returncode < 0 or ran.returncode > LAST:
            raise Stop("the program ended with %d" % ran.returncode, NO_PROGRAM)
        made = {}
        for name in wanted if ran.returncode == 0 else ():
            with open(os.path.join(folder, name), "rb") as file:
                made[name] = file.read().decode("latin-1")
        said = ran.stderr if ran.returncode else ran.stdout
        line = said.decode("latin-1").strip().split("\n")[0]
        return Ended(ran.returncode, line[len("tomoyo_run: "):] if ran.returncode else line, made)

    def is_there(self):
        return os.path.isfile(self.program) and os.access(self.program, os.X_OK)

    def judge_run(self):
        """Ends where the program says that the run of this folder isn't of the folder's files. Of a
        run that is too long for it nothing is known, which is said."""
        try:
            ended = self.ended(".", "verify", ())
        except OSError as error:
            raise self.unasked(error) from None
        if (ended.status, ended.line) == (TOO_LONG, "run is too long"):
            sys.stderr.write("tomoyo: run is too long to be verified, and is taken to be of these "
                             "files\n")
        elif ended.status == OUT_OF_MEMORY:
            raise Stop("the program can't verify run: %s" % ended.line, NO_PROGRAM)
        elif ended.status or ended.line != "legal yes":
            raise Stop("run isn't of these files: play again (`tomoyo verify`: %s)" % ended.line,
                       MIXED)

    def unasked(self, error):
        """What is said where the program can't be asked."""
        line = "can't ask the program %s: %s" % (self.program, error.strerror)
        return Stop(line, NO_PROGRAM)

    def done(self, command, files, wanted):
        """A call that is done, or a Stop."""
        ended = self.call(command, files, wanted)
        if ended.status:
            raise Stop("the program refuses these files: %s" % ended.line, MIXED)
        return ended

    def played(self, files):
        """The run of a play of these files, as a text."""
        return self.done("step", files, ["run"]).files["run"]

    def opening(self, files):
        """The policy that the four files load to."""
        policy = {name: files[name] for name in POLICY if name in files}
        made = self.done("print", policy, [name + ".new" for name in POLICY]).files
        return Opening({name: made[name + ".new"] for name in POLICY})

    def normal_lines(self, lines):
        """The normal form of each of these access control lines."""
        if not lines:
            return {}
        domains = "".join("<kernel> /%d\n%s\n" % (number, line)
                          for number, line in enumerate(lines))
        files = {"profile": "0-CONFIG={ mode=disabled }\n", "domain_policy": domains}
        opened = self.opening(files).domains
        return dict(zip(lines, [domain.entries.lines()[0] for domain in opened[1:]]))
