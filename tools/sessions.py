"""Sessions: commands with what a terminal shows of them, run again and compared.

A session is a text: after `$ ` a command, and then all that it prints. The commands are run one
after another in one folder, `tomoyo` being the script at the top, `tomoyo_run` and `tomoyo_trace`
the programs that are built, and ~/yurdzheni this checkout. `on_a_terminal COMMAND` runs one on a
terminal."""
import difflib
import os
import shlex
import shutil
import signal
import subprocess

TOP = os.path.dirname(os.path.dirname(os.path.abspath(__file__)))
COMMANDS = ("tomoyo", "tools/on_a_terminal", "crates/tomoyo_run/out/tomoyo_run",
            "crates/tomoyo_trace/out/tomoyo_trace")

# The seconds after which a session counts as one that waits for ever. However busy the machine is,
# no other one takes as long.
EVER = 7200


def read(path):
    with open(path, encoding="utf-8", errors="surrogateescape", newline="") as file:
        return file.read()


def script_of(session):
    """The commands of a session as a script that prints each before it runs it."""
    lines = []
    for line in session.split("\n"):
        if line.startswith("$ "):
            lines += ["printf '%s\\n' " + shlex.quote(line), line[2:]]
    return "".join(line + "\n" for line in lines)


class Room:
    """A home in which sessions are played, with folders for them."""

    def __init__(self, path):
        self.path = path
        home, commands = os.path.join(path, "home"), os.path.join(path, "bin")
        os.makedirs(home)
        os.makedirs(commands)
        os.symlink(TOP, os.path.join(home, "yurdzheni"))
        for command in COMMANDS:
            os.symlink(os.path.join(TOP, command),
                       os.path.join(commands, os.path.basename(command)))
        self.environment = dict(os.environ, HOME=home, PATH=commands + ":" + os.environ["PATH"])

    def copy(self, name, source):
        """A folder with the files of another one, and what is expected of these."""
        folder = os.path.join(self.path, "plays", name)
        os.makedirs(folder)
        for entry in os.scandir(source):
            if entry.is_file():
                shutil.copy(entry.path, folder)
            elif entry.name == "expected":
                shutil.copytree(entry.path, os.path.join(folder, "expected"))
        return folder

    def put(self, session, folder):
        """What a terminal shows of the commands of a session, run in a folder."""
        script = os.path.join(self.path, "script")
        with open(script, "w", encoding="utf-8", errors="surrogateescape") as file:
            file.write(script_of(session))
        said, more = os.path.join(self.path, "put"), ""
        with open(said, "wb") as out:
            ran = subprocess.Popen(["bash", script], cwd=folder, env=self.environment,
                                   stdin=subprocess.DEVNULL, stdout=out, stderr=out,
                                   start_new_session=True)
            try:
                ran.wait(EVER)
            except subprocess.TimeoutExpired:
                more = "no end within %d s\n" % EVER
            finally:
                if ran.poll() is None:
                    os.killpg(ran.pid, signal.SIGKILL)
                    ran.wait()
        return read(said) + more

    def fault(self, session, folder, is_page=False):
        """How what the commands of a session put differs from it, or None. A page can't show empty
        lines at the end."""
        if not script_of(session):
            return "the session has no command\n"
        put = self.put(session, folder)
        if is_page:
            session, put = session.rstrip("\n") + "\n", put.rstrip("\n") + "\n"
        if put == session:
            return None
        lines = difflib.unified_diff(session.splitlines(True), put.splitlines(True),
                                     "the session", "what was put")
        return "".join(line if line.endswith("\n") else line + "\n" for line in lines)


def play(room, path):
    """Plays a session file in a copy of its folder; the one in `expected` is of the folder above.
    Gives how it differs, or None."""
    folder = os.path.dirname(os.path.abspath(path))
    if os.path.basename(folder) == "expected":
        folder = os.path.dirname(folder)
    copied = room.copy(os.path.relpath(folder, TOP).replace(os.sep, "-"), folder)
    if os.path.isfile(os.path.join(copied, "session")):
        os.remove(os.path.join(copied, "session"))
    return room.fault(read(path), copied)


def play_all(room, paths):
    """Plays session files and says of each whether it is as expected; gives how many are not."""
    wrong = 0
    for path in paths:
        name = os.path.relpath(path, TOP)
        fault = play(room, path) if os.path.isfile(path) else "no session is there\n"
        print("%s: %s" % (name, "as expected" if fault is None else "this is another text"),
              flush=True)
        if fault is not None:
            wrong += 1
            print(fault.encode("utf-8", "backslashreplace").decode(), end="", flush=True)
    return wrong
