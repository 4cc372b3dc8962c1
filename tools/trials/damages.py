"""Runs the program on damaged inputs.

Takes the files of the shipped examples, damages one or more of them in one to four places (a byte
changed, cut out, doubled or put in, a line left out, doubled, moved or repeated many times, spaces
made bytes 0, a cut at a byte, a number made huge), and runs `step`, `print`, `learn` or `replay`
with some threads on them, or `verify` with the run of `step` beside them. Every run has to end by
itself within the seconds given, with an exit status from 0 to 11, or 13 of `verify`, in 4 GiB of
memory; where the status is a refusal (1 to 9, 13) no file may be changed or added, standard output
is empty and standard error is one line. With --command it is always that command, and for `verify`
the run alone is damaged; `verify` has memory enough. A run that doesn't keep to this is told with
its number, by which it can be run again (--only NUMBER). The same seed damages the same inputs."""
import os
import random
import resource
import shutil
import tempfile

from calls import INPUTS, NO_MEMORY, TOP, Tally, call, files_of, lay

COMMANDS = ["step", "step", "learn", "print", "replay 1", "replay 4", "replay 3 rerun",
            "replay 3 steal"]
BAD_RUN = 13
MEMORY = 4 << 30
WORDS = [b"\\", b"\\*", b"\\{", b"\\-", b"@", b"<kernel>", b"18446744073709551616", b"4294967296",
         b"256", b"-1", b"0x", b"::", b"=", b"\n", b"\r\n", b" ", b"\t"]


def add_words(parser):
    parser.add_argument("--count", type=int, default=10000)
    parser.add_argument("--seed", type=int, default=1)
    parser.add_argument("--seconds", type=int, default=10)
    parser.add_argument("--only", type=int)
    parser.add_argument("--command", choices=sorted({*COMMANDS, "verify"}))
    parser.add_argument("--keep", help="a folder for the inputs of runs with a fault")


def bases(program):
    """The examples: their names, their input files, and the run that `step` stores of them."""
    found = []
    for name in sorted(os.listdir(os.path.join(TOP, "examples"))):
        folder = os.path.join(TOP, "examples", name)
        files = files_of(folder, INPUTS) if os.path.isdir(folder) else {}
        if "profile" in files:
            found.append((name, files, run_of(program, files)))
    return found


def run_of(program, files):
    """The run that `step` stores of these files, or None."""
    with tempfile.TemporaryDirectory() as folder:
        lay(folder, files)
        call([program, "step"], folder)
        return files_of(folder, ["run"]).get("run")


def damaged(draw, text):
    """A text with one place damaged."""
    kind = draw.randrange(12)
    at = draw.randrange(len(text) + 1)
    if kind == 0 and text:
        at = draw.randrange(len(text))
        return text[:at] + bytes([draw.randrange(256)]) + text[at + 1:]
    if kind == 1:
        return text[:at] + text[at + draw.randrange(1, 9):]
    if kind == 2:
        return text[:at] + text[at:at + draw.randrange(1, 40)] + text[at:]
    if kind == 3:
        return text[:at] + draw.randbytes(draw.randrange(1, 5)) + text[at:]
    if kind == 4:
        return text[:at]
    if kind == 5:
        return text.replace(b" ", b"\0")
    if kind == 6:
        return text[:at] + draw.choice(WORDS) + text[at:]
    lines = text.splitlines(keepends=True)
    return b"".join(damaged_lines(draw, kind, lines)) if lines else text


def damaged_lines(draw, kind, lines):
    """Lines with one left out, doubled, moved, repeated, or with another word."""
    place = draw.randrange(len(lines))
    if kind == 7:
        del lines[place]
    elif kind == 8:
        lines.insert(draw.randrange(len(lines) + 1), lines[place])
    elif kind == 9:
        lines.insert(draw.randrange(len(lines)), lines.pop(place))
    elif kind == 10:
        lines[place:place] = [lines[place]] * draw.randrange(1, 2000)
    else:
        words = lines[place].split(b" ")
        words[draw.randrange(len(words))] = draw.choice(
            [b"99999999999999999999", b"0", b"", b"/" + b"a" * draw.randrange(1, 5000), b"any",
             b"not_a_word"])
        lines[place] = b" ".join(words)
    return lines


def input_of(number, seed, bases, always):
    """The command, which may always be the same, and the files of the run of that number."""
    draw = random.Random("%d %d" % (seed, number))
    name, files, stored = draw.choice(bases)
    command = always or draw.choice(COMMANDS if stored is None else COMMANDS + ["verify"] * 2)
    files = dict(files, run=stored) if command == "verify" else dict(files)
    for _ in range(draw.randrange(1, 5)):
        which = "run" if always == "verify" else draw.choice(sorted(files))
        files[which] = damaged(draw, files[which])
    return name, command, files


def limit():
    resource.setrlimit(resource.RLIMIT_AS, (MEMORY, MEMORY))
    resource.setrlimit(resource.RLIMIT_CORE, (0, 0))


def judge(program, command, files, seconds):
    """The exit status of a run, and what it did that it must not do."""
    with tempfile.TemporaryDirectory() as folder:
        lay(folder, files)
        ended = call([program, *command.split()], folder, seconds, preexec_fn=limit)
        if ended.status == "late":
            return "late", [ended.line()]
        after = files_of(folder)
    status, faults = ended.status, []
    if not 0 <= status <= NO_MEMORY and (command, status) != ("verify", BAD_RUN):
        faults.append("exit status %d: %s" % (status, ended.line()))
    if (command, status) == ("verify", NO_MEMORY):
        faults.append("out of memory")
    faults += ["%s was changed" % name for name in files if after.get(name) != files[name]]
    if 1 <= status <= 9 or status == BAD_RUN:
        if set(after) - set(files):
            faults.append("refused, and stored %s" % " ".join(sorted(set(after) - set(files))))
        if ended.put:
            faults.append("refused, and put %r" % ended.put[:80])
        if ended.said.count(b"\n") != 1:
            faults.append("refused, and said %r" % ended.said[:200])
    return status, faults


def keep(folder, files):
    """Puts the files of a run into a folder."""
    shutil.rmtree(folder, ignore_errors=True)
    os.makedirs(folder)
    lay(folder, files)


def run(words):
    there = bases(words.program)
    if words.command == "verify":
        there = [base for base in there if base[2] is not None]
    tally = Tally()
    for number in [words.only] if words.only is not None else range(words.count):
        name, command, files = input_of(number, words.seed, there, words.command)
        status, faults = judge(words.program, command, files, words.seconds)
        tally.count(status, "run %d (%s of examples/%s)" % (number, command, name),
                    "; ".join(faults))
        if faults and words.keep:
            keep(os.path.join(words.keep, str(number)), files)
    return tally.tell("runs")
