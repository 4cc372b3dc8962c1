"""Cuts each file of an example at each byte.

For each input file of the example (debian_boot where none is named) and each number of its bytes
(each N-th, and those around each end of a line, where --each is given) a folder gets that many
first bytes of this file, and the other files whole. `step` is run in it, and has to end so:

- with exit status 0, 5, 6 or 7, or 8 where the example has edits, answers or a schedule;
- on a refusal nothing is stored, standard output is empty, and standard error is one line;
- a refusal that names the cut file names the line that is cut, since the lines before it are whole;
  one that names another file names a file that is read after the cut one, or a domain without a
  profile;
- with the end of its last line cut off, a text ends as it does with it: the same status, and the
  same line said. Where that is 0, the same files."""
import concurrent.futures
import os
import re
import shutil
import tempfile
import threading

from calls import INPUTS, SCRIPTS, STORED, TOP, Tally, call, files_of, lay, write

MADE = STORED[:6]
HERE = threading.local()


def add_words(parser):
    parser.add_argument("--example", default="debian_boot")
    parser.add_argument("--each", type=int, default=1)
    parser.add_argument("--file", action="append")
    parser.add_argument("--jobs", type=int, default=os.cpu_count())


def folder_of(work, files):
    """This thread's folder, with all files of the example."""
    if not hasattr(HERE, "path"):
        HERE.path = tempfile.mkdtemp(dir=work)
        lay(HERE.path, files)
    return HERE.path


def played(program, work, files, name, count):
    """How `step` ends on the files with so many bytes of one, and what it leaves."""
    path = folder_of(work, files)
    for made in MADE:
        if os.path.exists(os.path.join(path, made)):
            os.remove(os.path.join(path, made))
    write(os.path.join(path, name), files[name][:count])
    ended = call([program, "step"], path, seconds=600)
    left = files_of(path, [made for made in sorted(os.listdir(path)) if made not in files])
    write(os.path.join(path, name), files[name])
    return ended, left


def cut_line(text, count):
    """The number of the line that isn't whole in so many first bytes of a text, or None."""
    if count in (0, len(text)) or b"\n" in (text[count - 1:count], text[count:count + 1]):
        return None
    return text.count(b"\n", 0, count) + 1


def fault_of(files, name, count, end):
    """What isn't as it has to be, or None."""
    (status, put, said), left = end
    if status == 0:
        is_whole = set(left) == set(MADE) and put.count(b"\n") == 1 and not said
        return None if is_whole else "not all is stored and said"
    if status not in ((5, 6, 7, 8) if any(script in files for script in SCRIPTS) else (5, 6, 7)):
        return "status %s: %s" % (status, end[0].line())
    if left or put:
        return "something is stored or put"
    if said.count(b"\n") != 1:
        return "not one line is said"
    return misnamed(files, name, count, said.decode("latin-1"))


def misnamed(files, name, count, said):
    """What is wrong with the place that a refusal names, or None."""
    place = re.match(r"tomoyo_run: (\S+) line (\d+): ", said)
    if not place:
        is_domain = re.match(r"tomoyo_run: domain \d+ has no profile$", said)
        return None if is_domain else "no place is named"
    if place.group(1) == name:
        is_cut = int(place.group(2)) == cut_line(files[name], count)
        return None if is_cut else "another line is named than the cut one: %s" % said.strip()
    if place.group(1) in INPUTS[INPUTS.index(name) + 1:]:
        return None
    return "an earlier file is named: %s" % said.strip()


def cuts_of(text, each):
    """The numbers of bytes to keep."""
    if each == 1:
        return list(range(len(text) + 1))
    ends = {at + move for at, byte in enumerate(text) if byte == 10 for move in (0, 1)}
    return sorted(set(range(0, len(text) + 1, each)) | {len(text)} | ends)


def cut(program, pool, work, files, name, each):
    """Cuts one file, and gives how many of its cuts are at fault."""
    text, tally, before = files[name], Tally(), {}
    cuts = cuts_of(text, each)
    ends = pool.map(lambda count: played(program, work, files, name, count), cuts)
    for count, end in zip(cuts, ends):
        fault = fault_of(files, name, count, end)
        other = before.get(count - 1)
        if not fault and other and text[count - 1:count] == b"\n" and other != end:
            fault = "it ends otherwise without the end of its last line"
        before = {count: end}
        tally.count(end[0].status, "%s cut to %d bytes" % (name, count), fault)
    return tally.tell("cuts of %s, %d bytes" % (name, len(text)))


def run(words):
    files = files_of(os.path.join(TOP, "examples", words.example), INPUTS)
    work = tempfile.mkdtemp(dir="/dev/shm" if os.path.isdir("/dev/shm") else None)
    try:
        with concurrent.futures.ThreadPoolExecutor(words.jobs) as pool:
            return sum(cut(words.program, pool, work, files, name, words.each)
                       for name in words.file or files)
    finally:
        shutil.rmtree(work)
