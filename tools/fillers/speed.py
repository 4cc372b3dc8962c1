"""The table of what was measured.

Behind the line `<!-- measured -->` stands what bench/speed_page writes there: the build, whose
commit is one of this repository, and a table in which each row has a number of each kind for each
size."""
import re
import subprocess

from pages import Fault, TOP

MARK = "<!-- measured -->"
HEAD = ["| Load | N | Time | Memory |", "|---|---|---|---|"]
ROW = re.compile(r"\| `(\w+)` \| ([\d,; ]+) \| ([\d.; ]+) s \| ([\d; ]+) MB \|")
LOAD = re.compile(r"- `(\w+)`: `\w+(?: \d+)?` of .+")


def git(*words):
    ran = subprocess.run(["git", "-C", TOP, *words], capture_output=True, text=True, check=False)
    return ran.stdout.strip() if ran.returncode == 0 else None


def parts(page):
    """The page before the mark, between it and the next heading, and from there on."""
    lines = page.split("\n")
    begin = lines.index(MARK) + 1
    end = next(at for at in range(begin, len(lines)) if lines[at].startswith("## "))
    return lines[:begin], lines[begin:end], lines[end:]


def fault_of(table):
    """What is wrong with a table, or None."""
    commits = re.findall(r"commit ([0-9a-f]{7,})", " ".join(table))
    if not commits:
        return "no build is named"
    is_whole = git("rev-parse", "--is-shallow-repository") == "false"
    for commit in commits if is_whole else ():
        if git("cat-file", "-e", commit + "^{commit}") is None:
            return "%s is no commit" % commit
    rows = [line for line in table if line.startswith("|") and line not in HEAD]
    found = [ROW.fullmatch(row) for row in rows]
    for row, cells in zip(rows, found):
        if not cells or len({cell.count(";") for cell in cells.groups()[1:]}) != 1:
            return "this is no row: %s" % row
    loads = [LOAD.match(line).group(1) for line in table if LOAD.match(line)]
    if loads != [cells.group(1) for cells in found]:
        return "its loads aren't those that are told"
    return None if rows else "there is no row"


def filled(page, _):
    """The page as it is, whose table is right."""
    fault = fault_of(parts(page)[1])
    if fault:
        raise Fault(fault)
    return page
