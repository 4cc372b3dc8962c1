"""usage: tomoyo [-C DIR] check

Tells every line of the policy that is refused, not only the first
one, with what is wrong. A refused line is left out when the lines
behind it are judged, as Linux leaves it out. It ends where it has
found 1,000, and says so.

Reads    profile and domain_policy, which have to be there;
         exception_policy and manager, which count as empty where
         they are missing
Stores   nothing
Prints   FILE:N: REPLY: a sentence, and the line, for each refused
         line; and then
         lines refused N

Exit statuses: 0 no line is refused; 1 bad words; 5 some are; 6 a
domain has no profile; 65 a file is too long, 66 one is missing or
can't be read, 70 the program can't be asked.
"""
import re
import sys

from engine import POLICY, Engine, policy_files
from history import KERNEL, domains_of, names_domain
from runs import read_run
from sentences import LINE, sentence, shortened
from texts import BAD_WORDS, MIXED, Stop, lines_of, words

REFUSED, NO_PROFILE = 5, 6

# A namespace word as far as it needs no reading of patterns.
NAMESPACE = re.compile(r"<kernel>|</([!-;=?-\[\]-~]|\\\\|\\[0-3][0-7][0-7])*>")

# An editor may write so many lines beside one that chooses a domain, a file has so many bytes, of
# which the editor's first lines have fewer than so many, and so many refusals are told.
EDITS, BYTES, FIRST, MOST = 9999, 1 << 24, 9000, 1000


class Line:
    """A line of a file that has words, these, and whether it chooses, makes or deletes a domain."""
    __slots__ = ("file", "number", "words", "names_domain")

    def __init__(self, file, number, line_words):
        self.file = file
        self.number = number
        self.words = line_words
        self.names_domain = file == "domain_policy" and names_domain(line_words)

    def domain(self):
        """The name of the domain."""
        return " ".join(self.words[self.words[0] in ("select", "delete"):])

    def text(self):
        return " ".join(self.words)

    def chosen_after(self, reply, chosen):
        """Which domain an editor has chosen behind this line, by the reply and by the one before."""
        if reply == "no_domain" and self.words[0] == "select":
            return None
        if reply != "done" or not self.names_domain:
            return chosen
        return None if self.words[0] == "delete" else self.domain()


class Refusals:
    """The files with their refused lines made empty, and the reply to each of these."""

    def __init__(self, files):
        self.lines = {name: lines_of(files[name]) for name in POLICY}
        self.replies = {}
        self.shown = {}

    def refuse(self, name, number, reply):
        self.replies[name, number] = reply
        self.shown[name, number] = shortened(self.lines[name][number - 1])
        self.lines[name][number - 1] = ""

    def are_enough(self):
        return len(self.replies) >= MOST

    def files(self):
        return {name: "\n".join(lines) + "\n" for name, lines in self.lines.items()}

    def left(self):
        """All lines that have words."""
        return [Line(name, number, line_words) for name in POLICY
                for number, line in enumerate(self.lines[name], 1) if (line_words := words(line))]

    def put(self):
        for name in POLICY:
            for place in sorted(place for place in self.replies if place[0] == name):
                reply = self.replies[place]
                said = sentence(reply.partition(":")[2] or reply)
                print("%s:%d: %s: %s\n    %s" % (*place, reply, said, self.shown[place]))


class Passed:
    """What was passed, as far as the lines behind it ask for it: they ask for every profile, for a
    domain by `select` and `delete`, and for any other line by `delete`."""

    def __init__(self, lines):
        self.lines = {name: [] for name in POLICY}
        self.domains = {KERNEL: []}
        self.chosen = None
        self.asked = {line.domain() for line in lines
                      if line.names_domain and not line.words[0].startswith("<")}
        self.deleted_from = {line.file for line in lines
                             if "delete" in line.words[:2] and not line.names_domain}

    def add(self, line):
        self.chosen = line.chosen_after("done", self.chosen)
        if not line.names_domain:
            if line.file == "profile" or line.file in self.deleted_from:
                self.kept(line.file).append(line.text())
        elif self.chosen:
            self.domains.setdefault(self.chosen, [])
        else:
            del self.domains[line.domain()]

    def kept(self, file):
        """The lines that are kept of a file, or of the chosen domain."""
        return self.domains[self.chosen] if file == "domain_policy" else self.lines[file]

    def opening(self):
        """The lines of each file."""
        return dict(self.lines, domain_policy=[
            line for name, lines in self.domains.items()
            if lines or name in self.asked or name in (KERNEL, self.chosen)
            for line in (name, *lines)])


class Part:
    """Lines that an editor writes into the policy of those before them that were passed.

    Each namespace has the profile 0, so that a domain can be made. A `select` of a domain that isn't
    there leaves an editor none, and the lines of a file, of which it is left out, the one before:
    where that is foreseen, the editor chooses that one again."""

    def __init__(self, passed, lines):
        self.passed = passed
        self.lines, self.edits, size = [], [], 0
        there, chosen = {*passed.domains}, passed.chosen
        for line in lines:
            is_lost = line.names_domain and line.words[0] == "select" \
                and line.domain() not in there
            again = chosen if is_lost else None
            edits = ["%s %s" % (line.file, line.text())]
            edits += ["domain_policy select " + again] if again else []
            size += sum(len(edit) + 1 for edit in edits)
            if size > BYTES - FIRST or len(self.edits) + len(edits) > EDITS:
                break
            self.lines.append((line, again))
            self.edits += edits
            if line.names_domain and not is_lost:
                chosen = line.chosen_after("done", chosen)
                if chosen:
                    there.add(chosen)
                else:
                    there.discard(line.domain())

    def files(self):
        """The files of the play in which the lines are written."""
        opening = self.passed.opening()
        spaces = {word for line, _ in self.lines for word in line.words[:2]}
        spaces |= {word for lines in opening.values() for line in lines
                   for word in line.split(" ")[:2]}
        profiles = ["%s 0-CONFIG={ mode=disabled }" % space
                    for space in sorted(spaces | {KERNEL}) if NAMESPACE.fullmatch(space)]
        editor = ["editor 0 0 /tomoyo/check <kernel>"]
        if self.passed.chosen:
            editor.append("domain_policy select " + self.passed.chosen)
        opening.update(profile=profiles + opening["profile"], trace=[],
                       manager=["/tomoyo/check"] + opening["manager"], edits=editor + self.edits)
        return {name: "".join(line + "\n" for line in lines) for name, lines in opening.items()}

    def judge(self, refusals, steps):
        """Refuses or passes the lines by their steps, and says of how many it has judged: it ends
        behind a line where the editor has another domain than the lines of a file would have."""
        chosen, steps = self.passed.chosen, iter(steps)
        for judged, (line, again) in enumerate(self.lines):
            reply = next(steps).reply
            if refusals.are_enough() or reply == "no_profile" and line.words[0].startswith("<"):
                return judged
            if reply == "done":
                self.passed.add(line)
            else:
                refusals.refuse(line.file, line.number, reply)
            chosen = line.chosen_after(reply, chosen)
            if again and next(steps).reply == "done":
                chosen = again
            if chosen != self.passed.chosen:
                return judged + 1
        return len(self.lines)


def refuse_by_edits(engine, refusals):
    """Refuses what an editor's lines are refused for, part by part. All ends before a domain whose
    namespace has no profile 0 here."""
    lines = refusals.left()
    passed = Passed(lines)
    while lines and not refusals.are_enough():
        part = Part(passed, lines)
        ended = engine.call("step", part.files(), ["run"])
        if ended.status or not part.lines:
            return
        steps = read_run(ended.files["run"]).steps[-len(part.edits):]
        judged = part.judge(refusals, steps)
        if not judged:
            return
        lines = lines[judged:]


def refuse_by_loads(engine, refusals):
    """Loads the files and refuses the line that the load is refused for, until it is done; what the
    last load was refused for beside a line is given."""
    while not refusals.are_enough():
        ended = engine.call("print", refusals.files(), [])
        found = LINE.match(ended.line) if ended.status == REFUSED else None
        if not found:
            return ended
        name, number = found.group(1), int(found.group(2))
        refusals.refuse(name, number, ended.line.partition(": ")[2])
    return None


def main(line):
    if line:
        raise Stop("check takes no words", BAD_WORDS)
    engine = Engine()
    refusals = Refusals(policy_files())
    refuse_by_edits(engine, refusals)
    ended = refuse_by_loads(engine, refusals)
    refusals.put()
    if ended is None:
        print("lines refused %d" % len(refusals.replies))
        sys.stdout.flush()
        sys.stderr.write("tomoyo: ends at %d refused lines: there may be more\n" % MOST)
        return REFUSED
    if ended.status == NO_PROFILE:
        number = int(words(ended.line)[1])
        name = domains_of(refusals.files()["domain_policy"]).name(number)
        print("domain_policy: %s: the profile of %s isn't defined" % (ended.line, name))
    elif ended.status:
        raise Stop("the program refuses these files: %s" % ended.line, MIXED)
    print("lines refused %d" % len(refusals.replies))
    return REFUSED if refusals.replies else ended.status
