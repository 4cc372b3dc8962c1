"""usage: tomoyo [-C DIR] shapes [--lines]

Proposes patterns for names that are others at each boot: lines of
one domain with equal permissions whose names differ in numbers
alone, or in six or more last letters of one component that look
like those of a temporary file, from 3 lines on. Each proposal is
tried by a play of the trace in which what learns or is permissive
enforces: with the patterns in place of the lines every request has
to end as with the lines, but for those that are granted now and
weren't. These are told. What a pattern grants beyond this trace no
play shows: read it.

With --lines it prints the lines as they are appended to the policy
that the play began with: `tomoyo shapes --lines >> domain_policy`,
and then play again; what a pattern grants isn't learned.

Reads    run and the .new files, as a play has stored them, and the
         files that it has read; they have to be those of one play
Stores   nothing
Prints   a paragraph for each pattern, and then
         patterns P lines N more M

Exit statuses: 0 done; 1 bad words; 65 the files aren't those of one
play, 66 one is missing or can't be read, 70 the program can't be
asked.
"""
import re
import sys

from copies import Suggested
from engine import Engine
from history import Numbered, domains_of
from plays import StoredPlay
from policies import CONDITIONS, permission_place
from runs import read_run
from texts import BAD_WORDS, Stop, lacks_end, lines_of, read, words

LEAST = 3

# What a name is made of: an escape, a number that ends a part of a name, any other letter.
PIECES = re.compile(r"\\[0-3][0-7][0-7]|\\.|(?<!\d)\d+(?=[]/.~:_-]|$)|.")

# The last letters of a component; words with a number behind them are no letters of chance.
TAIL = r"[A-Za-z0-9]{%d}(?=/|$|\.)"
PLAIN = re.compile(r"[A-Z]?[a-z]*\d*|[A-Z]+\d*|\d+")
TAILS = (6, 8, 10, 12, 16, 32, 40, 64)


def names_in(line_words):
    """The places of the names in an access control line that lets nothing be executed."""
    place = permission_place(line_words)
    permissions = line_words[place].split("/")
    if line_words[0] not in ("file", "network") or "execute" in permissions:
        return []
    if line_words[0] == "network":
        return [place + 1] if line_words[1] == "unix" else []
    two = permissions[0] in ("link", "rename", "pivot_root", "mount")
    return [place + 1, place + 2] if two else [place + 1]


def pieces(name):
    return PIECES.findall(name)


def without_numbers(name):
    """A name with each number of it made one sign, and nothing where it has none."""
    made = ["\n" if piece.isdigit() else piece for piece in pieces(name)]
    return "".join(made) if "\n" in made else None


def without_tail(name, size):
    """A name with the last letters of its components that look like chance made signs."""
    def sign(found):
        return found[0] if PLAIN.fullmatch(found[0]) else "\n" * size

    made = re.sub(TAIL % size, sign, name) if "\\" not in name else name
    return made if made != name else None


def pattern_of_numbers(names):
    """The pattern of names that differ in numbers alone: equal ones stay."""
    columns = zip(*map(pieces, names))
    return "".join(column[0] if len(set(column)) == 1 else r"\$" for column in columns)


def pattern_of_tails(shape):
    return shape.replace("\n", r"\?")


def expression(pattern):
    """The names that a pattern of this page has, as a regular expression."""
    made = re.escape(pattern).replace(re.escape(r"\$"), r"\d+").replace(re.escape(r"\?"), "[^/]")
    return re.compile(made)


class Proposal:
    """A line with a pattern, its domain, the lines that it is for, and the takes that it grants
    beside theirs."""

    def __init__(self, domain, line, lines):
        self.domain = domain
        self.line = line
        self.lines = lines
        self.more = []


def grouped(lines, place, shape_of):
    """Lines by their words, in which a name is a shape."""
    groups = {}
    for line in lines:
        shape = shape_of(line.split(" ")[place])
        if shape:
            key = line.split(" ")
            key[place] = shape
            groups.setdefault(tuple(key), []).append(line)
    return {key: these for key, these in groups.items() if len(these) >= LEAST}


def with_pattern(domain, lines, place, key, pattern):
    """The proposal of a pattern for all of the lines that it fits."""
    fits = expression(pattern)
    rest = [*key[:place], *key[place + 1:]]
    its = [line for line in lines
           if [*line.split(" ")[:place], *line.split(" ")[place + 1:]] == rest
           and fits.fullmatch(line.split(" ")[place])]
    return Proposal(domain, " ".join([*key[:place], pattern, *key[place + 1:]]), its)


def shapes_of(lines, place):
    """The patterns of the names at one place of lines, with how many letters of chance each has and
    the other words of the lines: those in which numbers vary, or this many last letters."""
    for key, these in grouped(lines, place, without_numbers).items():
        yield 0, key, pattern_of_numbers([line.split(" ")[place] for line in these])
    for size in TAILS:
        for key in grouped(lines, place, lambda name: without_tail(name, size)):
            yield size, key, pattern_of_tails(key[place])


def proposed_at(domain, lines, place):
    """The proposals for the names that stand at one place of lines: the one for most lines, and of
    such ones that with the fewest letters of chance, and so on with the lines that are left."""
    found, taken = [], set()
    each = [(with_pattern(domain, lines, place, key, pattern), size)
            for size, key, pattern in shapes_of(lines, place)]
    for proposal, _ in sorted(each, key=lambda it: (-len(it[0].lines), it[1])):
        proposal.lines = [line for line in proposal.lines if line not in taken]
        if len(proposal.lines) >= LEAST:
            found.append(proposal)
            taken.update(proposal.lines)
    return found


def proposed(domain, lines):
    """The proposals for the lines of a domain."""
    found, left = [], [line for line in lines if "=" not in line or not any(
        word.startswith(CONDITIONS) for word in line.split(" "))]
    for place in (2, 3, 4):
        here = [line for line in left if place in names_in(line.split(" "))]
        found += proposed_at(domain, here, place)
        taken = {line for proposal in found for line in proposal.lines}
        left = [line for line in left if line not in taken]
    return found


def replaced(text, proposals):
    """A printed domain_policy in which each proposal stands for its lines."""
    first = {(its.domain, its.lines[0]): its.line for its in proposals}
    gone = {(its.domain, line) for its in proposals for line in its.lines}
    made, domain = [], None
    for line in lines_of(text):
        if line.startswith("<"):
            domain = line
        if (domain, line) in first:
            made.append(first[domain, line])
        elif (domain, line) not in gone:
            made.append(line)
    return "".join(line + "\n" for line in made)


def enforcing(text):
    """A printed profile in which what learns or is permissive enforces."""
    made = []
    for line in lines_of(text):
        is_config = "-CONFIG" in "".join(words(line)[1:2])
        made.append(re.sub("mode=(learning|permissive)", "mode=enforcing", line) if is_config
                    else line)
    return "".join(line + "\n" for line in made)


class Trial:
    """A play of the trace under this domain_policy, where all that asks something enforces."""

    def __init__(self, engine, play, policy):
        files = {"profile": enforcing(read("profile.new")), "trace": play.trace_text,
                 "exception_policy": read("exception_policy.new"), "domain_policy": policy}
        self.run = read_run(engine.played(files))
        self.numbered = Numbered(domains_of(policy), self.run.steps)
        self.numbered.finish()

    def ends(self, take):
        """What became of a take: its domains by their names, and whether it was granted."""
        return (self.numbered.domain(take.before).name, self.numbered.domain(take.after).name,
                take.is_granted)


def tried(play, before, after, proposals):
    """The proposals with which each take ends as before, or is granted now, which they are told."""
    wrong = set()
    for old, new in zip(before.run.takes, after.run.takes):
        ended, ends = before.ends(old), after.ends(new)
        if ended == ends:
            continue
        domain, asked = ended[0], play.asked(old).text()
        its = [proposal for proposal in proposals if proposal.domain == domain
               and grants(proposal.line, asked)]
        if its and ended[:2] == ends[:2] and new.is_granted:
            its[0].more.append((old.number, asked))
        else:
            wrong.add(domain)
    return [proposal for proposal in proposals if proposal.domain not in wrong]


def grants(line, request):
    """Whether a proposed line grants a request."""
    line_words, asked = line.split(" "), request.split(" ")
    place = permission_place(line_words)
    return len(line_words) == len(asked) and line_words[:place] == asked[:place] and \
        asked[place] in line_words[place].split("/") and \
        all(expression(pattern).fullmatch(word)
            for pattern, word in zip(line_words[place + 1:], asked[place + 1:]))


def all_proposals(engine, play):
    """The proposals for all domains that stand after the play, each of them tried."""
    policy = read("domain_policy.new")
    live = play.names.domains.live
    lines = {}
    for line in lines_of(policy):
        if line.startswith("<"):
            its = lines.setdefault(line, [])
        elif line:
            its.append(line)
    found = [proposal for name, these in lines.items() if name in live
             for proposal in proposed(name, [line for line in these if line.startswith(
                 ("file ", "network "))])]
    if not found:
        return []
    before = Trial(engine, play, policy)
    for _ in range(len(found)):
        for proposal in found:
            proposal.more = []
        right = tried(play, before, Trial(engine, play, replaced(policy, found)), found)
        if len(right) == len(found):
            break
        found = right
    return found


def put_proposals(proposals):
    """A paragraph for each proposal."""
    for its in proposals:
        print("%d lines: %s" % (len(its.lines), its.line))
        print("  %-12s%s" % ("domain", its.domain))
        print("  %-12s%s" % ("such as", its.lines[0]))
        if its.more:
            print("  %-12s%d that weren't granted, such as take %d: %s" % (
                "grants", len(its.more), *its.more[0]))
        print()
    print("patterns %d lines %d more %d" % (
        len(proposals), sum(len(its.lines) for its in proposals),
        sum(len(its.more) for its in proposals)))


def put_lines(play, proposals):
    """The proposed lines under their domains, as they are appended to domain_policy."""
    by_name = {domain.name: domain for domain in play.names.domains.all}
    lines = Suggested({domain.name for domain in play.opening.domains})
    for its in proposals:
        lines.add({by_name[its.domain]: [its.line]})
    if lines.text() and lacks_end(play.files["domain_policy"]):
        sys.stdout.write("\n")  # what is appended begins a line of its own
    sys.stdout.write(lines.text())


def main(line):
    if line not in ([], ["--lines"]):
        raise Stop("shapes takes --lines alone", BAD_WORDS)
    engine = Engine()
    play = StoredPlay(engine)
    play.finish()
    proposals = all_proposals(engine, play)
    if line:
        put_lines(play, proposals)
    else:
        put_proposals(proposals)
    return 0
