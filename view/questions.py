"""What the policy as it stands after a play says of requests: which line would grant each."""
import re
from typing import NamedTuple

from copies import UNBOUNDED, without_quota
from policies import Domain, namespace_of, permissions_of, read_domains, read_groups, \
    split_line, without_conditions
from runs import read_run
from texts import lines_of, read, words

# What one call of the program is asked at most: the trees of a trace, and bytes.
TREES, BYTES = 4096, 1 << 22

PROFILE = re.compile(r"(<\S+>) (\d+)-CONFIG=")


class Question(NamedTuple):
    """A request with its attributes, its domain, and the ids of its process."""
    domain: object
    request: str
    ids: tuple

    def lines(self, number):
        """A tree with this request alone."""
        ids = ["ids %d %s" % (number, " ".join(self.ids))] if self.ids else []
        return ["tree %d %s" % (number, self.domain.name), *ids,
                "do %d %s" % (number, self.request)]


class Answer:
    """The line that would grant, which is the one that learning would write or that of a manual
    transition; the one that grants already; and the one that would but for its condition: each of
    them a text, or None."""

    def __init__(self):
        self.line = None
        self.granted = None
        self.conditional = None


def stripped(line):
    """A line of a printed policy without the conditions of the access control line in it."""
    line_words = words(line)
    front = line_words[:3] if line_words[1:2] == ["acl_group"] else []
    rest = line_words[len(front):]
    if rest[:1] not in (["file"], ["network"], ["misc"], ["task"]):
        return line
    return " ".join(front + [without_conditions(" ".join(rest))])


def stripped_text(text):
    return "".join(stripped(line) + "\n" for line in lines_of(text))


def learning_profiles(text):
    """The profiles of a printed profile, each with all of it learning."""
    made = []
    for line in lines_of(text):
        found = PROFILE.match(line)
        if found:
            made += ["%s %s-CONFIG={ mode=learning grant_log=no reject_log=no }" % found.groups(),
                     "%s %s-PREFERENCE={ %s }" % (*found.groups(), UNBOUNDED)]
    return "".join(line + "\n" for line in made)


class Standing:
    """The policy after a play, with each domain that is asked of."""

    def __init__(self, engine, questions):
        self.engine = engine
        self.profile = learning_profiles(read("profile.new"))
        self.exceptions = read("exception_policy.new")
        self.policy = without_quota(read("domain_policy.new"))
        self.domains = {domain.name: domain for domain in read_domains(self.policy)}
        self.groups = read_groups(self.exceptions)
        self.shared = {}
        for gone in [question.domain for question in questions]:
            if gone.name not in self.domains:
                self.domains[gone.name] = Domain(gone.name)
                self.policy += "%s\nuse_profile %s\n" % (gone.name, gone.profile)

    def looks(self, questions, changed=str, more=""):
        """The looks at the questions, and the steps, where the exceptions and the domains are
        changed so, and have these lines more."""
        lines = [line for number, question in enumerate(questions, 1)
                 for line in question.lines(number)]
        files = {"profile": self.profile, "exception_policy": changed(self.exceptions),
                 "domain_policy": changed(self.policy) + more, "trace": "\n".join(lines) + "\n"}
        run = read_run(self.engine.played(files))
        return [take.last for take in run.takes], run.steps

    def entries(self, question, reason):
        """The entries among which a reason names one, and its place there."""
        kind, *places = reason.split(":")
        if kind == "entry":
            return self.domains[question.domain.name].entries, int(places[0])
        return self.groups[namespace_of(question.domain.name), places[0]], int(places[1])

    def granting(self, question, look):
        """The line that grants, or None."""
        if not look.reason.startswith(("entry:", "group:")):
            return None
        entries, place = self.entries(question, look.reason)
        return told(look.reason, entries.order[place].line())

    def sharing(self, entries):
        """The entries of a list that share one where none has conditions, by its place then."""
        if entries not in self.shared:
            by_key = {}
            for entry in entries.order:
                key = split_line(without_conditions(entry.line()))[0]
                by_key.setdefault(key, []).append(entry)
            self.shared[entries] = list(by_key.values())
        return self.shared[entries]

    def conditional(self, question, look):
        """The line that grants where none has conditions, or None: of those that share the entry it
        is the first that has the permission."""
        if not look.reason.startswith(("entry:", "group:")):
            return None
        entries, place = self.entries(question, look.reason)
        [permission] = permissions_of(question.request)
        fitting = [entry for entry in self.sharing(entries)[place]
                   if permission in entry.permissions]
        return told(look.reason, fitting[0].line())


def told(reason, line):
    """A line with the ACL group that it is of."""
    kind, *places = reason.split(":")
    return line if kind == "entry" else "acl_group %s %s" % (places[0], line)


def chunks(questions):
    """The questions in lists that one call of the program takes."""
    made, size = [[]], 0
    for question in questions:
        bytes_here = sum(len(line) + 1 for line in question.lines(TREES))
        if len(made[-1]) == TREES or size + bytes_here > BYTES and made[-1]:
            made.append([])
            size = 0
        made[-1].append(question)
        size += bytes_here
    return made


def learned_line(look, steps):
    """The line that a look learned, or None."""
    learned = [steps[number - 1] for number in look.steps if steps[number - 1].kind == "learn"]
    return " ".join(learned[0].rest[1:]) if learned else None


def answered_manual(standing, asked):
    """The answers get the lines of manual transitions that are granted with them."""
    manual = [(question, answer) for question, answer in asked
              if question.request.startswith("task ")]
    if not manual:
        return
    questions = [question for question, _ in manual]
    more = "".join("%s\n%s\n" % (question.domain.name, without_conditions(question.request))
                   for question in questions)
    looks, _ = standing.looks(questions, more=more)
    for (question, answer), look in zip(manual, looks):
        if look.reason.startswith("entry:"):
            answer.line = without_conditions(question.request)


def answers(engine, questions):
    """The answer to each question."""
    found, standing = [], Standing(engine, questions) if questions else None
    for asked in chunks(questions) if questions else []:
        looks, steps = standing.looks(asked)
        bare, _ = standing.looks(asked, changed=stripped_text)
        made = [Answer() for _ in asked]
        for question, answer, look, bare_look in zip(asked, made, looks, bare):
            answer.granted = standing.granting(question, look)
            answer.conditional = standing.conditional(question, bare_look)
            answer.line = learned_line(look, steps)
        answered_manual(standing, list(zip(asked, made)))
        found += made
    return found
