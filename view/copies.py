"""Plays of copies in which what enforces learns, and what they say of the stored play."""
from history import Numbered, domains_of
from plays import moves, origins
from runs import read_run
from texts import lines_of, read_if_there, words

UNBOUNDED = "max_learning_entry=4294967295"


def learning_line(line):
    """A profile line in which enforcing is learning, and nothing is full.

    Logs tell the two apart afterwards: what was enforcing is logged, and nothing else is."""
    line_words = words(line)
    keys = [word.partition("=")[0] for word in line_words[1:]]
    if keys.count("max_learning_entry") == 1:
        line_words = [UNBOUNDED if word.startswith("max_learning_entry=") else word
                      for word in line_words]
    if keys.count("mode") != 1 or max(keys.count("grant_log"), keys.count("reject_log")) > 1:
        return " ".join(line_words)
    kept = [word for word in line_words if not word.startswith(("grant_log=", "reject_log="))]
    place = [word.partition("=")[0] for word in kept].index("mode")
    was_enforcing = kept[place] == "mode=enforcing"
    kept[place:place + 1] = ["mode=learning" if was_enforcing else kept[place], "grant_log=no",
                             "reject_log=yes" if was_enforcing else "reject_log=no"]
    return " ".join(kept)


def learning_profile(text):
    """A printed profile in which enforcing is learning."""
    return "".join(learning_line(line) + "\n" for line in lines_of(text))


def learning_edits(text):
    """The lines of editors, of which none makes anything enforcing."""
    made = []
    for line in lines_of(text):
        is_profile = words(line)[:1] == ["profile"]
        made.append("profile " + learning_line(" ".join(words(line)[1:])) if is_profile else line)
    return "".join(line + "\n" for line in made)


def without_quota(text):
    """A printed domain_policy in which no domain is full."""
    made = [" ".join(words(line)) for line in lines_of(text)]
    return "".join(line + "\n" for line in made if line != "quota_exceeded")


class Copy:
    """A play of the same files in which enforcing is learning, with more lines for some domains."""

    def __init__(self, engine, play, more):
        texts = play.opening.texts
        policy = without_quota(texts["domain_policy"]) + text_of(more)
        files = dict(texts, profile=learning_profile(texts["profile"]), domain_policy=policy)
        files["trace"] = play.trace_text
        files["edits"] = learning_edits(read_if_there("edits"))
        files["schedule"] = read_if_there("schedule")
        self.files = files
        self.run = read_run(engine.played(files))
        self.numbered = Numbered(domains_of(policy), self.run.steps)
        self.numbered.finish()
        self.behind = origins(play, self.leads_nowhere)

    def domain_before(self, take):
        return self.numbered.domain(take.before)

    def leads_nowhere(self, number):
        """Whether a take is denied here too, or stays since its domain can't be entered."""
        take = self.run.takes[number - 1]
        return not take.is_granted or take.last.move == "fail"

    def nowhere(self, play):
        """The takes that are denied a move in the play, and that lead nowhere here."""
        return [take for take in self.run.takes if self.leads_nowhere(take.number)
                and take.number not in self.behind
                and not play.run.takes[take.number - 1].is_granted
                and moves(play.asked(take).request)]

    def learning(self):
        """The takes that were learned from where the mode was enforcing, each with its line. Those
        behind one that leads nowhere are none: what they ask belongs to a domain that isn't there.
        """
        for take in self.run.takes:
            if not take.is_logged or self.leads_nowhere(take.number) or take.number in self.behind:
                continue
            for number in take.last.steps:
                step = self.run.steps[number - 1]
                if step.kind == "learn":
                    yield take, " ".join(step.rest[1:])

    def learned(self):
        """The lines that were learned where the mode was enforcing, by domain."""
        found = {}
        for take, line in self.learning():
            found.setdefault(self.domain_before(take), []).append(line)
        return found

    def transitions(self, play, is_granted):
        """The manual transitions that are granted, or those that no line grants, by domain."""
        found = {}
        for take in self.run.takes:
            is_manual = play.asked(take).request.startswith("task ")
            if is_manual and take.is_granted == is_granted and take.last.reason != "not_ready" \
                    and take.number not in self.behind:
                found.setdefault(self.domain_before(take), []).append(play.asked(take).text())
        return found


class Suggested:
    """Lines for domains, in the order in which they were found."""

    def __init__(self, opened):
        self.opened = opened
        self.domains = {}
        self.lines = {}

    def add(self, found):
        """Adds lines, and says whether one is new."""
        before = self.count()
        for domain, lines in found.items():
            if not lines:
                continue
            self.domains.setdefault(domain.name, domain)
            self.lines.setdefault(domain.name, {}).update(dict.fromkeys(lines))
        return self.count() > before

    def shared(self, found):
        """Those lines of others that stand here."""
        return {domain: [line for line in lines if line in self.lines.get(domain.name, ())]
                for domain, lines in found.items() if domain.name in self.lines}

    def count(self):
        return sum(map(len, self.lines.values()))

    def new_domains(self):
        return [name for name in self.lines if name not in self.opened]

    def text(self):
        """The lines as they are appended to domain_policy, under their domains."""
        made = []
        for name, lines in self.lines.items():
            header = [] if name in self.opened else self.domains[name].header
            made += [name, *header, *lines, ""]
        return "".join(line + "\n" for line in made)


def text_of(suggested):
    return suggested.text() if suggested else ""


def freed(engine, play):
    """A copy that denies nothing that a line can grant, and the lines that it needs."""
    opened = {domain.name for domain in play.opening.domains}
    more = Suggested(opened)
    copy = Copy(engine, play, None)
    while more.add(copy.transitions(play, is_granted=False)):
        copy = Copy(engine, play, more)
    suggested = Suggested(opened)
    suggested.domains.update(more.domains)
    suggested.add(more.shared(copy.transitions(play, is_granted=True)))
    suggested.add(copy.learned())
    return copy, suggested
