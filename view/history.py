"""Domains by their numbers, and the policy as it stands at each version of a run."""
from policies import Domain, Entries, namespace_of
from texts import MIXED, Stop, lines_of, words

KERNEL = "<kernel>"


class Domains:
    """The domains by number, as lines and steps make them. A deleted one keeps its number."""

    def __init__(self):
        self.all = [Domain(KERNEL)]
        self.live = {KERNEL: 0}

    def name(self, number):
        if number >= len(self.all):
            raise other_files("domain_policy")
        return self.all[number].name

    def make(self, name, profile="0", groups=()):
        """Makes a domain, and returns its number."""
        self.live[name] = len(self.all)
        self.all.append(Domain(name, profile, groups))
        return self.live[name]

    def do_name_line(self, line_words):
        """Does a line that begins with a name, `select` or `delete` before one: which is chosen."""
        if line_words[0] == "select":
            return self.live.get(" ".join(line_words[1:]))
        if line_words[0] == "delete":
            self.live.pop(" ".join(line_words[1:]), None)
            return None
        name = " ".join(line_words)
        return self.live[name] if name in self.live else self.make(name)

    def do_setting(self, domain, line_words):
        """Does a line of a domain's profile, groups or flags, and says whether it is one."""
        deletes = line_words[0] == "delete"
        kind, value = line_words[deletes], line_words[-1]
        if kind == "use_profile":
            domain.profile = value
        elif kind == "use_group" and deletes:
            domain.groups.discard(value)
        elif kind == "use_group":
            domain.groups.add(value)
        return kind in ("use_profile", "use_group", "quota_exceeded", "transition_failed")

    def live_domains(self):
        """The live domains by rising number."""
        return [self.all[number] for number in sorted(self.live.values())]


def names_domain(line_words):
    """Whether a line of domain_policy chooses, makes or deletes a domain."""
    return line_words[0].startswith("<") or \
        line_words[0] in ("select", "delete") and line_words[1:2] != [] \
        and line_words[1].startswith("<")


def domains_of(text):
    """The domains of a domain_policy as somebody wrote it, without their entries."""
    domains, chosen = Domains(), None
    for line in lines_of(text):
        line_words = words(line)
        if not line_words:
            continue
        if names_domain(line_words):
            chosen = domains.do_name_line(line_words)
        elif chosen is not None and len(line_words) > 1:
            domains.do_setting(domains.all[chosen], line_words)
    return domains


def other_files(name):
    """What is said where a file isn't the one of the play that is stored."""
    return Stop("run isn't of this %s: play again" % name, MIXED)


class Numbered:
    """The domains by number at a version of a run, to which more steps are made."""

    def __init__(self, domains, steps):
        self.domains = domains
        self.steps = steps
        self.version = 0
        self.chosen = {}

    def advance(self, version):
        """Makes the steps up to a version, which is no earlier one."""
        while self.version < version:
            self.make_step(self.steps[self.version])
            self.version += 1

    def finish(self):
        """Makes all steps."""
        self.advance(len(self.steps))

    def make_step(self, step):
        if step.kind == "learn" and step.reply == "added":
            self.learn(step)
        elif step.kind == "make" and step.reply.startswith("new:"):
            parent = self.domain(step.rest[0])
            self.domains.make(" ".join(step.rest[1:]), parent.profile, parent.groups)
        elif step.kind == "edit" and step.reply == "done":
            editor, file, *line_words = step.rest
            if file == "domain_policy":
                self.edit_domain(editor, line_words)
            elif file == "exception_policy":
                self.edit_group(line_words)

    def domain(self, number):
        """The domain of a number."""
        self.domains.name(int(number))
        return self.domains.all[int(number)]

    def edit_domain(self, editor, line_words):
        """An editor's line of domain_policy, with that editor's cursor."""
        if names_domain(line_words):
            self.chosen[editor] = self.domains.do_name_line(line_words)
            return
        chosen = self.chosen.get(editor)
        if chosen is None:
            raise other_files("domain_policy")
        domain = self.domains.all[chosen]
        if not self.domains.do_setting(domain, line_words):
            self.edit_entries(domain.entries, line_words)

    def learn(self, step):
        """A learned line: of no concern to names."""

    def edit_group(self, line_words):
        """An editor's line of exception_policy: of no concern to names."""

    def edit_entries(self, entries, line_words):
        """An editor's access control line: of no concern to names."""


class History(Numbered):
    """The same with the entries of the domains and of the ACL groups.

    `normal` has the normal form of each access control line of an editor, by its words."""

    def __init__(self, domains, opening, steps, normal):
        super().__init__(domains, steps)
        self.groups = opening.groups
        self.normal = normal
        live = domains.live_domains()
        if [domain.name for domain in live] != [domain.name for domain in opening.domains]:
            raise other_files("domain_policy")
        for domain, opened in zip(live, opening.domains):
            domain.entries = opened.entries

    def learn(self, step):
        self.domain(step.rest[0]).entries.add(" ".join(step.rest[1:]))

    def edit_group(self, line_words):
        deletes = line_words[:1] == ["delete"]
        rest = line_words[deletes:]
        namespace = rest.pop(0) if rest[0].startswith("<") else KERNEL
        if rest[0] == "acl_group":
            group = self.groups.setdefault((namespace, rest[1]), Entries())
            self.edit_entries(group, ["delete"] * deletes + rest[2:])

    def edit_entries(self, entries, line_words):
        deletes = line_words[0] == "delete"
        line = self.normal[" ".join(line_words[deletes:])]
        (entries.remove if deletes else entries.add)(line)

    def entry(self, number, reason):
        """The entry that a look's reason names, or None where it names none."""
        kind, _, place = reason.partition(":")
        entries = self.domain(number).entries
        if kind == "group":
            group, _, place = place.partition(":")
            namespace = namespace_of(self.domains.name(number))
            entries = self.groups.get((namespace, group), Entries())
        elif kind != "entry":
            return None
        if int(place) >= len(entries.order):
            raise other_files("domain_policy")
        return entries.order[int(place)]

    def is_end(self, domains, groups):
        """Whether the policy as it stands has these live domains and ACL groups."""
        live = self.domains.live_domains()
        return [told(domain) for domain in live] == [told(domain) for domain in domains] and \
            lines_by_group(self.groups) == lines_by_group(groups)


def told(domain):
    """What is compared of a domain."""
    return domain.name, domain.profile, domain.groups, domain.entries.lines()


def lines_by_group(groups):
    """The lines of each ACL group that has one."""
    return {place: group.lines() for place, group in groups.items() if group.order}


def edited_lines(steps):
    """The access control lines of editors, without `delete`, each once."""
    found = {}
    for step in steps:
        if step.kind != "edit" or step.reply != "done":
            continue
        line_words = [word for word in step.rest[2:3] if word != "delete"] + step.rest[3:]
        if step.rest[1] == "exception_policy":
            line_words = line_words[line_words[0].startswith("<"):]
            line_words = line_words[2:] if line_words[0] == "acl_group" else []
        elif step.rest[1] != "domain_policy":
            line_words = []
        if line_words and line_words[0] in ("file", "network", "misc", "task"):
            found[" ".join(line_words)] = True
    return list(found)
