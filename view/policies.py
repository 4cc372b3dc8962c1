"""Policies as lists of domains and of lines that grant."""
from texts import MIXED, Stop, lines_of, read, words

# The permissions of each row of lines, in the order in which a line that has several is printed,
# and how many arguments follow them. Those of `network unix` have one argument, of the others two.
ROWS = (("execute read write append unlink getattr rmdir truncate symlink chroot unmount", 1),
        ("create mkdir mkfifo mksock ioctl chmod chown chgrp", 2), ("mkblock mkchar", 4),
        ("link rename pivot_root", 2), ("mount", 4), ("bind listen connect send", 2), ("env", 1),
        ("manual_domain_transition", 1))
PERMISSIONS = [permission for row, _ in ROWS for permission in row.split()]
ARGUMENTS = {permission: count for row, count in ROWS for permission in row.split()}

# How the words behind the arguments begin: the conditions of a line, the attributes of a request.
CONDITIONS = ("task.", "path1.", "path2.", "exec.", "symlink.target", "grant_log=")


def permission_place(line_words):
    """Which word of an access control line or a request is its permissions."""
    return 3 if line_words[0] == "network" else 1


def split_line(line):
    """A line in two: its words before and behind its permissions, and these."""
    line_words = line.split(" ")
    place = permission_place(line_words)
    permissions = line_words[place].split("/")
    if not ARGUMENTS.keys() >= set(permissions):
        raise ValueError
    return (tuple(line_words[:place]), tuple(line_words[place + 1:])), permissions


def permissions_of(line):
    """The permissions of a line or a request."""
    return split_line(line)[1]


def without_conditions(line):
    """A line without its conditions, or a request without its attributes."""
    kept = line.split(" ")
    place = permission_place(kept)
    count = 1 if kept[:2] == ["network", "unix"] else ARGUMENTS[kept[place].split("/")[0]]
    first = place + count + 1
    return " ".join(kept[:first] + [word for word in kept[first:]
                                    if not word.startswith(CONDITIONS)])


class Entry:
    """What lines of equal arguments and conditions share, in their normal form."""
    __slots__ = ("key", "permissions", "idle")

    def __init__(self, key):
        self.key = key
        self.permissions = set()
        self.idle = set()

    def line(self, permissions=None):
        """The entry's line, with these permissions or with its own."""
        before, behind = self.key
        shown = self.permissions if permissions is None else permissions
        return " ".join([*before, "/".join(sorted(shown, key=PERMISSIONS.index)), *behind])


class Entries:
    """A list of entries, as lines are added to it and removed from it."""

    def __init__(self):
        self.order = []
        self.by_key = {}

    def add(self, line):
        """A line joins the entry that shares its arguments and conditions, or goes last."""
        key, permissions = split_line(line)
        entry = self.by_key.get(key)
        if entry is None:
            entry = self.by_key[key] = Entry(key)
            self.order.append(entry)
        entry.permissions.update(permissions)

    def remove(self, line):
        """Takes the permissions of a line out. An entry without any goes away."""
        key, permissions = split_line(line)
        entry = self.by_key.get(key)
        if entry is None:
            return
        entry.permissions.difference_update(permissions)
        if not entry.permissions:
            del self.by_key[key]
            self.order.remove(entry)

    def lines(self):
        return [entry.line() for entry in self.order]


class Domain:
    """A domain: its name, what its lines say, and the header of one that begins as it did."""

    def __init__(self, name, profile="0", groups=()):
        self.name = name
        self.profile = profile
        self.groups = set(groups)
        self.flags = []
        self.entries = Entries()
        self.header = ["use_profile %s" % profile]
        self.header += ["use_group %s" % group for group in sorted(groups, key=int)]


def stored(name, reader):
    """What a reader makes of a printed file that a play has stored."""
    try:
        return reader(read(name))
    except (IndexError, ValueError):
        raise Stop("%s is none that a play stores: play again" % name, MIXED) from None


def read_domains(text):
    """The domains of a printed domain_policy, in their order."""
    domains = []
    for line in lines_of(text):
        line_words = words(line)
        if not line_words:
            continue
        if line_words[0].startswith("<"):
            domains.append(Domain(" ".join(line_words)))
        elif line_words[0] == "use_profile":
            domains[-1].profile = line_words[1]
        elif line_words[0] == "use_group":
            domains[-1].groups.add(line_words[1])
        elif line_words[0] in ("quota_exceeded", "transition_failed"):
            domains[-1].flags.append(line_words[0])
        else:
            domains[-1].entries.add(" ".join(line_words))
    return domains


def read_groups(text):
    """The ACL groups of a printed exception_policy, by namespace word and number."""
    groups = {}
    for line in lines_of(text):
        line_words = words(line)
        if line_words[1:2] == ["acl_group"]:
            group = groups.setdefault((line_words[0], line_words[2]), Entries())
            group.add(" ".join(line_words[3:]))
    return groups


def namespace_of(name):
    """The namespace word of a domain's name."""
    return name.split(" ")[0]
