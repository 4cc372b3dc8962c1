"""The crates by rows.

A crate stands in the row above the highest crate that it stands on, by crates.txt. Behind the line
`<!-- crates by rows -->` of the page stand the rows, the highest first, and behind each crate those
that it stands on, without those that another of them stands on already."""
import os

from pages import TOP

MARK = "<!-- crates by rows -->"
HIGH, WIDE, GAP = 60, 132, 14


class Crates:
    """The crates with what they stand on."""

    def __init__(self, text):
        lines = [line.split("#")[0].partition(":") for line in text.split("\n")]
        listed = {name.split()[0]: deps.split() for name, _, deps in lines if name.split()}
        self.stands_on = {name: [dep for dep in deps if dep in listed]
                          for name, deps in listed.items()}
        self.rows, self.all_below = {}, {}

    def below(self, name):
        """All that a crate stands on, by whatever way."""
        if name not in self.all_below:
            found = set(self.stands_on[name])
            for other in self.stands_on[name]:
                found |= self.below(other)
            self.all_below[name] = found
        return self.all_below[name]

    def row(self, name):
        """The row of a crate, from 1."""
        if name not in self.rows:
            self.rows[name] = 1 + max([self.row(other) for other in self.stands_on[name]] or [0])
        return self.rows[name]

    def needed(self, name):
        """What a crate stands on, without what another of these stands on."""
        others = self.stands_on[name]
        return sorted(other for other in others
                      if not any(other in self.below(third) for third in others))

    def by_rows(self):
        """The rows with their crates, the highest first."""
        found = {}
        for name in sorted(self.stands_on):
            found.setdefault(self.row(name), []).append(name)
        return sorted(found.items(), reverse=True)


def drawn(crates):
    """The rows as text."""
    lines = []
    for row, names in crates.by_rows():
        for name in names:
            needed = " ".join(crates.needed(name))
            lines.append(("%2d  %s: %s" % (row, name, needed)).rstrip(": "))
    return ["```", *lines, "```"]


def listed():
    """The crates of crates.txt."""
    with open(os.path.join(TOP, "crates.txt"), encoding="utf-8") as file:
        return Crates(file.read())


def filled(page, _):
    """A page with the rows."""
    crates, lines = listed(), page.split("\n")
    begin = lines.index(MARK) + 1
    first = lines.index("```", begin)
    end = lines.index("```", first + 1)
    return "\n".join(lines[:begin] + [""] + drawn(crates) + lines[end + 1:])


def picture():
    """The rows as a picture."""
    crates, place, shapes = listed(), {}, []
    rows = crates.by_rows()
    for row, names in rows:
        for at, name in enumerate(names):
            place[name] = 40 + at * (WIDE + GAP), 20 + (rows[0][0] - row) * HIGH
    for name, (x, y) in place.items():
        for other in crates.needed(name):
            left, top = place[other]
            shapes.append('<path d="M%d %dL%d %d" stroke="#94a3b8"/>' % (
                x + WIDE / 2, y + 26, left + WIDE / 2, top))
    for name, (x, y) in place.items():
        shapes.append('<rect x="%d" y="%d" width="%d" height="26" rx="4" fill="#dbeafe"/>' % (
            x, y, WIDE))
        shapes.append('<text x="%d" y="%d" text-anchor="middle">%s</text>' % (
            x + WIDE / 2, y + 17, name))
    size = 60 + max(x for x, _ in place.values()) + WIDE, 60 + rows[0][0] * HIGH
    head = '<svg xmlns="http://www.w3.org/2000/svg" width="%d" height="%d"' % size
    return "\n".join([head + ' font-family="sans-serif" font-size="12">', *shapes, "</svg>"])
