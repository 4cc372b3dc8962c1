"""The tree of domains as a picture in SVG."""
from html import escape

HIGH, INDENT, COLUMN, LETTER = 18, 16, 62, 7.3
BAR, THICK = 160, 10
GRANTED, DENIED, GREY = "#93c5fd", "#f87171", "#6b7280"


def text(x, y, words, anchor="start", colour="#1f2937"):
    return '<text x="%d" y="%d" text-anchor="%s" fill="%s">%s</text>' % (
        x, y, anchor, colour, escape(words))


def strip(x, y, wide, colour):
    """A piece of a bar on the line of text at y."""
    return '<rect x="%.1f" y="%d" width="%.1f" height="%d" fill="%s"/>' % (
        x, y - THICK, wide, THICK, colour)


def bar(x, y, asked, denied, most):
    """How many requests a domain was asked for, as a bar; those that were denied are red."""
    whole = BAR * asked / most
    red = BAR * denied / most
    return [strip(x + left, y, wide, colour)
            for left, wide, colour in ((0, whole - red, GRANTED), (whole - red, red, DENIED))
            if wide]


def legend(x, y):
    """What the colours of the bars count."""
    drawn = []
    for colour, word in ((GRANTED, "granted"), (DENIED, "denied")):
        drawn += [strip(x, y, THICK, colour), text(x + THICK + 4, y, word, colour=GREY)]
        x += THICK + 4 + (len(word) + 2) * LETTER
    return drawn


def branch(place, row, rows, left):
    """The line from a domain to the one that it stands below."""
    above = next((at for at in range(place - 1, -1, -1) if rows[at].depth < row.depth), None)
    if above is None:
        return []
    x, y = left + (row.depth - 1) * INDENT + 4, (place + 2) * HIGH - 4
    return ['<path d="M%d %d V%d H%d" fill="none" stroke="#9ca3af"/>' % (
        x, (above + 2) * HIGH + 2, y, x + INDENT - 6)]


def picture(rows, columns):
    """The picture of rows with these columns: numbers, a bar, and the names as a tree."""
    names = len(columns) * COLUMN + BAR + 30
    widest = max([row.depth * INDENT + len(row.text) * LETTER for row in rows] or [0])
    most = max([row.numbers[2] for row in rows] + [1])
    bars = len(columns) * COLUMN + 12
    drawn = [text((place + 1) * COLUMN, HIGH - 4, column, "end", GREY)
             for place, column in enumerate(columns)]
    drawn += legend(bars, HIGH - 4)
    drawn.append(text(names, HIGH - 4, "domain [profile]", colour=GREY))
    for place, row in enumerate(rows):
        y = (place + 2) * HIGH
        drawn += [text((at + 1) * COLUMN, y, str(number), "end")
                  for at, number in enumerate(row.numbers)]
        drawn += bar(bars, y, row.numbers[2], row.numbers[4], most)
        drawn += branch(place, row, rows, names)
        drawn.append(text(names + row.depth * INDENT, y, row.text))
    size = names + widest + 20, (len(rows) + 2) * HIGH
    head = '<svg xmlns="http://www.w3.org/2000/svg" width="%d" height="%d"' % size
    font = ' font-family="monospace" font-size="12">'
    return "\n".join([head + font, '<rect width="100%" height="100%" fill="white"/>',
                      *drawn, "</svg>"]) + "\n"
