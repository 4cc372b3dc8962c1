"""Assertions of the module that draws the tree."""
import re
import unittest

from picture import picture
from tree import Row

COLUMNS = ("entries", "learned", "asked", "granted", "denied")
RECT = re.compile(r'<rect x="([0-9.]+)" y="(\d+)" width="([0-9.]+)" height="\d+" fill="(#\w+)"/>')


class Bars(unittest.TestCase):
    """What the bars count."""

    def drawn(self, *numbers):
        """The bars of a row with these numbers, and the words behind the squares of the legend."""
        row = Row("<kernel>", 0, "<kernel> [3]")
        row.numbers = numbers
        text = picture([row], COLUMNS)
        legend = dict(re.findall(r'fill="(#\w+)"/>\n<text [^>]*>(\w+)</text>', text))
        bars = {fill: float(wide) for _, y, wide, fill in RECT.findall(text) if int(y) > 10}
        return bars, legend

    def test_each_colour_has_its_word(self):
        bars, legend = self.drawn(1, 0, 8, 6, 2)
        self.assertEqual({legend[fill]: wide for fill, wide in bars.items()},
                         {"granted": 120.0, "denied": 40.0})

    def test_what_is_not_there_has_no_bar(self):
        for numbers, word in (((1, 0, 8, 8, 0), "granted"), ((1, 0, 8, 0, 8), "denied")):
            bars, legend = self.drawn(*numbers)
            self.assertEqual({legend[fill]: wide for fill, wide in bars.items()}, {word: 160.0})
