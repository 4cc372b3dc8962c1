"""What a trace asks: its requests in their order, and how processes descend."""
from typing import NamedTuple

from policies import permissions_of, without_conditions
from texts import MIXED, Stop, lines_of, words


class Asked(NamedTuple):
    """A request with its attributes, the line of the trace, the process and its ids."""
    line: int
    pid: str
    request: str
    ids: tuple

    def text(self):
        """The request without its attributes."""
        try:
            return without_conditions(self.request)
        except (IndexError, KeyError):
            raise none_of_a_trace(self.line) from None

    def permission(self):
        """The permission that it asks for."""
        try:
            [permission] = permissions_of(self.request)
        except (IndexError, ValueError):
            raise none_of_a_trace(self.line) from None
        return permission


def none_of_a_trace(number):
    """What is said where the trace isn't one, which the program would have refused."""
    return Stop("trace line %d is none of a trace: it isn't what was played" % number, MIXED)


class Trace:
    """The requests of a trace, and the forks, by how many requests stand before them."""

    def __init__(self):
        self.asked = []
        self.forks = {}

    def add(self, number, line_words, ids):
        """One line; `ids` has those of each process."""
        kind, pid, *rest = line_words
        if kind == "ids":
            ids[pid] = tuple(rest)
        elif kind == "fork":
            [child] = rest
            self.forks.setdefault(len(self.asked), []).append((pid, child))
            ids[child] = ids.get(pid, ())
        elif kind == "do":
            self.asked.append(Asked(number, pid, " ".join(rest), ids.get(pid, ())))
        else:
            raise ValueError


def asking(text):
    """The process of each request of a trace."""
    split = [words(line) for line in lines_of(text)]
    return [line_words[1] for line_words in split if line_words[:1] == ["do"] and line_words[1:]]


def read_trace(text):
    """The trace of a text that the program has read."""
    trace, ids = Trace(), {}
    for number, line in enumerate(lines_of(text), 1):
        line_words = words(line)
        if not line_words or line_words[0] == "tree":
            continue
        try:
            trace.add(number, line_words, ids)
        except ValueError:
            raise none_of_a_trace(number) from None
    return trace
