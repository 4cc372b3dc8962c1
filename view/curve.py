"""usage: tomoyo [-C DIR] curve

Tells how many lines and domains each tenth of the requests of a
play added to the policy. Where the last tenths still add as many as
the first ones, a longer recording would teach more. In the bars #
stands for lines that were learned, and - for requests that learned
nothing since their domain was full: what these would have taught
isn't known.

Reads    run, as a play has stored it, and the files that the play
         has read; they have to be those of one play
Stores   nothing
Prints   a line for each tenth, and one for all; and where a domain
         was full, how many requests learned nothing

Exit statuses: 0 done; 1 bad words; 65 the files aren't those of one
play, 66 one is missing or can't be read.
"""
from clean import is_full, steps_of
from engine import Engine
from plays import stored_run
from texts import BAD_WORDS, Stop, counted

PARTS, WIDE = 10, 40


def added(run, take):
    """The lines and the domains that a take added, and whether a line was left out."""
    steps = steps_of(run, take)
    lines = sum((step.kind, step.reply) == ("learn", "added") for step in steps)
    domains = sum(step.kind == "make" and step.reply.startswith("new:") for step in steps)
    return lines, domains, is_full(run, take)


def curve(run):
    """The parts of a run: the first and the last request, the lines and the domains that were
    added, and the lines that were left out."""
    count = len(run.takes)
    parts = min(PARTS, count)
    found = []
    for part in range(parts):
        first, end = part * count // parts, (part + 1) * count // parts
        each = [added(run, take) for take in run.takes[first:end]]
        found.append((first + 1, end, *map(sum, zip(*each))))
    return found


def main(line):
    if line:
        raise Stop("curve takes no words", BAD_WORDS)
    parts = curve(stored_run(Engine()))
    most = max([lines + left_out for _, _, lines, _, left_out in parts] + [1])
    print("%15s %8s %8s  # lines" % ("requests", "lines", "domains"))
    for first, last, lines, domains, left_out in parts:
        bar = "#" * (WIDE * lines // most) + "-" * (WIDE * left_out // most)
        print(("%7d-%7d %8d %8d  %s" % (first, last, lines, domains, bar)).rstrip())
    print("%15s %8d %8d" % ("all", sum(part[2] for part in parts), sum(part[3] for part in parts)))
    left_out = sum(part[4] for part in parts)
    if left_out:
        print("%s learned nothing (-): a domain was full, `tomoyo why` tells which" % counted(
            left_out, "1 request", "%d requests"))
    return 0
