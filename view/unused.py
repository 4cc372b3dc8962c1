"""usage: tomoyo [-C DIR] unused

Tells which lines of the policy that a play began with granted
nothing in it, with those of their permissions that granted nothing,
under the names of their domains; lines of ACL groups come last.
That a recording had no use for a line doesn't say that the machine
has none.

Reads    run and the .new files, as a play has stored them, and the
         files that it has read; they have to be those of one play
Stores   nothing
Prints   the lines, and then
         entries N unused U partly P

Exit statuses: 0 done; 1 bad words; 65 the files aren't those of one
play, 66 one is missing or can't be read, 70 the program can't be
asked.
"""
from engine import Engine
from plays import StoredPlay
from texts import BAD_WORDS, Stop


def mark(play):
    """Takes from the idle permissions of each entry those that granted a request."""
    looks = [(look.version, take, look) for take in play.run.takes for look in take.looks]
    for version, take, look in sorted(looks, key=lambda it: it[0]):
        play.history.advance(version)
        entry = play.history.entry(take.before, look.reason)
        if entry:
            entry.idle.discard(play.asked(take).permission())
    play.finish()


def idle_lines(entries):
    """The lines of entries with their permissions that granted nothing."""
    return [entry.line(entry.idle) for entry in entries if entry.idle]


def main(line):
    if line:
        raise Stop("unused takes no words", BAD_WORDS)
    play = StoredPlay(Engine())
    domains = [(domain.name, list(domain.entries.order)) for domain in play.opening.domains]
    groups = [(place, list(group.order)) for place, group in play.opening.groups.items()]
    whole = {entry: set(entry.permissions) for _, entries in domains + groups for entry in entries}
    for entry in whole:
        entry.idle = set(entry.permissions)
    mark(play)
    for name, entries in domains:
        lines = idle_lines(entries)
        if lines:
            print("\n".join([name, *lines, ""]))
    for place, entries in groups:
        for idle in idle_lines(entries):
            print("%s acl_group %s %s" % (*place, idle))
    unused = sum(entry.idle == whole[entry] for entry in whole)
    partly = sum(bool(entry.idle) for entry in whole) - unused
    print("entries %d unused %d partly %d" % (len(whole), unused, partly))
    return 0
