"""usage: tomoyo [-C DIR] compare FOLDER

Tells which requests of the trace of this folder are answered
otherwise under the policy of FOLDER, or lead into other domains, or
are asked in others: it plays the trace, with the edits, answers and
schedule of this folder, under both policies. Those that change
alike are told together, with the line that decides on each side.
Those that are answered alike, and asked in another domain only
since the process was led there before, are counted. FOLDER is
looked for in DIR.

Reads    profile, domain_policy and trace, which have to be there,
         and exception_policy, manager, edits, answers and schedule;
         and of FOLDER the four policy files
Stores   nothing
Prints   a paragraph for each change, and then
         requests R answers A domains D moved M changes C

Exit statuses: 0 no request changes its answer or its domain; 1 bad
words; 2 some do; 65 a file is refused, or has no domain in which a
tree of the trace starts, 66 one is missing or can't be read, 70 the
program can't be asked.
"""
import os

from engine import Engine, policy_files
from plays import Play
from runs import read_run
from texts import BAD_WORDS, DENIED, MIXED, NO_FILE, Stop, read, read_if_there
from why import put, told_takes

SCRIPTS = ("edits", "answers", "schedule")


def played(engine, folder, trace):
    """The play of a trace under the policy of a folder."""
    files = policy_files(folder)
    more = {name: read_if_there(name) for name in SCRIPTS}
    ended = engine.call("step", dict(files, trace=trace, **more), ["run"])
    if ended.status:
        raise Stop("%s: %s" % (folder or "this folder", ended.line), MIXED)
    return Play(engine, read_run(ended.files["run"]), trace, files)


class Change:
    """What differs in a take of two plays: its answer, and the domain that it leads to. A take that
    is only asked in another domain is moved."""

    def __init__(self, plays, takes):
        self.takes = takes
        self.before = [play.name(take.before) for play, take in zip(plays, takes)]
        self.after = [play.name(take.after) for play, take in zip(plays, takes)]
        self.answers = takes[0].is_granted != takes[1].is_granted
        self.leads = self.before[0] == self.before[1] and self.after[0] != self.after[1]
        self.is_moved = self.before[0] != self.before[1]

    def key(self, request):
        """What takes that change alike have in common."""
        reasons = tuple((take.is_granted, take.last.reason, take.last.mode) for take in self.takes)
        return request, *self.before, *self.after, reasons


def put_side(side, play, take, told, is_moving):
    """What a take came to on one side."""
    put(side, "%s in %s (profile %s)" % ("granted" if take.is_granted else "denied",
                                        play.name(take.before), told.profile))
    put("", told.because)
    if is_moving:
        put("", "leads into %s" % play.name(take.after))


def put_changes(plays, groups):
    """A paragraph for each list of changes that are alike."""
    firsts = [changes[0].takes for changes in groups]
    told = [told_takes(play, [takes[side] for takes in firsts])
            for side, play in enumerate(plays)]
    for changes in groups:
        first, more = changes[0], len(changes) - 1
        asked = plays[0].asked(first.takes[0])
        print("take %d%s: trace line %d, process %s" % (
            first.takes[0].number, ", and %d like it" % more if more else "", asked.line, asked.pid))
        put("request", asked.text())
        for side, play, take, its in zip(("here", "there"), plays, first.takes, told):
            put_side(side, play, take, its[take.number], first.leads)
        print()


def main(line):
    if len(line) != 1:
        raise Stop("compare takes one folder", BAD_WORDS)
    [folder] = line
    if not os.path.isdir(folder):
        raise Stop("there is no folder %s" % folder, NO_FILE)
    engine, trace = Engine(), read("trace")
    plays = [played(engine, "", trace), played(engine, folder, trace)]
    changes = [Change(plays, takes) for takes in zip(*(play.run.takes for play in plays))]
    groups = {}
    for change in changes:
        if change.answers or change.leads:
            request = plays[0].asked(change.takes[0]).text()
            groups.setdefault(change.key(request), []).append(change)
    put_changes(plays, list(groups.values()))
    answers = sum(change.answers for change in changes)
    leads = sum(change.leads for change in changes)
    moved = sum(change.is_moved for change in changes)
    print("requests %d answers %d domains %d moved %d changes %d" % (
        len(changes), answers, leads, moved, len(groups)))
    return DENIED if answers or leads or moved else 0
