"""usage: tomoyo [-C DIR] suggest

Tells the lines that would grant what was denied, or left to a
supervisor, as the program itself learns them: it plays a copy in
which enforcing is learning, and what is learned there is written
under the names of its domains. Appended to domain_policy, as by
`tomoyo suggest >> domain_policy`, these lines make the play deny
nothing that lines can grant. Read them first, and leave out what no
program should do: on standard error it says how many grant what a
line with a condition was written to withhold. Where an execute or a
manual transition leads into a domain of a namespace that isn't
there, no line grants it, and nothing is suggested for what stands
behind it; it says which domain and which profile to write.

Reads    run and the .new files, as a play has stored them, and the
         files that it has read; they have to be those of one play
Stores   nothing
Prints   the lines; and on standard error how many they are, how
         many requests are still denied in a play with them, and
         what isn't seen here: requests that passed in permissive
         mode or in disabled mode, and those that learned nothing

Exit statuses: 0 nothing was denied; 1 bad words; 2 something was
denied; 65 the files aren't those of one play, 66 one is missing or
can't be read, 70 the program can't be asked.
"""
import sys

from clean import Unclean, let_pass, warn_of_disabled
from copies import freed
from engine import Engine
from entering import entered, made
from plays import StoredPlay, origins
from policies import CONDITIONS
from questions import Question, answers
from sentences import shortened
from texts import BAD_WORDS, DENIED, Stop, counted, lacks_end, read_if_there

SCRIPTS = ("edits", "answers", "schedule")


def still_denied(engine, play, text):
    """How many requests are denied in the same play with more lines in domain_policy."""
    files = dict(play.files, trace=play.trace_text)
    files["domain_policy"] += "\n" + text
    files.update((name, read_if_there(name)) for name in SCRIPTS)
    return engine.done("step", files, []).line.split(" ")[5]


def say_what_is_hidden(play):
    """Says what no line is suggested for, since this play doesn't deny it."""
    passed, full = len(let_pass(play.run)), len(Unclean(play.run).quota)
    if passed:
        sys.stderr.write("tomoyo: %s that no line grants passed in permissive mode: make it "
                         "enforcing in profile, and play\n" %
                         counted(passed, "1 request", "%d requests"))
    if full:
        sys.stderr.write("tomoyo: %s learned nothing, since the domain was full: `tomoyo why`\n" %
                         counted(full, "1 request", "%d requests"))
    warn_of_disabled(play)


def is_as_learned(line):
    """Whether the conditions of a line are just those that learning writes."""
    lefts = [word.partition("=")[0] for word in line.split(" ") if word.startswith(CONDITIONS)]
    return lefts in (["exec.realpath", "exec.argv[0]"], ["symlink.target"])


def conditional(engine, play, copy, suggested):
    """The suggested lines that would not be needed but for the condition of another, which isn't as
    learned ones are, each with that other line."""
    asked = {}
    for take, line in copy.learning():
        domain = copy.domain_before(take)
        if line in suggested.lines.get(domain.name, ()):
            known = play.asked(take)
            asked.setdefault((domain.name, line), Question(domain, known.request, known.ids))
    found = answers(engine, list(asked.values()))
    return [(line, answer.conditional) for (_, line), answer in zip(asked, found)
            if answer.conditional and not answer.granted and not is_as_learned(answer.conditional)]


def say_lifted(found):
    """Says that suggested lines grant what a condition withholds."""
    if found:
        sys.stderr.write("tomoyo: %s what the condition of another withholds, such as `%s` beside "
                         "`%s`\n" % (counted(len(found), "1 of these lines grants",
                                             "%d of these lines grant"), *found[0]))


def say_unlifted(engine, play, copy):
    """Says of what is denied and no line can grant what has to be made."""
    takes = copy.nowhere(play)
    if not takes:
        return
    names = entered(engine, play, copy, takes)
    found = origins(play, {take.number for take in takes}.__contains__)
    behind = [origin for number, origin in found.items()
              if not play.run.takes[number - 1].is_granted]
    told = {}
    for take in takes:
        name = names.get(take.number)
        told.setdefault((name, copy.domain_before(take).profile), []).append(take)
    for (name, profile), these in told.items():
        count = sum(behind.count(take.number) for take in these)
        said = made(play, name, profile) if name else \
            "the domain that it leads to isn't there, or its name is too long"
        sys.stderr.write("tomoyo: no line is enough for take %d (%s)%s%s: %s\n" % (
            these[0].number, shortened(play.asked(these[0]).text()),
            " and %d more" % (len(these) - 1) if these[1:] else "",
            ", with %d denied behind" % count if count else "", said))


def main(line):
    if line:
        raise Stop("suggest takes no words", BAD_WORDS)
    engine = Engine()
    play = StoredPlay(engine)
    say_what_is_hidden(play)
    if not play.run.denied():
        sys.stderr.write("tomoyo: nothing was denied\n")
        return 0
    play.finish()
    copy, suggested = freed(engine, play)
    text = suggested.text()
    if text and lacks_end(play.files["domain_policy"]):
        sys.stdout.write("\n")  # what is appended begins a line of its own
    sys.stdout.write(text)
    sys.stdout.flush()
    denied = still_denied(engine, play, text)
    say_lifted(conditional(engine, play, copy, suggested))
    say_unlifted(engine, play, copy)
    sys.stderr.write("tomoyo: lines %d domains %d new %d; with them denied %s\n" % (
        suggested.count(), len(suggested.lines), len(suggested.new_domains()), denied))
    return DENIED
