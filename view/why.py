"""usage: tomoyo [-C DIR] why [--short | N ..]

Tells why requests were denied: those that are alike together, with
the domain by its name, what decided, what a supervisor said, and
the line that would grant it, or would but for its condition. Those
that were asked in a domain only since an execute or a manual
transition was denied before are counted behind it. Then it tells
what else made the run unclean: domains that were full, transitions
that failed, lines that weren't learned, edits, and what passed
since its mode is permissive. `why --short` has a line for each
cause, and counts by domain. `why N ..` tells of the Nth request of
the trace whatever became of it.

Reads    run and the .new files, as a play has stored them, and the
         files that it has read; they have to be those of one play
Stores   nothing
Prints   a paragraph for each cause, how the requests were judged,
         whether the run is clean and what made it unclean, and then
         requests R denied D causes C behind B

Exit statuses: 0 nothing was denied; 1 bad words; 2 something was
denied; 65 the files aren't those of one play, 66 one is missing or
can't be read, 70 the program can't be asked.
"""
import sys
from collections import Counter

from clean import Unclean, judged_line, let_pass, warn_of_disabled
from copies import freed
from engine import Engine
from plays import StoredPlay, origins
from questions import Question, answers
from texts import BAD_WORDS, DENIED, Stop, counted

SAID = {
    "no_entry": "no line of the domain or of its ACL groups grants it",
    "not_ready": "the domain that it leads to can't be entered: it isn't there and is another "
                 "namespace's, or its name is too long",
    "no_manual": "the domain has no line that lets it go there",
    "disabled": "the domain's profile asks nothing of it",
    "permissive": "no line grants it, and the mode lets it pass",
    "quota": "no line grants it, and none is learned: the domain is full",
    "learn": "no line granted it, and the mode learns it",
}
HEARD = {
    "yes": "the supervisor said yes", "no": "the supervisor said no",
    "retry": "the supervisor said that it should ask again",
    "nobody": "no supervisor was there", "detached": "the supervisor went without an answer",
}


class Told:
    """What is told of a take: where it stood, and what decided."""

    def __init__(self, play, take):
        history = play.history
        self.take = take
        self.domain = history.domain(take.before)
        self.profile = self.domain.profile
        entry = history.entry(take.before, take.last.reason)
        self.because = self.granted_by(entry) if entry else self.decided()
        learned = [play.run.steps[number - 1] for number in take.last.steps]
        self.learned = [step for step in learned if step.kind == "learn"]

    def granted_by(self, entry):
        kind, _, place = self.take.last.reason.partition(":")
        if kind == "group":
            return "a line of ACL group %s grants it: %s" % (place.split(":")[0], entry.line())
        return "a line of the domain grants it: %s" % entry.line()

    def decided(self):
        """What decided, in words."""
        if self.take.last.reason != "ask":
            return SAID.get(self.take.last.reason, self.take.last.reason)
        said = ", then ".join(HEARD.get(word, word) for word in heard_of(self.take))
        return "%s, and %s" % (SAID["no_entry"], said)


def heard_of(take):
    """What became of the queries of a take, a word each."""
    return tuple(look.learned.partition("@")[0] for look in take.looks)


def told_takes(play, takes):
    """What is told of these takes, each by the policy at the version of its last look."""
    found = {}
    for take in sorted(takes, key=lambda take: take.last.version):
        play.history.advance(take.last.version)
        found[take.number] = Told(play, take)
    return found


def behind(play, copy):
    """The denied takes that are asked in another domain where nothing is denied on the way, each
    with the number of the denied move that it stands behind."""
    found = {}
    for number, origin in origins(play, lambda number: True).items():
        take = play.run.takes[number - 1]
        elsewhere = copy.domain_before(copy.run.takes[number - 1]).name != play.name(take.before)
        if not take.is_granted and (elsewhere or copy.leads_nowhere(origin)):
            found[number] = origin
    return found


def alike(play, takes):
    """The takes in lists of those that ask the same in one domain and are denied alike."""
    found = {}
    for take in takes:
        key = take.before, play.asked(take).text(), take.last.reason, heard_of(take)
        found.setdefault(key, []).append(take)
    return list(found.values())


def put(label, text):
    print("  %-12s%s" % (label, text))


def put_take(play, told, count):
    """What a take asked, where, and what decided, and how many are like it."""
    take, asked = told.take, play.asked(told.take)
    print("take %d %s%s: trace line %d, process %s" % (
        take.number, "granted" if take.is_granted else "denied",
        ", and %d like it" % count if count else "", asked.line, take.pid))
    put("request", asked.text())
    mode = "" if take.last.mode == "none" else ", " + take.last.mode
    put("domain", "%s (profile %s%s)" % (told.domain.name, told.profile, mode))
    put("because", told.because)
    for step in told.learned:
        end = "" if step.reply == "added" else " (%s)" % step.reply
        put("learned", " ".join(step.rest[1:]) + end)
    if take.after != take.before:
        put("goes into", play.name(take.after))


def put_answer(play, take, answer):
    """What would grant a take that is denied, as the program says."""
    if answer.granted:
        put("since then", "a line grants it: %s" % answer.granted)
    elif answer.conditional:
        put("but for", "its condition a line grants it: %s" % answer.conditional)
    if answer.line:
        put("would grant", answer.line)
    elif take.last.reason == "no_manual" and not answer.granted:
        put("would grant", "%s, once that domain is there" % play.asked(take).text())


def answered(engine, play, told):
    """The answers on the takes that a line could grant, by their numbers."""
    asked = [it for it in told if not it.take.is_granted and it.take.last.reason != "not_ready"]
    questions = [Question(it.domain, play.asked(it.take).request, play.asked(it.take).ids)
                 for it in asked]
    return {it.take.number: answer for it, answer in zip(asked, answers(engine, questions))}


def tell_some(engine, play, numbers):
    """Tells of the takes of these numbers."""
    there = len(play.run.takes)
    for number in numbers:
        if not 1 <= number <= there:
            raise Stop("the run has takes 1 to %d, and no %d" % (there, number), BAD_WORDS)
    told = told_takes(play, [play.run.takes[number - 1] for number in set(numbers)])
    play.finish()
    found = answered(engine, play, told.values())
    for number in numbers:
        put_take(play, told[number], 0)
        if number in found:
            put_answer(play, told[number].take, found[number])


class Causes:
    """What the denied takes come to: lists of alike ones, and how many stand behind each."""

    def __init__(self, engine, play):
        self.denied = play.run.denied()
        led = behind(play, freed(engine, play)[0]) if self.denied else {}
        self.alike = alike(play, [take for take in self.denied if take.number not in led])
        self.led = Counter(led.values())

    def behind(self, takes):
        return sum(self.led[take.number] for take in takes)

    def line(self, play):
        return "requests %d denied %d causes %d behind %d" % (
            len(play.run.takes), len(self.denied), len(self.alike), self.led.total())


def tell_causes(engine, play, causes):
    """Tells of each cause with what would grant it."""
    if not causes.denied:
        return
    told = told_takes(play, [takes[0] for takes in causes.alike])
    play.finish()
    found = answered(engine, play, told.values())
    for takes in causes.alike:
        first = takes[0]
        put_take(play, told[first.number], len(takes) - 1)
        if first.number in found:
            put_answer(play, first, found[first.number])
        count = causes.behind(takes)
        if count:
            put("behind it", counted(count, "1 denied request, which is asked",
                                     "%d denied requests, which are asked") +
                " in this domain only since this one is denied")
        print()


def tell_shortly(play, causes):
    """Tells of each cause in a line, and of the domains that have one."""
    rows = {}
    print("%7s %7s %7s  request, domain" % ("take", "denied", "behind"))
    for takes in causes.alike:
        first, count = takes[0], causes.behind(takes)
        print("%7d %7d %7d  %s, %s" % (first.number, len(takes), count, play.asked(first).text(),
                                       play.name(first.before)))
        row = rows.setdefault(play.name(first.before), [0, 0, 0])
        row[:] = [row[0] + 1, row[1] + len(takes), row[2] + count]
    print("\n%7s %7s %7s  domain" % ("causes", "denied", "behind"))
    for name, row in rows.items():
        print("%7d %7d %7d  %s" % (*row, name))
    print()


def by_domain(takes):
    """The takes in lists of those of one domain."""
    found = {}
    for take in takes:
        found.setdefault(take.before, []).append(take)
    return list(found.values())


def put_beside(play, takes, title, because):
    """A paragraph on takes that weren't denied, by the first of them."""
    first, asked = takes[0], play.asked(takes[0])
    more = len(takes) - 1
    print("take %d %s%s: trace line %d, process %s" % (
        first.number, title, ", and %d more" % more if more else "", asked.line, first.pid))
    put("request", asked.text())
    domain = play.names.domain(first.before)
    put("domain", "%s (profile %s)" % (domain.name, domain.profile))
    put("because", because)


def put_full(play, takes):
    """A paragraph on a domain that was full."""
    put_beside(play, takes, "learned nothing", SAID["quota"])
    opened = [domain.name for domain in play.opening.domains if "quota_exceeded" in domain.flags]
    was_full = play.name(takes[0].before) in opened
    put("remedy", "patterns for names that vary, or a greater max_learning_entry%s; then play again" %
        (", and no quota_exceeded in domain_policy" if was_full else ""))


def put_edits(play, numbers):
    """A paragraph on edits that may change a mode or where an execute leads."""
    more = len(numbers) - 1
    print("step %d is an edit that may change a mode, or where an execute leads%s" % (
        numbers[0], ", and %d more are" % more if more else ""))
    put("edit", " ".join(play.run.steps[numbers[0] - 1].rest[1:]))


def tell_unclean(play, unclean):
    """Tells what beside denied requests made the run unclean."""
    for takes in by_domain(unclean.quota):
        put_full(play, takes)
        print()
    for takes in by_domain(unclean.mode):
        put_beside(play, takes, "learned nothing", "an edit changed the mode before it was learned")
        print()
    for takes in by_domain(unclean.fail):
        put_beside(play, takes, "stays", "the name of the domain that it leads to is too long")
        print()
    passed = let_pass(play.run)
    if passed:
        put_beside(play, passed, "passed", SAID["permissive"])
        put("remedy", "make the mode enforcing in profile and play: then `tomoyo suggest` tells "
            "the lines that are missing")
        print()
    if unclean.edit:
        put_edits(play, unclean.edit)
        print()


def tell_all(engine, play, is_short):
    """Tells of all takes that are denied, of what else made the run unclean, and how the takes were
    judged."""
    causes, unclean = Causes(engine, play), Unclean(play.run)
    if not is_short:
        tell_causes(engine, play, causes)
    elif causes.denied:
        tell_shortly(play, causes)
    tell_unclean(play, unclean)
    print("%s\n%s\n%s" % (judged_line(play.run), unclean.line(), causes.line(play)))
    sys.stdout.flush()
    warn_of_disabled(play)


def main(line):
    is_short = line == ["--short"]
    if not is_short and any(not word.isascii() or not word.isdigit() for word in line):
        raise Stop("why takes --short, or numbers of requests", BAD_WORDS)
    engine = Engine()
    play = StoredPlay(engine)
    if line and not is_short:
        tell_some(engine, play, [int(word) for word in line])
    else:
        tell_all(engine, play, is_short)
    return DENIED if play.run.denied() else 0
