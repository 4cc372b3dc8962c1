"""How the requests of a run were judged, and what makes a run unclean."""
import sys
from collections import Counter

from texts import counted, words

MODES = ("enforcing", "permissive", "learning", "disabled")
LINES = ("file", "network", "misc", "task")


def judged(run):
    """How many requests were judged in each mode, by their last look."""
    return Counter(take.last.mode for take in run.takes)


def judged_line(run):
    counts = judged(run)
    return "judged " + " ".join("%s %d" % (mode, counts[mode]) for mode in MODES)


def let_pass(run):
    """The takes that no line grants and that pass since their mode is permissive."""
    return [take for take in run.takes if take.last.reason == "permissive"]


def steps_of(run, take):
    """The steps that a take made."""
    return [run.steps[number - 1] for look in take.looks for number in look.steps]


def has_step(run, take, kind, reply):
    """Whether a take made a step of this kind with one of these replies."""
    return any(step.kind == kind and step.reply in reply for step in steps_of(run, take))


def is_full(run, take):
    """Whether a line of a take was left out since the domain is full."""
    return any(look.reason == "quota" for look in take.looks) or \
        has_step(run, take, "learn", ("quota",))


def is_quiet_line(line_words):
    """Whether an access control line lets nothing be executed."""
    return line_words[:1] != [] and line_words[0] in LINES and \
        "execute" not in "".join(line_words[1:2]).split("/")


def is_quiet(step):
    """Whether an edit can't change where an execute leads or what a mode is."""
    file, line_words = step.rest[1], words(" ".join(step.rest[2:]))
    if file == "domain_policy":
        return line_words[:1] == ["select"] or is_quiet_line(line_words)
    if file == "exception_policy":
        group = line_words[1:] if line_words[0].startswith("<") else line_words
        return group[:1] == ["acl_group"] and is_quiet_line(group[2:])
    return file == "manager"


class Unclean:
    """What a clean run has none of: takes that are denied, that were judged enforcing or permissive
    in some look, whose line was left out since the domain was full or since the mode had been
    changed, and whose transition failed; and edits that aren't quiet, by the numbers of their
    steps."""

    def __init__(self, run):
        self.denied = run.denied()
        self.enforcing = self.in_mode(run, "enforcing")
        self.permissive = self.in_mode(run, "permissive")
        self.quota = [take for take in run.takes if is_full(run, take)]
        self.mode = [take for take in run.takes if has_step(run, take, "learn", ("mode",))]
        self.fail = [take for take in run.takes if has_step(run, take, "fail", ("set", "was"))]
        self.edit = [number for number, step in enumerate(run.steps, 1)
                     if (step.kind, step.reply) == ("edit", "done") and not is_quiet(step)]

    @staticmethod
    def in_mode(run, mode):
        return [take for take in run.takes if any(look.mode == mode for look in take.looks)]

    def line(self):
        """The word of the play's summary, with what made it so."""
        found = ["%s %d" % (word, len(there)) for word, there in vars(self).items() if there]
        return "clean no: " + " ".join(found) if found else "clean yes"


def warn_of_disabled(play):
    """Says so where requests were judged disabled in a play that isn't there to learn."""
    counts = judged(play.run)
    if not counts["disabled"] or counts["learning"] and not counts["enforcing"] + \
            counts["permissive"]:
        return
    first = next(take for take in play.run.takes if take.last.mode == "disabled")
    domain = play.names.domain(first.before)
    sys.stderr.write("tomoyo: %s judged disabled, where nothing is denied; the first is take %d, in "
                     "%s (profile %s)\n" % (
                         counted(counts["disabled"], "1 request was", "%d requests were"),
                         first.number, domain.name, domain.profile))
