"""Domains that would have to be there for a request that no line grants to lead into them."""
import re

from history import Numbered, domains_of
from policies import ROWS, namespace_of
from runs import read_run
from texts import lines_of, words

# A namespace word, and a name whose first word is one.
SPACE = re.compile(r"<kernel>|</[!-;=?-~]+>")


def named(line_words):
    """The domains that the words of a line may name: paths as namespaces, and a domain's name."""
    found = ["<%s>" % word for word in line_words if word.startswith("/")]
    at = [place for place, word in enumerate(line_words) if SPACE.fullmatch(word)]
    for place in at:
        rest = line_words[place:]
        paths = [word for word in rest[1:] if word.startswith("/")]
        found.append(" ".join(rest[:1] + paths))
    return found


def candidates(play, takes):
    """Names of domains that these takes may lead into, of which more than one is wrong."""
    lines = [play.asked(take).request for take in takes]
    for name in ("domain_policy", "exception_policy"):
        lines += lines_of(play.opening.texts[name])
    told = [words(line) for line in lines]
    found = {}
    for line_words in told:
        kind = [word for word in line_words if word in ("execute", "task", "aggregator")]
        if kind or any("execute" in word.split("/") for word in line_words[1:5]):
            found.update(dict.fromkeys(named(line_words)))
    opened = {domain.name for domain in play.opening.domains}
    return [name for name in found if SPACE.fullmatch(namespace_of(name)) and name not in opened]


def entered(engine, play, copy, takes):
    """The names of the domains that these takes of a copy lead into where they are there, by the
    numbers of the takes. The program tells: it plays the copy with more domains, of which each
    has the profile 255."""
    names = candidates(play, takes)
    spaces = dict.fromkeys(namespace_of(name) for name in names)
    files = dict(copy.files)
    files["domain_policy"] += "".join("%s\nuse_profile 255\n" % name for name in names)
    files["profile"] += "".join("%s 255-CONFIG={ mode=disabled }\n" % space for space in spaces)
    ended = engine.call("step", files, ["run"])
    if ended.status:
        return {}
    run = read_run(ended.files["run"])
    numbered = Numbered(domains_of(files["domain_policy"]), run.steps)
    numbered.finish()
    after = [(take.number, run.takes[take.number - 1]) for take in takes]
    return {number: numbered.domain(take.after).name for number, take in after
            if take.is_granted and take.after != take.before}


def is_defined(play, space, profile):
    """Whether a namespace has a profile."""
    return any(words(line)[:1] == [space] and words(line)[1].startswith("%s-" % profile)
               for line in lines_of(play.opening.texts["profile"]) if len(words(line)) > 1)


def made(play, name, profile):
    """What has to be written so that a domain is there, in words."""
    said = "write `%s` and `use_profile %s` into domain_policy" % (name, profile)
    space = namespace_of(name)
    if not is_defined(play, space, profile):
        said += ", and `%s %s-CONFIG={ mode=enforcing }` into profile" % (space, profile)
    return said
