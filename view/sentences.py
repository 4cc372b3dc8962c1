"""Sentences for the kinds of refusals, as the program names them."""
import re

POLICY = {
    "keyword": "no such leading word or permission",
    "arity": "a word is missing, or one is too many",
    "name": "this is no name, pattern or group",
    "number": "this is no number",
    "address": "this is no address",
    "domain": "this is no name of a domain",
    "condition": "a word behind the arguments is no condition",
    "profile": "a word of a profile line is wrong",
    "version": "this PROFILE_VERSION isn't known",
    "kernel_domain": "the domain <kernel> can't be deleted",
    "no_domain": "no domain is chosen, or none of that name is there",
    "no_profile": "that profile isn't defined in `profile`",
    "no_line": "there is no such line to delete",
}
SCRIPTS = {
    "Keyword": "no such leading word",
    "NoTree": "no `tree` line stands before it",
    "Number": "this is no number, or not one that may stand here",
    "KnownProcess": "that process is there already",
    "NoProcess": "that process isn't in this tree",
    "NoDomain": "this is no name of a domain, or no live domain has it",
    "Request": "this is no request: one permission, literal names, single numbers",
    "Attribute": "this is no attribute of the request, or one is missing",
    "Arity": "a word is missing, or one is too many",
    "Word": "this is no word, pattern or path",
    "Domain": "this is no name of a domain",
    "NoEditor": "no `editor` line stands before it",
    "Twice": "`detach` may stand once",
    "NoActivity": "no tree or editor has that number",
}
LINE = re.compile(r"(\w+) line (\d+): (?:bad:)?(\w+)")
WIDEST = 300


def sentence(kind):
    """What a kind of refusal means."""
    return POLICY.get(kind) or SCRIPTS.get(kind, kind)


def shortened(line):
    """A line as it can be shown: a long one is cut, and what isn't a letter is a space."""
    shown = re.sub(r"[^!-~]", " ", line)
    return shown if len(shown) <= WIDEST else shown[:WIDEST] + " .."
