"""Functions of the code, as the lists read them: without comments, texts and clauses."""
import functools
import os
import re
import zlib

QUIET = re.compile(r"""//[^\n]*|b?"(?:\\.|[^"\\])*"|b?'(?:\\.[^']*|[^'\\\n])'""", re.S)
CLAUSE = re.compile(r"\b(?:(?:requires|ensures|invariant|decreases)(?:\s+\w+)?"
                    r"|ghost\s+\w+\s*[:=])\s*(?=\{)")
GHOST = re.compile(r"\bghost (?:(?:use|view) [^;]*|\w+ ?:[^;{]*);|#!?\[[^\]]*\]")
FUNCTION = re.compile(r"^([ ]*)(pub(?:\([\w:]+\))? )?(?:const |unsafe )?fn (\w+)", re.M)
BLOCK = re.compile(r"^(?:impl|(?:pub(?:\([\w:]+\))? )?(?:trait|mod))\b[^{;]*\{", re.M)
USE = re.compile(r"^( *)(pub(?:\([\w:]+\))? )?use ([^;]+);", re.M)
WORD = re.compile(r"[A-Za-z_]\w*")
TOKEN = re.compile(r"[A-Za-z_]\w*|\d\w*|[^\w\s]")


def blank(text):
    """As many lines, and nothing on them."""
    return re.sub(r"[^\n]", " ", text)


def quiet(found):
    """What stands for a comment or a text: nothing, or a number of its own."""
    text = found.group()
    lines = "\n" * text.count("\n")
    return lines if text.startswith("//") else " %d%s" % (zlib.crc32(text.encode()), lines)


def closing(text, begin):
    """The place behind the brace that closes the one at a place."""
    depth = 0
    for place in re.compile(r"[{}]").finditer(text, begin):
        depth += 1 if place.group() == "{" else -1
        if not depth:
            return place.end()
    return len(text)


def plain(text):
    """Code without comments, attributes and clauses, with numbers for texts, each in its line."""
    text = QUIET.sub(quiet, text)
    text = GHOST.sub(lambda found: blank(found.group()), text)
    out, at = [], 0
    for clause in CLAUSE.finditer(text):
        if clause.start() >= at:
            end = closing(text, clause.end())
            out += [text[at:clause.start()], blank(text[clause.start():end])]
            at = end
    return "".join(out + [text[at:]])


class Function:
    """A function: where it stands, its body, and whether it is public, a law, a test or a
    trait's."""

    def __init__(self, file, line, match, body, inside):
        self.file, self.line, self.name, self.body = file, line, match.group(3), body
        self.is_public = match.group(2) == "pub "
        self.is_law = body is not None and not body.strip("{} \n")
        self.is_test = "tests" in inside or file.crate.startswith("tm_tests")
        self.is_of_trait = re.match(
            r"impl\b.* for |(pub(\([\w:]+\))? )?trait\b", inside, re.S) is not None

    def __str__(self):
        return "%s:%d %s" % (self.file.path, self.line, self.name)

    @functools.cached_property
    def words(self):
        """The words of its body."""
        return set(WORD.findall(self.body or ""))

    @functools.cached_property
    def tokens(self):
        """The tokens of its body."""
        return TOKEN.findall(self.body or "")


def body_of(text, begin):
    """The body of the function whose head begins at a place, or None where it has none."""
    end = re.compile(r"[{;]").search(re.sub(r"\[[^\]]*\]", lambda it: " " * len(it.group()), text),
                                     begin)
    return text[end.start():closing(text, end.start())] if end and end.group() == "{" else None


def functions(file):
    """The functions of a file of code."""
    text = plain(file.text)
    blocks = [(it.start(), closing(text, it.end() - 1), it.group()) for it in BLOCK.finditer(text)]
    tests = {file.text.count("\n", 0, it.end()) for it in
             re.finditer(r"^ *#\[(?:cfg\()?test\)?\]\n", file.text, re.M)}
    found = []
    for match in FUNCTION.finditer(text):
        inside = " ".join(head for begin, end, head in blocks if begin < match.start() < end)
        line = text.count("\n", 0, match.start())
        if tests & {line, line - 1, line - 2}:
            inside += " tests"
        found.append(Function(file, line + 1, match, body_of(text, match.end()), inside))
    return found


def all_functions(sources):
    """The functions of all crates."""
    return [one for file in sources.files() if file.is_code for one in functions(file)]
