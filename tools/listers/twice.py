"""What stands twice: definitions and functions that are the same up to their names.

Names of local values are told apart by the order in which they come; so are, in code, all names.
What a definition cites is told by that definition, or by one that is the same by this list."""
import collections
import re

from uses import scope_of

ITEM = re.compile(r"\"[^\"]*\"|[^\s(){}\[\],;.\"]+|[(){}\[\],;.]")
LEAST_OF_A_DEFINITION, LEAST_OF_A_FUNCTION = 14, 24
KEYWORDS = set("""as break const continue else enum false fn for if impl in let loop match mod move
    mut pub ref return self Self static struct super true type use where while Ok Err Some None
    u8 u16 u32 u64 u128 usize bool Vec String Option Result""".split())


class Shapes:
    """What each definition of specs says, by what its words mean."""

    def __init__(self, sources):
        self.shapes, self.classes = {}, {}
        for file in sources.files():
            if file.part == "specs" and not file.is_code:
                scope = scope_of(sources, file)
                for one in file.definitions:
                    self.shapes[one] = list(shape(sources, scope, one))

    def of(self, one):
        """The shape of a definition, with one name for all that are known to be the same."""
        return tuple(self.classes.get(word, word) for word in self.shapes[one])

    def groups(self):
        """Definitions that are the same, until no more are found."""
        while True:
            found = collections.defaultdict(list)
            for one in self.shapes:
                if len(self.shapes[one]) >= LEAST_OF_A_DEFINITION:
                    found[self.of(one)].append(one)
            same = [group for group in found.values() if len(group) > 1]
            classes = {one: group[0] for group in same for one in group}
            if classes == self.classes:
                return sorted(same, key=lambda group: -len(self.shapes[group[0]]))
            self.classes = classes


def shape(sources, scope, one):
    """The words of a definition: itself, definitions, other imported names, and local names by
    their number."""
    numbers = {}
    before = ""
    for word in ITEM.findall(re.sub(r"^ *(unfoldable |abbrev |pub )*", "", one.text)):
        if word == one.name:
            yield "itself"
        elif before == "." or not re.match(r"[^\W\d]", word):
            yield word
        elif word in scope:
            origin = min(scope[word])
            yield sources.defined.get(origin, origin[1])
        else:
            yield numbers.setdefault(word, len(numbers))
        before = word


def code_shape(function):
    """The tokens of a function's body: itself, what is called or is a field or a type, and local
    names by their number."""
    numbers, tokens = {}, function.tokens
    for before, token, after in zip(["", *tokens], tokens, [*tokens[1:], ""]):
        if token == function.name and after == "(" and before != ".":
            yield "itself"
        elif (not re.match(r"[a-z_]", token) or token in KEYWORDS or before in (".", ":")
              or after in ("(", ":", "!")):
            yield token
        else:
            yield numbers.setdefault(token, "name %d" % len(numbers))


def same_functions(functions):
    """Functions with the same body, until no more are found."""
    shapes = {one: tuple(code_shape(one)) for one in functions
              if not one.is_law and len(one.tokens) >= LEAST_OF_A_FUNCTION}
    names = {}
    while True:
        found = collections.defaultdict(list)
        for one, tokens in shapes.items():
            found[tuple(names.get(token, token) for token in tokens)].append(one)
        same = [group for group in found.values() if len(group) > 1]
        known = {one.name: group[0].name for group in same for one in group}
        if known == names:
            return sorted(same, key=lambda group: -len(group[0].tokens))
        names = known
