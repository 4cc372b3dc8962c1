"""The lists: each gives its heads, and behind each the entries, with file and line."""
import collections

import code
import routes
import twice
from sources import uncommented, words
from uses import Uses

WIDE = 120


def uncited(sources, kept):
    """Definitions of specs and lemmas of proofs that nothing cites, and what falls after them.

    What answers goals, and what code names for the prover, counts as cited. A search can use a
    lemma without its name: one is really dead only where its crate is proved without it."""
    uses = Uses(sources)
    found = uses.uncited({one for one in uses.cites if kept.has_definition(one)})
    for number in sorted(set(found.values())):
        these = sorted(one for one, round_of in found.items() if round_of == number)
        lines = sum(one.length for one in these)
        yield ("cited by nothing" if number == 1 else "then, in round %d" % number) + (
            ": %d with %d lines" % (len(these), lines)), [
                "%s, %d lines" % (one, one.length) for one in these]


def proofs(sources, kept):
    """Definitions of specs that no clause of the code stands on, and only one file of proofs cites.

    They belong to that file. Specs is where several files share a definition."""
    uses = Uses(sources)
    alone = {one for one in uses.cites if one.file.part == "specs" and not kept.has_definition(one)}
    alone -= uses.reached(uses.by_clauses) | set(uses.uncited(set()))
    files = collections.defaultdict(set)
    for one, cited_ones in uses.cites.items():
        for other in alone & cited_ones:
            files[other].add(one.file.path)
    found = sorted(one for one, paths in files.items()
                   if len(paths) == 1 and one.file.path not in paths)
    yield "definitions that one file of proofs alone cites: %d with %d lines" % (
        len(found), sum(one.length for one in found)), [
            "%s, %d lines" % (one, one.length) for one in found]


def uncalled(sources, kept):
    """Public functions of the code that nothing calls but tests.

    They are told apart by their names alone, so that one is lacking here whose name another one
    has that is called. Laws, whose bodies are empty, and functions of traits aren't among them."""
    functions = code.all_functions(sources)
    by_code = set().union(*(one.words for one in functions if not one.is_test))
    by_tests = set().union(*(one.words for one in functions if one.is_test))
    found = [one for one in functions
             if one.is_public and not (one.is_law or one.is_of_trait or one.is_test)
             and one.name not in by_code | {"main"} and not kept.has_function(one)]
    for is_tested, head in (False, "called by nothing"), (True, "called by tests alone"):
        these = [str(one) for one in found if (one.name in by_tests) == is_tested]
        yield "%s: %d" % (head, len(these)), these
    below = below_roots(functions, kept)
    these = ["%s%s" % (one, ", public" if one.is_public else "") for one in functions
             if one not in below and one not in found and not (one.is_law or one.is_test)
]
    yield "called by such functions alone: %d" % len(these), these


def below_roots(functions, kept):
    """The functions that programs, functions of traits and what is kept stand on, by their names,
    and they themselves."""
    named, found = collections.defaultdict(list), set()
    for one in functions:
        named[one.name].append(one)
    left = [one for one in functions if not one.is_test and (
        one.name == "main" or one.is_of_trait or kept.has_function(one))]
    while left:
        one = left.pop()
        if one not in found:
            found.add(one)
            left += [other for word in one.words for other in named.get(word, ())]
    return found


def crates(sources, _):
    """Crates that crates.txt lists behind a crate whose sources name them nowhere.

    Whether a crate is proved without one of them has to be tried."""
    found = []
    for crate in sources.crates.values():
        named = set()
        for file in crate.files:
            rows = file.text.split("\n")
            rows = [row.partition("//")[0] if file.is_code else uncommented(row) for row in rows]
            named |= {part for word in words("\n".join(rows).replace(":", " ").replace("<", " "))
                      for part in word.strip("&!;").split(".")}
        found += ["crates.txt:%d %s lists %s" % (crate.line, crate.name, other)
                  for other in crate.stands_on if other in sources.crates and other not in named]
    yield "listed and named nowhere: %d" % len(found), found


def imports(sources, _):
    """Imports of a definition or an item through another crate than its own, which is listed.

    A crate passes on what those above it need, so that they don't list what stands below it. Where
    the own crate is listed all the same, the detour serves nothing, unless by it one file passes
    definitions of several crates on."""
    for what, detours, sign in (("items", routes.by_code, "::"),
                                ("definitions and lemmas", routes.by_definitions, ".")):
        found = []
        for file, line, path, origin in detours(sources):
            own = origin.removeprefix("Rattle.").split(sign)[0]
            if own in sources.crates[file.crate].stands_on:
                found.append("%s:%d %s is %s" % (file.path, line, path, origin))
        yield "imports of %s: %d" % (what, len(found)), found


def same(sources, kept):
    """Definitions that say the same up to names, and functions with the same body.

    Short ones, of a few words, aren't among them."""
    shapes = twice.Shapes(sources)
    functions = twice.same_functions(code.all_functions(sources))
    for head, groups, has in (("definitions", shapes.groups(), kept.has_definition),
                              ("functions", functions, kept.has_function)):
        groups = [[one for one in group if not has(one)] for group in groups]
        groups = [" = ".join(map(str, group)) for group in groups if len(group) > 1]
        yield "%s that are the same: %d groups" % (head, len(groups)), groups


def wide(sources, _):
    """Lines of proofs of more than 120 columns, by crate, with the longest of each."""
    rows = []
    for crate in sources.crates.values():
        lines = [(len(row), file.path, line) for file in crate.files if file.part == "proofs"
                 for line, row in enumerate(file.text.split("\n"), 1)]
        over = [one for one in lines if one[0] > WIDE]
        if over:
            rows.append((len(over), len(lines), "%s:%d has %d" % (*max(over)[1:], max(over)[0])))
    rows.sort(reverse=True)
    yield "lines over %d columns: %d of %d" % (
        WIDE, sum(row[0] for row in rows), sum(row[1] for row in rows)), [
            "%d of %d, the longest %s" % row for row in rows]
