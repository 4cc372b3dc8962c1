"""Which definitions cite which.

A block cites what it has the word of, where its file defines or imports that word; of a module that
is imported as a whole, every word that the module defines. What is imported and named nowhere, as
an operator that `do` stands for, and what the head of a module in a file names, is cited by each
block of the file. What code, its attributes and
answers to its goals cite is cited by their file."""
import collections

from sources import named


class Uses:
    """What each definition cites, and what is cited by clauses, and by attributes and answers."""

    def __init__(self, sources):
        self.cites, self.by_clauses, self.by_others = {}, set(), set()
        for file in sources.files():
            scope = scope_of(sources, file)
            imported = {name for one in file.imports for name in one.names or ()}
            by_all = cited(sources, scope, file.heads | imported - file.words)
            if file.is_code:
                self.by_clauses |= cited(sources, scope, file.words)
                self.by_others |= sources.there(named(file.crate, file.text))
            elif file.is_answer:
                self.by_others |= cited(sources, scope, file.words)
            for one in file.definitions:
                self.cites[one] = (by_all | cited(sources, scope, one.words)) - {one}

    def reached(self, begin):
        """All that some definitions stand on, and they themselves."""
        found, left = set(), list(begin)
        while left:
            one = left.pop()
            if one not in found:
                found.add(one)
                left += self.cites[one]
        return found

    def uncited(self, kept):
        """Each definition that nothing cites, or only such ones, with its round: in the first are
        those that nothing cites, in the next those that nothing else does. What is kept on purpose
        isn't among them, nor is what it stands on. Those of the last round may cite each other."""
        found, number = {}, 0
        dead = set(self.cites) - self.reached(kept | self.by_clauses | self.by_others)
        while dead:
            number += 1
            counts = collections.Counter(other for one in dead for other in self.cites[one])
            falling = {one for one in dead if not counts[one]} or set(dead)
            found.update(dict.fromkeys(falling, number))
            dead -= falling
        return found


def scope_of(sources, file):
    """What each word of a file may mean: modules with a name there."""
    scope = collections.defaultdict(set)
    for one in file.definitions:
        scope[one.name].add((file.module, one.name))
    for one in file.imports:
        if one.names is None:
            module = sources.own(one.module)
            whole = sources.modules.get(module)
            for other in whole.definitions if whole else []:
                scope[other.name].add((module, other.name))
        elif not one.is_passed_on:
            for name, there in one.names.items():
                scope[name].add(sources.origin(one.module, there))
    return scope


def cited(sources, scope, words):
    """The definitions that some words cite."""
    return sources.there(set().union(*(scope[word] for word in words if word in scope)))
