"""From a shelf of files to what they declare, or the one fault that is told.

One walk, depth first, takes each name once: FILE, then the files that it includes, in order. A name that is not on the shelf
is `NoFile`, the 101st file `TooManyFiles`, both at the include's place; of FILE itself the place is 0. These, and the fault of a
text, come where the walk meets them. Then the files are checked, each when the walk left it: the first file with a fault counts.
A class that is never defined is told where nothing else is wrong, in any file.
"""
from dataclasses import dataclass

import grammar
from lexer import TextFault
from rules import Rules

MOST_FILES = 100


class Refused(Exception):
    """The file, the place in it and the kind of the fault."""

    def __init__(self, file, place, kind):
        super().__init__(f"{file}:{place}: {kind}")
        self.file, self.place, self.kind = file, place, kind


@dataclass(frozen=True)
class Schema:
    rules: Rules

    def counts(self):
        """Returns the rows of the tables: types, classes, exceptions, interfaces."""
        return self.rules.counts

    def named(self, type_id):
        return self.rules.names.named(type_id)


def parsed(shelf, name):
    try:
        return grammar.read(shelf[name])
    except TextFault as fault:
        raise Refused(name, fault.place, fault.kind) from None


def walked(shelf, name):
    """Returns the files with their trees, in the order in which the walk leaves them. `shelf` has the bytes by name."""
    if name not in shelf:
        raise Refused(name, 0, "NoFile")
    left, taken = [], {name: parsed(shelf, name)}
    open_ = [(name, iter(taken[name].includes))]
    while open_:
        file, includes = open_[-1]
        included, place = next(includes, (None, 0))
        if included is None:
            left.append((file, taken[file]))
            open_.pop()
        elif included not in taken:
            if included not in shelf:
                raise Refused(file, place, "NoFile")
            if len(taken) == MOST_FILES:
                raise Refused(file, place, "TooManyFiles")
            taken[included] = parsed(shelf, included)
            open_.append((included, iter(taken[included].includes)))
    return left


def checked(files):
    """Returns the schema of files, each after those that it includes."""
    rules = Rules()
    for number, (name, tree) in enumerate(files):
        rules.file = number
        for item in tree.items:
            fault = rules.first_fault(item)
            if fault:
                raise Refused(name, *fault)
    for it in rules.classes:
        if not it.is_defined:
            number, place = it.first
            raise Refused(files[number][0], place, "Undefined")
    return Schema(rules)


def load(shelf, name):
    """Returns the schema of the file of that name and of those that it includes, or raises `Refused`."""
    return checked(walked(shelf, name))
