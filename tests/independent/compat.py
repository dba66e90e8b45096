"""Whether what was spelled under one Slice file can be read under another: what `ice compat OLD NEW TYPE` has to answer.

A type is read as another one where both are the same built-in type; both sequences, dictionaries or structs whose parts are read,
part by part, and of as many members; both enums, and each number of the first is one of the second; both proxies; or both class
places, and every instance that may stand at the first may stand at the second: `Object` takes any, else NEW has the class of the
first place by its type id, and there it is that of the second or derived from it.

A class place reaches the class that is declared there, each class of OLD that is derived from it, and all their bases; `Object`
reaches every class. A class reaches what the places in the types of its own members reach. Where TYPE itself is read, each class that
it reaches has to stand these tests, the first class in the order of OLD, and its first failing test, are told: NEW has its type
id; both have no base, or bases of one type id; its compact id is that of NEW's class; the required members are as many; each is read
as the one at its place; and by rising tag each optional member is read as the one of its tag, where NEW's class has one.

Where all is well, a graph that is spelled under OLD without kept slices and skipped tags is read under NEW as the same graph without
the optional members whose tags NEW's classes lack. One sort of spelling is left out: an instance without slice sizes that has such a
member of the format of references and proxies in containers, in whose bytes instances may begin that NEW passes over.
"""
from dataclasses import dataclass

import graphs
import kinds
import relay
from graphs import Known


@dataclass(frozen=True)
class Failing:
    """What is told of a class: the cause, or the name of the member."""

    row: kinds.Class
    why: str

    def told(self):
        return b"no " + self.row.type_id + self.why.encode()


class Reading:
    """Which types of OLD are read as types of NEW, by the classes of NEW."""

    def __init__(self, new_classes):
        self.named = {it.type_id: it for it in new_classes}
        self.known = {}  # the answers to pairs of types

    def reads(self, kind, other):
        pair = kind, other
        if pair not in self.known:
            self.known[pair] = self.looked_at(kind, other)
        return self.known[pair]

    def looked_at(self, kind, other):
        if kind.sort != other.sort:
            return False
        if kind.sort == "enum":
            return kind.numbers <= other.numbers
        if kind.sort == "class":
            return self.reads_class(kind.class_, other.class_)
        return len(kind.parts) == len(other.parts) and all(map(self.reads, kind.parts, other.parts))

    def reads_class(self, row, other):
        if other is None:
            return True
        found = None if row is None else self.named.get(row.type_id)
        return found is not None and found.is_a(other)

    def failing(self, row):
        """Returns what is told of a class that fails a test, None of one that stands them all."""
        other = self.named.get(row.type_id)
        if other is None:
            return Failing(row, ": missing")
        if (row.base and row.base.type_id) != (other.base and other.base.type_id):
            return Failing(row, ": base")
        if row.compact not in (None, other.compact):
            return Failing(row, ": compact id")
        if len(row.required) != len(other.required):
            return Failing(row, ": members")
        for name, kind, its in zip(row.required_names, row.required, other.required):
            if not self.reads(kind, its):
                return Failing(row, "." + name)
        for tag in sorted(row.optional):
            if tag in other.optional and not self.reads(row.optional[tag], other.optional[tag]):
                return Failing(row, "." + row.optional_names[tag])
        return None


def places_in(kind, seen):
    """Yields the types of the class places in a type, but not in those seen before."""
    if kind in seen:
        return
    seen.add(kind)
    if kind.sort == "class":
        yield kind
    for part in kind.parts:
        yield from places_in(part, seen)


def related(row, children):
    """Yields a class, those derived from it, and its bases."""
    waiting = [row]
    while waiting:
        it = waiting.pop()
        yield it
        waiting += children.get(it, [])
    while row.base is not None:
        row = row.base
        yield row


def reached(kind, classes):
    """Returns the classes that a type reaches."""
    children = {}
    for row in classes:
        children.setdefault(row.base, []).append(row)
    found, seen, declared = set(), set(), set()
    waiting = list(places_in(kind, seen))
    while waiting:
        it = waiting.pop().class_
        if it in declared or None in declared:
            continue
        declared.add(it)
        for row in classes if it is None else related(it, children):
            if row not in found:
                found.add(row)
                for member in [*row.required, *row.optional.values()]:
                    waiting += places_in(member, seen)
    return found


def verdict(kind, classes, other, new_classes):
    """Returns the line that is told, of a type of OLD with these classes in order, and of one of NEW."""
    reading = Reading(new_classes)
    if not reading.reads(kind, other):
        return b"no $value"
    there = reached(kind, classes)
    failing = next((it for it in map(reading.failing, (row for row in classes if row in there)) if it), None)
    return failing.told() if failing else b"yes"


def compat(shelf, old, new, word):
    """Returns the answer for the shelf, for both files and for TYPE, and where one is refused, why."""
    try:
        schemas = [relay.schema_of(shelf, file) for file in (old, new)]
        both = [relay.named_kind(it, word) for it in schemas]
    except relay.Unread as unread:
        return unread.args
    line = verdict(both[0], relay.classes_of(schemas[0]), both[1], relay.classes_of(schemas[1]))
    return (0 if line == b"yes" else 1, line + b"\n", b""), line.decode()


# What is read


def is_within(graph, there):
    """Says whether each instance that begins is of these classes alone: a table may name others, which nothing uses."""
    return all(slice_.row in there for slices in graph.instances for slice_ in slices)


def is_open(graph, new_classes):
    """Says whether no instance has a member that NEW's class lacks and in whose bytes further instances may begin unseen."""
    named = {it.type_id: it for it in new_classes}
    return not any(
        kinds.optional_format(slice_.row.optional[tag]) == kinds.FSIZE and tag not in named[slice_.row.type_id].optional
        for slices in graph.instances
        for slice_ in slices
        for tag, _ in slice_.optional
        if slice_.row.type_id in named
    )


def noted(value, kind):
    """Returns a value with numbers in the place of references."""
    if not kind.has_classes:
        return value
    if kind.sort == "class":
        return value and ("instance", value.number)
    if kind.sort == "struct":
        return tuple(map(noted, value, kind.parts))
    if kind.sort == "sequence":
        return [noted(it, kind.parts[0]) for it in value]
    return [(key, noted(it, kind.parts[1])) for key, it in value]


def seen(graph, kind, new_classes=None):
    """Returns a graph in lists: under NEW, where its classes are given, without the members that they lack."""
    named = {it.type_id: it for it in new_classes or []}

    def seen_slice(slice_):
        if not isinstance(slice_, Known):
            return "kept"
        row = slice_.row
        left = [it for it in slice_.optional if new_classes is None or it[0] in named[row.type_id].optional]
        return row.type_id, list(map(noted, slice_.required, row.required)), [(tag, noted(it, row.optional[tag])) for tag, it in left]

    return noted(graph.root, kind), [[seen_slice(it) for it in slices] for slices in graph.instances]


def as_read(data, kind, classes):
    """Returns the graph that bytes spell, or why they spell none."""
    try:
        return graphs.decode(data, kind, classes)
    except graphs.Fault as why:
        return why
