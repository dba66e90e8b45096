"""Inputs of class instances, in sliced format where nothing else is said: each as it has to go, and as it comes."""
import struct

TEXT = b"""module Trees {
    class Node { int v; Node left; Node right; };
    class Link { int v; Link next; };
    class Least { Least next; };
    class None { };
    sequence<None> Nones;
    class Held { Nones nones; };
    class Base { int b; };
    class Middle extends Base { string m; };
    class Derived extends Middle { Base other; };
    sequence<Base> Bases;
};
"""

TABLE, SIZED, LAST = 8, 16, 32


def size(number):
    return bytes([number]) if number < 255 else b"\xff" + struct.pack("<i", number)


def encapsulated(content):
    return struct.pack("<i", 6 + len(content)) + b"\1\1" + content


class Ids:
    """Type ids: as a string the first time, and then by the index."""

    def __init__(self):
        self.indexes = {}

    def slice(self, name, members, entries=0, is_last=True):
        """Returns a slice with the size of its table, if it has one."""
        flags = SIZED | (LAST if is_last else 0) | (TABLE if entries else 0)
        type_id = b"::Trees::" + name
        if type_id in self.indexes:
            head = bytes([flags | 2]) + size(self.indexes[type_id])
        else:
            self.indexes[type_id] = len(self.indexes) + 1
            head = bytes([flags | 1]) + size(len(type_id)) + type_id
        return head + struct.pack("<i", 4 + len(members)) + members + (size(entries) if entries else b"")


def same(content):
    return encapsulated(content), encapsulated(content)


def tree(count):
    """A balanced tree: the left and the right of node k are 2k + 1 and 2k + 2."""
    ids, parts, waiting = Ids(), [], [0]
    while waiting:
        at = waiting.pop()
        below = [it for it in (2 * at + 1, 2 * at + 2) if it < count]
        places = bytes([1 if below else 0, 2 if len(below) == 2 else 0])
        parts.append(b"\1" + ids.slice(b"Node", struct.pack("<i", at) + places, len(below)))
        waiting += reversed(below)
    return same(b"".join(parts))


def row(count, name, members, last):
    """Instances in one another: members of a number, and what the last one refers to, as its table or as nothing."""
    ids = Ids()
    parts = [b"\1" + ids.slice(name, members(at) + b"\1", 1) for at in range(count - 1)]
    parts.append(b"\1" + ids.slice(name, members(count - 1) + (b"\1" if last else b"\0"), 1 if last else 0) + last)
    return same(b"".join(parts))


def chain(count):
    return row(count, b"Link", lambda at: struct.pack("<i", at), b"")


def ring(count):
    return row(count, b"Link", lambda at: struct.pack("<i", at), b"\2")


def least(count):
    return row(count, b"Least", lambda at: b"", b"")


def side_by_side(count):
    ids = Ids()
    return same(size(count) + b"".join([b"\1" + ids.slice(b"None", b"") for _ in range(count)]))


def ids_as_strings(count):
    """The same, each with its type id as a string again."""
    given = b"".join([b"\1" + Ids().slice(b"None", b"") for _ in range(count)])
    return side_by_side(count)[0], encapsulated(size(count) + given)


def in_compact_format(count, name, front, behind):
    """Instances without values in compact format: three bytes each, and the type id of the first."""
    type_id = b"::Trees::" + name
    first = bytes([1, LAST | 1]) + size(len(type_id)) + type_id
    return encapsulated(front + first + (count - 1) * bytes([1, LAST | 2, 1]) + behind)


def least_in_compact_format(count):
    return least(count)[0], in_compact_format(count, b"Least", b"", b"\0")


def side_by_side_in_compact_format(count):
    return side_by_side(count)[0], in_compact_format(count, b"None", size(count), b"")


def in_one_table(count, is_falling=False):
    """A slice that refers to all, each by a place of its own. Where places fall, the canonical ones rise all the same."""

    def held(places):
        ids = Ids()
        front = b"\1" + ids.slice(b"Held", size(count) + b"".join(map(size, places)), count)
        return encapsulated(front + b"".join([b"\1" + ids.slice(b"None", b"") for _ in range(count)]))

    rising = range(1, count + 1)
    return held(rising), held(rising[::-1] if is_falling else rising)


def falling_table(count):
    return in_one_table(count, True)


def one_instance(count):
    """A sequence of one instance, so many times."""
    return same(size(count) + b"\1" + Ids().slice(b"None", b"") + b"\2" * (count - 1))


def one_place(count):
    """The same in a slice, by one place."""
    ids = Ids()
    return same(b"\1" + ids.slice(b"Held", size(count) + b"\1" * count, 1) + b"\1" + ids.slice(b"None", b""))


def repeated_entries(count):
    """A table that has one instance so many times, of which the first is used."""

    def held(entries):
        ids = Ids()
        front = b"\1" + ids.slice(b"Held", b"\1\1", entries)
        return encapsulated(front + b"\1" + ids.slice(b"None", b"") + b"\3" * (entries - 1))

    return held(1), held(count)


def derived(count):
    """Instances of three slices, each of which refers to the one before it."""
    ids, parts = Ids(), []
    for at in range(count):
        parts += [b"\1", ids.slice(b"Derived", b"\1" if at else b"\0", 1 if at else 0, False), size(at + 1) if at else b""]
        parts += [ids.slice(b"Middle", b"\1x", 0, False), ids.slice(b"Base", struct.pack("<i", at))]
    return same(size(count) + b"".join(parts))


def dropped(count):
    """A null reference, and a chain that only a member of an unknown tag refers to."""
    return encapsulated(b"\0"), encapsulated(b"\0\7" + least(count)[1][6:])


# What is measured: TYPE, what makes an input, and the counts of instances, or of references; the last is about the most.
SHAPES = {
    "tree": ("Node", tree, (1_000, 10_000, 77_000)),
    "chain": ("Link", chain, (1_000, 10_000, 70_000)),
    "ring": ("Link", ring, (1_000, 10_000, 70_000)),
    "chain, least": ("Least", least, (1_000, 10_000, 100_000)),
    "chain, compact": ("Least", least_in_compact_format, (1_000, 10_000, 100_000)),
    "side by side": ("Nones", side_by_side, (1_000, 10_000, 100_000)),
    "side by side, compact": ("Nones", side_by_side_in_compact_format, (1_000, 10_000, 100_000)),
    "in one table": ("Held", in_one_table, (1_000, 10_000, 87_000)),
    "in one table, falling": ("Held", falling_table, (1_000, 10_000, 87_000)),
    "three slices each": ("Bases", derived, (1_000, 10_000, 32_000)),
    "type ids as strings": ("Nones", ids_as_strings, (1_000, 10_000, 52_000)),
    "behind the value": ("Least", dropped, (1_000, 10_000, 100_000)),
}
REFERENCES = {
    "to one instance": ("Nones", one_instance, (1_000, 10_000, 1_000_000)),
    "of a slice to one": ("Held", one_place, (1_000, 10_000, 1_000_000)),
    "in a table, one used": ("Held", repeated_entries, (1_000, 10_000, 1_000_000)),
}


def many_classes(count=30_000):
    """Returns a text of so many classes, and an input with an instance of each."""
    names = [b"C%05d" % it for it in range(count)]
    text = b"module Trees {class B{};sequence<B>Bs;" + b"".join([b"class %s extends B{};" % it for it in names]) + b"};"
    ids = Ids()
    parts = []
    for name in names:
        parts += [b"\1", ids.slice(name, b"", 0, False), ids.slice(b"B", b"")]
    return text, same(size(count) + b"".join(parts))
