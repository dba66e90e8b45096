"""Types, and what the limits and the rules on keys ask of them.

Depth is 1 for built-in types, enums, proxies and classes; one more than its element for a sequence, two more than the deeper
of its parts for a dictionary, one more than its deepest member for a struct. The smallest spelling is the size of a number, 1
byte for a string, enum, sequence, dictionary and class, 2 for a proxy, and the sum of its members for a struct.
"""
import functools
from dataclasses import dataclass, field

MOST_DEPTH = 100
MOST_SMALLEST = 1_048_576


@dataclass(frozen=True, eq=False)
class Kind:
    """A type. Its parts are the element of a sequence, key and value of a dictionary, or the members of a struct."""

    sort: str  # the keyword of a built-in type, or "sequence", "dictionary", "struct", "enum", "proxy" or "class"
    parts: tuple = ()  # of kinds
    depth: int = 1
    smallest: int = 1  # the bytes of its smallest spelling
    may_be_key: bool = False
    has_classes: bool = False  # whether values of it may hold references to instances
    numbers: frozenset = frozenset()  # of the enumerators of an enum
    names: tuple = ()  # of the members of a struct, and of the enumerators of an enum in the order of their numbers
    class_: "Class | None" = None  # the declared class of a reference; none: any may stand


@dataclass(eq=False)
class Class:
    """What a class has, filled where it is defined: it may be spoken of before."""

    type_id: bytes = b""
    compact: int | None = None  # the compact id
    base: "Class | None" = None
    required: list = field(default_factory=list)  # the kinds of the members without a tag
    optional: dict = field(default_factory=dict)  # the kinds of the others by their tags, which rise
    required_names: list = field(default_factory=list)  # in the same order
    optional_names: dict = field(default_factory=dict)  # by their tags

    def is_a(self, other):
        """Says whether the class is the other one or derived from it."""
        it = self
        while it is not None and it is not other:
            it = it.base
        return it is other


INTEGERS = {"byte": (0, 255), "short": (-(2**15), 2**15 - 1), "int": (-(2**31), 2**31 - 1), "long": (-(2**63), 2**63 - 1)}

# Those that may be keys. The smallest string is its size alone, one byte.
BUILT_IN = {
    word: Kind(word, smallest=smallest, may_be_key=True)
    for word, smallest in {"bool": 1, "byte": 1, "short": 2, "int": 4, "long": 8, "string": 1}.items()
}
ANY_CLASS = Kind("class", has_classes=True)
ANY_PROXY = Kind("proxy", smallest=2)


def sequence(element):
    return Kind("sequence", (element,), element.depth + 1, has_classes=element.has_classes)


def dictionary(key, value):
    return Kind("dictionary", (key, value), max(key.depth, value.depth) + 2, has_classes=value.has_classes)


def struct(members, names=()):
    """Returns a struct. One without members is none, but has its place where the rules are looked at."""
    return Kind(
        "struct",
        tuple(members),
        1 + max((it.depth for it in members), default=0),
        sum(it.smallest for it in members),
        all(it.may_be_key for it in members),
        any(it.has_classes for it in members),
        names=tuple(names),
    )


def enum(numbers, names=()):
    return Kind("enum", may_be_key=True, numbers=frozenset(numbers), names=tuple(names))


def class_():
    return Kind("class", has_classes=True, class_=Class())


def proxy():
    return Kind("proxy", smallest=2)


# The formats of optional members.
F1, F2, F4, F8, SIZE, VSIZE, FSIZE, CLASS = range(8)
FORMATS = {"bool": F1, "byte": F1, "short": F2, "int": F4, "long": F8, "enum": SIZE, "string": VSIZE, "proxy": FSIZE, "class": CLASS}


@functools.cache
def is_fixed(kind):
    """Says whether each value of a type has the same number of bytes, which is that of the smallest: only of numbers, bools and
    structs of these."""
    return kind.sort == "bool" or kind.sort in INTEGERS or kind.sort == "struct" and all(map(is_fixed, kind.parts))


def optional_format(kind):
    if kind.sort == "struct":
        return VSIZE if is_fixed(kind) else FSIZE
    return FORMATS[kind.sort] if kind.sort in FORMATS else VSIZE if all(map(is_fixed, kind.parts)) else FSIZE


def counts_itself(kind):
    """Says whether the size in front of a value is the number of all its other bytes."""
    return kind.sort == "string" or kind.sort == "sequence" and is_fixed(kind.parts[0]) and kind.parts[0].smallest == 1
