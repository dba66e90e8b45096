"""Reads a value of a type that reaches no class, or finds its first fault, and writes the canonical encapsulation of a value.

A value is False or True, an int, the number of an enumerator, the bytes of a string, a list of elements, a tuple of a struct's
members, a list of the key and value pairs of a dictionary, in rising order of the keys, or a `Proxy`, None where it is null.
Python's own order of these is the order of keys: False before True, ints by value, bytes from the left with a front before what
it begins, tuples member by member.
"""
from dataclasses import dataclass

MOST_BYTES = 1_048_576
MOST_INT = 2**31 - 1
LEAST_ENCAPSULATION = 6
# The version of the encapsulation of a value; in an endpoint any other may stand.
VERSION = (1, 1)

# bytes and sign
NUMBERS = {"byte": (1, False), "short": (2, True), "int": (4, True), "long": (8, True)}

# The greatest mode of a proxy: twoway, oneway, batch oneway, datagram, batch datagram.
MOST_MODE = 4
# An endpoint of this type, in an encapsulation of that version, is one of TCP.
TCP = 1


@dataclass(frozen=True)
class Tcp:
    """An endpoint of TCP."""

    host: bytes = b""
    port: int = 0
    timeout: int = 60_000
    is_compressed: bool = False


@dataclass(frozen=True)
class Opaque:
    """An endpoint of any other type or version, by its bytes."""

    type: int
    version: tuple
    data: bytes


@dataclass(frozen=True)
class Proxy:
    """A proxy that is not null. It has an adapter only where it has no endpoints."""

    name: bytes
    category: bytes = b""
    facet: bytes = b""
    mode: int = 0
    is_secure: bool = False
    protocol: tuple = (1, 0)
    encoding: tuple = (1, 1)
    endpoints: tuple = ()
    adapter: bytes = b""


class Fault(Exception):
    """The first fault from the left: the place of the first byte of the part that has it, and its kind."""

    def __init__(self, place, kind):
        super().__init__(f"{kind} at {place}")
        self.place, self.kind = place, kind


class Cursor:
    """A place in bytes, and the bound of what is read there."""

    def __init__(self, data, at, bound):
        self.data, self.at, self.bound = data, at, bound

    def take(self, count):
        """Returns the next bytes, which are one part."""
        if count > self.bound - self.at:
            raise Fault(self.at, "Short")
        self.at += count
        return self.data[self.at - count : self.at]

    def number(self, width, is_signed):
        return int.from_bytes(self.take(width), "little", signed=is_signed)

    def size(self):
        """Returns a size. It is one part: each fault of it is at its first byte."""
        first = self.at
        number = self.number(1, False)
        if number < 255:
            return number
        if self.bound - self.at < 4:
            raise Fault(first, "Short")
        number = self.number(4, True)
        if number < 255:
            raise Fault(first, "BadSize")
        return number

    def bool(self):
        first = self.at
        number = self.number(1, False)
        if number > 1:
            raise Fault(first, "BadBool")
        return number == 1

    def string(self):
        """Returns the bytes of a string. They are a part of their own, after the size."""
        count = self.size()
        first = self.at
        text = self.take(count)
        try:
            text.decode("utf-8", "strict")
        except UnicodeDecodeError:
            raise Fault(first, "BadText") from None
        return text

    def dictionary(self, key_kind, value_kind):
        pairs = {}
        for _ in range(self.size()):
            first = self.at
            key = self.value(key_kind)
            if key in pairs:
                raise Fault(first, "EqualKey")
            pairs[key] = self.value(value_kind)
        return [(key, pairs[key]) for key in sorted(pairs)]

    def enumerator(self, numbers):
        first = self.at
        number = self.size()
        if number not in numbers:
            raise Fault(first, "BadEnum")
        return number

    def version(self):
        return tuple(self.take(2))

    def left_over(self):
        if self.at < self.bound:
            raise Fault(self.at, "LeftOver")

    def encapsulation(self):
        """Returns a cursor over an encapsulation, behind its size. The faults of the size are tried in the order of a value's own."""
        first = self.at
        size = self.number(4, True)
        if size > MOST_BYTES:
            raise Fault(first, "TooLarge")
        if size > self.bound - first:
            raise Fault(first, "Short")
        if size < LEAST_ENCAPSULATION:
            raise Fault(first, "BadSize")
        self.at = first + size
        return Cursor(self.data, first + 4, self.at)

    def facet(self):
        """Returns a facet: a sequence of at most one text. One empty text is no facet, as none is."""
        first = self.at
        count = self.size()
        if count > 1:
            raise Fault(first, "BadFacet")
        return self.string() if count else b""

    def mode(self):
        first = self.at
        mode = self.number(1, False)
        if mode > MOST_MODE:
            raise Fault(first, "BadMode")
        return mode

    def endpoint(self):
        type_ = self.number(2, True)
        inside = self.encapsulation()
        version = inside.version()
        if (type_, version) != (TCP, VERSION):
            return Opaque(type_, version, inside.take(inside.bound - inside.at))
        tcp = Tcp(inside.string(), inside.number(4, True), inside.number(4, True), inside.bool())
        inside.left_over()
        return tcp

    def proxy(self):
        first = self.at
        name, category = self.string(), self.string()
        if not name and category:
            raise Fault(first, "BadIdentity")
        if not name:
            return None
        front = name, category, self.facet(), self.mode(), self.bool(), self.version(), self.version()
        endpoints = tuple([self.endpoint() for _ in range(self.size())])
        return Proxy(*front, endpoints, b"" if endpoints else self.string())

    def value(self, kind):
        if kind.sort in NUMBERS:
            return self.number(*NUMBERS[kind.sort])
        if kind.sort == "bool":
            return self.bool()
        if kind.sort == "enum":
            return self.enumerator(kind.numbers)
        if kind.sort == "proxy":
            return self.proxy()
        if kind.sort == "string":
            return self.string()
        if kind.sort == "sequence":
            return [self.value(kind.parts[0]) for _ in range(self.size())]
        if kind.sort == "dictionary":
            return self.dictionary(*kind.parts)
        return tuple([self.value(it) for it in kind.parts])


def spelled_size(number):
    assert 0 <= number <= MOST_INT
    return bytes([number]) if number < 255 else b"\xff" + number.to_bytes(4, "little")


def spelled_string(text):
    return spelled_size(len(text)) + text


def spelled_number(number, sort):
    width, is_signed = NUMBERS[sort]
    return number.to_bytes(width, "little", signed=is_signed)


def spelled_endpoint(it):
    if isinstance(it, Opaque):
        return spelled_number(it.type, "short") + encapsulated(it.data, it.version)
    numbers = spelled_number(it.port, "int") + spelled_number(it.timeout, "int")
    inside = spelled_string(it.host) + numbers + bytes([it.is_compressed])
    return spelled_number(TCP, "short") + encapsulated(inside)


# The two spellings of an empty facet: no text, which is written, and one empty text.
NO_FACET, EMPTY_FACET = b"\0", b"\1\0"


def spelled_proxy(it, no_facet=NO_FACET):
    if it is None:
        return b"\0\0"
    front = spelled_string(it.name) + spelled_string(it.category) + (b"\1" + spelled_string(it.facet) if it.facet else no_facet)
    middle = bytes([it.mode, it.is_secure, *it.protocol, *it.encoding]) + spelled_size(len(it.endpoints))
    return front + middle + (b"".join(map(spelled_endpoint, it.endpoints)) if it.endpoints else spelled_string(it.adapter))


def spelled(value, kind, order=sorted, no_facet=NO_FACET):
    """Returns the bytes of a value. `order` says, of the keys of each dictionary, in which order its pairs stand, and `no_facet` is
    how an empty facet is spelled."""
    if kind.sort in NUMBERS:
        return spelled_number(value, kind.sort)
    if kind.sort == "bool":
        return b"\x01" if value else b"\x00"
    if kind.sort == "enum":
        return spelled_size(value)
    if kind.sort == "proxy":
        return spelled_proxy(value, no_facet)
    if kind.sort == "string":
        return spelled_string(value)
    if kind.sort == "struct":
        return b"".join([spelled(it, part, order, no_facet) for it, part in zip(value, kind.parts)])
    if kind.sort == "sequence":
        return spelled_size(len(value)) + b"".join([spelled(it, kind.parts[0], order, no_facet) for it in value])
    key_kind, value_kind = kind.parts
    by_key = dict(value)
    pairs = [spelled(key, key_kind, order, no_facet) + spelled(by_key[key], value_kind, order, no_facet) for key in order(by_key)]
    return spelled_size(len(pairs)) + b"".join(pairs)


def encapsulated(content, version=VERSION):
    return (6 + len(content)).to_bytes(4, "little") + bytes(version) + content


def encode(value, kind, order=sorted, no_facet=NO_FACET):
    """Returns the encapsulation of a value, which is the canonical one where `order` is `sorted` and no facet is no text."""
    return encapsulated(spelled(value, kind, order, no_facet))
