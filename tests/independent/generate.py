"""Makes Slice texts and inputs from a seed: good ones, ones in another order, and broken ones.

A lot is what is made of one schema: a list of `Trial`. Equal seeds give equal lots. Nothing here says what is good or broken:
`relay.relay` does, but of an input made of a value its canonical bytes are known here, and stand in the trial.
"""
import random
from dataclasses import dataclass

import kinds
import lexer
import values


@dataclass(frozen=True)
class Trial:
    what: str
    text: bytes  # of FILE
    word: str  # TYPE
    data: bytes  # the input
    canonical: bytes | None = None  # what is written, where the input is known to be good
    is_compact: bool = False  # whether compact format is to be written


# Slice texts

NAMES = """A b C3 Order lines q Q9 item Key Value2 int2 aStruct x y z Name point Data longs Inner Outer m1 m2 m3 Table zZ
Int BYTE Struct sequence9 object value localobject Bool Dictionary modules anint OUT True""".split()
STRANGE = ["1a", "9", "_", "a_b", "::", "::M::A", "M::A", "//", "/*", "#", "\\int", '"', "[", "]", "*", "=", "(", ")", "-", ".", "é"]
BLANKS = [" ", " ", " ", "  ", "\n", "\t", "\r\n", "\f", "\n    "]
# A struct is a part of others only where it is not longer than this at the least.
MOST_PART = 40
# Numbers of enumerators that are written out: about those that are spelled in one byte and in five.
ENUMERATORS = [0, 1, 2, 3, 7, 100, 253, 254, 255, 256, 65_535, 65_536, 2**31 - 2, 2**31 - 1]


def swapped(name):
    """Returns the name in another case."""
    return name.swapcase()


def is_word(token):
    return token[0].isalnum()


def type_tokens(word):
    """Returns the tokens of a type, which may be that of a proxy."""
    return [word.removesuffix("*"), "*"] if word.endswith("*") else [word]


def text_of(tokens, chance):
    """Returns a text of tokens, with blanks where they have to be and where chance puts them."""
    style = chance.choice(["one", "few", "many"])
    text = []
    for before, token in zip([""] + tokens, tokens):
        needed = before and is_word(before) and is_word(token)
        if style == "one":
            text.append(" " if before else "")
        elif needed or chance.random() < (0.1 if style == "few" else 0.7):
            text.append(chance.choice(BLANKS))
        text.append(token)
    return "".join(text).encode() + chance.choice([b"", b"\n", b" \r\n"])


def tokens_of(module, definitions):
    return ["module", module, "{", *(token for it in definitions for token in it), "}", ";"]


class SchemaMaker:
    """Makes a text definition by definition, each a list of tokens, and keeps the kinds of what it has made by their words, in
    which an interface has a `*`. A plain one has no enums and no proxies."""

    def __init__(self, chance, is_plain=False):
        self.chance, self.is_plain = chance, is_plain
        self.module, self.kinds, self.definitions = chance.choice(NAMES), {}, []

    def tokens(self):
        return tokens_of(self.module, self.definitions)

    def names(self):
        return [it.removesuffix("*") for it in self.kinds]

    def name(self, others):
        taken = {it.removesuffix("*").lower() for it in others}
        free = [it for it in NAMES if it.lower() not in taken]
        return self.chance.choice(free) if free else f"n{len(taken)}"

    def type(self, is_key=False):
        """Returns the word and the kind of a type, of which the later definitions are the likelier."""
        named = [it for it in self.kinds.items() if it[1].smallest <= MOST_PART and it[1].depth < 90]
        if is_key:
            named = [it for it in named if it[1].may_be_key]
        if named and self.chance.random() < 0.6:
            return self.chance.choice(named[-3:] if self.chance.random() < 0.6 else named)
        if not self.is_plain and not is_key and self.chance.random() < 0.1:
            return "Object*", kinds.ANY_PROXY
        return self.chance.choice(list(kinds.BUILT_IN.items()))

    def add(self):
        if not self.is_plain and self.chance.random() < 0.3:
            self.chance.choice([self.add_enum, self.add_enum, self.add_interface])()
            return
        sort = self.chance.choice(["struct", "struct", "sequence", "dictionary", "dictionary"])
        if sort == "struct":
            self.add_struct([self.type() for _ in range(self.chance.choice([1, 1, 2, 2, 3, 4, 6]))])
        elif sort == "sequence":
            self.add_sequence(self.type())
        else:
            self.add_dictionary(self.type(is_key=True), self.type())

    def add_struct(self, types):
        members = []
        tokens = []
        for word, _ in types:
            members.append(self.name(members))
            tokens += [*type_tokens(word), members[-1], ";"]
        name = self.name(self.kinds)
        self.kinds[name] = kinds.struct([kind for _, kind in types])
        self.definitions.append(["struct", name, "{", *tokens, "}", ";"])

    def add_sequence(self, element):
        name = self.name(self.kinds)
        self.kinds[name] = kinds.sequence(element[1])
        self.definitions.append(["sequence", "<", *type_tokens(element[0]), ">", name, ";"])

    def add_dictionary(self, key, value):
        name = self.name(self.kinds)
        self.kinds[name] = kinds.dictionary(key[1], value[1])
        self.definitions.append(["dictionary", "<", *type_tokens(key[0]), ",", *type_tokens(value[0]), ">", name, ";"])

    def add_enum(self):
        entries, numbers, tokens = [], [], []
        for _ in range(self.chance.choice([1, 2, 2, 3, 4, 5])):
            following = numbers[-1] + 1 if numbers else 0
            number = following if self.chance.random() < 0.5 else self.chance.choice(ENUMERATORS)
            if number in numbers or number > values.MOST_INT:
                number = next(it for it in range(100) if it not in numbers)
            numbers.append(number)
            entries.append(self.name(entries))
            tokens += [",", entries[-1]] + (["=", str(number)] if number != following or self.chance.random() < 0.1 else [])
        name = self.name(self.kinds)
        self.kinds[name] = kinds.enum(numbers)
        self.definitions.append(["enum", name, "{", *tokens[1:], *self.chance.choice([[], [","]]), "}", ";"])

    def add_interface(self):
        name = self.name(self.kinds)
        self.kinds[name + "*"] = kinds.proxy()
        self.definitions.append(["interface", name, *self.chance.choice([[], ["{", "}"]]), ";"])

    def last(self):
        return list(self.kinds.items())[-1]

    def deepen(self):
        """Adds a definition around the last one, by its element, key, value or member."""
        ways = ["member", "element", "value"] + (["key"] if self.last()[1].may_be_key else [])
        way = self.chance.choice(ways)
        if way == "member":
            types = [self.last()] + [self.type() for _ in range(self.chance.choice([0, 0, 1]))]
            self.chance.shuffle(types)
            self.add_struct([it for it in types if it[1].smallest <= MOST_PART] or [self.last()])
        elif way == "element":
            self.add_sequence(self.last())
        elif way == "value":
            self.add_dictionary(self.type(is_key=True), self.last())
        else:
            self.add_dictionary(self.last(), self.type())


def broken_tokens(tokens, names, chance):
    """Yields tokens in which, at each place in turn, one is dropped, doubled or replaced."""
    others = ["{", "}", "<", ">", ",", ";", *sorted(lexer.KEYWORDS), *names, *(swapped(it) for it in names), *STRANGE]
    for at, token in enumerate(tokens):
        yield "a token dropped", tokens[:at] + tokens[at + 1 :]
        yield "a token doubled", tokens[: at + 1] + tokens[at:]
        yield "a token replaced", tokens[:at] + [chance.choice(others)] + tokens[at + 1 :]
        if not is_word(token):
            yield "a symbol replaced", tokens[:at] + [chance.choice([it for it in "{}<>,;" if it != token])] + tokens[at + 1 :]


def is_type(tokens, at):
    """Says whether an element, a key, a value or the type of a member stands there, which may be a proxy's."""
    behind = tokens[at + 1 + (tokens[at + 1 : at + 2] == ["*"]) :][:2]
    return is_word(tokens[at]) and (behind[:1] in ([">"], [","]) or (len(behind) == 2 and is_word(behind[0]) and behind[1] == ";"))


def is_name(tokens, at):
    """Says whether the name of a module, a definition or a member stands there."""
    return is_word(tokens[at]) and tokens[at + 1 : at + 2] in (["{"], [";"])


def other_words(tokens, names, chance):
    """Yields tokens in which each type is another one, later ones and the module among them, and each name one that may stand already."""
    words = sorted({it for it in tokens if is_word(it)} - set(lexer.KEYWORDS))
    for at, token in enumerate(tokens):
        if is_type(tokens, at):
            types = [*names, swapped(token), chance.choice(words), chance.choice(sorted(lexer.KEYWORDS))]
            for it in types if len(types) <= 8 else chance.sample(types, 8):
                yield "another type", tokens[:at] + [it] + tokens[at + 1 :]
        if is_name(tokens, at):
            yield "another name", tokens[:at] + [chance.choice(words)] + tokens[at + 1 :]
            yield "another name", tokens[:at] + [swapped(chance.choice(words))] + tokens[at + 1 :]
            yield "a keyword as a name", tokens[:at] + [chance.choice(sorted(lexer.KEYWORDS))] + tokens[at + 1 :]


def other_definitions(module, definitions):
    """Yields tokens in which each definition, and each struct's member, is dropped, doubled or changes places with the next."""
    for at, it in enumerate(definitions):
        front, back = definitions[:at], definitions[at + 1 :]
        yield "a definition dropped", tokens_of(module, front + back)
        yield "a definition doubled", tokens_of(module, front + [it, it] + back)
        yield "definitions in another order", tokens_of(module, front + back[:1] + [it] + back[1:])
        if it[0] == "struct":
            yield "no members", tokens_of(module, front + [it[:3] + it[-2:]] + back)
            ends = [place + 1 for place, token in enumerate(it[:-2]) if token == ";"]
            for place, end in zip([3, *ends], ends):
                yield "a member dropped", tokens_of(module, front + [it[:place] + it[end:]] + back)
                yield "a member doubled", tokens_of(module, front + [it[:end] + it[place:]] + back)


def broken_bytes(text, chance):
    """Yields the text with a byte that is no blank and of no token, at places here and there."""
    for _ in range(6):
        at = chance.randrange(len(text) + 1)
        yield "a strange byte", text[:at] + bytes([chance.choice([0, 11, 28, 34, 35, 47, 92, 95, 127, 133, 160, 195])]) + text[at:]


# Values

EDGES = {
    "byte": [0, 1, 2, 127, 128, 254, 255],
    "short": [0, 1, -1, 255, 256, -256, 32_767, -32_768],
    "int": [0, 1, -1, 255, 65_536, -65_536, 2**31 - 1, -(2**31)],
    "long": [0, 1, -1, 2**31, 2**32, -(2**32), 2**63 - 1, -(2**63)],
}
TEXTS = ["", "a", "b", "ab", "aa", "abc", "A", "Z", "\0", "a\0", "\x7f", "\x80", "é", "z", "€", "\ufffd", "\U00010000", "😀", "ß"]
ODD_TEXTS = ["a" * 254, "a" * 255, "b" * 256, "é" * 128]
# Of proxies, whose printed form has some of these in quotes or as escapes.
NAME_TEXTS = ["a", "b", "c/d", "/", "-t", "a b", ":", "@", '"', "\\", "'", "\n", "\r", "\t", "\f", "\v", "\0", "\x7f", "\x80", "é", "😀", "hello"]
HOSTS = ["", "localhost", "127.0.0.1", "::1", "a.b", "é"]
PORTS = [0, 1, 80, 10_000, 65_535, 65_536, -1, 2**31 - 1, -(2**31)]
TIMEOUTS = [60_000, 60_000, -1, 0, 1, -2, 2**31 - 1, -(2**31)]
ENDPOINT_TYPES = [1, 0, 2, 3, 257, -1, 32_767, -32_768]
VERSIONS = [(1, 0), (1, 1), (1, 1), (0, 0), (2, 1), (255, 255)]


class ProxyMaker:
    """Makes proxies that are not null, mostly of few bytes."""

    def __init__(self, chance):
        self.chance = chance

    def text(self, texts=NAME_TEXTS):
        count = self.chance.choice([1, 1, 1, 1, 2, 3])
        return "".join(self.chance.choice(texts) for _ in range(count)).encode()

    def some(self, chance, texts=NAME_TEXTS):
        return self.text(texts) if self.chance.random() < chance else b""

    def tcp(self):
        host = self.some(0.8, HOSTS) if self.chance.random() < 0.8 else self.text()
        return values.Tcp(host, self.chance.choice(PORTS), self.chance.choice(TIMEOUTS), self.chance.random() < 0.3)

    def opaque(self):
        """Returns an endpoint that is not one of TCP, but may be as one but for its type or its version."""
        type_, version = self.chance.choice(ENDPOINT_TYPES), self.chance.choice(VERSIONS)
        if (type_, version) == (values.TCP, values.VERSION):
            type_ = 2
        if self.chance.random() < 0.3:
            return values.Opaque(type_, version, values.spelled_endpoint(self.tcp())[8:])
        return values.Opaque(type_, version, self.chance.randbytes(self.chance.choice([0, 0, 1, 2, 5])))

    def proxy(self):
        name, category, facet = self.text(), self.some(0.3), self.some(0.3)
        mode = self.chance.choice([0, 0, 0, *range(values.MOST_MODE + 1)])
        protocol = (1, 0) if self.chance.random() < 0.8 else self.chance.choice(VERSIONS)
        front = name, category, facet, mode, self.chance.random() < 0.2, protocol, self.chance.choice(VERSIONS)
        makers = self.chance.choices([self.tcp, self.tcp, self.opaque], k=self.chance.choice([0, 0, 1, 1, 1, 2, 3]))
        endpoints = tuple([make() for make in makers])
        return values.Proxy(*front, endpoints, b"" if endpoints else self.some(0.5))


class ValueMaker:
    """Makes values of about `room` elements and pairs."""

    def __init__(self, chance, room):
        self.chance, self.room = chance, room

    def count(self):
        count = min(self.chance.choice([0, 1, 1, 2, 2, 3, 4]), self.room)
        self.room -= count
        return count

    def value(self, kind):
        if kind.sort in EDGES:
            width, is_signed = values.NUMBERS[kind.sort]
            if self.chance.random() < 0.7:
                return self.chance.choice(EDGES[kind.sort])
            return int.from_bytes(self.chance.randbytes(width), "little", signed=is_signed)
        if kind.sort == "bool":
            return self.chance.random() < 0.5
        if kind.sort == "enum":
            return self.chance.choice(sorted(kind.numbers))
        if kind.sort == "proxy":
            return ProxyMaker(self.chance).proxy() if self.chance.random() < 0.6 else None
        if kind.sort == "string":
            return self.chance.choice(TEXTS if self.chance.random() < 0.98 else ODD_TEXTS).encode()
        if kind.sort == "struct":
            return tuple([self.value(it) for it in kind.parts])
        if kind.sort == "sequence":
            return [self.value(kind.parts[0]) for _ in range(self.count())]
        keys = self.keys(kind.parts[0])
        return [(key, self.value(kind.parts[1])) for key in sorted(keys)]

    def keys(self, kind):
        keys = []
        for _ in range(self.count()):
            key = self.near(self.chance.choice(keys), kind) if keys and self.chance.random() < 0.5 else self.value(kind)
            if key not in keys:
                keys.append(key)
        return keys

    def near(self, key, kind):
        """Returns a key that differs from another in one member alone, the last one often, or in where two texts are parted."""
        if kind.sort == "string" and self.chance.random() < 0.5:
            return key[:-1] if key.isascii() and key and self.chance.random() < 0.5 else key + b"a"
        if kind.sort != "struct":
            return self.value(kind)
        at = len(key) - 1 if self.chance.random() < 0.6 else self.chance.randrange(len(key))
        if at and kind.parts[at].sort == kind.parts[at - 1].sort == "string" and self.chance.random() < 0.5:
            return (*key[: at - 1], *parted_elsewhere(key[at - 1], key[at]), *key[at + 1 :])
        return (*key[:at], self.near(key[at], kind.parts[at]), *key[at + 1 :])


def parted_elsewhere(one, other):
    """Returns two texts that are the same text together, as far as one of them has a letter of ASCII to give."""
    if one and one[-1] < 128:
        return one[:-1], one[-1:] + other
    if other and other[0] < 128:
        return one + other[:1], other[1:]
    return one, other


def shuffled(chance):
    def order(keys):
        keys = list(keys)
        chance.shuffle(keys)
        return keys

    return order


def falling(keys):
    return sorted(keys, reverse=True)


class OneTwice:
    """An order of keys in which one key of one dictionary comes twice: of the dictionary that is asked for as number `at`."""

    def __init__(self, chance, at):
        self.chance, self.left = chance, at

    def __call__(self, keys):
        keys = shuffled(self.chance)(keys)
        self.left -= 1
        if self.left == 0 and keys:
            keys.insert(self.chance.randrange(len(keys) + 1), self.chance.choice(keys))
        return keys


def good_inputs(kind, chance, room):
    """Yields what an input is, the input, and its canonical bytes: of one value in several orders."""
    value = ValueMaker(chance, room).value(kind)
    canonical = values.encode(value, kind)
    yield "canonical", canonical, canonical
    seen = {canonical}
    orders = [("falling", falling), ("scrambled", shuffled(chance)), ("scrambled", shuffled(chance))]
    styles = [(*it, values.NO_FACET) for it in orders] + [("with empty facets", shuffled(chance), values.EMPTY_FACET)]
    for what, order, no_facet in styles:
        data = values.encode(value, kind, order, no_facet)
        if data not in seen:
            seen.add(data)
            yield what, data, canonical


def doubled_keys(kind, chance, room):
    """Yields inputs of a value in which one key comes twice, as far as it has keys."""
    value = ValueMaker(chance, room).value(kind)
    length = len(values.encode(value, kind))
    for at in range(1, 6):
        data = values.encode(value, kind, OneTwice(chance, at))
        if len(data) > length:
            yield data


def sized(data):
    """Returns the encapsulation with the size that it has."""
    return len(data).to_bytes(4, "little") + data[4:]


def other(byte, chance):
    near = [byte ^ 1, byte ^ 0x80, (byte + 1) % 256, (byte - 1) % 256, 0, 1, 2, 255, chance.randrange(256)]
    return chance.choice([it for it in near if it != byte])


def broken_inputs(data, chance):
    """Yields an input with each byte changed, cut and doubled in turn; after the size also with the size that fits then."""
    for at, byte in enumerate(data):
        yield "a byte changed", data[:at] + bytes([other(byte, chance)]) + data[at + 1 :]
        for what, changed in (
            ("a byte cut", data[:at] + data[at + 1 :]),
            ("a byte doubled", data[: at + 1] + data[at:]),
            ("cut at a byte", data[:at]),
        ):
            if at >= 4:
                yield what + ", sized", sized(changed)
            if at < 8 or chance.random() < 0.1:
                yield what, changed


# What stands in the place of a part of a proxy: sizes and numbers in one byte and in five, and texts that are none.
ODD_BYTES = [b"", b"\0", b"\1", b"\2", b"\3", b"\5", b"\x7f", b"\xff", b"\1\0", b"\0\1", b"\xff\xfe\0\0\0", b"\xff\xff\0\0\0", b"\xff" * 5]
ODD_NUMBERS = [0, 1, 5, 6, 7, -1, -(2**31), 1_048_576, 1_048_577, 2**31 - 1]


def parts_of_proxy(it):
    """Returns the parts of a proxy that is not null, one after the other."""
    parts = []

    def add_string(text):
        parts.extend([values.spelled_size(len(text)), text])

    add_string(it.name)
    add_string(it.category)
    parts.append(values.spelled_size(bool(it.facet)))
    if it.facet:
        add_string(it.facet)
    parts.extend([bytes([it.mode]), bytes([it.is_secure]), bytes(it.protocol), bytes(it.encoding), values.spelled_size(len(it.endpoints))])
    for endpoint in it.endpoints:
        data = values.spelled_endpoint(endpoint)
        parts.extend([data[:2], data[2:6], data[6:8]])
        if isinstance(endpoint, values.Opaque):
            parts.append(endpoint.data)
        else:
            add_string(endpoint.host)
            parts.extend([data[-9:-5], data[-5:-1], data[-1:]])
    if not it.endpoints:
        add_string(it.adapter)
    assert b"".join(parts) == values.spelled_proxy(it)
    return parts


def broken_proxies(it, chance):
    """Yields a proxy's bytes with each part dropped, doubled and replaced in turn."""
    parts = parts_of_proxy(it)
    for at, part in enumerate(parts):
        front, back = b"".join(parts[:at]), b"".join(parts[at + 1 :])
        yield front + back
        yield front + part + part + back
        yield front + chance.choice(ODD_BYTES) + back
        if len(part) == 4:
            number = int.from_bytes(part, "little", signed=True)
            for other_number in (number - 1, number + 1, chance.choice(ODD_NUMBERS)):
                yield front + (other_number % 2**32).to_bytes(4, "little") + back


def odd_enumerators(numbers):
    """Yields sizes about those of the numbers of an enum, and in the long form."""
    near = {it + by for it in numbers for by in (-1, 0, 1)} | {0, 1, 254, 255}
    for number in sorted(near):
        if 0 <= number <= values.MOST_INT:
            yield values.spelled_size(number)
        yield b"\xff" + (number % 2**32).to_bytes(4, "little")
    yield from (b"", b"\xff", b"\xff\0\1\0")


# Lots


def wrong_words(module, names, chance):
    """Returns words that name nothing, but where one of them names something by chance."""
    name = chance.choice(names)
    return chance.sample(
        [f"::{module}", f"::{module}::", name, f"{module}::{name}", f"::{module}::{swapped(name)}", f"::{swapped(module)}::{name}"]
        + [f"::{module}::{name}x", f"::{module}::{name[:-1]}", f"::{name}", f"::{module}::{name}::{name}", f" ::{module}::{name}"]
        + ["Int", "STRING", "float", "Object", "struct", f"sequence<{name}>", f"::{module}::int", "::int", f":{module}:{name}"]
        + [f"::{module}::{name}*", "Object*", "Object**"],
        4,
    )


def trials_of(maker, chance, rooms, broken):
    """Yields good and broken inputs of each type of a schema, and of one built-in type; `broken` is the number of broken ones."""
    text = text_of(maker.tokens(), chance)
    types = {f"::{maker.module}::{name}": kind for name, kind in maker.kinds.items()}
    word = chance.choice(list(kinds.BUILT_IN))
    yield from part_trials(text, types, chance)
    for word, kind in [*types.items(), (word, kinds.BUILT_IN[word])]:
        inputs = []
        for room in rooms:
            for what, data, canonical in good_inputs(kind, chance, room):
                inputs.append(data)
                yield Trial(what, text, word, data, canonical)
            for data in doubled_keys(kind, chance, room):
                inputs.append(data)
                yield Trial("a key twice", text, word, data)
        short = [it for it in inputs if len(it) <= 64]
        for data in chance.sample(short, min(broken, len(short))):
            for what, changed in broken_inputs(data, chance):
                yield Trial(what, text, word, changed)


def part_trials(text, types, chance):
    """Yields a proxy with each of its parts broken, and enumerators about those of each enum."""
    word = chance.choice(["Object*"] + [word for word, kind in types.items() if kind.sort == "proxy"])
    for content in broken_proxies(ProxyMaker(chance).proxy(), chance):
        yield Trial("a part of a proxy", text, word, values.encapsulated(content))
    for word, kind in types.items():
        for content in odd_enumerators(kind.numbers) if kind.sort == "enum" else ():
            yield Trial("an enumerator", text, word, values.encapsulated(content))


def text_trials(maker, chance):
    """Yields broken texts of a schema, each with a type and an input that fit the good text."""
    names, module = maker.names(), maker.module
    made = [*broken_tokens(maker.tokens(), names, chance), *other_words(maker.tokens(), names, chance)]
    made += other_definitions(module, maker.definitions)
    texts = [(what, text_of(tokens, chance)) for what, tokens in made]
    texts += broken_bytes(text_of(maker.tokens(), chance), chance)
    for what, text in texts:
        name, kind = chance.choice(list(maker.kinds.items()))
        yield Trial(what, text, f"::{module}::{name}", values.encode(ValueMaker(chance, 8).value(kind), kind))
    for word in wrong_words(module, names, chance):
        yield Trial("another word", text_of(maker.tokens(), chance), word, b"\x07\0\0\0\1\1\0")


def usual_lot(chance):
    maker = SchemaMaker(chance)
    for _ in range(chance.choice([1, 2, 3, 5, 8])):
        maker.add()
    yield from trials_of(maker, chance, (4, 12, 40), 2 if len(maker.kinds) < 4 else 1)
    yield from text_trials(maker, chance)


def keyed_lot(chance):
    """Structs as keys: of built-in types, of one of these structs, and a dictionary of each."""
    maker = SchemaMaker(chance)
    if chance.random() < 0.5:
        maker.add_enum()
    types = [*kinds.BUILT_IN.items(), *maker.kinds.items()]
    texts = [("string", kinds.BUILT_IN["string"])] * 2
    maker.add_struct(texts if chance.random() < 0.3 else [chance.choice(types) for _ in range(chance.choice([1, 2, 3]))])
    key = maker.last()
    maker.add_dictionary(key, maker.type())
    maker.add_struct(chance.sample([key, key, *types], chance.choice([2, 3, 4])))
    maker.add_dictionary(maker.last(), maker.type())
    yield from trials_of(maker, chance, (3, 5, 8, 12, 20, 40), 1)


def deep_lot(chance, wanted):
    """A type of a depth, or of one more: each definition stands on the one before it."""
    maker = SchemaMaker(chance)
    maker.add()
    while maker.last()[1].depth < wanted:
        maker.deepen()
    name, kind = maker.last()
    text, word = text_of(maker.tokens(), chance), f"::{maker.module}::{name}"
    if kind.depth > kinds.MOST_DEPTH:
        yield Trial("too deep", text, word, values.encode(ValueMaker(chance, 200).value(kind), kind))
        return
    for what, data, canonical in good_inputs(kind, chance, 200):
        yield Trial(f"deep, {what}", text, word, data, canonical)


LEAVES = {**kinds.BUILT_IN, "Object*": kinds.ANY_PROXY}


def big_lot(chance, leaf, more):
    """A struct whose smallest spelling is that many bytes more than the most."""
    maker = SchemaMaker(chance)
    base = chance.choice([2, 3, 7, 16, 100])
    parts = [(leaf, LEAVES[leaf])]
    while parts[-1][1].smallest * base <= kinds.MOST_SMALLEST:
        maker.add_struct([parts[-1]] * base)
        parts.append(maker.last())
    left = kinds.MOST_SMALLEST + more
    members = []
    for part in [*reversed(parts), ("bool", kinds.BUILT_IN["bool"])]:
        members += [part] * (left // part[1].smallest)
        left %= part[1].smallest
    chance.shuffle(members)
    maker.add_struct(members)
    text = text_of(maker.tokens(), chance)
    yield Trial("big", text, "bool", b"\x07\0\0\0\1\1\1")
    yield Trial("big", text, f"::{maker.module}::{maker.last()[0]}", values.encapsulated(b"\1" * chance.choice([0, 1, 1_000])))


def lot(seed, number):
    """Returns the trials of one schema."""
    chance = random.Random(f"{seed} {number}")
    trials = list(usual_lot(chance)) + list(keyed_lot(chance))
    for wanted in (99, 100, 100, 101):
        trials += deep_lot(chance, wanted)
    for more in (-1, 0, 0, 1, 1, chance.choice([2, 8, 1_000_000])):
        trials += big_lot(chance, chance.choice(list(LEAVES)), more)
    return trials
