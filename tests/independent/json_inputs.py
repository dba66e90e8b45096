"""Makes inputs of `ice dump` and texts for `ice encode` from a seed, and words of `ice drill`: graphs in all
spellings of both, and texts that are nearly notations of graphs.

A notation is made here of what Python has for JSON, with `Pairs` where an object is to have its names in some order
or one of them twice, and with `Raw` for what is to stand as it is.
"""
import copy
import random
from dataclasses import dataclass

import fewer_inputs
import generate
import graph_inputs
import graphs
import json_notation
import json_texts
import kinds
import proxy_texts
import relay
from graph_inputs import GraphMaker, KeepingMaker
from json_notation import Noter

FILE = "s.ice"


@dataclass(frozen=True)
class Trial:
    what: str
    text: bytes  # of FILE
    words: tuple
    data: bytes = b""  # the input
    output: bytes | None = None  # what is written, where it is known: nothing where the input is refused


class Pairs(list):
    """An object, as names and values."""


@dataclass(frozen=True)
class Raw:
    text: bytes


# Texts of a notation


class VariedNoter(Noter):
    """Notes a graph in any way that is read as that graph: with its instances in any order and those that nothing
    refers to, the pairs of dictionaries in any order, bytes in letters of either case, and proxies in any form."""

    def __init__(self, graph, kind, chance):
        super().__init__(graph, kind)
        self.chance = chance
        numbers = list(range(len(graph.instances))) if chance.random() < 0.7 else list(self.places)
        chance.shuffle(numbers)
        self.places = {number: place for place, number in enumerate(numbers)}

    def value(self, value, kind):
        if kind.sort == "dictionary":
            value = generate.shuffled(self.chance)(value)
        if kind.sort == "proxy" and value is not None:
            return proxy_texts.joined(proxy_texts.Speller(self.chance).words(value), self.chance).decode()
        return super().value(value, kind)

    def slice(self, it):
        found = super().slice(it)
        if "bytes" in found:
            found["bytes"] = "".join(self.chance.choice([digit, digit.upper()]) for digit in found["bytes"])
        return found


class Speller:
    """Spells what Python has for JSON: with blanks, letters as escapes, and names of objects in any order, at rates of
    its own."""

    ESCAPES = {'"': '\\"', "\\": "\\\\", "\b": "\\b", "\f": "\\f", "\n": "\\n", "\r": "\\r", "\t": "\\t", "/": "\\/"}

    def __init__(self, chance):
        self.chance = chance
        self.blanks, self.escapes, self.order, self.twice = [chance.choice([0, 0, 0.1, 0.5]) for _ in range(4)]

    def is_so(self, rate):
        return self.chance.random() < rate

    def blank(self):
        return self.chance.choice([b" ", b"\n", b"\t", b"\r", b"  \r\n"]) if self.is_so(self.blanks) else b""

    def letter(self, it):
        number = ord(it)
        if it in self.ESCAPES and (it != "/" or self.is_so(self.escapes)) and not self.is_so(self.escapes):
            return self.ESCAPES[it]
        if number >= 32 and it not in '"\\' and not self.is_so(self.escapes):
            return it
        units = it.encode("utf-16-be")
        digits = self.chance.choice(["{:04x}", "{:04X}"])
        numbers = [int.from_bytes(units[at : at + 2], "big") for at in range(0, len(units), 2)]
        return "".join("\\u" + digits.format(number) for number in numbers)

    def string(self, it):
        return ('"' + "".join(map(self.letter, it)) + '"').encode()

    def object(self, pairs):
        found = [self.blank() + self.string(name) + self.blank() + b":" + self.value(it) for name, it in pairs]
        return b"{" + b",".join(found or [self.blank()]) + b"}"

    def value(self, it):
        return self.blank() + self.inside(it) + self.blank()

    def inside(self, it):
        if isinstance(it, Raw):
            return it.text
        if isinstance(it, Pairs):
            return self.object(it)
        if isinstance(it, dict):
            pairs = list(it.items())
            if self.is_so(self.order):
                self.chance.shuffle(pairs)
            if pairs and self.is_so(self.twice):
                name = self.chance.choice(pairs)[0]
                pairs.insert(0, (name, self.chance.choice([None, 7, {}, [["x"]], "\U0001F600"])))
            return self.object(pairs)
        if isinstance(it, list):
            return b"[" + b",".join([self.value(each) for each in it] or [self.blank()]) + b"]"
        return self.string(it) if isinstance(it, str) else json_texts.written(it)


# Notations that are nearly those of graphs

def raw(*texts):
    return [Raw(it) for it in texts]


ODD_NUMBERS = [0, 1, 2, 3, -1, -2, 255, 256, -128, -129]
ODD_NUMBERS += [sign * 2**bits + by for sign in (1, -1) for bits in (15, 31, 32, 63, 64) for by in (-1, 0, 1)]
ODD_NUMBERS += [10**20, 10**400]
RAW_NUMBERS = raw(*b"-0 0.0 1.0 -1.0 1e0 1E2 1e+2 1e-2 0e5 2.5 1e400 -1e400 1e-400 1e308 1e309".split())
BROKEN_NUMBERS = raw(*b"01 00 -01 +1 1. .5 1e 1e+ - 0x1 1_0 NaN Infinity -Infinity nan 1,".split())
STRINGS = ["", "0", "a", "$", "$value", "null", "true", "::", "::M", "00", "0g", "g0", "A0", " 00", "00 ", "é0", "\0"]
STRINGS += ["\U0001F600", "x" * 300]
BROKEN_STRINGS = raw(rb'"\ud800"', rb'"\udc00\ud800"', rb'"\ud83d\u0041"', rb'"\u12"', rb'"\x41"', rb'"\a"', rb'"')
BROKEN_STRINGS += raw(b'"\n"', b'"\0"', b'"\x1f"', b"'a'")
BROKEN_STRINGS += raw(b'"\xff"', b'"\xc3"', b'"\xed\xa0\x80"', b'"\xf4\x90\x80\x80"')
OTHER_STRINGS = [Raw(it) for it in (rb'"\ud83d\ude00"', rb'"\u0061"', rb'"\/"', b'"\x7f"', rb'"\u0000"')]
BROKEN = raw(b"", b"nul", b"True", b"// x\n1", b"{,}", b"[,]", b"{1:2}", b"{'a':1}", b'{"a"}', b'{"a":}', b"[1 2]")
VALUES = [None, True, False, [], {}, [[]], {"$": 2}, {"$": 3}, {"": 0}]


@dataclass
class Place:
    """A place of a notation: what holds it, its name or number there, and its sort."""

    holder: object
    key: object
    sort: str

    def get(self):
        return self.holder[self.key]

    def set(self, it):
        self.holder[self.key] = it


# What a place is for, by its name, and of what types values are.
OF_VALUES = ("int", "str", "list", "dict", "bool", "NoneType")
SORTS = ("$", "class", "kept", "bytes", "optionals", "table", "slices", "instances", "roots", "members")


def places_in(told):
    """Returns all places of a notation, each with its sort: what it is there for, or of what type it is."""
    whole = [told]
    found, waiting = [], [Place(whole, 0, "whole")]
    while waiting:
        it = waiting.pop()
        found.append(it)
        held = it.get()
        if isinstance(held, dict):
            waiting += [Place(held, name, name if name in SORTS else type(held[name]).__name__) for name in held]
        elif isinstance(held, list):
            sort = "slice" if it.sort == "slices" else "instance" if it.sort == "instances" else None
            waiting += [Place(held, at, sort or type(held[at]).__name__) for at in range(len(held))]
    return whole, found


class Spoiler:
    """Changes a notation at one place."""

    def __init__(self, chance, ids):
        self.chance, self.ids = chance, ids

    def spoilt(self, told):
        """Returns what was changed, and the notation with that."""
        whole, places = places_in(copy.deepcopy(told))
        sorts = sorted({it.sort for it in places})
        sort = self.chance.choice(sorts + 2 * [it for it in sorts if it in OF_VALUES])
        place = self.chance.choice([it for it in places if it.sort == sort])
        ways = self.ways(place.get(), place.sort, len(told["instances"]))
        what, it = self.chance.choice(ways)
        place.set(it)
        return f"{what} at {sort}", whole[0]

    def ways(self, it, sort, count):
        """Returns what may be done to what stands at a place of a sort."""
        if self.chance.random() < 0.1:
            return [("no JSON", self.chance.choice(BROKEN_NUMBERS + BROKEN_STRINGS + BROKEN))]
        ways = [("another value", self.chance.choice(VALUES)), ("another number", self.chance.choice(ODD_NUMBERS))]
        ways += [("another string", self.chance.choice(STRINGS + OTHER_STRINGS))]
        if isinstance(it, dict):
            ways += [*self.object_ways(it)] * 2
        elif isinstance(it, list):
            ways += [*self.array_ways(it)] * 2
        elif isinstance(it, str):
            ways += [*self.string_ways(it, sort)] * 2
        elif isinstance(it, int) and not isinstance(it, bool):
            ways += [("a number more", it + 1), ("a number less", it - 1)] * 2
            ways += [("an odd number", self.chance.choice(RAW_NUMBERS))] * 2
            ways += [("a point", Raw(b"%d.0" % it)), ("an exponent", Raw(b"%de0" % it))]
            ways += [("a zero in front", Raw(b"0%d" % it)), ("a number as a string", str(it))]
        if sort == "$" or isinstance(it, dict) and "$" in it:
            numbers = [0, 1, 2, count, count + 1, count + 2, count + 3, -1]
            number = self.chance.choice(numbers)
            ways += [("another reference", number if sort == "$" else {"$": number})] * 4
        return ways

    def object_ways(self, it):
        names, pairs = list(it), list(it.items())
        if names:
            at = self.chance.randrange(len(names))
            name, held = pairs[at]
            yield "a name dropped", {key: value for key, value in pairs if key != name}
            yield "a name twice", Pairs([*pairs, (name, held)])
            yield "a name twice, another value last", Pairs([*pairs, (name, self.chance.choice([*VALUES[:5], 0, ""]))])
            yield "a name twice, another value first", Pairs([(name, self.chance.choice([*VALUES[:5], 0, ""])), *pairs])
            other = self.chance.choice([name.swapcase() + "x", name + " ", name[:-1], name.upper(), "", name + "\0"])
            yield "another name", {other if key == name else key: value for key, value in pairs}
            yield "names in another order", Pairs(reversed(pairs))
            yield "two values exchanged", dict(zip(names, [value for _, value in pairs[1:] + pairs[:1]]))
        more = self.chance.choice(["", "x", "$", "kept", "class", "table", "instances", "a", "z"])
        yield "a name more", {**it, more: it.get(more, self.chance.choice([None, 0, "", [], {}]))}

    def array_ways(self, it):
        if it:
            at = self.chance.randrange(len(it))
            yield "an element dropped", it[:at] + it[at + 1 :]
            yield "an element twice", it[: at + 1] + it[at:]
            yield "elements in another order", it[:at] + it[at + 1 :] + it[at : at + 1]
            yield "an element null", it[:at] + [None] + it[at + 1 :]
            yield "an element alone", it[at]
            if all(isinstance(each, list) and each for each in it):
                yield "a key twice", it + [[it[at][0], *self.chance.choice(it)[1:]]]
                yield "a key twice", [[it[at][0], *each[1:]] for each in it]
        yield "an element more", it + [self.chance.choice([None, 0, "", [], {}, {"$": 2}, *it])]
        yield "in an array", [it]
        yield "a comma at the end", Raw(json_texts.written(it)[:-1] + b",]")

    def string_ways(self, it, sort):
        at = self.chance.randrange(len(it) + 1)
        yield "a letter more", it[:at] + self.chance.choice("0aG:-/ é\0") + it[at:]
        yield "a letter less", it[:at] + it[at + 1 :]
        yield "in another case", it.swapcase()
        if " " in it:
            what, text = proxy_texts.with_odd_bytes(it.encode(), self.chance)
            yield f"{what} of a proxy", escaped(text)
            what, words = proxy_texts.with_odd_words(it.encode().split(b" "), self.chance)
            yield f"{what} of a proxy", escaped(b" ".join(words))
        if sort in ("class", "kept"):
            for _ in range(4):
                yield "another id", self.chance.choice(self.ids)


def escaped(text):
    """Returns a text, which may be no UTF-8, as a string."""
    return Raw(b'"' + text.replace(b"\\", b"\\\\").replace(b'"', b'\\"') + b'"')


def wrong_slices(told, chance):
    """Returns a notation of which one instance has other slices."""
    told = copy.deepcopy(told)
    held = chance.choice(told["instances"])["slices"]
    at = chance.randrange(len(held))
    other = chance.choice(chance.choice(told["instances"])["slices"])
    way = chance.choice(["drop", "put", "move", "twice", "kept", "last"])
    if way == "drop":
        del held[at]
    elif way == "put":
        held.insert(at, other)
    elif way == "move":
        held.insert(chance.randrange(len(held)), held.pop(at))
    elif way == "twice":
        held.insert(at, held[at])
    elif way == "last":
        held.append({"bytes": "", "kept": "::Gone", "optionals": False, "table": []})
    else:
        type_id = chance.choice([held[at].get("class", "::Gone"), "#4", "#04"])
        held[at] = {"bytes": "", "kept": type_id, "optionals": False, "table": []}
    return told


def spoilt_text(text, chance):
    """Returns what was changed in a text, and the text with it."""
    at = chance.randrange(len(text))
    front, back = text[:at], text[at + 1 :]
    odd = bytes([chance.choice([*b'"\\{}[],:0-.eEntf/ \t\n\r\b\f\v', 0, 31, 127, 128, 195, 239, 255])])
    ways = {"dropped": front + back, "doubled": text[: at + 1] + text[at:], "replaced": front + odd + back}
    ways |= {"put in": front + odd + text[at:], "cut": front}
    what = chance.choice(list(ways))
    return f"a byte {what}", ways[what]


AROUND = [(b"", b"\0"), (b"\0", b""), (b"\xef\xbb\xbf", b""), (b"", b"{}"), (b"", b","), (b"[", b"]"), (b"", b"\x0b")]
AROUND += [(b"", b"\x0c"), (b"", b"\xc2\xa0"), (b"", b"//"), (b"", b"]"), (b'"', b'"'), (b"/**/", b"")]
AROUND += [(b"\xff\xfe", b""), (b"\n", b"\n"), (b" \t\r\n", b" \t\r\n")]


# Trials


class Text:
    """A Slice text with the schema that it is."""

    def __init__(self, text):
        self.text, self.schema = text, relay.schema_of({FILE: text}, FILE)
        self.classes = relay.classes_of(self.schema)

    def kind(self, word):
        return relay.kind_of(self.schema, word)

    def trial(self, what, words, data, output=None):
        return Trial(what, self.text, words, data, output)

    def encoded(self, what, word, data, output=None, is_compact=False):
        """Returns the trial of a text in one of the formats."""
        options = ["--compact"] if is_compact else []
        return self.trial(what + ", to compact format" * is_compact, ("encode", *options, FILE, word), data, output)


def spelled_trials(text, word, kind, graph, chance, count):
    """Yields a graph in spellings of both sorts, of each of which it is known what is written."""
    line = json_notation.note(graph, kind) + b"\n"
    canonical, compact = graphs.encode(graph, kind), graphs.encode_compact(graph, kind)
    for how, data in graph_inputs.spelled_graphs(graph, kind, chance, count):
        yield text.trial(f"dumped, {how}", ("dump", FILE, word), data, line)
    if compact:
        yield text.trial("dumped, in compact format", ("dump", FILE, word), compact, line)
    yield text.encoded("canonical", word, line, canonical)
    yield text.encoded("canonical", word, line, compact or b"", True)
    for _ in range(count):
        data = Speller(chance).value(VariedNoter(graph, kind, chance).whole())
        yield text.encoded("spelled otherwise", word, data, canonical)
        if chance.random() < 0.3:
            yield text.encoded("spelled otherwise", word, data, compact or b"", True)


def ids_of(text, graph):
    """Returns type ids that stand in a text or in a graph, and such as do not."""
    kept = [graphs.id_of(it).decode() for slices in graph.instances for it in slices]
    known = [it.type_id.decode() for it in text.classes]
    numbers = [f"#{it.compact}" for it in text.classes if it.compact is not None]
    odd = ["#", "#7", "#07", "#+7", "#2147483648", "::Gone", "::Ice::Object", ""]
    return [*kept, *known, *known, *numbers, *odd, *(it.removeprefix("::") for it in known)]


def spoilt_trials(text, word, kind, graph, chance, count):
    """Yields so many texts that are nearly notations of a graph, and some more that are nearly JSON."""
    canonical, spoiler = json_notation.noted(graph, kind), Spoiler(chance, ids_of(text, graph))
    for _ in range(count):
        # In the canonical order of all that is listed, or in another one with what nothing refers to.
        told = canonical if chance.random() < 0.5 else VariedNoter(graph, kind, chance).whole()
        what, spoilt = spoiler.spoilt(told)
        yield text.encoded(what, word, Speller(chance).value(spoilt), None, chance.random() < 0.1)
    for _ in range(count // 4 if canonical["instances"] else 0):
        yield text.encoded("other slices", word, json_texts.written(wrong_slices(canonical, chance)))
    line = json_texts.written(canonical)
    for _ in range(count // 4):
        what, data = spoilt_text(line, chance)
        yield text.encoded(what, word, data)
    before, behind = chance.choice(AROUND)
    yield text.encoded("around the text", word, before + line + behind)


def plain_trials(chance):
    """Yields values of types without classes, and of built-in ones."""
    maker = generate.SchemaMaker(chance)
    for _ in range(chance.choice([2, 3, 5])):
        maker.add()
    text = Text(generate.text_of(maker.tokens(), chance))
    words = [f"::{maker.module}::{name}" for name in maker.kinds]
    for word in [*chance.sample(words, min(3, len(words))), chance.choice([*kinds.BUILT_IN, "Object*"])]:
        kind = text.kind(word)
        for room in 3, 12:
            graph = graphs.Graph(generate.ValueMaker(chance, room).value(kind), [])
            yield from spelled_trials(text, word, kind, graph, chance, 1)
            yield from spoilt_trials(text, word, kind, graph, chance, 6)


def deep_trials(chance):
    """Yields values of a type of the greatest depth, or nearly."""
    for it in generate.deep_lot(chance, chance.choice([99, 100])):
        if it.canonical is not None:
            text = Text(it.text)
            kind = text.kind(it.word)
            graph = graphs.decode(it.canonical, kind)
            yield from spelled_trials(text, it.word, kind, graph, chance, 1)
            return


def class_trials(chance):
    """Yields graphs of instances, with kept slices and without."""
    maker = graph_inputs.schema(chance, graph_inputs.ClassMaker(chance))
    text = Text(generate.text_of(maker.tokens(), chance))
    words = list(maker.types())
    for word in chance.sample(words, min(3, len(words))):
        kind = text.kind(word)
        for count in 2, 5, chance.choice([12, 40]):
            plain = GraphMaker(chance, text.classes, count)
            for made in plain, KeepingMaker(chance, text.classes, count, maker.module):
                graph = made.graph(kind)
                yield from spelled_trials(text, word, kind, graph, chance, 1)
                yield from spoilt_trials(text, word, kind, graph, chance, 8 if count < 12 else 2)
                for what, data in graph_inputs.broken_graphs(graph, kind, chance, 2):
                    yield text.trial(f"dumped, another {what}", ("dump", FILE, word), data)
        yield from misfit_trials(text, word, kind, maker, chance)


def misfit_trials(text, word, kind, maker, chance):
    """Yields notations of graphs whose instances may be of classes that do not fit."""
    for made in GraphMaker(chance, text.classes, 6, 0.3), KeepingMaker(chance, text.classes, 6, maker.module, 0.1):
        graph = made.graph(kind)
        yield text.encoded("of any class", word, json_texts.written(VariedNoter(graph, kind, chance).whole()))


def fewer_trials(chance):
    """Yields graphs with slices of classes that some of the texts lack: what one text dumps, and what others make of it."""
    maker = graph_inputs.ClassMaker(chance)
    texts, types = fewer_inputs.made_texts(maker, chance)
    texts = [Text(it) for it in texts]
    for word in chance.sample(list(types), min(2, len(types))):
        full = texts[-1].kind(word)
        for count in 2, 6:
            canonical = graphs.encode(GraphMaker(chance, texts[-1].classes, count).graph(full), full)
            for text in texts:
                kind = text.kind(word)
                graph = graphs.decode(canonical, kind, text.classes)
                yield from spelled_trials(text, word, kind, graph, chance, 1)
                yield from spoilt_trials(text, word, kind, graph, chance, 4)
                other, line = chance.choice(texts), json_notation.note(graph, kind)
                yield other.encoded("by another text", word, line, canonical if other is text else None)


COUNTS = ["0", "00", "01", "1", "2", "-1", "+1", "1.0", "1e3", " 1", "1 ", "", "x", "50001", "9" * 20, "0x10", "١", "１"]
STARTS = [*COUNTS, "2147483647", "2147483648", "4294967297", "18446744073709551617", "02147483647"]


def drill_trials(chance):
    for _ in range(5):
        start = chance.choice([0, 1, 2**31 - 1, chance.randrange(2**31)])
        count = chance.choice([1, 2, 3, chance.randrange(1, 40), chance.randrange(1, 600)])
        yield Trial("drill", b"", ("drill", str(start), str(count)))
    for _ in range(2):
        yield Trial("drill, odd words", b"", ("drill", chance.choice(STARTS), chance.choice(COUNTS)))


def lot(seed, number):
    """Returns the trials of one seed and number."""
    chance = random.Random(f"json {seed} {number}")
    made = plain_trials, deep_trials, class_trials, fewer_trials, drill_trials
    return [trial for it in made for trial in it(chance)]
