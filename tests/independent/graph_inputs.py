"""Makes Slice texts with classes and graphs of their instances from a seed, and inputs that spell these in varied ways, or that are
broken in a part or a byte.
"""
import collections
import random

import generate
import graphs
import kinds
import values
from generate import ODD_BYTES, ODD_NUMBERS, Trial
from graphs import Kept, Known, Ref

TAGS = [0, 0, 1, 1, 2, 3, 7, 28, 29, 30, 31, 254, 255, 256, 2**31 - 1]
ANY = [("Object", kinds.ANY_CLASS)]
# Type ids that no class has, but by chance.
NUMBERS = [0, 1, 4, 5, 5, 17, 254, 255, 256, 2**31 - 1]  # compact ids
UNKNOWN_IDS = ["::Gone::Fishing", "::Gone::Fishing", "::Gone::Sailing", "::Ice::Object", "::x", "x", "", "é", "::" + "Long" * 70]


class ClassMaker(generate.SchemaMaker):
    """Makes texts in which classes are declared first, so that all may speak of all."""

    def __init__(self, chance, is_plain=False):
        super().__init__(chance, is_plain)
        self.rows, self.defined = {}, []  # the rows by their names, and those of the names that are defined
        self.numbers = []  # the compact ids that classes have

    def type(self, is_key=False):
        if is_key or not self.rows or self.chance.random() < 0.45:
            return super().type(is_key)
        if self.chance.random() < 0.2:
            return self.chance.choice(ANY)
        name = self.chance.choice(list(self.rows))
        return name, self.kinds[name]

    def declare(self):
        name = self.name(self.kinds)
        self.kinds[name] = kinds.class_()
        self.rows[name] = self.kinds[name].class_
        self.definitions.append(["class", name, ";"])

    def tag(self, others):
        return self.chance.choice([it for it in TAGS if it not in others])

    def define(self, name):
        row, base = self.rows[name], None
        if self.defined and self.chance.random() < 0.6:
            base = self.chance.choice(self.defined[-3:])
        head = self.head(name) + (["extends", base] if base else [])
        self.fill(row, name, self.rows.get(base), self.inherited(base), head)
        self.defined.append(name)

    def head(self, name):
        """Gives a class a compact id that none has, or no such, and returns the tokens of its name and that id."""
        free = [it for it in NUMBERS if it not in self.numbers]
        if not free or self.chance.random() < 0.6:
            return ["class", name]
        number = self.chance.choice(free)
        self.numbers.append(number)
        self.rows[name].compact = number
        return ["class", name, "(", str(number), ")"]

    def fill(self, row, name, base, members, head):
        """Gives a class, or an exception, its members, and adds its definition behind the head. `members` are names that none has."""
        tokens, optional = [], {}
        for _ in range(self.chance.choice([0, 1, 1, 2, 2, 3, 4])):
            word, kind = self.type()
            members.append(self.name(members))
            if self.chance.random() < 0.4:
                tag = self.tag(optional)
                optional[tag] = kind
                tokens += ["optional", "(", str(tag), ")"]
            else:
                row.required.append(kind)
            tokens += [*generate.type_tokens(word), members[-1], ";"]
        row.type_id, row.base, row.optional = f"::{self.module}::{name}".encode(), base, dict(sorted(optional.items()))
        self.definitions.append([*head, "{", *tokens, "}", ";"])

    def inherited(self, base):
        """Returns the names that the members of a class derived from that one may not have: here all are free."""
        return []

    def types(self):
        """Returns the types that reach a class, by their words."""
        named = {f"::{self.module}::{name}": kind for name, kind in self.kinds.items() if kind.has_classes}
        return {**named, "Object": kinds.ANY_CLASS}


def schema(chance, maker):
    """Adds some classes, which may speak of one another, and other types among them."""
    there = list(maker.rows)
    for _ in range(chance.choice([1, 2, 3, 4, 5])):
        maker.declare()
    names = [it for it in maker.rows if it not in there]
    chance.shuffle(names)
    for name in names:
        for _ in range(chance.choice([0, 0, 1, 1, 2])):
            maker.add()
        maker.define(name)
    for _ in range(chance.choice([0, 1, 1, 2])):
        maker.add()
    return maker


def fits(row, declared):
    """Says whether an instance of a class, None for one of no known class, may stand where this one is declared."""
    return declared is None or row is not None and row.is_a(declared)


class GraphMaker(generate.ValueMaker):
    """Makes graphs of at most so many instances. References go to one that is there already, at a rate, or to a new one, which is
    filled later; at another rate they go to any."""

    def __init__(self, chance, rows, most, wrong=0.0):
        super().__init__(chance, 6)
        self.rows, self.most, self.wrong = rows, most, wrong
        self.sharing, self.is_deep = chance.choice([0.05, 0.3, 0.6, 0.9]), chance.random() < 0.5
        self.made, self.instances, self.waiting = [], [], collections.deque()

    def value(self, kind):
        return self.ref(kind.class_) if kind.sort == "class" else super().value(kind)

    def ref(self, declared):
        if self.chance.random() < 0.12:
            return None
        if self.chance.random() < self.wrong:
            declared = None
        there = [at for at, row in enumerate(self.made) if fits(row, declared)]
        if there and (len(self.made) >= self.most or self.chance.random() < self.sharing):
            return Ref(self.chance.choice(there))
        fitting = [it for it in self.rows if fits(it, declared)]
        if not fitting or len(self.made) >= self.most:
            return None
        return self.begun(self.chance.choice(fitting))

    def begun(self, row):
        self.made.append(row)
        self.instances.append([])
        self.waiting.append(len(self.made) - 1)
        return Ref(len(self.made) - 1)

    def fill(self):
        while self.waiting:
            number = self.waiting.pop() if self.is_deep else self.waiting.popleft()
            row, self.room = self.made[number], 6
            self.instances[number] += self.kept(row)
            while row:
                self.instances[number].append(Known(row, [self.value(it) for it in row.required], self.options(row)))
                row = row.base

    def kept(self, row):
        """Returns the kept slices of an instance of a class."""
        return []

    def options(self, row):
        rate = self.chance.choice([0, 0.5, 1])
        return [(tag, self.value(kind)) for tag, kind in row.optional.items() if self.chance.random() < rate]

    def graph(self, kind):
        """Returns a graph, of which some instances may be reached by nothing."""
        root = self.value(kind)
        self.fill()
        for _ in range(self.chance.choice([0, 0, 1, 2])):
            self.begun(self.chance.choice(self.rows))
        self.fill()
        return graphs.Graph(root, self.instances)


class KeepingMaker(GraphMaker):
    """Makes graphs with kept slices: one or several before the known ones, or alone, with tables of any instances, some of them
    named more than once."""

    def __init__(self, chance, rows, most, module, wrong=0.0):
        super().__init__(chance, [*rows, None], most, wrong)
        names = [*UNKNOWN_IDS, f"::{module}", f"::{module}::Unknown", *(it.type_id.decode().swapcase() for it in rows)]
        names += [f"#{it}" for it in NUMBERS]
        taken = {it.type_id for it in rows} | {graphs.numbered(it.compact) for it in rows if it.compact is not None}
        self.ids = [it.encode() for it in names if it.encode() not in taken]
        self.keeping, self.few = chance.choice([0.2, 0.5, 1]), chance.sample(self.ids, 2)

    def kept(self, row):
        count = self.chance.choice([1, 1, 1, 2, 3]) if row is None or self.chance.random() < self.keeping else 0
        return [self.kept_slice() for _ in range(count)]

    def kept_slice(self):
        data = self.chance.randbytes(self.chance.choice([0, 0, 1, 2, 5, 9])) + self.chance.choice([b"", b"", b"", b"\xff"])
        table = [it for it in (self.ref(None) for _ in range(self.chance.choice([0, 0, 1, 1, 2, 3]))) if it]
        while table and self.chance.random() < 0.3:
            table.insert(self.chance.randrange(len(table) + 1), self.chance.choice(table))
        ids = self.few if self.chance.random() < 0.7 else self.ids
        return Kept(self.chance.choice(ids), data, self.chance.random() < 0.4, table)


def other_slices(graph, chance):
    """Returns a graph in which one instance has its slices in another order, or one slice less or more, so that it may be none."""
    number = chance.randrange(len(graph.instances))
    slices = list(graph.instances[number])
    at, other = chance.randrange(len(slices)), chance.choice(chance.choice(graph.instances))
    way = chance.choice(["drop", "put", "put", "move"])
    if way == "put":
        slices.insert(chance.randrange(len(slices) + 1), other)
    elif way == "move" or len(slices) == 1:
        slices.insert(chance.randrange(len(slices)), slices.pop(at))
    else:
        del slices[at]
    return graphs.Graph(graph.root, [*graph.instances[:number], slices, *graph.instances[number + 1 :]])


# What is spelled otherwise


class Style:
    """How often what may stand otherwise does."""

    def __init__(self, chance):
        self.tables, self.ids, self.numbers, self.tags, self.order = [chance.choice([0, 0.2, 0.6]) for _ in range(5)]
        self.compact = chance.choice([0, 0, 0.3, 1])


class VariedWriter(graphs.Writer):
    """Writes a graph in any way that is read as that graph: dictionaries in any order, type ids as strings again and in the place of
    compact ids, members of unknown tags, tables in any order with entries that come twice or that nothing uses, instances without
    sizes as far as they have no kept slice. With `at` the part of that number is changed, and what counts it fits."""

    def __init__(self, graph, seed, at=None, changed=None, is_sized=False):
        super().__init__(graph)
        self.chance, self.at, self.changed = random.Random(seed), at, changed
        self.style, self.parts, self.ids = Style(self.chance), [], []
        self.style.compact *= not is_sized
        # The type ids of the classes that have a compact id, by what that is as a text
        rows = [it.row for slices in graph.instances for it in slices if isinstance(it, Known)]
        self.type_id_of = {graphs.numbered(it.compact): it.type_id for it in rows if it.compact is not None}

    def is_so(self, rate):
        return self.chance.random() < rate

    def put(self, data, what):
        self.parts.append((what, data))
        super().put(self.changed if len(self.parts) - 1 == self.at else data, what)

    def ordered(self, pairs):
        return generate.shuffled(self.chance)(pairs) if self.is_so(self.style.order) else super().ordered(pairs)

    def plain(self, value, kind):
        order = generate.shuffled(self.chance) if self.is_so(self.style.order) else sorted
        return values.spelled(value, kind, order, values.EMPTY_FACET if self.is_so(self.style.order) else values.NO_FACET)

    def instance(self, number):
        slices = self.graph.instances[number]
        is_unsized = not graphs.keeps(slices) and self.is_so(self.style.compact)
        yield from self.unsized(slices) if is_unsized else super().instance(number)

    def type_id(self, it):
        if it.startswith(b"#"):
            if it not in self.type_id_of or not self.is_so(self.style.numbers):
                return super().type_id(it)
            it = self.type_id_of[it]
        there = [at for at, other in enumerate(self.ids, 1) if other == it]
        if there and not self.is_so(self.style.ids):
            return graphs.AS_INDEX, values.spelled_size(self.chance.choice(there))
        self.ids.append(it)
        return graphs.AS_TEXT, values.spelled_string(it)

    def table(self, used):
        table = super().table(used)
        if self.is_so(self.style.tables):
            self.chance.shuffle(table)
        while self.graph.instances and self.is_so(self.style.tables):
            other = self.chance.choice(table) if table and self.is_so(0.5) else self.chance.randrange(len(self.graph.instances))
            table.insert(self.chance.randrange(len(table) + 1), other)
        return table

    def has_table(self, it, table):
        return bool(table) or self.is_so(self.style.tables)

    def has_optional(self, it):
        return bool(it.optional) or self.is_so(self.style.tags)

    def places(self, table):
        self.entries, at = table, collections.defaultdict(list)
        for place, number in enumerate(table, 1):
            at[number].append(place)

        def place(ref):
            self.put_size(self.chance.choice(at[ref.number]) if ref else 0, "place")
            return
            yield

        return place

    def options(self, optional, row, refer):
        entries = range(len(self.graph.instances)) if refer == self.inline else self.entries
        yield from self.mixed(optional, row.optional, refer, [Ref(it) for it in entries])
        self.put(bytes([graphs.END_MARKER]), "end")

    def content(self, value, kind):
        yield from super().content(value, kind)
        if self.is_so(self.style.tags):
            yield from self.mixed([], {}, self.inline, [Ref(it) for it in range(len(self.graph.instances))])

    def mixed(self, optional, known, refer, refs):
        """Writes members with others of unknown tags among them, which may refer to these."""
        tags = {tag: it for tag, it in optional}
        while self.is_so(self.style.tags):
            tag = self.chance.choice(TAGS)
            if tag not in known:
                tags.setdefault(tag, None)
        present = {tag for tag, _ in optional}
        for tag in sorted(tags):
            if tag in present:
                yield from self.option(tag, tags[tag], known[tag], refer)
                continue
            format_ = self.chance.randrange(8)
            self.put(graphs.spelled_tag(tag, format_), "tag")
            if format_ == kinds.CLASS:
                yield from refer(self.chance.choice([None, *refs]))
            else:
                self.put(self.unknown(format_), "value")

    def unknown(self, format_):
        if format_ in graphs.FIXED_FORMATS:
            return self.chance.randbytes(graphs.FIXED_FORMATS[format_])
        if format_ == kinds.SIZE:
            return values.spelled_size(self.chance.choice([0, 1, 254, 255, 2**31 - 1]))
        data = self.chance.randbytes(self.chance.choice([0, 1, 2, 5, 5, 260]))
        return (values.spelled_size(len(data)) if format_ == kinds.VSIZE else values.spelled_number(len(data), "int")) + data


# What is broken


def number_in(data):
    return data[0] if data[0] < 255 else int.from_bytes(data[1:], "little")


def size_of_any(number):
    """Returns a size, in the long form where it is none."""
    return bytes([number]) if 0 <= number < 255 else b"\xff" + (number % 2**32).to_bytes(4, "little")


def other_sizes(data, chance):
    number = number_in(data)
    yield from (size_of_any(number + by) for by in (-1, 1, 2))
    yield from (size_of_any(it) for it in (0, 1, 2, 3, 255))
    yield b"\xff" + number.to_bytes(4, "little")


def other_ints(data, chance):
    number = int.from_bytes(data, "little", signed=True)
    for it in (number - 1, number + 1, number - 4, 0, 3, 4, *ODD_NUMBERS):
        yield (it % 2**32).to_bytes(4, "little")


def other_flags(data, chance):
    yield from (bytes([data[0] ^ 1 << bit]) for bit in range(8))
    yield bytes([data[0] ^ 3])
    yield bytes([chance.randrange(256)])


def other_ids(data, chance):
    text = data[data[0] < 255 or 5 :]
    for it in (text[:-1], text + b"x", text[:-1] + b"\xff", text.swapcase(), b"", b"::x", b"#" + text, b"#4"):
        yield values.spelled_string(it)
    yield size_of_any(len(text) + 1) + text


def other_tags(data, chance):
    leading, rest = data[0], data[1:]
    yield from (bytes([it % 256]) + rest for it in (leading + 1, leading - 1, leading + 8, leading - 8, leading ^ 7, 248 + chance.randrange(8)))
    if not rest:
        yield bytes([0xF0 | leading & 7, leading >> 3])
    for it in (29, 30, 31, 255):
        yield bytes([0xF0 | leading & 7]) + values.spelled_size(it)


def other_bytes(data, chance):
    yield from (data[:-1], data + b"\xff", data + bytes([chance.randrange(256)]), chance.randbytes(300))


OTHERS = {"flags": other_flags, "kept flags": other_flags, "type id": other_ids, "tag": other_tags}
OTHERS |= {"slice size": other_ints, "int prefix": other_ints, "kept bytes": other_bytes}
OTHERS |= {it: other_sizes for it in ("size", "reference", "place", "index", "compact id", "table size", "prefix")}


def changes(what, data, chance):
    """Yields what may stand in the place of a part."""
    if what in OTHERS:
        yield from OTHERS[what](data, chance)
    yield b""
    yield data + data
    yield chance.choice(ODD_BYTES)
    if data:
        at = chance.randrange(len(data))
        yield data[:at] + bytes([generate.other(data[at], chance)]) + data[at + 1 :]


def broken_parts(parts, chance, count):
    """Yields so many times the sort of a part, its number, and what may stand in its place; all sorts about as often."""
    sorts = sorted({what for what, _ in parts})
    for _ in range(count):
        sort = chance.choice(sorts)
        at = chance.choice([at for at, it in enumerate(parts) if it[0] == sort])
        what, data = parts[at]
        yield what, at, chance.choice([it for it in changes(what, data, chance) if it != data])


def broken_graphs(graph, kind, chance, count):
    """Yields so many inputs of a graph, each with a part changed."""
    seed = chance.random()
    writer = VariedWriter(graph, seed)
    graphs.encode(graph, kind, writer)
    for what, at, changed in broken_parts(writer.parts, chance, count):
        yield what, graphs.encode(graph, kind, VariedWriter(graph, seed, at, changed))


def spelled_graphs(graph, kind, chance, count):
    """Yields the canonical input of a graph, and so many others."""
    yield "canonical", graphs.encode(graph, kind)
    for _ in range(count):
        yield "spelled otherwise", graphs.encode(graph, kind, VariedWriter(graph, chance.random()))


# Lots


def graph_trials(text, word, kind, graph, chance, spelled, broken):
    """Yields a graph in so many spellings, in each format that it can have, and so many broken inputs of it."""
    canonical, compact = graphs.encode(graph, kind), graphs.encode_compact(graph, kind) or b""
    what = "kept" if graphs.has_kept(graph, kind) else "classes"
    for how, data in spelled_graphs(graph, kind, chance, spelled):
        yield Trial(f"{what}, {how}", text, word, data, canonical)
        yield Trial(f"{what}, {how}, to compact format", text, word, data, compact, True)
    if compact:
        yield Trial("from compact format", text, word, compact, canonical)
        yield Trial("in compact format", text, word, compact, compact, True)
    for how, data in broken_graphs(graph, kind, chance, broken):
        yield Trial(f"{what}, another {how}", text, word, data, None, chance.random() < 0.2)


def short_trials(text, word, short, chance):
    """Yields a short input with bytes changed."""
    if short:
        broken = list(generate.broken_inputs(chance.choice(short), chance))
        for what, data in chance.sample(broken, min(25, len(broken))):
            yield Trial(f"classes, {what}", text, word, data, None, chance.random() < 0.2)


def odd_trials(text, word, kind, maker, chance):
    """Yields graphs whose instances may be of classes that do not fit, or may have other slices than an instance has."""
    rows = list(maker.rows.values())
    for _ in range(3):
        count = chance.choice([3, 6, 12])
        for made in GraphMaker(chance, rows, count, 0.3), KeepingMaker(chance, rows, count, maker.module, 0.1):
            graph = made.graph(kind)
            data = graphs.encode(graph, kind, VariedWriter(graph, chance.random()))
            yield Trial("classes, of any class", text, word, data, None, chance.random() < 0.2)
            if graph.instances:
                graph = other_slices(made.graph(kind), chance)
                data = graphs.encode(graph, kind, VariedWriter(graph, chance.random(), is_sized=True))
                yield Trial("classes, other slices", text, word, data)


def lot(seed, number, types=6, most=(3, 9, 25)):
    """Returns the trials of one schema."""
    chance = random.Random(f"classes {seed} {number}")
    maker = schema(chance, ClassMaker(chance))
    text, rows = generate.text_of(maker.tokens(), chance), list(maker.rows.values())
    named = list(maker.types().items())
    trials = []
    for word, kind in chance.sample(named, min(types, len(named))):
        first = len(trials)
        for count in (*most, chance.choice([60, 300])):
            trials += graph_trials(text, word, kind, GraphMaker(chance, rows, count).graph(kind), chance, 3, 16)
            trials += graph_trials(text, word, kind, KeepingMaker(chance, rows, count, maker.module).graph(kind), chance, 3, 16)
        short = [it.data for it in trials[first:] if it.canonical is not None and len(it.data) <= 80]
        trials += odd_trials(text, word, kind, maker, chance)
        trials += short_trials(text, word, short, chance)
    return trials
