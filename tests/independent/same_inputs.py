"""Makes inputs of two encapsulations from a seed: one graph that is spelled twice, graphs that nearly are one, and broken ones."""
import random
from dataclasses import dataclass

import generate
import graph_inputs
import graphs
import kinds
from graph_inputs import VariedWriter
from graphs import Graph, Kept, Known, Ref

# What stands in the table of a kept slice: any instance, but not null.
ENTRY = kinds.Kind("class", has_classes=True)
# Bytes behind the second encapsulation.
BEHIND = [b"\0", b"\7\0\0\0\1\1\0", b"\xff" * 5, b"\0" * 5_000]


@dataclass(frozen=True)
class Pair:
    what: str
    word: str  # TYPE
    data: bytes  # the input
    is_same: bool | None = None  # where how they were made says it
    graphs: tuple = ()  # both, where they were made


class TwinMaker(graph_inputs.ClassMaker):
    """Makes texts in which some classes have the members of another one, and its base."""

    def define(self, name):
        if not self.defined or self.chance.random() < 0.6:
            super().define(name)
            return
        other = self.chance.choice(self.defined)
        row, its = self.rows[name], self.rows[other]
        row.type_id, row.base = f"::{self.module}::{name}".encode(), its.base
        row.required, row.optional = its.required, its.optional
        tokens = next(it for it in self.definitions if it[:2] == ["class", other] and it[2] != ";")
        self.defined.append(name)
        self.definitions.append([*self.head(name), *tokens[5 if tokens[2] == "(" else 2 :]])


class Uniform:
    """Makes graphs in which all values of one type without references are equal, and all kept slices but for their tables, so that
    the references alone tell instances apart."""

    held = None

    def value(self, kind):
        self.held = self.held or {}
        if kind.has_classes:
            return super().value(kind)
        if kind not in self.held:
            self.held[kind] = super().value(kind)
        return self.held[kind]

    def kept_slice(self):
        return Kept(self.few[0], b"", False, super().kept_slice().table)


class UniformMaker(Uniform, graph_inputs.GraphMaker):
    pass


class UniformKeepingMaker(Uniform, graph_inputs.KeepingMaker):
    pass


# Graphs made of another one


class Rebuilt:
    """Rebuilds a graph with each leaf, a reference or a value without references, as `leaf` gives it by its number."""

    def __init__(self, leaf):
        self.leaf, self.count = leaf, 0

    def graph(self, graph, kind):
        root = self.value(graph.root, kind)
        instances = list(graph.instances)
        for number in graphs.reached(graph, kind):
            instances[number] = [self.slice(it) for it in graph.instances[number]]
        return Graph(root, instances)

    def slice(self, it):
        if isinstance(it, Kept):
            return Kept(it.type_id, it.data, it.has_optional, [self.value(ref, ENTRY) for ref in it.table])
        required = [self.value(value, kind) for value, kind in zip(it.required, it.row.required)]
        return Known(it.row, required, [(tag, self.value(value, it.row.optional[tag])) for tag, value in it.optional])

    def value(self, value, kind):
        if kind.sort == "class" or not kind.has_classes:
            self.count += 1
            return self.leaf(self.count - 1, value, kind)
        if kind.sort == "struct":
            return tuple([self.value(it, part) for it, part in zip(value, kind.parts)])
        if kind.sort == "sequence":
            return [self.value(it, kind.parts[0]) for it in value]
        return [(key, self.value(it, kind.parts[1])) for key, it in value]


class Shortened(Rebuilt):
    """Rebuilds a graph with one element less in the sequence or dictionary of references of a number."""

    def __init__(self, chance, at=None):
        super().__init__(lambda _, value, __: value)
        self.chance, self.at, self.met = chance, at, 0

    def value(self, value, kind):
        if kind.has_classes and kind.sort in ("sequence", "dictionary") and value:
            self.met += 1
            if self.met - 1 == self.at:
                dropped = self.chance.choice([0, len(value) - 1])
                value = value[:dropped] + value[dropped + 1 :]
        return super().value(value, kind)


def leaves(graph, kind):
    """Returns the leaves that the root leads to, with their kinds."""
    found = []
    Rebuilt(lambda _, value, kind: found.append((value, kind))).graph(graph, kind)
    return found


def with_leaf(graph, kind, at, given):
    return Rebuilt(lambda number, value, _: given if number == at else value).graph(graph, kind)


def one_value_changed(graph, kind, chance):
    found = [(at, *it) for at, it in enumerate(leaves(graph, kind)) if it[1].sort != "class"]
    if not found:
        return None
    at, value, part = chance.choice(found)
    given = generate.ValueMaker(chance, 4).value(part)
    return (with_leaf(graph, kind, at, given), False) if given != value else None


def references(graph, kind):
    return [(at, *it) for at, it in enumerate(leaves(graph, kind)) if it[1].sort == "class"]


def one_reference_changed(graph, kind, chance):
    """Another instance, of any class or of one that fits, or null."""
    found = references(graph, kind)
    if not found:
        return None
    at, ref, part = chance.choice(found)
    there, is_fitting = list(range(len(graph.instances))), chance.random() < 0.8
    if is_fitting:
        there = [it for it in there if graph_inputs.fits(graphs.class_of(graph.instances[it]), part.class_)]
    number = chance.choice(there if part is ENTRY else [None, *there])
    if number == (ref and ref.number):
        return None
    is_same = False if is_fitting and (number is None or ref is None) else None
    return with_leaf(graph, kind, at, None if number is None else Ref(number)), is_same


def one_copied(graph, kind, chance):
    """One reference goes to a copy of its instance, which refers to what that refers to."""
    found = [it for it in references(graph, kind) if it[1] is not None]
    if not found:
        return None
    at, ref, _ = chance.choice(found)
    copied = Graph(graph.root, [*graph.instances, graph.instances[ref.number]])
    return with_leaf(copied, kind, at, Ref(len(graph.instances))), None


def all_copied(graph, kind, chance):
    """Each instance is there twice, and each reference goes to either of the two."""
    count = len(graph.instances)
    once = lambda _, value, __: value if not isinstance(value, Ref) else Ref(value.number + count * (chance.random() < 0.5))
    turned = Rebuilt(once)
    root = turned.value(graph.root, kind)
    return Graph(root, [[turned.slice(it) for it in slices] for slices in graph.instances * 2]), None


def two_swapped(graph, kind, chance):
    """Two leaves of one kind change places."""
    found = leaves(graph, kind)
    if not found:
        return None
    one = chance.randrange(len(found))
    other = chance.choice([at for at, it in enumerate(found) if it[1] is found[one][1]])
    given = {one: found[other][0], other: found[one][0]}
    return Rebuilt(lambda number, value, _: given.get(number, value)).graph(graph, kind), None


def slices_of(graph, kind):
    """Yields the slices that the root leads to, each with the number of its instance and its place in that."""
    for number in graphs.reached(graph, kind):
        for at, it in enumerate(graph.instances[number]):
            yield number, at, it


def with_slices(graph, number, slices):
    return Graph(graph.root, [*graph.instances[:number], slices, *graph.instances[number + 1 :]])


def other_kept(it, chance):
    """Returns slices in the place of a kept one: none, two, or one with another type id, other bytes, flag or table."""
    table = list(it.table)
    if table and chance.random() < 0.6:
        at = chance.randrange(len(table))
        table[at : at + 1] = chance.choice([[], [table[at], table[at]]])
        return [Kept(it.type_id, it.data, it.has_optional, table)]
    data = chance.choice([it.data + b"\0", it.data + b"\xff", it.data[:-1] or b"\0"])
    other_id = b"::x" if it.type_id.startswith(b"#") else it.type_id + b"x"
    others = [[Kept(other_id, it.data, it.has_optional, table)], [Kept(it.type_id, data, it.has_optional, table)]]
    return chance.choice([*others, [Kept(it.type_id, it.data, not it.has_optional, table)], [it, it], []])


def one_kept_changed(graph, kind, chance):
    found = [it for it in slices_of(graph, kind) if isinstance(it[2], Kept)]
    if not found:
        return None
    number, at, it = chance.choice(found)
    slices = list(graph.instances[number])
    slices[at : at + 1] = other_kept(it, chance)
    return (with_slices(graph, number, slices), False) if slices else None


def two_kept_swapped(graph, kind, chance):
    """Two slices of an instance, of which both are kept, or two entries of a table change places."""
    found = [it for it in slices_of(graph, kind) if isinstance(it[2], Kept)]
    if not found:
        return None
    number, at, it = chance.choice(found)
    slices = list(graph.instances[number])
    if isinstance(slices[at - 1], Kept) and chance.random() < 0.5:
        slices[at - 1], slices[at] = it, slices[at - 1]
    else:
        slices[at] = Kept(it.type_id, it.data, it.has_optional, it.table[1:] + it.table[:1])
    return with_slices(graph, number, slices), None


def one_option_dropped(graph, kind, chance):
    found = [(number, at) for number, at, it in slices_of(graph, kind) if isinstance(it, Known) and it.optional]
    if not found:
        return None
    number, at = chance.choice(found)
    slices = list(graph.instances[number])
    it = slices[at]
    dropped = chance.randrange(len(it.optional))
    slices[at] = Known(it.row, it.required, it.optional[:dropped] + it.optional[dropped + 1 :])
    return with_slices(graph, number, slices), False


def one_element_dropped(graph, kind, chance):
    counting = Shortened(chance)
    counting.graph(graph, kind)
    return (Shortened(chance, chance.randrange(counting.met)).graph(graph, kind), False) if counting.met else None


def another_class(graph, kind, rows, chance):
    """One instance is of a class with the same members, as far as there is one."""
    found = []
    for number, at, it in slices_of(graph, kind):
        if isinstance(it, Known) and it.row is graphs.class_of(graph.instances[number]):
            found += [(number, at, row) for row in rows if row is not it.row and row.required is it.row.required]
    if not found:
        return None
    number, at, row = chance.choice(found)
    slices = list(graph.instances[number])
    slices[at] = Known(row, slices[at].required, slices[at].optional)
    return with_slices(graph, number, slices), None


def renamed(graph, kind, chance):
    """The same graph, whose instances have other names, and others that nothing refers to among them."""
    names = list(range(len(graph.instances) + chance.choice([0, 1, 2])))
    chance.shuffle(names)
    turned = Rebuilt(lambda _, value, __: Ref(names[value.number]) if isinstance(value, Ref) else value)
    root = turned.value(graph.root, kind)
    instances = [[turned.slice(it) for it in slices] for slices in graph.instances]
    places = {name: at for at, name in enumerate(names)}
    return Graph(root, [instances[places[name] % len(instances)] for name in range(len(names))] if instances else []), True


WAYS = [one_value_changed, one_reference_changed, one_reference_changed, one_copied, all_copied, two_swapped]
WAYS += [one_option_dropped, one_element_dropped, renamed]
KEPT_WAYS = [one_kept_changed, one_kept_changed, two_kept_swapped]


# Pairs


def spelled(graph, kind, chance):
    """Returns an encapsulation of a graph: the canonical one, or another."""
    return graphs.encode(graph, kind, VariedWriter(graph, chance.random()) if chance.random() < 0.85 else None)


def pairs_of(word, kind, graph, rows, chance):
    """Yields pairs of a graph with itself, and with what is made of it, in either order."""
    for _ in range(3):
        yield Pair("spelled twice", word, spelled(graph, kind, chance) + spelled(graph, kind, chance), True, (graph, graph))
    others = [(way.__name__, way(graph, kind, chance)) for way in WAYS + KEPT_WAYS] + [("another_class", another_class(graph, kind, rows, chance))]
    for name, made in others:
        if made:
            both = [graph, made[0]] if chance.random() < 0.5 else [made[0], graph]
            data = b"".join(spelled(it, kind, chance) for it in both)
            yield Pair(name.replace("_", " "), word, data, made[1], tuple(both))


def broken_pairs(word, kind, graph, chance):
    """Yields pairs of which one is broken, both are, or one lacks, and pairs with bytes behind them."""
    one, other = spelled(graph, kind, chance), spelled(graph, kind, chance)
    both = one + other
    broken = [data for _, data in graph_inputs.broken_graphs(graph, kind, chance, 6)]
    for data in broken[:2]:
        yield Pair("the first broken", word, data + other)
    for data in broken[2:5]:
        yield Pair("the second broken", word, one + data)
    yield Pair("both broken", word, chance.choice(broken) + chance.choice(broken))
    yield Pair("one alone", word, one)
    for _ in range(3):
        yield Pair("cut", word, both[: chance.randrange(len(both))])
        at = chance.randrange(len(both))
        yield Pair("a byte changed", word, both[:at] + bytes([generate.other(both[at], chance)]) + both[at + 1 :])
    at = chance.randrange(4)
    yield Pair("a size changed", word, one + other[:at] + bytes([generate.other(other[at], chance)]) + other[at + 1 :])
    yield Pair("bytes behind", word, both + chance.choice(BEHIND))
    yield Pair("broken, and bytes behind", word, one + chance.choice(broken) + chance.choice(BEHIND))


def values_of(word, kind, chance):
    """Yields pairs of values without instances."""
    value = generate.ValueMaker(chance, 6).value(kind)
    data = [it for _, it, _ in generate.good_inputs(kind, random.Random(chance.random()), 6)]
    yield Pair("one value", word, chance.choice(data) + chance.choice(data), True)
    yield Pair("other values", word, data[0] + graphs.encode(Graph(value, []), kind))
    for what, changed in chance.sample(list(generate.broken_inputs(data[0], chance)), 3):
        yield Pair(f"values: {what}", word, data[-1] + changed)


def graph_of(maker, rows, kind, count, chance):
    """Returns a graph of at most so many instances, in some of which slices are kept."""
    is_uniform = chance.random() < 0.6
    if chance.random() < 0.5:
        return (UniformMaker if is_uniform else graph_inputs.GraphMaker)(chance, rows, count).graph(kind)
    keeping = UniformKeepingMaker if is_uniform else graph_inputs.KeepingMaker
    return keeping(chance, rows, count, maker.module).graph(kind)


def lot(seed, number, types=5, most=(1, 2, 3, 4, 6)):
    """Returns the text of one schema, and the pairs of values of some of its types."""
    chance = random.Random(f"same {seed} {number}")
    maker = graph_inputs.schema(chance, TwinMaker(chance))
    text, rows = generate.text_of(maker.tokens(), chance), list(maker.rows.values())
    named = list(maker.types().items())
    pairs = []
    for word, kind in chance.sample(named, min(types, len(named))):
        for count in (*most, chance.choice([10, 30, 300])):
            graph = graph_of(maker, rows, kind, count, chance)
            pairs += pairs_of(word, kind, graph, rows, chance)
            if count in (2, 4):
                pairs += broken_pairs(word, kind, graph, chance)
        one, other = [graph_of(maker, rows, kind, 2, chance) for _ in range(2)]
        pairs.append(Pair("two graphs", word, spelled(one, kind, chance) + spelled(other, kind, chance), None, (one, other)))
    plain = [(f"::{maker.module}::{name}", it) for name, it in maker.kinds.items() if not it.has_classes and not name.endswith("*")]
    for word, kind in chance.sample(plain, min(2, len(plain))):
        pairs += values_of(word, kind, chance)
    return text, pairs
