"""Real Ice with classes: graphs in its own form, whether it reads bytes as a graph, and texts and spellings that it takes."""
import generate
import grammar
import graph_inputs
import graphs
from ice_values import ice_value, is_same

MODULE = "Depots"
SLICED, COMPACT = [(f"--Ice.Default.SlicedFormat={it}", "--Ice.ClassGraphDepthMax=0") for it in (1, 0)]


class Fields:
    """The names of the members of structs and classes, as they stand in the text."""

    def __init__(self, text):
        self.structs, self.required, self.optional = {}, {}, {}
        for item in grammar.read(text).items:
            if isinstance(item, grammar.Struct):
                self.structs[item.word.name] = [it.word.name for it in item.fields]
            elif isinstance(item, grammar.Exception_) or isinstance(item, grammar.Class) and item.fields is not None:
                self.required[item.word.name] = [it.word.name for it in item.fields if not it.tag]
                self.optional[item.word.name] = {it.tag.given: it.word.name for it in item.fields if it.tag}


def name_of(row):
    return row.type_id.decode().split("::")[-1]


class Side:
    """Ice with the types of one text."""

    def __init__(self, text, types, exceptions=()):
        from peer import Peer

        self.text, self.types, self.fields = text, types, Fields(text)
        self.names = {kind: name for name, kind in types.items()}
        self.peer = Peer(text, MODULE, types, *SLICED, exceptions=exceptions)
        self.compact = self.peer.writer_with(*COMPACT)

    def members(self, slice_):
        """Yields the name, the kind and the value of each member of a slice, None where it is absent."""
        name, row = name_of(slice_.row), slice_.row
        for member, kind, value in zip(self.fields.required[name], row.required, slice_.required):
            yield member, kind, (value,)
        present = dict(slice_.optional)
        for tag, kind in row.optional.items():
            yield self.fields.optional[name][tag], kind, (present[tag],) if tag in present else None

    def made(self, graph, kind, order):
        """Returns the root of a graph in Ice's own form."""
        self.make(graph.instances, order)
        return ice_value(graph.root, kind, order, self.peer, self.names)

    def make(self, instances, order):
        """Makes instances in Ice's own form, which the peer holds then."""
        self.peer.instances = [getattr(self.peer.types, name_of(graphs.class_of(it)))() for it in instances]
        for held, slices in zip(self.peer.instances, instances):
            self.fill(held, slices, order)

    def fill(self, held, slices, order):
        """Gives an instance or an exception in Ice's own form the members of its slices."""
        import Ice

        for it in slices:
            for member, part, value in self.members(it):
                setattr(held, member, ice_value(value[0], part, order, self.peer, self.names) if value else Ice.Unset)

    def written(self, graph, kind, order, is_compact=False):
        return self.peer.written(self.names[kind], self.made(graph, kind, order), self.compact if is_compact else None)

    def reads(self, data, graph, kind):
        """Returns how Ice reads the bytes as another graph, up to which instances are which, or nothing."""
        import Ice

        try:
            read = self.peer.read(self.names[kind], data)
        except Ice.Exception as why:
            return f"Ice refuses it: {str(why).splitlines()[-1]}"
        return self.difference(graph.instances, lambda same, _: "" if same(read, graph.root, kind) else "Ice reads another root")

    def difference(self, instances, of_root):
        """Returns how what Ice has read differs from instances and what refers to them, or nothing. Of the latter that says `of_root`,
        which gets what compares a value, and the members of slices."""
        import Ice

        partners, numbers, waiting = {}, {}, []

        def same(read, value, kind):
            if not kind.has_classes:
                return is_same(read, ice_value(value, kind, sorted, self.peer, self.names))
            if kind.sort == "class":
                return (read is None) == (value is None) and (value is None or paired(read, value.number))
            if kind.sort == "struct":
                members = self.fields.structs[self.names[kind]]
                return all(same(getattr(read, it), held, part) for it, held, part in zip(members, value, kind.parts))
            if kind.sort == "sequence":
                return len(read) == len(value) and all(same(it, held, kind.parts[0]) for it, held in zip(read, value))
            key_kind, value_kind = kind.parts
            keys = [(ice_value(key, key_kind, sorted, self.peer, self.names), held) for key, held in value]
            return len(read) == len(value) and all(key in read and same(read[key], held, value_kind) for key, held in keys)

        def paired(read, number):
            if id(read) in numbers or number in partners:
                return numbers.get(id(read)) == number and partners.get(number) is read
            numbers[id(read)], partners[number] = number, read
            waiting.append((read, number))
            return True

        def other_member(read, slices):
            for it in slices:
                for member, part, value in self.members(it):
                    held = getattr(read, member)
                    if (held is Ice.Unset) != (value is None) or value and not same(held, value[0], part):
                        return f"Ice reads another {member}"
            return ""

        why = of_root(same, other_member)
        while waiting and not why:
            read, number = waiting.pop()
            slices = instances[number]
            if type(read).ice_staticId() != graphs.class_of(slices).type_id.decode():
                return f"Ice reads a {type(read).ice_staticId()}"
            why = other_member(read, slices)
        return why


class Maker(graph_inputs.ClassMaker):
    """Makes texts that Ice takes: no member has a name of one of a base."""

    def __init__(self, chance):
        super().__init__(chance)
        self.module, self.taken, self.beginning = MODULE, {}, None

    def inherited(self, base):
        return list(self.taken.get(base, []))

    def fill(self, row, name, base, members, head):
        super().fill(row, name, base, members, head)
        tokens = self.definitions[-1]
        inside = tokens[tokens.index("{") + 1 :]
        base = self.taken[head[-1]] if "extends" in head else []
        self.taken[name] = [*base, *(inside[at - 1] for at, it in enumerate(inside) if it == ";" and inside[at - 1] != "}")]


class IceWriter(graph_inputs.VariedWriter):
    """Writes what Ice reads: a table has an entry, and one that is used."""

    def table(self, used):
        return super().table(used) if used else []

    def has_table(self, it, table):
        return bool(table)

    def is_so(self, rate):
        return super().is_so(min(rate, 0.3))


def with_plain_interfaces(maker):
    """Makes the interfaces of a text be defined, and not only declared."""
    maker.definitions = [it[:2] + ["{", "}", ";"] if it[0] == "interface" else it for it in maker.definitions]
    return maker


def made_schema(chance):
    return with_plain_interfaces(graph_inputs.schema(chance, Maker(chance)))
