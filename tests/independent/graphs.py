"""Reads one encapsulation of a type as a graph of instances, or finds its first fault, and writes the canonical one of a graph, with
the sizes of slices or without.

A value is one as in `values.py`, or a `Ref` to an instance, None where it is null. No function calls itself over instances: each
is read, and written, by a generator of its own, which yields where another instance begins, and goes on where that has ended.
"""
from dataclasses import dataclass

import kinds
import values
from values import Cursor, Fault

# Bits of the flags of a slice.
TYPE_ID, OPTIONAL, TABLE, SIZED, LAST = 0x03, 0x04, 0x08, 0x10, 0x20
BITS = 0x3F
AS_TEXT, AS_INDEX, AS_NUMBER = 1, 2, 3
# What ids of these forms are called. Of an exception the flags tell no form.
ID_SORTS = {0: "type id", AS_TEXT: "type id", AS_INDEX: "index", AS_NUMBER: "compact id"}
END_MARKER = 255
# From this tag on, a tag has a size of its own behind its leading byte.
LONG_TAG = 30
FIXED_FORMATS = {kinds.F1: 1, kinds.F2: 2, kinds.F4: 4, kinds.F8: 8}
# How many instances may begin.
MOST_INSTANCES = 100_000


class Ref:
    """A reference: the number of an instance in the list of its graph, and while its slice is read the place in that's table."""

    __slots__ = ("number",)

    def __init__(self, number):
        self.number = number


@dataclass(eq=False)
class Known:
    row: kinds.Class
    required: list
    optional: list  # tag and value of those that are present


@dataclass(eq=False)
class Kept:
    """A slice with a size, of a class that is not known."""

    type_id: bytes
    data: bytes  # without the end marker
    has_optional: bool
    table: list  # of Ref


@dataclass(eq=False)
class Graph:
    root: object
    instances: list  # of lists of slices


def numbered(compact):
    """Returns the id under which a slice of a compact id is kept."""
    return b"#%d" % compact


def type_id_at(cursor):
    """Reads a type id as a text."""
    first = cursor.at
    type_id = cursor.string()
    if type_id.startswith(b"#"):
        raise Fault(first, "BadTypeId")
    return type_id


def id_of(slice_):
    """Returns the id under which a slice is written."""
    if isinstance(slice_, Kept):
        return slice_.type_id
    return slice_.row.type_id if slice_.row.compact is None else numbered(slice_.row.compact)


def class_of(slices):
    """Returns the class of an instance, the first that is known; None is `Object`."""
    return next((it.row for it in slices if isinstance(it, Known)), None)


def finished(first, begun):
    """Runs a generator, and in its midst the one that `begun` makes of all that it yields, and returns what it returns."""
    open_ = [first]
    while True:
        try:
            begins = next(open_[-1])
        except StopIteration as end:
            open_.pop()
            if not open_:
                return end.value
        else:
            open_.append(begun(*begins))


# Reading


class Reader:
    def __init__(self, classes):
        self.classes = {it.type_id: it for it in classes}
        self.classes |= {numbered(it.compact): it for it in classes if it.compact is not None}
        self.instances, self.type_ids = [], []
        self.met = []  # place, declared class and Ref of all that is not null

    def inline(self, cursor, declared):
        """Returns a reference that stands outside of a slice with a size."""
        first = cursor.at
        number = cursor.size()
        if number == 0:
            return None
        if number == 1 and len(self.instances) >= MOST_INSTANCES:
            raise Fault(first, "TooMany")
        if number > 1 + len(self.instances):
            raise Fault(first, "BadReference")
        ref = Ref(number - 2 if number > 1 else len(self.instances))
        self.met.append((first, declared, ref))
        if number == 1:
            self.instances.append([])
            yield cursor, self.instances[-1]
        return ref

    def content(self, cursor, kind):
        """Returns one value, behind which nothing but members of unknown tags stands."""
        value = yield from self.value(cursor, kind, self.inline)
        yield from self.options(cursor, {}, False, self.inline)
        return value

    def value(self, cursor, kind, refer):
        if not kind.has_classes:
            return cursor.value(kind)
        if kind.sort == "class":
            return (yield from refer(cursor, kind.class_))
        found = []
        if kind.sort == "struct":
            for part in kind.parts:
                found.append((yield from self.value(cursor, part, refer)))
            return tuple(found)
        if kind.sort == "sequence":
            for _ in range(cursor.size()):
                found.append((yield from self.value(cursor, kind.parts[0], refer)))
            return found
        pairs = {}
        for _ in range(cursor.size()):
            first = cursor.at
            key = cursor.value(kind.parts[0])
            if key in pairs:
                raise Fault(first, "EqualKey")
            pairs[key] = yield from self.value(cursor, kind.parts[1], refer)
        return [(key, pairs[key]) for key in sorted(pairs)]

    def options(self, cursor, known, has_marker, refer):
        """Returns tags and values of the members of known tags, up to a marker or to the bound."""
        found, last = [], -1
        while has_marker or cursor.at < cursor.bound:
            first = cursor.at
            leading = cursor.number(1, False)
            if leading == END_MARKER and has_marker:
                break
            tag, format_ = leading >> 3, leading & 7
            if tag > LONG_TAG:
                raise Fault(first, "BadTag")
            if tag == LONG_TAG:
                tag = cursor.size()
                if tag < LONG_TAG:
                    raise Fault(first, "BadTag")
            if tag <= last:
                raise Fault(first, "BadTag")
            last = tag
            if tag not in known:
                yield from self.pass_over(cursor, format_, refer)
            elif format_ != kinds.optional_format(known[tag]):
                raise Fault(first, "BadFormat")
            else:
                found.append((tag, (yield from self.option(cursor, known[tag], refer))))
        return found

    def pass_over(self, cursor, format_, refer):
        if format_ in FIXED_FORMATS:
            cursor.take(FIXED_FORMATS[format_])
        elif format_ == kinds.SIZE:
            cursor.size()
        elif format_ == kinds.CLASS:
            yield from refer(cursor, None)
        else:
            prefixed(cursor, format_)

    def option(self, cursor, kind, refer):
        format_ = kinds.optional_format(kind)
        if format_ not in (kinds.VSIZE, kinds.FSIZE):
            return (yield from self.value(cursor, kind, refer))
        first = cursor.at
        inside = prefixed(cursor, format_)
        if kinds.counts_itself(kind):
            inside.at = first
        value = yield from self.value(inside, kind, refer)
        inside.left_over()
        return value

    # Instances

    def instance(self, cursor, slices):
        """Reads slices into a list."""
        base, is_sized, has_more = None, None, True  # the class that has to follow, whether the first slice had a size
        while has_more:
            flags_place = cursor.at
            flags = self.flags(cursor, is_sized)
            is_sized, has_more = bool(flags & SIZED), not flags & LAST
            id_place = cursor.at
            type_id = self.type_id(cursor, flags & TYPE_ID)
            row = self.classes.get(type_id) if flags & TYPE_ID else base
            if base and row is not base:
                raise Fault(id_place, "WrongBase")
            if not row and not is_sized:
                raise Fault(id_place, "UnknownClass")
            if row and has_more != (row.base is not None):
                raise Fault(flags_place, "BadLast")
            base = row.base if row else None
            slices.append((yield from self.slice(cursor, type_id, row, flags)))

    def slice(self, cursor, type_id, row, flags):
        """Reads a slice behind its type id."""
        if flags & SIZED:
            return (yield from self.sized(cursor, type_id, row, flags))
        return Known(row, *(yield from self.members(cursor, row, flags, self.inline)))

    def flags(self, cursor, is_sized):
        """Returns the flags of a slice, the first one where `is_sized` is None."""
        first = cursor.at
        flags = cursor.number(1, False)
        has_size, has_id = bool(flags & SIZED), bool(flags & TYPE_ID)
        is_bad = flags > BITS or flags & TABLE and not has_size or has_size and not has_id
        if is_sized is None:
            is_bad = is_bad or not has_id
        else:
            is_bad = is_bad or has_id and not has_size or has_size != is_sized
        if is_bad:
            raise Fault(first, "BadFlags")
        return flags

    def type_id(self, cursor, form):
        if form == 0:
            return None
        if form == AS_TEXT:
            self.type_ids.append(type_id_at(cursor))
            return self.type_ids[-1]
        if form == AS_NUMBER:
            return numbered(cursor.size())
        first = cursor.at
        index = cursor.size()
        if not 1 <= index <= len(self.type_ids):
            raise Fault(first, "BadTypeId")
        return self.type_ids[index - 1]

    def members(self, cursor, row, flags, refer):
        required = []
        for kind in row.required:
            required.append((yield from self.value(cursor, kind, refer)))
        optional = []
        if flags & OPTIONAL:
            optional = yield from self.options(cursor, row.optional, True, refer)
        return required, optional

    def sized(self, cursor, type_id, row, flags):
        """Reads a slice behind its type id, with its table."""
        first = cursor.at
        size = cursor.number(4, True)
        if size < 4:
            raise Fault(first, "BadSize")
        if size > cursor.bound - first:
            raise Fault(first, "Short")
        inside = Cursor(cursor.data, first + 4, first + size)
        uses, table = [], []

        def place(cursor, declared):
            """Returns a reference to a place of the table, which is read later."""
            first = cursor.at
            number = cursor.size()
            if number == 0:
                return None
            if not flags & TABLE:
                raise Fault(first, "BadReference")
            uses.append((first, declared, Ref(number)))
            return uses[-1][-1]
            yield

        if row:
            slice_ = Known(row, *(yield from self.members(inside, row, flags, place)))
            inside.left_over()
        else:
            slice_ = Kept(type_id, self.kept(inside, flags), bool(flags & OPTIONAL), table)
        cursor.at = first + size
        if flags & TABLE:
            table += yield from self.table(cursor, uses)
        for first, declared, ref in uses:
            ref.number = table[ref.number - 1].number
            self.met.append((first, declared, ref))
        return slice_

    def kept(self, inside, flags):
        first = inside.at
        data = inside.take(inside.bound - first)
        if not flags & OPTIONAL:
            return data
        if not data:
            raise Fault(first, "Short")
        if data[-1] != END_MARKER:
            raise Fault(inside.bound - 1, "BadTag")
        return data[:-1]

    def table(self, cursor, uses):
        count, found = cursor.size(), []
        for first, _, ref in uses:
            if ref.number > count:
                raise Fault(first, "BadReference")
        for _ in range(count):
            first = cursor.at
            found.append((yield from self.inline(cursor, None)))
            if found[-1] is None:
                raise Fault(first, "BadReference")
        return found

    def misfits(self):
        """Returns the places of references to instances of no declared class."""
        classes = [class_of(it) for it in self.instances]
        for first, declared, ref in self.met:
            row = classes[ref.number]
            if declared and not (row and row.is_a(declared)):
                yield first


def prefixed(cursor, format_):
    """Returns a cursor over what stands behind a size or an int that counts it, and leaves the cursor behind that."""
    first = cursor.at
    length = cursor.size() if format_ == kinds.VSIZE else cursor.number(4, True)
    if length < 0:
        raise Fault(first, "BadSize")
    if length > cursor.bound - cursor.at:
        raise Fault(first, "Short")
    inside = Cursor(cursor.data, cursor.at, cursor.at + length)
    cursor.at = inside.bound
    return inside


def take_graph(input_, kind, classes):
    """Returns the graph of the encapsulation where a cursor is, and leaves that behind it, or raises the first `Fault` in it."""
    inside = input_.encapsulation()
    first = inside.at
    if inside.version() != values.VERSION:
        raise Fault(first, "BadVersion")
    reader = Reader(classes)
    root = finished(reader.content(inside, kind), reader.instance)
    misfits = list(reader.misfits())
    if misfits:
        raise Fault(min(misfits), "WrongClass")
    return Graph(root, reader.instances)


def decode_all(data, count, kind, classes=()):
    """Returns the graphs of an input that is so many encapsulations, one after the other, or raises its first `Fault`. `classes`
    are all of the schema."""
    input_ = Cursor(data, 0, len(data))
    found = [take_graph(input_, kind, classes) for _ in range(count)]
    # What is wrong inside of the encapsulations comes before what follows them.
    input_.left_over()
    return found


def decode(data, kind, classes=()):
    """Returns the graph that an input is the encapsulation of, or raises its first `Fault`."""
    return decode_all(data, 1, kind, classes)[0]


# What a graph leads to


def refs_in(value, kind):
    """Yields the references of a value that are not null, in the order of the canonical bytes."""
    if kind.sort == "class":
        if value is not None:
            yield value
    elif kind.has_classes:
        if kind.sort == "struct":
            parts = zip(value, kind.parts)
        elif kind.sort == "sequence":
            parts = [(it, kind.parts[0]) for it in value]
        else:
            parts = [(it, kind.parts[1]) for _, it in value]
        for it, part in parts:
            yield from refs_in(it, part)


def refs_of(slice_):
    """Yields the references of a slice likewise."""
    if isinstance(slice_, Kept):
        yield from slice_.table
        return
    for it, kind in zip(slice_.required, slice_.row.required):
        yield from refs_in(it, kind)
    for tag, it in slice_.optional:
        yield from refs_in(it, slice_.row.optional[tag])


def led_to(instances, refs):
    """Returns the numbers of the instances that these references lead to."""
    found, waiting = [], [it.number for it in refs]
    seen = set()
    while waiting:
        number = waiting.pop()
        if number not in seen:
            seen.add(number)
            found.append(number)
            waiting += [ref.number for slice_ in instances[number] for ref in refs_of(slice_)]
    return found


def reached(graph, kind):
    """Returns the numbers of the instances that the root leads to."""
    return led_to(graph.instances, refs_in(graph.root, kind))


def keeps(slices):
    """Says whether one of the slices is kept. Such an instance cannot be written without sizes."""
    return any(isinstance(it, Kept) for it in slices)


def has_kept(graph, kind):
    """Says whether the root leads to an instance that has a kept slice."""
    return any(keeps(graph.instances[number]) for number in reached(graph, kind))


# Writing


def spelled_tag(tag, format_):
    if tag < LONG_TAG:
        return bytes([tag * 8 + format_])
    return bytes([LONG_TAG * 8 + format_]) + values.spelled_size(tag)


class Writer:
    """Writes a graph canonically. What others write otherwise is in functions of their own; each part goes through `put`."""

    def __init__(self, graph):
        self.graph, self.out = graph, bytearray()
        self.numbers, self.type_ids = {}, {}  # of instances and of type ids that are written

    def put(self, data, what):
        """Appends a part; `what` says of what sort."""
        self.out += data

    def put_size(self, number, what="size"):
        self.put(values.spelled_size(number), what)

    def apart(self, write):
        """Returns what is written apart, to be put behind the size of a slice. No instance begins in it."""
        outer, self.out = self.out, bytearray()
        finished(write, None)
        written, self.out = self.out, outer
        return bytes(written)

    def inline(self, ref):
        if ref is None:
            self.put_size(0, "reference")
        elif ref.number in self.numbers:
            self.put_size(self.numbers[ref.number], "reference")
        else:
            self.numbers[ref.number] = len(self.numbers) + 2
            self.put_size(1, "reference")
            yield (ref.number,)

    def content(self, value, kind):
        yield from self.value(value, kind, self.inline)

    def value(self, value, kind, refer):
        if not kind.has_classes:
            self.put(self.plain(value, kind), "value")
        elif kind.sort == "class":
            yield from refer(value)
        elif kind.sort == "struct":
            for it, part in zip(value, kind.parts):
                yield from self.value(it, part, refer)
        elif kind.sort == "sequence":
            self.put_size(len(value))
            for it in value:
                yield from self.value(it, kind.parts[0], refer)
        else:
            self.put_size(len(value))
            for key, it in self.ordered(value):
                self.put(self.plain(key, kind.parts[0]), "key")
                yield from self.value(it, kind.parts[1], refer)

    def plain(self, value, kind):
        return values.spelled(value, kind)

    def ordered(self, pairs):
        return sorted(pairs, key=lambda it: it[0])

    def options(self, optional, row, refer):
        for tag, it in optional:
            yield from self.option(tag, it, row.optional[tag], refer)
        self.put(bytes([END_MARKER]), "end")

    def option(self, tag, value, kind, refer):
        format_ = kinds.optional_format(kind)
        self.put(spelled_tag(tag, format_), "tag")
        first = len(self.out)
        yield from self.value(value, kind, refer)
        if format_ not in (kinds.VSIZE, kinds.FSIZE) or kinds.counts_itself(kind):
            return
        # What is written is put behind its length.
        inside = self.out[first:]
        del self.out[first:]
        if format_ == kinds.VSIZE:
            self.put_size(len(inside), "prefix")
        else:
            self.put(values.spelled_number(len(inside), "int"), "int prefix")
        self.out += inside

    def instance(self, number):
        slices = self.graph.instances[number]
        for at, it in enumerate(slices):
            yield from self.slice(it, at == len(slices) - 1, *self.type_id(id_of(it)))

    def slice(self, it, is_last, form, type_id):
        """Writes a slice with its size, and its type id in a form."""
        is_kept = isinstance(it, Kept)
        used = [ref.number for ref in refs_of(it)]
        table = used if is_kept else self.table(used)
        has_optional = it.has_optional if is_kept else self.has_optional(it)
        inside = self.apart(self.body(it, table, has_optional))
        has_table = self.has_table(it, table)
        flags = form | has_optional * OPTIONAL | has_table * TABLE | SIZED | is_last * LAST
        self.put(bytes([flags]), "kept flags" if is_kept else "flags")
        self.put(type_id, ID_SORTS[form])
        self.put(values.spelled_number(4 + len(inside), "int"), "slice size")
        self.out += inside
        if has_table:
            self.put_size(len(table), "table size")
            for number in table:
                yield from self.inline(Ref(number))

    def unsized(self, slices):
        """Writes the slices of an instance without sizes. The first alone has a type id."""
        for at, it in enumerate(slices):
            yield from self.unsized_slice(it, at == len(slices) - 1, *((0, b"") if at else self.type_id(id_of(it))))

    def unsized_slice(self, it, is_last, form, type_id):
        """Writes a slice without a size. References in it stand as they do outside of slices."""
        has_optional = self.has_optional(it)
        self.put(bytes([form | has_optional * OPTIONAL | is_last * LAST]), "flags")
        if type_id:
            self.put(type_id, ID_SORTS[form])
        for value, kind in zip(it.required, it.row.required):
            yield from self.value(value, kind, self.inline)
        if has_optional:
            yield from self.options(it.optional, it.row, self.inline)

    def table(self, used):
        """Returns the entries of the table of a slice, of which all of these are used, in this order."""
        return list(dict.fromkeys(used))

    def has_table(self, it, table):
        return bool(table)

    def has_optional(self, it):
        return bool(it.optional)

    def type_id(self, it):
        """Returns in which form an id stands, and its bytes."""
        if it.startswith(b"#"):
            return AS_NUMBER, values.spelled_size(int(it[1:]))
        if it in self.type_ids:
            return AS_INDEX, values.spelled_size(self.type_ids[it])
        self.type_ids[it] = len(self.type_ids) + 1
        return AS_TEXT, values.spelled_string(it)

    def places(self, table):
        """Returns a function that writes references as places in the table."""
        at = {number: place for place, number in enumerate(table, 1)}

        def place(ref):
            self.put_size(at[ref.number] if ref else 0, "place")
            return
            yield

        return place

    def body(self, it, table, has_optional):
        if isinstance(it, Kept):
            self.put(it.data, "kept bytes")
            if has_optional:
                self.put(bytes([END_MARKER]), "kept end")
            return
        place = self.places(table)
        for value, kind in zip(it.required, it.row.required):
            yield from self.value(value, kind, place)
        if has_optional:
            yield from self.options(it.optional, it.row, place)


def encode(graph, kind, writer=None):
    """Returns the encapsulation of a graph, by a writer of it; none: the canonical one."""
    writer = writer or Writer(graph)
    finished(writer.content(graph.root, kind), writer.instance)
    return values.encapsulated(bytes(writer.out))


class CompactWriter(Writer):
    """Writes a graph canonically without the sizes of slices."""

    def instance(self, number):
        yield from self.unsized(self.graph.instances[number])


def encode_compact(graph, kind):
    """Returns the canonical encapsulation of a graph without the sizes of slices; None where it leads to a kept slice."""
    return None if has_kept(graph, kind) else encode(graph, kind, CompactWriter(graph))
