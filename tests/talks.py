"""Draws what ends of a connection say, and changes it: values of the samples' types in any spelling, messages, and pieces of them.

Nothing here says whether what comes out is good. `tests/hostility` says it to the program.
"""
import functools
import types

import calling
import exception_inputs
import exceptions
import graph_inputs
import graphs
import message_inputs
import messages
import mutations
import names
import values
from calling import CLOSE, VALIDATE
from program import TOP
from relay import classes_of

OFFICE = f"{TOP}/tests/peer/office/Office.ice"
# The Slice files of trials: the one that is named, and all that it includes.
FILES = {"meter.ice": ["sample/meter.ice"], "Office.ice": [OFFICE], "store.ice": ["sample/store.ice", "sample/shop.ice"]}
NUMBERS = (0, 1, 1, 2, 3, 7, 255, 256, -1, 2**31 - 1, -(2**31))
LONG = b"long " * 12_000
# The times in seconds between two pieces.
DELAYS = (0, 0, 0.001, 0.005, 0.02)


def remembered(read):
    """Returns what reads each Slice file once: it takes longer than all else that a trial does."""
    found = {}

    def operations_of(shelf, file):
        key = file, *shelf.items()
        if key not in found:
            found[key] = read(shelf, file)
        return found[key]

    return operations_of


calling.operations_of = remembered(calling.operations_of)


class Text:
    """A Slice file, with the operations of each of its interfaces."""

    def __init__(self, file):
        self.file, self.shelf = file, {}
        for path in FILES[file]:
            with open(path if path == OFFICE else f"{TOP}/{path}", "rb") as source:
                self.shelf[path.rsplit("/", 1)[-1]] = source.read()
        self.schema, found = calling.operations_of(self.shelf, file)
        self.interfaces = {self.type_id(it): operations for it, operations in found.items()}
        self.exceptions = self.schema.rules.exceptions

    def type_id(self, interface):
        (module,) = (it for it in self.schema.rules.names.open[0].inside.values() if isinstance(it, names.Module))
        (name,) = (name for name, it in module.inside.items() if it is interface)
        (outer,) = self.schema.rules.names.open[0].inside
        return f"::{outer}::{name}"


@functools.cache
def text_of(file):
    return Text(file)


def own_operations():
    schema, found = calling.operations_of({"own": calling.OWN}, "own")
    return schema, next(iter(found.values()))


# Values


class Spelled(calling.ShapeWriter, graph_inputs.VariedWriter):
    """Writes arguments or results in any way that is read as them, or with a part changed."""


def drawn(chance, schema, shape):
    """Returns a graph of what a shape has."""
    rows, most = classes_of(schema), chance.choice((0, 1, 2, 4, 8))
    keeps = chance.random() < 0.3
    maker = graph_inputs.KeepingMaker(chance, rows, most, "Some") if keeps else graph_inputs.GraphMaker(chance, rows, most)
    required = [maker.value(kind) for _, kind in shape.required]
    optional = [(tag, maker.value(kind)) for tag, kind, _ in shape.optional if chance.random() < 0.6]
    maker.fill()
    return graphs.Graph((required, optional), maker.instances)


def keeps(graph, shape):
    return any(graphs.keeps(graph.instances[it]) for it in graphs.led_to(graph.instances, shape.refs_in(graph.root)))


def varied(chance, write):
    """Returns what a writer with a seed writes, often with a part changed. `write` takes what such a writer takes behind its graph, and
    returns the writer and the bytes."""
    seed = chance.random()
    writer, data = write(seed)
    if writer.parts and chance.random() < 0.5:
        ((_, at, changed),) = graph_inputs.broken_parts(writer.parts, chance, 1)
        data = write(seed, at, changed)[1]
    return data


def spelled(chance, graph, shape):
    """Returns an encapsulation of a graph, canonical in either format, or otherwise, or broken."""
    way = chance.random()
    if way < 0.4:
        return graphs.encode(graph, shape, calling.Sliced(graph))
    if way < 0.55 and not keeps(graph, shape):
        return graphs.encode(graph, shape, calling.Compact(graph))

    def write(*given):
        writer = Spelled(graph, *given)
        return writer, graphs.encode(graph, shape, writer)

    return varied(chance, write)


def spelled_exception(chance, text):
    """Returns an encapsulation of a user exception of a text, likewise, with kept slices or without."""
    rows, most = classes_of(text.schema), chance.choice((0, 1, 3))
    row = chance.choice(text.exceptions) if text.exceptions else None
    if rows and (row is None or chance.random() < 0.3):
        kept = types.SimpleNamespace(rows=dict(enumerate(rows)), module="Some", raised=dict(enumerate(text.exceptions)))
        raised = exception_inputs.KeepingRaisedMaker(chance, kept, most).raised(chance.choice((row, None)))
    elif row is None:
        return values.encapsulated(b"\x30\7::a::Bc\4\0\0\0")
    else:
        raised = exception_inputs.RaisedMaker(chance, rows, most).raised(row)
    if chance.random() < 0.3 and not exceptions.has_kept(raised):
        return exceptions.encode_compact(raised)
    if chance.random() < 0.4:
        return exceptions.encode(raised)

    def write(*given):
        writer = exception_inputs.VariedRaisedWriter(raised, *given)
        return writer, exceptions.encode(raised, writer)

    return varied(chance, write)


# Messages


def string(chance):
    return values.spelled_string(chance.choice(message_inputs.TEXTS) if chance.random() < 0.99 else LONG)


def answer(chance, text, schema, operation):
    """Returns an answer to an operation, from its status on."""
    status = chance.choice((0, 0, 0, 0, 1, 1, 2, 3, 4, 5, 6, 7))
    if status == 0:
        return b"\0" + spelled(chance, drawn(chance, schema, operation.results), operation.results)
    if status == 1:
        return b"\1" + spelled_exception(chance, text)
    if status < 5:
        return bytes([status]) + string(chance) + string(chance) + chance.choice((b"\0", b"\1" + string(chance))) + string(chance)
    return bytes([status]) + string(chance)


def reply(answer, number=1):
    return calling.message_of(messages.REPLY, number.to_bytes(4, "little", signed=True) + answer)


def head_changed(chance, message):
    """A part of the header is another one: the mark, a version, the type, the compression or the size."""
    if chance.random() < 0.6:
        at, new = chance.choice(((3, 0), (4, 2), (5, 1), (6, 0), (7, 3), *((8, it) for it in range(6)), (9, 1), (9, 2), (9, 3)))
        return message[:at] + bytes([new]) + message[at + 1 :]
    size = chance.choice((len(message) - 1, len(message) + 1, 0, 13, 14, 15, 2**20, 2**20 + 1, 2**31, 2**32 - 1))
    return message[:10] + size.to_bytes(4, "little") + message[14:]


def number_changed(chance, message):
    """What stands where a request and a reply have their number, and a batch its count."""
    number = chance.choice(NUMBERS).to_bytes(4, "little", signed=True)
    return message[:14] + number + message[18:] if len(message) >= 18 else message


def status_changed(chance, message):
    """What stands where a reply has its status."""
    return message[:18] + bytes([chance.choice((*range(9), 255))]) + message[19:] if len(message) >= 19 else message


def size_changed(chance, message):
    """What stands where a successful reply has the size of its encapsulation."""
    size = int.from_bytes(message[19:23], "little") + chance.choice((-6, -1, 1, 4, 2**20, 2**31))
    return message[:19] + (size % 2**32).to_bytes(4, "little") + message[23:] if len(message) >= 23 else message


def changed(chance, message, other):
    """Returns one message changed, or a stream that it stands in."""
    way = chance.choice((head_changed, number_changed, status_changed, size_changed, None, None, None))
    return way(chance, message) if way else mutations.messages(chance, message, other)


def in_pieces(chance, data):
    """Returns bytes whole, in a few pieces or each alone: the pieces, each with the seconds behind it."""
    way = chance.random()
    if way < 0.5 or len(data) < 2:
        return [(data, chance.choice(DELAYS))] if data else []
    if way < 0.6 and len(data) < 200:
        return [(data[at : at + 1], 0) for at in range(len(data))]
    cuts = sorted(chance.sample(range(1, len(data)), min(len(data) - 1, chance.choice((1, 1, 2, 4)))))
    return [(data[a:b], chance.choice(DELAYS)) for a, b in zip([0, *cuts], [*cuts, len(data)])]


def put_files(folder):
    """Puts the Slice files of all trials into a folder."""
    for file in FILES:
        for name, data in text_of(file).shelf.items():
            with open(f"{folder}/{name}", "wb") as there:
                there.write(data)
