#!/usr/bin/env python3
"""Calls an operation as `ice call` has to: a second answer, in Python, written from the rules alone.

usage: tests/independent/calling.py call [--retries R] [--times T] [--compact] [--locator PROXY] FILE INTERFACE PROXY OPERATION

Only what comes behind well formed words is here. An attempt has a connection of its own: the server's validate message, one message of
the client, and where a reply is asked for, that. An attempt that did not connect, that ended before the message was handed over whole,
or in which a close was read is made again, while retries are left; one that was lost behind that only where the operation is idempotent.

A proxy without endpoints is looked for before each attempt: in what is kept, by its adapter or else its identity, and else at the
locator, whose answer is kept. What was kept is forgotten where an attempt at it did not connect or the object was not there, and the
second of these is tried again too.
"""
import os
import socket
import sys

sys.dont_write_bytecode = True
sys.path.append(os.path.dirname(os.path.realpath(__file__)))
import exceptions
import graphs
import grammar
import json_notation
import json_texts
import kinds
import loading
import messages
import names
import proxies
import values
from json_notation import FIRST, Misfit, demand, members_of
from messages import HEADER
from relay import classes_of

MOST_OF_A_BODY = 1_000_000
OWN = b"""module Ice { sequence<string> StringSeq; interface \\Object {
    idempotent void ice_ping(); idempotent bool ice_isA(string id); idempotent string ice_id(); idempotent StringSeq ice_ids(); }; };"""
LOCATOR = b"""module Ice { struct Identity { string name; string category; };
    exception AdapterNotFoundException { }; exception ObjectNotFoundException { };
    interface Locator { idempotent Object* findObjectById(Identity id); idempotent Object* findAdapterById(string id); }; };"""
# The modes of these four and of a locator's operations, and of other idempotent operations.
OWN_MODE, IDEMPOTENT = 1, 2
MOST_KEPT = 1000
SECONDS = 30


class Ends(Exception):
    """A status and a line on standard error."""


# Shapes: required members in order, and the others by rising tags


class Shape:
    def __init__(self, parts):
        self.required = [(name, kind) for tag, kind, name in parts if tag is None]
        self.optional = sorted((it for it in parts if it[0] is not None), key=lambda it: it[0])
        self.kinds = {tag: kind for tag, kind, _ in self.optional}
        self.names = {tag: name for tag, _, name in self.optional}

    def refs_in(self, root):
        required, optional = root
        for value, (_, kind) in zip(required, self.required):
            yield from graphs.refs_in(value, kind)
        for tag, value in optional:
            yield from graphs.refs_in(value, self.kinds[tag])


class Reader(graphs.Reader):
    def content(self, cursor, shape):
        required = []
        for _, kind in shape.required:
            required.append((yield from self.value(cursor, kind, self.inline)))
        return required, (yield from self.options(cursor, shape.kinds, False, self.inline))


class ShapeWriter:
    def content(self, root, shape):
        required, optional = root
        for value, (_, kind) in zip(required, shape.required):
            yield from self.value(value, kind, self.inline)
        for tag, value in optional:
            yield from self.option(tag, value, shape.kinds[tag], self.inline)


class Sliced(ShapeWriter, graphs.Writer):
    pass


class Compact(ShapeWriter, graphs.CompactWriter):
    pass


class Notes(json_notation.Reader):
    def whole(self, told, shape):
        listed, roots = members_of(told, "instances", "roots")
        instances = [self.instance(it) for it in json_notation.array(listed)]
        demand(isinstance(roots, dict), "no object")
        present = [(tag, kind, name) for tag, kind, name in shape.optional if name in roots]
        members_of(roots, *(name for name, _ in shape.required), *(name for _, _, name in present))
        required = [self.value(roots[name], kind) for name, kind in shape.required]
        optional = [(tag, self.value(roots[name], kind)) for tag, kind, name in present]
        found = [graphs.class_of(it) for it in instances]
        for declared, ref in self.met:
            demand(0 <= ref.number < len(instances), "a number that no instance has")
            row = found[ref.number]
            demand(declared is None or row is not None and row.is_a(declared), "an instance of another class")
        return graphs.Graph((required, optional), instances)


class Noter(json_notation.Noter):
    def __init__(self, graph, shape):
        self.graph, self.shape, self.places = graph, shape, {}
        open_ = [shape.refs_in(graph.root)]
        while open_:
            ref = next(open_[-1], None)
            if ref is None:
                open_.pop()
            elif ref.number not in self.places:
                self.places[ref.number] = len(self.places)
                open_.append(json_notation.refs_of(graph.instances[ref.number]))

    def whole(self):
        listed = [{"slices": [self.slice(it) for it in self.graph.instances[number]]} for number in self.places]
        required, optional = self.graph.root
        roots = {name: self.value(value, kind) for value, (name, kind) in zip(required, self.shape.required)}
        roots |= {self.shape.names[tag]: self.value(value, self.shape.kinds[tag]) for tag, value in optional}
        return {"instances": listed, "roots": roots}


# The operation


class Operation:
    def __init__(self, schema, item, is_own):
        of = lambda field, name: (field.tag and field.tag.given, schema.rules.type(field.type), name)
        self.name, self.is_idempotent, self.throws = item.word.name, item.is_idempotent, item.throws
        self.mode = (OWN_MODE if is_own else IDEMPOTENT) if item.is_idempotent else 0
        self.arguments = Shape([of(it.field, it.field.word.name) for it in item.parameters if not it.is_out])
        results = [of(it.field, it.field.word.name) for it in item.parameters if it.is_out]
        self.results = Shape(results + ([of(item.result, "$return")] if item.result else []))

    @property
    def is_twoway(self):
        return bool(self.results.required or self.results.optional or self.throws)


def operations_of(shelf, file):
    """Returns the schema, and what each interface has: its operations by name, its own first."""
    schema, found = loading.load(shelf, file), {}
    for _, tree in loading.walked(shelf, file):
        for item in tree.items:
            if isinstance(item, grammar.Enter):
                schema.rules.names.enter(item.word.name)
            elif isinstance(item, grammar.Exit):
                schema.rules.names.leave()
            elif isinstance(item, grammar.Interface) and item.operations is not None:
                type_id = schema.rules.names.type_id(item.word.name)
                own = {it.word.name: Operation(schema, it, file == "own") for it in item.operations}
                bases = [found[schema.rules.names.found(path)] for path in item.bases]
                for base in bases:
                    own |= {name: it for name, it in base.items() if name not in own}
                found[schema.named(type_id)] = own
    return schema, found


def found_operation(shelf, file, interface, name):
    """Returns the schema that an operation's types are of, and the operation."""
    try:
        schema, found = operations_of(shelf, file)
    except loading.Refused as why:
        raise Ends(3, f"{why.file}:{why.place}: {why.kind}") from None
    there = schema.named(interface)
    if not isinstance(there, names.Interface):
        raise Ends(2, f"no such name {interface}")
    own_schema, own = operations_of({"own": OWN}, "own")
    (own,) = own.values()
    if name in own:
        return own_schema, own[name]
    if name not in found[there]:
        raise Ends(2, f"no such name {name}")
    return schema, found[there][name]


def arguments_of(schema, operation, text, is_compact):
    """Returns the encapsulation of the arguments."""
    try:
        told = json_texts.read(text)
    except json_texts.NotJson:
        raise Ends(4, "text refused: NotJson") from None
    if json_notation.is_too_many(told):
        raise Ends(4, "text refused: TooMany")
    try:
        graph = Notes(classes_of(schema)).whole(told, operation.arguments)
    except Misfit:
        raise Ends(4, "text refused: Misfit") from None
    begun = graphs.led_to(graph.instances, operation.arguments.refs_in(graph.root))
    if is_compact and any(graphs.keeps(graph.instances[it]) for it in begun):
        raise Ends(4, "kept slice needs sliced format")
    written = graphs.encode(graph, operation.arguments, (Compact if is_compact else Sliced)(graph))
    if len(written) > MOST_OF_A_BODY:
        raise Ends(4, f"answer too long: {len(written)}")
    return written


def results_of(schema, operation, body):
    """Returns what a reply's encapsulation has, or raises its first `Fault`."""
    return held(schema, operation.results, body)


def held(schema, shape, body):
    """Returns what an encapsulation of a shape has, or raises its first `Fault`."""
    inside = values.Cursor(body, 0, len(body)).encapsulation()
    first = inside.at
    if inside.version() != values.VERSION:
        raise values.Fault(first, "BadVersion")
    reader = Reader(classes_of(schema))
    root = graphs.finished(reader.content(inside, shape), reader.instance)
    misfits = list(reader.misfits())
    if misfits:
        raise values.Fault(min(misfits), "WrongClass")
    return graphs.Graph(root, reader.instances)


def line_of(schema, operation, body):
    """Returns the line for a reply's encapsulation, or raises its first `Fault`."""
    return json_texts.written(Noter(results_of(schema, operation, body), operation.results).whole()) + b"\n"


def raised_by(schema, body):
    """Returns the first slice of the exception that a reply's encapsulation is, or raises its first `Fault`."""
    return exceptions.decode(body, schema.rules.exceptions, classes_of(schema)).slices[0]


# Connections


class Over(Exception):
    """How an attempt ended: not connected, not whole, lost, closed or broke, with the status and the line where none follows."""

    def __init__(self, how, status, line):
        super().__init__(how)
        self.how, self.status, self.line = how, status, line


def broke(fault):
    return Over("broke", 8, f"call ended: broke at {fault.place}: {fault.kind}")


class Link:
    def __init__(self, endpoint):
        self.is_handed = False
        try:
            self.socket = socket.create_connection((endpoint.host.decode(), endpoint.port), SECONDS)
        except OSError:
            raise Over("not connected", 7, "network failed") from None

    def lost(self, status, line):
        return Over("lost" if self.is_handed else "not whole", status, line)

    def heard(self, wanted):
        """Returns the next message, which has to be one of the wanted types, or a validate message once one was heard."""
        held = b""
        while True:
            fault = messages.header_fault(held)
            if fault is not None:
                raise broke(fault)
            size = messages.size_of(held) if len(held) >= HEADER else HEADER
            if len(held) == size and size >= HEADER and len(held) >= HEADER:
                break
            try:
                piece = self.socket.recv(size - len(held))
            except OSError:
                raise self.lost(7, "network failed") from None
            if not piece:
                raise self.lost(8, "call ended: ended")
            held += piece
        cursor = values.Cursor(held, HEADER, len(held))
        try:
            messages.taken_line(cursor, held[8], len(held))
        except values.Fault as fault:
            raise broke(fault) from None
        if held[8] == messages.CLOSE:
            raise Over("closed", 8, "call ended: closed")
        if wanted == "validate" and held[8] != messages.VALIDATE:
            raise broke(values.Fault(0, "NotValidated"))
        if held[8] in (messages.REQUEST, messages.BATCH):
            raise broke(values.Fault(0, "Unexpected"))
        return held

    def hand(self, message):
        try:
            self.socket.sendall(message)
        except OSError:
            raise Over("not whole", 7, "network failed") from None
        self.is_handed = True


def attempt(endpoint, message, is_asked):
    """Returns the reply, None where none is asked."""
    link = Link(endpoint)
    with link.socket:
        link.heard("validate")
        link.hand(message)
        while is_asked:
            held = link.heard("reply")
            if held[8] == messages.REPLY:
                if held[HEADER : HEADER + 4] != b"\1\0\0\0":
                    raise broke(values.Fault(HEADER, "UnknownId"))
                return held[HEADER + 4 :]
    return None


def usable(endpoints):
    return [it for it in endpoints if isinstance(it, values.Tcp) and it.host and 0 < it.port < 65536]


def made(places, message, is_asked, is_idempotent, retries):
    """Makes attempts at what `places` tells before each: endpoints, and whether they were kept. `places.forget` forgets those."""
    for number in range(retries + 1):
        endpoints, is_kept = places.found()
        there = usable(endpoints)
        if not there:
            raise Ends(8, "call ended: no endpoint")
        reply, ends = None, None
        try:
            reply = attempt(there[number % len(there)], message, is_asked)
            how = "stale" if is_kept and is_asked and reply[0] == 2 else "done"
        except Over as over:
            how, ends = over.how, Ends(over.status, over.line)
        if is_kept and how in ("not connected", "stale"):
            places.forget()
        may = how in ("not connected", "not whole", "closed", "stale") or how == "lost" and is_idempotent
        if number == retries or not may:
            break
    if ends is not None:
        raise ends
    return reply


class Place:
    """The endpoints that a proxy itself has."""

    def __init__(self, proxy):
        self.proxy = proxy

    def found(self):
        return self.proxy.endpoints, False


class Places(Place):
    """Those, or what is kept for it, or what a locator tells of it."""

    def __init__(self, proxy, locator, retries):
        super().__init__(proxy)
        self.locator, self.retries, self.kept = locator, retries, {}
        self.key = ("adapter", proxy.adapter) if proxy.adapter else ("object", (proxy.name, proxy.category))
        self.schema, found = operations_of({"own": LOCATOR}, "own")
        (self.operations,) = found.values()

    def found(self):
        if self.proxy.endpoints:
            return super().found()
        if self.key in self.kept:
            return self.kept[self.key], True
        endpoints = self.told(*self.key) if self.locator else ()
        if not endpoints:
            raise Ends(8, "call ended: not located")
        if len(self.kept) == MOST_KEPT:
            del self.kept[next(iter(self.kept))]
        self.kept[self.key] = endpoints
        return endpoints, False

    def forget(self):
        del self.kept[self.key]

    def told(self, sort, name):
        """Returns the endpoints that the locator tells, none where it tells none."""
        proxy = self.asked("findAdapterById" if sort == "adapter" else "findObjectById", *([name] if sort == "adapter" else name))
        if proxy and not proxy.endpoints and proxy.adapter and sort == "object":
            proxy = self.asked("findAdapterById", proxy.adapter)
        return proxy.endpoints if proxy else ()

    def asked(self, name, *texts):
        """Returns the proxy that the locator tells, None where that is the null one or none is found."""
        operation = self.operations[name]
        body = values.encapsulated(b"".join(map(values.spelled_string, texts)))
        message = message_of(messages.REQUEST, (1).to_bytes(4, "little") + called(self.locator, operation, body, OWN_MODE))
        if len(body) > MOST_OF_A_BODY or len(message) > values.MOST_BYTES:
            return None
        reply = made(Place(self.locator), message, True, True, self.retries)
        try:
            if reply[0] == 0:
                return results_of(self.schema, operation, reply[1:]).root[0][0]
            if reply[0] == 1 and isinstance(raised_by(self.schema, reply[1:]), graphs.Known):
                return None
        except values.Fault as fault:
            raise Ends(8, f"call ended: broke at {fault.place}: {fault.kind}") from None
        return refuse(self.schema, reply)


def message_of(kind, rest=b""):
    head = messages.MAGIC + 2 * messages.VERSION + bytes([kind, 0])
    return head + (HEADER + len(rest)).to_bytes(4, "little") + rest


VALIDATE, CLOSE = message_of(messages.VALIDATE), message_of(messages.CLOSE)


def called(proxy, operation, body, mode=None):
    """Returns the bytes of a call, of the operation's own mode where none is told."""
    facet = b"\1" + values.spelled_string(proxy.facet) if proxy.facet else b"\0"
    identity = values.spelled_string(proxy.name) + values.spelled_string(proxy.category)
    mode = operation.mode if mode is None else mode
    return identity + facet + values.spelled_string(operation.name.encode()) + bytes([mode]) + b"\0" + body


def refuse(schema, reply):
    """Raises what a reply other than a success comes to."""
    status, body = reply[0], reply[1:]
    if status == 1:
        raise Ends(8, f"call ended: raised {graphs.id_of(raised_by(schema, body)).decode()}")
    if status < 5:
        raise Ends(8, f"call ended: missing {status}")
    raise Ends(8, f'call ended: unknown {status} "{proxies.escaped(values.Cursor(body, 0, len(body)).string()).decode()}"')


def read_proxy(words):
    try:
        return proxies.read(words.encode())
    except proxies.Refused as why:
        raise Ends(4, f"text refused at {why.place}") from None


def answer(shelf, options, file, interface, words, name, text, say):
    """Makes the calls, and says each line. Raises `Ends` where one does not succeed."""
    schema, operation = found_operation(shelf, file, interface, name)
    locator = None if options["--locator"] is None else read_proxy(options["--locator"])
    proxy = read_proxy(words)
    if proxy.mode and operation.is_twoway:
        raise Ends(2, f"twoway only {name}")
    body = arguments_of(schema, operation, text(), options["--compact"])
    call, times, retries = called(proxy, operation, body), options["--times"], options["--retries"]
    places = Places(proxy, locator, retries)
    if proxy.mode == 2:
        message = message_of(messages.BATCH, times.to_bytes(4, "little") + call * times)
        if len(message) > values.MOST_BYTES:
            raise Ends(4, f"answer too long: {len(message)}")
        made(places, message, False, operation.is_idempotent, retries)
        say(b"sent %d\n" % times)
        return
    for _ in range(times):
        number = 0 if proxy.mode else 1
        reply = made(places, message_of(messages.REQUEST, number.to_bytes(4, "little") + call), number, operation.is_idempotent, retries)
        if reply is None:
            say(b"sent 1\n")
            continue
        try:
            if reply[0] != 0:
                refuse(schema, reply)
            say(line_of(schema, operation, reply[1:]))
        except values.Fault as fault:
            raise Ends(8, f"call ended: broke at {fault.place}: {fault.kind}") from None


def main():
    words, options = sys.argv[2:], {"--retries": 1, "--times": 1, "--compact": False, "--locator": None}
    while words and words[0] in options:
        option = words.pop(0)
        options[option] = option == "--compact" or (words.pop(0) if option == "--locator" else int(words.pop(0)))
    file, interface, proxy, operation = words
    with open(file, "rb") as source:
        shelf = {file: source.read()}

    def say(line):
        sys.stdout.buffer.write(line)
        sys.stdout.buffer.flush()

    try:
        answer(shelf, options, file, interface, proxy, operation, sys.stdin.buffer.read, say)
    except Ends as ends:
        status, line = ends.args
        sys.stderr.write(f"ice: {line}\n")
        return status
    return 0


if __name__ == "__main__":
    sys.exit(main())
