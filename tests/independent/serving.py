"""What `ice serve` has to say on its connections: a second answer, in Python, written from the rules alone.

Only what comes behind well formed words is here. A server says a validate message, and then, for each message that it takes, the
replies to those of its calls that ask for one, in order, before it takes the next. A connection ends with the bytes of the client, with
the client's close message, or with the first fault: of a message, or of one that no client sends. An object answers one call after the
other, so what came over all connections has to be one order of their calls that keeps that of each connection.

Of an enum the least number is taken for that of the first enumerator, so files where it is another one have no place here.
"""
from dataclasses import dataclass, field

import calling
import exceptions
import grammar
import graphs
import kinds
import loading
import messages
import proxies
import values
from calling import VALIDATE
from values import Cursor, Fault

MOST_OF_RESULTS = 1_000_000
INT = kinds.BUILT_IN["int"]
OBJECT_ID = "::Ice::Object"
# How what a connection gives ends: it may go on, or the server ends it for a close message or a fault.
OPEN, CLOSED, BROKE = "open", "closed", "broke"
OVER = -1


# What a client says


@dataclass(frozen=True)
class Call:
    name: bytes
    category: bytes
    facet: bytes
    operation: bytes
    mode: int
    context: tuple
    body: bytes

    def names(self):
        """Returns the bytes that tell the object and the operation."""
        facet = b"\1" + values.spelled_string(self.facet) if self.facet else b"\0"
        identity = values.spelled_string(self.name) + values.spelled_string(self.category)
        return identity + facet + values.spelled_string(self.operation)


def call_at(cursor):
    name, category, facet, operation = cursor.string(), cursor.string(), cursor.facet(), cursor.string()
    mode = cursor.number(1, False)
    context = tuple((cursor.string(), cursor.string()) for _ in range(cursor.size()))
    first = cursor.at
    cursor.encapsulation()
    return Call(name, category, facet, operation, mode, context, bytes(cursor.data[first : cursor.at]))


def calls_in(kind, cursor):
    """Returns the calls of a sound message, each with the number of its request; 0 asks for no reply."""
    if kind == messages.REQUEST:
        number = cursor.number(4, True)
        return [(number, call_at(cursor))]
    if kind == messages.BATCH:
        return [(0, call_at(cursor)) for _ in range(cursor.number(4, True))]
    return []


def heard(data):
    """Returns the calls of each message that a server takes of these bytes, and how it ends there."""
    at, taken = 0, []
    while True:
        header = data[at : at + messages.HEADER]
        if messages.header_fault(header):
            return taken, BROKE
        if len(header) < messages.HEADER or len(data) - at < messages.size_of(header):
            return taken, OPEN
        kind, last = header[8], at + messages.size_of(header)
        try:
            messages.taken_line(Cursor(data, at + messages.HEADER, last), kind, last - at)
        except Fault:
            return taken, BROKE
        if kind == messages.CLOSE:
            return taken, CLOSED
        if kind == messages.REPLY:
            return taken, BROKE
        taken.append(calls_in(kind, Cursor(data, at + messages.HEADER, last)))
        at = last


# What objects answer


def done(content):
    results = values.encapsulated(content)
    return b"\0" + results if len(results) <= MOST_OF_RESULTS else failed("answer too long")


def missed(status, call):
    """The object, the facet or the operation is not there."""
    return bytes([status]) + call.names()


def failed(text):
    return b"\5" + values.spelled_string(text.encode())


def arguments_of(schema, operation, body):
    """Returns the graph that the arguments are, or raises their first `Fault`."""
    return calling.held(schema, operation.arguments, body)


def is_empty(shape):
    return not shape.required and not shape.optional


def only_kind(shape):
    """Returns the type of the one member that a shape has, which has no tag; None where it has others."""
    return shape.required[0][1] if len(shape.required) == 1 and not shape.optional else None


def parts_of(shape):
    return [kind for _, kind in shape.required], [(tag, kind) for tag, kind, _ in shape.optional]


def zero(kind):
    """Returns the value of zeros of a type."""
    if kind.sort == "bool":
        return False
    if kind.sort in kinds.INTEGERS:
        return 0
    if kind.sort == "enum":
        return min(kind.numbers)
    if kind.sort == "string":
        return b""
    if kind.sort == "struct":
        return tuple(zero(it) for it in kind.parts)
    return [] if kind.sort in ("sequence", "dictionary") else None


def written(graph, shape):
    """Returns the canonical encapsulation of what a shape has."""
    return graphs.encode(graph, shape, calling.Sliced(graph))


def own_text(text):
    """Returns the schema of a text with one interface, and the operations of that."""
    schema, found = calling.operations_of({"own": text}, "own")
    (operations,) = found.values()
    return schema, operations


OWN_SCHEMA, OWN = own_text(calling.OWN)


class Servant:
    """An object. What it keeps between calls is told to it."""

    first = None

    def __init__(self, schema, operations, type_id, ids):
        self.schema, self.type_id, self.ids = schema, type_id, sorted(it.encode() for it in {*ids, OBJECT_ID})
        self.operations = {name: it for name, it in operations.items() if self.can(it, operations)}

    def answer(self, kept, call):
        """Returns the answer, from its status on, and what the object keeps then."""
        name = call.operation.decode()
        is_own = name in OWN
        operation = (OWN if is_own else self.operations).get(name)
        if operation is None:
            return missed(4, call), kept
        if operation.is_idempotent != (call.mode != 0):
            return failed("bad mode"), kept
        try:
            graph = arguments_of(OWN_SCHEMA if is_own else self.schema, operation, call.body)
        except Fault as fault:
            return failed(f"bad arguments {fault.kind} at {fault.place}"), kept
        return (self.own(name, graph), kept) if is_own else self.act(kept, operation, graph)

    def own(self, name, graph):
        if name == "ice_isA":
            return done(bytes([graph.root[0][0] in self.ids]))
        texts = {"ice_ping": b"", "ice_id": values.spelled_string(self.type_id.encode())}
        texts["ice_ids"] = values.spelled_size(len(self.ids)) + b"".join(map(values.spelled_string, self.ids))
        return done(texts[name])


class Store(Servant):
    def __init__(self, schema, operations, type_id, ids):
        super().__init__(schema, operations, type_id, ids)
        put = self.operations.get("put")
        if put:
            graph = graphs.Graph(([zero(only_kind(put.arguments))], []), [])
        self.first = 0, self.kept(graph, put) if put else None

    def can(self, it, operations):
        takes, gives, put = only_kind(it.arguments), only_kind(it.results), operations.get("put")
        is_put = put is not None and only_kind(put.arguments) is not None and is_empty(put.results)
        ways = {"add": takes is INT and gives is INT, "total": is_empty(it.arguments) and gives is INT, "put": is_put}
        ways["get"] = is_put and is_empty(it.arguments) and gives is only_kind(put.arguments)
        return ways.get(it.name, False)

    def kept(self, graph, put):
        value = written(graph, put.arguments)
        return value if len(value) <= MOST_OF_RESULTS else None

    def act(self, kept, operation, graph):
        number, value = kept
        if operation.name == "put":
            return done(b""), (number, self.kept(graph, operation))
        if operation.name == "get":
            return failed("answer too long") if value is None else b"\0" + value, kept
        if operation.name == "add":
            number = (number + graph.root[0][0] + 2**31) % 2**32 - 2**31
        return done(values.spelled_number(number, "int")), (number, value)


class Echo(Servant):
    def can(self, it, operations):
        return parts_of(it.arguments) == parts_of(it.results)

    def act(self, kept, operation, graph):
        results = written(graph, operation.arguments)
        return b"\0" + results if len(results) <= MOST_OF_RESULTS else failed("answer too long"), kept


class Locator(Servant):
    def __init__(self, objects, adapters):
        schema, operations = own_text(calling.LOCATOR)
        super().__init__(schema, operations, "::Ice::Locator", ["::Ice::Locator"])
        self.places = {"findObjectById": objects, "findAdapterById": adapters}

    def can(self, it, operations):
        return True

    def act(self, kept, operation, graph):
        proxy = self.places[operation.name].get(graph.root[0][0])
        if proxy:
            return done(values.spelled_proxy(proxy)), kept
        sort = b"Object" if operation.name == "findObjectById" else b"Adapter"
        (row,) = (it for it in self.schema.rules.exceptions if it.type_id == b"::Ice::%sNotFoundException" % sort)
        return b"\1" + exceptions.encode(exceptions.Raised([graphs.Known(row, [], [])], [])), kept


# The objects of the words


def ids_by_interface(shelf, file, schema):
    """Returns the type ids that an object of each interface has, but that of `Object`."""
    found, declared = {}, schema.rules.names
    for _, tree in loading.walked(shelf, file):
        for item in tree.items:
            if isinstance(item, grammar.Enter):
                declared.enter(item.word.name)
            elif isinstance(item, grammar.Exit):
                declared.leave()
            elif isinstance(item, grammar.Interface) and item.operations is not None:
                type_id = declared.type_id(item.word.name)
                found[schema.named(type_id)] = {type_id}.union(*(found[declared.found(it)] for it in item.bases))
    return found


def identity_of(text):
    it = proxies.read(text.encode())
    return it.name, it.category


class Adapter:
    """The objects of the words of `serve`, and what they keep: a tuple in the order of their identities."""

    def __init__(self, shelf, file, words):
        schema, found = calling.operations_of(shelf, file)
        ids, cut = ids_by_interface(shelf, file, schema), [it.split("=", 2) for it in words]
        objects = {identity_of(it[1]): proxies.read(it[2].encode()) for it in cut if it[0] == "place"}
        adapters = {it[1].encode(): proxies.read(it[2].encode()) for it in cut if it[0] == "adapter"}
        self.servants = {}
        for sort, name, *rest in cut:
            if sort == "locator":
                self.servants[identity_of(name)] = Locator(objects, adapters)
            elif sort in ("store", "echo"):
                there = schema.named(rest[0])
                servant = (Store if sort == "store" else Echo)(schema, found[there], rest[0], ids[there])
                self.servants[identity_of(name)] = servant
        self.first = tuple(it.first for it in self.servants.values())

    def answer(self, kept, call):
        identity = call.name, call.category
        if identity not in self.servants:
            return missed(2, call), kept
        if call.facet:
            return missed(3, call), kept
        at = list(self.servants).index(identity)
        answer, new = self.servants[identity].answer(kept[at], call)
        return answer, (*kept[:at], new, *kept[at + 1 :])


# What came over all connections


def replies_in(data):
    """Returns the replies in what a server said, each from its number on, and the bytes of one that is not whole; None where it said
    anything else, or no validate message before them."""
    if not data.startswith(VALIDATE):
        return None
    at, found = len(VALIDATE), []
    while len(data) - at >= messages.HEADER:
        header = data[at : at + messages.HEADER]
        if messages.header_fault(header) or header[8] != messages.REPLY or header[9]:
            return None
        last = at + messages.size_of(header)
        if last > len(data):
            break
        found.append(data[at + messages.HEADER : last])
        at = last
    return found, data[at:]


@dataclass
class Session:
    """A connection: the calls of each message that was taken at most, the replies that came and the bytes of one that is not whole,
    whether the client went away before all of them could come, and which sessions were over when this one began."""

    taken: list
    replies: list
    rest: bytes = b""
    is_cut: bool = False
    behind: set = field(default_factory=set)

    def __post_init__(self):
        self.calls = [call for message in self.taken for call in message]
        asks = [bool(number) for number, _ in self.calls]
        self.asked = [sum(asks[:at]) for at in range(len(asks) + 1)]
        self.came = len(self.replies) + bool(self.rest)
        bounds = [sum(map(len, self.taken[:at])) for at in range(len(self.taken) + 1)]
        self.stops = {it for it in bounds if self.asked[it] >= self.came} if self.is_cut else {len(self.calls)}

    def allows(self, place, reply):
        """Says whether the reply to a call is what came, as far as it had to come."""
        at = self.asked[place]
        if at < len(self.replies):
            return self.replies[at] == reply
        if at == len(self.replies) and self.rest:
            return calling.message_of(messages.REPLY, reply).startswith(self.rest)
        return self.is_cut

    def steps(self, place, kept, adapter):
        """Yields where the session may be next, and what is kept then."""
        if place in self.stops:
            yield OVER, kept
        if place < len(self.calls):
            number, call = self.calls[place]
            answer, new = adapter.answer(kept, call)
            if number == 0 or self.allows(place, number.to_bytes(4, "little", signed=True) + answer):
                yield place + 1, new


def is_legal(adapter, sessions):
    """Says whether the calls of all sessions have one order in which the objects answer what came."""
    if any(it.came > it.asked[-1] for it in sessions):
        return False
    waiting = [((0,) * len(sessions), adapter.first)]
    seen = set(waiting)
    while waiting:
        places, kept = waiting.pop()
        if all(it == OVER for it in places):
            return True
        for at, session in enumerate(sessions):
            if places[at] == OVER or any(places[it] != OVER for it in session.behind):
                continue
            for place, new in session.steps(places[at], kept, adapter):
                node = (*places[:at], place, *places[at + 1 :]), new
                if node not in seen:
                    seen.add(node)
                    waiting.append(node)
    return False
