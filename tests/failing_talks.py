"""Messages of protocol 1.0, and how they are taken, for trials of `call`, `serve` and `gate`."""
import messages
import values
from calling import CLOSE, VALIDATE, message_of
from links import HERE, take
from messages import BATCH, HEADER, REPLY, REQUEST

# How long one end of a connection waits for the other: on a busy machine a run may wait long.
WAITED = 120
COUNTER, BOARD, ECHO, STORE = "::Meter::Counter", "::Meter::Board", "::Meter::Mirror", "::Shop::Store"
WALL = "::Meter::Wall"
# Parts of files of the sample: most allocations of a run are those for its file, and so these are short.
PARTS = {
    COUNTER: b"module Meter { interface Counter { int add(int n); idempotent int total(); }; };",
    ECHO: b"module Meter { interface Mirror { string say(string line); void note(string line); }; };",
    STORE: b"module Shop { exception No { string why; }; interface Store { int find(long number) throws No; }; };",
    WALL: b"""module Meter { class Reading { string place; long value; Reading before; };
        interface Wall { Reading turn(Reading last); }; };""",
}


def part_of(interface):
    """Returns the name of a file that defines an interface, and the files that a trial has for it."""
    return ("{here}/part.ice", (("part.ice", PARTS[interface]),)) if interface in PARTS else ("meter.ice", ())


def number(value):
    return values.spelled_number(value, "int")


def text(word):
    return values.spelled_string(word.encode())


def called(identity, operation, mode, content=b""):
    """Returns a call as it stands in a request or in a batch."""
    return text(identity) + b"\0\0" + text(operation) + bytes((mode, 0)) + values.encapsulated(content)


def request(key, call):
    return message_of(REQUEST, number(key) + call)


def batch(*calls):
    return message_of(BATCH, number(len(calls)) + b"".join(calls))


def reply(key, answer):
    return message_of(REPLY, number(key) + answer)


def done(content=b""):
    """Returns the answer with these results."""
    return b"\0" + values.encapsulated(content)


def raised(type_id, content=b""):
    """Returns the answer with an exception of one slice."""
    return b"\1" + values.encapsulated(b"\x30" + text(type_id) + number(4 + len(content)) + content)


def missing(status, identity, operation):
    return bytes((status,)) + text(identity) + b"\0\0" + text(operation)


def unknown(status, why):
    return bytes((status,)) + text(why)


def reading(kind, place, value, before):
    """Returns an instance of ::Meter::Reading that has the one before it in its table."""
    members = text(place) + values.spelled_number(value, "long") + b"\1"
    return b"\1" + kind + number(4 + len(members)) + members + b"\1" + before


def proxy(identity, port, adapter=""):
    """Returns a proxy: of an object at a port, or behind an adapter."""
    there = {"adapter": adapter.encode()} if adapter else {"endpoints": (values.Tcp(HERE.encode(), port),)}
    return values.spelled_proxy(values.Proxy(identity.encode(), **there))


# Two readings of which each is the one before the other.
RING = reading(b"\x39" + text("::Meter::Reading"), "Mill", 7, reading(b"\x3a\1", "Quay", -2, b"\2"))


def taken_message(stream):
    """Returns the next message, or what comes of it."""
    head = take(stream, HEADER)
    return head + take(stream, max(0, messages.size_of(head) - HEADER)) if len(head) == HEADER else head


def whole_messages(data):
    """Yields the whole messages that bytes begin with."""
    while len(data) >= HEADER and HEADER <= messages.size_of(data) <= len(data):
        yield data[: messages.size_of(data)]
        data = data[messages.size_of(data) :]
