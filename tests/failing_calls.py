"""Trials of `call`, whose other end is a peer that is played here.

Each trial has the links that its peer plays, one after the other, each up to the end of the connection: so a connection
that the program has not ended before it makes the next one is told, after WAITED seconds. The proxies that a locator
answers have the port of the peer. All hosts are addresses: names are looked up by the C library, and where memory lacks
there, that of Debian 12 ends the program by a signal, or does not come back from the look-up after it. Of each run it
is looked at what the peer has seen:

- of each connection the peer has seen the end
- there are no more connections than in the whole run, and what came over each is a beginning of what came there
- where the answer is that of the whole run, so is all that came
- of an operation that is not idempotent no more whole messages came than calls were asked for, but for those that the
  peer answered by a close message, which are not dispatched
- no line was written about a message that had not come whole
"""
import dataclasses
import itertools
import socket
import threading

from failing_runs import SAMPLE, Answer, Run, Trial
from failing_talks import BOARD, CLOSE, COUNTER, ECHO, HERE, RING, STORE, VALIDATE, WAITED, done, missing, number
from failing_talks import part_of, proxy, raised, reply, taken_message, text, unknown, whole_messages
from links import end_side, say, take
from program import answer_of

# What stands for the port of the peer in what it gives.
PORT = 0x504F5254


@dataclasses.dataclass(frozen=True)
class Link:
    """What a peer does over a connection: it gives the first bytes, takes a message where it gave any, gives the other
    bytes, ends its side where that is said, and takes all up to the end."""

    then: bytes = b""
    first: bytes = VALIDATE
    ends: bool = False

    def play(self, stream, port):
        """Returns all that came."""
        say(stream, self.first)
        data = taken_message(stream) if self.first else b""
        say(stream, self.then.replace(number(PORT), number(port)))
        if self.ends:
            end_side(stream)
        return data + take(stream)


@dataclasses.dataclass(frozen=True)
class Seen:
    """What came over each connection, and which of them have not ended."""

    came: tuple
    faults: tuple


class Peer:
    """A peer for one run. The last connection, which tells that the run is over, is one of its own."""

    def __init__(self, links):
        self.links, self.came, self.faults = links, [], []
        self.listener, self.last = socket.create_server((HERE, 0)), socket.socket()
        self.port = self.listener.getsockname()[1]
        self.last.bind((HERE, 0))
        self.thread = threading.Thread(target=self.play, args=(self.last.getsockname(),), daemon=True)
        self.thread.start()

    def play(self, last):
        for link in itertools.chain(self.links, itertools.repeat(Link(first=b"", ends=True))):
            stream, whence = self.listener.accept()
            with stream:
                if whence == last:
                    return
                stream.settimeout(WAITED)
                try:
                    self.came.append(link.play(stream, self.port))
                except TimeoutError:
                    self.faults.append(f"connection {len(self.came) + 1} has no end after {WAITED} seconds")

    def seen(self):
        """Returns what it has seen, once the run is over."""
        with self.listener, self.last:
            self.last.connect((HERE, self.port))
            self.thread.join(2 * WAITED)
        return Seen(tuple(self.came), tuple(self.faults))


@dataclasses.dataclass(frozen=True)
class Call(Trial):
    """A call, the links that its peer plays, and how many whole messages may come of an operation that is not
    idempotent."""

    links: tuple = ()
    most: int = 1

    def run(self, failing, first, last):
        failing.begin(first, last)
        peer = Peer(self.links)
        answer = answer_of(failing.command(self, port=peer.port), self.data, SAMPLE, failing.changed)
        return Run(Answer(*answer), *failing.counts(), peer.seen())

    def fault(self, run, whole):
        return super().fault(run, whole) or self.fault_seen(run, whole)

    def fault_seen(self, run, whole):
        """Returns what the peer has seen that may not be, or nothing."""
        came, operation = run.seen.came, text(self.words[-1])
        messages = [it for data in came for it in whole_messages(data) if operation in it]
        if run.seen.faults:
            return f"{run.answer}; {run.seen.faults[0]}"
        if run.answer == whole.answer and came != whole.seen.came:
            return f"answered as wanted, but the peer has seen {came}"
        if len(came) > len(whole.seen.came) or any(not all_.startswith(it) for it, all_ in zip(came, whole.seen.came)):
            return f"{run.answer}; the peer has seen {came}"
        if sum(operation + b"\0" in it for it in messages) > self.most:
            return f"{run.answer}; more messages than calls: {messages}"
        if run.answer.output.count(b"\n") > len(messages):
            return f"{run.answer}; more lines than messages: {messages}"
        return ""


AT = ":tcp -h 127.0.0.1 -p {port}"
WATER, HALL, MIRROR = f"water{AT}", f"hall{AT}", f"mirror{AT}"
READINGS = '{"place":"Mill","value":7,"before":{"$":3}}', '{"place":"Quay","value":-2,"before":{"$":2}}'
INSTANCES = ",".join('{"slices":[{"class":"::Meter::Reading","members":%s}]}' % it for it in READINGS)


def words_of(interface, proxy_text, operation, *options):
    return "call", *options, part_of(interface)[0], interface, proxy_text, operation


def call(name, words, roots, *links, instances="", **more):
    data = f'{{"instances":[{instances}],"roots":{roots}}}\n'.encode()
    return Call(f"call {name}", words, data, links=links, **{"files": part_of(words[-3])[1], **more})


def answered(answer):
    return Link(reply(1, answer))


def success_trials():
    """Yields trials of calls that succeed at once."""
    add, put = words_of(COUNTER, WATER, "add"), words_of(BOARD, HALL, "put")
    say, three = '{"line":"hello"}', answered(done(number(3)))
    yield call("with a number", add, '{"n":2}', three)
    yield call("with a ring", put, '{"last":{"$":2}}', answered(done()), instances=INSTANCES)
    yield call("for a ring", words_of(BOARD, HALL, "get"), "{}", answered(done(RING)))
    yield call("with a text", words_of(ECHO, MIRROR, "say"), say, answered(done(text("hello"))))
    yield call("for type ids", words_of(COUNTER, WATER, "ice_ids"), "{}", answered(done(b"\1" + text(COUNTER))))
    twice = words_of(COUNTER, WATER, "add", "--times", "2")
    yield call("twice", twice, '{"n":2}', three, answered(done(number(5))), most=2)
    yield call("oneway", words_of(ECHO, f"mirror -o{AT}", "note"), say, Link())
    yield call("in a batch", words_of(ECHO, f"mirror -O{AT}", "note", "--times", "2"), say, Link())


def locator_trials():
    """Yields trials of calls of objects that a locator knows, or does not know."""
    options, three = ("--locator", f"finder{AT}"), answered(done(number(3)))
    place, behind = answered(done(proxy("water", PORT))), answered(done(proxy("water", 0, "cellar")))
    twice = words_of(COUNTER, "water @ cellar", "add", "--times", "2", *options)
    yield call("by an adapter", twice, '{"n":2}', place, three, three, most=2)
    yield call("by an object", words_of(COUNTER, "water", "add", *options), '{"n":2}', behind, place, three)
    nowhere = answered(raised("::Ice::AdapterNotFoundException"))
    words = words_of(COUNTER, "water @ cellar", "add", *options)
    yield call("by an adapter that is not known", words, '{"n":2}', nowhere, status=8)


def retry_trials():
    """Yields trials of calls whose connection is lost, or closed."""
    add, total, three = words_of(COUNTER, WATER, "add"), words_of(COUNTER, WATER, "total"), answered(done(number(3)))
    cut = Link(reply(1, done(number(3)))[:20], ends=True)
    yield call("lost and made again", total, "{}", cut, three)
    yield call("lost before it was sent", add, '{"n":2}', Link(first=b"", ends=True), three)
    yield call("lost", add, '{"n":2}', cut, status=8)
    yield call("closed and made again", add, '{"n":2}', Link(CLOSE), three, most=2)
    yield call("closed twice", add, '{"n":2}', Link(CLOSE), Link(CLOSE), status=8, most=2)


def failure_trials():
    """Yields trials of calls that do not succeed."""
    total = words_of(COUNTER, WATER, "total")
    refused = answered(raised("::Shop::No", text("none")))
    yield call("raised", words_of(STORE, f"shop{AT}", "find"), '{"number":7}', refused, status=8)
    yield call("missing", total, "{}", answered(missing(2, "water", "total")), status=8)
    yield call("unknown", total, "{}", answered(unknown(5, 'a "b"')), status=8)
    yield call("broken", total, "{}", answered(done(b"\0")), status=8)
    yield call("of nobody", words_of(COUNTER, "water:tcp -h 127.0.0.1 -p 1", "add"), '{"n":2}', status=7)
    yield call("without endpoints", words_of(COUNTER, "water", "add"), '{"n":2}', status=8)


def refusal_trials():
    """Yields trials of calls that are refused before anything is connected."""
    add = words_of(COUNTER, WATER, "add")
    yield call("of a misfit", add, '{"n":"2"}', status=4)
    yield call("of no JSON", add, "{", status=4)
    yield call("of no proxy", words_of(COUNTER, "water:tcp -q 1", "add"), '{"n":2}', status=4)
    yield call("of no locator", words_of(COUNTER, "water", "add", "--locator", "a b"), '{"n":2}', status=4)
    yield call("of no interface", (*add[:2], BOARD, *add[3:]), '{"n":2}', status=2, files=part_of(COUNTER)[1])
    yield call("of no operation", words_of(COUNTER, WATER, "put"), '{"n":2}', status=2)
    yield call("oneway for results", words_of(COUNTER, f"water -o{AT}", "add"), '{"n":2}', status=2)
    yield call("under no file", ("call", "none.ice", COUNTER, WATER, "add"), '{"n":2}', status=3)
    yield call("of too few words", add[:-1], "{}", status=2)


def call_trials():
    """Yields all trials of calls."""
    for trials in success_trials, locator_trials, retry_trials, failure_trials, refusal_trials:
        yield from trials()
