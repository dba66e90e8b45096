"""Plays the callers of `ice gate` and the servers behind it, and the same to tests/independent/gating.py: callers as
`hostile_clients.py` has them, one after the other, and servers as `hostile_server.py` plays them.

Where the system decides what a side sees (a reset that overtakes a message, how much is handled of a caller that is gone), the ways that
may be are gone through up to one that fits what was heard. By what was heard alone it is looked whether the laws of forwarding hold: one
of them, that a connection to a server ends before the next one begins, by servers that take no other one before.
"""
import collections
import contextlib
import dataclasses
import re
import signal
import socket

import calling
import gating
import graphs
import hostile_clients
import hostile_server
import messages
import server_scripts
import serving
import talks
import values
from calling import MOST_OF_A_BODY
from links import HERE, SECONDS

# How many ways are gone through. One that does not fit is left at once, so few are.
MOST_WAYS = 3000
NAMES = "any", "a/b -f front", "any -o", "x -O -s", "any -e 1.0"
# Endpoints that no one can use.
USELESS = ":tcp", f":tcp -h {HERE}", ":tcp -p 4100", f":tcp -h {HERE} -p 70000", ":opaque -t 9 -e 1.1 -x 00"
# What an encapsulation of a long string has besides.
OF_A_STRING = 11
BAD_ARGUMENTS = b"bad arguments "
# What a trial is counted as, by the text of an answer.
SORT = re.compile(b"bad [a-z]+|too long|no upstream|upstream [a-z]+")


# Trials


@dataclasses.dataclass
class Trial:
    text: talks.Text
    interface: str
    proxy: str
    retries: int
    ports: list
    scripts: dict
    callers: list
    is_endless: bool
    at_once: bool  # all are connected before the first is served

    @property
    def operations(self):
        return self.text.interfaces[self.interface]

    def words(self):
        options = [] if self.is_endless else ["--connections", str(len(self.callers))]
        return ["gate", *options, "--retries", str(self.retries), self.text.file, self.interface, HERE, "0", self.proxy]


class CallerMaker(hostile_clients.Maker):
    """Draws callers. Each call has an identity of its own, and most are of the operation that the servers answer."""

    counts = 0, 1, 1, 2, 3, 3, 5, 8

    def __init__(self, chance, servers):
        self.chance, self.text, self.servers, self.count = chance, servers.text, servers, 0
        self.harm, self.most = chance.choice((0, 0.2, 0.5)), chance.choice((0.6, 0.8, 0.95))
        self.own_schema, self.own = talks.own_operations()

    def drawn(self):
        """Returns an operation, and the schema that its types are of."""
        chance, servers, interfaces = self.chance, self.servers, self.text.interfaces
        if chance.random() < self.most:
            return servers.schema, servers.operation
        some = chance.choice((interfaces[servers.interface], interfaces[servers.interface], self.own, *interfaces.values())) or self.own
        return self.own_schema if some is self.own else self.text.schema, chance.choice(list(some.values()))

    def call(self):
        """Returns the bytes of a call: mostly one that goes out."""
        chance, (schema, operation) = self.chance, self.drawn()
        self.count += 1
        mode = chance.choice((1, 2)) if operation.is_idempotent else 0
        mode = chance.randrange(3) if chance.random() < 0.1 else mode
        body = spelled(chance, schema, operation.arguments, MOST_OF_A_BODY + 1)
        return self.spelled_call(b"c%d" % self.count, chance.choice((b"", b"", b"k")), operation, mode, body)


def spelled(chance, schema, shape, least):
    """Returns arguments or results, now and then a string of which alone is so long that they have at least so many bytes."""
    graph = talks.drawn(chance, schema, shape)
    strings = [at for at, (_, kind) in enumerate(shape.required) if kind.sort == "string"]
    if strings and chance.random() < 0.02:
        graph.root[0][strings[0]] = b"x" * (least - OF_A_STRING + chance.choice((0, 0, 1, 40_000)))
        return graphs.encode(graph, shape, calling.Sliced(graph))
    return talks.spelled(chance, graph, shape)


class ServerMaker(server_scripts.Maker):
    """Draws servers, the words and the callers."""

    def answer(self):
        if self.chance.random() < 0.9:
            return super().answer()
        return b"\0" + spelled(self.chance, self.schema, self.operation.results, MOST_OF_A_BODY)

    def trial(self):
        chance = self.chance
        targets = chance.sample(self.ports, len(self.ports)) if chance.random() < 0.97 else []
        scripts = {it: self.scripts(lambda: talks.reply(self.answer())) for it in targets if chance.random() < 0.9}
        places = [f":tcp -h {HERE} -p {it}{chance.choice(('', '', ' -z', ' -t 100'))}" for it in targets]
        places += chance.sample(USELESS, chance.choice((0, 0, 1, 2)) if targets else 2)
        chance.shuffle(places)
        maker = CallerMaker(chance, self)
        callers = [maker.client() for _ in range(chance.choice((1, 1, 2, 3)))]
        is_endless, at_once = chance.random() < 0.03 and not callers[-1].is_cut, chance.random() < 0.3
        given = chance.choice(NAMES) + "".join(places), chance.choice((0, 1, 1, 2, 3)), self.ports, scripts
        return Trial(self.text, self.interface, *given, callers, is_endless, at_once)


# The second answer


class Otherwise(Exception):
    """What comes is not what was heard."""


class Network(hostile_server.Network):
    """What servers are to a client, as long as what comes is what was heard."""

    def __init__(self, trial, heard, choose):
        super().__init__(trial.ports, trial.scripts, choose)
        self.heard = heard

    def create_connection(self, address, seconds):
        self.check(len(self.log))
        return super().create_connection(address, seconds)

    def check(self, count):
        if not hostile_server.fits(self.handed(), self.heard[:count]):
            raise Otherwise


class Caller:
    """The gateway's end of a connection of a caller, which told the caller this in all."""

    def __init__(self, caller, heard, choose):
        self.caller, self.heard, self.choose, self.told, self.at = caller, heard, choose, b"", 0

    def __enter__(self):
        return self

    def __exit__(self, *_):
        pass

    def recv(self, count):
        if self.caller.is_cut and count == messages.HEADER and self.choose():
            raise ConnectionResetError
        piece = self.caller.data[self.at : self.at + count]
        self.at += len(piece)
        return piece

    def sendall(self, data):
        self.told += data
        if not self.heard.startswith(self.told) and not (self.caller.is_cut and self.told.startswith(self.heard)):
            raise Otherwise

    def fits(self):
        return self.told.startswith(self.heard) if self.caller.is_cut else self.told == self.heard


def way(trial, heard, told, choose):
    """Goes one way: returns whether it fits, what each caller was told and what each connection to a server was handed."""
    calling.socket = network = Network(trial, heard, choose)
    proxy = gating.proxies.read(trial.proxy.encode())
    gateway, links = gating.Gateway(trial.text.schema, trial.operations, proxy, trial.retries), []
    try:
        for caller, data in zip(trial.callers, told):
            links.append(Caller(caller, data, choose))
            gating.serve(gateway, links[-1])
            if not links[-1].fits():
                raise Otherwise
        network.check(len(heard))
        is_same = True
    except Otherwise:
        is_same = False
    return is_same, [it.told for it in links], network.handed()


def misfit(trial, heard, told):
    """Returns no lines where the second answer can come to this, else those of the way that goes farthest."""
    plans, count, farthest = [[]], 0, ([], [])
    while plans and count < MOST_WAYS:
        choices = hostile_server.Choices(plans.pop())
        is_same, *came = way(trial, heard, told, choices.choose)
        if is_same:
            return []
        farthest = max(farthest, came, key=lambda it: (len(it[1]), len(it[0])))
        plans += choices.others()
        count += 1
    lines = [f"  wanted, of {count} ways", *(f"    told {it.hex()}" for it in farthest[0])]
    return lines + [f"    handed at {port} {handed.hex()}" for port, handed, _ in farthest[1]]


# The laws


def forwarded(data):
    """Returns the calls of a message that came to a server whole, each with its number; none where it is no message."""
    is_message = hostile_server.is_whole(data) and messages.told(data)[1] is None
    return serving.calls_in(data[8], values.Cursor(data, messages.HEADER, len(data))) if is_message else []


def key(call):
    return call.name, call.category, call.facet, call.operation, call.mode


def has_close(script):
    """Says whether a connection was given a close message, before anything else but validate messages."""
    lines = messages.told(script.before + script.after)[0].splitlines()
    return next((it == b"close" for it in lines if it != b"validate"), False)


def answered(caller, data):
    """Yields each call of a caller, and which answer it was told: None of one that was not told any."""
    answers = iter((serving.replies_in(data) or ([], b""))[0])
    for message in caller.taken:
        for number, call in message:
            yield number, call, next(answers, None) if number else None


def is_refused(trial, call, answer):
    """Says whether a call was told not to go out, or can not."""
    text = answer[6:] if answer and answer[4] == 5 else b""
    name = call.operation.decode()
    return name not in trial.operations and name not in talks.own_operations()[1] or text.startswith(BAD_ARGUMENTS)


def broken_to_caller(caller, data):
    """Yields which laws are broken in what a caller was told."""
    if caller.is_cut and serving.VALIDATE.startswith(data):
        return
    said = serving.replies_in(data)
    if said is None or said[1] and not caller.is_cut:
        yield "  a caller was told what is no answer, or a part of one"
        return
    numbers = [number.to_bytes(4, "little", signed=True) for message in caller.taken for number, _ in message if number]
    given = [it[:4] for it in said[0]]
    if given != numbers[: len(given)]:
        yield "  an answer that has not the id of the next request"
    if len(given) < len(numbers) and not caller.is_cut:
        yield "  a request without an answer"


def broken_laws(trial, heard, told):
    """Yields which laws are broken, by what was heard alone."""
    sent, came, count = collections.Counter(), collections.Counter(), 0
    for caller, data in zip(trial.callers, told):
        yield from broken_to_caller(caller, data)
        sent.update(key(call) for _, call, answer in answered(caller, data) if not is_refused(trial, call, answer))
        count += sum(bool(it) for it in caller.taken)
    if len(heard) > count * (trial.retries + 1):
        yield "  more attempts than retries allow"
    for _, data, is_all, script in heard:
        calls = forwarded(data)
        if hostile_server.is_torn(data, is_all, script) or is_all and hostile_server.is_whole(data) and not calls:
            yield "  what is no message with calls, or not all of one"
        for number, call in calls:
            came[key(call)] += not has_close(script)
            if number not in (0, 1):
                yield "  another id than 0 and 1"
            if not sent[key(call)]:
                yield "  a call went out that was refused, or that nobody made"
            if call.mode == 0 and came[key(call)] > sent[key(call)]:
                yield "  sent again, though it may have been dispatched"


# What came


class Waiting:
    """A caller that is connected, and says nothing yet."""

    def __init__(self, caller, port):
        self.caller, self.link = caller, socket.create_connection((HERE, port), SECONDS)

    def talk(self, _):
        with self.link:
            return self.caller.talk_over(self.link)


def sort_of(told):
    """Returns what the last answer was that a caller was told."""
    answers = [it for data in told for it in (serving.replies_in(data) or ([], b""))[0]]
    found = SORT.match(answers[-1][6:]) if answers and answers[-1][4] == 5 else None
    return found[0].decode() if found else f"status {answers[-1][4]}" if answers else "no answer"


def shown(trial, server, told, given):
    lines = [f"  words {trial.words()}", f"  {'at once' if trial.at_once else 'in turn'}; ports {trial.ports}, open {list(trial.scripts)}"]
    for caller, data in zip(trial.callers, told):
        pieces = "a message at a time" if caller.is_patient else f"{len(caller.pieces)} pieces"
        how = f"{caller.ends}, {f'heard {caller.hears}, ' if caller.is_cut else ''}{caller.how}, {pieces}"
        lines += [f"  a caller said ({how})", f"    {caller.data.hex()}", "  was told", f"    {data.hex()}"]
    for port, data, is_all, script in server.heard:
        lines += [f"  at {port} gave {script}", f"    heard {data.hex()}{'' if is_all else ' ..'}"]
    return [*lines, f"  ended {given}"]


def tried(program, folder, number, chance, changed):
    """Returns of which sort a trial is, and the difference or None."""
    with contextlib.ExitStack() as stack:
        try:
            listeners = {port: stack.enter_context(it) for port, it in hostile_server.bound(number, chance.randint(1, 4)).items()}
            trial = ServerMaker(chance, list(listeners)).trial()
            server = hostile_server.Server(listeners, trial.scripts)
        except OSError:  # somebody else has a port of the trial
            return hostile_server.PASSED_OVER, None
        with hostile_clients.Serve(program, trial.words(), folder, changed) as gate:
            told, faults = [b""] * len(trial.callers), ["  not begun"]
            if gate.port is not None:
                callers = [Waiting(it, gate.port) for it in trial.callers] if trial.at_once else trial.callers
                told, faults = hostile_clients.heard_by(callers, gate.port, trial.at_once)
            given = gate.stopped() if trial.is_endless else gate.ended()
        server.finish()
    wanted = 0, b"listening %d\nserved %d\n" % (gate.port or 0, len(told)), b""
    if trial.is_endless:
        wanted = -signal.SIGTERM, b"listening %d\n" % (gate.port or 0), b""
    wrong = [*faults, *server.faults, *broken_laws(trial, server.heard, told), *misfit(trial, server.heard, told)]
    wrong += [] if given == wanted else ["  another end"]
    sort = f"gate: {sort_of(told)}"
    return sort, "\n".join([*wrong, *shown(trial, server, told, given)]) if wrong else None
