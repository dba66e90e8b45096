"""Plays clients to `ice serve`, one after the other or at once, and looks whether tests/independent/serving.py allows what these hear."""
import dataclasses
import os
import resource
import select
import signal
import socket
import subprocess
import threading
import traceback

import calling
import message_inputs
import messages
import serving
import talks
import values
from links import HERE, SECONDS, end_side, give, reset, take

# The objects that a trial has some of, by the file.
OBJECTS = {
    "meter.ice": ("store=water=::Meter::Counter", "store=hall=::Meter::Board", "echo=mirror=::Meter::Mirror", "store=odd=::Meter::Mirror"),
    "Office.ice": (
        "store=water=::Office::Counter",
        "store=hall=::Office::Forest",
        "store=log=::Office::Log",
        "echo=mirror=::Office::Desk",
        "store=odd=::Office::Desk",
        "echo=a/b=::Office::Thing",
    ),
}
PLACES = "place=water=water:tcp -h localhost -p 4100", "place=a/b=x @ cellar", "adapter=cellar=x:tcp -h localhost -p 4101 -z"
# The longest stream of a client that is changed.
MOST_OF_A_CHANGE = 20_000
LEAST_OF_A_REPLY = messages.HEADER + 5


@dataclasses.dataclass
class Client:
    """A connection: what is said, in pieces or a message at a time, and how it ends. This side ends and the other is waited for, or it is
    only waited for; or the client is gone once it has heard so many bytes: its side is closed, or reset."""

    data: bytes
    pieces: list
    ends: str
    hears: int
    is_polite: bool  # it says nothing before the validate message
    is_patient: bool = False  # nor before the answer to what it has asked

    def __post_init__(self):
        self.taken, self.how = serving.heard(self.data)
        if self.ends == "waits" and self.how == serving.OPEN:
            self.ends = "ends"
        asked = sum(number != 0 for message in self.taken for number, _ in message)
        self.hears = min(self.hears, len(serving.VALIDATE) + LEAST_OF_A_REPLY * asked)

    @property
    def is_cut(self):
        return self.ends in ("dies", "closes")

    def talk(self, port):
        """Returns what was heard."""
        with socket.create_connection((HERE, port), SECONDS) as link:
            return self.talk_over(link)

    def talk_over(self, link):
        link.settimeout(SECONDS)
        data = take(link, len(serving.VALIDATE)) if self.is_polite or self.is_patient else b""
        data += self.asked_in_turn(link) if self.is_patient else b""
        give(link, [] if self.is_patient else self.pieces)
        if self.is_cut:
            data += take(link, max(0, self.hears - len(data)))
            reset(link) if self.ends == "dies" else link.close()
            return data
        if self.ends == "ends":
            end_side(link)
        return data + take(link)

    def asked_in_turn(self, link):
        """Says a message at a time, and returns the answers."""
        rest, answers = self.data, b""
        for calls in self.taken:
            size = messages.size_of(rest[: messages.HEADER])
            give(link, [(rest[:size], 0)])
            rest = rest[size:]
            for _ in range(sum(number != 0 for number, _ in calls)):
                answers += taken_message(link)
        give(link, [(rest, 0)])
        return answers


def taken_message(link):
    header = take(link, messages.HEADER)
    return header + take(link, messages.size_of(header) - len(header) if len(header) == messages.HEADER else 0)


# What clients say


class Maker:
    """Draws a trial."""

    counts = 0, 1, 2, 3, 5  # of the messages of a client

    def __init__(self, chance):
        self.chance, self.text = chance, talks.text_of(chance.choice(list(OBJECTS)))
        objects = OBJECTS[self.text.file]
        self.words = chance.sample(objects, chance.randint(1, len(objects)))
        if chance.random() < 0.3:
            self.words += ["locator=Office/finder", *chance.sample(PLACES, chance.randint(0, len(PLACES)))]
        chance.shuffle(self.words)
        self.adapter, self.harm = serving.Adapter(self.text.shelf, self.text.file, self.words), chance.choice((0, 0.2, 0.5))
        self.own_schema, self.own = talks.own_operations()

    def client(self):
        chance = self.chance
        data = b"".join(self.message() for _ in range(chance.choice(self.counts)))
        if chance.random() < self.harm and data and len(data) < MOST_OF_A_CHANGE:
            data = self.harmed(data)
        ends = chance.choices(("ends", "waits", "dies", "closes"), (5, 2, 1, 1))[0]
        hears = chance.choice((0, 0, 7, 14, 14, 20, 50))
        is_polite, is_patient = chance.random() < 0.3, ends in ("ends", "waits") and chance.random() < 0.2
        return Client(data, talks.in_pieces(chance, data), ends, hears, is_polite, is_patient)

    def harmed(self, data):
        chance, way = self.chance, self.chance.random()
        if way < 0.2:
            return data[: chance.randrange(len(data))]
        if way < 0.3:
            return data + data
        for _ in range(chance.choice((1, 1, 2))):
            places = [at for at in range(len(data)) if data.startswith(messages.MAGIC, at)] or [0]
            at = chance.choice(places)
            last = min((it for it in places if it > at), default=len(data))
            data = data[:at] + talks.changed(chance, data[at:last], self.request(1)) + data[last:]
        return data

    def message(self):
        chance, way = self.chance, self.chance.random()
        if way < 0.78:
            return self.request(chance.choice((1, 2, 3, 3, *talks.NUMBERS)))
        if way < 0.9:
            calls = [self.call() for _ in range(chance.choice((0, 1, 2, 3)))]
            return calling.message_of(messages.BATCH, len(calls).to_bytes(4, "little") + b"".join(calls))
        if way < 0.97:
            return talks.VALIDATE
        return chance.choice((talks.CLOSE, talks.reply(b"\0" + values.encapsulated(b""))))

    def request(self, number):
        return calling.message_of(messages.REQUEST, number.to_bytes(4, "little", signed=True) + self.call())

    def call(self):
        """Returns the bytes of a call: mostly one that its object can do."""
        chance = self.chance
        (name, category), servant = chance.choice(list(self.adapter.servants.items()))
        schema, operations = servant.schema, servant.operations
        if isinstance(servant, (serving.Store, serving.Echo)) and chance.random() < 0.1:
            operations = self.text.interfaces[servant.type_id]
        if not operations or chance.random() < 0.15:
            schema, operations = self.own_schema, self.own
        operation = chance.choice(list(operations.values()))
        shape, mode = operation.arguments, chance.choice((1, 2)) if operation.is_idempotent else 0
        body = self.arguments(servant, schema, operation)
        if chance.random() < 0.05:
            name, category, mode = chance.choice(((b"nobody", category), (name, b"none"), (name, category))) + (chance.randrange(3),)
        return self.spelled_call(name, category, operation, mode, body)

    def spelled_call(self, name, category, operation, mode, body):
        chance = self.chance
        facet = chance.choice((b"\0",) * 12 + (b"\1\0", b"\1\1f"))
        keys = chance.sample(message_inputs.TEXTS, chance.choice((0,) * 8 + (1, 2)))
        context = values.spelled_size(len(keys)) + b"".join(2 * values.spelled_string(it) for it in keys)
        word = operation.name.encode() if chance.random() < 0.97 else chance.choice((b"", b"none", b"Add", "é".encode()))
        texts = values.spelled_string(name) + values.spelled_string(category) + facet + values.spelled_string(word)
        return texts + bytes([mode]) + context + body

    def arguments(self, servant, schema, operation):
        chance = self.chance
        if operation.name == "ice_isA" and chance.random() < 0.7:
            return values.encapsulated(values.spelled_string(chance.choice((*servant.ids, b"::Ice::object"))))
        if operation.name == "findObjectById" and chance.random() < 0.7:
            identity = chance.choice(((b"water", b""), (b"b", b"a"), (b"c", b"a")))
            return values.encapsulated(b"".join(map(values.spelled_string, identity)))
        if operation.name == "findAdapterById" and chance.random() < 0.7:
            return values.encapsulated(values.spelled_string(chance.choice((b"cellar", b"attic"))))
        return talks.spelled(chance, talks.drawn(chance, schema, operation.arguments), operation.arguments)


# The server


class Serve:
    """`ice serve` in a process of its own."""

    def __init__(self, program, words, folder, changed, seconds=SECONDS):
        limits = lambda: resource.setrlimit(resource.RLIMIT_CPU, (seconds, seconds))
        pipes = {"stdin": subprocess.DEVNULL, "stdout": subprocess.PIPE, "stderr": subprocess.PIPE}
        self.process = subprocess.Popen([program, *words], cwd=folder, env={**os.environ, **changed}, preexec_fn=limits, **pipes)
        is_there = select.select([self.process.stdout], [], [], 2 * SECONDS)[0]
        self.line = self.process.stdout.readline() if is_there else b""
        self.port = int(self.line.split()[1]) if self.line.startswith(b"listening ") else None

    def __enter__(self):
        return self

    def __exit__(self, *_):
        self.process.kill()
        self.process.wait()

    def stopped(self):
        """Ends it where it does not end by itself."""
        self.process.terminate()
        return self.ended()

    def ended(self):
        """Waits for its end, and returns its status and all that it wrote."""
        try:
            output, error = self.process.communicate(timeout=2 * SECONDS)
        except subprocess.TimeoutExpired:
            self.process.kill()
            output, error = self.process.communicate()
            return "none in time", self.line + output, error
        return self.process.returncode, self.line + output, error


def heard_by(clients, port, at_once):
    """Returns what each client heard, and what went wrong."""
    heard, faults = [b""] * len(clients), []

    def talk(at):
        try:
            heard[at] = clients[at].talk(port)
        except Exception:
            faults.append(f"client {at}: {traceback.format_exc()}")

    threads = [threading.Thread(target=talk, args=(at,), daemon=True) for at in range(len(clients))]
    for it in threads:
        it.start()
        if not at_once:
            it.join()
    for it in threads:
        it.join()
    return heard, faults


# What came


def sessions_of(clients, heard, workers, at_once):
    """Returns what the second answer has to allow, None where a client heard what no server says, or not all of it."""
    found = []
    for at, (client, data) in enumerate(zip(clients, heard)):
        is_begun = client.is_cut and len(data) < len(serving.VALIDATE) and serving.VALIDATE.startswith(data)
        said = ([], b"") if is_begun else serving.replies_in(data)
        if said is None or said[1] and not client.is_cut:
            return None
        behind = set() if at_once else {it for it in range(at) if workers == 1 or not clients[it].is_cut}
        found.append(serving.Session(client.taken, *said, client.is_cut, behind))
    return found


def shown(words, clients, heard, faults, wanted, given):
    lines = [f"  words {words}"]
    for client, data in zip(clients, heard):
        how = f"{client.ends}, {f'heard {client.hears}, ' if client.is_cut else ''}{client.how}, {len(client.pieces)} pieces"
        lines += [f"  said ({how})", f"    {client.data.hex()}", "  heard", f"    {data.hex()}"]
    return "\n".join([*lines, *faults, "  wanted", f"    {wanted}", "  came", f"    {given}"])


def tried(program, folder, number, chance, changed):
    """Returns of which sort a trial is, and the difference or None."""
    maker = Maker(chance)
    workers, at_once, is_endless = chance.choice((1, 1, 2, 3)), chance.random() < 0.5, chance.random() < 0.05
    clients = [maker.client() for _ in range(chance.choice((1, 1, 2, 3, 4)))]
    most = [] if is_endless else ["--connections", str(len(clients))]
    words = ["serve", "--workers", str(workers), *most, maker.text.file, HERE, "0", *maker.words]
    with Serve(program, words, folder, changed) as serve:
        if serve.port is None:
            return "serve not begun", shown(words, clients, [], [], "listening", serve.ended())
        heard, faults = heard_by(clients, serve.port, at_once)
        given = serve.stopped() if is_endless else serve.ended()
    wanted = 0, b"listening %d\nserved %d\n" % (serve.port, len(clients)), b""
    if is_endless:
        wanted = -signal.SIGTERM, b"listening %d\n" % serve.port, b""
    sessions = sessions_of(clients, heard, workers, at_once)
    is_legal = sessions is not None and serving.is_legal(maker.adapter, sessions)
    sort = f"serve, {'at once' if at_once and len(clients) > 1 else 'in turn'}"
    if is_legal and given == wanted and not faults:
        return sort, None
    why = "no order of the calls has these replies" if not is_legal else "the end"
    return sort, f"  {why}\n{shown(words, clients, heard, faults, wanted, given)}"
