"""Draws trials of `ice call`: its words, and scripts of servers, good ones and such as do no good."""
import dataclasses

import calling
import graphs
import json_texts
import messages
import talks
import values
from links import HERE

FRONT, GREETED, OVER = "front", "greeted", "over"
# There is no such object, which makes a place stale that was kept.
GONE = talks.reply(b"\2\1x\0\0\0")


# What a server does on a connection


def opening(data):
    """Says what a client does that has heard this: it waits for more, sends its message, or sends nothing any more."""
    header = data[: messages.HEADER]
    if messages.header_fault(header):
        return OVER
    if len(header) < messages.HEADER or len(data) < messages.size_of(header):
        return FRONT
    return GREETED if data.startswith(talks.VALIDATE[:9]) and messages.size_of(header) == messages.HEADER else OVER


@dataclasses.dataclass
class Script:
    """What is given before the request is waited for, the part of that which is (1: all of it, 0: it is not waited for), what is given
    then, and how the connection ends: this side ends and the other is waited for, it is closed, it is reset, or it is not accepted."""

    before: bytes
    part: float
    after: bytes
    ends: str
    first: list
    second: list

    @property
    def waits(self):
        return self.part > 0 and opening(self.before) != FRONT

    def __str__(self):
        return f"{self.before.hex()} | {self.part if self.waits else 'at once'} | {self.after.hex()} | {self.ends}"


# Trials


@dataclasses.dataclass
class Trial:
    text: talks.Text
    interface: str
    name: str
    operation: calling.Operation
    proxy: str
    locator: str | None
    mode: str
    data: bytes
    retries: int
    times: int
    is_compact: bool
    ports: list
    scripts: dict

    def words(self):
        options = ["--retries", str(self.retries), "--times", str(self.times)] + ["--compact"] * self.is_compact
        options += ["--locator", self.locator] if self.locator else []
        return ["call", *options, self.text.file, self.interface, self.proxy, self.name]


class Maker:
    """Draws a trial."""

    def __init__(self, chance, ports):
        self.chance, self.ports, self.text = chance, ports, talks.text_of(chance.choice(list(talks.FILES)))
        self.interface = chance.choice([it for it, operations in self.text.interfaces.items() if operations])
        self.schema, operations = self.text.schema, self.text.interfaces[self.interface]
        if chance.random() < 0.1:
            self.schema, operations = talks.own_operations()
        again = [name for name, it in operations.items() if it.is_idempotent]
        self.name = chance.choice(again if again and chance.random() < 0.4 else list(operations))
        self.operation, self.harm = operations[self.name], chance.choice((0.2, 0.5, 0.8))
        self.locator_schema, self.seeking = calling.operations_of({"own": calling.LOCATOR}, "own")

    def trial(self):
        chance, operation = self.chance, self.operation
        mode = chance.choice(("", "-o", "-O")) if not operation.is_twoway or chance.random() < 0.02 else ""
        is_located, targets = chance.random() < 0.25, self.ports[1:]
        scripts = {it: self.door(mode) for it in targets if chance.random() < 0.85}
        identity = chance.choice(("water", "hall", "a/b", "x -f front")) + (f" {mode}" if mode else "")
        proxy, locator = identity + "".join(f":tcp -h {HERE} -p {it}" for it in targets), None
        if is_located:
            proxy, locator = identity + chance.choice(("", " @ cellar")), f"finder:tcp -h {HERE} -p {self.ports[0]}"
            if chance.random() < 0.95:
                scripts[self.ports[0]] = self.locator_door(targets)
        graph = talks.drawn(chance, self.schema, operation.arguments)
        data = json_texts.written(calling.Noter(graph, operation.arguments).whole())
        numbers = chance.choice((0, 1, 1, 2, 3)), chance.choice((1, 1, 1, 2, 3, 40 if mode == "-O" else 4))
        given = mode, data, *numbers, chance.random() < 0.2, self.ports, scripts
        return Trial(self.text, self.interface, self.name, operation, proxy, locator, *given)

    def door(self, mode):
        """Returns the scripts of a port where the object is."""
        return self.scripts(lambda: b"" if mode else talks.reply(self.answer()))

    def answer(self):
        """Returns an answer of any sort, or mostly one that succeeds."""
        if self.chance.random() < 0.3:
            return talks.answer(self.chance, self.text, self.schema, self.operation)
        shape = self.operation.results
        graph = talks.drawn(self.chance, self.schema, shape)
        return b"\0" + graphs.encode(graph, shape, calling.Sliced(graph))

    def locator_door(self, targets):
        return self.scripts(lambda: talks.reply(self.place(targets)))

    def place(self, targets):
        """Returns a locator's answer."""
        chance, way = self.chance, self.chance.random()
        if way < 0.1:
            type_id = values.spelled_string(b"::Ice::%sNotFoundException" % chance.choice((b"Object", b"Adapter")))
            return b"\1" + values.encapsulated(b"\x30" + type_id + b"\4\0\0\0")
        if way < 0.15:
            return talks.answer(chance, self.text, self.locator_schema, next(iter(self.seeking.values()))["findObjectById"])
        there = tuple(values.Tcp(HERE.encode(), it) for it in targets)
        proxy = values.Proxy(b"dummy", endpoints=there) if way < 0.8 else values.Proxy(b"dummy", adapter=b"cellar") if way < 0.95 else None
        return b"\0" + values.encapsulated(values.spelled_proxy(proxy))

    def scripts(self, replied):
        count = self.chance.choice((1, 2, 4, 8))
        found = [self.script(replied()) if self.chance.random() < self.harm else self.good(replied()) for _ in range(count)]
        return [*found, self.good(replied())]

    def pieces(self, before, part, after, ends):
        return Script(before, part, after, ends, talks.in_pieces(self.chance, before), talks.in_pieces(self.chance, after))

    def good(self, reply):
        return self.pieces(talks.VALIDATE, 1, reply, "ends")

    def script(self, reply):
        """Returns a script that does no good: one that is mostly tried again, or any."""
        chance = self.chance
        if chance.random() < 0.5:
            lost, good = reply[: chance.randrange(len(reply) + 1)], talks.VALIDATE
            ways = (b"", b""), (good[:9], b""), (talks.CLOSE, b""), (good, talks.CLOSE), (good, good + talks.CLOSE), (good, lost), (good, GONE)
            before, after = chance.choice(ways)
            return self.pieces(before, chance.choice((1, 1, 1, 0, 0.7)), after, chance.choice(("ends", "closes", "dies")))
        before = talks.VALIDATE if chance.random() < 0.65 else self.harmed(talks.VALIDATE)
        after = reply if chance.random() < 0.3 else self.harmed(reply)
        part = 1 if chance.random() < 0.75 else chance.choice((0, 0.4, 0.7, 0.99))
        return self.pieces(before, part, after, chance.choices(("ends", "closes", "dies", "unaccepted"), (50, 20, 25, 3))[0])

    def harmed(self, message):
        """Returns a message changed, cut, twice, not at all or among others."""
        chance, way = self.chance, self.chance.random()
        if way < 0.35 and message:
            return talks.changed(chance, message, self.stray())
        if way < 0.55:
            return message[: chance.randrange(len(message) + 1)]
        if way < 0.65:
            return message + message
        parts = [message, *(self.stray() for _ in range(chance.choice((1, 1, 2))))]
        chance.shuffle(parts)
        return b"".join(parts) if way < 0.9 else b"".join(parts[1:])

    def stray(self):
        """Returns a message that nobody asked for."""
        number = self.chance.choice(talks.NUMBERS)
        call = calling.called(values.Proxy(b"me"), self.operation, values.encapsulated(b""))
        request = calling.message_of(messages.REQUEST, number.to_bytes(4, "little", signed=True) + call)
        batch = calling.message_of(messages.BATCH, b"\2\0\0\0" + 2 * call)
        others = [request, batch, talks.reply(b"\5\0", number), talks.reply(self.answer(), number)]
        return self.chance.choice([talks.VALIDATE, talks.VALIDATE, talks.CLOSE, talks.CLOSE, *others])
