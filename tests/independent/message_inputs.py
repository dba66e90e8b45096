"""Makes inputs of messages from a seed: good ones, ones cut after each byte, and broken ones.

Nothing here says what is good or broken: `messages.told` does.
"""
import random
from dataclasses import dataclass

import values
from messages import BATCH, CLOSE, REPLY, REQUEST, VALIDATE, VERSION, MAGIC

TEXTS = [b"", b"a", b"hello", b"ice_ping", b"a/b", b'"', b"\\", b"'", b"\t\n\r", b"\x00\x1f\x7f", "é€𝄞".encode(), b"x" * 254, b"x" * 300]
NUMBERS = [0, 1, 2, 7, 255, 256, -1, 2**31 - 1, -(2**31)]
BYTES = [0, 1, 2, 3, 4, 5, 6, 7, 8, 13, 14, 127, 128, 253, 254, 255]


@dataclass(frozen=True)
class Trial:
    what: str
    data: bytes


def string(text):
    return values.spelled_size(len(text)) + text


def int4(number):
    return number.to_bytes(4, "little", signed=True)


class Maker:
    def __init__(self, chance):
        self.chance = chance

    def text(self):
        return string(self.chance.choice(TEXTS[:7] if self.chance.random() < 0.7 else TEXTS))

    def encapsulation(self):
        content = self.chance.randbytes(self.chance.choice([0, 0, 1, 5, 40]))
        version = self.chance.choice([b"\x01\x01", b"\x01\x01", b"\x01\x00", b"\x02\x03"])
        return int4(6 + len(content)) + version + content

    def facet(self):
        return self.chance.choice([b"\x00", b"\x00", b"\x01\x00", b"\x01" + string(b"facet")])

    def identity(self):
        return self.text() + self.text()

    def context(self):
        keys = self.chance.sample(TEXTS, self.chance.choice([0, 0, 0, 1, 2, 3]))
        return values.spelled_size(len(keys)) + b"".join(string(it) + self.text() for it in keys)

    def call(self):
        mode = bytes([self.chance.randrange(3)])
        return self.identity() + self.facet() + self.text() + mode + self.context() + self.encapsulation()

    def answer(self):
        status = self.chance.randrange(8)
        body = self.encapsulation() if status < 2 else self.text()
        if 2 <= status < 5:
            body = self.identity() + self.facet() + self.text()
        return bytes([status]) + body

    def message(self):
        kind = self.chance.choice([REQUEST, REQUEST, BATCH, REPLY, REPLY, VALIDATE, CLOSE])
        body = b""
        if kind == REQUEST:
            body = int4(self.chance.choice(NUMBERS)) + self.call()
        elif kind == BATCH:
            calls = [self.call() for _ in range(self.chance.choice([0, 1, 2, 3]))]
            body = int4(len(calls)) + b"".join(calls)
        elif kind == REPLY:
            body = int4(self.chance.choice(NUMBERS)) + self.answer()
        return MAGIC + VERSION + VERSION + bytes([kind, self.chance.randrange(2)]) + int4(14 + len(body)) + body

    def resized(self, message, body):
        """Returns a message with another body, which its header counts."""
        return message[:10] + int4(14 + len(body)) + body

    def broken(self, message):
        """Returns a message with a byte changed, dropped or doubled, in its header, or in a body that the header counts or not."""
        at = self.chance.randrange(len(message))
        way = self.chance.choice(["changed", "changed", "dropped", "doubled"])
        new = {"changed": bytes([self.chance.choice(BYTES)]), "dropped": b"", "doubled": message[at : at + 1] * 2}[way]
        data = message[:at] + new + message[at + 1 :]
        if at >= 14 and self.chance.random() < 0.8:
            data = self.resized(message, data[14:])
        return f"a byte {way} at {at}", data


def trials(seed, number):
    """Yields the trials of a lot, about a hundred."""
    chance = random.Random(f"messages {seed} {number}")
    maker = Maker(chance)
    stream = b"".join(maker.message() for _ in range(chance.choice([1, 2, 5])))
    yield Trial("messages", stream)
    message = maker.message()
    if len(message) <= 120:
        for count in range(len(message)):
            yield Trial(f"a message cut after {count} bytes", stream + message[:count])
    for _ in range(60):
        what, data = maker.broken(maker.message())
        yield Trial(what, chance.choice([b"", stream]) + data + chance.choice([b"", b"", b"I", maker.message()]))
