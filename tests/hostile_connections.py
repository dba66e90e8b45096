"""Plays very many callers that do no good to one `ice serve` and one `ice gate`, in turn, and looks whether both count them all, take what
is whole and nothing else, and hold no more memory at the end than after a tenth of them.

Only one sort of caller makes a call that counts, with one connection each, so what each of these has to be told is known, and the last
connection of all tells whether anything else has counted. Behind `ice gate` is another `ice serve`.
"""
import collections
import contextlib
import random
import socket
import traceback

import calling
import messages
import talks
import values
from hostile_clients import Serve
from links import HERE, SECONDS, end_side, reset, say, take
from program import has_sanitizer, memory_of
from serving import VALIDATE

FILE, INTERFACE, OBJECT = "Office.ice", "::Office::Counter", "counter"
WORKERS, TENTHS, ADDRESSES = 4, 10, 200
# A count that shows where it should not be.
MUCH = 1_000_000
MOST_OF_GARBAGE, MOST_PINGS, MOST_TOLD = 64, 3, 20
# How a caller ends: it listens up to the end, is gone at once, or says a byte at a time, while others come, and listens then.
WAYS = *("ends",) * 6, *("closes", "dies") * 2, "slow"
# The KiB by which memory may grow behind the first tenth, and the seconds of processor time that a command may take.
MOST_GROWTH, MOST_SECONDS = 1024, 1200
# The address sanitizer is not to keep what was given back.
KEEPS_NOTHING = ":quarantine_size_mb=0:thread_local_quarantine_size_kb=0"


# What is said


def request(operation, content, mode, number=1):
    call = calling.called(values.Proxy(OBJECT.encode()), operation, values.encapsulated(content), mode)
    return calling.message_of(messages.REQUEST, number.to_bytes(4, "little") + call)


def of_int(number):
    return values.spelled_number(number, "int")


def result(content):
    return talks.reply(b"\0" + values.encapsulated(content))


class Sayings:
    """What callers say, each with what they have to be told where they listen. None but `valid` has a whole call that counts."""

    def __init__(self, chance):
        self.chance, operations, own = chance, talks.text_of(FILE).interfaces[INTERFACE], talks.own_operations()[1]
        self.one, self.much = (request(operations["add"], of_int(it), 0) for it in (1, MUCH))
        self.ping = request(own["ice_ping"], b"", 1)
        # How often each comes, in a hundred.
        self.odds = {"valid": 30, "nothing": 10, "cut": 20, "garbage": 10, "changed": 10, "half": 5, "pings": 10, "unasked": 5}

    def drawn(self, count):
        """Returns the sort of what is said, that, and what is to be told; a valid call is the next behind so many."""
        (sort,) = self.chance.choices(list(self.odds), self.odds.values())
        return sort, *(self.valid(count) if sort == "valid" else getattr(self, sort)())

    def valid(self, count):
        return self.one, VALIDATE + result(of_int(count + 1))

    def nothing(self):
        return b"", VALIDATE

    def cut(self):
        return self.much[: self.chance.randrange(1, len(self.much))], VALIDATE

    def garbage(self):
        return b"\0" + self.chance.randbytes(self.chance.randrange(MOST_OF_GARBAGE)), VALIDATE

    def changed(self):
        """A header that none has, with the rest of a good message."""
        at, byte = self.chance.choice(((0, 0), (3, 112), (4, 2), (7, 3), (8, 5), (9, 2), (10, 13), (13, 1), (13, 255)))
        some = bytearray(self.much)
        some[at] = byte
        if at == 10:
            some[11:13] = b"\0\0"
        return bytes(some), VALIDATE

    def half(self):
        """A message that says of itself that it is longer."""
        size = len(self.much) + self.chance.randint(1, 1000)
        return self.much[:10] + size.to_bytes(4, "little") + self.much[14:], VALIDATE

    def pings(self):
        """Calls that count nothing, and behind them the beginning of one that would."""
        count = self.chance.randint(1, MOST_PINGS)
        return count * self.ping + self.much[: self.chance.choice((0, 1, 20))], VALIDATE + count * result(b"")

    def unasked(self):
        """A message behind which nothing is taken."""
        return self.chance.choice((talks.CLOSE, talks.VALIDATE + talks.CLOSE, result(b""))) + self.much, VALIDATE


# Who says it


class Slow:
    """A connection over which a byte is said at a turn."""

    def __init__(self, link, said, wanted):
        self.link, self.said, self.wanted, self.at = link, said, wanted, 0

    def turn(self):
        """Says a byte, and returns whether there is more to say."""
        is_taken = say(self.link, self.said[self.at : self.at + 1])
        self.at += 1
        return is_taken and self.at < len(self.said)


class Target:
    """A command that listens, and all callers of it."""

    def __init__(self, name, serve, workers, count, sayings):
        self.name, self.serve, self.workers, self.count, self.sayings = name, serve, workers, count, sayings
        self.begun, self.valid, self.given = 0, 0, None
        self.slow, self.faults, self.peaks, self.sorts = [], [], [], collections.Counter()

    def is_going(self):
        """Says whether there are connections left but the last one."""
        return self.begun < self.count - 1

    def opened(self):
        """Returns a new connection, from so many addresses in turn that no port lacks."""
        self.begun += 1
        here = f"127.0.0.{1 + self.begun % ADDRESSES}"
        return socket.create_connection((HERE, self.serve.port), SECONDS, (here, 0))

    def turn(self):
        """Goes on with the slow callers, and plays another one where they leave a worker to it."""
        self.go_on()
        if self.is_going() and len(self.slow) < self.workers:
            self.play()

    def go_on(self):
        for it in [it for it in self.slow if not it.turn()]:
            self.slow.remove(it)
            self.hear(it.link, it.said, it.wanted)

    def play(self):
        sort, said, wanted = self.sayings.drawn(self.valid)
        way = "ends" if sort == "valid" else self.sayings.chance.choice(WAYS)
        self.sorts[sort] += 1
        self.valid += sort == "valid"
        link = self.opened()
        if way == "slow":
            self.slow.append(Slow(link, said, wanted))
            return
        say(link, said)
        if way == "ends":
            self.hear(link, said, wanted)
        else:
            reset(link) if way == "dies" else link.close()

    def hear(self, link, said, wanted):
        """Ends this side, and compares what is told up to the end of the other one."""
        with link:
            end_side(link)
            told = take(link)
        if told != wanted:
            lines = f"said {said.hex()}", f"told {told.hex()}", f"wanted {wanted.hex()}"
            self.faults.append("\n  ".join([f"{self.name}, connection {self.begun}:", *lines]))

    def finish(self):
        """Lets the slow callers end, makes a valid call over the last connection, and looks at the end of the command."""
        while self.slow:
            self.go_on()
        link, (said, wanted) = self.opened(), self.sayings.valid(self.valid)
        self.sorts["valid"] += 1
        say(link, said)
        self.hear(link, said, wanted)
        self.given, wanted = self.serve.ended(), (0, b"listening %d\nserved %d\n" % (self.serve.port, self.count), b"")
        if self.given != wanted:
            self.faults.append(f"{self.name} ended with {self.given}, and not with {wanted}")

    def has_ended(self):
        """Says whether the command has ended before its last connection."""
        return self.given is None and self.serve.process.poll() is not None

    def measure(self):
        self.peaks.append(memory_of(self.serve.process, "VmHWM"))

    def has_grown(self):
        return len(self.peaks) == TENTHS and self.peaks[-1] - self.peaks[0] > MOST_GROWTH

    def __str__(self):
        peaks = " ".join(f"{it:,}" for it in self.peaks)
        return f"{self.name}: {self.begun:,} connections; the most memory up to each tenth of them, KiB: {peaks}"


def played(targets, count):
    """Plays all callers, as long as there are not too many faults."""
    tenths = [count * at // TENTHS for at in range(1, TENTHS + 1)]
    while any(it.is_going() for it in targets) and sum(len(it.faults) for it in targets) < MOST_TOLD:
        for it in targets:
            it.turn()
        # The last connection of each is behind all.
        while tenths and sum(it.begun + 1 for it in targets) >= tenths[0]:
            del tenths[0]
            for it in targets:
                it.measure()
    for it in targets:
        it.finish()


def tried(program, folder, seed, count, changed):
    """Plays so many connections in all, says what came of it, and returns how many passed, and the faults."""
    sayings = Sayings(random.Random(f"connections {seed}"))
    changed = {name: it + KEEPS_NOTHING if name == "ASAN_OPTIONS" else it for name, it in changed.items()}
    with contextlib.ExitStack() as stack:

        def begun(*words):
            return stack.enter_context(Serve(program, words, folder, changed, MOST_SECONDS))

        serving = "serve", "--workers", str(WORKERS)
        place, there = (FILE, HERE, "0", f"store={OBJECT}={INTERFACE}"), "any:tcp -h {} -p {}"
        behind, of_gate = begun(*serving, *place), count // 2
        serve = begun(*serving, "--connections", str(count - of_gate), *place)
        gate = begun("gate", "--connections", str(of_gate), FILE, INTERFACE, HERE, "0", there.format(HERE, behind.port))
        targets = Target("serve", serve, WORKERS, count - of_gate, sayings), Target("gate", gate, 1, of_gate, sayings)
        faults = []
        try:
            played(targets, count)
        except Exception:
            faults += [f"{it.name} ended with {it.serve.ended()}" for it in targets if it.has_ended()]
            faults.append(traceback.format_exc())
    sorts = sum((it.sorts for it in targets), collections.Counter())
    print(*targets, "; ".join(f"{sort}: {sorts[sort]:,}" for sort in sorted(sorts)), sep="\n")
    faults += [fault for it in targets for fault in it.faults]
    faults += [f"{it.name} takes more and more memory" for it in targets if it.has_grown() and not has_sanitizer(program)]
    return max(0, sum(it.begun for it in targets) - len(faults)), faults
