"""The other end of a case's connections over 127.0.0.1: it gives and takes the bytes that the case says, step by step.

A peer that listens has ports that the system chooses; the Nth connection does what the Nth link says, and comes at its port. One that
connects goes to the port that the program tells, once for each link. About a program that is between it does both: it listens for the
links, and connects once for each caller.
"""
import re
import socket
import threading
import time

from links import HERE, received, reset

SECONDS = 10
VALIDATE, CLOSE = (b"IceP\1\0\1\0" + bytes((kind, 0)) + (14).to_bytes(4, "little") for kind in (3, 4))
KNOWN = {"validate": VALIDATE, "close": CLOSE}
# A line that begins a link, or ends the listening at a port: at which of the ports, the first one where none is told.
LINK = re.compile(r"(?:(?P<beside>beside)|(?P<refused>refused)?(?:(?:^| )at (?P<door>[2-9]))?)")
# The lines of a link, and which of them have a value: bytes, a number, or none.
OF_BYTES, OF_NUMBERS, ALONE = ("gives", "gives-apart", "takes"), ("takes-any", "waits"), ("closes", "dies", "ends")
STEPS = (*OF_BYTES, *OF_NUMBERS, *ALONE)
BEGINS = ("link", "caller")
LINES = (*BEGINS, *STEPS)
ENDS = ("closes", "dies", "ends")


class BadPeer(Exception):
    pass


def step_of(key, value, bytes_of):
    """Returns one step of a link, by its line; `bytes_of` reads the notation of bytes, with a function that tells a port by its number."""
    if key in OF_BYTES:
        bytes_of(value, lambda door: 0) if value not in KNOWN else None  # what is no notation is told at once
        return key, lambda port_of: KNOWN[value] if value in KNOWN else bytes_of(value, port_of)
    if key in OF_NUMBERS and value.isdecimal():
        return key, int(value)
    if key in ALONE and not value:
        return key, None
    raise BadPeer(f"no such line: {key} {value}")


class Link:
    """A connection: at which port, its steps, and the ports at which nobody listens any more once it has begun."""

    def __init__(self, beside=False, door=1):
        self.beside, self.door, self.steps, self.refused = beside, door, [], set()


def sides_of(lines):
    """Returns the lines of the links, and those of the callers as lines of links."""
    sides, side = ([], []), None
    for key, value in lines:
        if key in BEGINS:
            side = sides[key == "caller"]
        if side is None:
            raise BadPeer(f"{key} behind no link")
        side.append(("link", value) if key in BEGINS else (key, value))
    return sides


def links_of(lines):
    """Returns the links of a case by their lines, behind one that only says at which ports nobody listens from the beginning."""
    links, refused, is_open = [Link()], set(), False
    for key, value in lines:
        if key == "caller":
            raise BadPeer("a caller, but the program is not between")
        if key != "link":
            if not is_open:
                raise BadPeer(f"{key} behind no link")
            links[-1].steps.append((key, value))
            continue
        found = LINK.fullmatch(value)
        if not found:
            raise BadPeer(f"no such link: {value}")
        door = int(found["door"] or 1)
        if door in refused:
            raise BadPeer("a link behind one that is refused")
        is_open = not found["refused"]
        if is_open:
            links.append(Link(bool(found["beside"]), door))
        else:
            refused.add(door)
            links[-1].refused.add(door)
    for link in links[1:]:
        if not link.steps or link.steps[-1][0] not in ENDS:
            link.steps.append(("ends", None))
    return links


def shown(data):
    return f"{len(data)} bytes {data[:40].hex(' ').upper()}{' ..' if len(data) > 40 else ''}" if data else "nothing"


class Peer:
    """One peer for one run. `faults` tells what came otherwise than it was wanted."""

    own = None  # the program's port, where that is another one

    def __init__(self, lines):
        self.first, *self.links = links_of(lines)
        self.faults, self.threads, self.port = [], [], None

    @staticmethod
    def check(lines):
        """Raises `BadPeer` where the lines are no links."""
        links_of(lines)

    def port_of(self, door):
        """Returns the port with this number."""
        if door != 1 or self.port is None:
            raise BadPeer(f"no port {door}")
        return self.port

    def do(self, number, stream):
        """Makes the steps of a link over its connection."""
        stream.settimeout(SECONDS)
        try:
            for key, value in self.links[number].steps:
                fault = self.step(stream, key, value(self.port_of) if key in OF_BYTES else value)
                if fault:
                    self.faults.append(f"link {number + 1}, {key}: {fault}")
                    break
        except TimeoutError:
            self.faults.append(f"link {number + 1}, {key}: nothing for {SECONDS} seconds")
        except OSError as error:
            self.faults.append(f"link {number + 1}, {key}: {error.strerror}")
        except BadPeer as fault:
            self.faults.append(f"link {number + 1}, {key}: {fault}")
        finally:
            stream.close()

    def step(self, stream, key, value):
        """Makes one step, and returns what is wrong."""
        if key == "gives":
            stream.sendall(value)
        elif key == "gives-apart":
            for at in range(len(value)):
                stream.sendall(value[at : at + 1])
                time.sleep(0.002)
        elif key == "takes":
            data = received(stream, len(value))
            return None if data == value else f"wanted {shown(value)}, came {shown(data)}"
        elif key == "takes-any":
            data = received(stream, value)
            return None if len(data) == value else f"wanted {value} bytes, came {len(data)}"
        elif key == "waits":
            time.sleep(value / 1000)
        elif key == "dies":
            reset(stream)
        else:
            if key == "closes":
                stream.shutdown(socket.SHUT_WR)
            try:
                data = received(stream, 1 << 16)
            except ConnectionResetError:
                data = b""
            return f"wanted no more bytes, came {shown(data)}" if data else None
        return None

    def begin(self, target, *args):
        thread = threading.Thread(target=target, args=args, daemon=True)
        self.threads.append(thread)
        thread.start()
        return thread

    def finish(self):
        """Waits until all links are over, and returns the faults."""
        for thread in self.threads:
            thread.join(2 * SECONDS)
        return self.faults


class Listening(Peer):
    def __init__(self, lines):
        super().__init__(lines)
        self.doors = {it: socket.create_server((HERE, 0)) for it in {1, *(each.door for each in self.links)}}
        self.ports = {door: it.getsockname()[1] for door, it in self.doors.items()}
        self.port, self.lock, self.taken, self.over = self.ports[1], threading.Lock(), 0, False
        self.refuse(self.first.refused if self.links else {1})
        for door, listener in list(self.doors.items()):
            self.begin(self.accept, door, listener)

    def port_of(self, door):
        """Returns the port with this number: one at which nobody listens, where no link is at it."""
        if door not in self.ports:
            with socket.create_server((HERE, 0)) as free:
                self.ports[door] = free.getsockname()[1]
        return self.ports[door]

    def refuse(self, doors):
        """Nobody listens any more at these ports, from now on: a thread that still waits there would keep one that is only closed."""
        for door in doors & self.doors.keys():
            with self.doors.pop(door) as listener:
                listener.shutdown(socket.SHUT_RDWR)

    def accept(self, door, listener):
        """Takes connections at a port, up to the end of the run."""
        is_last = False
        while not is_last and door in self.doors:
            is_last = self.over
            try:
                listener.settimeout(0.05)
                stream, _ = listener.accept()
            except OSError:
                continue  # none has come, or the port was closed
            with self.lock:
                self.take(door, stream)
        listener.close()

    def take(self, door, stream):
        """Gives a connection its link, which has to be at this port. One too many is closed."""
        self.taken += 1
        if self.taken > len(self.links):
            stream.close()
            return
        link = self.links[self.taken - 1]
        if link.door != door:
            self.faults.append(f"link {self.taken}: wanted at port {link.door}, came at port {door}")
            stream.close()
            return
        self.refuse(link.refused)
        self.begin(self.do, self.taken - 1, stream)

    def finish(self):
        self.over = True
        super().finish()
        if self.taken != len(self.links):
            self.faults.append(f"wanted {len(self.links)} connections, came {self.taken}")
        return self.faults


class Connecting(Peer):
    def start(self, first_line):
        """Begins to connect once the first line of the program's output is there, which `first_line` waits for."""
        self.begin(self.connect, first_line)

    def connect(self, first_line):
        found = re.fullmatch(rb"listening ([0-9]+)\n", first_line(SECONDS))
        if not found:
            self.faults.append("the program told no port")
            return
        self.port = int(found[1])
        running = []
        for number, link in enumerate(self.links):
            if not link.beside:
                for thread in running:
                    thread.join(2 * SECONDS)
                running = []
            try:
                stream = socket.create_connection((HERE, self.port), SECONDS)
            except OSError as error:
                self.faults.append(f"link {number + 1}: no connection: {error.strerror}")
                return
            running.append(self.begin(self.do, number, stream))


class Between:
    """The peers at both sides of a program: servers that listen for its links, and callers that connect to it."""

    def __init__(self, lines):
        links, callers = sides_of(lines)
        self.servers, self.callers = Listening(links), Connecting(callers)
        self.port = self.servers.port

    @staticmethod
    def check(lines):
        for it in sides_of(lines):
            links_of(it)

    @property
    def own(self):
        """The port that the program has told."""
        return self.callers.port

    def port_of(self, door):
        return self.servers.port_of(door)

    def start(self, first_line):
        self.callers.start(first_line)

    def finish(self):
        return [*(f"caller: {it}" for it in self.callers.finish()), *self.servers.finish()]


PEERS = {"listens": Listening, "connects": Connecting, "between": Between}
