"""Plays a server to `ice call`, and the same to tests/independent/calling.py: what a connection gives, takes and how it ends, as a
script has it. Where the system decides what a client sees (a reset that overtakes the request or what was given), each way that may be
is played.
"""
import collections
import contextlib
import errno
import re
import select
import socket
import threading
import time
import traceback

import calling
import messages
from links import HERE, SECONDS, end_side, give, reset, take
from program import answer_of
from server_scripts import Maker

MOST_WAYS = 64
# A message that is not longer goes out by one write and comes whole: the least that Linux has room for.
MOST_AT_ONCE = 4096
PASSED_OVER = "passed over"
# What a trial is counted as: the first word of why a call ended, else its status.
REASON = re.compile(rb"ice: (?:call ended: )?([a-z]+)")
# No system gives a client one of these ports by itself.
FIRST_PORT, MOST_PORTS = 20_000, 4


class Abroad(Exception):
    """The second answer would connect to where nobody of the trial is."""


# The server


def taken_request(link, part):
    """Returns a message of a client, or a part of it that is not all."""
    header = take(link, messages.HEADER)
    size = messages.size_of(header) if len(header) == messages.HEADER else 0
    return header + take(link, max(0, (size if part == 1 else int(size * part)) - len(header)))


class Server:
    """The listeners of a trial, each with its scripts: the last one is that of all later connections too."""

    def __init__(self, listeners, scripts):
        self.listeners, self.scripts = {it: listeners[it] for it in scripts}, scripts
        self.counts, self.heard, self.faults, self.is_over = collections.Counter(), [], [], threading.Event()
        for it in self.listeners.values():
            it.listen()
        self.thread = threading.Thread(target=self.serve, daemon=True)
        self.thread.start()

    def serve(self):
        try:
            while True:
                ready = select.select(list(self.listeners.values()), [], [], 0.02)[0]
                if ready:
                    self.accept(ready[0])
                elif self.is_over.is_set():
                    return
        except Exception:
            self.faults.append(traceback.format_exc())

    def accept(self, listener):
        port = listener.getsockname()[1]
        scripts = self.scripts[port]
        script = scripts[min(self.counts[port], len(scripts) - 1)]
        self.counts[port] += 1
        if script.ends == "unaccepted":
            time.sleep(0.01)
            del self.listeners[port]
            listener.close()
            return
        link, _ = listener.accept()
        with link:
            link.settimeout(SECONDS)
            self.heard.append((port, *self.played(link, script), script))

    def played(self, link, script):
        """Returns what was heard, and whether the other end was waited for."""
        give(link, script.first)
        data = taken_request(link, script.part) if script.waits else b""
        give(link, script.second)
        if script.ends == "ends":
            end_side(link)
            return data + take(link), True
        reset(link) if script.ends == "dies" else link.close()
        return data, False

    def finish(self):
        self.is_over.set()
        self.thread.join(2 * SECONDS)


# The same for the second answer


class Choices:
    """One way through what the system decides, and the ways that branch off it."""

    def __init__(self, plan):
        self.plan, self.made = plan, []

    def choose(self):
        self.made.append(self.plan[len(self.made)] if len(self.made) < len(self.plan) else 0)
        return self.made[-1]

    def others(self):
        return [[*self.made[:at], 1] for at in range(len(self.plan), len(self.made))]


def is_long(message):
    """Says whether a message, or one that begins so, need not come whole."""
    return len(message) >= messages.HEADER and messages.size_of(message[: messages.HEADER]) > MOST_AT_ONCE


def takes_all(script):
    """Says whether a server takes all of the request before it goes on."""
    return script.waits and script.part == 1


class Played:
    """A client's end of a connection.

    The system turns the end of a server into a reset where the server resets, and where it closes and some of the request is unread, or
    comes later. A server that waits for the request, or a part of it, does so behind that part; one that does not may reset at any time,
    and has a close turned into a reset only by the request. What was given and has not gone out by then is thrown away: the client gets a
    beginning of it, and a failed read. Where all of it has gone out, the client may see the close before the reset, if the request, or the
    rest of a long one, comes behind the close. A long request may meet the reset in a write, and then the server has not all of it. None
    of this may come where a server ends its side alone, or has read all before it closes."""

    def __init__(self, script, choose):
        self.script, self.choose, self.handed = script, choose, b""
        self.left = script.before + (b"" if script.waits else script.after)

    def __enter__(self):
        return self

    def __exit__(self, *_):
        pass

    def may_reset(self):
        """Says whether the connection may be reset by now."""
        script = self.script
        if script.ends == "closes":
            return bool(self.handed) and not takes_all(script)
        return script.ends == "unaccepted" or script.ends == "dies" and (bool(self.handed) or not script.waits)

    def is_reset(self):
        """Says whether what the client sees behind all that was given is a reset."""
        is_chosen = self.script.ends == "closes" and (not self.script.waits or is_long(self.handed))
        return self.may_reset() and (not is_chosen or bool(self.choose()))

    def recv(self, count):
        # A reset behind the header of a message comes to the same as one before it.
        if self.left and not (count == messages.HEADER and self.may_reset() and self.choose()):
            piece, self.left = self.left[:count], self.left[count:]
            return piece
        if self.left or self.is_reset():
            raise ConnectionResetError(errno.ECONNRESET, "reset")
        return b""

    def sendall(self, message):
        if not self.script.waits and self.script.ends == "dies" and self.choose():
            raise BrokenPipeError(errno.EPIPE, "broken pipe")
        self.handed = message
        if is_long(message) and self.may_reset() and self.choose():
            self.handed = message[:-1]
            raise BrokenPipeError(errno.EPIPE, "broken pipe")
        self.left += self.script.after if self.script.waits else b""

    def may_be_cut(self):
        """Says whether the server may get a beginning of the request alone: a client that closes and has not read all that it was given
        resets the connection too, and then what has not gone out of a long request is thrown away."""
        return bool(self.left) and is_long(self.handed) and not takes_all(self.script)


class Network:
    """Stands in for the module `socket` in the second answer."""

    def __init__(self, ports, scripts, choose):
        self.ports, self.scripts, self.choose = ports, scripts, choose
        self.counts, self.log, self.gone = collections.Counter(), [], set()

    def create_connection(self, address, _):
        host, port = address
        if host != HERE or port not in self.ports:
            raise Abroad(f"{host} {port}")
        if port not in self.scripts or port in self.gone:
            raise ConnectionRefusedError(errno.ECONNREFUSED, "refused")
        scripts = self.scripts[port]
        script = scripts[min(self.counts[port], len(scripts) - 1)]
        self.counts[port] += 1
        played = Played(script, self.choose)
        if script.ends == "unaccepted":
            self.gone.add(port)
            played.left = b""
        else:
            self.log.append((port, played))
        if script.ends == "unaccepted" or script.ends == "dies" and not script.waits:
            if self.choose():
                raise ConnectionRefusedError(errno.ECONNREFUSED, "refused")
        return played

    def handed(self):
        """Returns of each connection the port, what was handed, and whether the server may have got a beginning of that alone."""
        return [(port, it.handed, it.may_be_cut()) for port, it in self.log]


def ended(trial, choose):
    """Returns one answer that may be, and what each connection was handed."""
    lines, options = [], {"--retries": trial.retries, "--times": trial.times, "--compact": trial.is_compact, "--locator": trial.locator}
    calling.socket = network = Network(trial.ports, trial.scripts, choose)
    text, ends = trial.text, (0, b"")
    try:
        calling.answer(text.shelf, options, text.file, trial.interface, trial.proxy, trial.name, lambda: trial.data, lines.append)
    except calling.Ends as why:
        ends = why.args[0], f"ice: {why.args[1]}\n".encode()
    return (ends[0], b"".join(lines), ends[1]), network.handed()


def all_ends(trial):
    """Returns all answers that may be, none where there are too many."""
    plans, found = [[]], []
    while plans:
        choices = Choices(plans.pop())
        found.append(ended(trial, choices.choose))
        plans += choices.others()
        if len(found) > MOST_WAYS:
            return []
    return found


def bound(number, count):
    """Returns ports of a trial with their sockets, which do not listen. No trial has those of the next thousand."""
    found = {}
    for port in range(FIRST_PORT + number % 1000 * MOST_PORTS, FIRST_PORT + number % 1000 * MOST_PORTS + count):
        found[port] = socket.socket()
        found[port].setsockopt(socket.SOL_SOCKET, socket.SO_REUSEADDR, 1)
        found[port].bind((HERE, port))
    return found


# What came


def fits(log, heard):
    """Says whether the connections of one answer are those that were heard."""
    if [it[0] for it in log] != [it[0] for it in heard]:
        return False
    pairs = [(handed, data, is_all and not is_cut) for (_, handed, is_cut), (_, data, is_all, _) in zip(log, heard)]
    return all(data == handed if is_all else handed.startswith(data) for handed, data, is_all in pairs)


def is_whole(data):
    return len(data) >= messages.HEADER and len(data) == messages.size_of(data)


def is_torn(data, is_all, script):
    """Says whether a server that waited for the other end got something else than a message, where it has to get a whole one or nothing."""
    return is_all and bool(data) and not is_whole(data) and (takes_all(script) or not is_long(data))


def has_answer(script):
    """Says whether a close message or a reply stands in what a connection was given, before anything that is wrong."""
    lines, _ = messages.told(script.before + script.after)
    return any(it.startswith((b"reply", b"close")) for it in lines.splitlines())


def broken_laws(trial, heard):
    """Yields which laws are broken, by what was heard alone, where no locator is asked."""
    units = 1 if trial.mode == "-O" else trial.times
    if len(heard) > units * (trial.retries + 1):
        yield "  more attempts than retries allow"
    if any(is_torn(*it) for _, *it in heard):
        yield "  a message that is not whole"
    if trial.operation.is_idempotent:
        return
    whole = [at for at, (_, data, _, _) in enumerate(heard) if is_whole(data)]
    if trial.mode and len(whole) > units:
        yield "  sent again, though it was sent whole"
    for at in whole:
        if not trial.mode and at + 1 < len(heard) and not has_answer(heard[at][-1]):
            yield "  sent again, though it was lost"


def shown(trial, ends, given, server):
    """Returns the lines that tell a difference: what was said on each connection, behind it what was heard, and what was wanted."""
    lines = [f"  words {trial.words()}", f"  input {trial.data.decode()}", f"  ports {trial.ports}, open {list(trial.scripts)}"]
    for port, data, is_all, script in server.heard:
        lines += [f"  at {port} gave {script}", f"    heard {data.hex()}{'' if is_all else ' ..'}"]
    wanted = [f"    {answer} {[(port, handed.hex()) for port, handed, _ in log]}" for answer, log in ends]
    return "\n".join([*lines, *server.faults, "  wanted, one of", *wanted, "  came", f"    {given}"])


def tried(program, folder, number, chance, changed):
    """Returns of which sort a trial is, and the difference or None."""
    with contextlib.ExitStack() as stack:
        try:
            listeners = {port: stack.enter_context(it) for port, it in bound(number, chance.randint(2, MOST_PORTS)).items()}
            trial = Maker(chance, list(listeners)).trial()
            ends = all_ends(trial)
            server = Server(listeners, trial.scripts) if ends else None
        except (Abroad, OSError):  # the second: somebody else has a port of the trial
            server = None
        if server is None:
            return PASSED_OVER, None
        given = answer_of([program, *trial.words()], trial.data, folder, changed)
        server.finish()
    laws = [] if trial.locator else list(broken_laws(trial, server.heard))
    is_same = any(answer == given and fits(log, server.heard) for answer, log in ends)
    reason = REASON.match(given[2])
    sort = f"call: {reason[1].decode() if reason else given[0]}"
    if is_same and not laws and not server.faults:
        return sort, None
    return sort, "\n".join([*laws, shown(trial, ends, given, server)])
