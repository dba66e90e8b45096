#!/usr/bin/env python3
"""Forwards calls as `ice gate` has to: a second answer, in Python, written from the rules alone.

usage: tests/independent/gating.py gate [--connections C] [--retries R] FILE INTERFACE HOST PORT PROXY

A call of a caller is known by its operation, one that every object has or one of INTERFACE; its arguments are read under FILE and
written anew, canonical and sliced. A request goes out with the id 1, over connections of its own as `calling.py` makes them, and its
answer comes back under the caller's id: results and user exceptions are written anew, all else says the same. What cannot go out, and what
fails, is answered by a text, where the caller waits for an answer. One connection is served after the other.
"""
import dataclasses
import itertools
import os
import re
import socket
import sys

sys.dont_write_bytecode = True
sys.path.append(os.path.dirname(os.path.realpath(__file__)))
import calling
import exceptions
import graphs
import loading
import messages
import names
import proxies
import serving
import values
from calling import CLOSE, MOST_OF_A_BODY, VALIDATE, Ends, message_of
from messages import HEADER
from relay import classes_of

MOST_OF_A_WORD, MOST_CONNECTIONS, MOST_RETRIES, MOST_PORT, MOST_TAKEN = 8192, 1_000_000, 10, 65_535, 1_000_000
REASONS = {"network failed": "failed", "call ended: ended": "ended", "call ended: closed": "closed"}


class Refused(Exception):
    """The text of an answer."""


# The words


def usage():
    return Ends(2, "usage")


def number(word, least, most):
    if not re.fullmatch("0|[1-9][0-9]*", word) or not least <= int(word) <= most:
        raise usage()
    return int(word)


def words_of(words):
    """Returns the options, and the five words behind them."""
    bounds, options = {"--connections": (1, MOST_CONNECTIONS), "--retries": (0, MOST_RETRIES)}, {}
    while words and words[0] in bounds and words[0] not in options and len(words) > 1:
        options[words[0]] = number(words[1], *bounds[words[0]])
        words = words[2:]
    if len(words) != 5 or words[0] in bounds or any(len(it.encode()) > MOST_OF_A_WORD for it in words):
        raise usage()
    return options.get("--connections", MOST_CONNECTIONS), options.get("--retries", 1), *words


# Calls


def spelled(call):
    """Returns the bytes of a call, its context by rising keys."""
    context = b"".join(map(values.spelled_string, itertools.chain.from_iterable(sorted(call.context))))
    return call.names() + bytes([call.mode]) + values.spelled_size(len(call.context)) + context + call.body


class Gateway:
    def __init__(self, schema, operations, proxy, retries):
        self.schema, self.operations, self.place, self.retries = schema, operations, calling.Place(proxy), retries
        self.own_schema, own = calling.operations_of({"own": calling.OWN}, "own")
        (self.own,) = own.values()

    def known(self, call):
        """Returns the schema and the row of an operation, None where there is none."""
        name = call.operation.decode()
        if name in self.own:
            return self.own_schema, self.own[name]
        return (self.schema, self.operations[name]) if name in self.operations else None

    def anew(self, schema, shape, body, what):
        try:
            graph = calling.held(schema, shape, body)
        except values.Fault as fault:
            raise Refused(f"bad {what} {fault.kind} at {fault.place}") from None
        return short(graphs.encode(graph, shape, calling.Sliced(graph)))

    def raised_anew(self, body):
        try:
            raised = exceptions.decode(body, self.schema.rules.exceptions, classes_of(self.schema))
        except values.Fault as fault:
            raise Refused(f"bad results {fault.kind} at {fault.place}") from None
        return short(exceptions.encode(raised))

    def admitted(self, call):
        """Returns a call with its arguments written anew. Raises `Refused`."""
        schema, operation = self.known(call)
        call = dataclasses.replace(call, body=self.anew(schema, operation.arguments, call.body, "arguments"))
        if len(request(1, call)) > values.MOST_BYTES:
            raise Refused("too long")
        return call

    def made(self, message, is_asked, is_idempotent):
        return calling.made(self.place, message, is_asked, is_idempotent, self.retries)

    def answer(self, call):
        """Returns the status of the answer, and what follows it."""
        if self.known(call) is None:
            return 4, call.names()
        try:
            call = self.admitted(call)
            if not calling.usable(self.place.proxy.endpoints):
                raise Refused("no upstream")
            return self.given_back(*self.known(call), self.made(request(1, call), True, call.mode > 0))
        except Refused as why:
            return 5, values.spelled_string(str(why).encode())
        except Ends as why:
            return 5, values.spelled_string(b"upstream " + REASONS.get(why.args[1], "broke").encode())

    def given_back(self, schema, operation, reply):
        status, rest = reply[0], reply[1:]
        if status == 0:
            return 0, self.anew(schema, operation.results, rest, "results")
        if status == 1:
            return 1, self.raised_anew(rest)
        return status, missing_anew(rest) if status <= 4 else rest

    def going(self, calls):
        """Returns those of some calls that can go out, as they do. Nobody waits for their answers."""
        found = []
        for it in calls:
            try:
                found += [self.admitted(it)] if self.known(it) else []
            except Refused:
                pass
        return found

    def send(self, message, is_idempotent):
        try:
            self.made(message, False, is_idempotent)
        except Ends:
            pass

    def handled(self, message):
        """Handles a message of a caller, and returns the reply, if one is asked for."""
        came = serving.calls_in(message[8], values.Cursor(message, HEADER, len(message)))
        if message[8] == messages.BATCH:
            calls = self.going(it for _, it in came)
            batch = message_of(messages.BATCH, len(calls).to_bytes(4, "little") + b"".join(map(spelled, calls)))
            if calls and len(batch) <= values.MOST_BYTES:
                self.send(batch, all(it.mode > 0 for it in calls))
            return b""
        ((id_, call),) = came
        if id_ == 0:
            for it in self.going([call]):
                self.send(request(0, it), it.mode > 0)
            return b""
        status, rest = self.answer(call)
        return message_of(messages.REPLY, message[HEADER : HEADER + 4] + bytes([status]) + rest)


def missing_anew(rest):
    """Returns what is missing as it is written: a facet without letters is none."""
    cursor = values.Cursor(rest, 0, len(rest))
    name, category, facet, operation = cursor.string(), cursor.string(), cursor.facet(), cursor.string()
    spelled = b"\1" + values.spelled_string(facet) if facet else b"\0"
    return values.spelled_string(name) + values.spelled_string(category) + spelled + values.spelled_string(operation)


def request(id_, call):
    return message_of(messages.REQUEST, id_.to_bytes(4, "little") + spelled(call))


def short(body):
    if len(body) > MOST_OF_A_BODY:
        raise Refused("too long")
    return body


# Callers


def taken(link):
    """Returns the next message, None where the caller has ended or sent what is none."""
    held = b""
    while True:
        if messages.header_fault(held) is not None:
            return None
        size = messages.size_of(held) if len(held) >= HEADER else HEADER
        if len(held) == size:
            break
        piece = link.recv(size - len(held))
        if not piece:
            return None
        held += piece
    try:
        messages.taken_line(values.Cursor(held, HEADER, len(held)), held[8], len(held))
    except values.Fault:
        return None
    return held


def serve(gateway, link):
    with link:
        try:
            link.sendall(VALIDATE)
            for _ in range(MOST_TAKEN):
                message = taken(link)
                if message is None or message[8] in (messages.REPLY, messages.CLOSE):
                    return
                if message[8] != messages.VALIDATE:
                    link.sendall(gateway.handled(message))
            link.sendall(CLOSE)
        except OSError:
            pass


def say(line):
    try:
        sys.stdout.write(line)
        sys.stdout.flush()
    except OSError:
        os.dup2(os.open(os.devnull, os.O_WRONLY), 1)  # what is held is not written at the end
        raise Ends(6, "write failed") from None


def answer(words):
    connections, retries, file, interface, host, port, text = words_of(words)
    port = number(port, 0, MOST_PORT)
    proxy = place = None
    try:
        proxy = proxies.read(text.encode())
    except proxies.Refused as why:
        place = why.place
    if proxy and not proxy.endpoints:
        raise usage()
    shelf = {}
    if os.path.exists(file):
        with open(file, "rb") as source:
            shelf[file] = source.read()
    try:
        schema, found = calling.operations_of(shelf, file)
    except loading.Refused as why:
        raise Ends(3, f"{why.file}:{why.place}: {why.kind}") from None
    there = schema.named(interface)
    if not isinstance(there, names.Interface):
        raise Ends(2, f"no such name {interface}")
    if proxy is None:
        raise Ends(4, f"text refused at {place}")
    try:
        door = socket.create_server((host, port))
    except OSError:
        raise Ends(7, "network failed") from None
    gateway = Gateway(schema, found[there], proxy, retries)
    with door:
        say(f"listening {door.getsockname()[1]}\n")
        for _ in range(connections):
            serve(gateway, door.accept()[0])
    say(f"served {connections}\n")


def main():
    try:
        answer(sys.argv[2:])
    except Ends as ends:
        status, line = ends.args
        sys.stderr.write(f"ice: {line}\n")
        return status
    return 0


if __name__ == "__main__":
    sys.exit(main())
