#!/usr/bin/env python3
"""Audits captures of one connection, and searches all runs of the protocol that show small ones.

usage: tests/independent/audit.py [--messages N]     what small captures are answered, beside all runs that show them
       tests/independent/audit.py CLIENT SERVER      what two files come to, the bytes that each end sent

It is written from the rules of the protocol and of calls alone, and not from the sources of this repository. A capture is good
where each end sent whole messages, and perhaps the beginning of one more; the client requests, batches, validate messages and at
most one close message, the last; the server a validate message first, and then replies, validate messages and at most one close
message, the last; and where the replies are, in order, to the first of the requests that ask for one. Of a good capture it tells
how often each call was dispatched: once where its reply is no refusal; never where it is one, or where the reply lacks and the
server has closed; else once or never.

The search goes through every capture of up to N messages of the client and N + 1 of the server, where N is 2 if none is said. Of
each it lists the worlds that lists of events reach: the client hands messages over, they arrive, and the server validates, dispatches or refuses calls,
answers, closes and leaves, where objects may give any reply. Among the worlds that show the capture it counts how often each call
was dispatched. What the lines tell has to be what the worlds show. The last line is `N passed, M failed`, and the status is 0
where M is 0.
"""
import itertools
import os
import sys
from concurrent.futures import ProcessPoolExecutor

sys.path.append(os.path.dirname(os.path.realpath(__file__)))
from messages import BATCH, CLOSE, HEADER, REPLY, REQUEST, VALIDATE, header_fault, size_of, taken_line
from values import Cursor, Fault

MOST_BYTES = 16_777_216
ONCE, NEVER, EITHER = "1", "0", "0 or 1"
REFUSALS = (2, 3)


# ---- bytes


def stream(data):
    """Yields each whole message of a stream, as its place and what it says, and then the first fault of what is left, if it has
    one. A request is (REQUEST, id), a batch (BATCH, how many calls) and a reply (REPLY, id, status)."""
    at = 0
    while at < len(data):
        head = data[at : at + HEADER]
        fault = header_fault(head)
        if fault is not None:
            yield at + fault.place, fault.kind
            return
        if len(head) < HEADER or len(data) - at < size_of(head):
            return
        size = size_of(head)
        try:
            taken_line(Cursor(data, at + HEADER, at + size), head[8], size)
        except Fault as fault:
            yield fault.place, fault.kind
            return
        yield at, said(head[8], data[at + HEADER : at + size])
        at += size


def said(kind, body):
    number = int.from_bytes(body[:4], "little", signed=True)
    if kind in (REQUEST, BATCH):
        return kind, number
    return (kind, number, body[4]) if kind == REPLY else (kind,)


# ---- the rules


def client_fault(messages):
    """Returns the place and the cause of the first message that a client does not send there, or None."""
    closed = False
    for place, message in messages:
        if isinstance(message, str):
            return place, message
        if message[0] == REPLY:
            return place, "Unexpected"
        if closed:
            return place, "AfterClose"
        closed = message[0] == CLOSE
    return None


def server_fault(messages, due):
    """Returns the place and the cause of the first message that a server does not send there, or None. Replies to requests
    with the ids `due` are due."""
    closed, first, due = False, True, list(due)
    for place, message in messages:
        if isinstance(message, str):
            return place, message
        if message[0] in (REQUEST, BATCH):
            return place, "Unexpected"
        if closed:
            return place, "AfterClose"
        if first and message[0] != VALIDATE:
            return place, "NotValidated"
        if message[0] == REPLY and (not due or due.pop(0) != message[1]):
            return place + HEADER, "UnknownId"
        closed, first = message[0] == CLOSE, False
    return None


def lines_of(asked, sent):
    """Yields what is told of each request and each batch that is not empty: its id or None, how many calls it is, and how
    often it was dispatched."""
    statuses = [message[2] for message in sent if message[0] == REPLY]
    closed = (CLOSE,) in sent
    for message in asked:
        if message[0] == REQUEST and message[1] == 0:
            yield 0, 1, EITHER
        elif message[0] == REQUEST:
            status = statuses.pop(0) if statuses else None
            open_ = NEVER if closed else EITHER
            yield message[1], 1, open_ if status is None else NEVER if status in REFUSALS else ONCE
        elif message[0] == BATCH and message[1] > 0:
            yield None, message[1], EITHER


def audited(client, server):
    """Returns the lines of what the client asked, or the side, the place and the cause of what is wrong."""
    for side, data in (("client", client), ("server", server)):
        if len(data) > MOST_BYTES:
            return None, (side, 0, "TooLong")
    asked = list(stream(client))
    fault = client_fault(asked)
    if fault:
        return None, ("client", *fault)
    asked = [message for _, message in asked]
    sent = list(stream(server))
    fault = server_fault(sent, [it[1] for it in asked if it[0] == REQUEST and it[1] != 0])
    if fault:
        return None, ("server", *fault)
    if client and not sent:
        return None, ("client", 0, "NotValidated")
    return list(lines_of(asked, [message for _, message in sent])), None


def answer(client, server):
    """Returns the answer to a capture: status and standard output."""
    lines, fault = audited(client, server)
    if fault:
        return 1, "no {} {}: {}\n".format(*fault).encode()
    told = [f"batch {calls} {seen}\n" if id_ is None else f"request {id_} {seen}\n" for id_, calls, seen in lines]
    return 0, "".join(told + ["yes\n"]).encode()


# ---- all runs
#
# A seat is a call: its id, whether it asks for a reply, and with which message of the client it arrives. A world is how many
# messages were handed over and have arrived, the turn of each seat that had one ("dispatched" or "refused", with the status of
# the reply), what the server sent, and whether it has left.

STATUSES = range(8)
FREE = (0, 2)


def seats_of(asked):
    seats, number = [], 0
    for message in asked:
        if message[0] == REQUEST:
            seats.append((message[1], message[1] != 0, number + 1))
            number += 1
        elif message[0] == BATCH and message[1] > 0:
            seats += [(0, False, number + 1)] * message[1]
            number += 1
    return tuple(seats), number


def shows(seats, answered, shown):
    """Whether the messages of the world, as far as they go, are those that are shown, as far as those go."""
    for has, message in zip(answered, shown):
        if has[0] != message[0]:
            return False
        if has[0] == REPLY and (seats[has[1]][0], has[2]) != message[1:]:
            return False
    return True


def is_settled(seats, turns, answered):
    """Whether each call that was dispatched and asks for a reply has it."""
    has = {it[1] for it in answered if it[0] == REPLY}
    return all(seat in has for seat, turn in enumerate(turns) if turn[0] == "dispatched" and seats[seat][1])


def following(seats, number, shown, world):
    """Yields each world that an event leads to."""
    handed, arrived, turns, answered, left = world
    if handed < number and (VALIDATE,) in answered:
        yield handed + 1, arrived, turns, answered, left
    if left:
        return
    yield handed, arrived, turns, answered, True
    if arrived < handed:
        yield handed, arrived + 1, turns, answered, left
    if not answered:
        yield handed, arrived, turns, ((VALIDATE,),), left
    settled, closed = is_settled(seats, turns, answered), (CLOSE,) in answered
    if settled and not closed:
        yield handed, arrived, turns, answered + ((CLOSE,),), left
    for seat, turn in enumerate(turns):
        if turn[0] == "dispatched" and seats[seat][1] and not any(it[:2] == (REPLY, seat) for it in answered):
            yield handed, arrived, turns, answered + ((REPLY, seat, turn[1]),), left
    seat = len(turns)
    if seat < len(seats) and seats[seat][2] <= arrived and settled and not closed:
        for status in STATUSES if len(answered) < len(shown) else FREE:
            if status in REFUSALS:
                refusal = ((REPLY, seat, status),) if seats[seat][1] else ()
                yield handed, arrived, turns + (("refused", status),), answered + refusal, left
            else:
                yield handed, arrived, turns + (("dispatched", status),), answered, left


def counted(asked, sent):
    """Returns, for each seat, how often it was dispatched in the worlds that show the messages: a set of numbers. None where no
    world shows them."""
    seats, number = seats_of(asked)
    shown = tuple(sent[:1]) + tuple(it for it in sent[1:] if it[0] != VALIDATE)
    start = (0, 0, (), (), False)
    seen, layer, found = {start}, [start], None
    while layer:
        world = layer.pop()
        handed, _, turns, answered, _ = world
        if handed == number and len(answered) >= len(shown):
            found = found or [set() for _ in seats]
            for seat, counts in enumerate(found):
                counts.add(int(seat < len(turns) and turns[seat][0] == "dispatched"))
        for after in following(seats, number, shown, world):
            if after not in seen and shows(seats, after[3], shown):
                seen.add(after)
                layer.append(after)
    return found, len(seen)


# ---- the search

CLIENTS = ((REQUEST, 1), (REQUEST, 2), (REQUEST, -1), (REQUEST, 0), (BATCH, 0), (BATCH, 1), (BATCH, 2), (VALIDATE,), (CLOSE,))
SERVERS = ((VALIDATE,), (REPLY, 1, 0), (REPLY, 1, 2), (REPLY, 2, 1), (REPLY, 2, 3), (REPLY, -1, 7), (REPLY, 0, 0), (CLOSE,))


def verdict_of(asked, sent):
    """Returns what messages come to, without their bytes: the lines, or the side and the cause."""
    asked, sent = list(enumerate(asked)), list(enumerate(sent))
    fault = client_fault(asked)
    if fault:
        return None, ("client", fault[1])
    messages = [message for _, message in asked]
    fault = server_fault(sent, [it[1] for it in messages if it[0] == REQUEST and it[1] != 0])
    if fault:
        return None, ("server", fault[1])
    if asked and not sent:
        return None, ("client", "NotValidated")
    return list(lines_of(messages, [message for _, message in sent])), None


def wrong(asked, sent):
    """Returns what is wrong with the verdict on these messages, or None, and how many worlds were seen."""
    lines, fault = verdict_of(asked, sent)
    if fault and fault[0] == "client":
        return None, 0
    found, worlds = counted(asked, sent)
    if fault:
        is_apart = fault[1] in ("UnknownId", "NotValidated") and seats_of(asked)[0]
        return (f"{fault[1]}, and a run shows it" if found is not None and is_apart else None), worlds
    if found is None:
        return "yes, and no run shows it", worlds
    expected = []
    for id_, calls, seen in lines:
        is_twoway = id_ is not None and id_ != 0
        expected += [({ONCE: {1}, NEVER: {0}, EITHER: {0, 1}}[seen], is_twoway)] * calls
    for seat, ((counts, is_twoway), shown) in enumerate(zip(expected, found, strict=True)):
        if shown != counts if is_twoway else not shown <= counts:
            return f"seat {seat}: told {sorted(counts)}, shown {sorted(shown)}", worlds
    return None, worlds


def tried(asked, most):
    """Tries one list of a client's messages with every list of a server's."""
    captures = yeses = worlds = 0
    faults = []
    for length in range(most + 2):
        for sent in itertools.product(SERVERS, repeat=length):
            fault, seen = wrong(asked, sent)
            captures, worlds = captures + 1, worlds + seen
            yeses += verdict_of(asked, sent)[0] is not None
            if fault:
                faults.append(f"FAILED audit: client {list(asked)}, server {list(sent)}: {fault}")
    return captures, yeses, worlds, faults


def searched(most):
    clients = [asked for length in range(most + 1) for asked in itertools.product(CLIENTS, repeat=length)]
    captures = yeses = worlds = 0
    faults = []
    with ProcessPoolExecutor(os.cpu_count()) as pool:
        for found in pool.map(tried, clients, itertools.repeat(most), chunksize=8):
            captures, yeses, worlds = captures + found[0], yeses + found[1], worlds + found[2]
            faults += found[3]
    print(*faults[:20], sep="\n", end="\n" if faults else "")
    print(f"audit: {captures:,} captures of up to {most} messages of the client and {most + 1} of the server, {yeses:,} of them good; {worlds:,} worlds")
    print(f"{captures - len(faults)} passed, {len(faults)} failed")
    return 1 if faults or not yeses else 0


def main(words):
    match words:
        case []:
            return searched(2)
        case ["--messages", number] if number.isdecimal():
            return searched(int(number))
        case [client, server]:
            with open(client, "rb") as one, open(server, "rb") as other:
                status, text = answer(one.read(), other.read())
            sys.stdout.buffer.write(text)
            return status
        case _:
            sys.exit(__doc__.split("\n\n")[1])


if __name__ == "__main__":
    sys.exit(main(sys.argv[1:]))
