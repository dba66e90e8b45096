#!/usr/bin/env python3
"""Searches what can become of calls: every list of events up to a length, in worlds of a few invocations and connections.

usage: tests/independent/calls.py [--brief] [--events N]    --brief: without the lists that break something
                                                            --events N: N more events in each search, which takes long

It is written from the rules of calls alone, as the tables below say them, and not from the sources of this repository. Of
each world that a list of events reaches it asks three things:

- each invocation that is not idempotent was dispatched at most once;
- an attempt that its client could once tell to be dead has no dispatch;
- each invocation that is finished with a success carries a reply that a dispatch of it recorded.

No list may break one of them. Then each guard of each event is left out in turn. Where the three things rest on it, the
shortest list that breaks one is printed; where they do not, none may be found. So it is known of each guard whether the
three things rest on it.

Then it goes through what both ends can say of a call: its client of each attempt, what was taken and read, and servers of
their sessions, what they were given, had turns for, and said. Where the ends fit together, the first and the last of the
three things hold of what they say. Each premise of that is left out in turn, and the shortest that breaks one is printed.
The last line is `N passed, M failed`, and the status is 0 where M is 0.
"""
import os
import sys
from collections import namedtuple
from itertools import product
from concurrent.futures import ProcessPoolExecutor

Invocation = namedtuple("Invocation", "idempotent twoway attempts result")
# A seat is (invocation, twoway, ends), a turn ("dispatched" or "refused", reply), a message of the server ("validate",),
# ("answer", seat, reply) or ("close",), and a reply (status, number).
Connection = namedtuple("Connection", "asked asked_bytes handed arrived turns answered read client_left server_left")
# An attempt is (connection, seat), or None where it did not connect. A dispatch is (connection, seat, reply).
World = namedtuple("World", "invocations connections dispatches dead")

FRESH = Connection((), 0, 0, 0, (), (), 0, False, False)
# The length of every message, in bytes.
SIZE = 1
SUCCESS, NO_OBJECT, NO_FACET = 0, 2, 3

# The guards of each event, by name: what has to hold, so that the event can come. The second column says whether one of
# the three things rests on the guard. Those that do not keep the ends to what Ice lets them do.
GUARDS = {
    "start: is new": True,
    "attempt: not finished": False,
    "attempt: different invocations": True,
    "attempt: one that asks for a reply goes alone": False,
    "attempt: the earlier ones are dead, or it is idempotent": True,
    "attempt: of an idempotent one its clients have left": False,
    "attempt: the client has not left the connection": False,
    "validate: nothing was sent yet": False,
    "validate: the server has not left": False,
    "hand: validate was read": False,
    "hand: the client has not left": True,
    "hand: no more than was asked": False,
    "arrive: no more than was handed": True,
    "arrive: the server has not left": False,
    "dispatch: the first seat that had no turn": True,
    "dispatch: its message arrived whole": True,
    "dispatch: earlier ones have their answers": False,
    "dispatch: no close": True,
    "dispatch: the server has not left": False,
    "dispatch: never replies as a refusal": True,
    "refuse: its message arrived whole": False,
    "refuse: earlier ones have their answers": False,
    "refuse: no close": False,
    "refuse: the server has not left": False,
    "refuse: always replies as a refusal": True,
    "answer: has none yet": False,
    "answer: the reply that was recorded": True,
    "answer: the server has not left": False,
    "close: what was dispatched has its answers": True,
    "close: no close": False,
    "close: the server has not left": False,
    "read: a further message was sent": False,
    "read: the client has not left": False,
    "leave: has not left": False,
    "finish: not finished": False,
    "finish: the answer was read": True,
    "finish: of the last attempt": False,
    "sent: asks for no reply": False,
    "sent: handed over whole": False,
}


def with_item(items, at, item):
    return items[:at] + (item,) + items[at + 1 :]


class Rules:
    """The events that can come in a world, with the guard `without` left out."""

    def __init__(self, kinds, connections, without=None, messages=2):
        self.kinds, self.count, self.without, self.messages = kinds, connections, without, messages
        self.groups = list(self.messages_of_calls())

    def holds(self, guard, fact):
        return fact or guard == self.without

    def opening(self):
        return World((None,) * len(self.kinds), (), (), frozenset())

    # What a client can tell

    def is_read(self, k, message):
        return message in k.answered[: k.read]

    def answer_read(self, k, seat):
        return next((it[2] for it in k.answered[: k.read] if it[0] == "answer" and it[1] == seat), None)

    def is_dead(self, w, place):
        if place is None:
            return True
        k = w.connections[place[0]]
        _, twoway, ends = k.asked[place[1]]
        answer = self.answer_read(k, place[1])
        return (
            (k.client_left and k.handed < ends)
            or (twoway and answer is None and self.is_read(k, ("close",)))
            or (answer is not None and answer[0] == NO_OBJECT)
        )

    def may_try(self, w, i):
        v = w.invocations[i]
        if v is None or not self.holds("attempt: not finished", v.result is None):
            return False
        dead = all(self.is_dead(w, it) for it in v.attempts)
        left = all(w.connections[it[0]].client_left for it in v.attempts if it)
        again = v.idempotent and self.holds("attempt: of an idempotent one its clients have left", left)
        return self.holds("attempt: the earlier ones are dead, or it is idempotent", dead or again)

    # What a server has done

    def is_settled(self, k):
        answered = {it[1] for it in k.answered if it[0] == "answer"}
        return all(seat in answered for seat, turn in enumerate(k.turns) if turn[0] == "dispatched" and k.asked[seat][1])

    # The events

    def events(self, w):
        """Yields each event that can come, as a text, with the world after it."""
        for i in range(len(self.kinds)):
            yield from self.starts(w, i)
            yield from self.finishes(w, i)
        for group in self.groups:
            if all(self.may_try(w, i) for i in group):
                yield from self.attempts(w, group)
        for c, k in enumerate(w.connections):
            yield from self.client_events(w, c, k)
            yield from self.server_events(w, c, k)

    def messages_of_calls(self):
        count = len(self.kinds)
        lists = [(i,) for i in range(count)] + [(i, j) for i in range(count) for j in range(count)]
        for group in lists:
            twoway = any(self.kinds[i][1] for i in group)
            if self.holds("attempt: different invocations", len(set(group)) == len(group)) and self.holds(
                "attempt: one that asks for a reply goes alone", len(group) == 1 or not twoway
            ):
                yield group

    def starts(self, w, i):
        if self.holds("start: is new", w.invocations[i] is None):
            idempotent, twoway = self.kinds[i]
            fresh = Invocation(idempotent, twoway, (), None)
            if w.invocations[i] != fresh:
                yield f"start {i}", w._replace(invocations=with_item(w.invocations, i, fresh))

    def attempts(self, w, group):
        names = " ".join(map(str, group))
        if sum(it is None for i in group for it in w.invocations[i].attempts) < 1:
            yield f"miss {names}", self.tried(w, group, [None] * len(group))
        for c in range(min(len(w.connections) + 1, self.count)):
            k = w.connections[c] if c < len(w.connections) else FRESH
            messages = len({it[2] for it in k.asked})
            if messages < self.messages and self.holds("attempt: the client has not left the connection", not k.client_left):
                ends = k.asked_bytes + SIZE
                seats = tuple((i, w.invocations[i].twoway, ends) for i in group)
                places = [(c, len(k.asked) + n) for n in range(len(group))]
                asked = k._replace(asked=k.asked + seats, asked_bytes=ends)
                connections = w.connections[:c] + (asked,) + w.connections[c + 1 :]
                yield f"ask {names} on {c}", self.tried(w._replace(connections=connections), group, places)

    def tried(self, w, group, places):
        invocations = w.invocations
        for i, place in zip(group, places):
            v = invocations[i]
            invocations = with_item(invocations, i, v._replace(attempts=v.attempts + (place,)))
        return w._replace(invocations=invocations)

    def finishes(self, w, i):
        v = w.invocations[i]
        if v is None or not self.holds("finish: not finished", v.result is None):
            return

        def finished(result):
            return w._replace(invocations=with_item(w.invocations, i, v._replace(result=result)))

        yield f"finish {i} failed", finished("failed")
        places = [it for it in v.attempts if it]
        last = v.attempts[-1] if v.attempts else None
        for place in places:
            if self.holds("finish: of the last attempt", place == last):
                k = w.connections[place[0]]
                reply = self.answer_read(k, place[1])
                if reply is None and self.without == "finish: the answer was read":
                    reply = (SUCCESS, None)
                if reply is not None:
                    yield f"finish {i} with {reply[0]}", finished(reply)
        if last:
            k = w.connections[last[0]]
            if self.holds("sent: asks for no reply", not v.twoway) and self.holds(
                "sent: handed over whole", k.handed >= k.asked[last[1]][2]
            ):
                yield f"finish {i} sent", finished("sent")

    def client_events(self, w, c, k):
        def on(**changes):
            return w._replace(connections=with_item(w.connections, c, k._replace(**changes)))

        here = not k.client_left
        validated = self.is_read(k, ("validate",))
        if self.holds("hand: the client has not left", here) and self.holds("hand: validate was read", validated):
            for n in range(1, self.messages * SIZE + 1):
                if self.holds("hand: no more than was asked", k.handed + n <= k.asked_bytes) and k.handed + n <= self.messages * SIZE:
                    yield f"hand {n} on {c}", on(handed=k.handed + n)
        if self.holds("read: the client has not left", here):
            if self.holds("read: a further message was sent", k.read < len(k.answered)) and k.read <= len(k.answered):
                yield f"read on {c}", on(read=k.read + 1)
        if self.holds("leave: has not left", here):
            yield f"client leaves {c}", on(client_left=True)

    def server_events(self, w, c, k):
        def on(**changes):
            return w._replace(connections=with_item(w.connections, c, k._replace(**changes)))

        def says(*messages):
            return k.answered + messages

        here = not k.server_left
        no_close = ("close",) not in k.answered
        if self.holds("validate: the server has not left", here) and self.holds("validate: nothing was sent yet", not k.answered):
            if ("validate",) not in k.answered:
                yield f"validate on {c}", on(answered=says(("validate",)))
        if self.holds("arrive: the server has not left", here):
            for n in range(1, self.messages * SIZE + 1):
                if self.holds("arrive: no more than was handed", k.arrived + n <= k.handed) and k.arrived + n <= self.messages * SIZE:
                    yield f"arrive {n} on {c}", on(arrived=k.arrived + n)
        yield from self.turns(w, c, k, here, no_close)
        for seat, (kind, reply) in enumerate(k.turns):
            if kind == "dispatched" and k.asked[seat][1] and self.holds("answer: the server has not left", here):
                sent = sum(it[:2] == ("answer", seat) for it in k.answered)
                if self.holds("answer: has none yet", sent == 0) and sent < 2:
                    yield f"answer {seat} on {c}", on(answered=says(("answer", seat, reply)))
                    if self.without == "answer: the reply that was recorded":
                        yield f"answer {seat} otherwise on {c}", on(answered=says(("answer", seat, (SUCCESS, None))))
        closes = sum(it == ("close",) for it in k.answered)
        if self.holds("close: what was dispatched has its answers", self.is_settled(k)) and closes < 2:
            if self.holds("close: no close", no_close) and self.holds("close: the server has not left", here):
                yield f"close on {c}", on(answered=says(("close",)))
        if self.holds("leave: has not left", here):
            yield f"server leaves {c}", on(server_left=True)

    def turns(self, w, c, k, here, no_close):
        def ready(event, seat):
            return (
                self.holds(f"{event}: its message arrived whole", k.asked[seat][2] <= k.arrived)
                and self.holds(f"{event}: earlier ones have their answers", self.is_settled(k))
                and self.holds(f"{event}: no close", no_close)
                and self.holds(f"{event}: the server has not left", here)
            )

        following = len(k.turns)
        for seat in range(len(k.asked)):
            if seat > following or not self.holds("dispatch: the first seat that had no turn", seat == following):
                continue
            if ready("dispatch", seat) and len(w.dispatches) < 4:
                number = len(w.dispatches)
                statuses = (SUCCESS, NO_OBJECT) if self.without == "dispatch: never replies as a refusal" else (SUCCESS,)
                for status in statuses:
                    reply = (status, number)
                    turns = k.turns + (("dispatched", reply),) if seat == following else k.turns
                    connections = with_item(w.connections, c, k._replace(turns=turns))
                    yield (
                        f"dispatch {seat} on {c}" + (f" with {status}" if status else ""),
                        w._replace(connections=connections, dispatches=w.dispatches + ((c, seat, reply),)),
                    )
        if following < len(k.asked) and ready("refuse", following):
            statuses = (SUCCESS, NO_OBJECT) if self.without == "refuse: always replies as a refusal" else (NO_OBJECT, NO_FACET)
            for status in statuses:
                reply = (status, None)
                answer = (("answer", following, reply),) if k.asked[following][1] else ()
                changed = k._replace(turns=k.turns + (("refused", reply),), answered=k.answered + answer)
                yield f"refuse {following} on {c} with {status}", w._replace(connections=with_item(w.connections, c, changed))


def seat_of(w, dispatch):
    return w.connections[dispatch[0]].asked[dispatch[1]][0]


def broken(w):
    """Returns which of the three things the world breaks, or nothing."""
    for i, v in enumerate(w.invocations):
        own = [it for it in w.dispatches if seat_of(w, it) == i]
        if v and not v.idempotent and len(own) > 1:
            return f"invocation {i} is not idempotent and was dispatched twice"
        if v and isinstance(v.result, tuple) and v.result[0] == SUCCESS and v.result not in [it[2] for it in own]:
            return f"invocation {i} is finished with a success that no dispatch of it recorded"
    for c, seat, _ in w.dispatches:
        if (c, seat) in w.dead:
            return f"seat {seat} on {c} was dead and is dispatched"
    return None


def search(rules, most, seen_too=lambda w: None):
    """Goes through every list of up to `most` events, shortest first, and each world once. Returns the number of worlds, and
    the first list that breaks one of the three things with what it breaks, if there is one."""
    start = rules.opening()
    before, layer = {start: None}, [start]
    for _ in range(most):
        following = []
        for w in layer:
            for event, after in rules.events(w):
                dead = [it for v in after.invocations if v for it in v.attempts if it and it not in w.dead and rules.is_dead(after, it)]
                if dead:
                    after = after._replace(dead=w.dead.union(dead))
                if after in before:
                    continue
                before[after] = (w, event)
                seen_too(after)
                fault = broken(after)
                if fault:
                    return len(before), told(before, after), fault
                following.append(after)
        layer = following
    return len(before), None, None


def told(before, w):
    events = []
    while before[w]:
        w, event = before[w]
        events.append(event)
    return events[::-1]


# What is searched: the invocations, each idempotent or not and with a reply or without, and up to how many events. All
# have two connections, of two messages each at most, and at most one attempt each that does not connect.
ONCE, AGAIN = (False, True), (True, True)
ONCE_ONEWAY, AGAIN_ONEWAY = (False, False), (True, False)
CONNECTIONS = 2
SEARCHES = (
    ((ONCE,), 13),
    ((AGAIN,), 14),
    ((ONCE_ONEWAY,), 14),
    ((ONCE, ONCE), 9),
    ((ONCE, AGAIN_ONEWAY), 9),
    ((ONCE_ONEWAY, ONCE_ONEWAY), 9),
)
# The same with a guard left out: long enough for each list that breaks something, and short enough to be tried for each.
GUARD_SEARCHES = (((ONCE,), 10), ((ONCE_ONEWAY,), 10), ((ONCE_ONEWAY, ONCE_ONEWAY), 6), ((ONCE, AGAIN), 5))


class Met:
    """What the worlds seen show, so that a search that saw next to nothing is noticed."""

    def __init__(self):
        self.seen = {
            "an idempotent invocation that was dispatched twice": False,
            "a dead attempt whose message was cut short": False,
            "a dead attempt whose client read a close": False,
            "a dead attempt that was answered with no such object": False,
            "a success after an attempt that was dead": False,
            "a message of two calls of which one was dispatched and one refused": False,
        }

    def look(self, w):
        for v in w.invocations:
            if v and isinstance(v.result, tuple) and v.result[0] == SUCCESS and any(it in w.dead for it in v.attempts):
                self.mark("a success after an attempt that was dead")
        if len(w.dispatches) > 1:
            owners = [seat_of(w, it) for it in w.dispatches]
            if any(w.invocations[i].idempotent and owners.count(i) > 1 for i in owners):
                self.mark("an idempotent invocation that was dispatched twice")
        for c, seat in w.dead:
            k = w.connections[c]
            if k.client_left and k.handed < k.asked[seat][2]:
                self.mark("a dead attempt whose message was cut short")
            elif ("close",) in k.answered[: k.read]:
                self.mark("a dead attempt whose client read a close")
            else:
                self.mark("a dead attempt that was answered with no such object")
        for k in w.connections:
            if len(k.asked) > 1 and k.asked[0][2] == k.asked[1][2] and {it[0] for it in k.turns} == {"dispatched", "refused"}:
                self.mark("a message of two calls of which one was dispatched and one refused")

    def mark(self, what):
        self.seen[what] = True


# What both ends say. A message has two bytes here, and each message of a server has one. An attempt says on which
# connection it was (None: it did not connect), how many bytes were taken, and which messages were read; a session on which
# connection it was, how many bytes it was given, the turn that it gave to the call, or None, and which messages were taken.
Attempt = namedtuple("Attempt", "connection taken read")
Session = namedtuple("Session", "connection given turn said")
LONG = 2
VALIDATE, CLOSE = ("validate",), ("close",)
REFUSED, DISPATCHED = ("refused", NO_OBJECT), ("dispatched", SUCCESS)

# The premises by name: that the ends fit together, and that each end did as Ice lets it. The second column says which of
# the things breaks without the premise.
TWICE = "a call that is not idempotent was dispatched twice"
UNFOUNDED = "a success carries no reply that a dispatch recorded"
PREMISES = {
    "each attempt has its own connection": TWICE,
    "each session has its own connection": TWICE,
    "each session belongs to an attempt": TWICE,
    "a session was given the first bytes that were taken from its attempt": TWICE,
    "an attempt was given the first bytes that were taken from its session": TWICE,
    "an attempt without a session was given no bytes": UNFOUNDED,
    "a client tries again only after an attempt that it can tell to be dead": TWICE,
    "a server has turns for whole messages alone, each once": TWICE,
    "a server closes only behind the replies of all turns": TWICE,
    "a server answers a turn with its own reply": TWICE,
}


class Ends:
    """What both ends can say of one call that is not idempotent, and of a second one with the same bytes."""

    def __init__(self, without=None):
        self.without = without

    def holds(self, premise, fact):
        return fact or premise == self.without

    # What a client says

    def attempts(self, connection):
        """Each attempt on this connection: nothing is taken before a validate, and the rest is read when all was taken."""
        yield Attempt(connection, 0, ())
        for taken in range(LONG + 1):
            yield Attempt(connection, taken, (VALIDATE,))
        for last in (CLOSE, ("answer", NO_OBJECT), ("answer", SUCCESS)):
            yield Attempt(connection, LONG, (VALIDATE, last))

    def may_follow(self, attempt):
        dead = attempt.connection is None or attempt.taken < LONG or attempt.read[1:] in ((CLOSE,), (("answer", NO_OBJECT),))
        return self.holds("a client tries again only after an attempt that it can tell to be dead", dead)

    def tried(self, most, connections):
        """Each list of up to `most` attempts, on these connections or on new ones."""
        for count in range(1, most + 1):
            yield from self.tried_more(count, connections)

    def tried_more(self, count, connections):
        new = max(connections, default=-1) + 1
        old = range(new) if self.without == "each attempt has its own connection" else ()
        firsts = [Attempt(None, 0, ())] + [it for c in (*old, new) for it in self.attempts(c)]
        for first in firsts:
            if count == 1:
                yield (first,)
            elif self.may_follow(first):
                used = connections if first.connection is None else connections | {first.connection}
                for others in self.tried_more(count - 1, used):
                    yield (first, *others)

    # What a server says

    def sessions(self, connection):
        """Each session on this connection: of the replies and the close that it says the last may lack."""
        for given in range(LONG + 1):
            whole = self.holds("a server has turns for whole messages alone, each once", given == LONG)
            for turn in (None, REFUSED, DISPATCHED) if whole else (None,):
                for answer, closes in product(self.answers(turn), (False, True)):
                    messages = (VALIDATE, *answer, *((CLOSE,) if closes else ()))
                    for said in (messages[:-1], messages):
                        yield Session(connection, given, turn, said)

    def answers(self, turn):
        if turn is None:
            return [()]
        replies = [(("answer", turn[1]),)]
        if turn == DISPATCHED and self.without == "a server answers a turn with its own reply":
            replies.append((("answer", NO_OBJECT),))
        if turn == DISPATCHED and self.without == "a server closes only behind the replies of all turns":
            replies.append(())
        return replies

    # Both

    def fit(self, attempts, sessions):
        """Whether those of one connection fit together. Where there are several, one of them has to."""
        for s in sessions:
            given = any(s.given <= a.taken for a in attempts) or not attempts
            if not self.holds("a session was given the first bytes that were taken from its attempt", given):
                return False
        for a in attempts:
            if sessions:
                read = any(s.said[: len(a.read)] == a.read for s in sessions)
                if not self.holds("an attempt was given the first bytes that were taken from its session", read):
                    return False
            elif not self.holds("an attempt without a session was given no bytes", not a.read):
                return False
        return True

    def served(self, attempts):
        """Yields the sessions that fit the attempts of one connection, as far as they differ in what comes to the calls."""
        most = 2 if self.without == "each session has its own connection" else 1
        options = list(self.sessions(attempts[0].connection))
        seen = set()
        for count in range(most + 1):
            for sessions in product(options, repeat=count):
                turns = tuple(it.turn for it in sessions)
                if turns not in seen and self.fit(attempts, sessions):
                    seen.add(turns)
                    yield sessions

    def broken(self, tried, sessions, strays):
        """Returns which of the things breaks for the call with these attempts, or nothing."""
        own = {it.connection for it in tried}
        dispatched = [it for it in sessions if it.connection in own and it.turn == DISPATCHED]
        count = len(dispatched) + sum(it.turn == DISPATCHED for it in strays)
        if count > 1:
            return TWICE
        if tried[-1].read[1:] == (("answer", SUCCESS),) and not count:
            return UNFOUNDED
        return None

    def search(self, wanted=(TWICE, UNFOUNDED)):
        """Goes through all that both ends can say, fewest attempts first. Returns how many there were, and the first that
        breaks one of the things that are wanted, with what it breaks, if there is one."""
        count = 0
        strays = [()]
        if self.without == "each session belongs to an attempt":
            strays += [(it,) for it in self.sessions(-1)]
        for first in self.tried(3, frozenset()):
            used = frozenset(it.connection for it in first if it.connection is not None)
            for second in [(), *self.tried(1, used)]:
                links = {}
                for it in (*first, *second):
                    if it.connection is not None:
                        links.setdefault(it.connection, []).append(it)
                for groups in product(*(list(self.served(it)) for it in links.values())):
                    sessions = [it for group in groups for it in group]
                    for stray in strays:
                        count += 1
                        for tried in filter(None, (first, second)):
                            fault = self.broken(tried, sessions, stray)
                            if fault in wanted:
                                return count, self.told(first, second, sessions, stray), fault
        return count, None, None

    def told(self, first, second, sessions, strays):
        def attempt(it):
            if it.connection is None:
                return "no connection"
            return f"connection {it.connection} took {it.taken} of {LONG} and gave {names(it.read)}"

        def names(messages):
            return " and ".join(" ".join(map(str, it)) for it in messages) or "nothing"

        parts = [", then ".join(attempt(it) for it in first)]
        if second:
            parts.append("another call with these bytes: " + ", then ".join(attempt(it) for it in second))
        for s in (*sessions, *strays):
            turn = f", {s.turn[0]}" if s.turn else ""
            where = f"on connection {s.connection}" if s.connection >= 0 else "without an attempt"
            parts.append(f"a session {where} was given {s.given}{turn}, and said {names(s.said)}")
        return parts


def joined(premise):
    """Searches what both ends can say with this premise left out, or none. Returns how much there was, what to print, and
    whether it came as the table says."""
    if premise is None:
        count, parts, fault = Ends().search()
        told = f"calls: {count:,} pairs of ends that fit together"
        return count, told if fault is None else f"FAILED {told}: {'; '.join(parts)}: {fault}", fault is None
    count, parts, fault = Ends(premise).search((PREMISES[premise],))
    if fault is None:
        return count, f"FAILED calls: without `{premise}` it never comes that {PREMISES[premise]}", False
    return count, f"  without `{premise}`: {'; '.join(parts)}: {fault}", True


def named(kinds):
    return " and ".join(f"{'idempotent' if again else 'not idempotent'}{'' if twoway else ' oneway'}" for again, twoway in kinds)


def searched(kinds, most):
    """Searches with every guard in place. Returns how many worlds there were, what to print, whether nothing broke, and what
    the worlds showed."""
    met = Met()
    count, events, fault = search(Rules(kinds, CONNECTIONS), most, met.look)
    told = f"calls: {named(kinds)}, up to {most} events: {count:,} worlds"
    if fault:
        told = f"FAILED {told}: {'; '.join(events)}: {fault}"
    return count, told, fault is None, met.seen


def without(guard, more):
    """Searches with the guard left out. Returns how many worlds there were, what to print, and whether it came as the table says."""
    worlds = 0
    for kinds, most in GUARD_SEARCHES:
        count, events, fault = search(Rules(kinds, CONNECTIONS, guard), most + more)
        worlds += count
        if fault:
            mark = "  " if GUARDS[guard] else "FAILED calls: "
            return worlds, f"{mark}without `{guard}`: {'; '.join(events)}: {fault}", GUARDS[guard]
    if GUARDS[guard]:
        return worlds, f"FAILED calls: nothing breaks without `{guard}`", False
    return worlds, None, True


def main(words):
    is_brief = words[:1] == ["--brief"]
    match words[is_brief:]:
        case []:
            more = 0
        case ["--events", number] if number.isdecimal():
            more = int(number)
        case _:
            sys.exit(__doc__.split("\n\n")[1])
    with ProcessPoolExecutor(os.cpu_count()) as pool:
        searches = [pool.submit(searched, kinds, most + more) for kinds, most in SEARCHES]
        guards = [pool.submit(without, guard, more) for guard in GUARDS]
        premises = [pool.submit(joined, premise) for premise in (None, *PREMISES)]
        found = [it.result() for it in searches]
        left_out = [it.result() for it in guards]
        ends = [it.result() for it in premises]
    shown = {what: any(it[3][what] for it in found) for what in found[0][3]}
    lists = [it[1] for it in left_out if it[1] and not (is_brief and it[2])]
    for told in [it[1] for it in found] + lists + [f"FAILED calls: no world showed {it}" for it in shown if not shown[it]]:
        print(told)
    for told in [it[1] for n, it in enumerate(ends) if not (is_brief and n and it[2])]:
        print(told)
    worlds = sum(it[0] for it in found + left_out)
    print(f"calls: {worlds:,} worlds in all; the three things rest on {sum(GUARDS.values())} of {len(GUARDS)} guards")
    checks = [it[2] for it in found + left_out + ends] + list(shown.values())
    print(f"{sum(checks)} passed, {len(checks) - sum(checks)} failed")
    return 0 if all(checks) else 1


if __name__ == "__main__":
    sys.exit(main(sys.argv[1:]))
