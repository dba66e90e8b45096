"""Trials of `gate`, of which both sides are played here: callers, one after the other, and the servers behind it.

Each message of a caller has the links over which it goes on, which the peer of failing_calls.py plays, and the bytes
that come over each of them; the callers talk as failing_clients.py says. So what is to be seen on both sides is known
before the whole run. Where memory lacks, the connection of the caller is shut, without an answer to the message at
which it lacked, and so is that to the server; no other caller is served, and the end is status 9, without the line
`served N`. So of each run it is looked at this:

- what the callers have heard is a beginning of what they are to hear, of whole messages
- what came over a connection to a server is all that is to come over it, or, over the last one, nothing: so no message
  came once more than it is to come
- the servers have seen the connections of each message that was answered, and none of one behind the first message that
  was not
- where the program ends as in the whole run, all that is to be seen was seen, on both sides
- of each connection both sides have seen the end, within WAITED seconds
"""
import dataclasses

from failing_calls import WATER, Link, Peer, Seen, answered
from failing_clients import Listening, Talk
from failing_runs import Run, Trial
from failing_talks import CLOSE, COUNTER, HERE, RING, STORE, VALIDATE, WALL, batch, called, done, missing, number
from failing_talks import part_of, raised, reply, request, text, unknown


@dataclasses.dataclass(frozen=True)
class Passed:
    """A message of a caller: `sent` tells its bytes by the id of a request. Its answer, which is empty where it asks
    for none, the links over which it goes on, and the bytes that come over each."""

    sent: object
    answer: bytes = b""
    links: tuple = ()
    goes: bytes = b""

    @property
    def is_twoway(self):
        return bool(self.answer)

    def came(self):
        """Returns what is to come over each link: nothing where the server does not say that it is there."""
        return [self.goes if it.first else b"" for it in self.links]


def passed(call, answer, *links):
    """Returns a request that goes on as it is, under the id 1."""
    return Passed(lambda key: request(key, call), answer, links, request(1, call))


def silent(message, goes):
    """Returns a message that asks for no reply, and what of it goes on."""
    return Passed(lambda _: message, b"", (Link(),) if goes else (), goes)


@dataclasses.dataclass(frozen=True)
class Both:
    """What the callers have heard, one after the other, and what the servers have seen."""

    heard: tuple
    seen: Seen


class Gating(Listening):
    """Words of `gate`, and the talks of its callers, which are rounds of one talk each."""

    def run(self, failing, first, last):
        failing.begin(first, last)
        peer = Peer([link for (talk,) in self.rounds for ask in talk.asks for link in ask.links])
        answer, came = self.talked(failing.command(self, port=peer.port), failing.changed)
        return Run(answer, *failing.counts(), Both(tuple(it for (it,) in came), peer.seen()))

    def fault(self, run, whole):
        return super().fault(run, whole) or self.fault_seen(run, run.answer == whole.answer)

    def steps(self):
        """Returns what the callers are to hear at each step, empty where that is nothing, and what is to come over each
        connection that is made to a server then. A step is a connection of a caller, or a message."""
        steps, key = [], 0
        for (talk,) in self.rounds:
            steps.append((VALIDATE, []))
            for key, ask in enumerate(talk.asks, key + 1):
                steps.append((reply(key, ask.answer) if ask.is_twoway else b"", ask.came()))
        return steps

    def fault_seen(self, run, is_whole):
        """Returns what was seen that may not be, or nothing."""
        (wanted, connections), heard, seen = zip(*self.steps()), run.seen.heard, run.seen.seen
        faults = [*(it.fault for it in heard if it.fault), *seen.faults]
        if faults:
            return f"{run.answer}; {faults[0]}"
        told = tuple(piece for it in heard for piece in (VALIDATE if it.is_greeted else b"", *it.replies))
        least = len(wanted) if is_whole else max((at + 1 for at, it in enumerate(told) if it), default=0)
        most = next((at + 1 for at in range(least, len(wanted)) if wanted[at]), len(wanted))
        came = [tuple(it for each in connections[:at] for it in each) for at in (least, most)]
        if told[:least] != wanted[:least] or seen.came not in beginnings(*came):
            return f"{run.answer}; the callers have heard {heard}, and the servers {seen.came}"
        return ""


def beginnings(least, most):
    """Yields what may have come over connections, where all of `least` came and no more than `most`: over each of them
    all, or over the last one nothing."""
    yield least
    for count in range(len(least), len(most)):
        yield *most[:count], b""
        yield most[: count + 1]


def gating(name, interface, *talks, to=WATER):
    """Returns a trial whose callers say these things, one after the other."""
    file, files = part_of(interface)
    words = "gate", "--connections", str(len(talks)), file, interface, HERE, "0", to
    return Gating(f"gate {name}", words, files=files, rounds=tuple((it,) for it in talks))


ADD, TOTAL, THREE = called("water", "add", 0, number(2)), called("water", "total", 2), done(number(3))
BEGUN = Link(reply(1, THREE)[:20], ends=True)


def answered_trials():
    """Yields trials of calls that are answered by their servers."""
    add, ids = passed(ADD, THREE, answered(THREE)), done(b"\1" + text(COUNTER))
    own = passed(called("water", "ice_ids", 1), ids, answered(ids))
    yield gating("calls", COUNTER, Talk((add, passed(TOTAL, THREE, answered(THREE)), own)))
    yield gating("two callers", COUNTER, Talk((add,), last=b"GET / HTTP/1.1"), Talk((add,), last=request(3, ADD)[:20]))
    find, none = called("shop", "find", 0, bytes(8)), raised("::Shop::No", text("none"))
    yield gating("an exception", STORE, Talk((passed(find, none, answered(none)),)))
    yield gating("a ring", WALL, Talk((passed(called("wall", "turn", 0, RING), done(RING), answered(done(RING))),)))


def retry_trials():
    """Yields trials of calls whose connection is lost, or closed."""
    three = answered(THREE)
    yield gating("a call that is lost and made again", COUNTER, Talk((passed(TOTAL, THREE, BEGUN, three),)))
    lost = passed(ADD, unknown(5, "upstream ended"), BEGUN), passed(ADD, THREE, Link(first=b"", ends=True), three)
    yield gating("calls that are lost and closed", COUNTER, Talk((*lost, passed(ADD, THREE, Link(CLOSE), three))))


def refusal_trials():
    """Yields trials of calls and answers that are refused, and of those that no reply is asked of."""
    short, missed = done(b"\0"), missing(2, "water", "add")
    refused = passed(ADD, unknown(5, "bad results Short at 6"), answered(short)), passed(ADD, missed, answered(missed))
    yield gating("answers that are refused", COUNTER, Talk(refused))
    bad, none = called("water", "add", 0), called("water", "put", 0)
    unsent = passed(bad, unknown(5, "bad arguments Short at 6")), passed(none, missing(4, "water", "put"))
    yield gating("calls that are refused", COUNTER, Talk(unsent))
    both, oneway = batch(ADD, TOTAL), request(0, ADD)
    quiet = silent(batch(ADD, bad, none, TOTAL), both), silent(oneway, oneway), silent(request(0, bad), b"")
    yield gating("calls without replies", COUNTER, Talk(quiet))
    nobody = f"water:tcp -h {HERE} -p 1"
    yield gating("to nobody", COUNTER, Talk((passed(ADD, unknown(5, "upstream failed")),)), to=nobody)


def word_trials():
    """Yields trials of words that are refused, and of a host that is not here."""
    file, files = part_of(COUNTER)

    def refused(name, status, *words):
        return Trial(f"gate {name}", ("gate", *words), b"", status, files)

    there = f"water:tcp -h {HERE} -p 1"
    yield refused("of too few words", 2, file, COUNTER, HERE, "0")
    yield refused("no endpoint", 2, file, COUNTER, HERE, "0", "water")
    yield refused("under no file", 3, "none.ice", COUNTER, HERE, "0", there)
    yield refused("no interface", 2, file, "::Meter::None", HERE, "0", there)
    yield refused("no place", 4, file, COUNTER, HERE, "0", "water:tcp -q 1")
    yield refused("at no host", 7, file, COUNTER, "192.0.2.1", "0", there)


def gate_trials():
    """Yields all trials of gateways."""
    for trials in answered_trials, retry_trials, refusal_trials, word_trials:
        yield from trials()
