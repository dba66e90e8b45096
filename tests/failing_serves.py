"""Trials of `serve`, whose other ends are clients that are played here.

Each trial has the talks of its clients, as failing_clients.py says.

A connection that lacks memory is shut, with no close message, and its worker takes no other one. Where other workers
are left they go on, and behind them the thread that began serving goes on alone, until it lacks memory too or as many
connections were accepted as were asked for. The end is status 9, without the line `served N`. So of each run it is
looked at this:

- whatever was answered, the clients have seen one history of the objects, which independent/serving.py finds: some
  order of the calls of a round, in which each call was dispatched once, or, where no reply came, once or not at all. A
  later connection asks the objects again.
- no reply was cut off, and none had another id or other results than those of this history
- where the program ends as in the whole run, each call had its reply
- where one allocation alone failed, at most one connection was shut, unless no worker could begin
- no client waited for more than WAITED seconds
"""
import dataclasses
import functools

from failing_clients import Listening, Talk
from failing_runs import Run, Trial, sample
from failing_talks import BOARD, COUNTER, ECHO, HERE, RING, VALIDATE, batch, called, number, part_of, request, text
from serving import Adapter, Session, heard, is_legal, replies_in


@dataclasses.dataclass(frozen=True)
class Ask:
    """A message: `sent` tells its bytes by the id of a request."""

    sent: object
    is_twoway: bool = True


def ask(identity, operation, mode, content=b""):
    return Ask(lambda key: request(key, called(identity, operation, mode, content)))


def add(amount):
    return ask("water", "add", 0, number(amount))


def silent(message):
    """Returns a message that asks for no reply."""
    return Ask(lambda _: message, False)


TOTAL = ask("water", "total", 2)


def session_of(talk, came, first, is_whole, behind):
    """Returns what the second answer has to allow of a connection whose first request has this id, None where a reply
    is none or was cut off. Where memory lacked it may have ended at any call behind those that have replies, and has at
    the first one that asked for a reply and has none."""
    replies = replies_in(VALIDATE + b"".join(came.replies))
    if replies is None or replies[1]:
        return None
    pairs = enumerate(zip(talk.asks, came.replies), 1)
    last = next((at for at, (it, said) in pairs if it.is_twoway and not said), len(talk.asks))
    said = b"".join(it.sent(key) for key, it in enumerate(talk.asks[: last if came.is_greeted else 0], first))
    calls = [[call] for calls in heard(said)[0] for call in calls]
    return Session(calls, replies[0], is_cut=not is_whole, behind=behind)


@dataclasses.dataclass(frozen=True)
class Serving(Listening):
    """Words of `serve`, and the rounds of talks of its clients."""

    objects: tuple = ()

    @functools.cached_property
    def adapter(self):
        """The objects, by the second answer."""
        file, data = self.files[0] if self.files else ("meter.ice", sample("meter.ice"))
        return Adapter({file: data}, file, self.objects)

    def run(self, failing, first, last):
        failing.begin(first, last)
        answer, came = self.talked(failing.command(self), failing.changed)
        return Run(answer, *failing.counts(), came)

    def fault(self, run, whole):
        return super().fault(run, whole) or self.fault_heard(run, run.answer == whole.answer)

    def fault_heard(self, run, is_whole):
        """Returns what the clients have heard that may not be, or nothing."""
        sessions, behind, first = [], set(), 1
        for talks, came in zip(self.rounds, run.seen):
            for talk, it in zip(talks, came):
                sessions.append(session_of(talk, it, first, is_whole, behind))
                first += len(talk.asks)
            behind = set(range(len(sessions)))
        faults = [it.fault for came in run.seen for it in came if it.fault]
        if faults or None in sessions or not is_legal(self.adapter, sessions):
            return f"{run.answer}; {faults[0] if faults else 'no history has these replies'}: {run.seen}"
        return self.fault_shut(run, is_whole)

    def fault_shut(self, run, is_whole):
        """Returns what is wrong with the number of connections that were shut, or nothing."""
        talks = [it for talks in self.rounds for it in talks]
        came = [it for came in run.seen for it in came]
        shut = sum(
            not it.is_greeted or any(each.is_twoway and not said for each, said in zip(talk.asks, it.replies))
            for talk, it in zip(talks, came)
        )
        most = 0 if is_whole else 1 if run.failed == 1 else len(talks)
        is_begun = any(it.is_greeted for it in came)
        is_wrong = shut > most and (is_begun or is_whole)
        return f"{run.answer}; {shut} connections shut: {run.seen}" if is_wrong else ""


def serving(name, interface, objects, *rounds, options=()):
    """Returns a trial whose objects have this interface."""
    file, files = part_of(interface)
    count = str(sum(len(it) for it in rounds))
    words = "serve", *options, "--connections", count, file, HERE, "0", *objects
    return Serving(f"serve {name}", words, files=files, rounds=rounds, objects=objects)


def store_trials():
    """Yields trials of stores, which later connections ask again."""
    water, hall, total = (f"store=water={COUNTER}",), (f"store=hall={BOARD}",), (Talk((TOTAL,)),)
    yield serving("a counter", COUNTER, water, (Talk((add(2),)),), total, total)
    yield serving("a board", BOARD, hall, (Talk((ask("hall", "put", 0, RING),)),), (Talk((ask("hall", "get", 2),)),))
    yield serving("all at once", COUNTER, water, (Talk((add(2), TOTAL, add(3)), True),), total)
    workers = "--workers", "2"
    yield serving("two clients", COUNTER, water, (Talk((add(2),)), Talk((add(3),))), total, options=workers)
    two = batch(called("water", "add", 0, number(2)), called("water", "add", 0, number(3)))
    oneway = request(0, called("water", "add", 0, number(4)))
    yield serving("calls without replies", COUNTER, water, (Talk((silent(two), silent(oneway))),), total)
    yield serving("no message", COUNTER, water, (Talk((add(2),), last=b"GET / HTTP/1.1"),), total)
    yield serving("half a message", COUNTER, water, (Talk((add(2),), last=two[:20]),), total)


def other_trials():
    """Yields trials of what changes nothing."""
    speak, own = ask("mirror", "say", 0, text("hello")), (ask("mirror", "ice_ping", 1), ask("mirror", "ice_id", 1))
    yield serving("an echo", ECHO, (f"echo=mirror={ECHO}",), (Talk((speak, *own), True),))
    bad_mode, bad_arguments = ask("water", "add", 1, number(2)), ask("water", "add", 0)
    refused = bad_mode, bad_arguments, ask("water", "put", 0), ask("air", "add", 0, number(2))
    yield serving("calls that are refused", COUNTER, (f"store=water={COUNTER}",), (Talk((*refused, TOTAL)),))
    places = "locator=finder", f"adapter=cellar=water:tcp -h {HERE} -p 4061"
    adapters = [ask("finder", "findAdapterById", 1, text(it)) for it in ("cellar", "attic")]
    questions = *adapters, ask("finder", "findObjectById", 1, text("air") + text(""))
    yield serving("a locator", COUNTER, places, (Talk(questions),))


def refusal_trials():
    """Yields trials of words that are refused, and of a host that is not here."""
    file, files = part_of(COUNTER)
    water = f"store=water={COUNTER}"

    def refused(name, status, *words):
        return Trial(f"serve {name}", ("serve", "--connections", "1", *words), b"", status, files)

    yield refused("under no file", 3, "none.ice", HERE, "0", water)
    yield refused("no interface", 2, file, HERE, "0", "store=water=::Meter::None")
    yield refused("no identity", 4, file, HERE, "0", f"store=a b={COUNTER}")
    yield refused("no place", 4, file, HERE, "0", "locator=finder", "adapter=cellar=water:tcp -q 1")
    yield refused("one identity twice", 2, file, HERE, "0", water, water)
    yield refused("at no host", 7, file, "192.0.2.1", "0", water)


def serve_trials():
    """Yields all trials of servers."""
    for trials in store_trials, other_trials, refusal_trials:
        yield from trials()
