"""Clients that are played here, for trials of `serve` and of `gate`, and runs of these two.

Clients talk in rounds: the talks of a round go on at the same time, each over a connection of its own, and the next
round begins when they are over. A client waits for the validate message, sends its messages one by one, or all at once,
takes the replies, sends a close message and takes what comes up to the end.
"""
import dataclasses
import os
import re
import socket
import subprocess
import threading

from failing_runs import SAMPLE, Answer, Trial
from failing_talks import CLOSE, HERE, VALIDATE, WAITED, taken_message
from links import end_side, say, take

LISTENING = re.compile(rb"listening ([0-9]+)\n")


@dataclasses.dataclass(frozen=True)
class Talk:
    """What a client says, one by one or at once, and which bytes it says behind that."""

    asks: tuple
    is_at_once: bool = False
    last: bytes = CLOSE


@dataclasses.dataclass(frozen=True)
class Heard:
    """What a client has heard: whether a validate message, the reply to each message, empty where none came; and what
    is wrong with that."""

    is_greeted: bool
    replies: tuple
    fault: str = ""


def heard(port, talk, first):
    """Returns what a client hears whose first request has this id."""
    nothing = (b"",) * len(talk.asks)
    try:
        with socket.create_connection((HERE, port), WAITED) as stream:
            greeting = taken_message(stream)
            if greeting != VALIDATE:
                return Heard(False, nothing, f"no validate message: {greeting}" if greeting else "")
            replies = spoken(stream, talk, first)
            rest = take(stream)
            return Heard(True, replies, f"behind all replies: {rest}" if rest else "")
    except TimeoutError:
        return Heard(True, nothing, f"nothing came for {WAITED} seconds")
    except ConnectionError:
        return Heard(False, nothing)


def spoken(stream, talk, first):
    """Says what a client says, ends its side, and returns the replies."""
    messages, replies = [it.sent(first + at) for at, it in enumerate(talk.asks)], []
    if talk.is_at_once:
        say(stream, b"".join(messages) + talk.last)
    for it, data in zip(talk.asks, messages):
        if not talk.is_at_once:
            say(stream, data)
        replies.append(taken_message(stream) if it.is_twoway else b"")
    if not talk.is_at_once:
        say(stream, talk.last)
    end_side(stream)
    return tuple(replies)


def heard_of(port, rounds):
    """Returns what each client hears, round by round."""
    all_, first = [], 1
    for talks in rounds:
        came = [None] * len(talks)

        def hear(at, talk, key, came=came):
            came[at] = heard(port, talk, key)

        threads = []
        for at, talk in enumerate(talks):
            threads.append(threading.Thread(target=hear, args=(at, talk, first)))
            first += len(talk.asks)
        for it in threads:
            it.start()
        for it in threads:
            it.join()
        all_.append(tuple(came))
    return tuple(all_)


@dataclasses.dataclass(frozen=True)
class Listening(Trial):
    """Words of a command that listens, and the rounds of talks of its clients."""

    rounds: tuple = ()

    def talked(self, command, changed):
        """Returns the answer of a command, with PORT for the port that it tells, and what its clients hear, which is
        nothing where it tells none."""
        streams = {"stdin": subprocess.DEVNULL, "stdout": subprocess.PIPE, "stderr": subprocess.PIPE}
        with subprocess.Popen(command, cwd=SAMPLE, env={**os.environ, **changed}, **streams) as process:
            watch = threading.Timer(4 * WAITED, process.kill)
            watch.start()
            line = process.stdout.readline()
            found = LISTENING.fullmatch(line)
            came = heard_of(int(found[1]), self.rounds) if found else ()
            output, error = process.communicate()
            watch.cancel()
        return Answer(process.returncode, (b"listening PORT\n" if found else line) + output, error), came

    def fault(self, run, whole):
        if b"\nserved " in run.answer.output and run.answer != whole.answer:
            return str(run.answer)
        return super().fault(run, whole)
