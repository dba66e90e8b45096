#!/usr/bin/env python3
"""A server of Ice for Python: the interfaces of Office.ice, as server.cpp has them for C++. It prints its port, and ends where its
standard input ends. Its words are properties of Ice, and of its adapter, `Objects`; --Office.Port=N has it listen there."""
import os
import sys
import threading

import Ice

sys.dont_write_bytecode = True
Ice.loadSlice("", ["--all", f"{os.path.dirname(os.path.realpath(__file__))}/Office.ice"])
import Office


def raised(sort, about):
    if sort == 0:
        return Office.Refused("as asked")
    if sort == 1:
        return Office.Late("too late", 7, "much", about)
    return Office.Hidden(-3)


def failed(sort):
    errors = {
        0: Ice.ObjectNotExistException,
        1: Ice.FacetNotExistException,
        2: Ice.OperationNotExistException,
        3: Ice.TimeoutException,
        4: lambda: Ice.UnknownLocalException('a "local" one'),
        5: lambda: Ice.UnknownUserException("::Office::Odd"),
        6: lambda: Ice.UnknownException("as said\tso"),
    }
    return errors.get(sort, lambda: RuntimeError("odd"))()


class Number:
    """What counts."""

    def __init__(self):
        self.lock, self.number = threading.Lock(), 0

    def add(self, n, current=None):
        with self.lock:
            self.number = (self.number + n + 2**31) % 2**32 - 2**31
            return self.number

    def total(self, current=None):
        return self.number


class Desk(Number, Office.Desk):
    def __init__(self):
        super().__init__()
        self.noted = []

    def title(self, current=None):
        return "a desk"

    # The return value comes first, and then the out parameters.

    def scalars(self, flag, small, low, plain, large, text, color, current=None):
        return color, flag, small, low, plain, large, text

    def lists(self, data, bits, numbers, words, colors, rows, current=None):
        return rows, data, bits, numbers, words, colors

    def maps(self, counts, named, liked, places, current=None):
        return places, counts, named, liked

    def proxies(self, any, thing, desk, current=None):
        return desk, any, thing

    def graph(self, any, nodes, index, node, current=None):
        return node, any, nodes, index

    def sliced(self, node, current=None):
        return node

    def compact(self, node, current=None):
        return node

    def options(self, *given):
        *arguments, node, _ = given
        return node, *arguments

    def note(self, text, current=None):
        self.noted.append(text)

    def notes(self, current=None):
        return list(self.noted)

    def many(self, count, current=None):
        return b"\xa5" * count

    def refuse(self, sort, about, current=None):
        raise raised(sort, about)

    refuseInCompact = refuse

    def fail(self, sort, current=None):
        raise failed(sort)

    def die(self, current=None):
        os._exit(3)


class Counter(Number, Office.Counter):
    pass


class Kept:
    """What keeps a value."""

    kept = None

    def put(self, value, current=None):
        self.kept = value

    def get(self, current=None):
        return self.kept


class Forest(Kept, Office.Forest):
    def title(self, current=None):
        return "a forest"


class Log(Kept, Office.Log):
    kept = ""


def opened(communicator, endpoints, name=""):
    """Returns an adapter with an object of each interface."""
    adapter = communicator.createObjectAdapterWithEndpoints(name, endpoints)
    for name, servant in {"desk": Desk, "counter": Counter, "forest": Forest, "log": Log}.items():
        adapter.add(servant(), Ice.Identity(name, ""))
    adapter.addFacet(Counter(), Ice.Identity("desk", ""), "back")
    adapter.activate()
    return adapter


def main():
    data = Ice.InitializationData()
    data.properties = Ice.createProperties(sys.argv)
    for name in ("Office", "Objects"):
        data.properties.parseCommandLineOptions(name, sys.argv)
    with Ice.initialize(sys.argv, data) as communicator:
        port = communicator.getProperties().getPropertyWithDefault("Office.Port", "0")
        adapter = opened(communicator, f"tcp -h 127.0.0.1 -p {port}", "Objects")
        print(adapter.getEndpoints()[0].getInfo().port, flush=True)
        sys.stdin.read()


if __name__ == "__main__":
    main()
