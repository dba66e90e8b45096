"""Real Ice as a peer: has Ice for Python write values of a Slice text, and read them.

An operation with one parameter is invoked on an object that keeps the bytes of its arguments: one encapsulation of the
value, as Ice wrote it. The other way, an encapsulation is sent as the arguments of that operation to a servant that keeps
the value. Both go over a connection on this machine. So it is with user exceptions, which an operation of their own raises.
"""
import importlib
import os
import tempfile

import Ice

import made_proxies

# Operations stand in a module of their own, beside that of the types.
OPERATIONS = "PeerOperations"


class Bytes(Ice.Blobject):
    """Keeps the arguments of the last invocation as they came. Where bytes of an exception are given, they are raised."""

    raised = None

    def ice_invoke(self, arguments, current):
        self.got = bytes(arguments)
        return self.raised is None, self.raised or b""


class Peer:
    """Real Ice with the types of one Slice text. A process has one of them, since Ice keeps what it loads. `options` are further
    ones of Ice, and `exceptions` are names of those of the text that are raised."""

    def __init__(self, text, module, names, *options, exceptions=()):
        self.names, self.instances, self.exceptions = list(names), [], list(exceptions)
        with tempfile.TemporaryDirectory(prefix="ice-peer-") as folder:
            with open(f"{folder}/types.ice", "wb") as file:
                file.write(text)
            operations = " ".join(f"void put{at}(::{module}::{name} v);" for at, name in enumerate(self.names))
            operations += " ".join(f"void raise{at}() throws ::{module}::{name};" for at, name in enumerate(self.exceptions))
            with open(f"{folder}/operations.ice", "w") as file:
                file.write(f'#include "types.ice"\nmodule {OPERATIONS} {{ interface Values {{ {operations} }}; }};\n')
            Ice.loadSlice("", ["-I" + folder, "--all", f"{folder}/operations.ice"])
        self.types = importlib.import_module(module)
        operations = importlib.import_module(OPERATIONS)
        self.communicator = Ice.initialize(["--Ice.MessageSizeMax=0", *options])
        self.communicators, self.operations = [self.communicator], operations
        adapter = self.communicator.createObjectAdapterWithEndpoints("peer", "tcp -h 127.0.0.1")
        self.bytes, self.values = Bytes(), self.servant(operations.Values)
        self.writer = operations.ValuesPrx.uncheckedCast(self.remote(adapter, self.bytes, "bytes"))
        self.reader = self.remote(adapter, self.values, "values")
        adapter.activate()

    def servant(self, interface):
        """Returns a servant that keeps the value of the last invocation, and raises what it is given."""

        def keep(self, value, current):
            self.got = value

        def throw(self, current):
            raise self.given

        operations = {f"put{at}": keep for at in range(len(self.names))} | {f"raise{at}": throw for at in range(len(self.exceptions))}
        return type("Keeper", (interface,), operations)()

    def remote(self, adapter, servant, identity):
        return adapter.add(servant, Ice.stringToIdentity(identity)).ice_collocationOptimized(False)

    def proxy(self, proxy, name=None):
        """Returns a proxy in Ice's own form: of the interface that has the name, if one is given."""
        given = self.communicator.stringToProxy(made_proxies.text_for_ice(proxy))
        return getattr(self.types, f"{name}Prx").uncheckedCast(given) if name else given

    def writer_with(self, *options):
        """Returns a further writer, of a communicator that has these options."""
        self.communicators.append(Ice.initialize(["--Ice.MessageSizeMax=0", *options]))
        return self.operations.ValuesPrx.uncheckedCast(self.communicators[-1].stringToProxy(str(self.writer)))

    def reader_with(self, *options):
        """Returns a further reader, whose servant has a communicator with these options."""
        self.communicators.append(Ice.initialize(["--Ice.MessageSizeMax=0", *options]))
        adapter = self.communicators[-1].createObjectAdapterWithEndpoints("peer", "tcp -h 127.0.0.1")
        proxy = self.remote(adapter, self.values, "values")
        adapter.activate()
        return proxy

    def raised(self, name, exception, reader=None):
        """Returns the encapsulation that Ice writes for an exception."""
        self.values.given = exception
        is_returned, encapsulation = (reader or self.reader).ice_invoke(f"raise{self.exceptions.index(name)}", Ice.OperationMode.Normal, b"")
        assert not is_returned
        return bytes(encapsulation)

    def read_raised(self, name, encapsulation):
        """Returns the exception that Ice reads from an encapsulation, where an operation may raise that of this name."""
        self.bytes.raised = encapsulation
        try:
            getattr(self.writer, f"raise{self.exceptions.index(name)}")()
        except Ice.UserException as raised:
            return raised
        finally:
            self.bytes.raised = None
        return None

    def written(self, name, value, writer=None):
        """Returns the encapsulation that Ice writes for a value of the type."""
        getattr(writer or self.writer, f"put{self.names.index(name)}")(value)
        return self.bytes.got

    def read(self, name, encapsulation):
        """Returns the value that Ice reads from an encapsulation of the type."""
        self.reader.ice_invoke(f"put{self.names.index(name)}", Ice.OperationMode.Normal, encapsulation)
        return self.values.got

    def close(self):
        for it in self.communicators:
            it.destroy()
