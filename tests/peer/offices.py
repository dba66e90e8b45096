"""Real Ice with the interfaces of office/Office.ice: servers of Ice for Python and for C++, and what a generated client of Ice for
Python makes of a call whose arguments are noted in JSON, as `ice call` has to tell it."""
import atexit
import contextlib
import importlib
import json
import os
import shutil
import socket
import subprocess
import sys
import time
from dataclasses import dataclass

import grammar
import ice_json
import json_texts
import loading
import names
import proxies

OFFICE = f"{os.path.dirname(os.path.realpath(__file__))}/office"
FILE = f"{OFFICE}/Office.ice"
MODULE = "Office"
# By the mapping: options of the compiler, and the library.
MAPPINGS = {"c++98": (["-std=c++98"], "Ice"), "c++11": (["-std=c++11", "-DICE_CPP11_MAPPING"], "Ice++11")}
SERVERS = "python", *MAPPINGS
# Options of a communicator: what goes wrong is told by the answer alone, and the mapping for C++98 reads rings, as the others do.
QUIET = "--Ice.Warn.Dispatch=0", "--Ice.Warn.Connections=0", "--Ice.AcceptClassCycles=1"
# Nothing is tried again.
ONCE = "--Ice.RetryIntervals=-1"
FORMATS = {False: "--Ice.Default.SlicedFormat=1", True: "--Ice.Default.SlicedFormat=0"}


# The Slice text


@dataclass(frozen=True)
class Part:
    """A parameter, or what an operation returns."""

    name: str
    kind: object
    tag: int | None


@dataclass(frozen=True)
class Operation:
    name: str
    is_idempotent: bool
    arguments: tuple  # in the order of the text
    results: tuple  # what is returned first, as the mapping for Python has them


def in_order(parts):
    """Returns the required ones, with what is returned last, and then the others by their tags."""
    required = [it for it in parts if it.tag is None]
    required.sort(key=lambda it: it.name == "$return")
    return required + sorted((it for it in parts if it.tag is not None), key=lambda it: it.tag)


class Text:
    """The types and the operations of Office.ice."""

    def __init__(self):
        with open(FILE, "rb") as file:
            self.bytes = file.read()
        self.schema = loading.load({FILE: self.bytes}, FILE)
        self.rules = self.schema.rules
        self.rules.names.enter(MODULE)
        declared = self.rules.names.innermost().inside
        self.rows = [it.kind.class_ for it in self.rules.classes] + [it.row for it in declared.values() if isinstance(it, names.Exception_)]
        self.names = {it.kind: name for name, it in declared.items() if hasattr(it, "kind")}
        items = [it for it in grammar.read(self.bytes).items if isinstance(it, grammar.Interface) and it.operations is not None]
        self.operations = {it.word.name: {each.word.name: self.operation(each) for each in it.operations} for it in items}
        for it in items:
            for base in it.bases:
                self.operations[it.word.name] |= self.operations[base.words[-1]]

    def part(self, field, name):
        return Part(name, self.rules.type(field.type), field.tag and field.tag.given)

    def operation(self, item):
        parts = [(it.is_out, self.part(it.field, it.field.word.name)) for it in item.parameters]
        returned = [self.part(item.result, "$return")] if item.result else []
        given = tuple(part for is_out, part in parts if not is_out)
        return Operation(item.word.name, item.is_idempotent, given, (*returned, *(part for is_out, part in parts if is_out)))


# Values


class Held:
    """Makes what a text of JSON notes, in Ice's own form."""

    def __init__(self, text, types, communicator, told):
        self.text, self.types, self.communicator = text, types, communicator
        self.rows = {it.type_id.decode(): it for it in text.rows}
        self.instances = [self.named(it["slices"][0]["class"])() for it in told["instances"]]
        for held, it in zip(self.instances, told["instances"]):
            for slice_ in it["slices"]:
                self.fill(held, slice_)

    def named(self, type_id):
        return getattr(self.types, type_id.split("::")[-1])

    def fill(self, held, slice_):
        row = self.rows[slice_["class"]]
        kinds = dict(zip(row.required_names, row.required)) | {row.optional_names[tag]: kind for tag, kind in row.optional.items()}
        for name, it in slice_["members"].items():
            setattr(held, name, self.value(it, kinds[name]))

    def value(self, it, kind):
        if kind.sort == "class":
            return None if it is None else self.instances[it["$"] - 2]
        if kind.sort == "enum":
            return getattr(getattr(self.types, self.text.names[kind]), it)
        if kind.sort == "struct":
            members = [self.value(it[name], part) for name, part in zip(kind.names, kind.parts)]
            return getattr(self.types, self.text.names[kind])(*members)
        if kind.sort == "sequence":
            return [self.value(each, kind.parts[0]) for each in it]
        if kind.sort == "dictionary":
            return {self.value(key, kind.parts[0]): self.value(each, kind.parts[1]) for key, each in it}
        if kind.sort == "proxy" and it is not None:
            proxy = self.communicator.stringToProxy(it)
            name = self.text.names.get(kind)
            return getattr(self.types, f"{name}Prx").uncheckedCast(proxy) if name else proxy
        return it


class Client:
    """A client of Ice for Python, of which each call is what `ice call` has to tell of it. It keeps to a format."""

    def __init__(self, text, is_compact=False, options=(ONCE,)):
        import Ice

        self.Ice, self.text, self.is_compact = Ice, text, is_compact
        if MODULE not in sys.modules:
            Ice.loadSlice("", ["--all", FILE])
        self.types = importlib.import_module(MODULE)
        self.communicator = Ice.initialize([*QUIET, FORMATS[is_compact], *options])

    def proxy(self, words, interface="Desk"):
        return getattr(self.types, f"{interface}Prx").uncheckedCast(self.communicator.stringToProxy(words))

    def held(self, operation, told):
        """Returns the arguments of an operation in Ice's own form."""
        held, import_ = Held(self.text, self.types, self.communicator, told), self.Ice
        roots = told["roots"]
        return [held.value(roots[it.name], it.kind) if it.name in roots else import_.Unset for it in operation.arguments]

    def line(self, operation, came):
        """Returns the line that `ice call` prints of the results."""
        results = (came,) if len(operation.results) == 1 else came or ()
        held = {part.name: it for part, it in zip(operation.results, results, strict=True) if it is not self.Ice.Unset}
        walk = ice_json.Walk({it.type_id.decode(): it for it in self.text.rows})
        roots = {it.name: walk.value(held[it.name], it.kind) for it in in_order(operation.results) if it.name in held}
        return json_texts.written({"instances": walk.listing(), "roots": roots}) + b"\n"

    def reason(self, call, error):
        """Returns the REASON for what a call raised."""
        Ice = self.Ice
        quoted = lambda text: b'"' + proxies.escaped(text.encode()) + b'"'
        if isinstance(error, Ice.UnknownUserException) and not self.is_told_unknown(call):
            return b"raised " + error.unknown.encode()
        for status, sort in {2: Ice.ObjectNotExistException, 3: Ice.FacetNotExistException, 4: Ice.OperationNotExistException}.items():
            if isinstance(error, sort):
                return b"missing %d" % status
        for status, sort in {5: Ice.UnknownLocalException, 6: Ice.UnknownUserException, 7: Ice.UnknownException}.items():
            if isinstance(error, sort):
                return b"unknown %d " % status + quoted(error.unknown)
        if isinstance(error, Ice.UserException):
            return b"raised " + error.ice_id().encode()
        return type(error).__name__.encode()

    def is_told_unknown(self, call):
        """Says whether the server itself told that it does not know an exception: of one that it sent the client knows none either."""
        proxy, operation, arguments = call
        received = self.Ice.OperationMode.Normal
        text = self.text.operations["Desk"][operation]
        written = arguments_of(self.communicator, proxy, operation, arguments, text)
        try:
            proxy.ice_invoke(operation, self.Ice.OperationMode.Idempotent if text.is_idempotent else received, written)
        except self.Ice.UnknownUserException:
            return True
        return False

    def told(self, proxy, operation, told, interface="Desk"):
        """Returns what `ice call` has to answer: the status, standard output and standard error."""
        row = self.text.operations[interface][operation]
        arguments = self.held(row, told)
        try:
            came = getattr(proxy, operation)(*arguments)
        except self.Ice.Exception as error:
            return 8, b"", b"ice: call ended: " + self.reason((proxy, operation, arguments), error) + b"\n"
        return 0, self.line(row, came), b""

    def end(self):
        self.communicator.destroy()


def arguments_of(communicator, proxy, operation, arguments, text):
    """Returns the encapsulation of arguments as Ice writes it: what an object gets that keeps it."""
    import Ice

    class Bytes(Ice.Blobject):
        def ice_invoke(self, given, current):
            self.got = bytes(given)
            raise Ice.ObjectNotExistException()

    keeper = Bytes()
    adapter = communicator.createObjectAdapterWithEndpoints("", "tcp -h 127.0.0.1")
    there = type(proxy).uncheckedCast(adapter.addWithUUID(keeper).ice_collocationOptimized(False))
    adapter.activate()
    with contextlib.suppress(Ice.ObjectNotExistException):
        getattr(there, operation)(*arguments)
    adapter.destroy()
    return keeper.got


# Programs


def built(folder, program, mapping, *options, place=OFFICE):
    """Builds PROGRAM.cpp in a folder with a mapping of Ice, and returns its path."""
    words, library = MAPPINGS[mapping]
    made = f"{folder}/{program}-{mapping}"
    sources = [f"{place}/{program}.cpp", f"{OFFICE}/mapping.h", FILE]
    if os.path.exists(made) and all(os.path.getmtime(it) < os.path.getmtime(made) for it in sources):
        return made
    generated = f"{folder}/{mapping}"
    if not os.path.exists(f"{generated}/Office.o") or os.path.getmtime(f"{generated}/Office.o") < os.path.getmtime(FILE):
        os.makedirs(generated, exist_ok=True)
        subprocess.run(["slice2cpp", "--output-dir", generated, FILE], check=True)
        subprocess.run(["g++", *words, *options, f"-I{generated}", "-c", f"{generated}/Office.cpp", "-o", f"{generated}/Office.o"], check=True)
    files = [f"{place}/{program}.cpp", f"{generated}/Office.o"]
    command = ["g++", *words, *options, f"-I{generated}", f"-I{OFFICE}", "-o", made, *files, f"-l{library}", "-lpthread"]
    subprocess.run(command, check=True)
    return made


class Server:
    """A server of real Ice in a process of its own, which ends with this one."""

    def __init__(self, name, folder, *words, options=(), program="server"):
        command = [sys.executable, f"{OFFICE}/{program}.py"] if name == "python" else [built(folder, program, name, *options)]
        self.process = subprocess.Popen([*command, *QUIET, *words], stdin=subprocess.PIPE, stdout=subprocess.PIPE)
        self.port = int(self.process.stdout.readline())

    def at(self, words):
        return f"{words}:tcp -h 127.0.0.1 -p {self.port}"

    def end(self):
        self.process.stdin.close()
        self.process.stdout.close()
        self.process.wait(20)


def free_port():
    with socket.create_server(("127.0.0.1", 0)) as free:
        return free.getsockname()[1]


class Registry:
    """The registry of IceGrid in a process of its own. Servers tell it their adapters."""

    def __init__(self, folder):
        os.mkdir(folder)
        port = free_port()
        options = {f"Registry.{it}.Endpoints": "tcp -h 127.0.0.1" for it in ("Server", "Internal")} | {"InstanceName": "IceGrid"}
        options |= {"Registry.Client.Endpoints": f"tcp -h 127.0.0.1 -p {port}", "Registry.LMDB.Path": folder}
        options |= {"Registry.DynamicRegistration": "1", "Registry.AdminPermissionsVerifier": "IceGrid/NullPermissionsVerifier"}
        options |= {"Registry.SessionTimeout": "600"}  # on a busy machine all takes long
        words = (f"--IceGrid.{name}={it}" for name, it in options.items())
        self.process = subprocess.Popen(["icegridregistry", *words], stderr=subprocess.DEVNULL)
        atexit.register(self.process.kill)
        self.port, self.words = port, f"IceGrid/Locator:tcp -h 127.0.0.1 -p {port}"
        self.option = f"--Ice.Default.Locator={self.words}"

    @staticmethod
    def is_there():
        return shutil.which("icegridregistry") is not None

    def end(self):
        self.process.terminate()
        self.process.wait(20)


def noted(**roots):
    return {"instances": [], "roots": roots}


def text_of(told):
    return json.dumps(told, ensure_ascii=False, separators=(",", ":")).encode()


def until(fact, seconds=20):
    """Waits until something is so."""
    last = time.monotonic() + seconds
    while not fact() and time.monotonic() < last:
        time.sleep(0.01)
