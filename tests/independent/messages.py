"""Tells an input of messages of protocol 1.0: a line each, up to the end or to the first fault.

A message is a header of 14 bytes, which counts the whole message, and what follows by its type. Where something is wrong, it is
told as soon as its bytes are there: each byte of `IceP`, two version bytes together, the type, whether it is compressed, and the
size; and, once the message is whole, its first fault from the left. An input that ends inside a message is short at its first byte.
"""
import proxies
from values import MOST_BYTES, Cursor, Fault

MOST_MESSAGES = 1_000_000
HEADER = 14
MAGIC = b"IceP"
VERSION = b"\x01\x00"
REQUEST, BATCH, REPLY, VALIDATE, CLOSE = range(5)


def quoted(text):
    return b'"' + proxies.escaped(text) + b'"'


def quoted_identity(name, category):
    parts = [proxies.escaped(it).replace(b"/", b"\\/") for it in ([category, name] if category else [name])]
    return b'"' + b"/".join(parts) + b'"'


def header_fault(data):
    """Returns the first fault in those bytes of a header that are there, or None. The place is that in the message."""
    for at, byte in enumerate(data[:4]):
        if byte != MAGIC[at]:
            return Fault(at, "BadMagic")
    for at in (4, 6):
        if not VERSION.startswith(data[at : at + 2]) and data[at : at + 2] != VERSION:
            return Fault(at, "BadVersion")
    if len(data) > 8 and data[8] > CLOSE:
        return Fault(8, "BadMessage")
    if len(data) > 9 and data[9] > 1:
        return Fault(9, "Compressed" if data[9] == 2 else "BadStatus")
    if len(data) >= HEADER:
        size = size_of(data)
        if size > MOST_BYTES:
            return Fault(10, "TooLarge")
        if size < HEADER:
            return Fault(10, "BadSize")
    return None


def size_of(header):
    return int.from_bytes(header[10:HEADER], "little", signed=True)


def encapsulation_size(cursor):
    """Goes over an encapsulation, whatever its version, and returns how many bytes it has."""
    first = cursor.at
    cursor.encapsulation()
    return cursor.at - first


def taken_call(cursor):
    """Returns what a line tells of a call."""
    name, category = cursor.string(), cursor.string()
    facet = cursor.facet()
    operation = cursor.string()
    first = cursor.at
    mode = cursor.number(1, False)
    if mode > 2:
        raise Fault(first, "BadMode")
    keys = set()
    for _ in range(cursor.size()):
        first = cursor.at
        key = cursor.string()
        if key in keys:
            raise Fault(first, "EqualKey")
        keys.add(key)
        cursor.string()
    body = encapsulation_size(cursor)
    texts = [quoted_identity(name, category), quoted(facet), quoted(operation)]
    return b" ".join([*texts, b"%d %d %d" % (mode, len(keys), body)])


def taken_answer(cursor):
    """Goes over an answer, and returns its status."""
    first = cursor.at
    status = cursor.number(1, False)
    if status > 7:
        raise Fault(first, "BadStatus")
    if status < 2:
        encapsulation_size(cursor)
    elif status < 5:
        cursor.string(), cursor.string(), cursor.facet(), cursor.string()
    else:
        cursor.string()
    return status


def taken_line(cursor, kind, size):
    """Returns the line of a message that is whole and whose header has no fault."""
    if kind == REQUEST:
        line = b"request %d " % cursor.number(4, True) + taken_call(cursor)
    elif kind == BATCH:
        first = cursor.at
        count = cursor.number(4, True)
        if count < 0:
            raise Fault(first, "BadSize")
        for _ in range(count):
            taken_call(cursor)
        line = b"batch %d" % count
    elif kind == REPLY:
        number = cursor.number(4, True)
        line = b"reply %d %d %d" % (number, taken_answer(cursor), size - HEADER - 5)
    else:
        line = b"validate" if kind == VALIDATE else b"close"
    if cursor.at < cursor.bound:
        raise Fault(cursor.at, "LeftOver")
    return line + b"\n"


def told(data, most=MOST_MESSAGES):
    """Returns the lines that tell an input, and the fault behind them or None."""
    lines, at = [], 0
    while at < len(data):
        if len(lines) == most:
            return b"".join(lines), Fault(at, "Endless")
        rest = data[at : at + HEADER]
        fault = header_fault(rest)
        if fault is not None:
            return b"".join(lines), Fault(at + fault.place, fault.kind)
        size = size_of(rest) if len(rest) == HEADER else HEADER
        if len(data) - at < size:
            return b"".join(lines), Fault(at, "Short")
        cursor = Cursor(data, at + HEADER, at + size)
        try:
            lines.append(taken_line(cursor, rest[8], size))
        except Fault as fault:
            return b"".join(lines), fault
        at += size
    return b"".join(lines), None


def answer(data):
    """Returns the answer that `ice messages` has to give: status, standard output and the line on standard error."""
    lines, fault = told(data)
    return (0, lines, b"") if fault is None else (4, lines, f"ice: input refused at {fault.place}: {fault.kind}\n".encode())
