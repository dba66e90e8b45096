"""Changes inputs at random: encapsulations, streams of messages, and texts of JSON.

Nothing here says whether what comes out is good. A change gets the source of chance, the input, and another input to
take from.
"""
import copy
import json
import re

BYTES = (0, 1, 2, 3, 4, 5, 7, 8, 14, 127, 128, 253, 254, 255)
NUMBERS = (-1, 0, 1, 2, 4, 6, 254, 255, 256, 2**20, 2**20 + 1, 2**31 - 1)
# What a number or a name of a text is changed to.
WORDS = (b"0", b"-1", b"1", b"2", b"3", b"255", b"256", b"-32769", b"2147483648", b"9223372036854775808", b"1e1")
WORDS += (b"true", b"null", b"[]", b"{}", b'""', b'"a"', b'"\\u0000"', b'"$"', b'{"$":1}', b'{"$":2}', b'{"$":3}', b" ")
TOKENS = re.compile(rb'"(?:[^"\\]|\\.)*"|-?[0-9.eE+]+|[a-z]+|[{}\[\]:,]|\s+|.', re.DOTALL)
TYPE_ID = re.compile(rb"::[A-Za-z0-9_]+(?:::[A-Za-z0-9_]+)+")
HEADER, MAGIC = 14, b"IceP"


def piece(chance, data, most=24):
    """Returns where a short piece of an input begins and ends; it may be empty."""
    first = chance.randrange(len(data) + 1)
    return first, min(len(data), first + chance.choice((1, 1, 1, 2, 4, chance.randint(1, most))))


def bit_flipped(chance, data, _):
    at = chance.randrange(len(data))
    return data[:at] + bytes([data[at] ^ 1 << chance.randrange(8)]) + data[at + 1 :]


def byte_changed(chance, data, _):
    at = chance.randrange(len(data))
    return data[:at] + bytes([chance.choice((*BYTES, chance.randrange(256)))]) + data[at + 1 :]


def number_moved(chance, data, _):
    """A byte is raised or lowered by a little, as a size, a place, a tag or an index of a type id."""
    at = chance.randrange(len(data))
    return data[:at] + bytes([(data[at] + chance.choice((-2, -1, 1, 2))) % 256]) + data[at + 1 :]


def four_changed(chance, data, _):
    at = chance.randrange(max(1, len(data) - 3))
    old = int.from_bytes(data[at : at + 4], "little", signed=True)
    new = chance.choice((old - 1, old + 1, old + 4, *NUMBERS)) % 2**32
    return data[:at] + new.to_bytes(4, "little") + data[at + 4 :]


def cut(chance, data, _):
    return data[: chance.randrange(len(data))]


def dropped(chance, data, _):
    first, last = piece(chance, data)
    return data[:first] + data[last:]


def doubled(chance, data, _):
    first, last = piece(chance, data)
    return data[:last] + data[first:]


def exchanged(chance, data, _):
    (a, b), (c, d) = sorted((piece(chance, data), piece(chance, data)))
    return data[:a] + data[c:d] + data[b:c] + data[a:b] + data[d:] if b <= c else data


def taken_in(chance, data, other):
    """A piece of the other input is put in, or stands in the place of one of this."""
    first, last = piece(chance, other)
    at, end = piece(chance, data)
    return data[:at] + other[first:last] + data[chance.choice((at, end)) :]


def spliced(chance, data, other):
    return data[: chance.randrange(len(data) + 1)] + other[chance.randrange(len(other) + 1) :]


def slices_spliced(chance, data, other):
    """One input up to a type id, and then the other one from a type id on, with what stands before it."""
    here, there = [it.start() for it in TYPE_ID.finditer(data)], [it.start() for it in TYPE_ID.finditer(other)]
    if not here or not there:
        return spliced(chance, data, other)
    return data[: max(0, chance.choice(here) - 2)] + other[max(0, chance.choice(there) - 2) :]


def slice_changed(chance, data, other):
    """The flags before a type id, the id itself or the size behind it are changed."""
    found = list(TYPE_ID.finditer(data))
    if not found:
        return byte_changed(chance, data, other)
    it, what = chance.choice(found), chance.choice(("flags", "id", "size"))
    if what == "flags" and it.start() >= 2:
        at = it.start() - 2
        return data[:at] + bytes([data[at] ^ chance.choice((1, 2, 3, 4, 8, 16, 32, 48, 64, 128))]) + data[at + 1 :]
    if what == "id":
        new = chance.choice([it[0] for it in found] + TYPE_ID.findall(other))
        return data[: max(0, it.start() - 1)] + bytes([len(new) % 256]) + new + data[it.end() :]
    size = int.from_bytes(data[it.end() : it.end() + 4], "little") + chance.choice((-4, -1, 1, 4, -256, 256))
    return data[: it.end()] + (size % 2**32).to_bytes(4, "little") + data[it.end() + 4 :]


IN_BYTES = (bit_flipped, byte_changed, byte_changed, number_moved, number_moved, four_changed, cut, dropped, doubled)
IN_BYTES += (exchanged, taken_in, taken_in, spliced, slices_spliced, slice_changed, slice_changed)


def changed_in_bytes(chance, data, other):
    for _ in range(chance.choice((1, 1, 1, 1, 1, 2, 2, 3, 5))):
        data = chance.choice(IN_BYTES)(chance, data or b"\0", other or b"\0")
    return data


def encapsulation(chance, data, other):
    """Changes an encapsulation, and mostly counts it again in its first four bytes."""
    if chance.random() < 0.15:
        return changed_in_bytes(chance, data, other)
    content = changed_in_bytes(chance, data[6:], other[6:])
    return (6 + len(content)).to_bytes(4, "little") + data[4:6] + content


def two_encapsulations(chance, data, other):
    """Changes one of two encapsulations, one after the other."""
    first = int.from_bytes(data[:4], "little")
    if chance.random() < 0.5:
        return encapsulation(chance, data[:first], other) + data[first:]
    return data[:first] + encapsulation(chance, data[first:], other)


def messages(chance, data, other):
    """Changes one message of a stream, and mostly counts it again in its header."""
    places = [it.start() for it in re.finditer(MAGIC, data)] or [0]
    at = chance.choice(places)
    end = next((it for it in places if it > at), len(data))
    message = data[at:end]
    if len(message) <= HEADER or chance.random() < 0.2:
        return data[:at] + changed_in_bytes(chance, message, other) + data[end:]
    body = changed_in_bytes(chance, message[HEADER:], other[HEADER:])
    return data[:at] + message[:10] + (HEADER + len(body)).to_bytes(4, "little") + body + data[end:]


# How a place of a text of JSON is changed.
WAYS = ("value", "value", "value", "take", "take", "drop", "double", "order", "name")


class Object(list):
    """An object of a text of JSON, as its names and values; a name may come twice."""


def tree_of(data):
    return json.loads(data, object_pairs_hook=lambda pairs: Object(map(list, pairs)))


def text_of(tree):
    if isinstance(tree, Object):
        return "{" + ",".join(f"{json.dumps(name)}:{text_of(value)}" for name, value in tree) + "}"
    if isinstance(tree, list):
        return "[" + ",".join(map(text_of, tree)) + "]"
    return json.dumps(tree)


def places(root):
    """Returns all values in a list, each as the list that has it and its index there."""
    found, waiting = [], [root]
    while waiting:
        it = waiting.pop()
        lists = [(pair, 1) for pair in it] if isinstance(it, Object) else [(it, at) for at in range(len(it))]
        found += lists
        waiting += [inner[at] for inner, at in lists if isinstance(inner[at], list)]
    return found


def value_changed(chance, value):
    """Returns a number or a string near a value, or another value."""
    if isinstance(value, int) and not isinstance(value, bool) and chance.random() < 0.7:
        return value + chance.choice((-1, 1, 2, -256, 2**31, -(2**63)))
    if isinstance(value, str) and value and chance.random() < 0.7:
        at = chance.randrange(len(value))
        return value[:at] + chance.choice(("", "a", "A", "0", "\0", ":", "é", value[at] * 2)) + value[at + 1 :]
    reference = Object([["$", chance.randrange(1, 5)]])
    return chance.choice((None, True, 0, 1, -1, 255, 2**31, "", "a", "$", [], Object(), reference))


def tree_changed(chance, root, other):
    """Changes one place of a text: its value, the order or the names of an object, or what a list has."""
    holder, at = chance.choice(places(root))
    inner, way = holder[at], chance.choice(WAYS)
    if way == "take":
        there, index = chance.choice(places(other) + places(root))
        holder[at] = copy.deepcopy(there[index])
    elif way == "value" or not isinstance(inner, list) or not inner:
        holder[at] = value_changed(chance, inner)
    elif way == "drop":
        inner.pop(chance.randrange(len(inner)))
    elif way == "double":
        inner.insert(chance.randrange(len(inner) + 1), copy.deepcopy(chance.choice(inner)))
    elif way == "order":
        chance.shuffle(inner)
    elif isinstance(inner, Object):
        chance.choice(inner)[0] = chance.choice(("$", "$value", "instances", "a", chance.choice(inner)[0]))


def tokens_changed(chance, data, other):
    tokens, others = TOKENS.findall(data), TOKENS.findall(other) or [b" "]
    at, it = chance.randrange(len(tokens)), chance.randrange(len(tokens))
    word, taken = chance.choice(WORDS), chance.choice(others)
    way = chance.choice(("exchange", "drop", "double", "replace", "replace", "take"))
    if way == "exchange":
        tokens[at], tokens[it] = tokens[it], tokens[at]
    else:
        tokens[at : at + 1] = {"drop": [], "double": [tokens[at]] * 2, "replace": [word], "take": [taken]}[way]
    return b"".join(tokens)


def text(chance, data, other):
    """Changes a text of JSON: mostly values of it, else tokens or bytes."""
    way = chance.random()
    if way < 0.05:
        return changed_in_bytes(chance, data, other)
    if way < 0.2:
        return tokens_changed(chance, data, other)
    try:
        root, rest = [tree_of(data)], [tree_of(other)]
    except (ValueError, RecursionError):
        return tokens_changed(chance, data, other)
    for _ in range(chance.choice((1, 1, 1, 2, 3))):
        tree_changed(chance, root, rest)
    return text_of(root[0]).encode()
