"""The longest inputs of types with structs and with earlier names: each as it comes, and as it has to go.

A part is two spellings of one value: canonical, and with the pairs of all its dictionaries in another order.
"""
import random
import struct

MOST = 1_048_576
ROOM = MOST - 6
PAD = 300  # a padded string has a size of five bytes
CHANCE = random.Random(1)

SHOP = b"""module Shop {
    struct Article { string name; short size; };
    dictionary<string, string> Notes;
    struct Line { Article article; int count; byte discount; Notes notes; };
    sequence<Line> Lines;
    dictionary<string, Lines> Parcels;
    struct Order { long number; bool isPaid; Parcels parcels; };
    sequence<Order> Orders;
    dictionary<Article, int> Stock;
    dictionary<long, Order> Book;
};
"""

STRUCTS = b"""module M {
    struct One { byte x; };
    struct Two { One x; };
    struct Three { Two x; };
    sequence<One> Ones;
    sequence<Three> Threes;
    struct Each { bool a; byte b; short c; int d; long e; string f; };
    sequence<Each> Eaches;
    dictionary<Each, bool> EachKeys;
    struct Box { Each from; Each to; };
    dictionary<Box, Box> Boxes;
    struct Int { int x; };
    dictionary<Int, byte> IntKeys;
    dictionary<One, Ones> FewKeys;
    struct Pair { string a; string b; };
    dictionary<Pair, byte> PairKeys;
    sequence<short> Shorts;
    sequence<Shorts> Table;
    dictionary<byte, Shorts> Columns;
    sequence<Columns> Pages;
    dictionary<short, Columns> Tree;
    sequence<string> Texts;
    dictionary<int, Texts> Index;
};
"""


def number(form, it):
    data = struct.pack("<" + form, it)
    return data, data


def size(count):
    data = bytes([count]) if count < 255 else b"\xff" + struct.pack("<i", count)
    return data, data


def text(it, pad=0):
    data = size(len(it) + pad)[0] + it + b"x" * pad
    return data, data


def members(*parts):
    return b"".join([it[0] for it in parts]), b"".join([it[1] for it in parts])


def sequence(elements):
    return members(size(len(elements)), *elements)


def dictionary(pairs):
    """Returns the part of pairs that are in rising order of their keys."""
    canonical = b"".join([it[0] for it in pairs])
    given = [it[1] for it in pairs]
    CHANCE.shuffle(given)
    count = size(len(pairs))[0]
    return count + canonical, count + b"".join(given)


def encapsulated(content):
    return struct.pack("<i", 6 + len(content)) + b"\1\1" + content


# The shop


def article(it, pad=0):
    return members(text(b"article %06d" % it, pad), number("h", it % 5 - 2))


def notes(count, pad=0):
    return dictionary([members(text(b"note %06d" % it, pad if it == 0 else 0), text("größe".encode())) for it in range(count)])


def line(it, count=3, pad=0):
    return members(article(it, pad), number("i", -it), number("B", it % 256), notes(count))


def parcels(count, lines=4, pad=0):
    return dictionary([members(text(b"parcel %06d" % it), sequence([line(at, 2, pad if it == at == 0 else 0) for at in range(lines)])) for it in range(count)])


def order(it, count=3, pad=0):
    return members(number("q", it), number("B", it % 2), parcels(count, 2, pad))


def padded(pad, it):
    return pad if it == 0 else 0


# TYPE, and what spells a value of so many elements with so many bytes more in one string
SHOP_TYPES = {
    "Article": lambda count, pad: article(1, pad),
    "Notes": notes,
    "Line": lambda count, pad: line(1, count, pad),
    "Lines": lambda count, pad: sequence([line(it, 3, padded(pad, it)) for it in range(count)]),
    "Parcels": lambda count, pad: parcels(count, 4, pad),
    "Order": lambda count, pad: order(1, count, pad),
    "Orders": lambda count, pad: sequence([order(it, 3, padded(pad, it)) for it in range(count)]),
    "Stock": lambda count, pad: dictionary([members(article(it, padded(pad, it)), number("i", it)) for it in range(count)]),
    "Book": lambda count, pad: dictionary([members(number("q", it), order(it, 3, padded(pad, it))) for it in range(count)]),
}


# Structs of numbers, sequences of sequences, and structs as keys of which few members differ


def each(it, pad=0):
    """Returns a part that rises with the number."""
    return members(number("?", False), number("B", 200), number("h", -1), number("i", it // 16), number("q", it % 16 - 8), text(b"", pad))


def columns(keys, shorts):
    return dictionary([members(number("B", key), size(shorts), *[number("h", key)] * shorts) for key in range(keys)])


STRUCT_TYPES = {
    "Ones": lambda count, pad: members(size(count), (b"\xa5" * count,) * 2),
    "Threes": lambda count, pad: members(size(count), (b"\xa5" * count,) * 2),
    "Eaches": lambda count, pad: sequence([each(it, padded(pad, it)) for it in range(count)]),
    "EachKeys": lambda count, pad: dictionary([members(each(it, padded(pad, it)), number("?", True)) for it in range(count)]),
    "Boxes": lambda count, pad: dictionary([members(each(0), each(it, padded(pad, it)), each(1), each(2)) for it in range(count)]),
    "IntKeys": lambda count, pad: dictionary([members(number("i", it - 100_000), number("B", 7)) for it in range(count)]),
    "FewKeys": lambda count, pad: dictionary([members(number("B", it), size(count), (b"\x5a" * count,) * 2) for it in range(256)]),
    "PairKeys": lambda count, pad: dictionary([members(text(b"a"), text(b"%06d" % it, padded(pad, it)), number("B", 1)) for it in range(count)]),
    "Table": lambda count, pad: sequence([size(0)] * count),
    "Pages": lambda count, pad: sequence([columns(2, 0) for _ in range(count)]),
    "Tree": lambda count, pad: dictionary([members(number("h", it - 100), columns(256, 3)) for it in range(count)]),
    "Index": lambda count, pad: dictionary([members(number("i", it - 1_000), sequence([text(b""), text(b"", padded(pad, it))])) for it in range(count)]),
}


def longest(make):
    """Returns the number of elements of the longest encapsulation, the canonical one, and the one in another order.

    One string is made longer until 1,048,576 bytes are full. Without a string some bytes may be left over.
    """
    few, more = len(make(300, PAD)[0]), len(make(600, PAD)[0])
    count = 300 + (ROOM - few) * 300 // (more - few) if more > few else 1
    while len(make(count, PAD)[0]) > ROOM:
        count -= 1
    canonical, given = make(count, PAD)
    pad = PAD + ROOM - len(canonical)
    if len(make(count, pad)[0]) == ROOM:
        canonical, given = make(count, pad)
    return count, encapsulated(canonical), encapsulated(given)


def deep_text(depth):
    """Returns a text in which Q is a sequence of structs in one another, so many of them around a byte."""
    lines = [b"struct S0 { byte x; };"] + [b"struct S%d { S%d x; };" % (it, it - 1) for it in range(1, depth)]
    return b"module M { %s sequence<S%d> Q; };\n" % (b" ".join(lines), depth - 1)


def many_structs():
    """Returns a text of as many structs as 1,000,000 bytes have room for."""
    lines = [b"struct S%05d{int x;};" % it for it in range(1_000_000 // 23 - 1)]
    return b"module M {sequence<byte>Q;" + b"".join(lines) + b"};", len(lines)


def many_members():
    """Returns a text of one struct of as many members as 1,000,000 bytes have room for."""
    lines = [b"int x%05d;" % it for it in range(1_000_000 // 11 - 10)]
    return b"module M {sequence<byte>Q;struct S{" + b"".join(lines) + b"};};", len(lines)
