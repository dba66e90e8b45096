"""Notes a graph of instances in JSON, and reads such a notation.

The whole is `{"instances":[..],"roots":{"$value":V}}`, and the instance at place k, from 0, has the number k + 2.
Bools, integers and strings are noted as such, an enumerator by its name, a sequence as an array, a dictionary as an
array of arrays of a key and a value, a struct as an object of its members, a proxy by its printed form, a reference
as `{"$":NUMBER}`; null ones as `null`. An instance is `{"slices":[..]}`: a known slice is
`{"class":ID,"members":{..}}` with the members that the class itself declares, where optional ones may lack, a kept
one `{"bytes":HEX,"kept":ID,"optionals":BOOL,"table":[..]}`.

What is noted here lists the instances in the order in which a walk from the root meets them, depth first. What is
read may list them in any order, and others too, which have to be instances as well.
"""
import functools
import re

import graphs
import json_texts
import kinds
import proxies
from graphs import Graph, Kept, Known, Ref

# The name of the one root, the number of the first instance, and how many may be listed.
ROOT, FIRST, MOST_LISTED = "$value", 2, 100_000
HEX = re.compile("(?:[0-9A-Fa-f]{2})*")
NUMBER = re.compile(b"0|[1-9][0-9]*")
MOST_COMPACT_ID = 2**31 - 1


@functools.cache
def names_of(kind):
    """Returns the names of the enumerators of an enum by their numbers."""
    return dict(zip(sorted(kind.numbers), kind.names, strict=True))


@functools.cache
def numbers_of(kind):
    return {name: number for number, name in names_of(kind).items()}


# Noting


def met(graph, kind):
    """Returns the numbers of the instances that a walk from the root meets, each with its place."""
    places, open_ = {}, [graphs.refs_in(graph.root, kind)]
    while open_:
        ref = next(open_[-1], None)
        if ref is None:
            open_.pop()
        elif ref.number not in places:
            places[ref.number] = len(places)
            open_.append(refs_of(graph.instances[ref.number]))
    return places


def refs_of(slices):
    for it in slices:
        yield from graphs.refs_of(it)


class Noter:
    def __init__(self, graph, kind):
        self.graph, self.kind, self.places = graph, kind, met(graph, kind)

    def whole(self):
        listed = [{"slices": [self.slice(it) for it in self.graph.instances[number]]} for number in self.places]
        return {"instances": listed, "roots": {ROOT: self.value(self.graph.root, self.kind)}}

    def ref(self, ref):
        return None if ref is None else {"$": self.places[ref.number] + FIRST}

    def value(self, value, kind):
        if kind.sort == "class":
            return self.ref(value)
        if kind.sort == "string":
            return value.decode()
        if kind.sort == "enum":
            return names_of(kind)[value]
        if kind.sort == "proxy":
            return None if value is None else proxies.printed(value).decode()
        if kind.sort == "struct":
            return {name: self.value(it, part) for name, it, part in zip(kind.names, value, kind.parts, strict=True)}
        if kind.sort == "sequence":
            return [self.value(it, kind.parts[0]) for it in value]
        if kind.sort == "dictionary":
            return [[self.value(it, part) for it, part in zip(pair, kind.parts)] for pair in value]
        return value

    def slice(self, it):
        if isinstance(it, Kept):
            table = [self.ref(ref) for ref in it.table]
            return {"bytes": it.data.hex(), "kept": it.type_id.decode(), "optionals": it.has_optional, "table": table}
        row = it.row
        required = zip(row.required_names, it.required, row.required, strict=True)
        members = {name: self.value(value, kind) for name, value, kind in required}
        members |= {row.optional_names[tag]: self.value(value, row.optional[tag]) for tag, value in it.optional}
        return {"class": row.type_id.decode(), "members": members}


def noted(graph, kind):
    """Returns what notes a graph, made of lists, dicts and so on."""
    return Noter(graph, kind).whole()


# Reading


class Misfit(Exception):
    pass


def demand(is_so, why):
    if not is_so:
        raise Misfit(why)


def members_of(it, *names):
    """Returns the values of an object that has exactly these names, in the order of the names here."""
    demand(isinstance(it, dict), "no object")
    demand(it.keys() == set(names), f"not the names {' '.join(names)}")
    return [it[name] for name in names]


def array(it):
    demand(isinstance(it, list), "no array")
    return it


def text(it):
    demand(isinstance(it, str), "no string")
    return it.encode()


def truth(it):
    demand(isinstance(it, bool), "no truth value")
    return it


def integer(it, least, most):
    demand(type(it) is int and least <= it <= most, f"no integer from {least} to {most}")
    return it


def proxy(it):
    """Returns the proxy of a text."""
    try:
        return proxies.read(text(it))
    except proxies.Refused as why:
        raise Misfit(f"no proxy: {why}") from None


class Reader:
    def __init__(self, classes):
        self.classes = {it.type_id: it for it in classes}
        self.compact_ids = {it.compact for it in classes}
        self.met = []  # declared class and reference of all that is not null

    def whole(self, told, kind):
        listed, roots = members_of(told, "instances", "roots")
        instances = [self.instance(it) for it in array(listed)]
        root = self.value(*members_of(roots, ROOT), kind)
        found = [graphs.class_of(it) for it in instances]
        for declared, ref in self.met:
            demand(0 <= ref.number < len(instances), "a number that no instance has")
            row = found[ref.number]
            demand(declared is None or row is not None and row.is_a(declared), "an instance of another class")
        return Graph(root, instances)

    # Values

    def ref(self, it, declared):
        (number,) = members_of(it, "$")
        demand(type(number) is int, "no number of an instance")
        ref = Ref(number - FIRST)
        self.met.append((declared, ref))
        return ref

    def value(self, it, kind):
        if kind.sort in kinds.INTEGERS:
            return integer(it, *kinds.INTEGERS[kind.sort])
        if kind.sort in ("class", "proxy") and it is None:
            return None
        return getattr(self, kind.sort)(it, kind)

    def bool(self, it, kind):
        return truth(it)

    def string(self, it, kind):
        return text(it)

    def enum(self, it, kind):
        demand(isinstance(it, str) and it in numbers_of(kind), "no enumerator")
        return numbers_of(kind)[it]

    def proxy(self, it, kind):
        return proxy(it)

    def sequence(self, it, kind):
        return [self.value(each, kind.parts[0]) for each in array(it)]

    def dictionary(self, it, kind):
        pairs = {}
        for pair in array(it):
            demand(len(array(pair)) == 2, "no pair")
            key = self.value(pair[0], kind.parts[0])
            demand(key not in pairs, "a key twice")
            pairs[key] = self.value(pair[1], kind.parts[1])
        return [(key, pairs[key]) for key in sorted(pairs)]

    def struct(self, it, kind):
        held = members_of(it, *kind.names)
        return tuple([self.value(each, part) for each, part in zip(held, kind.parts)])

    def class_(self, it, kind):
        return self.ref(it, kind.class_)

    # Instances

    def instance(self, it):
        (listed,) = members_of(it, "slices")
        demand(array(listed), "no slices")
        slices = [self.slice(each) for each in listed]
        known = [each for each in slices if isinstance(each, Known)]
        demand(slices[len(slices) - len(known) :] == known, "a kept slice behind a known one")
        rows = [each.row for each in known]
        demand(rows == list(with_bases(rows[0])) if rows else True, "not a class and its bases")
        return slices

    def slice(self, it):
        demand(isinstance(it, dict), "no slice")
        return self.kept(it) if "kept" in it else self.known(it)

    def kept(self, it):
        data, type_id, has_optional, table = members_of(it, "bytes", "kept", "optionals", "table")
        demand(text(type_id) not in self.classes and self.is_kept(text(type_id)), "a kept slice of a known class")
        demand(isinstance(data, str) and HEX.fullmatch(data), "no bytes")
        refs = [self.ref(each, None) for each in array(table)]
        return Kept(text(type_id), bytes.fromhex(data), truth(has_optional), refs)

    def is_kept(self, id_):
        """Says whether a slice may be kept under the id: a type id, or a compact id that no class has."""
        number = id_[1:]
        if not id_.startswith(b"#"):
            return True
        return bool(NUMBER.fullmatch(number)) and int(number) <= MOST_COMPACT_ID and int(number) not in self.compact_ids

    def known(self, it):
        type_id, members = members_of(it, "class", "members")
        row = self.classes.get(text(type_id))
        demand(row is not None, "a class that is not known")
        demand(isinstance(members, dict), "no members")
        present = [tag for tag in row.optional if row.optional_names[tag] in members]
        names = [*row.required_names, *(row.optional_names[tag] for tag in present)]
        held = members_of(members, *names)
        parts = [*row.required, *(row.optional[tag] for tag in present)]
        found = [self.value(each, part) for each, part in zip(held, parts, strict=True)]
        count = len(row.required)
        return Known(row, found[:count], list(zip(present, found[count:], strict=True)))


# `class` is a word of Python's own.
setattr(Reader, "class", Reader.class_)


def with_bases(row):
    """Yields a class and its bases."""
    while row is not None:
        yield row
        row = row.base


def is_too_many(told):
    """Says whether more instances are listed than may be, whatever else is told."""
    listed = told.get("instances") if isinstance(told, dict) else None
    return isinstance(listed, list) and len(listed) > MOST_LISTED


def graph_of(told, kind, classes):
    """Returns the graph that is told, or raises `Misfit`."""
    return Reader(classes).whole(told, kind)


def note(graph, kind):
    return json_texts.written(noted(graph, kind))
