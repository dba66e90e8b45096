"""Reads one encapsulation of a user exception, or finds its first fault, and writes the canonical one, with the sizes of slices or
without; and the answer that `workbench exception [--compact] FILE` has to give.

An exception has slices as an instance has, by tables of its own, and instances begin in them as in those of an instance. No bits of
a type id stand in its flags: each slice has its type id as a string, which no index means. Some writers leave out the flag of the
last slice. A known exception without a base is the last slice with it or without it, and without it so is a kept slice where the
content ends.
"""
from dataclasses import dataclass

import graphs
import relay
import values
from graphs import LAST, SIZED, TABLE, TYPE_ID
from values import Cursor, Fault


@dataclass(eq=False)
class Raised:
    slices: list
    instances: list  # of lists of slices


# Reading


class Reader(graphs.Reader):
    def __init__(self, exceptions, classes):
        super().__init__(classes)
        self.exceptions = {it.type_id: it for it in exceptions}

    def exception(self, cursor):
        """Returns the slices of an exception."""
        slices, base, is_sized, has_more = [], None, None, True  # the exception that has to follow, whether slices have sizes
        while has_more:
            flags_place = cursor.at
            flags = self.raised_flags(cursor, is_sized)
            is_sized, is_last = bool(flags & SIZED), bool(flags & LAST)
            id_place = cursor.at
            type_id = graphs.type_id_at(cursor)
            row = self.exceptions.get(type_id)
            if base and row is not base:
                raise Fault(id_place, "WrongBase")
            if not row and not is_sized:
                raise Fault(id_place, "UnknownClass")
            base = row.base if row else None
            if base and is_last:
                raise Fault(flags_place, "BadLast")
            slices.append((yield from self.slice(cursor, type_id, row, flags)))
            has_more = base is not None if row else not is_last and cursor.at < cursor.bound
        return slices

    def raised_flags(self, cursor, is_sized):
        """Returns the flags of a slice, the first one where `is_sized` is None."""
        first = cursor.at
        flags = cursor.number(1, False)
        has_size = bool(flags & SIZED)
        is_bad = flags > graphs.BITS or flags & TYPE_ID or flags & TABLE and not has_size
        if is_bad or is_sized not in (None, has_size):
            raise Fault(first, "BadFlags")
        return flags


def decode(data, exceptions, classes):
    """Returns the exception that an input is the encapsulation of, or raises its first `Fault`. `exceptions` and `classes` are all of
    the schema."""
    input_ = Cursor(data, 0, len(data))
    inside = input_.encapsulation()
    first = inside.at
    if inside.version() != values.VERSION:
        raise Fault(first, "BadVersion")
    reader = Reader(exceptions, classes)
    slices = graphs.finished(reader.exception(inside), reader.instance)
    inside.left_over()
    misfits = list(reader.misfits())
    if misfits:
        raise Fault(min(misfits), "WrongClass")
    input_.left_over()
    return Raised(slices, reader.instances)


# Writing


class RaisedWriter(graphs.Writer):
    """Writes an exception canonically, in a writer of what begins in it."""

    def exception(self, slices):
        for at, it in enumerate(slices):
            yield from self.slice(it, self.has_last_flag(at, slices), 0, values.spelled_string(it.type_id if isinstance(it, graphs.Kept) else it.row.type_id))

    def plain_exception(self, slices):
        """Writes the slices without sizes."""
        for at, it in enumerate(slices):
            yield from self.unsized_slice(it, self.has_last_flag(at, slices), 0, values.spelled_string(it.row.type_id))

    def has_last_flag(self, at, slices):
        return at == len(slices) - 1


class CompactRaisedWriter(RaisedWriter, graphs.CompactWriter):
    """Writes an exception canonically without the sizes of slices."""

    def exception(self, slices):
        yield from self.plain_exception(slices)


def encode(raised, writer=None):
    """Returns the encapsulation of an exception, by a writer of it; none: the canonical one."""
    writer = writer or RaisedWriter(raised)
    graphs.finished(writer.exception(raised.slices), writer.instance)
    return values.encapsulated(bytes(writer.out))


def has_kept(raised):
    """Says whether the exception has a kept slice, or leads to an instance that has one."""
    refs = [ref for it in raised.slices for ref in graphs.refs_of(it)]
    return graphs.keeps(raised.slices) or any(graphs.keeps(raised.instances[it]) for it in graphs.led_to(raised.instances, refs))


def encode_compact(raised):
    """Returns the canonical encapsulation of an exception without the sizes of slices; None where there is a kept slice."""
    return None if has_kept(raised) else encode(raised, CompactRaisedWriter(raised))


# All together


def answer(shelf, file, data, is_compact=False):
    """Returns the answer for the shelf, for FILE and for the input: status, standard output and the line on standard error; and where
    one is refused, why."""
    try:
        rules = relay.schema_of(shelf, file).rules
        raised = decode(data, rules.exceptions, [it.kind.class_ for it in rules.classes])
    except relay.Unread as unread:
        return unread.args
    except Fault as why:
        return (4, b"", f"ice: input refused at {why.place}: {why.kind}\n".encode()), str(why)
    return relay.written_answer(encode_compact(raised) if is_compact else encode(raised))
