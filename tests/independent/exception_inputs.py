"""Makes Slice texts with exceptions and classes from a seed, and exceptions: with instances, with kept slices or without, spelled in
varied ways, or broken in a part or a byte. What a text with fewer exceptions and classes keeps, those with more read.
"""
import random

import exceptions
import generate
import graph_inputs
import graphs
import kinds
from exceptions import Raised, RaisedWriter
from generate import Trial
from graph_inputs import GraphMaker, KeepingMaker, VariedWriter
from graphs import Known

TEXTS = 3


class ExceptionMaker(graph_inputs.ClassMaker):
    """Makes texts with exceptions, each of which stands behind its base."""

    def __init__(self, chance):
        super().__init__(chance)
        self.raised = {}  # the rows of the exceptions by their names

    def name(self, others):
        return super().name([*others, *self.raised] if others is self.kinds else others)

    def add_exception(self):
        name, base, head = self.name(self.kinds), None, []
        if self.raised and self.chance.random() < 0.6:
            base = self.chance.choice(list(self.raised)[-3:])
            head = ["extends", base]
        row = kinds.Class()
        self.fill(row, name, self.raised.get(base), self.inherited(base), ["exception", name, *head])
        self.raised[name] = row


def made_texts(maker, chance):
    """Returns a text without exceptions, and others of which each has what the one before it has, and more."""
    texts = []
    for at in range(TEXTS):
        graph_inputs.schema(chance, maker)
        if at == 0:
            texts.append(generate.text_of(maker.tokens(), chance))
        for _ in range(chance.choice([1, 2, 3])):
            maker.add_exception()
        texts.append(generate.text_of(maker.tokens(), chance))
    return texts


class RaisedMaker(GraphMaker):
    """Makes exceptions without kept slices."""

    def raised(self, row):
        slices = self.kept_slices()
        while row:
            slices.append(Known(row, [self.value(it) for it in row.required], self.options(row)))
            row = row.base
        self.fill()
        return Raised(slices, self.instances)

    def kept_slices(self):
        return []


class KeepingRaisedMaker(RaisedMaker, KeepingMaker):
    """Makes exceptions with kept slices before those of known exceptions, or with kept slices alone. Those may have the type ids of
    classes, and those of instances the type ids of exceptions."""

    def __init__(self, chance, maker, most, wrong=0.0):
        super().__init__(chance, list(maker.rows.values()), most, maker.module, wrong)
        self.class_ids, self.exception_ids = [it.type_id for it in self.rows if it], [it.type_id for it in maker.raised.values()]
        self.ids += self.exception_ids

    def raised(self, row):
        self.kept_count = self.chance.choice([1, 1, 2, 3]) if row is None or self.chance.random() < 0.7 else 0
        return super().raised(row)

    def kept_slices(self):
        return [self.raised_slice() for _ in range(self.kept_count)]

    def raised_slice(self):
        found = self.kept_slice()
        if self.chance.random() < 0.2 or found.type_id in self.exception_ids or found.type_id.startswith(b"#"):
            found.type_id = self.chance.choice(self.class_ids)
        return found


def other_slices(raised, chance):
    """Returns an exception that has its slices in another order, or one slice less or more, so that it may be none."""
    graph = graph_inputs.other_slices(graphs.Graph(None, [raised.slices]), chance)
    return Raised(graph.instances[0], raised.instances)


# Inputs


class VariedRaisedWriter(RaisedWriter, VariedWriter):
    """Writes an exception in any way that is read as that one, or one with a part changed. The last slice may lack its flag."""

    def exception(self, slices):
        self.lacks_flag = self.is_so(self.chance.choice([0, 0.5]))
        is_plain = not graphs.keeps(slices) and self.is_so(self.style.compact)
        yield from self.plain_exception(slices) if is_plain else super().exception(slices)

    def has_last_flag(self, at, slices):
        return super().has_last_flag(at, slices) and not self.lacks_flag


def spelled(raised, chance, is_sized=False):
    return exceptions.encode(raised, VariedRaisedWriter(raised, chance.random(), is_sized=is_sized))


def broken_parts(raised, chance, count):
    """Yields so many inputs of an exception, each with a part changed."""
    seed = chance.random()
    writer = VariedRaisedWriter(raised, seed)
    exceptions.encode(raised, writer)
    for what, at, changed in graph_inputs.broken_parts(writer.parts, chance, count):
        yield what, exceptions.encode(raised, VariedRaisedWriter(raised, seed, at, changed))


def other_flags(raised, chance):
    """Yields inputs in which the flags of one slice of the exception are each of those that there are, or have a bit more."""
    seed = chance.random()
    writer = VariedRaisedWriter(raised, seed)
    exceptions.encode(raised, writer)
    at = chance.choice([at for at, (what, _) in enumerate(writer.parts) if what in ("flags", "kept flags")])
    for flags in [*range(64), 64, 128, 0x70, 0xB0]:
        yield exceptions.encode(raised, VariedRaisedWriter(raised, seed, at, bytes([flags])))


# Lots


def trial(what, text, data, canonical=None, is_compact=False):
    return Trial(what, text, "", data, canonical, is_compact)


def good_trials(text, raised, chance, count):
    """Yields an exception in its canonical form and in so many others, to be written in both formats."""
    canonical, compact = exceptions.encode(raised), exceptions.encode_compact(raised)
    inputs = [("canonical", canonical), ("in compact format", compact)] if compact else [("canonical", canonical)]
    for how, data in [*inputs, *(("spelled otherwise", spelled(raised, chance)) for _ in range(count))]:
        yield trial(how, text, data, canonical)
        yield trial(f"{how}, to compact format", text, data, compact or b"", True)


def through(texts, data, canonical):
    """Yields what becomes of an input under one text after the other, which is this under the last one."""
    for text in texts:
        yield trial("through texts that lack some", text, data, canonical if text is texts[-1] else None)
        data = exceptions.answer({"s.ice": text}, "s.ice", data)[0][1]


def lacking_trials(texts, raised, chance):
    """Yields an exception under texts that lack exceptions or classes of it."""
    canonical, compact = exceptions.encode(raised), exceptions.encode_compact(raised)
    for text in texts[:-1]:
        yield trial("what the text lacks, canonical", text, canonical, canonical)
        yield trial("what the text lacks, to compact format", text, canonical, None, True)
        if compact:
            yield trial("what the text lacks, in compact format", text, compact, None, chance.random() < 0.5)
    yield from through(texts, spelled(raised, chance, True), canonical)


def broken_trials(texts, raised, chance, count):
    for what, data in broken_parts(raised, chance, count):
        text = texts[-1] if chance.random() < 0.7 else chance.choice(texts)
        yield trial(f"another {what}", text, data, None, chance.random() < 0.2)


def odd_trials(text, row, maker, chance):
    """Yields exceptions with instances of classes that may not fit, or with other slices than an exception has."""
    rows = list(maker.rows.values())
    for made in RaisedMaker(chance, rows, 6, 0.3), KeepingRaisedMaker(chance, maker, 6, 0.1):
        raised = made.raised(row)
        yield trial("instances of any class", text, spelled(raised, chance), None, chance.random() < 0.2)
        yield trial("other slices", text, spelled(other_slices(raised, chance), chance, True))


def short_trials(texts, short, chance):
    """Yields a short input with bytes changed."""
    if short:
        broken = list(generate.broken_inputs(chance.choice(short), chance))
        for what, data in chance.sample(broken, min(30, len(broken))):
            yield trial(what, chance.choice(texts), data, None, chance.random() < 0.2)


def lot(seed, number, most=(2, 6, 20)):
    """Returns the trials of one schema."""
    chance = random.Random(f"exceptions {seed} {number}")
    maker = ExceptionMaker(chance)
    texts = made_texts(maker, chance)
    rows, named, trials = list(maker.rows.values()), list(maker.raised.values()), []
    for row in chance.sample(named, min(3, len(named))):
        for count in most:
            for raised in RaisedMaker(chance, rows, count).raised(row), KeepingRaisedMaker(chance, maker, count).raised(row):
                trials += good_trials(texts[-1], raised, chance, 3)
                trials += lacking_trials(texts, raised, chance)
                trials += broken_trials(texts, raised, chance, 12)
        trials += odd_trials(texts[-1], row, maker, chance)
    raised = KeepingRaisedMaker(chance, maker, 4).raised(None)
    trials += [*good_trials(texts[-1], raised, chance, 3), *broken_trials(texts, raised, chance, 12)]
    short = RaisedMaker(chance, rows, 2).raised(chance.choice(named))
    trials += [trial("other flags", chance.choice(texts), data) for data in other_flags(chance.choice([raised, short]), chance)]
    trials += short_trials(texts, [it.data for it in trials if it.canonical is not None and len(it.data) <= 80], chance)
    return trials
