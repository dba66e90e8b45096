"""Makes Slice texts that have more and more classes from a seed, and inputs with instances of all of them: what the texts with fewer
classes keep, those with more read.
"""
import random

import generate
import graph_inputs
import graphs
import relay
from generate import Trial
from graph_inputs import GraphMaker, KeepingMaker, VariedWriter

TEXTS = 3


def made_texts(maker, chance):
    """Returns the texts, of which each has what the one before it has, and the types of the first by their words."""
    texts, types = [], {}
    for _ in range(TEXTS):
        graph_inputs.schema(chance, maker)
        types = types or maker.types()
        texts.append(generate.text_of(maker.tokens(), chance))
    return texts, types


def through(texts, word, data, canonical):
    """Yields what becomes of an input under one text after the other, which is this under the last one."""
    for text in texts:
        yield Trial("classes that the text lacks", text, word, data, canonical if text is texts[-1] else None)
        data = relay.relay({"s.ice": text}, "s.ice", word, data)[0][1]


def graph_trials(texts, word, kind, graph, chance):
    canonical = graphs.encode(graph, kind)
    for text in texts:
        yield Trial("classes that the text lacks, canonical", text, word, canonical, canonical)
        yield Trial("classes that the text lacks, to compact format", text, word, canonical, None, True)
    for _ in range(2):
        yield from through(texts, word, graphs.encode(graph, kind, VariedWriter(graph, chance.random(), is_sized=True)), canonical)
    yield Trial("classes that the text lacks, in any format", texts[0], word, graphs.encode(graph, kind, VariedWriter(graph, chance.random())))
    for what, data in graph_inputs.broken_graphs(graph, kind, chance, 6):
        yield Trial(f"classes that the text lacks, another {what}", chance.choice(texts[:-1]), word, data, None, chance.random() < 0.2)


def lot(seed, number, types=3, most=(2, 6, 15)):
    """Returns the trials of one schema."""
    chance = random.Random(f"fewer {seed} {number}")
    maker = graph_inputs.ClassMaker(chance)
    texts, named = made_texts(maker, chance)
    rows, trials = list(maker.rows.values()), []
    for word, kind in chance.sample(list(named.items()), min(types, len(named))):
        for count in most:
            trials += graph_trials(texts, word, kind, GraphMaker(chance, rows, count).graph(kind), chance)
            trials += graph_trials(texts, word, kind, KeepingMaker(chance, rows, count, maker.module).graph(kind), chance)
    return trials
