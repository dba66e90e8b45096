"""The answer that `ice drill START COUNT` has to give: a graph of so many nodes is drawn from a number, written in
compact format, relayed to sliced format, and relayed again.
"""
import re

import graphs
import relay
import values
from graphs import Graph, Known, Ref

TEXT = b"module D { class N { int v; N left; N right; }; };"
WORD = "::D::N"
MOST_START, MOST_COUNT = 2**31 - 1, 50_000
NUMBER = re.compile("0|[1-9][0-9]{0,9}")


class Draws:
    """Numbers in a row, each of which follows from the one before it."""

    def __init__(self, start):
        self.x = start

    def step(self):
        self.x = (self.x * 1_103_515_245 + 12_345) % 2**31
        return self.x // 65_536

    def draw(self, most):
        """Returns a number below that one."""
        high = self.step()
        return (high * 32_768 + self.step()) % most


def drawn_graph(row, start, count):
    draws, instances = Draws(start), []

    def ref():
        number = draws.draw(count + 1)
        return Ref(number) if number < count else None

    for _ in range(count):
        v = draws.draw(1_000)
        left = ref()
        instances.append([Known(row, [v, left, ref()], [])])
    return Graph(Ref(0), instances)


def number_of(word, least, most):
    """Returns the number that a word is in plain decimal, None where it is none of the range."""
    found = int(word) if NUMBER.fullmatch(word) else None
    return found if found is not None and least <= found <= most else None


def drill(*words):
    """Returns the answer for the words behind the command, and why it is one of a refusal."""
    if len(words) != 2:
        return (2, b"", b"ice: usage\n"), "words"
    start, count = number_of(words[0], 0, MOST_START), number_of(words[1], 1, MOST_COUNT)
    if start is None or count is None:
        return (2, b"", b"ice: usage\n"), "words"
    shelf = {"d.ice": TEXT}
    kind = relay.kind_of(relay.schema_of(shelf, "d.ice"), WORD)
    graph = drawn_graph(kind.class_, start, count)
    compact = graphs.encode_compact(graph, kind)
    if len(compact) > values.MOST_BYTES:
        return relay.written_answer(compact)
    first, why = relay.relay(shelf, "d.ice", WORD, compact)
    if first[0] != 0:
        return first, why
    second, _ = relay.relay(shelf, "d.ice", WORD, first[1])
    reached, is_same = len(graphs.reached(graph, kind)), "yes" if second == first else "no"
    told = f"nodes {count} reached {reached} compact {len(compact)} sliced {len(first[1])} same {is_same}\n"
    return (0, told.encode(), b""), ""
