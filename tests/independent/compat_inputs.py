"""Makes pairs of Slice texts from a seed: one with classes, and the same with some of its definitions changed; and graphs under the
first, spelled in varied ways without kept slices and skipped tags.
"""
import random

import generate
import graph_inputs
import graphs
import relay
import values
from graph_inputs import GraphMaker, VariedWriter

TAGS = [0, 1, 2, 5, 29, 30, 300]
PLAIN = ["bool", "byte", "short", "int", "long", "string"]


class PlainWriter(VariedWriter):
    """Writes a graph in any way that is read as that graph, without members of unknown tags."""

    def __init__(self, graph, seed, is_sized=False):
        super().__init__(graph, seed, is_sized=is_sized)
        self.style.tags = 0

    def type_id(self, it):
        if it.startswith(b"#"):
            return graphs.AS_NUMBER, values.spelled_size(int(it[1:]))
        return super().type_id(it)


def statements(tokens):
    """Returns what stands before the braces of a definition, and the statements between them."""
    first = tokens.index("{")
    inside, found = tokens[first + 1 : -2], []
    while inside:
        end = inside.index(";")
        found.append(inside[: end + 1])
        inside = inside[end + 1 :]
    return tokens[:first], found


def together(head, members):
    return [*head, "{", *(token for it in members for token in it), "}", ";"]


def is_optional(member):
    return member[0] == "optional"


class Change:
    """Changes definitions, lists of tokens: most ways are ones that are read, some are not."""

    def __init__(self, chance, words):
        self.chance, self.words = chance, words

    def definitions(self, given):
        changed = [list(it) for it in given]
        for _ in range(self.chance.choice([0, 1, 1, 2, 3])):
            at = self.chance.randrange(len(changed))
            if changed[at][0] == "class" and "{" in changed[at]:
                changed[at] = self.class_(changed[at])
            elif changed[at][0] == "struct":
                changed[at] = self.members_changed(changed[at])
            elif changed[at][0] == "enum":
                changed[at] = self.enum(changed[at])
            elif changed[at][0] == "sequence":
                changed[at] = ["sequence", "<", self.word(), ">", *changed[at][-2:]]
        return changed

    def word(self):
        return self.chance.choice(self.words if self.chance.random() < 0.5 else PLAIN)

    def class_(self, tokens):
        way = self.chance.choice(["drop optional", "drop optional", "add optional", "add optional", "tag", "members", "members", "compact", "base", "drop"])
        head, members = statements(tokens)
        optional = [it for it in members if is_optional(it)]
        if way == "drop optional" and optional:
            members.remove(self.chance.choice(optional))
        elif way == "add optional":
            members.insert(self.chance.randrange(len(members) + 1), ["optional", "(", str(self.chance.choice(TAGS)), ")", self.word(), "added", ";"])
        elif way == "tag" and optional:
            self.chance.choice(optional)[2] = str(self.chance.choice(TAGS))
        elif way == "members":
            return self.members_changed(tokens)
        elif way == "compact":
            head = [it for it in head if it not in ("(", ")") and not it.isdigit()]
            head[2:2] = ["(", str(self.chance.choice([1, 2, 3])), ")"]
        elif way == "base" and "extends" in head:
            del head[head.index("extends") :]
        elif way == "drop" and members:
            members.remove(self.chance.choice(members))
        return together(head, members)

    def members_changed(self, tokens):
        """Returns a struct or a class in which one member has another type or another name."""
        head, members = statements(tokens)
        if members:
            member = self.chance.choice(members)
            if self.chance.random() < 0.5:
                member[-2] = "renamed"
            else:
                start = 4 if is_optional(member) else 0
                member[start:-2] = [self.word()]
        return together(head, members)

    def enum(self, tokens):
        return [*tokens[:-2], ",", "Further", "}", ";"] if self.chance.random() < 0.7 else tokens


def numbered_classes(maker, chance):
    """Gives some classes compact ids."""
    for at, number in zip(range(len(maker.definitions)), range(1, 4)):
        tokens = maker.definitions[chance.randrange(len(maker.definitions))]
        if tokens[0] == "class" and "{" in tokens and "(" not in tokens[: tokens.index("{")]:
            tokens[2:2] = ["(", str(number), ")"]


def lot(seed, number, changes=8):
    """Returns an old text, new ones, and the words of the types that reach classes."""
    chance = random.Random(f"compat {seed} {number}")
    maker = graph_inputs.ClassMaker(chance)
    graph_inputs.schema(chance, maker)
    if chance.random() < 0.5:
        numbered_classes(maker, chance)
    words = [it for it in maker.kinds if not it.endswith("*")]
    old = generate.text_of(maker.tokens(), chance)
    news = [
        generate.text_of(generate.tokens_of(maker.module, Change(chance, words).definitions(maker.definitions)), chance) for _ in range(changes)
    ]
    return old, news, list(maker.types())


def spellings(schema, kind, chance, count=4):
    """Yields graphs of a type with bytes that spell them, and whether each instance has slice sizes."""
    rows = relay.classes_of(schema)
    for _ in range(count):
        graph = GraphMaker(chance, rows, chance.choice([1, 3, 8])).graph(kind)
        is_sized = chance.random() < 0.5
        yield graphs.encode(graph, kind, PlainWriter(graph, chance.random(), is_sized)), is_sized
