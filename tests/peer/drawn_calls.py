"""Arguments of the operations of office/Office.ice, drawn from a seed and noted in JSON."""

EDGES = {"byte": (0, 1, 127, 128, 255), "short": (-(2**15), -1, 0, 258, 2**15 - 1), "int": (-(2**31), -2, 0, 77, 2**31 - 1)}
EDGES |= {"long": (-(2**63), -3, 0, 2**32, 2**63 - 1)}
WORDS = "", "a", "oak", "left and right", "gr\u00fcn", "\u65e5\u672c", 'a "b" \\c', "tab\tline\n", "x" * 254, "y" * 255, "\U0001f333"
PROXIES = (
    "desk -t -e 1.1:tcp -h 127.0.0.1 -p 4061 -t 60000",
    "desk -t -e 1.1 @ Office",
    "office/desk -f back -o -e 1.1:tcp -h 127.0.0.1 -p 1 -t infinite -z:tcp -h 127.0.0.2 -p 65535 -t 1",
    '"a b/c" -O -s -e 1.0 @ "two words"',
    "lonely -t -e 1.1",
)
OPERATIONS = "scalars", "lists", "maps", "proxies", "graph", "sliced", "compact", "options"


class Drawer:
    def __init__(self, text, chance):
        self.text, self.chance = text, chance
        self.rows = {it.type_id.decode(): it for it in text.rows}

    def told(self, operation, most=6):
        """Returns arguments of an operation, noted."""
        count = self.chance.randrange(most + 1) if any(it.kind.has_classes for it in operation.arguments) else 0
        self.classes = [self.chance.choice(["::Office::Node", "::Office::Leaf", "::Office::Leaf", "::Office::Bare"]) for _ in range(count)]
        roots = {it.name: self.value(it.kind) for it in operation.arguments if it.tag is None or self.chance.random() < 0.6}
        return {"instances": [{"slices": self.slices(it)} for it in self.classes], "roots": roots}

    def slices(self, type_id):
        row, slices = self.rows[type_id], []
        while row:
            members = {name: self.value(kind) for name, kind in zip(row.required_names, row.required)}
            for tag, kind in row.optional.items():
                if self.chance.random() < 0.5:
                    members[row.optional_names[tag]] = self.value(kind)
            slices.append({"class": row.type_id.decode(), "members": members})
            row = row.base
        return slices

    def reference(self, kind):
        fits = [at for at, it in enumerate(self.classes) if kind.class_ is None or self.rows[it].is_a(kind.class_)]
        return {"$": self.chance.choice(fits) + 2} if fits and self.chance.random() < 0.8 else None

    def value(self, kind):
        if kind.sort in EDGES:
            return self.chance.choice(EDGES[kind.sort])
        return getattr(self, f"a_{kind.sort}")(kind)

    def a_bool(self, kind):
        return self.chance.random() < 0.5

    def a_string(self, kind):
        return self.chance.choice(WORDS)

    def a_enum(self, kind):
        return self.chance.choice(kind.names)

    def a_proxy(self, kind):
        return None if self.chance.random() < 0.2 else self.chance.choice(PROXIES)

    def a_class(self, kind):
        return self.reference(kind)

    def a_struct(self, kind):
        return {name: self.value(part) for name, part in zip(kind.names, kind.parts)}

    def a_sequence(self, kind):
        return [self.value(kind.parts[0]) for _ in range(self.chance.choice((0, 1, 2, 5)))]

    def a_dictionary(self, kind):
        pairs = [[self.value(part) for part in kind.parts] for _ in range(self.chance.choice((0, 1, 3, 6)))]
        return [it for at, it in enumerate(pairs) if all(it[0] != other[0] for other in pairs[:at])]


def chain(count):
    """Returns the arguments of `sliced`, a chain of nodes the last of which leads back to the first one."""
    nodes = [{"value": at, "left": {"$": at + 3 if at + 1 < count else 2}, "right": {"$": 2}} for at in range(count)]
    instances = [{"slices": [{"class": "::Office::Node", "members": it}]} for it in nodes]
    return {"instances": instances, "roots": {"node": {"$": 2}}}


def tree(count, name="node"):
    """Returns a balanced tree of so many nodes, as the one argument of this name."""

    def link(at):
        return {"$": at + 2} if at < count else None

    nodes = [{"value": at, "left": link(2 * at + 1), "right": link(2 * at + 2)} for at in range(count)]
    instances = [{"slices": [{"class": "::Office::Node", "members": it}]} for it in nodes]
    return {"instances": instances, "roots": {name: {"$": 2}}}
