"""Notes in JSON what real Ice holds: by the names of its own attributes, in the order in which a walk over its
objects meets them."""
import base64
import re

import json_texts
import proxies


def text_of(proxy):
    """Returns the printed form of a proxy of Ice, which spells the bytes of opaque endpoints otherwise."""
    text = re.sub(r" -v ([^\s:]+)", lambda it: " -x " + base64.b64decode(it[1]).hex(), str(proxy))
    return proxies.printed(proxies.read(text.encode())).decode()


def key_order(key, kind):
    """Returns what keys of Ice go by."""
    if kind.sort == "struct":
        return tuple(key_order(getattr(key, name), part) for name, part in zip(kind.names, kind.parts))
    return key.encode() if kind.sort == "string" else key.value if kind.sort == "enum" else key


class Walk:
    """Meets objects of Ice, depth first. `rows` has the classes by their type ids."""

    def __init__(self, rows):
        self.rows, self.numbers, self.listed, self.waiting = rows, {}, [], []

    def value(self, held, kind):
        """Returns what notes a value. Objects in it wait for their turn: their numbers are put in by `whole`."""
        if kind.sort == "class":
            if held is None:
                return None
            self.waiting.append(({"$": 0}, held))
            return self.waiting[-1][0]
        if kind.sort == "proxy":
            return None if held is None else text_of(held)
        if kind.sort == "enum":
            return held.name
        if kind.sort == "struct":
            return {name: self.value(getattr(held, name), part) for name, part in zip(kind.names, kind.parts)}
        if kind.sort == "sequence":
            return [self.value(it, kind.parts[0]) for it in held]
        if kind.sort == "dictionary":
            keys = sorted(held, key=lambda key: key_order(key, kind.parts[0]))
            return [[self.value(key, kind.parts[0]), self.value(held[key], kind.parts[1])] for key in keys]
        return held

    def slices(self, held):
        import Ice

        row, found = self.rows[type(held).ice_staticId()], []
        while row:
            members = {}
            for name, kind in zip(row.required_names, row.required):
                members[name] = self.value(getattr(held, name), kind)
            for tag, kind in row.optional.items():
                name = row.optional_names[tag]
                if getattr(held, name) is not Ice.Unset:
                    members[name] = self.value(getattr(held, name), kind)
            found.append({"class": row.type_id.decode(), "members": members})
            row = row.base
        return found

    def whole(self, root, kind):
        noted = self.value(root, kind)
        return {"instances": self.listing(), "roots": {"$value": noted}}

    def listing(self):
        """Returns the instances that the values so far lead to, and puts in their numbers."""
        open_ = [self.taken()]
        while open_:
            if not open_[-1]:
                open_.pop()
                continue
            reference, held = open_[-1].pop(0)
            if id(held) not in self.numbers:
                self.numbers[id(held)] = len(self.numbers) + 2
                self.listed.append({"slices": self.slices(held)})
                open_.append(self.taken())
            reference["$"] = self.numbers[id(held)]
        return self.listed

    def taken(self):
        waiting, self.waiting = self.waiting, []
        return waiting


def line_of(held, kind, rows):
    """Returns the line for a value that Ice holds."""
    return json_texts.written(Walk({it.type_id.decode(): it for it in rows}).whole(held, kind)) + b"\n"
