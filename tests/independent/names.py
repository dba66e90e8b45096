"""What is declared, and which of it a name stands for.

Modules are the scopes, within one outermost scope for all files. A name is found in exact case: its first word in the
innermost scope that has it, the rest inside what that is; with `::` in front the first word is looked for in the outermost
scope. Modules and enums have an inside. Two names of one scope that differ in case alone cannot both stand there.
"""
from dataclasses import dataclass, field

import kinds


@dataclass(eq=False)
class Module:
    inside: dict = field(default_factory=dict)  # by name
    spelled: dict = field(default_factory=dict)  # the names by their small letters


@dataclass(eq=False)
class Constant:
    kind: kinds.Kind
    number: int | None  # of an integer


@dataclass(eq=False)
class Enumerator:
    enum: kinds.Kind


@dataclass(eq=False)
class Type:
    """A sequence, a dictionary or a struct."""

    kind: kinds.Kind


@dataclass(eq=False)
class Enum:
    kind: kinds.Kind
    inside: dict  # the enumerators by name


@dataclass(eq=False)
class Class:
    first: tuple  # the number of the file and the place of its first declaration
    kind: kinds.Kind = field(default_factory=kinds.class_)
    is_defined: bool = False


@dataclass(eq=False)
class Exception_:
    row: kinds.Class  # what it has, as a class has it


@dataclass(eq=False)
class Interface:
    first: tuple
    kind: kinds.Kind = field(default_factory=kinds.proxy)  # that of its proxies
    is_defined: bool = False
    paths: int = 0  # to its bases


class Names:
    """All that is declared so far, and the modules that are open, the outermost first."""

    def __init__(self):
        self.open, self.path = [Module()], []  # the names of the open modules but the outermost

    def innermost(self):
        return self.open[-1]

    def clashes(self, name):
        """Says whether the innermost scope has a name that is equal without regard to case."""
        return name.lower() in self.innermost().spelled

    def here(self, name):
        """Returns what the innermost scope has of that name in exact case, if anything."""
        return self.innermost().inside.get(name)

    def declare(self, name, declared):
        self.innermost().inside[name] = declared
        self.innermost().spelled[name.lower()] = name

    def enter(self, name):
        """Opens a module, a new one where there is none of that name."""
        if self.here(name) is None:
            self.declare(name, Module())
        self.open.append(self.here(name))
        self.path.append(name)

    def leave(self):
        self.open.pop()
        self.path.pop()

    def type_id(self, name):
        """Returns the type id of what is declared in the innermost scope."""
        return "".join(f"::{it}" for it in [*self.path, name])

    def found(self, path):
        """Returns what a path stands for, or None."""
        scopes = self.open[:1] if path.is_outer else reversed(self.open)
        first, *rest = path.words
        found = next((it.inside[first] for it in scopes if first in it.inside), None)
        for word in rest:
            found = getattr(found, "inside", {}).get(word)
        return found

    def named(self, type_id):
        """Returns what has the type id, or None."""
        front, *words = type_id.split("::")
        found = self.open[0] if not front and words else None
        for word in words:
            found = getattr(found, "inside", {}).get(word)
        return found
