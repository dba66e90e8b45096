"""Makes shelves of Slice files from a seed: good ones, and ones with a slip here and there.

A shelf is the bytes of files by their names; FILE is `a.ice`. Equal seeds give equal shelves. Nothing here says what is good:
the maker only remembers what it declared, so that most names that it uses are there and most values fit, and at a slip it takes
another one. `loading.load` says what each shelf is.
"""
import random
from dataclasses import dataclass, field

from kinds import INTEGERS
from lexer import KEYWORDS

FILE = "a.ice"
NAMES = "A b C3 item Item2 order x y z_ _k Node node2 Fruit sort Price int out Object module".split()
UNKNOWN = ["Nothing", "a", "B", "Order", "unit"]
BUILT_IN = ["bool", "byte", "short", "int", "long", "string"]
TYPES = ("struct", "sequence", "dictionary", "enum", "class")
BLANKS = [" ", " ", " ", "\n", "\t", "\r\n", "\f", "\n    ", " // é\n", "/* {; */", "/**/ ", "//\n"]
ODD = b'{ } ; :: int module optional * 1 " /* 09 0x $ # = [ \\ \xff 1a 9223372036854775809'.split() + [b""]
METADATA = [["[", '"deprecated"', "]"], ["[", '"a:b"', ",", '"\\"]"', "]"]]
MOST_TAG = 2**31 - 1


@dataclass(eq=False)
class Declared:
    sort: str  # the definition's keyword
    path: tuple
    type: object = None  # of a constant
    number: int | None = None  # of a constant of an integer type
    entries: tuple = ()  # of an enum
    may_be_key: bool = False
    is_defined: bool = True


@dataclass
class Scope:
    names: dict = field(default_factory=dict)  # by their small letters


class ShelfMaker:
    """Makes one shelf. `rate` is how often it slips."""

    # Of definitions, of their parts, and of modules
    names, parts, modules = NAMES, NAMES, NAMES
    joined = 0.15  # how many modules are of the form `module A::B`

    def __init__(self, chance, rate):
        self.chance, self.rate = chance, rate
        self.declared, self.scopes, self.open = [], {(): Scope()}, ()
        self.compact_ids = set()

    def slips(self, times=1):
        return self.chance.random() < self.rate * times

    def likely(self, part):
        return self.chance.random() < part

    def one_of(self, sorts, **wanted):
        """Returns something declared of one of the sorts, later ones the likelier, or None."""
        some = [it for it in self.declared if it.sort in sorts]
        some = [it for it in some if all(getattr(it, key) == value for key, value in wanted.items())]
        return self.chance.choice(some[-4:] if self.likely(0.5) else some) if some else None

    # Names

    def spelled(self, name):
        return [f"\\{name}" if name in KEYWORDS or self.likely(0.03) else name]

    def other_case(self, name):
        return self.chance.choice([name.swapcase(), name.upper(), name.lower(), name])

    def new_name(self, pool=None):
        """Returns a name that the open scope has not, but at a slip."""
        names = self.scopes[self.open].names
        if names and self.slips():
            return self.other_case(self.chance.choice(list(names.values())))
        free = [it for it in pool or self.names if it.lower() not in names]
        return self.chance.choice(free) if free else f"n{len(names)}"

    def distinct(self, count):
        """Returns names for the parts of one definition."""
        names = []
        while len(names) < count:
            name = self.chance.choice(self.parts)
            if name not in names:
                names.append(name)
        if count > 1 and self.slips(4):
            at = self.chance.randrange(1, count)
            names[at] = self.other_case(names[self.chance.randrange(at)])
        return names

    def declare(self, sort, name, **more):
        self.scopes[self.open].names.setdefault(name.lower(), name)
        self.declared.append(Declared(sort, (*self.open, name), **more))
        return self.declared[-1]

    def path(self, words):
        """Returns the tokens of a scoped name for something with this path, from the outermost scope or from an open one."""
        shared = 0
        while shared < len(words) - 1 and self.open[shared : shared + 1] == words[shared : shared + 1]:
            shared += 1
        left = words if self.likely(0.3) else words[self.chance.randint(0, shared) if self.likely(0.3) else shared :]
        is_outer = left == words and self.likely(0.5)
        if self.slips():
            others = [(self.chance.choice(UNKNOWN),), tuple(self.other_case(it) for it in left), left[1:] or left]
            left = self.chance.choice([*others, (*left, left[-1])])
        tokens = ["::"] if is_outer else []
        for it in left:
            tokens += [*self.spelled(it), "::"]
        return tokens[:-1]

    def named(self, *sorts, **wanted):
        """Returns a scoped name for something of one of the sorts, and that thing; None where there is none."""
        found = self.one_of(sorts, **wanted)
        if found is None or self.slips():
            found = self.one_of((*TYPES, "exception", "interface", "const", "module")) if self.slips() else found
        return (self.path(found.path), found) if found else None

    # Types and values

    def type(self, only_keys=False):
        """Returns the tokens of a type, and what it is: a keyword, something declared, or None for any other."""
        if self.slips():
            return [self.chance.choice(["float", "double", self.chance.choice(UNKNOWN)])], None
        if self.likely(0.55):
            if self.likely(0.1):
                some = [["Object"], ["Object", "*"], ["Value"]] if not only_keys or self.slips() else [["int"]]
                return self.chance.choice(some), None
            word = self.chance.choice(BUILT_IN)
            return [word], word
        if not only_keys and self.likely(0.15) or self.slips():
            found = self.named("interface") if not self.slips() else self.named(*TYPES, "exception")
            if found:
                return [*found[0], "*"], None
        if only_keys and not self.slips():
            found = self.named(*TYPES, may_be_key=True)
        else:
            found = self.named(*TYPES, *(["interface", "exception", "module"] if self.slips() else []))
        return found or (["int"], "int")

    def number(self, number):
        """Returns the tokens of a number."""
        size = abs(number)
        digits = self.chance.choice([str(size)] * 3 + [hex(size), f"0x{size:X}", f"0{size:o}"])
        return ["-" if number < 0 else "+", digits] if number < 0 or self.likely(0.1) else [digits]

    def any_value(self):
        found = self.one_of(("const", "enum", "struct", "module"))
        enum = self.one_of(("enum",))
        if enum and enum.entries and self.likely(0.3):
            entry = self.chance.choice(enum.entries)
            return self.chance.choice([self.path((*enum.path, entry)), self.spelled(entry), ["::", *self.spelled(entry)]])
        number = self.number(self.chance.choice([0, 1, -1, 300, 2**31, 2**63, -(2**63)]))
        some = [["true"], ["false"], ['"a"'], number, ["Nothing"]]
        return self.path(found.path) if found and self.likely(0.4) else self.chance.choice(some)

    def integer(self, least, most):
        """Returns the tokens of an integer between these, or just past them at a slip, and the integer."""
        found = self.one_of(("const",))
        if found and found.number is not None and self.likely(0.4) and (least <= found.number <= most or self.slips(8)):
            return self.path(found.path), found.number
        near = min(most, max(least, self.chance.randint(-9, 9)))
        number = self.chance.choice([least, most, near, near, self.chance.randint(least, most)])
        if self.slips():
            number = self.chance.choice([least - 1, most + 1])
        number = min(number, 2**63)
        return self.number(number), number

    def value(self, type):
        """Returns the tokens of a value of a type, and the integer that it is, or None."""
        if self.slips(3 if isinstance(type, str) else 10):
            return self.any_value(), None
        if type in INTEGERS:
            return self.integer(*INTEGERS[type])
        found = self.one_of(("const",), type=type)
        if found and self.likely(0.4):
            return self.path(found.path), None
        if type == "bool":
            return [self.chance.choice(["true", "false"])], None
        if type == "string":
            return [self.chance.choice(['""', '"a"', '"é"', '"\\"// "', '"/*"'])], None
        entry = self.chance.choice(type.entries)
        return self.spelled(entry) if self.likely(0.5) else self.path((*type.path, entry)), None

    def may_have_value(self, type):
        return isinstance(type, str) or type is not None and type.sort == "enum" and type.entries

    # Definitions

    def begin(self, sort):
        name = self.new_name()
        return name, [sort, *self.spelled(name)]

    def constant(self):
        tokens, type = self.type()
        if not self.may_have_value(type) and not self.slips():
            tokens, type = ["int"], "int"
        name = self.new_name()
        value, number = self.value(type) if self.may_have_value(type) else (self.any_value(), None)
        self.declare("const", name, type=type, number=number)
        return ["const", *tokens, *self.spelled(name), "=", *value, ";"]

    def sequence(self):
        tokens, _ = self.type()
        name = self.new_name()
        self.declare("sequence", name)
        return ["sequence", "<", *self.metadata(), *tokens, ">", *self.spelled(name), ";"]

    def dictionary(self):
        key, value = self.type(only_keys=not self.slips(12))[0], self.type()[0]
        name = self.new_name()
        self.declare("dictionary", name)
        return ["dictionary", "<", *key, ",", *self.metadata(), *value, ">", *self.spelled(name), ";"]

    def enum(self):
        name, tokens = self.begin("enum")
        entries = self.distinct(0 if self.slips() else self.chance.choice([1, 2, 3, 5]))
        tokens.append("{")
        last, taken = -1, set()
        for entry in entries:
            last += 1
            tokens += self.spelled(entry)
            if self.likely(0.35) or (last > MOST_TAG or last in taken) and not self.slips(4):
                value, last = self.entry_value(last, taken)
                tokens += ["=", *value]
            taken.add(last)
            tokens.append(",")
        tokens = tokens[:-1] if entries and self.likely(0.8) else tokens
        self.declare("enum", name, entries=tuple(entries), may_be_key=True)
        return [*tokens, "}", *self.end()]

    def entry_value(self, last, taken):
        """Returns the tokens of an enumerator's value, which none has yet but at a slip, and the value."""
        if self.slips():
            return self.any_value(), last
        least = self.chance.choice([0, 0, min(last, MOST_TAG - 8), MOST_TAG - 8])
        value, number = self.integer(least, least + 8)
        if number in taken and not self.slips(6):
            number = next(it for it in range(len(taken) + 1) if it not in taken)
            value = self.number(number)
        return value, number

    def tag(self, used):
        """Returns the tokens of `optional(TAG)` with a tag that is not used yet, but at a slip."""
        if self.slips(3):
            return ["optional", "(", *self.any_value(), ")"]
        least = self.chance.choice([0, 1, 2, MOST_TAG - 3])
        value, tag = self.integer(least, min(MOST_TAG, least + 3))
        if tag in used and not self.slips(6):
            tag = max(used) + 1 if max(used) < MOST_TAG else self.chance.randint(10, 1_000)
            value = self.number(tag)
        used.add(tag)
        return ["optional", "(", *value, ")"]

    def members(self, least, may_be_optional):
        count = max(self.chance.choice([1, 1, 2, 3, 5]), least)
        count = 0 if least == 0 and self.likely(0.2) or self.slips(3) else count
        tokens, used, are_keys = ["{"], set(), True
        for name in self.distinct(count):
            if may_be_optional and self.likely(0.3):
                tokens += self.tag(used)
            words, type = self.type(only_keys=self.likely(0.3) and not may_be_optional)
            are_keys = are_keys and (isinstance(type, str) or type is not None and type.may_be_key)
            tokens += [*self.metadata(), *words, *self.spelled(name)] if not may_be_optional else [*words, *self.spelled(name)]
            if self.may_have_value(type) and self.likely(0.2) or self.slips():
                tokens += ["=", *(self.value(type)[0] if self.may_have_value(type) else self.any_value())]
            tokens.append(";")
        return [*tokens, "}", *self.end()], are_keys

    def struct(self):
        name, tokens = self.begin("struct")
        members, are_keys = self.members(1, False)
        self.declare("struct", name, may_be_key=are_keys)
        return tokens + members

    def forward(self, sort):
        """Returns the name of a class or an interface that is defined now: one that waits for it in this scope, or a new one."""
        here = [it for it in self.declared if it.sort == sort and it.path[:-1] == self.open]
        waiting = [it for it in here if not it.is_defined or self.slips(6)]
        if waiting and self.likely(0.7):
            found = self.chance.choice(waiting)
            name = self.other_case(found.path[-1]) if self.slips() else found.path[-1]
            return name, found
        name = self.new_name()
        return name, self.declare(sort, name, is_defined=False)

    def declaration(self):
        sort = self.chance.choice(["class", "interface"])
        before = [it for it in self.declared if it.sort == sort and it.path[:-1] == self.open]
        name = self.chance.choice(before).path[-1] if before and self.likely(0.4) else None
        if name is None:
            name = self.new_name()
            self.declare(sort, name, is_defined=False)
        return [sort, *self.spelled(name), ";"]

    def extends(self, sort, most=1):
        tokens, seen = [], []
        for _ in range(self.chance.choice([0, 1, most, most])):
            found = self.named(sort) if self.slips(6) else self.named(sort, is_defined=True)
            if found and (found[1] not in seen or self.slips(6)):
                seen.append(found[1])
                tokens += [",", *found[0]] if tokens else ["extends", *found[0]]
        return tokens

    def class_(self):
        name, found = self.forward("class")
        base = self.extends("class") if self.likely(0.6) else []
        tokens = ["class", *self.spelled(name), *self.compact_id(), *base, *self.members(0, True)[0]]
        found.is_defined = True
        return tokens

    def compact_id(self):
        """Returns the tokens of a compact id that no class has yet, but at a slip, or none."""
        if self.likely(0.7):
            return []
        if self.slips(3):
            return ["(", *self.any_value(), ")"]
        least = self.chance.choice([0, 0, MOST_TAG - 8])
        value, number = self.integer(least, least + 8)
        if number in self.compact_ids and not self.slips(6):
            number = next(it for it in range(len(self.compact_ids) + 1) if it not in self.compact_ids)
            value = self.number(number)
        self.compact_ids.add(number)
        return ["(", *value, ")"]

    def exception(self):
        base = self.extends("exception") if self.likely(0.6) else []
        name, tokens = self.begin("exception")
        members = self.members(0, True)[0]
        self.declare("exception", name)
        return [*tokens, *base, *members]

    def interface(self):
        name, found = self.forward("interface")
        tokens = ["interface", *self.spelled(name), *self.extends("interface", self.chance.choice([1, 2, 3])), "{"]
        for it in self.distinct(self.chance.choice([0, 1, 2, 4])):
            tokens += self.operation(it)
        found.is_defined = True
        return [*tokens, "}", *self.end()]

    def operation(self, name):
        arguments, results = set(), set()
        tokens = ["idempotent"] if self.likely(0.3) else []
        if self.likely(0.5):
            tokens += ["void"]
        else:
            tokens += [*(self.tag(results) if self.likely(0.3) else []), *self.type()[0]]
        tokens += [*self.spelled(name), "("]
        outs = sorted(self.likely(0.4) for _ in range(self.chance.choice([0, 0, 1, 2, 4])))
        if self.slips(5):
            self.chance.shuffle(outs)
        for at, (is_out, it) in enumerate(zip(outs, self.distinct(len(outs)))):
            tokens += [","] if at else []
            tokens += ["out"] if is_out else []
            tokens += self.tag(results if is_out else arguments) if self.likely(0.3) else []
            tokens += [*self.type()[0], *self.spelled(it)]
        tokens.append(")")
        sorts = ("class",) if self.slips(8) else ("exception",)
        thrown = [it[0] for it in (self.named(*sorts) for _ in range(self.chance.choice([0, 0, 1, 2]))) if it]
        for at, it in enumerate(thrown):
            tokens += ["," if at else "throws", *it]
        return [*tokens, ";"]

    def module(self):
        before = [it for it in self.declared if it.sort == "module" and it.path[:-1] == self.open]
        names = [self.chance.choice(before).path[-1] if before and self.likely(0.5) else self.new_name(self.modules)]
        names += [self.chance.choice(self.modules)] if self.likely(self.joined) else []
        tokens, outer = ["module"], self.open
        for at, name in enumerate(names):
            tokens += ["::"] if at else []
            tokens += self.spelled(name)
            self.declare("module", name)
            self.open = (*self.open, name)
            self.scopes.setdefault(self.open, Scope())
        tokens += ["{", *self.definitions(self.chance.choice([0, 1, 2, 3, 4])), "}", *self.end()]
        self.open = outer
        return tokens

    def end(self):
        return [";"] if self.likely(0.8) else []

    def metadata(self):
        return self.chance.choice(METADATA) if self.likely(0.05) else []

    def definitions(self, count):
        makers = [self.struct, self.sequence, self.dictionary, self.enum, self.constant]
        makers += [self.class_, self.exception, self.interface, self.declaration]
        weights = [4, 3, 3, 3, 4, 4, 2, 4, 3]
        tokens = []
        for _ in range(count):
            is_module = len(self.open) < 4 and self.likely(0.2)
            make = self.module if is_module else self.chance.choices(makers, weights)[0]
            tokens += [*self.metadata(), *make()]
        return tokens

    def undefined(self):
        """Defines the classes that wait for it, but now and then."""
        tokens, left = [], 0.5 if self.likely(0.15) else 0
        for it in self.declared:
            if it.sort == "class" and not it.is_defined and not self.likely(left):
                front = [token for word in it.path[:-1] for token in ("module", *self.spelled(word), "{")]
                tokens += [*front, "class", *self.spelled(it.path[-1]), "{", "}", *["}"] * (len(it.path) - 1)]
        return tokens


# Texts and shelves


def text_of(tokens, chance):
    """Returns a text of tokens, with blanks where they have to be and where chance puts them."""
    text, before = [], ""
    for token in tokens:
        if token.lstrip().startswith("#"):
            text.append("" if not text or text[-1].endswith("\n") else "\n")
            text.append(token + "\n")
            before = ""
        else:
            is_glued = before[-1:] + token[:1] in ("::", "[[", "]]", "/*", "//") or before[-1:].isalnum() and token[0].isalnum()
            needs = is_glued or before[-1:] == "_" or token[0] in "_\\" and before[-1:].isalnum()
            text += [chance.choice(BLANKS)] if needs or chance.random() < 0.4 else []
            text.append(token)
            before = token
    return "".join(text).encode()


def include(name, chance):
    return chance.choice([f'#include "{name}"', f"#include <{name}>", f'  # include\t"{name}" \r'])


def heads(number, includes, chance):
    """Returns the directives in front of a file's modules, and those after them."""
    lines = [include(it, chance) for it in includes]
    if chance.random() < 0.2:
        lines.append(chance.choice(["#pragma once", '[["cpp:a"]]', "#define A"]))
    if chance.random() < 0.2:
        return [f"#ifndef GUARD{number}", *lines], ["#endif"]
    return lines, []


def names_of(count, folders=("",)):
    return [FILE, *(f"{folders[number % len(folders)]}b{number}.ice" for number in range(1, count))]


def usual(chance, make=ShelfMaker, write=text_of):
    """Some files, the last of which is FILE, each of which includes some of those before it."""
    maker = make(chance, chance.choice([0, 0, 0.004, 0.01, 0.02, 0.04]))
    count = chance.choice([1, 1, 1, 2, 3, 4])
    files, names = {}, names_of(count, chance.choice([("",), ("",), ("lib/",), ("", "lib/a/", "of mine/")]))[::-1]
    for number, name in enumerate(names):
        before = names[:number]
        includes = [it for it in before if chance.random() < 0.7 or it == before[-1]]
        if maker.slips():
            includes.append(chance.choice([*names, "none.ice", ""]))
        if chance.random() < 0.1:
            chance.shuffle(includes)
        front, back = heads(number, includes, chance)
        maker.open = ()
        tokens = [token for _ in range(chance.choice([1, 1, 2, 3])) for token in maker.module()]
        tokens += maker.undefined() if name == FILE else []
        files[name] = write([*front, *tokens, *back], chance)
    return files


def broken(chance):
    """A usual shelf, in one file of which a token is dropped, doubled or replaced, or a byte is."""
    files = usual(chance)
    name = chance.choice(list(files))
    pieces = files[name].split(b" ")
    at = chance.randrange(len(pieces))
    piece = pieces[at]
    pieces[at] = chance.choice([piece + b" " + piece, chance.choice(ODD), piece + chance.choice(ODD), piece[1:]])
    return {**files, name: b" ".join(pieces)}


def deep(chance):
    """Types around one another, up to about the greatest depth."""
    depth, wanted = 1, chance.choice([98, 99, 100, 100, 101, 101, 102])
    is_key = chance.random() < 0.2
    last, tokens, number = "int" if is_key else chance.choice(["int", "string", "C", "Object", "I*"]), [], 0
    while depth < wanted:
        number += 1
        name = f"T{number}"
        around = {
            "sequence": (1, f"sequence<{last}> {name};"),
            "struct": (1, f"struct {name} {{ int a; {last} b; }};"),
            "dictionary": (2, f"dictionary<int, {last}> {name};"),
            "key": (2, f"dictionary<{last}, int> {name};"),
        }
        if is_key:
            ways = ["key"] if wanted - depth == 2 else ["struct"]
        else:
            ways = ["sequence", "struct", "dictionary"] if wanted - depth > 1 else ["sequence", "struct"]
        levels, text = around[chance.choice(ways)]
        depth += levels
        tokens.append(text)
        last = name
    members = chance.choice([f"{last} a; float b;", f"float a; {last} b;"])
    more = chance.choice(["", f"struct U {{ {members} }};", f"sequence<{last}> U;", f"class U {{ {last} a; }};"])
    text = " ".join(["module M { class C { }; interface I { };", *tokens, more, "};"])
    return {FILE: text.encode()}


def big(chance):
    """Structs that hold the one before them several times, and one of about the greatest smallest spelling."""
    leaf, size = chance.choice([("byte", 1), ("string", 1), ("E", 1), ("Object*", 2), ("I*", 2), ("C", 1), ("int", 4), ("long", 8)])
    base, left = chance.choice([2, 3, 7, 16]), 1_048_576 + chance.choice([-1, 0, 0, 1, 1, 1_000_000])
    parts, lines = [(leaf, size)], []
    while parts[-1][1] * base <= 1_048_576:
        name = f"S{len(parts)}"
        lines.append(f"struct {name} {{ " + " ".join(f"{parts[-1][0]} m{it};" for it in range(base)) + " };")
        parts.append((name, parts[-1][1] * base))
    members = []
    for part, each in [*reversed(parts), ("byte", 1)]:
        members += [part] * (left // each)
        left %= each
    chance.shuffle(members)
    if chance.random() < 0.3:
        members[chance.randrange(len(members))] = chance.choice(["float", "Zed", "I"])
    last = "struct Last { " + " ".join(f"{it} m{at};" for at, it in enumerate(members)) + " };"
    return {FILE: " ".join(["module M { enum E { a }; interface I { }; class C { };", *lines, last, "};"]).encode()}


def based(chance):
    """Interfaces whose bases are counted by the paths to them, up to about the most; some are met on two paths."""
    lines, paths = ["interface I0 { };"], [0]
    wanted = chance.choice([999, 1_000, 1_000, 1_001, 1_001, 1_002])
    while paths[-1] < wanted:
        bases, left = [], wanted
        for it in sorted(range(len(paths)), key=lambda _: chance.random()) if len(paths) < 6 else range(len(paths) - 1, -1, -1):
            if paths[it] + 1 <= left and len(bases) < (3 if len(paths) < 6 else 12):
                bases.append(it)
                left -= paths[it] + 1
        lines.append(f"interface I{len(paths)} extends {', '.join(f'I{it}' for it in bases)} {{ }};")
        paths.append(wanted - left)
        if len(paths) > 400:
            break
    return {FILE: " ".join(["module M {", *lines, "};"]).encode()}


def many(chance):
    """About as many files as may be, in one row or wide, in rings, with one that is not there."""
    count = chance.choice([99, 100, 101, 101, 102])
    names, files = names_of(count), {}
    is_wide = chance.random() < 0.5
    for at, name in enumerate(names):
        includes = names[1:] if is_wide and at == 0 else [] if is_wide else names[at + 1 : at + 2]
        if chance.random() < 0.03:
            includes = [*includes, chance.choice([name, *names, "none.ice"])]
            chance.shuffle(includes)
        front = "".join(include(it, chance) + "\n" for it in includes)
        files[name] = (front + f"module M {{ struct S{at if chance.random() < 0.998 else 3} {{ int x; }}; }};").encode()
    if chance.random() < 0.2:
        del files[chance.choice(names[1:] if chance.random() < 0.4 else names[99:] or names[1:])]
    return files


def shelf(seed, number):
    """Returns the shelf of this number."""
    chance = random.Random(f"shelf {seed} {number}")
    makers, weights = [usual, broken, deep, big, based, many], [160, 20, 5, 3, 5, 3]
    return chance.choices(makers, weights)[0](chance)
