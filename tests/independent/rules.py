"""The rules of the checker: the faults of each definition of a file.

A fault is a place, a kind and the kind's row; of all the faults of a definition the one with the least place counts, and at
one place the first row. So a rule lists what is wrong and goes on, and what it cannot tell it leaves out.
"""
import grammar
import kinds
import names

KINDS = "FloatUsed Unknown WrongUse Clash BadKey BadTag BadCompactId BadBase BadValue NoMembers TooDeep TooBig Undefined".split()
MOST_TAG = MOST_COMPACT_ID = MOST_ENUMERATOR = 2**31 - 1
MOST_BASES = 1_000


class Faults:
    """What is wrong with a definition."""

    def __init__(self):
        self.found = []

    def add(self, place, kind):
        self.found.append((place, KINDS.index(kind)))

    def first(self):
        """Returns the place and the kind that count, or None."""
        if not self.found:
            return None
        place, row = min(self.found)
        return place, KINDS[row]


class Distinct:
    """Names of one definition, no two of which may be equal without regard to case."""

    def __init__(self, faults):
        self.faults, self.seen = faults, set()

    def take(self, word):
        if word.name.lower() in self.seen:
            self.faults.add(word.place, "Clash")
        self.seen.add(word.name.lower())


class Tags:
    """Tags of one definition, or of one operation's parameters or results."""

    def __init__(self, rules):
        self.rules, self.seen = rules, set()

    def take(self, value):
        tag = self.rules.tag(value)
        if tag is None or not 0 <= tag <= MOST_TAG or tag in self.seen:
            self.rules.faults.add(value.place, "BadTag")
        self.seen.add(tag)


class Rules:
    """Looks at one definition after the other, over the names that are there so far."""

    def __init__(self):
        self.names, self.faults, self.file = names.Names(), Faults(), 0
        self.classes, self.enumerators = [], {}  # in the order of their first declarations; the names by the enum's kind
        self.exceptions = []  # their rows
        self.compact_ids = set()
        self.counts = {"types": 0, "classes": 0, "exceptions": 0, "interfaces": 0}

    def first_fault(self, item):
        """Takes a definition, or the beginning or the end of a module, and returns its first fault or None."""
        self.faults = Faults()
        self.by_sort[type(item)](self, item)
        return self.faults.first()

    # Names

    def found(self, path, *sorts):
        """Returns what a path stands for, where that is of one of the sorts."""
        found = self.names.found(path)
        if found is None:
            self.faults.add(path.place, "Unknown")
        elif not isinstance(found, sorts):
            self.faults.add(path.place, "WrongUse")
        else:
            return found
        return None

    def claim(self, word):
        if self.names.clashes(word.name):
            self.faults.add(word.place, "Clash")

    def claim_again(self, word, sort, is_definition):
        """Returns the class or the interface that is declared or defined here, of a declaration before or a new one."""
        before = self.names.here(word.name)
        if isinstance(before, sort) and not (before.is_defined and is_definition):
            return before
        self.claim(word)
        declared = sort((self.file, word.place))
        if not self.faults.found:
            self.names.declare(word.name, declared)
            if sort is names.Class:
                self.classes.append(declared)
            self.counts["classes" if sort is names.Class else "interfaces"] += 1
        return declared

    def enter(self, item):
        before = self.names.here(item.word.name)
        if not isinstance(before, names.Module):
            self.claim(item.word)
        if not self.faults.found:
            self.names.enter(item.word.name)

    def leave(self, item):
        self.names.leave()

    # Types

    def type(self, word):
        """Returns the kind of a type, or None where it has a fault."""
        if word.built in ("float", "double"):
            self.faults.add(word.place, "FloatUsed")
            return None
        if word.built:
            if word.is_proxy:
                return kinds.ANY_PROXY
            return kinds.BUILT_IN.get(word.built, kinds.ANY_CLASS)
        sorts = [names.Interface] if word.is_proxy else [names.Type, names.Enum, names.Class]
        found = self.found(word.path, *sorts)
        return found.kind if found else None

    def key(self, word):
        kind = self.type(word)
        if kind and not self.may_be_key(kind):
            self.faults.add(word.place, "BadKey")
        return kind

    def may_be_key(self, kind):
        return kind.may_be_key

    def define(self, word, declared):
        self.claim(word)
        if not self.faults.found:
            self.names.declare(word.name, declared)

    def define_type(self, word, kind):
        """Ends a sequence, a dictionary or a struct."""
        if kind.depth > kinds.MOST_DEPTH:
            self.faults.add(word.place, "TooDeep")
        if kind.sort == "struct" and kind.smallest > kinds.MOST_SMALLEST:
            self.faults.add(word.place, "TooBig")
        self.define(word, names.Type(kind))
        self.counts["types"] += 1

    def sequence(self, item):
        element = self.type(item.element)
        if element:
            self.define_type(item.word, kinds.sequence(element))

    def dictionary(self, item):
        key, value = self.key(item.key), self.type(item.value)
        if key and value:
            self.define_type(item.word, kinds.dictionary(key, value))

    # Values

    def constant_of(self, path):
        return self.found(path, names.Constant, names.Enumerator)

    def integer(self, value):
        """Returns the integer that a value is, or None."""
        if isinstance(value.given, grammar.Path):
            return getattr(self.constant_of(value.given), "number", None)
        return value.given if type(value.given) is int else None

    def tag(self, value):
        return self.integer(value)

    def is_of(self, value, kind):
        """Says whether a value is of a type and in its range. Only integers, bools, strings and enums have values."""
        if isinstance(value.given, grammar.Path):
            return self.is_named_of(value.given, kind)
        if kind.sort in kinds.INTEGERS:
            least, most = kinds.INTEGERS[kind.sort]
            return type(value.given) is int and least <= value.given <= most
        return type(value.given) is {"bool": bool, "string": type(None)}.get(kind.sort)

    def is_named_of(self, path, kind):
        if self.is_bare_enumerator(path, kind):
            return True
        found = self.constant_of(path)
        if isinstance(found, names.Enumerator):
            return found.enum is kind
        if found and kind.sort in kinds.INTEGERS and found.number is not None:
            least, most = kinds.INTEGERS[kind.sort]
            return least <= found.number <= most
        return found is not None and found.kind is kind

    def is_bare_enumerator(self, path, kind):
        """Says whether a single word that nothing else has is an enumerator of the enum that the value is of."""
        is_bare = not path.is_outer and len(path.words) == 1 and self.names.found(path) is None
        return is_bare and kind.sort == "enum" and path.words[0] in self.enumerators[kind]

    def value(self, value, kind):
        if not self.is_of(value, kind):
            self.faults.add(value.place, "BadValue")

    def constant(self, item):
        kind = self.type(item.type)
        self.claim(item.word)
        if not kind:
            return
        self.value(item.value, kind)
        if not self.faults.found:
            number = self.integer(item.value) if kind.sort in kinds.INTEGERS else None
            self.names.declare(item.word.name, names.Constant(kind, number))

    # Enums and structs

    def enum(self, item):
        distinct, numbers, last = Distinct(self.faults), {}, -1
        if not item.entries:
            self.faults.add(item.word.place, "NoMembers")
        for word, value in item.entries:
            distinct.take(word)
            number = self.integer(value) if value else last + 1
            if number is None or not 0 <= number <= MOST_ENUMERATOR or number in numbers:
                self.faults.add(value.place if value else word.place, "BadValue")
            if number is None:
                break
            numbers[number] = word.name
            last = number
        kind = kinds.enum(numbers, [numbers[it] for it in sorted(numbers)])
        self.define(item.word, names.Enum(kind, {word.name: names.Enumerator(kind) for word, _ in item.entries}))
        self.enumerators[kind] = {word.name for word, _ in item.entries}
        self.counts["types"] += 1

    def fields(self, fields):
        """Looks at the members of a definition, and returns the tag, or None, the kind and the name of those whose types have
        no fault."""
        distinct, tags, found = Distinct(self.faults), Tags(self), []
        for it in fields:
            if it.tag:
                tags.take(it.tag)
            kind = self.type(it.type)
            distinct.take(it.word)
            if kind and it.value:
                self.value(it.value, kind)
            found += [(self.tag(it.tag) if it.tag else None, kind, it.word.name)] if kind else []
        return found

    def struct(self, item):
        if not item.fields:
            self.faults.add(item.word.place, "NoMembers")
        members = self.fields(item.fields)
        self.define_type(item.word, kinds.struct([kind for _, kind, _ in members], [name for *_, name in members]))

    # Classes, exceptions and interfaces

    def class_(self, item):
        declared = self.claim_again(item.word, names.Class, item.fields is not None)
        if item.fields is None:
            return
        if item.compact:
            declared.kind.class_.compact = self.compact_id(item.compact)
        base = self.found(item.base, names.Class) if item.base else None
        if base and not base.is_defined:
            self.faults.add(item.base.place, "BadBase")
        self.fill(declared.kind.class_, item, base and base.kind.class_)
        declared.is_defined = True

    def compact_id(self, value):
        number = self.integer(value)
        if number is None or not 0 <= number <= MOST_COMPACT_ID or number in self.compact_ids:
            self.faults.add(value.place, "BadCompactId")
        self.compact_ids.add(number)
        return number

    def fill(self, row, item, base):
        """Looks at the members of a class or an exception, and gives the row what it has."""
        members = self.fields(item.fields)
        row.type_id, row.base = self.names.type_id(item.word.name).encode(), base
        row.required = [kind for tag, kind, _ in members if tag is None]
        row.required_names = [name for tag, _, name in members if tag is None]
        row.optional = dict(sorted([it[:2] for it in members if it[0] is not None], key=lambda it: it[0]))
        row.optional_names = {tag: name for tag, _, name in members if tag is not None}

    def exception(self, item):
        base = self.found(item.base, names.Exception_) if item.base else None
        row = kinds.Class()
        self.fill(row, item, base and base.row)
        self.define(item.word, names.Exception_(row))
        self.exceptions.append(row)
        self.counts["exceptions"] += 1

    def interface(self, item):
        declared = self.claim_again(item.word, names.Interface, item.operations is not None)
        if item.operations is None:
            return
        bases = []
        for path in item.bases:
            base = self.found(path, names.Interface)
            if base and not self.may_be_base(base, bases):
                self.faults.add(path.place, "BadBase")
            bases += [base] if base else []
        paths = sum(1 + it.paths for it in bases)
        if paths > MOST_BASES:
            self.faults.add(item.word.place, "TooBig")
        distinct = Distinct(self.faults)
        for it in item.operations:
            self.operation(it, distinct)
        declared.paths, declared.is_defined = paths, True

    def may_be_base(self, base, others):
        return base.is_defined and base not in others

    def operation(self, item, distinct):
        arguments, results, parameters = Tags(self), Tags(self), Distinct(self.faults)
        if item.result:
            self.field(item.result, results)
        distinct.take(item.word)
        has_out = False
        for it in item.parameters:
            self.field(it.field, results if it.is_out else arguments)
            parameters.take(it.field.word)
            if has_out and not it.is_out:
                self.faults.add(it.field.type.place, "BadValue")
            has_out = has_out or it.is_out
        for path in item.throws:
            self.found(path, names.Exception_)

    def field(self, field, tags):
        if field.tag:
            tags.take(field.tag)
        self.type(field.type)

    by_sort = {
        grammar.Enter: enter,
        grammar.Exit: leave,
        grammar.Constant: constant,
        grammar.Enum: enum,
        grammar.Struct: struct,
        grammar.Sequence: sequence,
        grammar.Dictionary: dictionary,
        grammar.Class: class_,
        grammar.Exception_: exception,
        grammar.Interface: interface,
    }
