"""The tree of a Slice file, or the first token with which no file goes on.

    file      = { directive | filemeta } { meta module } { directive }
    filemeta  = "[[" text { "," text } "]]"
    meta      = { "[" text { "," text } "]" }
    module    = "module" word { "::" word } "{" { meta def } "}" [ ";" ]
    def       = module | const | enum | struct | seq | dict | class | exception | interface
    const     = "const" meta type word "=" value ";"
    value     = [ "-" | "+" ] number | text | "true" | "false" | scoped
    enum      = "enum" word "{" [ entry { "," entry } [ "," ] ] "}" [ ";" ]
    entry     = word [ "=" value ]
    struct    = "struct" word "{" { member } "}" [ ";" ]
    member    = meta type word [ "=" value ] ";"
    seq       = "sequence" "<" meta type ">" word ";"
    dict      = "dictionary" "<" meta type "," meta type ">" word ";"
    class     = "class" word ( ";" | [ "(" value ")" ] [ "extends" scoped ] "{" { omember } "}" [ ";" ] )
    exception = "exception" word [ "extends" scoped ] "{" { omember } "}" [ ";" ]
    omember   = meta [ opt ] type word [ "=" value ] ";"
    opt       = "optional" "(" value ")"
    interface = "interface" word ( ";" | [ "extends" scoped { "," scoped } ] "{" { op } "}" [ ";" ] )
    op        = meta [ "idempotent" ] ( "void" | [ opt ] type ) word "(" [ param { "," param } ] ")"
                [ "throws" scoped { "," scoped } ] ";"
    param     = [ "out" ] meta [ opt ] type word
    type      = "bool" | "byte" | "short" | "int" | "long" | "float" | "double" | "string"
              | "Object" [ "*" ] | "Value" | scoped [ "*" ]
    scoped    = [ "::" ] word { "::" word }

The directives in front are `#include "NAME"`, `#include <NAME>`, `#pragma once`, `#ifndef WORD` and `#define WORD`. After the
modules `#endif` stands once, exactly where at least one `#ifndef` stood in front.

A tree is flat: a module is an `Enter` and an `Exit`, and `module A::B` is two of each. Places are those of first bytes; that
of a scoped name is the place of its first token.
"""
import re
from dataclasses import dataclass

from lexer import TextFault, tokens_of

BUILT_IN = ("bool", "byte", "short", "int", "long", "float", "double", "string", "Object", "Value")
BLANKS = rb"[ \t\r\f]"
INCLUDE = re.compile(rb'%s*include%s*(?:"([^"]*)"|<([^>]*)>)%s*' % (BLANKS, BLANKS, BLANKS))
PLAIN = re.compile(rb"%s*(?:pragma%s+once|define%s+[A-Za-z_][A-Za-z0-9_]*)%s*" % ((BLANKS,) * 4))
IFNDEF = re.compile(rb"%s*ifndef%s+[A-Za-z_][A-Za-z0-9_]*%s*" % ((BLANKS,) * 3))
ENDIF = re.compile(rb"%s*endif%s*" % ((BLANKS,) * 2))


@dataclass(frozen=True)
class Word:
    name: str
    place: int


@dataclass(frozen=True)
class Path:
    is_outer: bool  # with `::` in front
    words: tuple
    place: int


@dataclass(frozen=True)
class TypeWord:
    """A built-in type by its keyword, or a type by its name."""

    place: int
    built: str | None
    path: Path | None
    is_proxy: bool  # with `*` behind


@dataclass(frozen=True)
class Value:
    """A number, a text (None), a truth value or a Path."""

    place: int
    given: object
    spelled: str = ""  # the sign and the digits of a number, or the word of a truth value


@dataclass(frozen=True)
class Field:
    """A member, a parameter or what an operation returns, which has no name."""

    tag: Value | None
    type: TypeWord
    word: Word | None
    value: Value | None = None


@dataclass(frozen=True)
class Parameter:
    is_out: bool
    field: Field


@dataclass(frozen=True)
class Operation:
    is_idempotent: bool
    result: Field | None  # None: void
    word: Word
    parameters: tuple
    throws: tuple


@dataclass(frozen=True)
class Enter:
    word: Word


@dataclass(frozen=True)
class Exit:
    pass


@dataclass(frozen=True)
class Constant:
    type: TypeWord
    word: Word
    value: Value


@dataclass(frozen=True)
class Enum:
    word: Word
    entries: tuple  # pairs of a word and a value or None


@dataclass(frozen=True)
class Struct:
    word: Word
    fields: tuple


@dataclass(frozen=True)
class Sequence:
    word: Word
    element: TypeWord


@dataclass(frozen=True)
class Dictionary:
    word: Word
    key: TypeWord
    value: TypeWord


@dataclass(frozen=True)
class Class:
    word: Word
    compact: Value | None  # its compact id
    base: Path | None
    fields: tuple | None  # None: it is only declared


@dataclass(frozen=True)
class Exception_:
    word: Word
    base: Path | None
    fields: tuple


@dataclass(frozen=True)
class Interface:
    word: Word
    bases: tuple
    operations: tuple | None  # None: it is only declared


@dataclass(frozen=True)
class File:
    items: tuple
    includes: tuple  # pairs of a name and the directive's place


class Parser:
    """Takes one token after the other. Every rule is told by its first token, so that a token that does not fit is the first
    with which no file goes on."""

    def __init__(self, tokens):
        self.tokens, self.at = tokens, 0
        self.items, self.includes, self.is_guarded = [], [], False

    def sort(self):
        return self.tokens[self.at].sort

    def place(self):
        return self.tokens[self.at].place

    def refused(self):
        return TextFault(self.place(), "Expected")

    def take(self, sort):
        """Takes a token of the sort, and returns it."""
        if self.sort() != sort:
            raise self.refused()
        self.at += 1
        return self.tokens[self.at - 1]

    def takes(self, sort):
        """Takes a token of the sort where one stands there, and says whether it did."""
        stands = self.sort() == sort
        self.at += stands
        return stands

    def word(self):
        token = self.take("word")
        return Word(token.value, token.place)

    def texts(self, close):
        self.take("text")
        while self.takes(","):
            self.take("text")
        self.take(close)

    def meta(self):
        while self.takes("["):
            self.texts("]")

    def scoped(self):
        place, is_outer = self.place(), self.takes("::")
        words = [self.word().name]
        while self.takes("::"):
            words.append(self.word().name)
        return Path(is_outer, tuple(words), place)

    def scoped_list(self):
        found = [self.scoped()]
        while self.takes(","):
            found.append(self.scoped())
        return tuple(found)

    def type(self):
        place, sort = self.place(), self.sort()
        if sort in BUILT_IN:
            self.at += 1
            return TypeWord(place, sort, None, sort == "Object" and self.takes("*"))
        path = self.scoped()
        return TypeWord(place, None, path, self.takes("*"))

    def value(self):
        place, sort = self.place(), self.sort()
        if sort in ("-", "+"):
            self.at += 1
            number = self.take("number").value
            return Value(place, -number, f"-{number}") if sort == "-" else Value(place, number, str(number))
        if sort == "number":
            number = self.take("number").value
            return Value(place, number, str(number))
        if sort in ("true", "false"):
            self.at += 1
            return Value(place, sort == "true", sort)
        if self.takes("text"):
            return Value(place, None)
        return Value(place, self.scoped())

    def tag(self):
        if not self.takes("optional"):
            return None
        return self.in_rounds()

    def in_rounds(self):
        self.take("(")
        value = self.value()
        self.take(")")
        return value

    def member(self, may_be_optional):
        self.meta()
        tag = self.tag() if may_be_optional else None
        type, word = self.type(), self.word()
        value = self.value() if self.takes("=") else None
        self.take(";")
        return Field(tag, type, word, value)

    def members(self, may_be_optional):
        self.take("{")
        found = []
        while not self.takes("}"):
            found.append(self.member(may_be_optional))
        self.takes(";")
        return tuple(found)

    def constant(self):
        self.meta()
        type, word = self.type(), self.word()
        self.take("=")
        value = self.value()
        self.take(";")
        return Constant(type, word, value)

    def enum(self):
        word, entries = self.word(), []
        self.take("{")
        while not self.takes("}"):
            entry = self.word()
            entries.append((entry, self.value() if self.takes("=") else None))
            if not self.takes(","):
                self.take("}")
                break
        self.takes(";")
        return Enum(word, tuple(entries))

    def struct(self):
        return Struct(self.word(), self.members(may_be_optional=False))

    def sequence(self):
        self.take("<")
        self.meta()
        element = self.type()
        self.take(">")
        word = self.word()
        self.take(";")
        return Sequence(word, element)

    def dictionary(self):
        self.take("<")
        self.meta()
        key = self.type()
        self.take(",")
        self.meta()
        value = self.type()
        self.take(">")
        word = self.word()
        self.take(";")
        return Dictionary(word, key, value)

    def base(self):
        return self.scoped() if self.takes("extends") else None

    def class_(self):
        word = self.word()
        if self.takes(";"):
            return Class(word, None, None, None)
        compact = self.in_rounds() if self.sort() == "(" else None
        base = self.base()
        return Class(word, compact, base, self.members(may_be_optional=True))

    def exception(self):
        word, base = self.word(), self.base()
        return Exception_(word, base, self.members(may_be_optional=True))

    def interface(self):
        word = self.word()
        if self.takes(";"):
            return Interface(word, (), None)
        bases = self.scoped_list() if self.takes("extends") else ()
        self.take("{")
        operations = []
        while not self.takes("}"):
            operations.append(self.operation())
        self.takes(";")
        return Interface(word, bases, tuple(operations))

    def operation(self):
        self.meta()
        is_idempotent, result = self.takes("idempotent"), None
        if not self.takes("void"):
            tag = self.tag()
            result = Field(tag, self.type(), None)
        word = self.word()
        parameters = self.parameters()
        throws = self.scoped_list() if self.takes("throws") else ()
        self.take(";")
        return Operation(is_idempotent, result, word, parameters, throws)

    def parameters(self):
        self.take("(")
        if self.takes(")"):
            return ()
        found = [self.parameter()]
        while self.takes(","):
            found.append(self.parameter())
        self.take(")")
        return tuple(found)

    def parameter(self):
        is_out = self.takes("out")
        self.meta()
        tag = self.tag()
        type, word = self.type(), self.word()
        return Parameter(is_out, Field(tag, type, word))

    def enter(self):
        """Takes the head of a module, and returns how many modules it opens."""
        self.take("module")
        words = [self.word()]
        while self.takes("::"):
            words.append(self.word())
        self.take("{")
        self.items += [Enter(it) for it in words]
        return len(words)

    def module(self):
        """Takes a module with all that is in it. Modules in modules are counted, not called."""
        open_ = [self.enter()]
        while open_:
            if self.takes("}"):
                self.items += [Exit()] * open_.pop()
                self.takes(";")
                continue
            self.meta()
            if self.sort() == "module":
                open_.append(self.enter())
            else:
                self.items.append(self.definition())

    def definition(self):
        sorts = {
            "const": self.constant,
            "enum": self.enum,
            "struct": self.struct,
            "sequence": self.sequence,
            "dictionary": self.dictionary,
            "class": self.class_,
            "exception": self.exception,
            "interface": self.interface,
        }
        if self.sort() not in sorts:
            raise self.refused()
        self.at += 1
        return sorts[self.tokens[self.at - 1].sort]()

    def directive(self):
        """Takes a directive of those that stand before the modules."""
        token = self.tokens[self.at]
        if found := INCLUDE.fullmatch(token.value):
            self.includes.append((self.included(found[1] if found[1] is not None else found[2]), token.place))
        elif IFNDEF.fullmatch(token.value):
            self.is_guarded = True
        elif not PLAIN.fullmatch(token.value):
            raise self.refused()
        self.at += 1

    def included(self, name):
        try:
            return name.decode()
        except UnicodeDecodeError:
            raise self.refused() from None

    def is_end_of_guard(self):
        return self.is_guarded and self.sort() == "directive" and ENDIF.fullmatch(self.tokens[self.at].value)

    def file(self):
        while self.sort() in ("directive", "[[") and not self.is_end_of_guard():
            if self.takes("[["):
                self.texts("]]")
            else:
                self.directive()
        while self.sort() in ("[", "module"):
            self.meta()
            self.module()
        if self.is_guarded:
            if not self.is_end_of_guard():
                raise self.refused()
            self.at += 1
        self.take("end")
        return File(tuple(self.items), tuple(self.includes))


def read(text):
    """Returns the tree of a text, given as bytes."""
    return Parser(tokens_of(text)).file()
