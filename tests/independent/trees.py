"""What `workbench slice --tokens` and `workbench slice --tree` have to print of a text.

A token is its sort, where a keyword and a symbol are told by their places in their lists, and its first byte and the one after
its last. A tree is a line for each item, with `@` before each place. A type is its keyword's place or a name, `tag` stands before
the tag of what is optional, and a base or a thrown exception has its word before it each time.
"""
import grammar
from lexer import KEYWORDS, SYMBOLS, TextFault, tokens_of


def sort_of(token):
    if token.sort in KEYWORDS:
        return f"Keyword({KEYWORDS.index(token.sort)})"
    if token.sort in SYMBOLS:
        return f"Symbol({SYMBOLS.index(token.sort)})"
    return f"Number({token.value})" if token.sort == "number" else token.sort.capitalize()


def token_lines(text):
    try:
        return [f"{sort_of(it)} {it.place}..{it.end}" for it in tokens_of(text)[:-1]]
    except TextFault as fault:
        return [defect(fault)]


def defect(fault):
    return fault.kind if fault.kind == "TooLong" else f"{fault.kind}({fault.place})"


def tree_lines(text):
    try:
        tokens = tokens_of(text)
    except TextFault as fault:
        return [defect(fault)]
    try:
        file = grammar.Parser(tokens).file()
    except TextFault as fault:
        found = next(it for it in tokens if it.place == fault.place)
        told = "None" if found.sort == "end" else f"Some({sort_of(found)})"
        return [f"Expected {{ place: {fault.place}, found: {told} }}"]
    return [LINES[type(it)](it) for it in file.items] + [f"include {name}@{place}" for name, place in file.includes]


def word(it):
    return f"{it.name}@{it.place}"


def path(it):
    return ("::" if it.is_outer else "") + "::".join(it.words) + f"@{it.place}"


def type_(it):
    star = "*" if it.is_proxy else ""
    return f" {KEYWORDS.index(it.built)}{star}@{it.place}" if it.built else f" {path(it.path)}{star}"


def value(it):
    if it is None:
        return ""
    if isinstance(it.given, grammar.Path):
        return f" = @{it.place} {path(it.given)}"
    return f" = @{it.place} " + ("text" if it.given is None else it.spelled)


def field(it):
    tag = f" tag{value(it.tag)}" if it.tag else ""
    return f"{tag}{type_(it.type)}" + (f" {word(it.word)}" if it.word else "") + value(it.value)


def fields(some):
    return " {" + "".join(f"{field(it)};" for it in some) + " }"


def extends(base):
    return f" extends {path(base)}" if base else ""


def operation(it):
    parameters = "".join((" out" if each.is_out else "") + field(each.field) + "," for each in it.parameters)
    thrown = "".join(f" throws {path(each)}" for each in it.throws)
    front = " idempotent" if it.is_idempotent else ""
    return f"{front}{field(it.result) if it.result else ' void'} {word(it.word)}({parameters}){thrown};"


def class_(it):
    compact = f" id{value(it.compact)}" if it.compact else ""
    return f"class {word(it.word)}{compact}{extends(it.base)}" + (";" if it.fields is None else fields(it.fields))


def interface(it):
    front = f"interface {word(it.word)}" + "".join(extends(each) for each in it.bases)
    return front + (";" if it.operations is None else " {" + "".join(operation(each) for each in it.operations) + " }")


LINES = {
    grammar.Enter: lambda it: f"enter {word(it.word)}",
    grammar.Exit: lambda it: "exit",
    grammar.Constant: lambda it: f"const{type_(it.type)} {word(it.word)}{value(it.value)}",
    grammar.Enum: lambda it: f"enum {word(it.word)}" + "".join(f" {word(entry)}{value(given)}" for entry, given in it.entries),
    grammar.Struct: lambda it: f"struct {word(it.word)}{fields(it.fields)}",
    grammar.Sequence: lambda it: f"sequence {word(it.word)}{type_(it.element)}",
    grammar.Dictionary: lambda it: f"dictionary {word(it.word)}{type_(it.key)}{type_(it.value)}",
    grammar.Class: class_,
    grammar.Exception_: lambda it: f"exception {word(it.word)}{extends(it.base)}{fields(it.fields)}",
    grammar.Interface: interface,
}
