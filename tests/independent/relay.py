"""The answers that `ice check FILE`, `ice relay [--compact] FILE TYPE`, `ice same FILE TYPE`, `ice dump FILE TYPE`,
`ice encode [--compact] FILE TYPE` and `ice proxy TEXT` have to give: status, standard output, and the line on standard error."""
import graphs
import json_notation
import json_texts
import kinds
import loading
import names
import proxies
import same as sameness
import values

# The most bytes of a word of the command line.
MOST_OF_A_WORD = 8_192
# The most bytes of a text of JSON.
MOST_OF_JSON = 16_777_216


def refused_slice(why):
    return 3, b"", f"ice: {why.file}:{why.place}: {why.kind}\n".encode()


def check(shelf, file):
    """Returns the answer for the shelf, which has the bytes of files by their names, and where FILE is refused, why."""
    try:
        counts = loading.load(shelf, file).counts()
    except loading.Refused as why:
        return refused_slice(why), str(why)
    told = ", ".join(f"{count} {sort}" for sort, count in counts.items())
    return (0, f"ok: {told}\n".encode(), b""), ""


def kind_of(schema, word):
    """Returns the type that a word of the command line names, or None."""
    built_in = {**kinds.BUILT_IN, "Object": kinds.ANY_CLASS, "Object*": kinds.ANY_PROXY}
    if word in built_in:
        return built_in[word]
    found = schema.named(word.removesuffix("*"))
    sorts = names.Interface if word.endswith("*") else (names.Type, names.Enum, names.Class)
    return found.kind if isinstance(found, sorts) else None


class Unread(Exception):
    """The answer where no graph is read, and why."""


def schema_of(shelf, file):
    try:
        return loading.load(shelf, file)
    except loading.Refused as why:
        raise Unread(refused_slice(why), str(why)) from None


def named_kind(schema, word):
    kind = kind_of(schema, word)
    if kind is None:
        raise Unread((2, b"", b"ice: no such name " + word.encode() + b"\n"), "no such name")
    return kind


def classes_of(schema):
    return [it.kind.class_ for it in schema.rules.classes]


def read(schema, word, data, count):
    """Returns the type and the graphs of an input of so many encapsulations."""
    kind = named_kind(schema, word)
    try:
        return kind, graphs.decode_all(data, count, kind, classes_of(schema))
    except values.Fault as why:
        raise Unread((4, b"", f"ice: input refused at {why.place}: {why.kind}\n".encode()), str(why)) from None


def relay(shelf, file, word, data, is_compact=False):
    """Returns the answer for the shelf, for FILE, for TYPE and for the input, and where one is refused, why."""
    try:
        kind, (graph,) = read(schema_of(shelf, file), word, data, 1)
    except Unread as unread:
        return unread.args
    return written_answer(graphs.encode_compact(graph, kind) if is_compact else graphs.encode(graph, kind))


def written_answer(written):
    """Returns the answer where these bytes are to be written, None where kept slices have no place in them, and why they are not."""
    if written is None:
        return (4, b"", b"ice: kept slice needs sliced format\n"), "kept slice"
    if len(written) > values.MOST_BYTES:
        return (4, b"", f"ice: answer too long: {len(written)}\n".encode()), "too long"
    return (0, written, b""), ""


def same(shelf, file, word, data):
    """Returns likewise the answer to whether two graphs are the same."""
    try:
        return same_of(schema_of(shelf, file), word, data)
    except Unread as unread:
        return unread.args


def same_of(schema, word, data):
    kind, both = read(schema, word, data, 2)
    if sameness.is_same(*both, kind):
        return (0, b"same\n", b""), "same"
    return (1, b"different\n", b""), "different"


def dump(shelf, file, word, data):
    """Returns likewise the answer to what a value is in JSON."""
    try:
        return dump_of(schema_of(shelf, file), word, data)
    except Unread as unread:
        return unread.args


def dump_of(schema, word, data):
    kind, (graph,) = read(schema, word, data, 1)
    return (0, json_notation.note(graph, kind) + b"\n", b""), ""


def refused_text(kind, why):
    return Unread((4, b"", f"ice: text refused: {kind}\n".encode()), f"{kind}: {why}")


def graph_noted(schema, kind, text):
    """Returns the graph that a text of JSON notes."""
    if len(text) > MOST_OF_JSON:
        raise refused_text("TooLong", len(text))
    try:
        told = json_texts.read(text)
    except json_texts.NotJson as why:
        raise refused_text("NotJson", why) from None
    if json_notation.is_too_many(told):
        raise refused_text("TooMany", len(told["instances"]))
    try:
        return json_notation.graph_of(told, kind, classes_of(schema))
    except json_notation.Misfit as why:
        raise refused_text("Misfit", why) from None


def encode(shelf, file, word, text, is_compact=False):
    """Returns likewise the answer to what the bytes of a value in JSON are."""
    try:
        return encode_of(schema_of(shelf, file), word, text, is_compact)
    except Unread as unread:
        return unread.args


def encode_of(schema, word, text, is_compact=False):
    kind = named_kind(schema, word)
    graph = graph_noted(schema, kind, text)
    return written_answer(graphs.encode_compact(graph, kind) if is_compact else graphs.encode(graph, kind))


def proxy(text):
    """Returns the answer for TEXT, by its bytes, and where it is refused, why."""
    if len(text) > MOST_OF_A_WORD or not proxies.is_utf8(text):
        return (2, b"", b"ice: usage\n"), "no word"
    try:
        given = proxies.read(text)
    except proxies.Refused as why:
        return (4, b"", f"ice: text refused at {why.place}\n".encode()), str(why)
    return (0, proxies.printed(given) + b"\n" + values.spelled_proxy(given).hex().encode() + b"\n", b""), ""
