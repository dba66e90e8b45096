"""Reads the text of a proxy, or finds the first word that cannot stand where it stands, and prints a proxy.

    proxy    = identity { option } ( { ":" endpoint } | "@" adapter )
    identity = [ category "/" ] name
    option   = "-f" facet | "-t" | "-o" | "-O" | "-d" | "-D" | "-s" | "-p" version | "-e" version
    endpoint = ( "tcp" | "default" ) { "-h" host | "-p" number | "-t" ( number | "infinite" ) | "-z" }
             | "opaque" "-t" number "-e" version "-x" hex

Words are parted by blanks; a `:` or `@` outside quotes ends a word, and is one. Texts are bytes in UTF-8.
"""
import re
from dataclasses import dataclass, replace

import values

BLANKS = b" \t\r\n\f"
SYMBOLS = b":@"
QUOTE, BACKSLASH, SLASH = b'"\\/'
MODES = (b"-t", b"-o", b"-O", b"-d", b"-D")
NUMBER = re.compile(rb"(-?)0*([0-9]{1,10})")
HEX = re.compile(rb'""|(?:[0-9A-Fa-f]{2})+')
# An escape, and the byte that the letters of one stand for.
ESCAPE = re.compile(rb"\\(?:(?P<octal>[0-3][0-7]{2})|u(?P<four>[0-9A-Fa-f]{4})|U(?P<eight>[0-9A-Fa-f]{8})|(?P<letter>[\\\"/'abtnvfr]))")
LETTERS = dict(zip(b"\\\"/'abtnvfr", b"\\\"/'\a\b\t\n\v\f\r"))
# The timeout that is written so.
INFINITE = -1


class Refused(Exception):
    """The place of the first word that cannot stand there, or the text's length where a word lacks."""

    def __init__(self, place):
        super().__init__(f"text refused at {place}")
        self.place = place


# Words


@dataclass(frozen=True)
class Word:
    place: int
    text: bytes | None  # None at the end


def end_of_word(text, at):
    """Returns where the word ends that begins there, which is no blank. Inside quotes nothing but a quote ends anything."""
    if text[at] in SYMBOLS:
        return at + 1
    is_quoted = False
    while at < len(text) and (is_quoted or text[at] not in BLANKS + SYMBOLS):
        escapes = text[at] == BACKSLASH and at + 1 < len(text) and (is_quoted or text[at + 1] not in BLANKS + SYMBOLS)
        is_quoted ^= text[at] == QUOTE
        at += 2 if escapes else 1
    return at


def words_of(text):
    words, at = [], 0
    while at < len(text):
        if text[at] in BLANKS:
            at += 1
            continue
        end = end_of_word(text, at)
        words.append(Word(at, text[at:end]))
        at = end
    return words + [Word(len(text), None)]


# What may stand in quotes


def unescaped(text, at):
    """Returns the bytes that an escape stands for, and where it ends; None where it is none."""
    found = ESCAPE.match(text, at)
    if not found:
        return None
    if found["octal"]:
        return bytes([int(found["octal"], 8)]), found.end()
    if found["letter"]:
        return bytes([LETTERS[ord(found["letter"])]]), found.end()
    number = int(found["four"] or found["eight"], 16)
    if number > 0x10FFFF or 0xD800 <= number <= 0xDFFF:
        return None
    return chr(number).encode(), found.end()


def parts_of(word, parter=None):
    """Returns the parts of a word that may stand in quotes, with its escapes replaced, each of which is UTF-8. The byte `parter`
    parts them where it is not escaped. None where the word is broken."""
    text = word[1:-1] if word[:1] == b'"' else word
    if word[:1] == b'"' and (len(word) < 2 or word[-1] != QUOTE):
        return None
    parts, at = [bytearray()], 0
    while at < len(text):
        if text[at] == QUOTE:
            return None
        if text[at] == BACKSLASH:
            given = unescaped(text, at)
            if given is None:
                return None
            parts[-1] += given[0]
            at = given[1]
            continue
        if text[at] == parter:
            parts.append(bytearray())
        else:
            parts[-1] += text[at : at + 1]
        at += 1
    return [bytes(it) for it in parts] if all(is_utf8(it) for it in parts) else None


def is_utf8(text):
    try:
        text.decode("utf-8", "strict")
    except UnicodeDecodeError:
        return False
    return True


def number_of(text, least, most):
    """Returns the number in decimal that a text is, with an optional `-`, None where it is none or out of the range."""
    found = NUMBER.fullmatch(text)
    if not found:
        return None
    number = int(found[1] + found[2])
    return number if least <= number <= most else None


# The grammar


class Reader:
    def __init__(self, text):
        self.words, self.at = words_of(text), 0

    def next(self):
        return self.words[self.at]

    def is_next(self, *texts):
        return self.next().text in texts

    def refuse(self, word=None):
        raise Refused((word or self.next()).place)

    def take(self, *texts):
        """Takes the next word, which has to be one of the texts, if any are given."""
        word = self.next()
        if word.text is None or (texts and word.text not in texts):
            self.refuse()
        self.at += 1
        return word

    def taken_as(self, value):
        """Takes the next word, and returns what it is; it is refused where that is None."""
        word = self.take()
        given = value(word.text)
        if given is None:
            self.refuse(word)
        return given

    def text(self):
        """Returns a facet, a host or an adapter, in which a `/` is a byte like any other."""
        if self.is_next(b":", b"@"):
            self.refuse()
        return self.taken_as(parts_of)[0]

    def number(self, bits):
        return self.taken_as(lambda word: number_of(word, -(2 ** (bits - 1)), 2 ** (bits - 1) - 1))

    def timeout(self):
        if self.is_next(b"infinite"):
            self.take()
            return INFINITE
        return self.number(32)

    def version(self):
        def version_of(word):
            numbers = [number_of(it, 0, 255) for it in word.split(b".")]
            return tuple(numbers) if len(numbers) == 2 and None not in numbers else None

        return self.taken_as(version_of)

    def identity(self):
        """Returns the name and the category."""

        def identity_of(word):
            parts = parts_of(word, SLASH)
            return tuple(parts[::-1]) if parts and len(parts) <= 2 and parts[-1] else None

        if self.is_next(b":", b"@"):
            self.refuse()
        name, *category = self.taken_as(identity_of)
        return name, b"".join(category)

    def option_of(self, seen, options, same=()):
        """Takes the next word where it is one of the options, and returns it, or None. No option comes twice; of those of `same` one
        comes at most."""
        if not self.is_next(*options):
            return None
        option = self.next().text
        if (MODES if option in same else option) in seen:
            self.refuse()
        seen.add(MODES if option in same else option)
        return self.take().text

    def proxy(self):
        proxy, seen = values.Proxy(*self.identity()), set()
        while option := self.option_of(seen, (*MODES, b"-f", b"-s", b"-p", b"-e"), MODES):
            if option == b"-f":
                proxy = replace(proxy, facet=self.text())
            elif option == b"-s":
                proxy = replace(proxy, is_secure=True)
            elif option == b"-p":
                proxy = replace(proxy, protocol=self.version())
            elif option == b"-e":
                proxy = replace(proxy, encoding=self.version())
            else:
                proxy = replace(proxy, mode=MODES.index(option))
        if self.is_next(b"@"):
            self.take()
            proxy = replace(proxy, adapter=self.text())
        else:
            proxy = replace(proxy, endpoints=tuple(self.endpoints()))
        if not self.is_next(None):
            self.refuse()
        return proxy

    def endpoints(self):
        while self.is_next(b":"):
            self.take()
            yield self.endpoint()

    def endpoint(self):
        if self.take(b"tcp", b"default", b"opaque").text == b"opaque":
            return self.opaque()
        tcp, seen = values.Tcp(), set()
        while option := self.option_of(seen, (b"-h", b"-p", b"-t", b"-z")):
            if option == b"-h":
                tcp = replace(tcp, host=self.text())
            elif option == b"-p":
                tcp = replace(tcp, port=self.number(32))
            elif option == b"-t":
                tcp = replace(tcp, timeout=self.timeout())
            else:
                tcp = replace(tcp, is_compressed=True)
        return tcp

    def opaque(self):
        self.take(b"-t")
        word = self.next()
        type_ = self.number(16)
        self.take(b"-e")
        version = self.version()
        if (type_, version) == (values.TCP, values.VERSION):
            self.refuse(word)
        self.take(b"-x")
        return values.Opaque(type_, version, self.taken_as(lambda it: bytes.fromhex(it.strip(b'"').decode()) if HEX.fullmatch(it) else None))


def read(text):
    """Returns the proxy of a text in UTF-8, or raises `Refused`."""
    return Reader(text).proxy()


# The printed form

PRINTED = {ord("\\"): "\\\\", ord('"'): '\\"', ord("'"): "\\'", ord("\n"): "\\n", ord("\r"): "\\r", ord("\t"): "\\t"}
OCTAL = [it for it in (*range(32), 127) if it not in PRINTED]


def escaped(text):
    return text.decode().translate({**PRINTED, **{it: f"\\{it:03o}" for it in OCTAL}}).encode()


def in_quotes(printed, text):
    """Returns what is printed of a text, in quotes where the text itself asks for them."""
    needs = not text or text[:1] == b"-" or any(it in BLANKS + SYMBOLS + b'"' for it in text)
    return b'"' + printed + b'"' if needs else printed


def printed_text(text):
    return in_quotes(escaped(text), text)


def printed_identity(name, category):
    parts = [category, name] if category else [name]
    return in_quotes(b"/".join(escaped(it).replace(b"/", b"\\/") for it in parts), b"/".join(parts))


def printed_version(version):
    return b"%d.%d" % version


def printed_endpoint(it):
    if isinstance(it, values.Opaque):
        return b":opaque -t %d -e %b -x %b" % (it.type, printed_version(it.version), it.data.hex().encode() or b'""')
    host = b" -h " + printed_text(it.host) if it.host else b""
    timeout = b"infinite" if it.timeout == INFINITE else b"%d" % it.timeout
    return b":tcp%b -p %d -t %b%b" % (host, it.port, timeout, b" -z" if it.is_compressed else b"")


def printed(it):
    """Returns the printed form of a proxy."""
    text = printed_identity(it.name, it.category)
    text += b" -f " + printed_text(it.facet) if it.facet else b""
    text += b" " + MODES[it.mode] + (b" -s" if it.is_secure else b"")
    text += b" -p " + printed_version(it.protocol) if it.protocol != (1, 0) else b""
    text += b" -e " + printed_version(it.encoding) + b"".join(map(printed_endpoint, it.endpoints))
    return text + (b" @ " + printed_text(it.adapter) if it.adapter else b"")
