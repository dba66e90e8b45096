"""Makes texts of proxies from a seed: good ones in all forms, and broken ones.

Equal seeds and numbers give equal texts. Nothing here says what is good or broken: `proxies.read` does, but of a text that
was made of a proxy the proxy is known here, and stands in the trial.
"""
import random
from dataclasses import dataclass

import generate
import proxies
import values


@dataclass(frozen=True)
class Trial:
    what: str
    text: bytes
    proxy: values.Proxy | None = None  # where the text is known to be good


BLANKS = [b" ", b" ", b" ", b"  ", b"\t", b"\n", b"\r\n", b"\f"]
# Words for wrong places, good and broken ones.
WORDS = rb"""-f -t -o -O -d -D -s -p -e -h -z -x -v -T -tt - -- --t : @ :: tcp default opaque udp ssl TCP infinite Infinite 0 1 -1 01 -0 +1
0x1 -01 -- 1- 127 128 255 256 32767 32768 -32768 -32769 65535 2147483647 2147483648 -2147483648 -2147483649 99999999999999999999 1.0 1.1
1.2 0.0 255.255 256.0 0.256 -1.0 -0.-0 1. .1 . 1.1.1 1,1 01.001 a ab abc ABCD zz 00 "" "a" "a "a"b a"b a"b" "" "-t" a/b a/b/c /a a/ / // "/"
"a/b" \/ \a \x \: \@ \" \' \0 \00 \000 \001 \377 \400 \303\251 \303 \251 \u00e9 \u00E9 \u00e \ud800 \udfff \uffff \U0001F600 \U00110000
\U0001F60 \N \\ \\\ a\ a\"b "a\" "\"" localhost 127.0.0.1""".split() + ["é".encode(), b'"a b"', b'"a:b"', b'"a@b"', b'"\\ "', b"\v"]
BYTES = [*b'"\\/:@-. \t\n\r\f\v019afxuU', 127, 195, 169, 255]
LONGEST = 8_192


def is_symbol(word):
    return word in (b":", b"@")


class Speller:
    """Spells proxies as words, in the many forms that a text has."""

    def __init__(self, chance):
        self.chance = chance
        self.escapes = chance.choice([0, 0, 0.1, 0.3, 1])  # how often a byte is escaped that need not be
        self.said = chance.choice([0, 0.5, 1])  # how often an option is said that goes without saying
        self.zeros = chance.choice([0, 0, 0.3])

    def is_said(self):
        return self.chance.random() < self.said

    def escape(self, letter):
        """Returns one of the escapes of a letter."""
        data = letter.encode()
        octal = b"".join(b"\\%03o" % it for it in data)
        number = b"%04x" % ord(letter) if ord(letter) < 65_536 else b"%08x" % ord(letter)
        long = b"\\U%08X" % ord(letter)
        named = [b"\\" + bytes([it]) for it, byte in proxies.LETTERS.items() if data == bytes([byte])]
        return self.chance.choice([octal, (b"\\u" if len(number) == 4 else b"\\U") + number, long, *named, *named, *named])

    def letters(self, text, kept):
        """Returns the text with those letters escaped that have to be, and with others as chance has it."""
        spelled = []
        for letter in text.decode():
            must = letter in kept or letter == "\0"
            spelled.append(self.escape(letter) if must or self.chance.random() < self.escapes else letter.encode())
        return b"".join(spelled)

    def word(self, parts, kept='"\\'):
        """Returns a word that may stand in quotes, of one part or of several with a `/` between."""
        is_quoted = not b"".join(parts) or self.chance.random() < 0.4
        kept += "" if is_quoted else " \t\n\r\f:@"
        word = b"/".join([self.letters(it, kept) for it in parts])
        return b'"' + word + b'"' if is_quoted else word

    def identity(self, it):
        has_category = it.category or self.chance.random() < 0.1
        return self.word([it.category, it.name] if has_category else [it.name], '"\\/')

    def number(self, number):
        zeros = b"0" * self.chance.choice([1, 2, 12]) if self.chance.random() < self.zeros else b""
        return (b"-" if number < 0 or (zeros and number == 0) else b"") + zeros + b"%d" % abs(number)

    def version(self, version):
        return b".".join(map(self.number, version))

    def shuffled(self, options):
        """Returns the words of options in some order. Each comes with its words and with whether it has to be said."""
        said = [words for words, must in options if must or self.is_said()]
        self.chance.shuffle(said)
        return [word for words in said for word in words]

    def tcp(self, it):
        timeout = b"infinite" if it.timeout == proxies.INFINITE and self.chance.random() < 0.6 else self.number(it.timeout)
        options = [([b"-h", self.word([it.host])], it.host), ([b"-p", self.number(it.port)], it.port)]
        options += [([b"-t", timeout], it.timeout != values.Tcp.timeout)] + ([([b"-z"], True)] if it.is_compressed else [])
        return [self.chance.choice([b"tcp", b"tcp", b"default"]), *self.shuffled(options)]

    def opaque(self, it):
        digits = "".join(self.chance.choice([letter, letter.upper()]) for letter in it.data.hex()).encode() or b'""'
        return [b"opaque", b"-t", self.number(it.type), b"-e", self.version(it.version), b"-x", digits]

    def words(self, it):
        """Returns the words of a proxy."""
        options = [([b"-f", self.word([it.facet])], it.facet), ([proxies.MODES[it.mode]], it.mode)]
        options += [([b"-p", self.version(it.protocol)], it.protocol != (1, 0)), ([b"-e", self.version(it.encoding)], it.encoding != (1, 1))]
        words = [self.identity(it), *self.shuffled(options + ([([b"-s"], True)] if it.is_secure else []))]
        for endpoint in it.endpoints:
            words += [b":", *(self.opaque(endpoint) if isinstance(endpoint, values.Opaque) else self.tcp(endpoint))]
        adds_adapter = it.adapter or (not it.endpoints and self.chance.random() < 0.1)
        return words + ([b"@", self.word([it.adapter])] if adds_adapter else [])


def joined(words, chance):
    """Returns the text of words, with blanks where they have to be and where chance puts them."""
    extra = chance.choice([0, 0, 0.2, 0.6])
    text = [chance.choice(BLANKS) if chance.random() < extra else b""]
    for word, behind in zip(words, [*words[1:], b":"]):
        needed = not is_symbol(word) and not is_symbol(behind)
        text += [word, b" " if needed and extra < 0.5 else chance.choice(BLANKS) if needed or chance.random() < extra else b""]
    return b"".join(text)


def with_odd_words(words, chance):
    """Returns words of which one is dropped, doubled, replaced, put in, exchanged with the next or joined to it."""
    at = chance.randrange(len(words))
    front, word, back = words[:at], words[at], words[at + 1 :]
    ways = {
        "dropped": front + back,
        "doubled": front + [word, word] + back,
        "replaced": front + [chance.choice(WORDS)] + back,
        "put in": front + [chance.choice(WORDS), word] + back,
        "repeated elsewhere": front + [word] + back + [chance.choice(words)],
        "exchanged": front + back[:1] + [word] + back[1:],
        "joined": front + [word + b"".join(back[:1])] + back[1:],
        "cut": front,
    }
    what = chance.choice(list(ways))
    return f"a word {what}", ways[what]


def with_odd_bytes(text, chance):
    """Returns a text of which one byte is dropped, doubled, replaced or put in, or which is cut there."""
    at = chance.randrange(len(text))
    front, back = text[:at], text[at + 1 :]
    odd = bytes([chance.choice(BYTES)])
    ways = {"dropped": front + back, "doubled": text[: at + 1] + text[at:], "replaced": front + odd + back}
    ways |= {"put in": front + odd + text[at:], "cut": front}
    what = chance.choice(list(ways))
    return f"a byte {what}", ways[what]


def long_trial(chance):
    """Returns a good text of about as many bytes as a word has at most."""
    speller, proxy = Speller(chance), generate.ProxyMaker(chance).proxy()
    text, room = joined(speller.words(proxy), chance), LONGEST + chance.choice([-1, 0, 0, 1])
    way = chance.choice(["blanks", "name", "endpoints"])
    if way == "blanks" or len(text) >= room:
        return Trial("long, blanks", text.rstrip(b" \t\r\n\f") + b" " * (room - len(text.rstrip(b" \t\r\n\f"))), proxy)
    if way == "name":
        return Trial("a long name", chance.choice([b"a", b"\\\\", b"\\u00e9", b"\\303\\251"]) * 2_000 + text)
    return Trial("many endpoints", (b"a" + b":tcp" * 2_100)[:room])


def trial(seed, number):
    """Returns one text."""
    chance = random.Random(f"proxy {seed} {number}")
    if chance.random() < 0.01:
        return long_trial(chance)
    if chance.random() < 0.03:
        words = [chance.choice(WORDS) for _ in range(chance.choice([0, 1, 1, 2, 3, 5]))]
        return Trial("any words", joined(words, chance) if words else b"")
    proxy = generate.ProxyMaker(chance).proxy()
    words = Speller(chance).words(proxy)
    sort = chance.choice(["good", "good", "words", "words", "words", "bytes", "bytes"])
    if sort == "good":
        return Trial("good", joined(words, chance), proxy)
    if sort == "bytes":
        what, text = with_odd_bytes(joined(words, chance), chance)
        return Trial(what, text)
    what, words = with_odd_words(words, chance)
    if words and chance.random() < 0.2:
        what, words = with_odd_words(words, chance)
    return Trial(what, joined(words, chance) if words else b"")
