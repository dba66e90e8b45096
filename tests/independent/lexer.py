"""The tokens of a Slice text, or its first defect from the left.

Blanks are space, tab, carriage return, newline and form feed; comments go from `//` to the line's end, or stand in `/* */`.
A line ends at a newline alone. A word is a letter or `_`, and then letters, digits and `_`, all of ASCII; with `\\` in front
it is an identifier even where it is spelled like a keyword. A number is `0`, digits without a leading zero, `0` and octal
digits, or `0x` and hexadecimal digits. A string stands in `"` on one line, and `\\` in it takes the next byte with it. A line
whose first byte other than a blank is `#` is one directive up to its end. Of two tokens that begin at a place the longer
one counts.
"""
import re
from typing import NamedTuple

MOST_BYTES = 1_000_000
MOST_NUMBER = 2**63

KEYWORDS = """bool byte class const dictionary double enum exception extends false float idempotent implements int interface
local LocalObject long module Object optional out sequence short string struct throws true Value void""".split()
SYMBOLS = "{ } ( ) < > [ ] [[ ]] , ; :: = * + -".split()

GAP = re.compile(rb"(?:[ \t\r\n\f]+|//[^\n]*|/\*.*?\*/)*", re.DOTALL)
WORD = re.compile(rb"(\\?)([A-Za-z_][A-Za-z0-9_]*)")
NUMBER = re.compile(rb"0x[0-9A-Fa-f]*|0[0-7]*|[1-9][0-9]*")
AFTER_NO_NUMBER = re.compile(rb"[A-Za-z0-9_.]")
STRING = re.compile(rb'"(?:[^"\\\n]|\\[^\n])*"')
SYMBOL = re.compile(rb"\[\[|\]\]|::|[{}()<>\[\],;=*+-]")
REST_OF_LINE = re.compile(rb"[^\n]*")
BLANK_LINE = re.compile(rb"[ \t\r\f]*")


class TextFault(Exception):
    """What is wrong with a text: the place of its first byte, and its kind."""

    def __init__(self, place, kind):
        super().__init__(f"{place}: {kind}")
        self.place, self.kind = place, kind


class Token(NamedTuple):
    """A token. Its sort is "word", "number", "text", "directive" or "end", or the keyword or the symbol that it is."""

    sort: str
    place: int
    end: int
    value: object = None  # the name of a word, a number, the bytes of a directive after its `#`


def is_first_in_line(text, at):
    return BLANK_LINE.fullmatch(text, text.rfind(b"\n", 0, at) + 1, at) is not None


def number_at(text, at):
    """Returns the value of the number there, and where it ends."""
    found = NUMBER.match(text, at)
    digits, end = found[0].decode(), found.end()
    if digits == "0x" or AFTER_NO_NUMBER.match(text, end):
        raise TextFault(at, "BadNumber")
    base = 16 if digits.startswith("0x") else 8 if digits.startswith("0") else 10
    value = int(digits, base)
    if value > MOST_NUMBER:
        raise TextFault(at, "BadNumber")
    return value, end


def token_at(text, at):
    """Returns the token that begins there."""
    if found := WORD.match(text, at):
        name = found[2].decode()
        is_keyword = not found[1] and name in KEYWORDS
        return Token(name if is_keyword else "word", at, found.end(), name)
    if NUMBER.match(text, at):
        value, end = number_at(text, at)
        return Token("number", at, end, value)
    if found := SYMBOL.match(text, at):
        return Token(found[0].decode(), at, found.end())
    if text.startswith(b'"', at):
        if found := STRING.match(text, at):
            return Token("text", at, found.end())
        raise TextFault(at, "OpenString")
    if text.startswith(b"#", at) and is_first_in_line(text, at):
        found = REST_OF_LINE.match(text, at)
        return Token("directive", at, found.end(), found[0][1:])
    raise TextFault(at, "OpenComment" if text.startswith(b"/*", at) else "BadByte")


def tokens_of(text):
    """Returns the tokens of a text, given as bytes, with one of the sort "end" after them."""
    if len(text) > MOST_BYTES:
        raise TextFault(0, "TooLong")
    tokens, at = [], GAP.match(text).end()
    while at < len(text):
        tokens.append(token_at(text, at))
        at = GAP.match(text, tokens[-1].end).end()
    return [*tokens, Token("end", len(text), len(text))]
