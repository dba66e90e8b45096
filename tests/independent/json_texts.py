"""Reads a JSON text strictly, and writes one compactly. Python's own reader takes more than JSON has, and this leaves
that out.

What is read is made of None, truth values, ints, floats, strings, lists and dicts. A number is an int where it has
neither a point nor an exponent, is not `-0`, and lies between the least number of 64 bits with a sign and the
greatest without one; any other is a float. Of a name that comes twice in an object the last value counts.
"""
import json
import math
import re

# How many arrays and objects may be open at once.
MOST_OPEN = 127
LEAST_INT, MOST_INT = -(2**63), 2**64 - 1
# More characters than such an int has.
LONG_NUMBER = 21
STRING = re.compile(rb'"[^"\\]*(?:\\.[^"\\]*)*"', re.DOTALL)
# A string, in which brackets are none, or a bracket.
STRING_OR_BRACKET = re.compile(STRING.pattern + rb"|[\[\]{}]", re.DOTALL)
# An escape that may be half of a pair of surrogates, and such a half.
HALF_ESCAPE, HALF = re.compile(rb"\\u[Dd][89A-Fa-f]"), re.compile("[\ud800-\udfff]")


class NotJson(Exception):
    pass


def float_of(text):
    number = float(text)
    if math.isinf(number):
        raise NotJson("a number past all floats")
    return number


def number_of(text):
    """Returns the number of a text that has neither a point nor an exponent."""
    if text == "-0" or len(text) > LONG_NUMBER:
        return float_of(text)
    number = int(text)
    return number if LEAST_INT <= number <= MOST_INT else float_of(text)


def no_number(text):
    raise NotJson(f"{text} is no number")


def is_too_deep(text):
    if text.count(b"[") + text.count(b"{") <= MOST_OPEN:
        return False
    open_ = 0
    for it in STRING_OR_BRACKET.finditer(text):
        open_ += (it[0] in (b"[", b"{")) - (it[0] in (b"]", b"}"))
        if open_ > MOST_OPEN:
            return True
    return False


def has_half(text):
    """Says whether a string of a text of JSON has half of a pair of surrogates."""
    strings = (it[0] for it in STRING.finditer(text)) if HALF_ESCAPE.search(text) else ()
    return any(HALF.search(json.loads(it)) for it in strings if HALF_ESCAPE.search(it))


def read(text):
    """Returns what a text in bytes says, or raises `NotJson`."""
    if is_too_deep(text):
        raise NotJson("too deep")
    try:
        hooks = {"parse_int": number_of, "parse_float": float_of, "parse_constant": no_number}
        found = json.loads(text.decode("utf-8", "strict"), **hooks)
    except (UnicodeDecodeError, json.JSONDecodeError) as why:
        raise NotJson(str(why)) from None
    if has_half(text):
        raise NotJson("half of a pair of surrogates")
    return found


def written(told):
    """Returns the text of JSON, without blanks and with the names of each object in rising order."""
    return json.dumps(told, ensure_ascii=False, separators=(",", ":"), sort_keys=True).encode()
