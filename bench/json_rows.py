"""Texts of JSON for `ice encode`, of nearly as many bytes as a text may have, and the greatest encapsulations for
`ice dump`: each with the Slice text, the words and what has to come.

A row is a Slice text, words, an input, what is to be written, and the line on standard error where that is nothing.
Each function makes one, since all of them at once take much memory.
"""
import random

MOST_TEXT, MOST = 16_777_216, 1_048_576
REFUSED = "ice: text refused: "


def size(number):
    return bytes([number]) if number < 255 else b"\xff" + number.to_bytes(4, "little")


def encapsulated(content):
    return (6 + len(content)).to_bytes(4, "little") + b"\1\1" + content


NULL = encapsulated(b"\0")


def noted(value, instances=b""):
    return b'{"instances":[' + instances + b'],"roots":{"$value":' + value + b"}}"


def repeated(part, room, between=b","):
    """Returns as many parts as a room has place for, and their number."""
    count = (room - len(part)) // (len(part) + len(between)) + 1
    return between.join([part] * count), count


def filled(part, around=noted):
    """Returns a text of the greatest length, or nearly, in which a part stands again and again, and how often."""
    inside, count = repeated(part, MOST_TEXT - len(around(b"")))
    return around(inside), count


def array(inside):
    return noted(b"[" + inside + b"]")


def instance(members, name=b"::M::C"):
    return b'{"slices":[{"class":"%s","members":{%s}}]}' % (name, members)


def kept(digits=b"", table=b""):
    return b'{"slices":[{"bytes":"%s","kept":"x","optionals":false,"table":[%s]}]}' % (digits, table)


def unmet(member):
    """Returns what puts a value into the member `q` of an instance that nothing refers to."""
    return lambda inside: noted(b"null", instance(b'"q":' + member % inside))


def too_long(length):
    return f"ice: answer too long: {length}"


def of_q(type_, more=b""):
    """Returns a text of a sequence Q of a type, and of a class C that has one."""
    return b"module M { %s sequence<%s> Q; class C { Q q; }; };" % (more, type_)


# Rows of encode

Q, C = ("encode", "::M::Q"), ("encode", "::M::C")


def longest_answer():
    """A sequence whose encapsulation is as long as one may be."""
    count = MOST - 11
    return of_q(b"bool"), Q, array(b",".join([b"true"] * count)), encapsulated(size(count) + b"\1" * count), ""


def longest_bytes():
    count = MOST - 11
    return of_q(b"byte"), Q, array(b",".join([b"255"] * count)), encapsulated(size(count) + b"\xff" * count), ""


def longest_with_blanks():
    """The same with blanks about each element, up to the greatest length of a text."""
    count = MOST - 11
    text = array(b",".join([b"  true   \n   "] * count))
    return of_q(b"bool"), Q, text + b" " * (MOST_TEXT - len(text)), encapsulated(size(count) + b"\1" * count), ""


def blanks():
    text = noted(b"true")
    return of_q(b"bool"), ("encode", "bool"), b" " * (MOST_TEXT - len(text)) + text, encapsulated(b"\1"), ""


def a_byte_too_many():
    return of_q(b"bool"), ("encode", "bool"), b" " * (MOST_TEXT + 1), b"", REFUSED + "TooLong"


def letters():
    text, count = filled(b"a" * 99, lambda inside: noted(b'"' + inside.replace(b",", b"a") + b'"'))
    return of_q(b"bool"), ("encode", "string"), text, b"", too_long(11 + 100 * count - 1)


def escapes():
    text, count = filled(b"\\u0061" * 10, lambda inside: noted(b'"' + inside.replace(b",", b"a") + b'"'))
    return of_q(b"bool"), ("encode", "string"), text, b"", too_long(11 + 11 * count - 1)


def pairs_of_surrogates():
    text, count = filled(b"\\ud83d\\ude00" * 10, lambda inside: noted(b'"' + inside.replace(b",", b"a") + b'"'))
    return of_q(b"bool"), ("encode", "string"), text, b"", too_long(11 + 41 * count - 1)


def longs():
    text, count = filled(b"7", array)
    return of_q(b"long"), Q, text, b"", too_long(11 + 8 * count)


def numbers_unmet():
    return of_q(b"long"), C, filled(b"7", unmet(b"[%s]"))[0], NULL, ""


def one_letter_strings():
    text, count = filled(b'"a"', array)
    return of_q(b"string"), Q, text, b"", too_long(11 + 2 * count)


def strings_unmet():
    return of_q(b"string"), C, filled(b'"a"', unmet(b"[%s]"))[0], NULL, ""


def arrays_unmet():
    return of_q(b"L", b"sequence<byte> L;"), C, filled(b"[0]", unmet(b"[%s]"))[0], NULL, ""


def structs_unmet():
    """Objects of one name."""
    return of_q(b"S", b"struct S { byte a; };"), C, filled(b'{"a":0}', unmet(b"[%s]"))[0], NULL, ""


def structs():
    text, count = filled(b'{"a":0}', array)
    return of_q(b"S", b"struct S { byte a; };"), Q, text, b"", too_long(11 + count)


def references_unmet():
    return of_q(b"C", b"class C;"), C, filled(b'{"$":2}', unmet(b"[%s]"))[0], NULL, ""


def references():
    text, count = filled(b'{"$":2}', lambda inside: noted(b"[" + inside + b"]", instance(b'"q":[]')))
    # The first one begins the instance: its flags, its type id, its size, and a sequence of none.
    return of_q(b"C", b"class C;"), Q, text, b"", too_long(11 + count + 1 + 7 + 4 + 1)


def table():
    """A kept slice with a long table."""
    text, _ = filled(b'{"$":2}', lambda inside: noted(b"null", kept(b"", inside)))
    return of_q(b"bool"), ("encode", "Object"), text, NULL, ""


def kept_bytes():
    text, count = filled(b"F" * 99, lambda inside: noted(b'{"$":2}', kept(inside.replace(b",", b"a"))))
    digits = 100 * count - 1
    if digits % 2:
        text, digits = text.replace(b"FFa", b"FF", 1), digits - 1
    return of_q(b"bool"), ("encode", "Object"), text, b"", too_long(6 + 1 + 1 + 2 + 4 + digits // 2)


def instances_unmet():
    """As many instances as may be, with as much in each as there is room for."""
    each = instance(b'"q":[' + b",".join([b"7"] * 58) + b"]")
    text = noted(b"null", b",".join([each] * 100_000))
    return of_q(b"byte"), C, text, NULL, ""


def an_instance_too_many():
    return of_q(b"byte"), C, noted(b"null", b",".join([b"{}"] * 5_592_000)), b"", REFUSED + "TooMany"


CHAIN = b"module M { class L { L n; }; };"


def chained(number):
    return instance(b'"n":' + (b'{"$":%d}' % number if number else b"null"), b"::M::L")


def chain_of(count):
    """Returns the instances of a chain in JSON, and its encapsulations in sliced and in compact format."""
    listed = b",".join([chained(at + 3 if at + 1 < count else 0) for at in range(count)])
    first, last = b"\1\x39\6::M::L\5\0\0\0\1\1", b"\1\x32\1\5\0\0\0\0"
    sliced = first + b"\1\x3a\1\5\0\0\0\1\1" * (count - 2) + last
    return listed, encapsulated(sliced), encapsulated(b"\1\x21\6::M::L" + b"\1\x22\1" * (count - 1) + b"\0")


def chain():
    listed, sliced, _ = chain_of(100_000)
    return CHAIN, ("encode", "::M::L"), noted(b'{"$":2}', listed), sliced, ""


def chain_in_compact_format():
    listed, _, compact = chain_of(100_000)
    return CHAIN, ("encode", "--compact", "::M::L"), noted(b'{"$":2}', listed), compact, ""


def dictionary(order):
    """A dictionary whose keys come in an order, in an instance that nothing refers to."""
    keys = list(range(1_000_000, 2_000_000))
    if order == "falling":
        keys.reverse()
    elif order == "scrambled":
        random.Random(1).shuffle(keys)
    inside = b",".join([b"[%d,7]" % it for it in keys])
    slice_text = b"module M { dictionary<int, byte> Q; class C { Q q; }; };"
    return slice_text, C, unmet(b"[%s]")(inside), NULL, ""


def falling_keys():
    return dictionary("falling")


def scrambled_keys():
    return dictionary("scrambled")


def a_key_twice():
    slice_text, words, text, *_ = dictionary("rising")
    return slice_text, words, text.replace(b"[1999999,7]", b"[1000000,7]"), b"", REFUSED + "Misfit"


def one_name_again():
    """One name, so many times."""
    text, _ = filled(b'"a":0', lambda inside: b'{"instances":{' + inside + b'},"roots":0}')
    return of_q(b"bool"), Q, text, b"", REFUSED + "Misfit"


def many_names():
    inside = b",".join([b'"%d":0' % it for it in range(1_000_000, 2_300_000)])
    return of_q(b"bool"), Q, b'{"instances":{' + inside + b'},"roots":0}', b"", REFUSED + "Misfit"


def no_end():
    return of_q(b"long"), Q, filled(b"7", array)[0][:-1], b"", REFUSED + "NotJson"


def a_wrong_end():
    return of_q(b"long"), Q, filled(b"7", array)[0].replace(b"7]}}", b"x]}}"), b"", REFUSED + "NotJson"


def a_misfit_at_the_end():
    return of_q(b"long"), Q, filled(b"7", array)[0].replace(b",7,7]}}", b",7.5]}}"), b"", REFUSED + "Misfit"


def digits():
    """Numbers of many digits, which are floats."""
    return of_q(b"long"), Q, filled(b"9" * 300, array)[0], b"", REFUSED + "Misfit"


PROXIES = of_q(b"Object*")


def small_proxies():
    text, count = filled(b'"a"', array)
    return PROXIES, Q, text, b"", too_long(11 + 12 * count)


def one_proxy_of_many_endpoints():
    text, count = filled(b":tcp", lambda inside: noted(b'"a' + inside.replace(b",", b" ") + b'"'))
    return PROXIES, ("encode", "Object*"), text, b"", too_long(6 + 10 + 5 + count * (2 + 6 + 1 + 4 + 4 + 1))


def one_proxy_of_escapes():
    text, count = filled(b"\\\\303\\\\251" * 10, lambda inside: noted(b'"' + inside.replace(b",", b"a") + b'"'))
    return PROXIES, ("encode", "Object*"), text, b"", too_long(6 + 5 + 21 * count - 1 + 10)


def one_endpoint_of_many_bytes():
    text, count = filled(b"0" * 100, lambda inside: noted(b'"a:opaque -t 9 -e 1.0 -x ' + inside.replace(b",", b"") + b'"'))
    return PROXIES, ("encode", "Object*"), text, b"", too_long(6 + 10 + 1 + 8 + 50 * count)


def long_enum():
    """A text of an enum of as many enumerators as it has room for."""
    names = [b"n%05d" % it for it in range(100_000)]
    return b"module M { enum E {%s}; sequence<E> Q; class C { Q q; }; };" % b",".join(names), names


def last_enumerators():
    text, names = long_enum()
    return text, C, filled(b'"%s"' % names[-1], unmet(b"[%s]"))[0], NULL, ""


def many_members(kind):
    """A text of a struct, or of a class with tags, of as many members as it has room for, and their names."""
    names = [b"m%05d" % it for it in range(60_000 if kind == b"struct" else 34_000)]
    tags = [b"" if kind == b"struct" else b"optional(%d)" % it for it in range(len(names))]
    members = b"".join([b"%sbyte %s;" % it for it in zip(tags, names)])
    return b"module M { %s S {%s}; };" % (kind, members), names


def a_struct_of_many_members():
    text, names = many_members(b"struct")
    value = b"{" + b",".join([b'"%s":7' % it for it in reversed(names)]) + b"}"
    return text, ("encode", "::M::S"), noted(value), encapsulated(b"\7" * len(names)), ""


def a_class_of_many_members():
    text, names = many_members(b"class")
    members = b",".join([b'"%s":7' % it for it in reversed(names)])
    tags = [bytes([8 * at]) if at < 30 else b"\xf0" + size(at) for at in range(len(names))]
    written = b"".join([it + b"\7" for it in tags]) + b"\xff"
    head = b"\1\x35\6::M::S" + (4 + len(written)).to_bytes(4, "little")
    return text, ("encode", "::M::S"), noted(b'{"$":2}', instance(members, b"::M::S")), encapsulated(head + written), ""


def as_many_classes():
    """An instance of each of so many classes, which nothing refers to, and again up to the most."""
    names = [b"C%05d" % it for it in range(60_000)]
    text = b"module M {" + b"".join([b"class %s{};" % it for it in names]) + b"};"
    listed = [instance(b"", b"::M::" + names[at % len(names)]) for at in range(100_000)]
    return text, ("encode", "Object"), noted(b"null", b",".join(listed)), NULL, ""


def derived_classes(count):
    """A text of so many classes, each derived from the one before it, and of a sequence Q of the first; and an
    instance of the last."""
    names = [b"C%05d" % it for it in range(count)]
    classes = b"".join([b"class %s extends %s{};" % it for it in zip(names[1:], names)])
    text = b"module M {class C00000{};" + classes + b"sequence<C00000>Q; class C{Q q;};};"
    return text, b'{"slices":[%s]}' % b",".join([b'{"class":"::M::%s","members":{}}' % it for it in reversed(names)])


def an_instance_of_many_bases():
    text, listed = derived_classes(30_000)
    return text, ("encode", "bool"), noted(b"true", listed), encapsulated(b"\1"), ""


def references_to_one_of_many_bases():
    text, listed = derived_classes(10_000)
    inside, _ = repeated(b'{"$":2}', MOST_TEXT - len(listed) - 200)
    return text, C, noted(b"null", listed + b"," + instance(b'"q":[' + inside + b"]")), NULL, ""


ENCODED = {
    "blanks": blanks,
    "a byte too many": a_byte_too_many,
    "the longest answer": longest_answer,
    "the longest answer, bytes": longest_bytes,
    "the longest, with blanks": longest_with_blanks,
    "a string": letters,
    "a string of escapes": escapes,
    "a string of surrogates": pairs_of_surrogates,
    "numbers": longs,
    "numbers, not met": numbers_unmet,
    "strings": one_letter_strings,
    "strings, not met": strings_unmet,
    "arrays, not met": arrays_unmet,
    "structs": structs,
    "structs, not met": structs_unmet,
    "references": references,
    "references, not met": references_unmet,
    "a table": table,
    "kept bytes": kept_bytes,
    "instances, not met": instances_unmet,
    "instances, too many": an_instance_too_many,
    "a chain": chain,
    "a chain, compact": chain_in_compact_format,
    "keys, falling": falling_keys,
    "keys, scrambled": scrambled_keys,
    "a key twice at the end": a_key_twice,
    "one name again and again": one_name_again,
    "many names": many_names,
    "no end": no_end,
    "no JSON at the end": a_wrong_end,
    "a misfit at the end": a_misfit_at_the_end,
    "numbers of 300 digits": digits,
    "small proxies": small_proxies,
    "a proxy of endpoints": one_proxy_of_many_endpoints,
    "a proxy of escapes": one_proxy_of_escapes,
    "a proxy of bytes": one_endpoint_of_many_bytes,
    "last enumerators": last_enumerators,
    "a struct of 60,000": a_struct_of_many_members,
    "a class of 34,000": a_class_of_many_members,
    "60,000 classes": as_many_classes,
    "30,000 bases": an_instance_of_many_bases,
    "to one of 10,000 bases": references_to_one_of_many_bases,
}


# Rows of dump


def dumped(inside, instances=b""):
    return noted(inside, instances) + b"\n"


def sequence_of(type_, element, told, more=b""):
    """The longest sequence of an element."""
    count = (MOST - 11) // len(element)
    data = encapsulated(size(count) + element * count)
    return of_q(type_, more), ("dump", "::M::Q"), data, dumped(b"[" + b",".join([told] * count) + b"]"), ""


def string_of(letter, told):
    count = MOST - 11
    data = encapsulated(size(count) + letter * count)
    return of_q(b"bool"), ("dump", "string"), data, dumped(b'"' + told * count + b'"'), ""


def long_dictionary():
    count = (MOST - 11) // 9
    order = list(range(count))
    random.Random(1).shuffle(order)
    pairs = b"".join([it.to_bytes(8, "little") + b"\7" for it in order])
    told = dumped(b"[" + b",".join([b"[%d,7]" % it for it in range(count)]) + b"]")
    text = b"module M { dictionary<long, byte> Q; };"
    return text, ("dump", "::M::Q"), encapsulated(size(count) + pairs), told, ""


def dumped_enumerators():
    text, names = long_enum()
    element = size(len(names) - 1)
    count = (MOST - 11) // len(element)
    told = b",".join([b'"' + names[-1] + b'"'] * count)
    return text, ("dump", "::M::Q"), encapsulated(size(count) + element * count), dumped(b"[" + told + b"]"), ""


def dumped_struct_of_many_members():
    text, names = many_members(b"struct")
    told = b"{" + b",".join([b'"%s":7' % it for it in names]) + b"}"
    return text, ("dump", "::M::S"), encapsulated(b"\7" * len(names)), dumped(told), ""


def dumped_side_by_side():
    count = 100_000
    data = size(count) + b"\1\x31\6::M::E\4\0\0\0" + b"\1\x32\1\4\0\0\0" * (count - 1)
    told = b",".join([b'{"$":%d}' % (at + 2) for at in range(count)])
    listed = b",".join([instance(b"", b"::M::E")] * count)
    return of_q(b"E", b"class E { };"), ("dump", "::M::Q"), encapsulated(data), dumped(b"[" + told + b"]", listed), ""


def dumped_chain(is_compact):
    listed, sliced, compact = chain_of(100_000)
    return CHAIN, ("dump", "::M::L"), compact if is_compact else sliced, dumped(b'{"$":2}', listed), ""


def dumped_kept(count):
    """Instances of kept slices alone."""
    data = size(count) + b"\1\x31\1x\4\0\0\0" + b"\1\x32\1\4\0\0\0" * (count - 1)
    told = b",".join([b'{"$":%d}' % (at + 2) for at in range(count)])
    listed = b",".join([kept()] * count)
    return of_q(b"Object"), ("dump", "::M::Q"), encapsulated(data), dumped(b"[" + told + b"]", listed), ""


def dumped_kept_bytes():
    count = MOST - 6 - 8
    data = b"\1\x31\1x" + (4 + count).to_bytes(4, "little") + b"\xab" * count
    return of_q(b"bool"), ("dump", "Object"), encapsulated(data), dumped(b'{"$":2}', kept(b"ab" * count)), ""


def dumped_table():
    count = MOST - 6 - 8 - 5
    data = b"\1\x39\1x\4\0\0\0" + size(count) + b"\2" * count
    told = dumped(b'{"$":2}', kept(b"", b",".join([b'{"$":2}'] * count)))
    return of_q(b"bool"), ("dump", "Object"), encapsulated(data), told, ""


def long_names(count):
    """Structs whose member has a name of 1,000 letters."""
    name = b"n" * 1_000
    told = dumped(b"[" + b",".join([b'{"%s":7}' % name] * count) + b"]")
    return of_q(b"S", b"struct S { byte %s; };" % name), ("dump", "::M::Q"), encapsulated(size(count) + b"\7" * count), told, ""


def deep_structs(count):
    """A sequence of bytes, each in 98 structs."""
    structs = b"struct S01 { byte x; };" + b"".join([b"struct S%02d { S%02d x; };" % (at, at - 1) for at in range(2, 99)])
    told = dumped(b"[" + b",".join([b'{"x":' * 98 + b"7" + b"}" * 98] * count) + b"]")
    return of_q(b"S98", structs), ("dump", "::M::Q"), encapsulated(size(count) + b"\7" * count), told, ""


PROXY = b"\1a\0\0\0\0\1\0\1\1\0\0"
DUMPED = {
    "bools": lambda: sequence_of(b"bool", b"\1", b"true"),
    "bytes": lambda: sequence_of(b"byte", b"\xff", b"255"),
    "longs": lambda: sequence_of(b"long", b"\0" * 7 + b"\x80", b"-9223372036854775808"),
    "empty strings": lambda: sequence_of(b"string", b"\0", b'""'),
    "strings": lambda: sequence_of(b"string", b"\1\n", b'"\\n"'),
    "a string": lambda: string_of(b"a", b"a"),
    "a string of escapes": lambda: string_of(b"\1", b"\\u0001"),
    "null proxies": lambda: sequence_of(b"Object*", b"\0\0", b"null"),
    "proxies": lambda: sequence_of(b"Object*", PROXY, b'"a -t -e 1.1"'),
    "null references": lambda: sequence_of(b"Object", b"\0", b"null"),
    "empty sequences": lambda: sequence_of(b"L", b"\0", b"[]", b"sequence<bool> L;"),
    "structs": lambda: sequence_of(b"S", b"\0", b'{"a":false}', b"struct S { bool a; };"),
    "enumerators": dumped_enumerators,
    "a dictionary": long_dictionary,
    "a struct of 60,000": dumped_struct_of_many_members,
    "instances": dumped_side_by_side,
    "a chain": lambda: dumped_chain(False),
    "a chain, compact": lambda: dumped_chain(True),
    "kept slices": lambda: dumped_kept(100_000),
    "kept bytes": dumped_kept_bytes,
    "a table": dumped_table,
}

# Rows of dump whose lines are longer by far than their inputs, as names of the Slice file are long or its types deep.
DUMPED_LONG = {
    "names of 1,000 letters": lambda: long_names(10_000),
    "  ten times as many": lambda: long_names(100_000),
    "bytes in 98 structs": lambda: deep_structs(10_000),
    "  of those ten times as many": lambda: deep_structs(100_000),
}
