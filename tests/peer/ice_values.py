"""Values and Slice texts in the form that real Ice takes. What is made by `generate` from here on has names and proxies that it takes."""
import generate
import made_proxies

# Names that no compiler of Ice reserves in any case, and no two of which are one in Python.
generate.NAMES = """Order Price Stock Place Route Parcel Article Label Address Depot Amount Mass Width Height Depth Colour
Origin Target Weight Driver Vehicle Stop Track Signal Station Reading Sample Sensor Channel Level Phase Batch Sheet Ledger
Entry Account Invoice Payment Refund Credit Debit Branch Office Floor Room Desk Shelf Crate Pallet Box""".split()
generate.ProxyMaker = made_proxies.Maker


def ice_value(value, kind, order, peer, names):
    """Returns the value in Ice's own form, with the pairs of dictionaries put in an order of their keys. `names` has the names of
    types by their kinds, and the peer the instances of classes."""
    if kind.sort == "string":
        return value.decode()
    if kind.sort == "enum":
        return getattr(peer.types, names[kind]).valueOf(value)
    if kind.sort == "class":
        return value and peer.instances[value.number]
    if kind.sort == "proxy":
        return value and peer.proxy(value, names.get(kind, "").removesuffix("*"))
    if kind.sort == "struct":
        members = [ice_value(it, part, order, peer, names) for it, part in zip(value, kind.parts)]
        return getattr(peer.types, names[kind])(*members)
    if kind.sort == "sequence":
        return [ice_value(it, kind.parts[0], order, peer, names) for it in value]
    if kind.sort == "dictionary":
        held = dict(value)
        of = lambda it, part: ice_value(it, part, order, peer, names)
        return {of(key, kind.parts[0]): of(held[key], kind.parts[1]) for key in order(held)}
    return value


def is_same(read, value):
    """Says whether Ice read the value: sequences of bytes are read as `bytes`, other ones as lists."""
    import Ice

    if isinstance(value, list):
        return len(read) == len(value) and all(is_same(it, other) for it, other in zip(read, value))
    if isinstance(value, dict):
        return len(read) == len(value) and all(key in read and is_same(read[key], value[key]) for key in value)
    if hasattr(value, "__dict__") and not isinstance(value, Ice.ObjectPrx):
        return type(read) is type(value) and all(is_same(getattr(read, it), held) for it, held in vars(value).items())
    return read == value


def plain_text(maker):
    """Returns the text with a line for each definition."""
    lines = [" ".join(it).replace(" ;", ";").replace(" < ", "<").replace(" >", ">").replace(" ,", ",") for it in maker.definitions]
    return "\n".join([f"module {maker.module} {{", *[it.replace(" *", "*") for it in lines], "};"]).encode()
