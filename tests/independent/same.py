"""Says whether two graphs are the same but for the naming of their instances, by looking for the renaming.

Two graphs are the same where a renaming, which gives each instance that the root of the one leads to an instance of the other, one
to one, makes the one root the other and what each instance holds what its partner holds. Dictionaries are sets of pairs. Kept slices are
equal by their type ids, bytes and flags, and by their tables, entry by entry. Instances that a root does not lead to count for
nothing.
"""
import itertools

import graphs
import kinds
from graphs import Kept, reached

# The most reached instances for which each renaming is tried in turn.
MOST_SEARCHED = 6


def pairs_of(one, other, kind):
    """Returns what has to be paired where two values are the same: the references of both at each place, None where one is null. None
    where they differ in what is no reference."""
    if not kind.has_classes:
        return [] if one == other else None
    if kind.sort == "class":
        return [(one, other)]
    if kind.sort == "struct":
        return joined((it, its, part) for it, its, part in zip(one, other, kind.parts))
    if len(one) != len(other):
        return None
    if kind.sort == "sequence":
        return joined((it, its, kind.parts[0]) for it, its in zip(one, other))
    one, other = dict(one), dict(other)
    if one.keys() != other.keys():
        return None
    return joined((one[key], other[key], kind.parts[1]) for key in one)


def joined(values):
    found = []
    for one, other, kind in values:
        some = pairs_of(one, other, kind)
        if some is None:
            return None
        found += some
    return found


def pairs_of_slices(it, its):
    """Returns likewise what has to be paired where two slices stand at the same place."""
    if isinstance(it, Kept) or isinstance(its, Kept):
        if type(it) is not type(its) or (it.type_id, it.data, it.has_optional) != (its.type_id, its.data, its.has_optional):
            return None
        return pairs_of(it.table, its.table, kinds.sequence(kinds.ANY_CLASS))
    if it.row is not its.row or [tag for tag, _ in it.optional] != [tag for tag, _ in its.optional]:
        return None
    members = [*zip(it.required, its.required, it.row.required)]
    members += [(value, its_, it.row.optional[tag]) for (tag, value), (_, its_) in zip(it.optional, its.optional)]
    return joined(members)


def pairs_of_instances(one, other):
    """Returns likewise what has to be paired where two instances, lists of slices, are to be partners."""
    if len(one) != len(other):
        return None
    found = []
    for it, its in zip(one, other):
        some = pairs_of_slices(it, its)
        if some is None:
            return None
        found += some
    return found


def is_same(one, other, kind):
    """Walks over both graphs from their roots at once, and pairs what stands at the same places. They are the same where nothing has
    two partners."""
    partner, partner_back = {}, {}
    waiting = pairs_of(one.root, other.root, kind)
    if waiting is None:
        return False
    while waiting:
        ref, its_ref = waiting.pop()
        if ref is None or its_ref is None:
            if ref is not its_ref:
                return False
            continue
        here, there = ref.number, its_ref.number
        if here in partner or there in partner_back:
            if partner.get(here) != there or partner_back.get(there) != here:
                return False
            continue
        partner[here], partner_back[there] = there, here
        found = pairs_of_instances(one.instances[here], other.instances[there])
        if found is None:
            return False
        waiting += found
    return True


def fits(renaming, pairs):
    """Says whether the references of each pair are partners."""
    if pairs is None:
        return False
    return all(one is other if one is None or other is None else renaming[one.number] == other.number for one, other in pairs)


def is_same_by_search(one, other, kind):
    """Says the same by trying each renaming in turn; None where there are too many."""
    here, there = reached(one, kind), reached(other, kind)
    if len(here) != len(there):
        return False
    if len(here) > MOST_SEARCHED:
        return None
    roots = pairs_of(one.root, other.root, kind)
    held = {(it, its): pairs_of_instances(one.instances[it], other.instances[its]) for it in here for its in there}
    for order in itertools.permutations(there):
        renaming = dict(zip(here, order))
        if fits(renaming, roots) and all(fits(renaming, held[it, its]) for it, its in renaming.items()):
            return True
    return False
