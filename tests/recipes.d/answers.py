"""What `recipe` has to answer, by what `frames` says of each list that the recipe spells.

It is accepted exactly if all members are, with their greatest counts, and the number of entries that their calls need. Else it is refused
with 60 to 62 if some list is, whether or not it leads where it has to; else with 59; else with 25 if some member is; else with 44 to 48.
Of 59 to 62 and of 44 to 48 the least instance counts at which it is so: a line in the turns of the repeats around it, in the order of
reading. There it is the lowest number, but of 60 to 62 that at the lowest scale, unknown last, and of one scale that of the first address
of the line. Of 25 it is the first shape.
"""

import re
from typing import NamedTuple, Optional

from leading import stuck
from members import addresses_of, items_of, spelled, too_long
from shapes import UNKNOWN

MAKING, SHAPE, RULES = (60, 61, 62), (25,), (44, 45, 46, 47, 48)
ACCEPTED = re.compile(r"accepted shapes=\d+ words=(\d+) depth=(\d+)")
OF_SHAPE = re.compile(r"refused (25) shape ([0-9A-F]{3})/(\d+|any) at [0-9A-F]{3}")
OF_CALL = re.compile(r"(refused (6[0-2])( at [0-9A-F]{3})?) for frame at ([0-9A-F]{3})")
OF_RULE = re.compile(r"(refused (4[4-8])) frame at ([0-9A-F]{3})")


class Strange(Exception):
    """An answer that no frame of a recipe can have."""


class Answer(NamedTuple):
    told: str                   # what the line says behind the name
    number: int = 0             # of a refusal
    line: Optional[int] = None  # of the recipe, if it is told
    rank: tuple = ()            # among those of the same kind: the least is told
    has_witness: Optional[bool] = True      # none where it may have one
    items: tuple = ()           # of a member that is refused so


def index_of(member, word):
    """The item of a member at which `frames` refuses it."""
    at = int(word, 16)
    addresses = addresses_of(member)
    if at not in addresses:
        raise Strange(f"at word {word}, where no item is")
    return addresses.index(at)


def by_shape(found):
    scale = UNKNOWN if found[3] == "any" else int(found[3])
    return Answer(found[0], 25, None, (int(found[2], 16), scale))


def by_call(found, member, shapes):
    index = index_of(member, found[4])
    item, instance, leaf = member.spelled[index]
    told = f"{found[1]} for recipe line {leaf.line}"
    return Answer(told, int(found[2]), leaf.line, (instance, shapes.scale_at(member.spelled, index), leaf.items.index(item)))


def by_rule(found, member):
    _, instance, leaf = member.spelled[index_of(member, found[3])]
    number = int(found[2])
    return Answer(f"{found[1]} recipe line {leaf.line}", number, leaf.line, (instance, number))


def refusal(member, told, shapes):
    """What the recipe would be refused with for this member alone."""
    if found := OF_SHAPE.fullmatch(told):
        return by_shape(found)
    if found := OF_CALL.fullmatch(told):
        return by_call(found, member, shapes)
    if found := OF_RULE.fullmatch(told):
        return by_rule(found, member)
    raise Strange(told)


def length_refusal(recipe):
    line = too_long(recipe)
    return line and Answer(f"refused 57 recipe line {line}", 57, line, has_witness=False)


def acceptance(recipe, all_told, shapes):
    counts = [tuple(map(int, ACCEPTED.fullmatch(told).groups())) for told in all_told]
    needed = frozenset().union(*(shapes.needed(one) for one in spelled(recipe.body)))
    words, depth = (max(each) for each in zip(*counts))
    return Answer(f"accepted shapes={len(needed)} words={words} depth={depth}", has_witness=False)


def stuck_refusal(case):
    instance, line = stuck(case.lists, case.led) or (None, None)
    return line and Answer(f"refused 59 recipe line {line}", 59, line, (instance,), has_witness=False)


def first_refusal(lists, told, numbers, shapes):
    """The first refusal with one of these numbers, by what is said of each of these lists."""
    refused = [one for one in lists if not ACCEPTED.fullmatch(told[items_of(one)])]
    refusals = [refusal(one, told[items_of(one)], shapes)._replace(items=items_of(one)) for one in refused]
    return min((one for one in refusals if one.number in numbers), key=lambda one: one.rank, default=None)


def answer(case, told, shapes):
    """The answer for a recipe whose longest list fits, by what is said of the items of each of its lists."""
    made, none_leads = first_refusal(case.lists, told, MAKING, shapes), stuck_refusal(case)
    if made:
        return made._replace(has_witness=None) if none_leads else made
    return (none_leads or first_refusal(case.members, told, SHAPE, shapes) or first_refusal(case.members, told, RULES, shapes)
            or acceptance(case.recipe, [told[items_of(one)] for one in case.members], shapes))
