"""All that a recipe spells, written out, and the frames of it. Which of these lead to where they have to, by `to`, leading.py tells."""

from itertools import product
from math import prod
from typing import NamedTuple

from items import length, words_of
from texts import Either, Leaf, Row


class Spelled(NamedTuple):
    item: tuple
    instance: tuple     # of each repeat around it the number and the turn, and last the number of the piece: so they are in order
    leaf: Leaf


class Member(NamedTuple):
    """A list, and where it begins; one of the recipe's if it leads to where it has to."""
    first: int
    spelled: list


def count(part):
    """In how many ways a part may be spelled."""
    if isinstance(part, Leaf):
        return len(part.items)
    if isinstance(part, Row):
        return prod(map(count, part.parts))
    if isinstance(part, Either):
        return sum(map(count, part.branches))
    ways = count(part.body)
    return sum(ways ** turns for turns in range(part.least, part.most + 1))


def joined(choices):
    """One of each of these, one behind the other."""
    return [sum(some, []) for some in product(*choices)]


def spelled(part, turns=()):
    """All that a part spells, in the turns of the repeats around it."""
    if isinstance(part, Leaf):
        return [[Spelled(item, (*turns, part.number), part)] for item in part.items]
    if isinstance(part, Row):
        return joined([spelled(one, turns) for one in part.parts])
    if isinstance(part, Either):
        return [one for branch in part.branches for one in spelled(branch, turns)]
    each = [spelled(part.body, (*turns, part.number, turn)) for turn in range(1, part.most + 1)]
    return [one for most in range(part.least, part.most + 1) for one in joined(each[:most])]


def every_list(recipe):
    return [Member(first, one) for first in recipe.lists for one in spelled(recipe.body)]


def items_of(member):
    """The items of its frames, from word 000 on."""
    lead = [("jmpl", member.first)] if member.first else []
    return (*lead, *(one.item for one in member.spelled))


def addresses_of(member):
    """The word address of each item that the recipe spells."""
    at, addresses = member.first, []
    for one in member.spelled:
        addresses.append(at)
        at = one.item[1] if one.item[0] == "jmpl" else at + length(one.item)
    return addresses


def frame_of(member, chance):
    """Words of a frame: what no item needs is anything, and so is its length."""
    put = {0: words_of(("jmpl", member.first))[0]} if member.first else {}
    for at, one in zip(addresses_of(member), member.spelled):
        put.update(enumerate(words_of(one.item), at))
    size = min(max(put) + 1 + (chance.between(0, 3) if chance.one_in(4) else 0), 1024)
    free = chance.between(0, 0xFFFF)
    return [put.get(at, free) for at in range(size)]


def too_long(recipe):
    """The line at which the longest list passes the end of its area, if one does."""
    room = min(recipe.areas[first] + 1 - first for first in recipe.lists)
    past = [found for found in (first_past(one, room, recipe.areas) for one in spelled(recipe.body)) if found]
    return min(past)[1] if past else None


def first_past(one, room, areas):
    """The instance and the line of the first item that passes the end of its area, the list's having so many words."""
    for item, instance, leaf in one:
        room -= length(item)
        if room < 0:
            return instance, leaf.line
        if item[0] == "jmpl":
            room = areas[item[1]] + 1 - item[1]
    return None
