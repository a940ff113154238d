"""What `explain recipe` has to tell, by every member of a recipe, each of which is drawn."""

from itertools import groupby
from typing import NamedTuple

from answers import MAKING, RULES
from beams import Beam, beams
from items import length
from members import spelled
from shapes import UNKNOWN
from texts import Either, Leaf, Repeat


class Seen(NamedTuple):
    """An item of a list, and what is known before it."""
    one: tuple
    before: Beam
    words: int          # it takes, with what it calls


def seen(one_list, shapes):
    known = list(beams(one_list, shapes))
    for one, beam, behind in zip(one_list.spelled, known, known[1:]):
        yield Seen(one, beam, behind.words - beam.words)


# ---- the lines

def rooms(recipe):
    """The area of each list and of each jump, and how many words the longest list takes of it."""
    longest = dict.fromkeys(recipe.areas, 0)
    for one in spelled(recipe.body):
        at, words = None, 0
        for item, _, _ in one:
            words += length(item)
            if item[0] in ("jmpl", "halt"):
                for first in recipe.lists if at is None else [at]:
                    longest[first] = max(longest[first], words)
                at, words = item[1] if item[0] == "jmpl" else None, 0
    for first, last in recipe.areas.items():
        words, every = longest[first], last + 1 - first
        rest = f"and leaves {every - words}" if words <= every else f"{words - every} too many"
        yield f"room: {first:03X} to {last:03X}, the longest list takes {words} of {every} words, {rest}"


def takes_most(every):
    """The line that takes most, in all turns, by the most words of each instance; none where all but jumps and HALT take nothing."""
    most = {}
    for one, _, words in every:
        if one.item[0] not in ("jmpl", "halt"):
            key = one.leaf.line, one.instance
            most[key] = max(most.get(key, 0), words)
    sums = {}
    for (line, _), words in most.items():
        sums[line] = sums.get(line, 0) + words
    if any(sums.values()):
        line = min(sums, key=lambda line: (-sums[line], line))
        yield f"takes most: line {line}, up to {sums[line]} words in all"


def extent(places):
    if None in places:
        return "lost"
    x, y = zip(*places)
    return f"X {min(x)} to {max(x)}, Y {min(y)} to {max(y)}"


def by_scale(pair):
    line, beam = pair
    return line, beam.scale


def known(every):
    """What is known before the first piece of each line, scale by scale."""
    first = {}
    for one, _, _ in every:
        first[one.leaf.line] = min(first.get(one.leaf.line, one.leaf.number), one.leaf.number)
    before_lines = {(one.leaf.line, before) for one, before, _ in every if first[one.leaf.line] == one.leaf.number}
    for (line, scale), some in groupby(sorted(before_lines, key=by_scale), by_scale):
        some = [beam for _, beam in some]
        told = "unknown" if scale == UNKNOWN else scale
        words, depth = max(beam.words for beam in some), max(beam.depth for beam in some)
        yield f"before line {line}: scale {told}, place {extent([beam.place for beam in some])}, words {words}, return places {depth}"


def seen_up_to(case, answer, shapes):
    """The items of the line that is refused with 59, up to the turn that is, before which all lead where they have to."""
    for one_list, count in zip(case.lists, case.led):
        for one in list(seen(one_list, shapes))[:count + 1]:
            if one.one.leaf.line == answer.line and one.one.instance <= answer.rank[0]:
                yield one


def lines_of(part):
    """The line of each repeat, by its number."""
    if isinstance(part, Leaf):
        return {}
    own, below = {}, part.branches if isinstance(part, Either) else [part.body] if isinstance(part, Repeat) else part.parts
    if isinstance(part, Repeat):
        own[part.number] = part.line
    for one in below:
        own.update(lines_of(one))
    return own


def turns(recipe, answer):
    """The turns of the repeats around the line by which the recipe is refused."""
    if answer.number not in MAKING + RULES:
        return []
    instance, lines = answer.rank[0][:-1], lines_of(recipe.body)
    return [f"turn: {turn} of the repeat of line {lines[number]}" for number, turn in zip(instance[::2], instance[1::2])]


def account(case, shapes, answer, witness):
    """The first lines of the account, all of them for an accepted recipe."""
    if answer.number == 57:
        return list(rooms(case.recipe))
    if answer.number == 59:
        return list(known(list(seen_up_to(case, answer, shapes))))
    if answer.number and witness is None:
        return ["shown by: no frame that was found"]
    if answer.number:
        return [*turns(case.recipe, answer), f"shown by: a frame of {len(witness)} words, as follows"]
    every = [one for member in case.members for one in seen(member, shapes)]
    return [*rooms(case.recipe), *takes_most(every), *known(every)]
