"""Which of the lists that a recipe spells lead where its lines have to lead, by `to`, and at which line none goes on."""

from beams import beams, is_in
from members import items_of


def led(one, shapes):
    """How many items of a list come before the first one that doesn't lead where it has to."""
    if all(item.leaf.to is None for item in one.spelled):
        return len(one.spelled)
    _, *behind = beams(one, shapes)
    for index, (item, beam) in enumerate(zip(one.spelled, behind)):
        if item.leaf.to and not is_in(beam.place, item.leaf.to):
            return index
    return len(one.spelled)


def front_items(one, count):
    """The items of its frames up to so many that are spelled, from word 000 on."""
    every = items_of(one)
    return every[:len(every) - len(one.spelled) + count]


def stuck(lists, counts):
    """The first instance, and its line, of which no item leads on from some items that all do; none if there is none."""
    goes_on = {}
    for one, count in zip(lists, counts):
        for index, item in enumerate(one.spelled[:count + 1]):
            if item.leaf.to:
                front = item.instance, item.leaf.line, front_items(one, index)
                goes_on[front] = goes_on.get(front, False) or index < count
    return min((front[:2] for front, does in goes_on.items() if not does), default=None)
