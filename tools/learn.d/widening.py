"""How far a draft goes past what was seen: ranges, counts, and the sets of shapes that a call may name."""

from typing import NamedTuple

from inputs import Box

LEAST_PLACE, MOST_PLACE, MOST_SIZE, MOST_TURNS = -2048, 2047, 1023, 1023


class Range(NamedTuple):
    """Both ends are in it."""
    least: int
    most: int

    def __str__(self):
        return f"{self.least} {self.most}"


def range_of(numbers):
    return Range(min(numbers), max(numbers))


def within(inner, outer):
    return outer.least <= inner.least and inner.most <= outer.most


def common(one, other):
    return Range(max(one.least, other.least), min(one.most, other.most))


def spanning(one, other):
    return Range(min(one.least, other.least), max(one.most, other.most))


def wider(seen):
    """A range of places that is longer by a quarter of its length at both ends. One place stays so."""
    if seen.least == seen.most:
        return seen
    by = max(1, (seen.most - seen.least) // 4)
    return common(Range(seen.least - by, seen.most + by), Range(LEAST_PLACE, MOST_PLACE))


class Rectangle(NamedTuple):
    across: Range
    up: Range

    def __str__(self):
        return f"{self.across} {self.up}"


def rectangle_of(places):
    return Rectangle(*map(range_of, zip(*places)))


def cut(seen, wide, safe):
    """A widened range, cut to what is safe if all that was seen is; else as it is."""
    return common(wide, safe) if within(seen, safe) else wide


def cut_rectangle(seen, wide, safe):
    return Rectangle(*(cut(*ranges) for ranges in zip(seen, wide, safe)))


def safe_places(window, lit):
    """Where a beam may be, which lights this box as seen from there, so that it lights nothing outside the window."""
    lit = lit or Box(0, 0, 0, 0)
    return Rectangle(Range(window.left - lit.left, window.right - lit.right), Range(window.bottom - lit.bottom, window.top - lit.top))


class Field:
    """The places of all that moves. A range over more than half of it is taken for all of it."""

    def __init__(self, places):
        self.all = rectangle_of(places) if places else None

    def widened(self, seen):
        axes = zip(seen, self.all or seen)
        return Rectangle(*(wider(field if 2 * (part.most - part.least) > field.most - field.least else part) for part, field in axes))


class Turns(NamedTuple):
    least: int
    most: int


def turns_of(counts, more):
    """How often something comes. If that varies and is over two it may be never, and half as often again if `more` says so."""
    least, most = min(counts), max(counts)
    if least == most or most <= 2:
        return Turns(least, most)
    return Turns(0, min(most + most // 2 if more else most, MOST_TURNS))


class CallSets:
    """Sets of shapes that calls take turns with. Those that have a shape in common are one."""

    def __init__(self, sets=()):
        self.found = []
        for addresses in map(frozenset, sets):
            for other in [other for other in self.found if other & addresses]:
                self.found.remove(other)
                addresses |= other
            self.found.append(addresses)

    def of(self, address):
        return next((addresses for addresses in self.found if address in addresses), frozenset([address]))
