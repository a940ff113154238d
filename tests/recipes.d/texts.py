"""The text of a recipe, read into what it says."""

from itertools import product
from typing import NamedTuple, Optional

import grammar
from items import fixed


class Leaf(NamedTuple):
    """One item; pieces are numbered in the order of reading, and repeats with them."""
    number: int
    line: int
    items: list         # what it allows, in the order of the line
    to: Optional[tuple] = None  # the least and the greatest X, and Y, of the places to which it has to lead


class Row(NamedTuple):
    parts: list


class Either(NamedTuple):
    branches: list


class Repeat(NamedTuple):
    number: int
    line: int
    least: int
    most: int
    body: Row


class Recipe(NamedTuple):
    lists: list         # the word address at which each begins
    areas: dict         # the last word address of each area, by its first one
    body: Row


def span(words):
    return range(int(words[0]), int(words[1]) + 1)


def draws(words):
    """The items of a `vctr` or `svec` line: KIND S x A B y C D bright E F .."""
    kind, scale, sizes = words[0], int(words[1]), product(span(words[3:5]), span(words[6:8]), span(words[9:11]))
    return [(kind, scale, x, y, bright) for x, y, bright in sizes]


def places(words):
    """The items of a `place` line: place X0 X1 Y0 Y1 scale S .."""
    return [("labs", x, y, int(scale)) for x, y, scale in product(span(words[1:3]), span(words[3:5]), words[6:])]


def target(words):
    """Where the items of a line have to lead: vctr .. to X0 X1 Y0 Y1."""
    return tuple(map(int, words[12:])) if words[0] == "vctr" and len(words) > 11 else None


class Reader:
    """Goes over the lines."""

    def __init__(self, text):
        self.left = [(line.number, line.words) for line in grammar.read(text.encode(), {})[1:]]
        self.lists, self.areas, self.names, self.pieces = [], {}, {}, 0

    def recipe(self):
        while self.left[0][1][0] in ("list", "shapes"):
            self.head(self.left.pop(0)[1])
        return Recipe(self.lists, self.areas, self.row())

    def head(self, words):
        if words[0] == "list":
            self.lists.append(self.area(words))
        else:
            self.names[words[1]] = self.addresses(words[2:])

    def area(self, words):
        first, last = (int(word, 16) for word in words[1:])
        self.areas[first] = last
        return first

    def addresses(self, words):
        """Each address once, those of names too."""
        found = [address for word in words for address in self.names.get(word) or [int(word, 16)]]
        return list(dict.fromkeys(found))

    def number(self):
        self.pieces += 1
        return self.pieces

    def row(self):
        """The lines up to the end of the block, or of the recipe."""
        parts = []
        while self.left and self.left[0][1][0] not in ("or", "end"):
            parts += self.parts(*self.left.pop(0))
        return Row(parts)

    def parts(self, line, words):
        if words[0] == "either":
            return [Either(self.branches())]
        if words[0] == "repeat":
            repeat = Repeat(self.number(), line, int(words[1]), int(words[2]), self.row())
            self.left.pop(0)
            return [repeat]
        return [Leaf(self.number(), line, items, target(words)) for items in self.choices(words)]

    def branches(self):
        branches = [self.row()]
        while self.left.pop(0)[1][0] == "or":
            branches.append(self.row())
        return branches

    def choices(self, words):
        """What each item of the line may be."""
        if words[0] == "words":
            return [[item] for item in fixed(words[1:])]
        if words[0] == "call":
            return [[("jsrl", address) for address in self.addresses(words[1:])]]
        if words[0] == "jump":
            return [[("jmpl", self.area(words))]]
        if words[0] == "halt":
            return [[("halt",)]]
        return [places(words) if words[0] == "place" else draws(words)]


def read(text):
    return Reader(text).recipe()
