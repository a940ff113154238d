"""A recipe's text: its lines, and the blocks that they make."""

from typing import NamedTuple

MOST_BYTES = 199
MOST_TURNS = 1023


class Line(NamedTuple):
    """An instruction that a line stands for, and how many words it takes."""
    text: str
    words: int

    def most_words(self):
        return self.words

    def lines(self, depth):
        return ["  " * depth + self.text]


class Repeat(NamedTuple):
    least: int
    most: int
    parts: list

    def most_words(self):
        return self.most * most_words(self.parts)

    def lines(self, depth):
        return ["  " * depth + f"repeat {self.least} {self.most}", *spell(self.parts, depth + 1), "  " * depth + "end"]


class Either(NamedTuple):
    branches: list

    def most_words(self):
        return max(map(most_words, self.branches))

    def lines(self, depth):
        told = []
        for branch in self.branches:
            told += ["  " * depth + ("or" if told else "either"), *spell(branch, depth + 1)]
        return [*told, "  " * depth + "end"]


def most_words(parts):
    """How many words the longest list of these parts takes."""
    return sum(part.most_words() for part in parts)


def spell(parts, depth=0):
    return [line for part in parts for line in part.lines(depth)]


def either(branches):
    """One of the branches, as parts."""
    return branches[0] if len(branches) == 1 else [Either(branches)]


def repeat(turns, parts):
    return parts if turns == (1, 1) else [Repeat(*turns, parts)]


def hexadecimal(addresses):
    return " ".join(f"{address:03X}" for address in sorted(addresses))
