"""The grammar of a recipe's text, as docs/RECIPES.md has it: which texts are recipes, the fault of each other one, and the one spelling.

It is a model of its own, which changed.py holds the program to; texts.py reads by it. Labels are given as the word address of each name
that stands at one word.
"""

import re
from typing import NamedTuple

from items import FIXED, fixed

FORM, NAME, EARLY, BEHIND, LONG = range(51, 56)
MOST_BYTES = 199        # of a line before its LF
MOST_LINES = MOST_PIECES = 4096
MOST_TURNS = 1023
MOST_OPTIONS = 262_144               # of instructions to choose from, repeats written out
MOST_BLOCKS = 16        # one in another
MOST_LISTS = 8

PRINTED = re.compile(rb"[ -~]*")
A_NUMBER = re.compile("0|-?[1-9][0-9]*")
AN_ADDRESS = re.compile("[0-9A-F]{3}")
A_WORD = re.compile("[0-9A-F]{4}")
A_NAME = re.compile("[A-Za-z_][A-Za-z0-9_]{0,79}")


class Refused(Exception):
    def __init__(self, number, line):
        super().__init__(f"refused {number} recipe line {line}")


class Line(NamedTuple):
    """A line that means something: which one it is, how many blocks it is in, and its words, with addresses in place of labels."""
    number: int
    depth: int
    words: list


# ---- the forms of lines

def is_name(word):
    return A_NAME.fullmatch(word) is not None and AN_ADDRESS.fullmatch(word) is None


def is_number(word, least, most):
    return A_NUMBER.fullmatch(word) is not None and least <= int(word) <= most


def is_span(words, least, most):
    """Whether these are two numbers, the first one at most the second."""
    return len(words) == 2 and all(is_number(word, least, most) for word in words) and int(words[0]) <= int(words[1])


def is_rectangle(words):
    """Whether these are the sides of a rectangle of places."""
    return is_span(words[:2], -2048, 2047) and is_span(words[2:], -2048, 2047)


def is_place(words):
    scales = words[6:]
    return (is_rectangle(words[1:5]) and words[5:6] == ["scale"] and scales != []
            and all(is_number(scale, 0, 15) for scale in scales)
            and all(int(one) < int(other) for one, other in zip(scales, scales[1:])))


def is_draw(words, most_scale, most_size):
    return (len(words) == 11 and words[2::3] == ["x", "y", "bright"] and is_number(words[1], 0, most_scale)
            and all(is_span(words[at:at + 2], -most_size, most_size) for at in (3, 6)) and is_span(words[9:], 0, 15))


def is_vctr(words):
    """Behind the draw may stand a rectangle to which it has to lead."""
    to = words[11:]
    return is_draw(words[:11], 9, 1023) and (to == [] or to[0] == "to" and is_rectangle(to[1:]))


def is_svec(words):
    return is_draw(words, 3, 3)


def is_fixed(words):
    return (len(words) > 1 and all(A_WORD.fullmatch(word) for word in words[1:])
            and all(item[0] in FIXED for item in fixed(words[1:])))


def is_either(words):
    return words == ["either"]


def is_repeat(words):
    return is_span(words[1:], 0, MOST_TURNS) and words[2] != "0"


FORMS = {"place": is_place, "vctr": is_vctr, "svec": is_svec, "words": is_fixed, "either": is_either, "repeat": is_repeat}


# ---- one line after another

ORDER = {"dvgrecipe": 0, "list": 1, "shapes": 2}    # and then the lines of the list
BEHIND_LISTS = 3


class Reader:
    def __init__(self, labels):
        self.labels, self.names, self.lines, self.blocks = labels, set(), [], []
        self.number, self.order, self.lists, self.end = 1, 0, 0, -1
        self.pieces = self.options = 0
        self.is_empty = False       # whether the innermost block's branch has no line yet
        self.has_ended = False

    def ask(self, is_right, number=FORM):
        if not is_right:
            raise Refused(number, self.number)

    def line(self, content):
        self.ask(len(content) <= MOST_BYTES and self.number <= MOST_LINES, LONG)
        self.ask(PRINTED.fullmatch(content))
        words = content.decode().lstrip(" ").split(" ")
        if self.number == 1:
            self.ask(content == b"dvgrecipe 1")
            self.lines.append(Line(1, 0, words))
        elif words != [""] and not words[0].startswith(";"):
            self.ask(not self.has_ended, BEHIND)
            self.in_order(words)

    def in_order(self, words):
        order = ORDER.get(words[0], BEHIND_LISTS)
        self.ask(order >= max(1, self.order) and (order == 1 or self.lists))
        self.order = order
        {"list": self.list, "shapes": self.shapes, "either": self.block, "repeat": self.block, "or": self.branch, "end": self.branch,
         "jump": self.jump, "halt": self.halt}.get(words[0], self.item)(words)

    def keep(self, words, out=0):
        self.lines.append(Line(self.number, len(self.blocks) - out, words))

    # ---- areas and names

    def area(self, words):
        """An area of vector RAM, behind the earlier ones."""
        self.ask(len(words) == 3 and all(AN_ADDRESS.fullmatch(word) for word in words[1:]))
        first, last = (int(word, 16) for word in words[1:])
        self.ask(self.end < first <= last <= 0x3FF)
        self.end = last

    def list(self, words):
        self.lists += 1
        self.ask(self.lists <= MOST_LISTS)
        self.area(words)
        self.keep(words)

    def shapes(self, words):
        self.ask(len(words) > 1 and is_name(words[1]))
        self.ask(words[1] not in self.names, NAME)
        self.keep([*words[:2], *self.addresses(words[2:])])
        self.names.add(words[1])

    def addresses(self, words):
        self.ask(words)
        return [self.address(word) for word in words]

    def address(self, word):
        if AN_ADDRESS.fullmatch(word) or word in self.names:
            return word
        self.ask(is_name(word))
        self.ask(word in self.labels, NAME)
        return f"{self.labels[word]:03X}"

    # ---- the list's lines

    def turns(self):
        """In how many turns a line stands with the repeats around it written out; no more than a list has words."""
        turns = 1
        for block in self.blocks:
            if block[0] == "repeat":
                turns = min(turns * int(block[2]), MOST_TURNS)
        return turns

    def counted(self, words):
        """Notes a line of one piece, or of `words` each instruction, for which there has to be room."""
        pieces = len(fixed(words[1:])) if words[0] == "words" else 1
        self.pieces += pieces
        self.ask(self.pieces <= MOST_PIECES, LONG)
        options = {"place": 16, "call": len(words) - 1, "jump": 0, "halt": 0}.get(words[0], pieces)
        self.options += self.turns() * options
        self.ask(self.options <= MOST_OPTIONS, LONG)
        self.keep(words)
        self.is_empty = False

    def item(self, words):
        if words[0] == "call":
            words = ["call", *self.addresses(words[1:])]
        else:
            self.ask(words[0] in FORMS and FORMS[words[0]](words))
        self.counted(words)

    def jump(self, words):
        self.ask(not self.blocks)
        self.area(words)
        self.counted(words)

    def halt(self, words):
        self.ask(words == ["halt"] and not self.blocks)
        self.counted(words)
        self.has_ended = True

    def block(self, words):
        self.ask(FORMS[words[0]](words))
        self.ask(len(self.blocks) < MOST_BLOCKS, LONG)
        self.keep(words)
        self.blocks.append(words)
        self.is_empty = True

    def branch(self, words):
        """The end of a block's branch, behind which another one may begin."""
        self.ask(len(words) == 1 and self.blocks and not self.is_empty)
        self.ask(words == ["end"] or self.blocks[-1][0] == "either")
        self.keep(words, out=1)
        if words == ["end"]:
            self.blocks.pop()
        else:
            self.is_empty = True


def read(text, labels):
    """The lines of a text that mean something, the first one first; of several faults the first one in reading order is raised."""
    reader, (*ended, rest) = Reader(labels), text.split(b"\n")
    for reader.number, content in enumerate(ended, 1):
        reader.line(content)
    reader.number = len(ended) + 1
    reader.ask(len(rest) <= MOST_BYTES, LONG)
    reader.ask(reader.has_ended and not rest, EARLY)
    return reader.lines


def spelling(lines):
    """The one spelling of a recipe, of which a line may be too long."""
    spelled = ["  " * line.depth + " ".join(line.words) for line in lines]
    for line, content in zip(lines, spelled):
        if len(content) > MOST_BYTES:
            raise Refused(LONG, line.number)
    return "".join(content + "\n" for content in spelled)
