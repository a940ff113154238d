"""Random lists whose objects cross the screen's edges, and objects that end on an edge of the zone that a board clips."""

import os
import sys
from typing import NamedTuple

from lists import FINE, Author, Window
from words import HALT, call, labs, vector

sys.path.insert(0, os.path.join(os.path.dirname(os.path.realpath(__file__)), "..", "..", "tools", "picture.d"))
import machine      # noqa: E402

SCREEN, ZONE = Window(), Window(-1024, 2047, -1024, 2047)
ROM_AT, WORDS = 0x800, 20000


class Crossing(Author):
    """Keeps to the zone, and mostly to places about the screen's edges, on both sides of them."""

    def __init__(self, chance, rom):
        super().__init__(chance, rom, ZONE)

    def about(self, reach):
        """A coordinate about an edge of the screen, in fine parts."""
        return (self.chance.one_of((0, 1023)) + self.chance.between(-reach, reach)) * FINE

    def some_place(self, reach):
        if self.chance.one_in(8):
            return super().some_place(reach)
        if self.chance.one_in(4):
            return self.about(reach), self.about(reach)
        along = self.anywhere(-reach, 1023 + reach)
        return (self.about(reach), along) if self.chance.one_in(2) else (along, self.about(reach))

    def strokes(self):
        """Strokes from and to places on both sides of the edges, as long as one can be."""
        x, y = self.some_place(200)
        self.labs(x // FINE, y // FINE, self.chance.one_of((0, 0, 1, 15)))
        for _ in range(self.chance.between(2, 10)):
            self.go(*self.some_place(200), self.chance.intensity())

    def outside(self):
        """Strokes off the screen, which may reach over a corner of it."""
        x, y = (self.chance.one_of((self.chance.between(-1024, -1), self.chance.between(1024, 2047))) for _ in range(2))
        self.labs(x, y, 0)
        for _ in range(self.chance.between(1, 4)):
            self.go(self.anywhere(-1024, 2047), self.anywhere(-1024, 2047), self.chance.intensity())

    def parts(self):
        return self.edges, self.strokes, self.strokes, self.outside, self.calls, self.calls, self.wraps, self.away, self.around


def crossing_list(chance, rom):
    return Crossing(chance, rom).write()


# ---- one object that ends on an edge of the zone

class Side(NamedTuple):
    axis: int           # 0 across, 1 up
    sign: int           # -1 for the left and the lower edge

    @property
    def edge(self):
        return ZONE.right if self.sign > 0 else ZONE.left

    def both(self, own, other):
        """Across and up, of what the side's own axis has and the other one."""
        return (own, other) if self.axis == 0 else (other, own)


SIDES = [Side(axis, sign) for axis in (0, 1) for sign in (-1, 1)]


class Reach(NamedTuple):
    """How far something lights from where it begins, on one axis."""
    least: int
    most: int

    def begin(self, chance, window):
        """A coordinate from which it stays in the window's places across, if there is one."""
        return chance.between(window.left - self.least, max(window.left - self.least, window.right - self.most))


def other_begin(chance, reach):
    """On the other axis: mostly from where it stays on the screen."""
    return reach.begin(chance, ZONE if chance.one_in(4) else SCREEN)


def signed(size, sign):
    return size | (0x400 if sign < 0 else 0)


def limit_stroke(chance, side):
    """A lit stroke to the edge, or from it; as a function of how many places further out the frame is."""
    scale, size, other = chance.between(2, 9), chance.between(1, 1023), chance.between(0, 1023)
    far, along = (machine.Board.distance(each, scale) // machine.FINE for each in (size, other))
    if far == 0:
        return None
    way, bright = chance.one_of((-1, 1)), 1 + chance.between(0, 14)
    begin = other_begin(chance, Reach(min(0, way * along), max(0, way * along)))
    outward = chance.one_in(2)

    def frame(past):
        x, y = side.both(side.edge + side.sign * (past - far), begin)
        dark = vector(scale, *reversed(side.both(signed(size, side.sign), 0)), 0)
        lit_size = signed(size, side.sign if outward else -side.sign)
        lit = vector(scale, *reversed(side.both(lit_size, signed(other, way))), bright)
        return labs(x, y, 0) + ([] if outward else dark) + lit + [HALT]
    return frame


def shape_reach(rom, address, scale):
    """What a shape lights relative to its call, on each axis; None if it lights nothing there."""
    run = machine.Run(machine.Board, machine.Memory([], rom.words, ROM_AT), machine.Entry(address, scale)).go(WORDS)
    ends = [end for item in run.items for stroke in item.strokes if not stroke.places_set for end in (stroke.start, stroke.end)]
    return [Reach(min(axis) // machine.FINE, max(axis) // machine.FINE) for axis in zip(*ends)] or None


def limit_call(chance, side, rom):
    """A call of a shape that lights up to the edge, likewise."""
    address, scale = chance.one_of(rom.levels[chance.between(0, 3)]), chance.one_of((0, 0, 1, 2, 13, 15))
    reaches = shape_reach(rom, address, scale)
    if reaches is None:
        return None
    own, other = reaches[side.axis], reaches[1 - side.axis]
    place, begin = side.edge - (own.most if side.sign > 0 else own.least), other_begin(chance, other)
    if not -2047 <= place <= 2046:
        return None

    def frame(past):
        x, y = side.both(place + side.sign * past, begin)
        return labs(x, y, scale) + call(address) + [HALT]
    return frame


def limit_frames(chance, rom):
    """A frame that ends on an edge of the zone, and the same one place further out."""
    side, frame = chance.one_of(SIDES), None
    while frame is None:
        frame = limit_stroke(chance, side) if chance.one_in(2) else limit_call(chance, side, rom)
    return frame(0), frame(1)
