"""Where a board's beam is before and behind each item of a list, and what the item lights, in whole places."""

from typing import NamedTuple, Optional

from geometry import box_around, ends
from inputs import Box
from machine import FINE, Board, Entry, Memory, Run, signed
from recordings import Call, Place

SHAPE_WORDS = 20000


class Passed(NamedTuple):
    """An item, with the beam's places before and behind it and the least box of what it lights; none where they aren't known."""
    item: object
    before: Optional[tuple]
    behind: Optional[tuple]
    lit: Optional[Box]


class Shape:
    """Where a call of a shape leaves the beam, and what it lights, both from the place of the call."""

    def __init__(self, rom, entry):
        run = Run(Board, rom, entry).go(SHAPE_WORDS)
        returns = run.end == "RTSL" and run.place is not None and not run.places_set
        self.end = tuple(side // FINE for side in run.place) if returns else None
        box = box_around(ends(stroke for item in run.items for stroke in item.strokes if not stroke.places_set))
        self.lit = box and Box(*(side // FINE for side in box))


def distance(size, scale):
    return signed(Board.distance(abs(size), scale), size < 0) // FINE


def moved(box, place):
    return box and Box(box.left + place[0], box.right + place[0], box.bottom + place[1], box.top + place[1])


class Beam:
    """Goes through lists over one ROM. A call may set a place: what comes behind it, up to a LABS, isn't known."""

    def __init__(self, rom, first):
        self.rom, self.shapes = Memory([], rom, first), {}

    def shape(self, address, scale):
        entry = Entry(address, scale)
        if entry not in self.shapes:
            self.shapes[entry] = Shape(self.rom, entry)
        return self.shapes[entry]

    def behind(self, item, place, scale):
        """The place behind an item that stands at this place, and the box of what it lights."""
        if isinstance(item, Call):
            shape = self.shape(item.address, scale)
            return shape.end and (place[0] + shape.end[0], place[1] + shape.end[1]), moved(shape.lit, place)
        draw = item.draw
        end = tuple(at + distance(size, (draw.scale + scale) % 16) for at, size in zip(place, (draw.x, draw.y)))
        return end, box_around((place, end)) if draw.intensity else None

    def passed(self, items):
        place = scale = None
        for item in items:
            before, lit = place, None
            if isinstance(item, Place):
                place, scale = (item.x, item.y), item.scale
            elif place is not None:
                place, lit = self.behind(item, place, scale)
            yield Passed(item, before, place, lit)
