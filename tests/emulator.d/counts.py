"""Each count of a draw of each size: counts.py TRACE FOLDER

The counters that `dvg_bench trace` prints for each count of a draw are to be the emulator's. There a draw is done in one go, and within it
the counters are seen only at a count where bit 10 of one changes: the picture then has a point, with both counters. So each pulse of
a size is tried by a draw of its own, which begins so many places from the screen's edge that this pulse is the one that leaves the
screen. On the other axis the size is 1023, whose pulses count: the emulator has as many of them at each scale as the draw has counts,
but one less at scale 9, where the last count is taken to be the one without. So the point tells at which count the pulse came. One
draw more stays on the screen, and tells how many pulses there are.

At scale 9 this is done for each size on each axis, and at each scale below on one of the axes; half of the sizes go up or to the
right, and half down or to the left.
"""

import os
import sys
from bisect import bisect_left
from itertools import islice
from typing import NamedTuple

from circuit import traced
from emulator import Run, emulate
from words import HALT, labs, vector

SIZES, SCALES = range(1024), range(10)
CLOCK = 1023            # the size that has a pulse at each count
ALL = 1024              # more steps than any draw has
DRAWS = 255             # of a run: each has a LABS, and there are 1,024 words
FEW = 10                # differences that are told


class Shape(NamedTuple):
    axis: int           # 0 across, 1 up
    scale: int
    size: int

    @property
    def is_minus(self):
        return (self.axis + self.scale + self.size) % 2 == 1

    @property
    def counts(self):
        return 2 << self.scale

    def both(self, own, clock):
        """Across and up, of what the size's own axis has and the other one."""
        return (own, clock) if self.axis == 0 else (clock, own)

    def begin(self, step):
        """The place from which just this step leaves the screen."""
        return self.both(step - 1, CLOCK) if self.is_minus else self.both(ALL - step, 0)

    def words(self, step):
        sign = 0x400 if self.is_minus else 0
        x, y = self.both(self.size | sign, CLOCK | sign)
        return labs(*self.begin(step), 0) + vector(self.scale, y, x, 1 + self.size % 15)


def all_shapes():
    for scale in SCALES:
        for axis in (0, 1) if scale == 9 else (scale % 2,):
            for size in SIZES:
                yield Shape(axis, scale, size)


def in_lots(things):
    things = iter(things)
    while lot := list(islice(things, DRAWS)):
        yield lot


def run_of(draws):
    """A run of these draws, each a shape and the step that leaves the screen."""
    return Run([word for shape, step in draws for word in shape.words(step)] + [HALT])


# ---- what the circuit has

def pairs(flat):
    return list(zip(flat[::2], flat[1::2]))


def ways(bench, folder, shapes):
    """For each shape the counters at each count, without a step that leaves the screen."""
    for lot in in_lots(shapes):
        lines = traced(bench, folder, [0] * 1024, run_of([(shape, ALL) for shape in lot]), 2 * DRAWS + 1)
        for line in lines[1::2]:
            yield pairs(line.lit)


# ---- what the emulator has

def count_of(shape, step, points):
    """The count at which this step left the screen; None if it didn't. At a count that of x steps before that of y."""
    edge = 0 if shape.is_minus else 1023
    if len(points) != 1 or not points[0][2] or points[0][shape.axis] != edge:
        return None
    clock = 1 - shape.axis
    return abs(points[0][clock] - shape.begin(step)[clock]) - shape.axis


def way_of(shape, counts, pulses):
    """The counters at each count, by the counts at which there was a step, and by the pulses of the other axis."""
    begin, sign = shape.begin(ALL), -1 if shape.is_minus else 1
    for count in range(shape.counts + 1):
        moved = shape.both(bisect_left(counts, count), min(count, pulses))
        yield begin[0] + sign * moved[0], begin[1] + sign * moved[1]


class Emulated:
    """The answers of the draws, one after another."""

    def __init__(self, folder, draws):
        runs = [run_of(lot) for lot in in_lots(draws)]
        self.answers = self.all(emulate(folder, [([], runs)]))

    @staticmethod
    def all(runs):
        """For each draw the registers after it, and the points that it adds to the picture."""
        for seen in runs:
            for before, after in zip(seen.items[1::2], seen.items[2::2]):
                yield after, seen.points[before.points:after.points]

    def way(self, shape, steps):
        """The counters at each count of this shape, by the draws of so many steps, and by the one that stays on the screen."""
        counts = [count_of(shape, step, next(self.answers)[1]) for step in range(1, steps + 1)]
        after, _ = next(self.answers)
        own, other = (abs(end - begin) for begin, end in zip(shape.begin(ALL), (after.x, after.y)))
        own, pulses = (own, other) if shape.axis == 0 else (other, own)
        well = own == steps and None not in counts and counts == sorted(set(counts)) and pulses == min(shape.counts, CLOCK)
        return list(way_of(shape, counts, pulses)) if well else None


def steps_of(shape, way):
    """How many steps the circuit has on the shape's own axis."""
    return abs(way[-1][shape.axis] - way[0][shape.axis]) if way else 0


def main(bench, folder):
    shapes = list(all_shapes())
    ours = dict(zip(shapes, ways(bench, folder, shapes)))
    steps = {shape: steps_of(shape, way) for shape, way in ours.items()}
    draws = ((shape, step) for shape in shapes for step in (*range(1, steps[shape] + 1), ALL))
    emulated = Emulated(os.path.join(folder, "counts"), draws)
    differ = 0
    for shape in shapes:
        way = emulated.way(shape, steps[shape])
        if way != ours[shape]:
            differ += 1
            if differ <= FEW:
                print(f"FAILED: {shape}: the circuit has {ours[shape]}, the emulator {way or 'other steps'}"[:1000])
    print(f"counts: {len(shapes)} draws compared, {differ} differ: {sum(map(len, ours.values()))} pairs of counters, "
          f"by {sum(steps.values()) + len(shapes)} draws of the emulator")
    return 1 if differ or None in ours.values() else 0


if __name__ == "__main__":
    sys.exit(main(*sys.argv[1:]))
