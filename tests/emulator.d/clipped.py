"""What a board clips: clipped.py PROGRAM TRACE FOLDER

Random frames whose objects cross the screen's edges and corners are judged by `frames --board` without and with --clip, and run on the
emulator. Each line is to be what the rules of docs/MACHINE.md say: accepted if both ends of each lit draw lie on the screen, or with
--clip in the zone from -1024 to 2047, and else refused with 46 at the frame's item with the first draw that doesn't. The ends are those
of tools/picture, which has these rules, and not the emulator's.

Of a frame that is accepted with --clip the emulator's picture is to have just the part of each lit draw that lies on the screen, draw
by draw, and nothing else. Where a draw is between its ends comes from `dvg_bench trace`, by the counters at each of its counts. At a
count the emulator steps the counter of x before that of y, so it has a place more there.

So it is too with frames of one object, a stroke or a called shape, that ends on an edge of the zone: they are accepted, and the same
one place further out are refused. Of those it is counted how many the emulator shows with a ghost, a lit point off the screen's
places. They are to be those in which a place past the zone is on the screen by the other axis: there the counter has bit 10 clear.
"""

import os
import sys
from itertools import groupby
from typing import NamedTuple

from circuit import traced
from edges import ROM_AT, SCREEN, WORDS, ZONE, crossing_list, limit_frames, machine
from emulator import emulate
from frames import FEW, judged, lines, started
from lists import Chance, some_rom
from words import as_bytes, signed_twelve

SEED = 35
ROMS, FRAMES, LIMITS = 80, 40, 10       # and so many frames, and pairs of frames at a limit, for each ROM


class Lot(NamedTuple):
    rom: list
    runs: list      # first the crossing ones, then those at a limit, one with its end on the edge and one past it in turn

    @staticmethod
    def is_at(index):
        return index >= FRAMES and (index - FRAMES) % 2 == 0

    @staticmethod
    def is_past(index):
        return index >= FRAMES and (index - FRAMES) % 2 == 1


def some_lot(chance):
    rom = some_rom(chance)
    frames = [crossing_list(chance, rom) for _ in range(FRAMES)]
    for _ in range(LIMITS):
        frames += limit_frames(chance, rom)
    return Lot(rom.words, [started(chance, frame) for frame in frames])


# ---- what the rules say

class Stroke(NamedTuple):
    at: int         # the frame's item that draws it, or that calls the shape which does
    start: tuple
    end: tuple
    intensity: int


def whole(place):
    return place[0] // machine.FINE, place[1] // machine.FINE


def claimed(rom, frame):
    """All that is lit, by the board's rules."""
    run = machine.Run(machine.Board, machine.Memory(frame, rom, ROM_AT)).go(WORDS)
    if run.end != "HALT" or run.unplaced:
        raise SystemExit(f"FAILED: a frame that {run.end}, with {run.unplaced} strokes at an unknown place")
    return [Stroke(item.at, whole(stroke.start), whole(stroke.end), stroke.intensity) for item in run.items for stroke in item.strokes]


# ---- what is to be shown of a stroke

def places(stroke, counters):
    """Where it is at each count: its start, and counted on from there."""
    x, y = stroke.start
    yield x, y
    for before_x, before_y, to_x, to_y in zip(counters[::2], counters[1::2], counters[2::2], counters[3::2]):
        x, y = x + signed_twelve(to_x - before_x), y + signed_twelve(to_y - before_y)
        yield x, y


def one_by_one(way):
    """These places, with the one between two of them to which only x was stepped."""
    x, y = way[0]
    yield x, y
    for to_x, to_y in way[1:]:
        if to_x != x and to_y != y:
            yield to_x, y
        x, y = to_x, to_y
        yield x, y


def clipped(way, intensity):
    """The parts of it that lie on the screen, each by its first and its last place."""
    parts = [list(part) for inside, part in groupby(one_by_one(way), SCREEN.has) if inside]
    return [(part[0], part[-1], intensity) for part in parts]


def lit_ways(strokes, counters):
    """The places of each stroke; None if the circuit has other strokes, or one from another place or to another one."""
    if len(strokes) != len(counters):
        return None
    ways = [list(places(stroke, each)) for stroke, each in zip(strokes, counters)]
    begun = all((stroke.start[0] & 0xFFF, stroke.start[1] & 0xFFF) == tuple(each[:2]) for stroke, each in zip(strokes, counters))
    return ways if begun and all(stroke.end == way[-1] for stroke, way in zip(strokes, ways)) else None


# ---- what the emulator shows

def pictured(seen):
    """All that its picture has lit, in the same form: the beam goes to each point from the one before."""
    return [(before[:2], point[:2], point[2]) for before, point in zip([(), *seen.points], seen.points) if point[2]]


def has_ghost(seen):
    return any(point[2] and not SCREEN.has(point) for point in seen.points)


def may_have_ghost(way):
    """It has a place past the zone that is on the screen by the other axis."""
    return any(not ZONE.has((x, y)) and (SCREEN.has((x, 0)) or SCREEN.has((0, y))) for x, y in one_by_one(way))


# ---- the two compared

def edges_of(stroke):
    """The edges past which it is, at either end."""
    across, up = zip(stroke.start, stroke.end)
    past = {"left": min(across) < 0, "right": max(across) > 1023, "bottom": min(up) < 0, "top": max(up) > 1023}
    return [edge for edge, is_past in past.items() if is_past]


class Counts:
    def __init__(self):
        self.on_screen = self.accepted = self.refused = self.strokes = self.parts = self.dark = self.at = self.past = self.ghosts = 0
        self.differ = 0
        self.cut = {"left": 0, "right": 0, "bottom": 0, "top": 0, "corner": 0}

    def differs(self, lot, run, what):
        self.differ += 1
        if self.differ <= FEW:
            print(f"FAILED: {what}"[:1000])
        if self.differ == 1:
            print(f"with {run[1:]}, of the frame {as_bytes(run.frame).hex()}, over the ROM {as_bytes(lot.rom).hex()}")

    def count_stroke(self, stroke, parts):
        self.strokes += 1
        self.parts += len(parts)
        self.dark += not parts
        edges = edges_of(stroke) if parts else []
        for edge in edges:
            self.cut[edge] += 1
        self.cut["corner"] += len(edges) > 1

    def compare_picture(self, strokes, ways, seen):
        """What is shown of a frame that is accepted with --clip."""
        shown = [clipped(way, stroke.intensity) for way, stroke in zip(ways, strokes)]
        for stroke, parts in zip(strokes, shown):
            self.count_stroke(stroke, parts)
        ours, emulated = [part for parts in shown for part in parts], pictured(seen)
        return "" if ours == emulated else f"on the screen there are {ours}, the emulator has {emulated}"

    def compare_ghost(self, ways, seen):
        """What is shown of a frame one place past the zone."""
        may, has = any(map(may_have_ghost, ways)), has_ghost(seen)
        self.past += 1
        self.ghosts += has
        return "" if may == has else f"one place past the zone the emulator shows {'a' if has else 'no'} ghost"

    def compare(self, lot, index, told, seen, counters):
        run = lot.runs[index]
        strokes = claimed(lot.rom, run.frame)
        by_rules = [judged(seen, strokes, window) for window in (SCREEN, ZONE)]
        ways, is_accepted = lit_ways(strokes, counters), told[1].startswith("accepted")
        self.on_screen += told[0].startswith("accepted")
        self.accepted += is_accepted
        self.refused += told[1].startswith("refused 46 frame")
        self.at += is_accepted and lot.is_at(index)
        if told != by_rules:
            what = f"without and with --clip the program says {told}, the rules {by_rules}"
        elif ways is None:
            what = f"by the rules there are {strokes}, the circuit has others"
        elif is_accepted:
            what = self.compare_picture(strokes, ways, seen)
        else:
            what = self.compare_ghost(ways, seen) if lot.is_past(index) else ""
        if what:
            self.differs(lot, run, what)

    def report(self):
        print(f"clipped: {self.accepted + self.refused} compared, {self.differ} differ: {self.on_screen} accepted without --clip, "
              f"{self.accepted} with it, {self.refused} refused with 46")
        cut = ", ".join(f"{count} past the {edge}" for edge, count in self.cut.items())
        print(f"of {self.strokes} strokes of the accepted {self.dark} are dark, the others have {self.parts} parts on the screen: {cut}")
        print(f"at the zone's edge {self.at} frames accepted, one place past it {self.past} refused: {self.ghosts} of them with a ghost")
        pairs = ROMS * LIMITS
        few = min(self.cut.values()) < 500 or self.at != pairs or self.past != pairs or self.ghosts < pairs / 2
        if few:
            print("FAILED: too few of a kind")
        return 1 if few or self.differ else 0


def main(program, bench, folder):
    chance = Chance(SEED)
    lots = [some_lot(chance) for _ in range(ROMS)]
    runs = emulate(os.path.join(folder, "clipped"), [(lot.rom, lot.runs) for lot in lots])
    counts = Counts()
    for lot in lots:
        told = zip(*(lines(program, folder, lot, options) for options in ([], ["--clip"])))
        for index, both in enumerate(told):
            seen = next(runs)
            lit = [line.lit for line in traced(bench, folder, lot.rom, lot.runs[index], len(seen.items)) if line.lit]
            counts.compare(lot, index, list(both), seen, lit)
    return counts.report()


if __name__ == "__main__":
    sys.exit(main(*sys.argv[1:]))
