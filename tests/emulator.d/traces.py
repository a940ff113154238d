"""The frames of frames.py and random words, instruction by instruction: traces.py TRACE FOLDER EXAMPLES

After each instruction the registers that `dvg_bench trace` prints are to be the emulator's: program counter, both counters, scale, stack
pointer and the four stored places. The program counter after a HALT, which nothing uses, is not compared. A lit draw is to be one on
the emulator too, and what it adds to the picture is to be what the counters have that `dvg_bench trace` prints for each of its counts: a
point wherever one of them steps onto the screen or off it, by bit 10, and one at the draw's end, if that is on the screen. Within a
draw that stays on the screen or off it the emulator shows no counters; for that see counts.py.

The random words are in RAM and ROM alike, and jumps lead into the middle of them, to where there is no chip, to calls deeper than
four and to returns with none stored. Such a run is compared as far as it goes: up to its HALT, to so many instructions, or to word
FFE, as MAME's program counter goes on past FFF.
"""

import os
import sys
from typing import NamedTuple

from circuit import traced
from emulator import Run, emulate, seen_before
from frames import DRAWS, FEW, SEED, all_lots
from lists import Chance
from words import as_bytes

ROMS, FRAMES, MOST = 20, 100, 100
HALTS = 11
# the opcodes of random words: more calls and returns, so that they go deep
OPCODES = (*range(16), 12, 12, 12, 13, 13)
CALLS, JUMPS = 12, 14


class Lot(NamedTuple):
    rom: list
    runs: list


def some_address(chance):
    """Mostly that of a word of RAM or ROM."""
    return chance.between(0, 0xFFF) if chance.one_in(40) else chance.between(0, 0x3FF) | chance.one_of((0, 0x800))


def some_word(chance):
    opcode = chance.one_of(OPCODES)
    return opcode << 12 | (some_address(chance) if opcode in (CALLS, JUMPS) else chance.between(0, 0xFFF))


def some_words(chance):
    return [some_word(chance) for _ in range(0x400)]


def some_run(chance):
    x, y = chance.between(0, 4095), chance.between(0, 4095)
    places = tuple(some_address(chance) for _ in range(4))
    return Run(some_words(chance), x, y, chance.between(0, 15), chance.between(0, 15), places, MOST)


def random_lots(chance):
    return [Lot(some_words(chance), [some_run(chance) for _ in range(FRAMES)]) for _ in range(ROMS)]


# ---- what the picture has of a draw, by the counters at each of its counts

def is_off(counter):
    return counter & 0x400


def crossings(way):
    """The points where a counter steps onto the screen or off it; at a count that of x steps before that of y."""
    x, y = way[:2]
    for to_x, to_y in zip(way[2::2], way[3::2]):
        if is_off(x ^ to_x) and not is_off(y):
            yield (x, y, True) if is_off(to_x) else (to_x, y, False)
        x = to_x
        if is_off(y ^ to_y) and not is_off(x):
            yield (x, y, True) if is_off(to_y) else (x, to_y, False)
        y = to_y


def drawn(way):
    points = [] if max(way) < 0x400 else list(crossings(way))
    x, y = way[-2:]
    return points if is_off(x | y) else points + [(x, y, True)]


# ---- the two compared

class Counts:
    def __init__(self):
        self.frames = self.instructions = self.lit_places = self.points = self.stores = self.differ = 0

    def differs(self, lot, run, what):
        self.differ += 1
        if self.differ <= FEW:
            print(f"FAILED: {what}")
        if self.differ == 1:
            print(f"with {run[1:]}, of the frame {as_bytes(run.frame).hex()}, over the ROM {as_bytes(lot.rom).hex()}")

    def compare_registers(self, before, after, line):
        ours = (line.address, line.x, line.y, line.scale, line.pointer, line.places)
        emulated = (after.address, after.x, after.y, after.scale, after.pointer, after.places)
        if before.opcode == HALTS:
            ours, emulated = ours[1:], emulated[1:]
        return "" if ours == emulated else f"the circuit has {ours}, the emulator {emulated}"

    def compare_lit(self, before, after, line, points):
        emulated = [(x, y, intensity > 0) for x, y, intensity in points]
        if not line.lit:
            return "what the emulator lights is dark" if any(lit for _, _, lit in emulated) else ""
        if before.opcode not in DRAWS or not after.intensity:
            return "what the circuit lights is dark on the emulator"
        self.lit_places += len(line.lit) // 2
        self.points += len(points)
        ours = drawn(line.lit)
        begun, ended = (before.x, before.y) == tuple(line.lit[:2]), (after.x, after.y) == tuple(line.lit[-2:])
        return "" if begun and ended and ours == emulated else f"the circuit lights {ours}, the emulator {emulated}"

    def compare(self, lot, run, lines, seen):
        """`lines` may be one more than the emulator had time for."""
        self.frames += 1
        steps = list(zip(seen.items, seen.items[1:]))
        if len(lines) < len(steps) or steps[-1][0].opcode == HALTS and len(lines) > len(steps):
            self.differs(lot, run, f"the circuit takes {len(lines)} instructions, the emulator {len(steps)}")
            return
        for (before, after), line in zip(steps, lines):
            self.instructions += 1
            self.stores += before.opcode == CALLS
            points = seen.points[before.points:after.points]
            what = self.compare_registers(before, after, line) or self.compare_lit(before, after, line, points)
            if what:
                self.differs(lot, run, f"at {before.address:03X}: {what}")
                return

    def report(self, name):
        print(f"{name}: {self.frames} compared, {self.differ} differ: {self.instructions} instructions, {self.stores} of them calls, "
              f"{self.lit_places} lit places, {self.points} points of the picture")
        return 1 if self.differ or not self.stores else 0


def compare_all(bench, folder, lots, seen, name):
    counts = Counts()
    for lot in lots:
        for run in lot.runs:
            emulated = next(seen)
            counts.compare(lot, run, traced(bench, folder, lot.rom, run, len(emulated.items)), emulated)
    return counts.report(name)


def main(bench, folder, examples):
    lots = random_lots(Chance(SEED))
    seen = emulate(os.path.join(folder, "traces"), [(lot.rom, lot.runs) for lot in lots])
    failed = compare_all(bench, folder, lots, seen, "random words")
    lots, before = all_lots(examples), os.path.join(folder, "frames")
    seen = seen_before(before) if os.path.exists(before) else emulate(before, [(lot.rom, lot.runs) for lot in lots])
    return compare_all(bench, folder, lots, seen, "frames, by their instructions") or failed


if __name__ == "__main__":
    sys.exit(main(*sys.argv[1:]))
