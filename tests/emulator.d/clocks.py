"""How long a frame takes: clocks.py PROGRAM TRACE FOLDER EXAMPLES

The clocks that `frames --board --clocks` tells of an accepted frame are held to the emulator's: its emulated time from GO to the halt that
the processor sees, to the clock. Each run but the emulator's first takes one clock more there: it seems that its latch of states first has
to take in that the generator is no longer halted. How many states an instruction has is by the PROM of emulator.py. `clocks=C` is to be
that time, and `clocks<=C`, of a dark draw at an unknown scale, no less than it; that some frames take just C shows that C is not too great.

The frames are those of frames.py, and as many short ones that are dark and mostly come before the first LABS, from each scale that the
generator may hold at the start: draws and calls, four deep, by tail jumps, and jumps of the frame.

The emulator has to be told near which clock to look. Where the program tells no single number, since the frame is refused or the scale at
the start matters, that is the clock of `dvg_bench trace`. So its clocks are compared as well, and just there: of refused frames
nothing else is.
"""

import os
import re
import sys
from typing import NamedTuple

from circuit import traced_clocks
from emulator import Run, Timed, lateness
from frames import FEW, Lot, all_lots, lines, spelled, started
from lists import Chance, Window, some_rom
from words import HALT, as_bytes, call, jump, labs, short_vector, vector

SEED = 61
DARK_ROMS, DARK_FRAMES = 25, 80     # and so many dark frames for each ROM
STARTING = 1                        # clocks that the emulator takes for GO
FIRST = [([], [Timed(Run([HALT]), 3)])]
SCALES = 16


# ---- dark frames

class Dark(Chance):
    """Chooses as a Chance does, but no light."""

    def intensity(self):
        return 0


def dark_item(chance, rom, words):
    """One more instruction behind these words, or a jump over some."""
    y, x = chance.between(0, 2047), chance.between(0, 2047)
    if chance.one_in(3):
        return vector(chance.between(0, 9), y, x, 0, chance.between(0, 3))
    if chance.one_in(2):
        return short_vector(chance.between(0, 3), y & 7, x & 7, 0)
    if chance.one_in(4):
        return jump(len(words) + 2) + [chance.between(0, 0xFFFF)]
    return call(chance.one_of(rom.levels[chance.between(0, 3)]))


def dark_list(chance, rom):
    words = []
    for _ in range(chance.between(0, 4)):
        words += dark_item(chance, rom, words)
    if chance.one_in(2):
        words += labs(chance.between(0, 1023), chance.between(0, 1023), chance.between(0, 15))
        for _ in range(chance.between(0, 6)):
            words += dark_item(chance, rom, words)
    return words + [HALT | chance.between(0, 0xFFF)]


def dark_lots():
    """The scales at the start take turns."""
    chance = Dark(SEED)
    for _ in range(DARK_ROMS):
        rom = some_rom(chance)
        frames = [dark_list(chance, rom) for _ in range(DARK_FRAMES)]
        runs = [started(chance, frame)._replace(scale=number % SCALES) for number, frame in enumerate(frames)]
        yield Lot(rom.words, Window(), runs)


# ---- what the program says

class Told(NamedTuple):
    clocks: int
    is_bound: bool


def told_by(line):
    """The clocks in a frame's line; none if it is refused."""
    if line.startswith("refused"):
        return None
    told = re.fullmatch(r"accepted words=\d+ depth=\d clocks(<?)=(\d+)", line)
    if told is None:
        raise SystemExit(f"FAILED: frames --board --clocks: {line}")
    return Told(int(told[2]), told[1] == "<")


def all_told(program, folder, lot):
    options = ["--window", spelled(lot.window), "--clocks"]
    return [told_by(line) for line in lines(program, folder, lot, options)]


def is_exact(told):
    return told is not None and not told.is_bound


# ---- the clocks compared

class Clocks:
    """What is said of the clocks, frame by frame."""

    def __init__(self):
        self.exact, self.spare, self.refused, self.late, self.differ = [], [], 0, [], 0

    def differs(self, lot, run, what):
        self.differ += 1
        if self.differ <= FEW:
            print(f"FAILED: {what}")
        if self.differ == 1:
            print(f"with {run[1:]}, of the frame {as_bytes(run.frame).hex()}, over the ROM {as_bytes(lot.rom).hex()}")

    def count(self, told, emulated):
        if told is None:
            self.refused += 1
        elif told.is_bound:
            self.spare.append(told.clocks - emulated)
        else:
            self.exact.append(emulated)

    def compare(self, lot, timed, told, late):
        emulated = timed.clocks + late - STARTING
        self.late.append(late - STARTING)
        self.count(told, emulated)
        if late != STARTING:
            teller = "the program tells" if is_exact(told) else "dvg_bench trace has"
            self.differs(lot, timed.run, f"{teller} {timed.clocks} clocks, the emulator {late:+} with GO, not {STARTING:+}")
        elif told and told.clocks < emulated:
            self.differs(lot, timed.run, f"the program tells {told.clocks} clocks at most, the emulator takes {emulated}")

    def report(self):
        tight = self.spare.count(0)
        print(f"clocks: {len(self.late)} frames compared, {self.differ} differ, the largest difference is {max(map(abs, self.late))}: "
              f"{len(self.exact)} of clocks=C, which take {min(self.exact)} to {max(self.exact)} clocks, in all {sum(self.exact)}; "
              f"{len(self.spare)} of clocks<=C, of which {tight} take just C and the others up to {max(self.spare)} less; "
              f"{self.refused} refused, by dvg_bench trace")
        few = len(self.exact) < 3000 or len(self.spare) < 500 or tight < 50 or self.refused < 1000
        if few:
            print("FAILED: too few of a kind")
        return 1 if few or self.differ else 0


def main(program, bench, folder, examples):
    lots = [*all_lots(examples), *dark_lots()]
    told = [all_told(program, folder, lot) for lot in lots]
    timed = [[Timed(run, one.clocks if is_exact(one) else traced_clocks(bench, folder, lot.rom, run)) for run, one in zip(lot.runs, each)]
             for lot, each in zip(lots, told)]
    late = lateness(os.path.join(folder, "clocks"), FIRST + [(lot.rom, runs) for lot, runs in zip(lots, timed)])
    next(late)
    clocks = Clocks()
    for lot, runs, each in zip(lots, timed, told):
        for one, told_of_it in zip(runs, each):
            clocks.compare(lot, one, told_of_it, next(late))
    return clocks.report()


if __name__ == "__main__":
    sys.exit(main(*sys.argv[1:]))
