"""The frames of examples/, and random ones over random ROMs and windows: frames.py PROGRAM FOLDER EXAMPLES

For each frame the line of `frames --board` is to be what the emulator shows: accepted with the words that it fetched and the
deepest call that it made, where all that it lit is in the window, and else refused with 46 at the frame's item in which the first
stroke was that leaves the window. Of an accepted frame the strokes of the emulator's picture are to be those of its counters too.
Frames with other answers, as about a shape that leaves the window by itself, are counted and not compared.
"""

import os
import re
import subprocess
import sys
from typing import NamedTuple

from emulator import Run, emulate
from lists import Chance, Window, some_list, some_rom, some_window
from words import as_bytes, as_words, signed_twelve

SEED = 33
ROMS, FRAMES = 200, 40          # and so many frames for each ROM
EXAMPLES = {
    "arcade": ("game", "title", "page", "game-no-entry"),
    "homebrew": ("homebrew", "homebrew-too-far"),
    "blank": ("first", "outline", "margin", "too-far"),
}
RAM = range(0x400)
LABS, DRAWS = 10, (*range(10), 15)
FEW = 10                        # differences that are told


class Lot(NamedTuple):
    rom: list
    window: Window
    runs: list


def started(chance, frame):
    """A run of the frame, with the beam, the scale, the stack pointer and the stored places anywhere."""
    x, y, scale, pointer = chance.between(0, 4095), chance.between(0, 4095), chance.between(0, 15), chance.between(0, 15)
    return Run(frame, x, y, scale, pointer, tuple(chance.between(0, 4095) for _ in range(4)))


def some_lot(chance):
    rom, window = some_rom(chance), some_window(chance)
    return Lot(rom.words, window, [started(chance, some_list(chance, rom, window)) for _ in range(FRAMES)])


def example_lots(chance, folder):
    for rom, names in EXAMPLES.items():
        runs = [started(chance, read(os.path.join(folder, name + ".frame"))) for name in names]
        yield Lot(read(os.path.join(folder, rom + ".rom")), Window(), runs)


def all_lots(examples):
    chance = Chance(SEED)
    return [*example_lots(chance, examples), *(some_lot(chance) for _ in range(ROMS))]


# ---- what the emulator shows

class Stroke(NamedTuple):
    at: int         # the frame's item that draws it, or that calls the shape which does
    start: tuple
    end: tuple


def after_item(place, before, after):
    """Where the beam is after an item: places are counted on where the counters wrap, which no draw does more than once."""
    if before.opcode == LABS:
        return signed_twelve(after.x), signed_twelve(after.y)
    return place[0] + signed_twelve(after.x - before.x), place[1] + signed_twelve(after.y - before.y)


def strokes(seen):
    """All that is lit, by the counters."""
    place, at, lit = (0, 0), 0, []
    for before, after in zip(seen.items, seen.items[1:]):
        if before.address in RAM:
            at = before.address
        end = after_item(place, before, after)
        if before.opcode in DRAWS and after.intensity:
            lit.append(Stroke(at, place, end))
        place = end
    return lit


def picture(seen):
    """The ends of all that is lit, by the picture."""
    ends = [point[:2] for point in seen.points]
    return [(ends[index - 1], ends[index]) for index, point in enumerate(seen.points) if point[2]]


def deepest(seen):
    first = seen.items[0].pointer
    return max((item.pointer - first) % 16 for item in seen.items)


def judged(seen, lit, window):
    """The line that says where the first stroke leaves the window; if none does, what the emulator fetched and called."""
    for stroke in lit:
        if not (window.has(stroke.start) and window.has(stroke.end)):
            return f"refused 46 frame at {stroke.at:03X}"
    return f"accepted words={seen.items[-1].words} depth={deepest(seen)}"


def shown(seen, lit, window):
    """The line that says what the emulator shows."""
    line = judged(seen, lit, window)
    if line.startswith("accepted") and picture(seen) != [(stroke.start, stroke.end) for stroke in lit]:
        return "a picture that is not the one of the counters"
    return line


# ---- what the program says

def read(path):
    with open(path, "rb") as file:
        return as_words(file.read())


def write(path, words, length=0):
    with open(path, "wb") as file:
        file.write(as_bytes(words).ljust(length, b"\0"))


def spelled(window):
    return ",".join(map(str, window))


def lines(program, folder, lot, options):
    """The program's answers with these options, without the number of entries."""
    write(os.path.join(folder, "rom"), lot.rom, 2048)
    names = [f"frame-{number}" for number in range(len(lot.runs))]
    for name, run in zip(names, lot.runs):
        write(os.path.join(folder, name), run.frame)
    done = subprocess.run([program, "frames", "--board", "rom", *names, *options], cwd=folder, capture_output=True, text=True, check=False)
    told = done.stdout.splitlines()
    if done.returncode > 1 or len(told) != len(names):
        raise SystemExit(f"FAILED: frames --board: status {done.returncode}: {done.stdout[:300]}{done.stderr[:300]}")
    return [re.sub(r" shapes=\d+", "", line.partition(": ")[2]) for line in told]


# ---- the two compared

class Counts:
    def __init__(self):
        self.accepted = self.refused = self.other = self.four_deep = self.instructions = self.strokes = self.differ = 0

    def differs(self, lot, run, line, emulated):
        self.differ += 1
        if self.differ <= FEW:
            print(f"FAILED: the program says '{line}', the emulator shows '{emulated}'")
        if self.differ == 1:
            print(f"with --window {spelled(lot.window)}, of the frame {as_bytes(run.frame).hex()}, "
                  f"over the ROM {as_bytes(lot.rom).hex()}")

    def compare(self, lot, run, line, seen):
        lit = strokes(seen)
        emulated = shown(seen, lit, lot.window)
        self.accepted += line.startswith("accepted")
        self.refused += line.startswith("refused 46 frame")
        self.four_deep += line.endswith("depth=4")
        if not line.startswith(("accepted", "refused 46 frame")):
            self.other += 1
            return
        self.instructions += len(seen.items) - 1
        self.strokes += len(lit)
        if line != emulated:
            self.differs(lot, run, line, emulated)

    def report(self):
        compared = self.accepted + self.refused
        print(f"frames: {compared} compared, {self.differ} differ: {self.accepted} accepted, {self.four_deep} of them four deep, "
              f"{self.refused} refused with 46; {self.instructions} instructions, {self.strokes} lit strokes; "
              f"{self.other} with other answers")
        few = min(self.accepted, self.refused) < compared / 4 or self.four_deep < compared / 50 or self.other > compared / 10
        if few:
            print("FAILED: too few of a kind")
        return 1 if few or self.differ else 0


def main(program, folder, examples):
    lots = all_lots(examples)
    runs = emulate(os.path.join(folder, "frames"), [(lot.rom, lot.runs) for lot in lots])
    counts = Counts()
    for lot in lots:
        for run, line in zip(lot.runs, lines(program, folder, lot, ["--window", spelled(lot.window)])):
            counts.compare(lot, run, line, next(runs))
    return counts.report()


if __name__ == "__main__":
    sys.exit(main(*sys.argv[1:]))
