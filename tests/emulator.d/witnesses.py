"""Recipes that are refused, and the frames that show why: witnesses.py PROGRAM FOLDER EXAMPLES

Each recipe of examples/ is made worse by one line. `recipe` is to refuse it with 46 at the line that is told here, and to write a frame;
`belongs` is to say that it is one of the recipe's, and `frames` to refuse it with 46, at the frame's item in which the emulator shows
the first stroke that leaves the screen, or with --clip the zone that the board clips. Each recipe as it is in examples/ has a frame there
that belongs, and of that one the emulator is to show all on the screen, or in the zone.
"""

import os
import subprocess
import sys
from typing import NamedTuple

from edges import SCREEN, ZONE
from emulator import emulate
from frames import judged, read, started, strokes
from lists import Chance, Window

SEED = 60


class Worse(NamedTuple):
    """A recipe with another line in it."""
    name: str           # of the recipe, and of the frame that belongs
    rom: str
    line: int           # which is another one
    spelled: str
    refused: int        # the line that is refused
    window: Window
    options: tuple


WORSE = (
    Worse("homebrew", "homebrew", 12, "place 31 991 32 991 scale 1", 14, SCREEN, ()),
    Worse("homebrew", "homebrew", 10, "place 64 959 64 960 scale 2", 14, SCREEN, ()),
    Worse("homebrew", "homebrew", 22, "place 0 1024 0 1023 scale 0", 23, SCREEN, ()),
    Worse("text", "arcade", 17, "repeat 1 21", 18, SCREEN, ()),
    Worse("text", "arcade", 23, "place 0 1 0 1000 scale 0", 24, SCREEN, ()),
    Worse("lander", "homebrew", 7, "vctr 9 x 12 12 y -60 60 bright 7 7 to 0 1023 80 1024", 7, SCREEN, ()),
    Worse("lander", "homebrew", 7, "vctr 9 x 12 12 y -60 60 bright 7 7 to 0 1023 -1 320", 7, SCREEN, ()),
    Worse("game", "arcade", 33, "repeat 0 2", 35, ZONE, ("--clip",)),
    Worse("game", "arcade", 31, "place 0 1025 0 1023 scale 0", 35, ZONE, ("--clip",)),
)


class Tried(NamedTuple):
    worse: Worse
    rom: list
    shown: list         # the words of the frame that shows why
    told: str           # what `frames` says of it
    belonging: list     # those of the frame in examples/


def run(program, folder, *words):
    done = subprocess.run([program, *words], cwd=folder, capture_output=True, text=True, check=False)
    return done.stdout + done.stderr


def is_told(told, wanted):
    if told != wanted:
        print(f"FAILED: the program says '{told}', not '{wanted}'")
    return told == wanted


def write_worse(worse, folder, examples):
    with open(os.path.join(examples, worse.name + ".recipe"), encoding="ascii") as file:
        lines = file.read().splitlines()
    lines[worse.line - 1] = worse.spelled
    with open(os.path.join(folder, "worse.recipe"), "w", encoding="ascii") as file:
        file.write("\n".join(lines) + "\n")


def tried(program, folder, examples, worse):
    """What the program says, or None if it is not what it should be."""
    rom = os.path.join(examples, worse.rom + ".rom")
    recipe, frame = (os.path.join(examples, worse.name + ending) for ending in (".recipe", ".frame"))
    write_worse(worse, folder, examples)
    told = run(program, folder, "recipe", rom, "worse.recipe", "-o", "shown", *worse.options)
    if not is_told(told, f"worse.recipe: refused 46 recipe line {worse.refused}\n"):
        return None
    if not is_told(run(program, folder, "belongs", rom, "worse.recipe", "shown"), "shown: belongs\n"):
        return None
    if not is_told(run(program, folder, "belongs", rom, recipe, frame), f"{frame}: belongs\n"):
        return None
    line = run(program, folder, "frames", "--board", rom, "shown", *worse.options).strip()
    return Tried(worse, read(rom), read(os.path.join(folder, "shown")), line.partition(": ")[2], read(frame))


def differs(one, shown, belonging):
    """What is wrong with a frame of a worse recipe, and with one of the recipe, by what the emulator shows of both."""
    window = one.worse.window
    by_emulator = judged(shown, strokes(shown), window)
    if by_emulator != one.told or not one.told.startswith("refused 46"):
        return f"the program says '{one.told}', the emulator shows '{by_emulator}'"
    of_belonging = judged(belonging, strokes(belonging), window)
    return "" if of_belonging.startswith("accepted") else f"of the frame that belongs the emulator shows '{of_belonging}'"


def main(program, folder, examples):
    every = [tried(program, folder, examples, worse) for worse in WORSE]
    some, chance = [one for one in every if one], Chance(SEED)
    batches = [(one.rom, [started(chance, one.shown), started(chance, one.belonging)]) for one in some]
    runs = emulate(os.path.join(folder, "witnesses"), batches)
    found = [(one, differs(one, next(runs), next(runs))) for one in some]
    for one, what in found:
        if what:
            print(f"FAILED: {one.worse.name}.recipe with '{one.worse.spelled}': {what}")
    right = sum(not what for _, what in found)
    print(f"witnesses: {len(every)} recipes made worse, {right} of them shown to leave the screen or the zone")
    return 0 if right == len(every) else 1


if __name__ == "__main__":
    sys.exit(main(*sys.argv[1:]))
