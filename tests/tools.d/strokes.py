"""Holds `picture frame --board` to MAME's DVG: strokes.py PICTURE FOLDER EXAMPLES

For frames of examples/ that stay on the screen the picture's strokes, with their intensities, are to be those of the emulator's
picture, one after another. It prints how many strokes were compared.
"""

import os
import re
import subprocess
import sys

sys.path.insert(0, os.path.join(os.path.dirname(os.path.realpath(__file__)), "..", "emulator.d"))
sys.dont_write_bytecode = True
from emulator import Run, emulate       # noqa: E402
from words import as_words              # noqa: E402

FRAMES = (("homebrew", "homebrew"), ("arcade", "game"), ("arcade", "title"), ("arcade", "page"), ("blank", "outline"), ("blank", "margin"))
PATH = re.compile('<path class="(?:lit|dot)" stroke-opacity="([0-9.]+)" d="([^"]*)"/>')
PART = re.compile("([ML])([0-9]+) ([0-9]+)")


def drawn(svg):
    """The strokes of a picture, whose places are whole; an opacity of 0.4 stands for intensity 0, and each one more for 0.04."""
    for opacity, path in PATH.findall(svg):
        parts = PART.findall(path)
        assert "".join(f"{kind}{x} {y}" for kind, x, y in parts) == path, path
        before = None
        for kind, *place in parts:
            place = tuple(map(int, place))
            if kind == "L":
                yield before, place, round((float(opacity) - 0.4) / 0.04)
            before = place


def shown(points):
    """The strokes of the emulator's picture: the beam goes to each point from the one before."""
    return [(before[:2], point[:2], point[2]) for before, point in zip(points, points[1:]) if point[2]]


def read(*name):
    with open(os.path.join(*name), "rb") as file:
        return file.read()


def main(picture, folder, examples):
    batches = [(as_words(read(examples, rom + ".rom")), [Run(as_words(read(examples, frame + ".frame")))]) for rom, frame in FRAMES]
    count = 0
    for (rom, frame), seen in zip(FRAMES, emulate(folder, batches)):
        files = [os.path.join(examples, rom + ".rom"), os.path.join(examples, frame + ".frame")]
        svg = subprocess.run([picture, "frame", "--board", *files], stdout=subprocess.PIPE, check=True).stdout.decode()
        strokes = list(drawn(svg))
        if strokes != shown(seen.points):
            raise SystemExit(f"FAILED: {frame}.frame has other strokes than the emulator's picture")
        count += len(strokes)
    print(f"picture: {count} strokes of {len(FRAMES)} frames are those of the emulator")


main(*sys.argv[1:])
