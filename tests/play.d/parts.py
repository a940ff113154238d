"""What the simulated games of this folder share: chance, things that move, words of lists, and how frames are noted."""

import os
import random
import struct
import sys
from dataclasses import dataclass

PLACES = 1024
HALT, DOT = 0xB000, (0x9000, 0xF000)


class Chance:
    """Random numbers that are the same in all versions of Python. PLAY_SEED in the environment gives another game."""

    def __init__(self, seed):
        self.next = random.Random(int(os.environ.get("PLAY_SEED", seed))).random

    def below(self, end):
        return int(self.next() * end)

    def one_in(self, times):
        return self.below(times) == 0

    def between(self, least, most):
        return least + self.below(most - least + 1)


@dataclass
class Thing:
    x: int
    y: int
    across: int
    up: int
    left: int = 0       # of a shot, for how many frames it flies
    size: int = 0       # the global scale
    shape: int = 0

    def drift(self):
        self.x, self.y = self.x + self.across, self.y + self.up

    def wrap(self):
        self.x, self.y = self.x % PLACES, self.y % PLACES


def turn_back(thing, left, right, bottom, top):
    """A step that ends within these bounds."""
    thing.drift()
    if not left <= thing.x <= right:
        thing.x, thing.across = min(max(thing.x, left), right), -thing.across
    if not bottom <= thing.y <= top:
        thing.y, thing.up = min(max(thing.y, bottom), top), -thing.up


# ---- words

def labs(x, y, scale):
    return [0xA000 | y & 0xFFF, scale << 12 | x & 0xFFF]


def call(address):
    return [0xC000 | address]


def sized(size):
    return abs(size) | (0x400 if size < 0 else 0)


def draw(x, y, intensity):
    """A VCTR of whole places at global scale 0."""
    return [0x9000 | sized(y), intensity << 12 | sized(x)]


def dark_move(x, y):
    return draw(x, y, 0)


# ---- frames, each of them the whole of vector RAM

class Memory:
    """Vector RAM. What was there before stays in it."""

    def __init__(self):
        self.words = [0] * 1024

    def show(self, first, words):
        """A list from word `first` on, to which word 000 jumps."""
        self.words[first:first + len(words)] = words
        self.words[0] = 0xE000 | first
        return struct.pack("<1024H", *self.words)


def note(frames):
    """Each frame as a record of 2048 bytes on standard output."""
    for frame in frames:
        sys.stdout.buffer.write(frame)
