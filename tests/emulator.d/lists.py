"""Random ROMs of small shapes, and random lists over them that are hard to judge: near the edges, with many draws after one LABS,
with calls four deep, at scales that wrap, from places off the screen. Each list halts."""

import random
from typing import NamedTuple

from words import HALT, RETURN, call, jump, labs, short_vector, vector

FIRST = 0x800
FINE = 512              # parts of a place: no draw moves by a finer part
FACTORS = range(10)     # effective scales at which a draw moves


class Chance:
    def __init__(self, seed):
        self.next = random.Random(seed).random      # which is the same in all versions of Python

    def between(self, least, most):
        return least + int(self.next() * (most - least + 1))

    def one_in(self, times):
        return self.between(1, times) == 1

    def one_of(self, options):
        return options[self.between(0, len(options) - 1)]

    def intensity(self):
        return 0 if self.one_in(3) else self.between(1, 15)


class Window(NamedTuple):
    left: int = 0
    right: int = 1023
    bottom: int = 0
    top: int = 1023

    def has(self, place):
        return self.left <= place[0] <= self.right and self.bottom <= place[1] <= self.top


def some_window(chance):
    if chance.one_in(2):
        return Window()
    if chance.one_in(2):
        return Window(0, 1023, 128, 895)
    return Window(chance.between(0, 60), chance.between(960, 1023), chance.between(0, 200), chance.between(800, 1023))


# ---- ROMs

class Rom(NamedTuple):
    words: list
    levels: list        # the addresses of the shapes whose calls go so deep


def small_draw(chance):
    """A draw of a shape: some places at global scale 0."""
    if chance.one_in(2):
        return short_vector(chance.between(0, 1), chance.between(0, 7), chance.between(0, 7), chance.intensity())
    scale = chance.between(0, 9)
    most = min(1023, 8 << 9 - scale)
    y, x = (chance.between(0, most) | chance.between(0, 1) << 10 for _ in range(2))
    return vector(scale, y, x, chance.intensity(), chance.between(0, 3))


def shape(chance, levels, level):
    words = []
    if level == 0 and chance.one_in(15):
        words += labs(chance.between(300, 700), chance.between(300, 700), chance.between(0, 2))
    for _ in range(chance.between(1, 4)):
        words += small_draw(chance)
    if level:
        words += call(chance.one_of(levels[level - 1]))
        if chance.one_in(2):
            words += small_draw(chance)
            words += call(chance.one_of(levels[chance.between(0, level - 1)]))
        if chance.one_in(4):
            return words + jump(chance.one_of(levels[chance.between(0, level - 1)]))
    return words + [RETURN | chance.between(0, 0xFFF)]


def some_rom(chance):
    rom = Rom([], [[], [], [], []])
    for level, count in enumerate((24, 12, 8, 6)):
        for _ in range(count):
            rom.levels[level].append(FIRST + len(rom.words))
            rom.words.extend(shape(chance, rom.levels, level))
    return rom


# ---- lists

def towards(way, scale):
    """The signed size that goes this way, in fine parts, as far as a draw of this effective scale can, without going past it."""
    return min(1023, abs(way) >> scale) | (0x400 if way < 0 else 0)


class Author:
    """Writes a list, and keeps count of where the beam is by exact fractions, as an author may who knows nothing of rounding."""

    def __init__(self, chance, rom, window):
        self.chance, self.rom, self.window = chance, rom, window
        self.words, self.scale, self.x, self.y = [], 0, 0, 0

    def labs(self, x, y, scale):
        self.words += labs(x, y, scale)
        self.scale, self.x, self.y = scale, x * FINE, y * FINE

    def moved(self, scale, y, x, is_down, is_left):
        """A draw of these sizes at an effective scale was written."""
        if scale in FACTORS:
            self.x += (x << scale) * (-1 if is_left else 1)
            self.y += (y << scale) * (-1 if is_down else 1)

    def draw(self, scale, y, x, intensity):
        """A VCTR of these signed sizes at an effective scale."""
        self.words += vector((scale - self.scale) % 16, y, x, intensity, self.chance.between(0, 3))
        self.moved(scale, y & 0x3FF, x & 0x3FF, y & 0x400, x & 0x400)

    def scales(self):
        """The effective scales that a VCTR can have now, and at which it moves."""
        return [scale for scale in FACTORS if (scale - self.scale) % 16 < 10]

    def go(self, x, y, intensity):
        """A draw to about this place, in fine parts."""
        across, up = x - self.x, y - self.y
        far = [scale for scale in self.scales() if max(abs(across), abs(up)) >> scale < 1024]
        scale = self.chance.one_of(far) if far else max(self.scales(), default=None)
        if scale is not None:
            self.draw(scale, towards(up, scale), towards(across, scale), intensity)

    def go_short(self):
        """An SVEC, inward on each axis."""
        code, y, x = (self.chance.between(0, 3) for _ in range(3))
        left, right, bottom, top = self.window
        is_left, is_down = 2 * self.x > (left + right) * FINE, 2 * self.y > (bottom + top) * FINE
        self.words += short_vector(code, y | is_down << 2, x | is_left << 2, self.chance.intensity())
        self.moved((2 + code + self.scale) % 16, 256 * y, 256 * x, is_down, is_left)

    def go_far(self, x, y):
        """Dark draws of whole places to this place."""
        while 9 in self.scales() and (abs(x - self.x // FINE) > 1 or abs(y - self.y // FINE) > 1):
            self.draw(9, towards(y * FINE - self.y, 9), towards(x * FINE - self.x, 9), 0)

    def near(self, least, most, reach):
        """A coordinate between these places, within the reach of one of them, in fine parts."""
        inward = self.chance.between(0, reach * FINE)
        return least * FINE + inward if self.chance.one_in(2) else most * FINE - inward

    def anywhere(self, least, most):
        return self.chance.between(least * FINE, most * FINE)

    def some_place(self, reach):
        """A place in the window that is near an edge, mostly near one alone, in fine parts."""
        left, right, bottom, top = self.window
        if self.chance.one_in(2):
            return self.near(left, right, reach), self.anywhere(bottom, top)
        if self.chance.one_in(4):
            return self.near(left, right, reach), self.near(bottom, top, reach)
        return self.anywhere(left, right), self.near(bottom, top, reach)

    def near_by(self, most, times):
        """A place that is at most so far from here on each axis; one in so many may be outside the window."""
        left, right, bottom, top = self.window
        step = most * FINE
        x, y = self.x + self.chance.between(-step, step), self.y + self.chance.between(-step, step)
        if self.chance.one_in(times):
            return x, y
        return min(max(x, left * FINE), right * FINE), min(max(y, bottom * FINE), top * FINE)

    def step(self, most, times):
        if self.chance.one_in(15):
            self.go_short()
        else:
            self.go(*self.near_by(most, times), self.chance.intensity())

    # the parts of a list, each of which begins with a LABS

    def parts(self):
        return self.edges, self.long, self.calls, self.calls, self.wraps, self.away, self.around

    def edges(self):
        for _ in range(self.chance.between(2, 8)):
            x, y = self.some_place(20)
            self.labs(x // FINE, y // FINE, self.chance.one_of((0, 0, 1, 2, 14, 15)))
            for _ in range(self.chance.between(1, 6)):
                self.step(40, 60)

    def long(self):
        """Many draws after one LABS."""
        x, y = self.some_place(self.chance.one_of((3, 20, 100)))
        self.labs(x // FINE, y // FINE, self.chance.one_of((0, 0, 1, 2, 13, 15)))
        most = self.chance.one_of((2, 5, 15, 60))
        for _ in range(self.chance.between(30, (1000 - len(self.words)) // 2)):
            self.step(most, 5000)

    def calls(self):
        reach = self.chance.one_of((20, 100, 300))
        for _ in range(self.chance.between(1, 5)):
            x, y = self.some_place(reach)
            x = min(max(x, (self.window.left + reach // 3) * FINE), (self.window.right - reach // 3) * FINE)
            self.labs(x // FINE, y // FINE, self.chance.one_of((0, 0, 0, 1, 2, 12, 13, 14, 15)))
            for _ in range(self.chance.between(1, 3)):
                self.words += call(self.chance.one_of(self.rom.levels[self.chance.between(0, 3)]))

    def wraps(self):
        """Draws whose two scales add up to 10 or more."""
        x, y = self.some_place(60)
        self.labs(x // FINE, y // FINE, self.chance.between(6, 15))
        for _ in range(self.chance.between(5, 40)):
            local = self.chance.between(0, 9)
            scale = (local + self.scale) % 16
            if scale in FACTORS:
                self.step(20, 200)
            else:
                y, x = (self.chance.between(0, 2047) for _ in range(2))
                self.draw(scale, y, x, self.chance.intensity())

    def away(self):
        """A LABS off the screen, and a dark way back."""
        outside = self.chance.one_of((self.chance.between(-2048, -1), self.chance.between(1024, 2047)))
        other = self.chance.between(-2048, 2047)
        x, y = (outside, other) if self.chance.one_in(2) else (other, outside)
        self.labs(x, y, self.chance.one_of((0, 1, 15)))
        if self.chance.one_in(20):
            self.go(self.x + FINE, self.y, 7)
        self.come_back()

    def around(self):
        """Dark draws so far that the counters wrap, and back."""
        x, y = self.some_place(100)
        self.labs(x // FINE, y // FINE, self.chance.one_of((0, 2)))
        self.go_far(self.chance.one_of((-5000, 500, 6000)), self.chance.one_of((-7000, 500, 4000)))
        self.come_back()

    def come_back(self):
        x, y = self.some_place(60)
        self.go_far(x // FINE, y // FINE)
        for _ in range(self.chance.between(1, 20)):
            self.step(20, 100)

    # what stands before and between them

    def dark_begin(self):
        """Dark draws at whatever place and scale the beam has."""
        for _ in range(self.chance.between(1, 3)):
            y, x = (self.chance.between(0, 2047) for _ in range(2))
            self.words += vector(self.chance.between(0, 9), y, x, 0)

    def jump_over(self):
        """A jump over words that are no part of the list."""
        count = self.chance.between(1, 4)
        self.words += jump(len(self.words) + 1 + count)
        self.words += [self.chance.between(0, 0xFFFF) for _ in range(count)]

    def write(self):
        if self.chance.one_in(4):
            self.dark_begin()
        for _ in range(self.chance.between(1, 3)):
            if self.chance.one_in(6):
                self.jump_over()
            self.chance.one_of(self.parts())()
            if len(self.words) > 300:
                break
        return self.words + [HALT | self.chance.between(0, 0xFFF)]


def some_list(chance, rom, window):
    return Author(chance, rom, window).write()
