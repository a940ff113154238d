"""Random ROMs of a dozen small shapes, some of which can't be called, and random recipes over them with so few members that all can be
written out. Most of what a recipe lights is near an edge of the window, so that answers fall either way."""

import random
from typing import NamedTuple

from items import labs_words, moved, svec_words, vctr_words, words_of
from members import count
from texts import read

FIRST = 0x800
MOST_MEMBERS = 300
HALT, RETURN = 0xB000, 0xD000
SCREEN, ZONE = (0, 1023, 0, 1023), (-1024, 2047, -1024, 2047)
WINDOWS = (SCREEN, (100, 300, 128, 895), (500, 520, 500, 530), (0, 1023, 128, 895))
SCALES = (0, 0, 1, 2, 3, 7, 13, 14, 15)     # global ones
LOCAL_SCALES = (9, 9, 8, 7, 5, 3, 0)


class Chance:
    def __init__(self, seed):
        self.next = random.Random(seed).random      # which is the same in all versions of Python

    def between(self, least, most):
        return least + int(self.next() * (most - least + 1))

    def one_in(self, times):
        return self.between(1, times) == 1

    def one_of(self, options):
        return options[self.between(0, len(options) - 1)]

    def bright(self):
        return self.one_of((0, 7))


# ---- ROMs

class Rom(NamedTuple):
    words: list
    shapes: list        # where each begins

    def map(self):
        return f"{FIRST:03X}/{FIRST + len(self.words) - 1:03X}"


def small_draw(chance):
    if chance.one_in(2):
        return svec_words(chance.between(0, 3), chance.between(-3, 3), chance.between(-3, 3), chance.bright())
    return vctr_words(chance.one_of(LOCAL_SCALES), chance.between(-64, 64), chance.between(-64, 64), chance.bright())


def step(chance, below, here):
    """A draw, or a call: mostly of a shape above in the ROM, and now and then of the shape that it is in."""
    if not below or not chance.one_in(4):
        return small_draw(chance)
    return words_of(("jsrl", here if chance.one_in(60) else chance.one_of(below[-3:] if chance.one_in(2) else below)))


def ending(chance, below, is_wild):
    if is_wild and chance.one_in(4):
        return [chance.one_of((HALT, 0xCFFF, 0xC005))]
    if below and chance.one_in(4):
        return words_of(("jmpl", chance.one_of(below)))
    return [RETURN | chance.between(0, 0xFFF)]


def shape(chance, below, here, is_wild):
    words = labs_words(chance.one_of((0, 5, 500, 1000, 1023)), chance.between(0, 1023), chance.between(0, 15)) if chance.one_in(8) else []
    for _ in range(chance.between(0, 4)):
        words += step(chance, below, here)
    return words + ending(chance, below, is_wild)


def small_rom(chance):
    rom, is_wild = Rom([], []), chance.one_in(4)
    for _ in range(chance.between(6, 12)):
        here = FIRST + len(rom.words)
        rom.words.extend(shape(chance, rom.shapes, here, is_wild))
        rom.shapes.append(here)
    return rom


def long_rom():
    """A shape of under 1,000,000 words, which calls three deep, and one of more."""
    rom, draw = Rom([], []), [0, 0]
    rom.words.extend(draw * 480 + [RETURN])
    rom.shapes.append(FIRST)
    for calls in (10, 10, 10):
        rom.shapes.append(FIRST + len(rom.words))
        rom.words.extend([0xC000 | rom.shapes[-2]] * calls + [RETURN])
    rom.shapes.append(FIRST + len(rom.words))
    rom.words.extend([0xC000 | rom.shapes[2]] * 12 + [RETURN])
    return rom


def some_rom(chance):
    return long_rom() if chance.one_in(40) else small_rom(chance)


class Asked(NamedTuple):
    """What is asked of the frames: the place that may be lit, and the options that say so."""
    window: tuple
    options: list


def some_window(chance):
    if chance.one_in(4):
        return Asked(ZONE, ["--clip"])
    window = chance.one_of(WINDOWS)
    return Asked(window, [] if window == SCREEN else ["--window", ",".join(map(str, window))])


def some_question(chance):
    asked = some_window(chance)
    budget = chance.one_of((5, 8, 12, 20, 40, 980, 1_000_000))
    return asked._replace(options=[*asked.options, "--budget", str(budget)]) if chance.one_in(4) else asked


# ---- recipes

class Author:
    """Writes a recipe, line by line."""

    def __init__(self, chance, rom, window):
        self.chance, self.rom, self.window = chance, rom, window
        self.lines, self.deep, self.names = ["dvgrecipe 1"], 0, []
        self.at, self.scale = (0, 0), 0     # where the beam may be: where the last draw or place leads

    def put(self, *words):
        if self.chance.one_in(40):
            self.lines.append(self.chance.one_of(("", "  ", "; halt", "   ;")))
        self.lines.append("  " * self.deep + " ".join(map(str, words)))

    def span(self, low, high, middle, widths=(0, 0, 1, 2)):
        least = max(low, min(high, middle))
        return least, min(high, least + self.chance.one_of(widths))

    def near(self, axis):
        """A place near an edge of the window."""
        low, high = self.window[2 * axis:2 * axis + 2]
        inward = self.chance.between(-2, self.chance.one_of((3, 40)))
        return min(2047, self.chance.one_of((low + inward, high - inward, self.chance.between(low, high))))

    # ---- lines of one item each, or some

    def place(self):
        sides = [side for axis in (0, 1) for side in self.span(-2048, 2047, self.near(axis))]
        scales = {self.chance.one_of(SCALES) for _ in range(self.chance.one_of((1, 1, 2)))}
        self.put("place", *sides, "scale", *sorted(scales))
        self.at, self.scale = (sides[0], sides[2]), min(scales)

    def target(self):
        if self.chance.one_in(60):
            return f"{self.chance.one_of((5, 0xFFF, FIRST + self.chance.between(0, len(self.rom.words)))):03X}"
        if self.names and self.chance.one_in(3):
            return self.chance.one_of(self.names)
        return f"{self.chance.one_of(self.rom.shapes):03X}"

    def call(self):
        self.put("call", *(self.target() for _ in range(self.chance.one_of((1, 1, 2, 3)))))

    def bright(self):
        return self.span(0, 15, self.chance.one_of((0, 0, 7)), (0, 0, 1))

    def bound(self, axis, low, high):
        """A bound that leaves all or most of these moves, or now and then none."""
        inward = (-300, -300, -300, -20, -3, 0, 1)
        least = max(-2048, min(2047, self.at[axis] + low + self.chance.one_of(inward)))
        return least, max(least, min(2047, self.at[axis] + high - self.chance.one_of(inward)))

    def to(self, local, x, y):
        """Where such draws have to lead."""
        moves = [[moved(size, (local + self.scale) % 16) for size in sizes] for sizes in (x, y)]
        bounds = [self.bound(axis, *moves[axis]) for axis in (0, 1)]
        self.at = tuple(max(least, at + low) for at, (low, _), (least, _) in zip(self.at, moves, bounds))
        return "to", *bounds[0], *bounds[1]

    def vctr(self):
        most, local = self.chance.one_of((3, 3, 40, 200)), self.chance.one_of(LOCAL_SCALES)
        x, y = (self.span(-1023, 1023, self.chance.between(-most, most), (0, 0, 1, 2, 3)) for _ in "xy")
        to = self.to(local, x, y) if self.chance.one_in(2) else ()
        self.put("vctr", local, "x", *x, "y", *y, "bright", *self.bright(), *to)

    def svec(self):
        x, y = (self.span(-3, 3, self.chance.between(-3, 3)) for _ in "xy")
        self.put("svec", self.chance.between(0, 3), "x", *x, "y", *y, "bright", *self.bright())

    def fixed_item(self):
        if self.chance.one_in(4):
            return labs_words(self.near(0), self.near(1), self.chance.one_of(SCALES))
        if self.chance.one_in(3):
            return words_of(("jsrl", self.chance.one_of(self.rom.shapes)))
        words = small_draw(self.chance)
        return [word | 0x800 for word in words] if len(words) == 2 and self.chance.one_in(3) else words

    def fixed(self):
        words = sum((self.fixed_item() for _ in range(self.chance.between(1, 3))), [])
        self.put("words", *(f"{word:04X}" for word in words))

    # ---- blocks

    def block(self, *words):
        self.put(*words)
        self.deep += 1

    def end(self, word="end"):
        self.deep -= 1
        self.put(word)

    def either(self, left):
        self.block("either")
        self.parts(left, (1, 1, 2))
        for _ in range(self.chance.one_of((0, 1, 1, 2))):
            self.end("or")
            self.deep += 1
            self.parts(left, (1, 1, 2))
        self.end()

    def repeat(self, left):
        most = self.chance.one_of((1, 1, 2, 3))
        self.block("repeat", self.chance.between(0, most), most)
        self.parts(left, (1, 1, 2))
        self.end()

    def some_turns(self):
        """From near an edge so many turns of what follows."""
        x, y = self.at = tuple(self.near(axis) for axis in (0, 1))
        self.scale = self.chance.one_of((0, 0, 0, 15))
        self.put("place", x, x, y, y, "scale", self.scale)
        least = self.chance.between(0, 2)
        self.block("repeat", least, self.chance.between(max(1, least), 4))

    def dot(self):
        self.end()
        self.put("vctr 9 x 0 0 y 0 0 bright 7 7")

    def steps(self):
        """From near an edge some dark steps to or fro, and a dot."""
        self.some_turns()
        across, up = self.chance.one_of(((7, 0), (-7, 0), (0, 7), (0, -7)))
        self.put("vctr", 9, "x", across, across, "y", up, up, "bright", 0, 0)
        self.dot()

    def around(self, at):
        return max(-2048, at - self.chance.one_of((0, 1, 2, 300))), min(2047, at + self.chance.one_of((0, 1, 2, 300)))

    def chain(self):
        """From near an edge some draws to or fro, each of which has to lead to near it, and a dot."""
        self.some_turns()
        sizes, local, bright = self.chance.one_of(((-1, 1), (0, 1), (-2, 1), (3, 4))), self.chance.one_of((9, 9, 8)), self.chance.bright()
        across, up = self.chance.one_of(((sizes, (0, 0)), ((0, 0), sizes)))
        sides = [side for at in self.at for side in self.around(at)]
        self.put("vctr", local, "x", *across, "y", *up, "bright", bright, bright, "to", *sides)
        self.dot()

    def part(self, left):
        if left and self.chance.one_in(3):
            self.chance.one_of((self.either, self.repeat))(left - 1)
        elif left and self.chance.one_in(6):
            self.chance.one_of((self.steps, self.chain))()
        else:
            self.chance.one_of((self.place, self.place, self.call, self.call, self.call, self.vctr, self.svec, self.fixed))()

    def parts(self, left, counts):
        """Some parts, in which blocks stand so deep at most."""
        for _ in range(self.chance.one_of(counts)):
            self.part(left)

    # ---- the whole

    def areas(self):
        """Of one list or two: the whole of vector RAM or a part, the halves, short ones."""
        first, last = self.chance.one_of((0, 0, 1, 5)), self.chance.between(6, 40)
        return self.chance.one_of((
            [(0, 0x3FF)], [(1, 0x3FF)], [(1, 0x1FF), (0x201, 0x3FF)], [(first, last)], [(first, last)],
            [(first, last), (last + self.chance.between(1, 9), 0x300)],
        ))

    def jump(self, end):
        first = self.chance.between(end + 1, min(0x3F8, end + 200))
        last = min(0x3FF, first + self.chance.one_of((2, 6, 20, 0x3FF)))
        self.put("jump", f"{first:03X}", f"{last:03X}")
        self.parts(1, (0, 1, 2))
        return last

    def beginning(self):
        """Mostly a place, as games do; now and then none, or perhaps one."""
        if self.chance.one_in(8):
            self.block("repeat", 0, 1)
            self.place()
            self.end()
        elif not self.chance.one_in(8):
            self.place()

    def recipe(self):
        areas = self.areas()
        for first, last in areas:
            self.put("list", f"{first:03X}", f"{last:03X}")
        if self.chance.one_in(5):
            self.put("shapes SOME", *(f"{self.chance.one_of(self.rom.shapes):03X}" for _ in range(2)))
            self.names.append("SOME")
        self.beginning()
        self.parts(2, (1, 2, 3, 4))
        end = areas[-1][1]
        while end < 0x3F0 and self.chance.one_in(5):
            end = self.jump(end)
        self.put("halt")
        return "\n".join(self.lines) + "\n"


def some_recipe(chance, rom, window):
    """The text of a recipe of few members, and what it says."""
    while True:
        text = Author(chance, rom, window).recipe()
        recipe = read(text)
        if len(recipe.lists) * count(recipe.body) <= MOST_MEMBERS:
            return text, recipe
