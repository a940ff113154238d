"""Plays a game of defence over examples/arcade.rom, and notes each frame as game.py does: defence.py COUNT

Missiles fall on six bases, and shots go up to meet them, both with trails that grow. A trail has the least local scale at which its sizes
are within 1,023, which takes the least time. The hills are SVECs, new in each wave. tools/learn was not tuned on it.
"""

import sys

from game import DIGITS, ROCKS, SAUCER, SHIPS, SPACE
from parts import DOT, HALT, Chance, Memory, Thing, call, draw, labs, note

SEED = 63
LETTERS = (0x800, 0x808, 0x815, 0x81B, 0x823, 0x82B, 0x832, 0x83B, 0x842, 0x849, 0x84F, 0x855, 0x85A,
           0x860, 0x865, 0x86B, 0x872, 0x87B, 0x883, 0x88A, 0x890, 0x896, 0x89B, 0x8A2, 0x8A7, 0x8AE)
BASES = (144, 288, 432, 576, 720, 864)      # where they stand across
STROKES, STEP, LOWEST, HIGHEST = 21, 16, 32, 160
TOP, FULL, BURNING = 940, 300, 24
MOST_MISSILES, MOST_SHOTS = 8, 3
TEXT = {**{chr(ord("A") + index): shape for index, shape in enumerate(LETTERS)}, **dict(zip("0123456789", DIGITS)), " ": SPACE}


def text(x, y, scale, told):
    words = labs(x, y, scale)
    for letter in told:
        words += call(TEXT[letter])
    return words


def hill(steps):
    """An SVEC of scale code 3, which goes three steps to the right."""
    return [0xF808 | abs(steps) << 8 | (0x400 if steps < 0 else 0) | 7 << 4 | 3]


def trail(x, y, intensity):
    scale = 9
    while scale and 2 * max(abs(x), abs(y)) < 1024:
        scale, x, y = scale - 1, 2 * x, 2 * y
    first, second = draw(x, y, intensity)
    return [first & 0xFFF | scale << 12, second]


class Flight:
    """From a place to another one in so many frames."""

    def __init__(self, start, goal, frames):
        self.start, self.goal, self.frames, self.flown = start, goal, frames, 0

    def place(self):
        return tuple(at + (to - at) * self.flown // self.frames for at, to in zip(self.start, self.goal))

    def is_there(self):
        return self.flown >= self.frames

    def words(self, intensity):
        (x, y), (from_x, from_y) = self.place(), self.start
        return [*labs(from_x, from_y, 0), *trail(x - from_x, y - from_y, intensity), *DOT]


class Game:
    def __init__(self):
        self.chance, self.memory, self.frames = Chance(SEED), Memory(), 0
        self.over = 0
        self.begin()

    def begin(self):
        self.score, self.wave, self.alive = 0, 0, set(range(len(BASES)))
        self.begin_wave()

    def begin_wave(self):
        self.wave, self.fuel, self.left = self.wave + 1, FULL, 10 + 2 * self.wave
        self.missiles, self.shots, self.fires, self.saucer, self.wait = [], [], [], None, 90
        self.first = height = STEP * self.chance.between(LOWEST // STEP, HIGHEST // STEP)
        self.steps, self.heights = [], [height]
        for _ in range(STROKES):
            steps = self.chance.between(max(-3, (LOWEST - height) // STEP), min(3, (HIGHEST - height) // STEP))
            height += steps * STEP
            self.steps.append(steps)
            self.heights.append(height)

    def base_place(self, base):
        return BASES[base], self.heights[BASES[base] // 48]

    # ---- a step

    def step(self):
        self.frames += 1
        if self.over:
            self.over -= 1
            if not self.over:
                self.begin()
            return
        self.wait = max(0, self.wait - 1)
        if not self.wait:
            self.attack()
            self.defend()
            self.cross()
        self.burn()
        if not self.alive:
            self.over = 200
        elif not (self.left or self.missiles or self.shots or self.fires):
            self.begin_wave()

    def attack(self):
        if self.left and len(self.missiles) < MOST_MISSILES and self.chance.one_in(30):
            self.left -= 1
            goal = self.base_place(self.chance.below(len(BASES)))
            self.missiles.append(Flight((self.chance.below(1024), TOP), goal, self.chance.between(120, 260)))
        for missile in self.missiles:
            missile.flown += 1
            if missile.is_there():
                self.fires.append((missile.place(), BURNING))
                self.alive -= {base for base in self.alive if self.base_place(base) == missile.goal}
        self.missiles = [missile for missile in self.missiles if not missile.is_there()]

    def defend(self):
        if self.missiles and self.alive and self.fuel and len(self.shots) < MOST_SHOTS and self.chance.one_in(25):
            self.fuel -= 5
            aim = self.chance.between
            x, y = self.missiles[self.chance.below(len(self.missiles))].place()
            goal = min(max(x + aim(-40, 40), 0), 1023), min(max(y - aim(0, 80), 200), TOP)
            bases = sorted(self.alive)
            self.shots.append(Flight(self.base_place(bases[self.chance.below(len(bases))]), goal, aim(15, 40)))
        for shot in self.shots:
            shot.flown += 1
            if shot.is_there():
                self.fires.append((shot.place(), BURNING))
        self.shots = [shot for shot in self.shots if not shot.is_there()]

    def cross(self):
        """A saucer crosses the sky now and then."""
        if self.saucer is None and self.chance.one_in(400):
            self.saucer = Thing(0, self.chance.between(700, 900), 5, 0)
        elif self.saucer:
            self.saucer.drift()
            self.saucer = self.saucer if self.saucer.x < 1024 else None

    def burn(self):
        """A fire takes the missiles that are near."""
        for (x, y), _ in self.fires:
            near = [missile for missile in self.missiles if max(abs(missile.place()[0] - x), abs(missile.place()[1] - y)) < 40]
            self.score += 25 * len(near)
            self.missiles = [missile for missile in self.missiles if missile not in near]
        self.fires = [(place, left - 1) for place, left in self.fires if left > 1]

    # ---- its list

    def hills(self):
        return [*labs(0, self.first, 0), *(word for steps in self.steps for word in hill(steps))]

    def list_words(self):
        words = text(24, 990, 1, f"SCORE {self.score}") + text(700, 990, 1, f"FUEL {self.fuel:3}") + self.hills()
        for base in sorted(self.alive):
            words += labs(*self.base_place(base), 1) + call(SHIPS[0])
        for missile in self.missiles:
            words += missile.words(8)
        for shot in self.shots:
            words += shot.words(12)
        for (x, y), left in self.fires:
            words += labs(x, y, 1 if BURNING // 3 < left <= 2 * BURNING // 3 else 0) + call(ROCKS[left % len(ROCKS)])
        if self.saucer:
            words += labs(self.saucer.x, self.saucer.y, 1) + call(SAUCER)
        if self.over:
            words += text(300, 560, 2, "GAME OVER")
            if self.frames & 16:
                words += text(392, 480, 1, "PUSH START")
        elif self.wait:
            words += text(440, 520, 1, f"WAVE {self.wave}")
        return [*words, HALT]

    def frame(self):
        return self.memory.show(1, self.list_words())


def play(count):
    game = Game()
    for _ in range(count):
        game.step()
        yield game.frame()


if __name__ == "__main__":
    note(play(int(sys.argv[1])))
