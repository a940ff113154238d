"""Plays a game of landing over examples/homebrew.rom, as its recipe examples/lander.recipe describes it, and notes each frame as game.py
does: lander.py COUNT

The hills are one chain of draws from edge to edge, which the game keeps in bounds; each landing has new ones.
"""

import sys

from parts import HALT, Chance, Memory, Thing, call, draw, labs, note, turn_back

SEED = 62
SHIP, SHIP_WITH_FLAME = 0x800, 0x80D
HILLS, WIDTH, LOWEST, HIGHEST, STEEPEST = 85, 12, 80, 320, 60
FULL = 200


class Game:
    def __init__(self):
        self.chance, self.memory = Chance(SEED), Memory()
        self.begin()

    def begin(self):
        self.first = height = self.chance.between(LOWEST, HIGHEST)
        self.steps = []
        for _ in range(HILLS):
            step = self.chance.between(max(-STEEPEST, LOWEST - height), min(STEEPEST, HIGHEST - height))
            self.steps.append(step)
            height += step
        self.ship, self.fuel = Thing(self.chance.between(18, 1005), 995, self.chance.between(-5, 5), 0), FULL

    def step(self):
        """The ship falls, or rises while it has fuel, and is kept on the screen."""
        self.has_flame = self.fuel > 0 and self.chance.one_in(3)
        self.fuel -= self.has_flame
        self.ship.up = max(-6, self.ship.up + (1 if self.has_flame else -1))
        turn_back(self.ship, 18, 1005, 40, 995)
        if self.ship.y == 40:
            self.begin()

    def frame(self):
        words = labs(0, self.first, 0)
        for step in self.steps:
            words += draw(WIDTH, step, 7)
        words += labs(self.ship.x, self.ship.y, 1) + call(SHIP_WITH_FLAME if self.has_flame else SHIP)
        words += labs(20, 1000, 0) + draw(self.fuel, 0, 12)
        return self.memory.show(1, [*words, HALT])


def play(count):
    game = Game()
    for _ in range(count):
        game.step()
        yield game.frame()


if __name__ == "__main__":
    note(play(int(sys.argv[1])))
