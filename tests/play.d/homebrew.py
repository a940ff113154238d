"""Plays a small game over examples/homebrew.rom, as its recipe examples/homebrew.recipe describes it, and notes each frame as game.py
does: homebrew.py COUNT

It keeps all that it draws on the screen: rocks of two sizes and the ship turn back before their outlines touch an edge.
"""

import sys

from parts import DOT, HALT, Chance, Memory, Thing, call, dark_move, labs, note, turn_back

SEED = 61
ROCK, SHIP, SHIP_WITH_FLAME, TITLE, GROUND = 0x816, 0x800, 0x80D, 0x839, 0x83C
REACH = {1: 32, 2: 64}      # of a rock, by its global scale
MOST_ROCKS, MOST_SHOTS, MOST_SHIPS = 12, 4, 4


class Game:
    def __init__(self):
        self.chance, self.memory = Chance(SEED), Memory()
        self.rocks, self.shots, self.ships = [], [], MOST_SHIPS
        self.ship, self.away = Thing(512, 300, 0, 0), 0

    def speed(self, most):
        return self.chance.between(-most, most)

    def step(self):
        for rock in self.rocks:
            reach = REACH[rock.size]
            turn_back(rock, reach, 1023 - reach, reach, 1023 - reach)
        turn_back(self.ship, 18, 1005, 40, 995)
        self.shots = [shot for shot in self.shots if shot.left]
        for shot in self.shots:
            shot.left -= 1
            turn_back(shot, 0, 1023, 0, 1023)
        self.fly()
        self.change()

    def fly(self):
        if self.chance.one_in(15):
            self.ship.across, self.ship.up = self.speed(8), self.speed(8)
        self.ship.shape = SHIP_WITH_FLAME if self.chance.one_in(3) else SHIP
        if len(self.shots) < MOST_SHOTS and self.chance.one_in(8):
            self.shots.append(Thing(self.ship.x, self.ship.y, self.speed(16), 16, left=30))

    def change(self):
        """Rocks come and go and become smaller, and ships are lost and won."""
        if len(self.rocks) < MOST_ROCKS and self.chance.one_in(25):
            self.rocks.append(Thing(self.chance.between(64, 959), 959, self.speed(6), self.speed(6), size=2))
        if self.rocks and self.chance.one_in(40):
            rock = self.rocks.pop(self.chance.below(len(self.rocks)))
            if rock.size == 2:
                self.rocks.append(Thing(rock.x, rock.y, self.speed(9), self.speed(9), size=1))
        self.away = max(0, self.away - 1)
        if self.chance.one_in(300):
            self.ships, self.away = (self.ships or MOST_SHIPS + 1) - 1, 40

    def frame(self):
        words = call(GROUND) + labs(384, 800, 3) + call(TITLE)
        for rock in self.rocks:
            words += labs(rock.x, rock.y, rock.size) + call(ROCK)
        if not self.away:
            words += labs(self.ship.x, self.ship.y, 1) + call(self.ship.shape)
        for shot in self.shots:
            words += [*labs(shot.x, shot.y, 0), *DOT]
        for number in range(self.ships):
            words += (dark_move(24, 0) if number else labs(32, 960, 0)) + call(SHIP)
        return self.memory.show(1, [*words, HALT])


def play(count):
    game = Game()
    for _ in range(count):
        game.step()
        yield game.frame()


if __name__ == "__main__":
    note(play(int(sys.argv[1])))
