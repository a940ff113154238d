"""Plays a game of rocks over examples/arcade.rom, as its recipe examples/game.recipe describes it, and notes each frame:
game.py COUNT [FAULT], or game.py --faults for the names of the faults that the game may have.

Each frame is a record of 2048 bytes on standard output, the whole of vector RAM. The game has two lists: it writes the one that is not
shown, and then changes the jump in word 000. What was there before stays in RAM. Nobody plays: rocks drift, the ship turns and thrusts,
and shots hit, all by chance, which is the same in each run.
"""

import sys

from parts import DOT, HALT, PLACES, Chance, Memory, Thing, call, dark_move, labs, note

SEED = 60
DIGITS = (0x8B4, 0x8B5, 0x8B9, 0x8C1, 0x8C8, 0x8CF, 0x8D0, 0x8D8, 0x8DD, 0x8E5)
# where a program reads on that takes a digit of 10: the space
PAST_DIGITS = 0x8EC
ROCKS = (0x985, 0x994, 0x9A4)
SHIPS = (0x8FD, 0x904, 0x911, 0x918, 0x925, 0x92C, 0x939, 0x940)
FLAMES = (0x94D, 0x952, 0x95B, 0x960, 0x969, 0x96E, 0x977, 0x97C)
# where each nose points, from up on to the right
NOSES = ((0, 7), (5, 5), (7, 0), (5, -5), (0, -7), (-5, -5), (-7, 0), (-5, 5))
SCORE, HIGH_SCORE, SPACE, SHIP_LEFT, SAUCER, CREDITS = 0x9CA, 0x9CF, 0x8EC, 0x8FD, 0x9B3, 0x9EF
LISTS = (0x001, 0x201)
MOST_ROCKS, MOST_SHIPS, MOST_SHOTS, MOST_SCORE = 27, 5, 4, 1_000_000
LARGE, SMALL = 2, 0     # sizes of rocks are their global scales
POINTS = (1000, 500, 200)
FAULTS = {
    "place": "a rock that drifts off the screen is not brought back at the other edge",
    "size": "a rock of the smallest size splits, too",
    "slots": "a rock splits also where all slots are taken",
    "table": "the ship turns on past its last direction",
    "carry": "a digit of the score comes to 10 before it is carried",
    "score": "the score has no end",
    "ships": "each 5,000 points give a ship, however many there are",
    "halt": "now and then the list has no HALT",
    "early": "now and then the jump to a list is changed when only half of it is written",
    "moves": "a dark move leads to each shot but the first",
}


class Game:
    def __init__(self, fault):
        self.fault, self.chance = fault, Chance(SEED)
        self.memory, self.shown = Memory(), 0
        self.high, self.wave = 0, 0
        self.begin(MOST_SCORE - 8000)

    def begin(self, score):
        """A new game; the first one begins with a score near its end."""
        self.score, self.ships, self.next_ship = score, 3, score + 5000
        self.rocks, self.shots, self.saucer = [], [], None
        self.ship, self.nose, self.is_thrusting, self.away = Thing(512, 512, 0, 0), 0, False, 0

    def some_rock(self, x, y, size):
        return Thing(x, y, self.chance.between(-6, 6), self.chance.between(-6, 6), size=size, shape=self.chance.below(len(ROCKS)))

    def begin_wave(self):
        self.wave += 1
        for _ in range(min(4 + self.wave % 8, 10)):
            self.rocks.append(self.some_rock(self.chance.below(PLACES), 0, LARGE))

    # ---- a step

    def step(self):
        if not self.rocks:
            self.begin_wave()
        self.move_all()
        self.fly()
        if self.shots and self.rocks and self.chance.one_in(4):
            self.hit()
        self.come_and_go()

    def move_all(self):
        for thing in (*self.rocks, *self.shots, self.ship, *filter(None, [self.saucer])):
            thing.drift()
            if self.fault != "place" or thing not in self.rocks:
                thing.wrap()
        for shot in self.shots:
            shot.left -= 1
        self.shots = [shot for shot in self.shots if shot.left]

    def fly(self):
        """The ship turns, thrusts and shoots."""
        if self.chance.one_in(6):
            self.nose += self.chance.between(-1, 2)
            if self.fault != "table":
                self.nose %= len(SHIPS)
        across, up = NOSES[self.nose % len(NOSES)]
        self.is_thrusting = self.chance.one_in(3)
        if self.is_thrusting:
            self.ship.across, self.ship.up = across, up
        if len(self.shots) < MOST_SHOTS and self.chance.one_in(5):
            self.shots.append(Thing(self.ship.x, self.ship.y, 3 * across, 3 * up, left=40))

    def hit(self):
        """A shot hits a rock, which splits in two if there is room."""
        self.shots.pop()
        rock = self.rocks.pop(self.chance.below(len(self.rocks)))
        self.gain(POINTS[max(rock.size, SMALL)])
        if rock.size == SMALL and self.fault != "size":
            return
        for _ in range(2):
            if len(self.rocks) < MOST_ROCKS or self.fault == "slots":
                self.rocks.append(self.some_rock(rock.x, rock.y, rock.size - 1))

    def gain(self, points):
        self.score += points
        if self.score >= self.next_ship:
            self.next_ship += 5000
            self.ships = self.ships + 1 if self.fault == "ships" else min(self.ships + 1, MOST_SHIPS)
        if self.score >= MOST_SCORE and self.fault != "score":
            self.score, self.next_ship = self.score - MOST_SCORE, self.next_ship - MOST_SCORE
        self.high = max(self.high, self.score)

    def come_and_go(self):
        """A saucer comes and goes, new rocks come in, and now and then the ship is lost, or the game."""
        if self.saucer is None and self.chance.one_in(150):
            self.saucer = Thing(0, self.chance.below(PLACES), 4, self.chance.between(-2, 2), size=self.chance.below(2))
        elif self.saucer and self.chance.one_in(200):
            self.saucer = None
        if self.chance.one_in(20) and len(self.rocks) < MOST_ROCKS:
            self.rocks.append(self.some_rock(self.chance.below(PLACES), 1023, LARGE))
        self.away = max(0, self.away - 1)
        if self.chance.one_in(400):
            self.ships, self.away = self.ships - 1, 60
        if self.ships == 0:
            self.begin(0)

    # ---- its list

    def digits(self, number):
        told = [int(digit) for digit in str(number)]
        if self.fault == "carry" and len(told) > 1 and told[-3:-2] == [0] and told[-4:-3] != [0]:
            told[-4], told[-3] = told[-4] - 1, 10
        return [0xC000 | (DIGITS[digit] if digit < 10 else PAST_DIGITS) for digit in told]

    def ship_shape(self):
        """A program reads one table behind the other: the ships, those with a flame, and then words."""
        table = (*SHIPS, *FLAMES, SCORE, HIGH_SCORE)
        return table[(self.nose + self.is_thrusting * len(SHIPS)) % len(table)]

    def shot_words(self):
        """Of two shots the first has a LABS, and a dark move leads to the second."""
        words, before = [], None
        for number, shot in enumerate(self.shots):
            leads = number % 2 == 0 if self.fault != "moves" else number == 0
            words += labs(shot.x, shot.y, 0) if leads else dark_move(shot.x - before.x, shot.y - before.y)
            words += DOT
            before = shot
        return words

    def list_words(self):
        words = labs(48, 976, 1) + call(SCORE) + call(SPACE) + self.digits(self.score)
        words += labs(600, 976, 1) + call(HIGH_SCORE) + call(SPACE) + self.digits(self.high)
        words += labs(52, 940, 0) + call(SHIP_LEFT)
        for _ in range(self.ships - 1):
            words += dark_move(24, 0) + call(SHIP_LEFT)
        for rock in self.rocks:
            words += labs(rock.x, rock.y, rock.size & 15) + call(ROCKS[rock.shape])
        if not self.away:
            words += labs(self.ship.x, self.ship.y, 1) + call(self.ship_shape())
        words += self.shot_words()
        if self.saucer:
            words += labs(self.saucer.x, self.saucer.y, self.saucer.size) + call(SAUCER)
        words += call(CREDITS)
        return words if self.fault == "halt" and self.chance.one_in(20) else [*words, HALT]

    def frame(self):
        """Vector RAM when the list is shown, which is the one that was not shown before."""
        self.shown = 1 - self.shown
        words, first = self.list_words(), LISTS[self.shown]
        if self.fault == "early" and self.chance.one_in(20):
            words = words[:len(words) // 2]
        return self.memory.show(first, words)


def play(count, fault):
    game = Game(fault)
    for _ in range(count):
        game.step()
        yield game.frame()


def main(words):
    if words == ["--faults"]:
        print("\n".join(FAULTS))
        return
    count, fault = *words, *[None] * (2 - len(words))
    if fault is not None and fault not in FAULTS:
        raise SystemExit(f"no fault is named {fault}")
    note(play(int(count), fault))


if __name__ == "__main__":
    main(sys.argv[1:])
