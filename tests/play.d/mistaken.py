"""Plays a game whose author makes mistakes, over a ROM of its own, and notes what frames --remarks has to say of it:
mistaken.py COUNT FOLDER

The folder gets the files `rom`, `labels`, and `play`, a record of 2048 bytes for each frame; `remarks`, with a line for each remark of each
frame, as the program writes it with the labels, and `remarks-plain`, without them: the name of the frame is the record's number. Nothing is
looked for in the words that are written. Each shape says of itself what is wrong with it, and each part of a list what it does wrong.
"""

import os
import struct
import sys
from collections import Counter
from dataclasses import dataclass, field

from parts import DOT, HALT, Chance, Memory, Thing, call, dark_move, draw, labs

SEED = 64
KINDS = ("runs-on", "beside-label", "scale-over-9", "nothing-lit", "no-jump", "idle-labs")
RTSL, ROM, ROM_WORDS = 0xD000, 0x800, 1024
LISTS = {"LIST": 0x001, "OTHER_LIST": 0x201}
OTHER_LIST = 0x200         # where a second list may stand to which no jump leads
LARGEST, PARTS, MOST_MISTAKES = 2, 9, 3


# ---- the ROM

@dataclass
class Shape:
    name: str
    words: list
    is_dark: bool = False       # it moves more than once, and lights nothing
    has_label: bool = True
    is_beside: bool = False     # it has no label, and the shape before it runs on into it
    runs_into: str = ""
    calls: tuple = ()
    over: dict = field(default_factory=dict)    # the word of the first lit draw over 9, by the scale at which the shape is called
    idle: int = -1              # the word of a LABS right before another one
    lost: int = -1              # the word of a LABS with nothing but dark draws up to the next one
    at: int = 0


def svec(x, y, intensity):
    """An SVEC of scale code 1: units of 4 places at global scale 0."""
    return [0xF800 | abs(y) << 8 | (0x400 if y < 0 else 0) | intensity << 4 | abs(x) | (4 if x < 0 else 0)]


def quarters(x, y, intensity):
    """A VCTR of local scale 7: quarters of a place at global scale 0."""
    first, second = draw(x, y, intensity)
    return [first & 0xFFF | 0x7000, second]


def over(word):
    """A first lit draw at local scale 7 is over 9 at the scales of 3 to 8."""
    return dict.fromkeys(range(3, 9), word)


SHAPES = (
    Shape("SHIP", [*quarters(0, 40, 0), *quarters(-20, -80, 12), *quarters(40, 0, 12), *quarters(-20, 80, 12), *quarters(0, -40, 0), RTSL],
          over=over(2)),
    Shape("ROCK", [*svec(-1, 2, 0), *svec(3, 0, 7), *svec(0, -3, 7), *svec(-3, 0, 7), *svec(0, 3, 7), *svec(1, -2, 0), RTSL]),
    # its RTSL is forgotten, and behind it stands the wing
    Shape("NOSE", [*svec(1, 1, 9), *quarters(8, 0, 9)], runs_into="WING", over=over(1)),
    Shape("WING", [*quarters(8, -8, 0), *quarters(8, 8, 9), RTSL], over=over(2)),
    # its RTSL is forgotten, too, and what stands behind it has no label
    Shape("TAIL", [*quarters(0, -16, 0), *quarters(8, 0, 9)], runs_into="FLAME", over=over(2)),
    Shape("FLAME", [*svec(0, -1, 9), RTSL], has_label=False, is_beside=True),
    Shape("SPACE", [*svec(3, 0, 0), RTSL]),
    # it has no label, either, but what stands before it ends
    Shape("STAR", [*svec(0, 0, 9), *quarters(0, 0, 0), RTSL], has_label=False),
    Shape("GAP", [*svec(3, 0, 0), *svec(3, 0, 0), RTSL], is_dark=True),
    Shape("LETTER", [*svec(0, 3, 10), *svec(2, 0, 10), *svec(1, -3, 0), RTSL]),
    Shape("DIM", [*svec(0, 3, 0), *svec(2, 0, 0), *svec(1, -3, 0), RTSL], is_dark=True),
    Shape("TEXT", [], calls=("LETTER", "SPACE", "LETTER")),
    Shape("DIM_TEXT", [], calls=("LETTER", "DIM", "LETTER")),
    # these set their places and scales: the second draws at local scale 9, the third sets places for nothing
    Shape("GROUND", [*labs(0, 40, 0), *draw(1023, 0, 5), RTSL]),
    Shape("FENCE", [*labs(100, 50, 1), *draw(40, 0, 0), *DOT, *draw(4, 0, 5), RTSL], over=dict.fromkeys(range(16), 6)),
    Shape("GATE", [*svec(0, 0, 5), *labs(0, 0, 0), *labs(90, 50, 0), *svec(2, 0, 0), *labs(110, 50, 0), *svec(1, 1, 5), RTSL],
          idle=1, lost=3),
)
BY_NAME = {shape.name: shape for shape in SHAPES}
GOOD = ("SHIP", "ROCK", "WING", "STAR", "LETTER", "TEXT", "GROUND")


def assemble():
    """The bytes of the ROM. Each shape gets its address."""
    at = ROM
    for shape in SHAPES:
        shape.at = at
        at += len(shape.words) or len(shape.calls) + 1
    words = []
    for shape in SHAPES:
        words += shape.words or [*(0xC000 | BY_NAME[name].at for name in shape.calls), RTSL]
    return struct.pack(f"<{ROM_WORDS}H", *words, *[0] * (ROM_WORDS - len(words)))


def label_words():
    return {**LISTS, **{shape.name: shape.at for shape in SHAPES if shape.has_label}}


def labelled(at):
    """A word by the nearest label at it or before it."""
    before = [(word, name) for name, word in label_words().items() if word <= at and (word < ROM) == (at < ROM)]
    if not before:
        return ""
    word, name = max(before)
    return f" {name}+{at - word}" if at > word else f" {name}"


# ---- a list, and what is wrong with it

class List:
    def __init__(self, first):
        self.first, self.words = first, []
        self.told, self.reached = set(), set()      # remarks, each a word and a kind; words at which shapes begin
        # where the last LABS stands, and whether it is good for something
        self.labs, self.is_good = None, False
        self.scale, self.is_over = None, False

    def here(self):
        return self.first + len(self.words)

    def tell(self, kind, at):
        self.told.add((at, kind))

    def place(self, x, y, scale):
        """A LABS. What stands between it and the one before says whether that was good for something: a dot or a call."""
        if self.labs is not None and self.labs == self.here() - 2:
            self.tell("idle-labs", self.labs)
        elif self.labs is not None and not self.is_good:
            self.tell("nothing-lit", self.labs)
        self.labs, self.is_good, self.scale = self.here(), False, scale
        self.words += labs(x, y, scale)

    def dot(self):
        """A dot, at local scale 9."""
        self.words += DOT
        self.is_good = True

    def stroke(self, x):
        """A stroke at local scale 9."""
        if self.scale and not self.is_over:
            self.tell("scale-over-9", self.here())
            self.is_over = True
        self.words += draw(x, 0, 7)
        self.is_good = True

    def move(self, x):
        self.words += dark_move(x, 0)

    def call(self, name, skipped=0):
        self.words += call(BY_NAME[name].at + skipped)
        self.is_good = True
        self.reach(BY_NAME[name], skipped)

    def reach(self, shape, skipped=0):
        at = shape.at + skipped
        self.reached.add(at)
        if skipped or shape.is_beside:
            self.tell("beside-label", at)
        if shape.is_dark:
            self.tell("nothing-lit", at)
        if self.scale in shape.over:
            self.tell("scale-over-9", shape.at + shape.over[self.scale])
        if shape.idle >= 0:
            self.tell("idle-labs", shape.at + shape.idle)
        if shape.lost >= 0:
            self.tell("nothing-lit", shape.at + shape.lost)
        for name in shape.calls:
            self.reach(BY_NAME[name])

    def remarks(self, has_labels):
        told = {(at, kind) for at, kind in self.told if has_labels or kind != "beside-label"}
        for shape in SHAPES:
            into = BY_NAME.get(shape.runs_into)
            if shape.at in self.reached and into and (into.at in self.reached or has_labels and into.has_label):
                told.add((into.at, "runs-on"))
            if shape.at in self.reached and shape.at + 1 in self.reached:
                told.add((shape.at + 1, "runs-on"))
        return sorted(told, key=lambda remark: (remark[0], KINDS.index(remark[1])))


# ---- the game

class Choice(Chance):
    def choice(self, some):
        return some[self.below(len(some))]


class Game:
    def __init__(self):
        self.chance, self.memory, self.turn = Choice(SEED), Memory(), 0
        self.things = [self.some_thing() for _ in range(PARTS)]

    def some_thing(self):
        between = self.chance.between
        return Thing(between(0, 1023), between(0, 1023), between(-9, 9), between(-9, 9),
                     size=between(0, LARGEST), shape=self.chance.below(len(GOOD)))

    def step(self):
        self.turn += 1
        for number, thing in enumerate(self.things):
            thing.drift()
            thing.wrap()
            if self.chance.one_in(40):
                self.things[number] = self.some_thing()

    # parts of a list, each for a thing

    def good(self, shown, thing):
        """The thing in its place; or a dot, to which a dark move may lead; or more than one thing, with dark moves between."""
        if self.chance.one_in(4):
            shown.place(thing.x, thing.y, 0)
            if self.chance.one_in(2):
                shown.move(24)
            shown.dot()
            return
        shown.place(thing.x, thing.y, thing.size)
        shown.call(GOOD[thing.shape])
        if self.chance.one_in(5):
            shown.move(24)
            shown.call("SPACE")
            shown.call("ROCK")

    def shape_without_return(self, shown, thing):
        """Alone, or with the shape into which it runs on."""
        name, behind = self.chance.choice((("NOSE", "WING"), ("TAIL", "FLAME")))
        shown.place(thing.x, thing.y, thing.size)
        shown.call(name)
        if self.chance.one_in(2):
            shown.place(thing.x, thing.y, self.chance.between(0, LARGEST))
            shown.call(behind)

    def two_scales_more(self, shown, thing):
        shown.place(thing.x, thing.y, thing.size + 2)
        shown.call(self.chance.choice(("SHIP", "NOSE", "WING", "TAIL", "TEXT")))

    def call_of_second_word(self, shown, thing):
        shown.place(thing.x, thing.y, thing.size)
        shown.call("ROCK", 1)

    def gap_for_space(self, shown, thing):
        shown.place(thing.x, thing.y, thing.size)
        for name in ("LETTER", "GAP", "LETTER"):
            shown.call(name)

    def letter_without_intensity(self, shown, thing):
        shown.place(thing.x, thing.y, thing.size)
        shown.call("DIM_TEXT")

    def shot_without_dot(self, shown, thing):
        shown.place(thing.x, thing.y, 0)
        shown.move(24)

    def text_without_letters(self, shown, thing):
        """A text of a space is no mistake."""
        shown.place(thing.x, thing.y, thing.size)
        shown.call(self.chance.choice(("SPACE", "GAP")))

    def place_set_twice(self, shown, thing):
        shown.place(thing.x, thing.y, thing.size)
        self.good(shown, thing)

    def shot_at_some_scale(self, shown, thing):
        """A dark move and a dot at that scale are no mistake, a stroke is one if the scale isn't 0."""
        shown.place(thing.x, thing.y, self.chance.between(0, LARGEST))
        shown.move(24)
        shown.dot()
        if self.chance.one_in(2):
            shown.stroke(24)

    def shape_with_its_own_place(self, shown, thing):
        shown.place(thing.x, thing.y, thing.size)
        shown.call(self.chance.choice(("FENCE", "GATE")))

    MISTAKES = (shape_without_return, two_scales_more, call_of_second_word, gap_for_space, letter_without_intensity, shot_without_dot,
                text_without_letters, place_set_twice, shot_at_some_scale, shape_with_its_own_place)

    def written(self, first):
        """A list. The last LABS may have nothing lit behind it."""
        shown = List(first)
        wrong = {self.chance.below(PARTS) for _ in range(self.chance.below(MOST_MISTAKES + 1))}
        for number, thing in enumerate(self.things):
            if number in wrong:
                self.chance.choice(self.MISTAKES)(self, shown, thing)
            else:
                self.good(shown, thing)
        if self.chance.one_in(3):
            shown.place(512, 512, 1)
            shown.move(24)
        shown.words.append(HALT)
        return shown

    def frame(self):
        """Vector RAM, and the list that is shown. Word 000 may be no jump, and another list may stand right behind the first, or at 200."""
        if not self.chance.one_in(6):
            shown = self.written(list(LISTS.values())[self.turn % 2])
            return self.memory.show(shown.first, shown.words), shown
        shown, behind = self.written(0), self.written(0)
        words, at = [0] * 1024, self.chance.choice((len(shown.words), OTHER_LIST, None))
        words[:len(shown.words)] = shown.words
        if at is not None:
            shown.tell("no-jump", at)
            words[at:at + len(behind.words)] = behind.words
        return struct.pack("<1024H", *words), shown


def spelled(number, remarks, has_labels):
    return "".join(f"#{number}: remark {kind} {at:03X}{labelled(at) if has_labels else ''}\n" for at, kind in remarks)


def counted(remarks):
    counts = Counter(kind for some in remarks for _, kind in some)
    return " ".join(f"remark-{kind}={counts[kind]}" for kind in KINDS) + "\n"


def write_remarks(folder, name, lists, has_labels):
    """The remarks, and behind them the line of their counts."""
    remarks = [shown.remarks(has_labels) for shown in lists]
    with open(os.path.join(folder, name), "w", encoding="ascii") as file:
        file.writelines(spelled(number, some, has_labels) for number, some in enumerate(remarks, 1))
        file.write(counted(remarks))


def main(count, folder):
    with open(os.path.join(folder, "rom"), "wb") as file:
        file.write(assemble())
    with open(os.path.join(folder, "labels"), "w", encoding="ascii") as file:
        file.writelines(f"al {0x4000 + 2 * word:06X} .{name}\n" for name, word in label_words().items())
    game, lists = Game(), []
    with open(os.path.join(folder, "play"), "wb") as file:
        for _ in range(count):
            game.step()
            frame, shown = game.frame()
            file.write(frame)
            lists.append(shown)
    write_remarks(folder, "remarks", lists, True)
    write_remarks(folder, "remarks-plain", lists, False)


if __name__ == "__main__":
    main(int(sys.argv[1]), sys.argv[2])
