"""What the generator draws, as docs/MACHINE.md has it: lists are run, and each lit stroke is kept with the items that led to it.

Places are whole numbers in units of 1/1024 of a screen place.
"""

from typing import NamedTuple, Optional

FINE = 1024
RETURN_PLACES = 4
MOST_ENTRIES = 4096     # of a certificate: a chain of more tail jumps has none
NAMES = (*["VCTR"] * 10, "LABS", "HALT", "JSRL", "RTSL", "JMPL", "SVEC")
LABS, HALT, JSRL, RTSL, JMPL, SVEC = range(10, 16)


class Profile:
    """Keeps fractions of a place; a LABS has ten bits."""
    name = "profile"

    @staticmethod
    def distance(size, scale):
        return size << scale + 1 if scale <= 9 else size

    @staticmethod
    def coordinate(field):
        return None if field & 0xC00 else field * FINE


class Board:
    """Draws by whole places, rounded half up; a LABS has twelve bits, as two's complement."""
    name = "board"

    @staticmethod
    def distance(size, scale):
        return (size + (1 << 9 - scale >> 1) >> 9 - scale) * FINE if scale <= 9 else 0

    @staticmethod
    def coordinate(field):
        return ((field ^ 0x800) - 0x800) * FINE


class Memory(NamedTuple):
    frame: list         # words from 000 on
    rom: list           # words from `first` on
    first: int

    def word(self, address):
        """The word at an address, or None if no chip holds it."""
        if address < len(self.frame):
            return self.frame[address]
        return self.rom[address - self.first] if 0 <= address - self.first < len(self.rom) else None


class Entry(NamedTuple):
    """A shape, and the global scale at which it is called; None if that is unknown."""
    address: int
    scale: Optional[int]


class Step(NamedTuple):
    """An item, and the shape in which it is; None if it is a frame's."""
    shape: Optional[Entry]
    at: int


class Stroke(NamedTuple):
    start: tuple
    end: tuple
    intensity: int
    path: tuple         # the Steps that led to it: calls, tail jumps, and the draw itself
    places_set: int     # how many LABS came before it


class Item(NamedTuple):
    """An item of the list in which a run begins, and all that it lights, itself or by what it calls or jumps to."""
    at: int
    places_set: int
    strokes: list

    def before_labs(self):
        """What it lights before a LABS of a called shape: that is what the judge compares with the window."""
        return [stroke for stroke in self.strokes if stroke.places_set == self.places_set]


class Draw(NamedTuple):
    scale: int          # local
    x: int              # signed sizes
    y: int
    intensity: int


def signed(size, minus):
    return -size if minus else size


def draw_of(first, second):
    if first >> 12 == SVEC:
        code = (first >> 11 & 1) + 2 * (first >> 3 & 1)
        x, y = signed(256 * (first & 3), first & 4), signed(256 * (first >> 8 & 3), first & 0x400)
        return Draw(2 + code, x, y, first >> 4 & 15)
    return Draw(first >> 12, signed(second & 0x3FF, second & 0x400), signed(first & 0x3FF, first & 0x400), second >> 12)


class Stopped(Exception):
    """Why a run can't go on."""


class Run:
    """A run of a frame from word 000, the place and the scale of its beam unknown; or of a shape, from place 0, 0 on."""

    def __init__(self, machine, memory, shape=None):
        self.machine, self.memory, self.shape = machine, memory, shape
        self.pc, self.place, self.scale = (shape.address, (0, 0), shape.scale) if shape else (0, None, None)
        self.returns, self.path = [], ()
        self.words = self.places_set = self.unplaced = 0    # unplaced: lit draws at an unknown place
        self.items, self.end = [], None

    def go(self, most_words):
        """Runs it to its end, which `end` then tells."""
        try:
            while self.end is None:
                if self.words > most_words:
                    raise Stopped(f"more than {most_words} words")
                self.step()
        except Stopped as why:
            self.end = f"stops at {self.at:03X}: {why}"
        return self

    def fetch(self):
        word = self.memory.word(self.pc)
        if word is None:
            raise Stopped(f"no chip holds word {self.pc:03X}")
        self.pc += 1
        self.words += 1
        return word

    def step(self):
        self.at = self.pc
        first = self.fetch()
        opcode = first >> 12
        second = self.fetch() if opcode <= LABS else 0
        if not self.path:
            self.items.append(Item(self.at, self.places_set, []))
        actions = {LABS: self.set_place, HALT: self.halt, JSRL: self.call, RTSL: self.leave, JMPL: self.jump}
        actions.get(opcode, self.draw)(first, second)

    def step_here(self):
        return Step(self.shape, self.at)

    def draw(self, first, second):
        draw = draw_of(first, second)
        if self.scale is None:
            self.place = None
        if self.place is None:
            self.unplaced += draw.intensity != 0
            return
        scale = (draw.scale + self.scale) % 16
        across, up = (signed(self.machine.distance(abs(size), scale), size < 0) for size in (draw.x, draw.y))
        start, self.place = self.place, (self.place[0] + across, self.place[1] + up)
        if draw.intensity:
            path = (*self.path, self.step_here())
            self.items[-1].strokes.append(Stroke(start, self.place, draw.intensity, path, self.places_set))

    def set_place(self, first, second):
        x, y = (self.machine.coordinate(word & 0xFFF) for word in (second, first))
        if x is None or y is None:
            raise Stopped("an odd LABS")
        self.place, self.scale = (x, y), second >> 12
        self.places_set += 1

    def halt(self, _first, _second):
        self.end = "HALT" if self.shape is None else f"stops at {self.at:03X}: HALT in a shape"

    def call(self, first, _second):
        if len(self.returns) == RETURN_PLACES:
            raise Stopped("a fifth return place")
        self.returns.append((self.pc, self.shape, self.path))
        self.go_to(first & 0xFFF)

    def leave(self, _first, _second):
        if self.returns:
            self.pc, self.shape, self.path = self.returns.pop()
        elif self.shape is None:
            raise Stopped("no return place")
        else:
            self.end = "RTSL"

    def jump(self, first, _second):
        if self.shape is None:
            self.pc = first & 0xFFF
        else:
            self.go_to(first & 0xFFF)

    def go_to(self, address):
        """Goes to a shape, by a call or a tail jump."""
        if len(self.path) > MOST_ENTRIES:
            raise Stopped(f"more than {MOST_ENTRIES} jumps")
        self.path = (*self.path, self.step_here())
        self.pc, self.shape = address, Entry(address, self.scale)
