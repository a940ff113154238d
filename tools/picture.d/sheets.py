"""The contact sheet of a certificate: what each entry claims, and what its shape lights."""

from typing import NamedTuple, Union

from answers import FrameItem, Nothing, ShapeItem
from drawing import drawing, groups, places, rectangle, sheet
from geometry import SCREEN, around, box_around, ends, leave
from inputs import Box
from machine import FINE
from texts import fitted, room, text, wrapped

SPOT = Box(0, 0, 0, 0)
COLUMNS, CELL = 6, 200      # cells of a contact sheet
NAME, TEXT = 24, 18         # a cell's name above its drawing, and each of two lines below: its box, and its label
SIZE, LINE = 20, 28         # of the text under all cells


def square(box):
    """A square view around a box, a tenth wider."""
    side = max(box.right - box.left, box.top - box.bottom, 8 * FINE) * 6 // 5
    left, bottom = (box.left + box.right - side) // 2, (box.bottom + box.top - side) // 2
    return Box(left, left + side, bottom, bottom + side)


def size_of(box):
    return f"{places(box.right - box.left)} x {places(box.top - box.bottom)}"


def plain_cell(name, below):
    """The name above and a line below, and under that the label."""
    labelled = [fitted(8, NAME + CELL + TEXT, 14, name.label, CELL - 16)] if name.label else []
    return [text(8, NAME - 6, 16, name.entry), fitted(8, NAME + CELL, 12, below, CELL - 16), *labelled]


def cell(name, view, content, below):
    """A drawing with its name above, and lines below."""
    name_line, *lines_below = plain_cell(name, below)
    frame = f'x="8" y="{NAME}" width="{CELL - 16}" height="{CELL - 16}"'
    return [name_line, *drawing(view, frame, places((view.right - view.left) // 80), content), *lines_below]


def origin(arm):
    """A cross where the beam is at the call."""
    return f'<path class="origin" d="M{places(-arm)} 0L{places(arm)} 0M0 {places(-arm)}L0 {places(arm)}"/>'


class CellName(NamedTuple):
    entry: str
    label: str              # empty where there is none


class Sheet(NamedTuple):
    """What the cells have in common."""
    window: Box
    refused: Union[Nothing, FrameItem, ShapeItem]   # what an answer is about
    judged: bool
    clip: bool

    def is_refused(self, box):
        """Which strokes are red where they may light this box: the item of the answer, and what leaves the box."""
        return lambda stroke: self.refused.is_about(stroke) or self.judged and leave([stroke], box)

    def relative_cell(self, name, claim, strokes):
        view = square(around([claim.box or SPOT, box_around([(0, 0), *ends(strokes)])]))
        claimed = [rectangle("box", claim.box)] if claim.box else []
        content = [origin((view.right - view.left) // 30), *claimed, *groups(strokes, self.is_refused(claim.box))]
        return cell(name, view, content, size_of(claim.box) if claim.box else "no box")

    def absolute_cell(self, name, strokes):
        view = square(around([SCREEN, box_around(ends(strokes))]))
        strokes = groups(strokes, self.is_refused(self.window), self.clip)
        return cell(name, view, [rectangle("screen", SCREEN), rectangle("window", self.window), *strokes], "on the screen")

    def cells_of(self, claim, label, run):
        """The cells of an entry with this label: what it lights relative to its call, and what it lights at absolute places."""
        name = CellName(f"{claim.entry.address:03X}/{'any' if claim.entry.scale is None else claim.entry.scale}", label)
        strokes = [stroke for item in run.items for stroke in item.strokes]
        relative = [stroke for stroke in strokes if not stroke.places_set]
        absolute = [stroke for stroke in strokes if stroke.places_set]
        if relative or claim.box:
            yield self.relative_cell(name, claim, relative)
        if absolute:
            yield self.absolute_cell(name, absolute)
        if run.end != "RTSL":
            yield plain_cell(name, run.end.split(":")[0])
        elif not (strokes or claim.box):
            yield plain_cell(name, "lights nothing")


def shapes_picture(cells, told):
    """The cells, and under them these lines, of which the first is the title."""
    rows = -(-len(cells) // COLUMNS)
    width, height = COLUMNS * CELL, CELL + NAME + 2 * TEXT
    content = []
    for index, lines_of_cell in enumerate(cells):
        content += [f'<g transform="translate({index % COLUMNS * CELL} {index // COLUMNS * height})">', *lines_of_cell, "</g>"]
    wrapped_lines = [line for part in told for line in wrapped(part, room(width - 16, SIZE))]
    content += [text(8, rows * height + NAME + LINE * index, SIZE, line) for index, line in enumerate(wrapped_lines)]
    return sheet(width, rows * height + NAME + LINE * len(wrapped_lines), told[0], content)
