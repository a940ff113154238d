"""The picture of a frame: its screen, text under it, and beside that an inset where the fault is too small to see."""

from html import escape
from typing import NamedTuple

from answers import Refused
from drawing import drawing, groups, outline, sheet
from geometry import SCREEN, around, box_around, common, ends, nearest, past, wider
from inputs import Box
from labels import item_text
from machine import FINE, Memory, Run
from texts import fitted, room, text, wrapped

EDGE = 32 * FINE            # what is shown around the screen, and at most
FAR = 1024 * FINE           # so much more, if something is lit there
MARGIN = EDGE // FINE
USUAL = 1024 + 2 * MARGIN   # the width of a picture with nothing far away; in one so many times wider strokes and text are larger
SIZE, LINE, SMALLER = 28, 40, 21    # of the text, and of that below an inset
ABOVE, BELOW = 8, 24        # what is left above the text, and below it
SMALL = 8 * FINE            # what is past an edge by less has an inset
INSET, TIMES = 240, 12      # its side; and what it shows, in units of what is past the edge
SPOT = 12 * FINE            # the least that the mark of its place is to each side
MOST_NAMED = 4              # of the other items that light outside


class Frame(NamedTuple):
    run: Run
    memory: Memory
    window: Box
    refused: Refused
    labels: list
    clip: bool

    def text_of(self, at):
        return item_text(self.labels, at, self.memory.word(at))


def item_lines(frame, item, near):
    """What an item lights, as a group: a browser shows its text where the mouse is."""
    paths = list(groups(item.strokes, frame.refused.is_about, frame.clip, near))
    return [f"<g><title>{escape(frame.text_of(item.at))}</title>", *paths, "</g>"] if paths else []


def refused_box(frame, item):
    """The least box of what a refused call lights before a LABS, which is what the judge compares with the window."""
    return box_around(ends(stroke for stroke in item.before_labs() if frame.refused.is_about(stroke) and len(stroke.path) > 1))


def drawn(frame, near=None):
    """The edges of the screen and of the window, all that is lit, and the boxes of what is refused."""
    content = [*outline("screen", SCREEN, near), *outline("window", frame.window, near)]
    for item in frame.run.items:
        content += item_lines(frame, item, near)
    for item in frame.run.items:
        content += outline("refused box", refused_box(frame, item), near)
    return content


def frame_view(items):
    """The screen, with all that is lit as far as one screen away, and an edge around it."""
    box = around([SCREEN, box_around(ends(stroke for item in items for stroke in item.strokes)) or SCREEN])
    return wider(common(box, wider(SCREEN, FAR)), EDGE)


# ---- the inset

def inset_view(frame):
    """A square around where the item of the answer is past the edge, if it is so little that one couldn't see it."""
    strokes = [stroke for item in frame.run.items for stroke in item.strokes if frame.refused.first.is_about(stroke)]
    furthest = max(ends(strokes), key=lambda end: past(end, frame.window), default=(0, 0))
    by = past(furthest, frame.window)
    if not 0 < by < SMALL:
        return None
    across, up = nearest(furthest, frame.window)
    return wider(Box(across, across, up, up), by * TIMES // 2)


def mark(view):
    """Where the inset's view is in the picture: as large as it, but not too small to see."""
    return wider(view, max(SPOT - (view.right - view.left) // 2, 0))


def spelled(fine):
    """So many places, as accounts have it: `12`, or `12+12/1024`."""
    whole, rest = divmod(fine, FINE)
    return "+".join(([str(whole)] if whole else []) + ([f"{rest}/{FINE}"] if rest else []))


def inset(frame, view, x, y):
    """What is in this view, enlarged, with its size below. What is far from the view is left out, as it would be too large to draw."""
    side, square = view.right - view.left, f'x="{x}" y="{y}" width="{INSET}" height="{INSET}"'
    yield from drawing(view, f'class="inset" {square}', f"{side / FINE / 100:.7f}", drawn(frame, wider(view, side)))
    yield f'<rect class="spot" {square} stroke-width="2.5"/>'
    yield fitted(x, y + INSET + SIZE, SMALLER, f"{spelled(side)} places across", INSET)


# ---- the text

def texts(frame, why):
    """Which item the answer is about, why it is refused, and which other items light outside."""
    refused = frame.refused
    if refused.first.at is not None:
        yield f"item: {frame.text_of(refused.first.at)}"
    if why:
        yield f"why: {why}"
    if refused.others:
        more = len(refused.others) - MOST_NAMED
        named = "; ".join(frame.text_of(at) for at in refused.others[:MOST_NAMED])
        yield f"outside, too: {named}" + (f"; and {more} more" if more > 0 else "")
    if frame.run.end != "HALT":
        yield frame.run.end
    if frame.run.unplaced:
        yield f"lit draws at an unknown place, which are not drawn: {frame.run.unplaced}"


def lines_at(y, parts, width):
    """These texts from a place on downwards, each in as many lines as it takes."""
    told = [line for part in parts for line in wrapped(part, room(width, SIZE))]
    return [text(MARGIN, y + LINE * index, SIZE, line) for index, line in enumerate(told)]


def caption(frame, title, why, width):
    """What stands under the picture, and how high it is: the title, and below it the texts, with the inset beside them."""
    close, room_for_text = inset_view(frame), width - 2 * MARGIN
    content = lines_at(ABOVE, [title], room_for_text)
    under = ABOVE + LINE * len(content)
    below = lines_at(under, texts(frame, why), room_for_text - (INSET + MARGIN if close else 0))
    last = under + LINE * (len(below) - 1)
    if close:
        below += inset(frame, close, width - MARGIN - INSET, under - SIZE)
        last = max(last, under + INSET)
    return content + below, last + BELOW


def frame_picture(frame, title, why):
    view, close = frame_view(frame.run.items), inset_view(frame)
    width, height = (view.right - view.left) // FINE, (view.top - view.bottom) // FINE
    times = max(round(width / USUAL), 1)
    content = drawn(frame) + (outline("spot", mark(close)) if close else [])
    below, more = caption(frame, title, why, width // times)
    return sheet(width, height + more * times, title, [
        *drawing(view, f'width="{width}" height="{height}"', 2.5 * times, content),
        f'<g transform="translate(0 {height}) scale({times})">', *below, "</g>"])
